//! What of a run can touch the clock chip.

use crate::{pieces, Address, Item, Machine, Register, Run, Seconds, Timed, WaitTicks, ANSWER_LEN};
use std::fmt;

/// An item that can touch the clock chip; an MW counts as its single writes. Two runs from one state that carry out the same of these, in
/// the same order, leave the same cells, seconds, protect, test and half-made command.
#[derive(Clone, Copy, Debug, PartialEq, Eq, Hash)]
pub enum Touch {
    /// A write to VIA register 0 ([`Register::ORB`]) or 2 ([`Register::DDRB`]): a WR, or a value of an MW.
    Write(Register, u8),
    /// A second tick.
    Second,
    /// A reset.
    Reset,
    /// A power cut, with the time off.
    Power(Seconds),
}

impl Touch {
    /// Those of an item: one or none, and of an MW one for each value or none.
    pub fn of(item: Item) -> impl Iterator<Item = Touch> {
        let timed = Timed { wait: WaitTicks(0), item };
        timed.singles().filter_map(|single| Touch::of_single(single.item))
    }

    /// That of an item which is no MW.
    fn of_single(item: Item) -> Option<Touch> {
        match item {
            Item::Write(Address::Via(register @ (Register::ORB | Register::DDRB)), value) => {
                Some(Touch::Write(register, value))
            }
            Item::Second => Some(Touch::Second),
            Item::Reset => Some(Touch::Reset),
            Item::Power(seconds) => Some(Touch::Power(seconds)),
            Item::Read(_)
            | Item::Write(..)
            | Item::WriteMany(..)
            | Item::Blank
            | Item::In(..)
            | Item::Sense(..)
            | Item::Disk { .. }
            | Item::Pulse(_) => None,
        }
    }
}

/// The item.
impl From<Touch> for Item {
    fn from(touch: Touch) -> Item {
        match touch {
            Touch::Write(register, value) => Item::Write(Address::Via(register), value),
            Touch::Second => Item::Second,
            Touch::Reset => Item::Reset,
            Touch::Power(seconds) => Item::Power(seconds),
        }
    }
}

impl fmt::Display for Touch {
    fn fmt(&self, f: &mut fmt::Formatter<'_>) -> fmt::Result {
        fmt::Display::fmt(&Item::from(*self), f)
    }
}

/// A touch, and where and when it was.
#[derive(Clone, Copy, Debug, PartialEq, Eq, Hash)]
pub struct Touched {
    /// Where its record begins in the list, in bytes.
    pub offset: u64,
    /// VIA ticks that all items carried out waited, until it acts.
    pub via_ticks: u64,
    /// What it is.
    pub touch: Touch,
}

/// A run of a list, part by part, that gives its touches.
///
/// ```
/// use swarmtempo::{Chip, List, Machine, Touch, Touches};
///
/// let list: List = "12t SE\n5t VB\n3t RS".parse()?;
/// let mut touches = Touches::new(Machine::fresh(Chip::First));
/// let mut seen = Vec::new();
/// touches.run(list.as_bytes(), |touched| seen.push(touched));
/// assert_eq!(seen.len(), 2);
/// assert_eq!((seen[1].offset, seen[1].via_ticks, seen[1].touch), (12, 20, Touch::Reset));
/// # Ok::<(), swarmtempo::text::TextError>(())
/// ```
#[derive(Clone, Debug)]
pub struct Touches {
    machine: Machine,
    offset: u64,
    via_ticks: u64,
    answers: Vec<u8>,
}

impl Touches {
    /// From a state.
    pub fn new(machine: Machine) -> Touches {
        Touches { machine, offset: 0, via_ticks: 0, answers: Vec::new() }
    }

    /// The machine as far as it has come.
    pub fn machine(&self) -> &Machine {
        &self.machine
    }

    /// Runs the next part of the list, which ends between two records unless it is the last. Items
    /// count that the run answers with OK.
    pub fn run(&mut self, part: &[u8], mut take: impl FnMut(Touched)) -> Run {
        self.answers.clear();
        let run = self.machine.run(part, &mut self.answers);
        for (piece, answer) in pieces(part).zip(self.answers.as_chunks::<ANSWER_LEN>().0) {
            let offset = self.offset;
            self.offset += piece.as_ref().len() as u64;
            let (true, Ok(Timed { wait, item })) = (&answer[2..4] == b"OK", piece.try_into())
            else {
                continue;
            };
            self.via_ticks += u64::from(wait.0);
            for touch in Touch::of(item) {
                take(Touched { offset, via_ticks: self.via_ticks, touch });
            }
        }
        run
    }
}
