//! The clock's wires as a logic analyser saw them, turned into items of the clock's port.
//!
//! Each change of the wires becomes a write to port B's output, at its own time: times are counted in
//! VIA ticks from the first sample, each rounded to the nearest one, so that what is rounded does not
//! add up. A wait longer than 65,535 VIA ticks is cut by writes that change nothing.
//!
//! ```
//! use swarmtempo::{Chip, Femtoseconds, WireImport, Wires};
//!
//! let mut import = WireImport::new(Chip::First);
//! let mut lines = Vec::new();
//! for (nanoseconds, enable) in [(0, true), (12_770, false)] {
//!     let tick = Femtoseconds(nanoseconds * 1_000_000).nearest_tick().expect("not too late");
//!     let wires = Wires { enable, data_clock: true, data: false };
//!     import.sample(tick, wires, |timed, _| lines.push(timed.to_string()))?;
//! }
//! assert_eq!(lines, ["0t WR VIA.ORB $06", "0t WR VIA.DDRB $07", "10t WR VIA.ORB $02"]);
//! # Ok::<(), swarmtempo::GapTooLong>(())
//! ```

use crate::{Address, Chip, Command, Item, Register, Timed, WaitTicks, Wires, TICKS_PER_SECOND};
use std::fmt;

/// Femtoseconds in a second.
const PER_SECOND: i128 = 1_000_000_000_000_000;
/// The longest time without a change, in VIA ticks: a day.
const GAP_MOST: u64 = 86_400 * TICKS_PER_SECOND as u64;
/// Directions of port B while the three wires are driven.
const ALL_OUT: u8 = 0x07;
/// The same while the data line is let go.
const DATA_IN: u8 = 0x06;

/// A time in femtoseconds: the unit in which no analyser's times need be cut.
#[derive(Clone, Copy, Debug, Default, PartialEq, Eq, PartialOrd, Ord, Hash)]
pub struct Femtoseconds(pub i128);

impl Femtoseconds {
    /// Those of a second.
    pub const SECOND: Femtoseconds = Femtoseconds(PER_SECOND);

    /// In VIA ticks, rounded to the nearest one, and up from the middle of two. None below 0, and none
    /// above what 64 bits hold.
    pub fn nearest_tick(self) -> Option<u64> {
        let twice = self.0.checked_mul(2 * i128::from(TICKS_PER_SECOND))?;
        let nearest = twice.checked_add(PER_SECOND)?.div_euclid(2 * PER_SECOND);
        (self.0 >= 0).then(|| u64::try_from(nearest).ok())?
    }
}

/// What the wires tell of a transaction, at one of their changes.
#[derive(Clone, Copy, Debug, PartialEq, Eq, Hash)]
pub enum WireEvent {
    /// Enable went down.
    Began,
    /// The first byte of a command of two, on the later chip.
    FirstOfTwo(u8),
    /// A whole legal command.
    Asked(Command),
    /// A byte, or two, that the chip ignores.
    Ignored(u8, Option<u8>),
    /// The whole byte of a write. Whether protect kept it out is not on the wires.
    Written(Command, u8),
    /// The whole byte that the chip sent.
    Sent(Command, u8),
    /// Enable went up while the chip sent: bits of its byte that were taken.
    SentInPart(Command, u8),
    /// Enable went up before a command, or the byte of a write, was whole: bits of the byte under way.
    HalfSent(u8),
    /// Enable went up, and nothing was under way.
    Ended,
}

impl fmt::Display for WireEvent {
    fn fmt(&self, f: &mut fmt::Formatter<'_>) -> fmt::Result {
        match self {
            WireEvent::Began => f.write_str("enable down"),
            WireEvent::FirstOfTwo(first) => write!(f, "${first:02X}: first of two bytes"),
            WireEvent::Asked(command) => write!(f, "{command}"),
            WireEvent::Ignored(first, None) => write!(f, "${first:02X}: ignored"),
            WireEvent::Ignored(first, Some(second)) => {
                write!(f, "${first:02X} ${second:02X}: ignored")
            }
            WireEvent::Written(command, byte) => write!(f, "{command} = ${byte:02X}"),
            WireEvent::Sent(command, byte) => write!(f, "{command}: the chip sent ${byte:02X}"),
            WireEvent::SentInPart(command, bits) => {
                write!(f, "{command}: {bits} of 8 bits taken")
            }
            WireEvent::HalfSent(bits) => {
                write!(f, "enable up: half sent, {bits} of 8 bits of a byte")
            }
            WireEvent::Ended => f.write_str("enable up"),
        }
    }
}

/// Where a transaction is.
#[derive(Clone, Copy, Debug, PartialEq, Eq)]
enum Stage {
    Idle,
    First,
    Second(u8),
    Data(Command),
    Sending(Command),
    Ignoring,
}

/// Follows transactions by the wires alone.
#[derive(Clone, Debug)]
struct Follower {
    chip: Chip,
    stage: Stage,
    /// Bits of the byte under way, and their value.
    bits: u8,
    value: u8,
    /// A bit that the chip sends is on the line.
    shown: bool,
}

impl Follower {
    fn follow(&mut self, before: Wires, after: Wires) -> Option<WireEvent> {
        if after.enable {
            let event = (!before.enable).then(|| self.end(before.data));
            self.turn(Stage::Idle);
            return event;
        }
        if before.enable {
            self.turn(Stage::First);
            return Some(WireEvent::Began);
        }
        match (before.data_clock, after.data_clock, self.stage) {
            (false, true, Stage::Sending(command)) => self.sent(command, before.data),
            (false, true, _) => self.rise(after.data),
            (true, false, Stage::Sending(command)) => {
                let event = self.sent(command, before.data);
                self.shown = true;
                event
            }
            _ => None,
        }
    }

    fn turn(&mut self, stage: Stage) {
        (self.stage, self.bits, self.value, self.shown) = (stage, 0, 0, false);
    }

    fn take(&mut self, bit: bool) -> Option<u8> {
        self.value = self.value << 1 | u8::from(bit);
        self.bits += 1;
        (self.bits == 8).then_some(self.value)
    }

    fn rise(&mut self, bit: bool) -> Option<WireEvent> {
        if matches!(self.stage, Stage::Idle | Stage::Ignoring) {
            return None;
        }
        let byte = self.take(bit)?;
        let (stage, event) = match self.stage {
            Stage::Data(command) => (Stage::Ignoring, WireEvent::Written(command, byte)),
            Stage::Second(first) => match Command::of_two(first, byte) {
                Some(command) => asked(command),
                None => (Stage::Ignoring, WireEvent::Ignored(first, Some(byte))),
            },
            _ => match Command::of(byte) {
                Some(command) => asked(command),
                None if self.chip == Chip::Later && Command::is_first_of_two(byte) => {
                    (Stage::Second(byte), WireEvent::FirstOfTwo(byte))
                }
                None => (Stage::Ignoring, WireEvent::Ignored(byte, None)),
            },
        };
        self.turn(stage);
        Some(event)
    }

    /// A bit that stood on the line until now, where one did.
    fn sent(&mut self, command: Command, bit: bool) -> Option<WireEvent> {
        if !std::mem::take(&mut self.shown) {
            return None;
        }
        let byte = self.take(bit)?;
        self.turn(Stage::Ignoring);
        Some(WireEvent::Sent(command, byte))
    }

    fn end(&mut self, bit: bool) -> WireEvent {
        match self.stage {
            Stage::Sending(command) => {
                self.sent(command, bit).unwrap_or(WireEvent::SentInPart(command, self.bits))
            }
            Stage::First | Stage::Second(_) | Stage::Data(_) => WireEvent::HalfSent(self.bits),
            Stage::Idle | Stage::Ignoring => WireEvent::Ended,
        }
    }
}

fn asked(command: Command) -> (Stage, WireEvent) {
    let stage = if command.read { Stage::Sending(command) } else { Stage::Data(command) };
    (stage, WireEvent::Asked(command))
}

/// More than a day without a change.
#[derive(Clone, Copy, Debug, PartialEq, Eq)]
pub struct GapTooLong;

impl fmt::Display for GapTooLong {
    fn fmt(&self, f: &mut fmt::Formatter<'_>) -> fmt::Result {
        f.write_str("more than 86,400 seconds (a day) pass without a change: cut the file there")
    }
}

impl std::error::Error for GapTooLong {}

/// Turns samples of the wires into items.
#[derive(Clone, Debug)]
#[allow(clippy::struct_excessive_bools, reason = "each is a wish or a fact of its own")]
pub struct WireImport {
    follower: Follower,
    driven: bool,
    goes_on: bool,
    /// VIA ticks of the next second tick, where they are wished.
    next_second: Option<u64>,
    /// The levels that the items so far show; none before the first sample.
    shown: Option<Wires>,
    /// Enable was low at the start, and is held high until it was seen high.
    held: bool,
    /// The data line is let go.
    let_go: bool,
    /// VIA ticks of the last item.
    tick: u64,
}

impl WireImport {
    /// Of a bench with this clock chip.
    pub fn new(chip: Chip) -> WireImport {
        WireImport {
            follower: Follower { chip, stage: Stage::Idle, bits: 0, value: 0, shown: false },
            driven: false,
            goes_on: false,
            next_second: None,
            shown: None,
            held: false,
            let_go: false,
            tick: 0,
        }
    }

    /// The data line is driven as it was seen while the chip sends too. Else it is let go then.
    #[must_use]
    pub fn driven(self, driven: bool) -> WireImport {
        WireImport { driven, ..self }
    }

    /// A second tick every 783,360 VIA ticks from the start.
    #[must_use]
    pub fn with_seconds(self, wanted: bool) -> WireImport {
        WireImport { next_second: wanted.then_some(u64::from(TICKS_PER_SECOND)), ..self }
    }

    /// The items go on from a state with the wires of the first sample, in which a transaction may be
    /// under way. Else the rest of such a transaction is left out.
    #[must_use]
    pub fn goes_on(self, goes_on: bool) -> WireImport {
        WireImport { goes_on, ..self }
    }

    /// True while the rest of a transaction is left out that began before the first sample.
    pub fn leaves_out(&self) -> bool {
        self.held
    }

    /// True while enable is low.
    pub fn under_way(&self) -> bool {
        self.shown.is_some_and(|wires| !wires.enable)
    }

    /// The wires from a VIA tick on, which is not before that of the last sample. Its items, and what
    /// the wires tell with one of them, are handed out.
    ///
    /// # Errors
    /// [`GapTooLong`]; then nothing is handed out.
    pub fn sample(
        &mut self,
        tick: u64,
        wires: Wires,
        mut out: impl FnMut(Timed, Option<WireEvent>),
    ) -> Result<(), GapTooLong> {
        let Some(shown) = self.shown else {
            self.start(tick, wires, out);
            return Ok(());
        };
        self.held &= !wires.enable;
        if self.held || wires == shown {
            return Ok(());
        }
        self.check(tick)?;
        let by_chip =
            self.let_go && (wires.enable, wires.data_clock) == (shown.enable, shown.data_clock);
        let event = self.follower.follow(shown, wires);
        if by_chip {
            self.shown = Some(wires);
            return Ok(());
        }
        self.seconds(tick, &mut out);
        self.shown = Some(wires);
        self.put(tick, self.levels(), event, &mut out);
        if matches!(event, Some(WireEvent::Asked(Command { read: true, .. }))) && !self.driven {
            self.let_go = true;
            self.put(tick, directions(DATA_IN), None, &mut out);
        } else if wires.enable && std::mem::take(&mut self.let_go) {
            self.put(tick, directions(ALL_OUT), None, &mut out);
        }
        Ok(())
    }

    /// The end of the samples, at a VIA tick: second ticks up to it.
    ///
    /// # Errors
    /// [`GapTooLong`]; then nothing is handed out.
    pub fn finish(
        &mut self,
        tick: u64,
        mut out: impl FnMut(Timed, Option<WireEvent>),
    ) -> Result<(), GapTooLong> {
        self.check(tick)?;
        self.seconds(tick, &mut out);
        Ok(())
    }

    fn check(&self, tick: u64) -> Result<(), GapTooLong> {
        if tick.saturating_sub(self.tick) > GAP_MOST {
            Err(GapTooLong)
        } else {
            Ok(())
        }
    }

    /// The first sample: output bits before directions, so that no wire of a state that has these
    /// levels moves.
    fn start(&mut self, tick: u64, wires: Wires, mut out: impl FnMut(Timed, Option<WireEvent>)) {
        self.tick = tick;
        self.next_second = self.next_second.map(|second| tick.saturating_add(second));
        self.held = !wires.enable && !self.goes_on;
        self.shown = Some(Wires { enable: wires.enable || self.held, ..wires });
        if !wires.enable && self.goes_on {
            // What was sent before is not known: nothing is told of this one.
            self.follower.turn(Stage::Ignoring);
        }
        self.put(tick, self.levels(), None, &mut out);
        self.put(tick, directions(ALL_OUT), None, &mut out);
    }

    /// The second ticks up to a VIA tick.
    fn seconds(&mut self, tick: u64, out: &mut impl FnMut(Timed, Option<WireEvent>)) {
        while let Some(second) = self.next_second.filter(|&second| second <= tick) {
            self.put(second, Item::Second, None, out);
            self.next_second = second.checked_add(u64::from(TICKS_PER_SECOND));
        }
    }

    /// A write of the levels shown.
    fn levels(&self) -> Item {
        let wires = self.shown.unwrap_or(Wires { enable: true, data_clock: true, data: true });
        let levels = [wires.enable, wires.data_clock, wires.data];
        let value = levels.into_iter().fold(0, |value, level| value << 1 | u8::from(level));
        Item::Write(Address::Via(Register::ORB), value)
    }

    /// An item at a VIA tick; a long wait before it in parts.
    fn put(
        &mut self,
        tick: u64,
        item: Item,
        event: Option<WireEvent>,
        out: &mut impl FnMut(Timed, Option<WireEvent>),
    ) {
        loop {
            let left = tick.saturating_sub(self.tick);
            let Ok(wait) = u16::try_from(left) else {
                self.tick += u64::from(u16::MAX);
                out(Timed { wait: WaitTicks(u16::MAX), item: self.still() }, None);
                continue;
            };
            self.tick += u64::from(wait);
            return out(Timed { wait: WaitTicks(wait), item }, event);
        }
    }

    /// A write that changes nothing: the directions as they are.
    fn still(&self) -> Item {
        directions(if self.let_go { DATA_IN } else { ALL_OUT })
    }
}

fn directions(value: u8) -> Item {
    Item::Write(Address::Via(Register::DDRB), value)
}
