//! Which rows are shown: `--from`, `--to`, `--only` and `--refused`.

use super::failure::Failure;
use super::place::shown;
use super::words::Given;
use swarmtempo::{Address, Piece, Place, Register, Transaction, ANSWER_LEN};

/// A place in a list.
#[derive(Clone, Copy, Debug, PartialEq, Eq)]
enum Mark {
    /// An item, counted from 1.
    Item(u64),
    /// A byte of the records.
    Offset(u64),
    /// A time, in VIA ticks.
    Ticks(u64),
}

/// What an item is about.
#[derive(Clone, Copy, Debug, PartialEq, Eq)]
pub enum Part {
    /// VIA registers 0 and 2, second ticks, resets and power cuts.
    Clock,
    /// The VIA's registers and inputs, resets and power cuts.
    Via,
    /// The disk lines and drives, resets and power cuts.
    Disk,
}

/// Which rows are shown.
#[derive(Clone, Copy, Debug, Default)]
pub struct Filter {
    from: Option<Mark>,
    to: Option<Mark>,
    only: Option<Part>,
    refused: bool,
}

impl Mark {
    fn of(command: &str, name: &str, given: &Given) -> Result<Option<Mark>, Failure> {
        let Some(word) = given.value(name) else {
            return Ok(None);
        };
        let text = word.to_str().unwrap_or("");
        let number = |digits: &str| {
            let plain = !digits.is_empty() && digits.bytes().all(|byte| byte.is_ascii_digit());
            plain.then(|| digits.parse().ok()).flatten()
        };
        let mark = if let Some(item) = text.strip_prefix("item:") {
            number(item).map(Mark::Item)
        } else if let Some(offset) = text.strip_prefix("offset:") {
            number(offset).map(Mark::Offset)
        } else {
            text.strip_suffix('t').and_then(number).map(Mark::Ticks)
        };
        mark.map(Some).ok_or_else(|| {
            let what = format!(
                "{name} needs item:N, offset:N (bytes) or a number of VIA ticks as 12000t, not `{}`",
                shown(&word)
            );
            Failure::usage(command, &what)
        })
    }

    /// Its number, and that of a place in the same unit.
    fn beside(self, at: &Place) -> (u64, u64) {
        match self {
            Mark::Item(item) => (item, at.item),
            Mark::Offset(offset) => (offset, at.offset),
            Mark::Ticks(ticks) => (ticks, at.via_ticks),
        }
    }
}

impl Filter {
    /// By the words of a command.
    pub fn of(command: &str, given: &Given) -> Result<Filter, Failure> {
        let filter = Filter {
            from: Mark::of(command, "--from", given)?,
            to: Mark::of(command, "--to", given)?,
            only: Part::of(command, given)?,
            refused: given.flag("--refused"),
        };
        let crossed = match (filter.from, filter.to) {
            (Some(Mark::Item(from)), Some(Mark::Item(to)))
            | (Some(Mark::Offset(from)), Some(Mark::Offset(to)))
            | (Some(Mark::Ticks(from)), Some(Mark::Ticks(to))) => from > to,
            _ => false,
        };
        if crossed {
            return Err(Failure::usage(command, "--from is after --to"));
        }
        Ok(filter)
    }

    /// True where something is left out.
    pub fn some(&self) -> bool {
        self.from.is_some() || self.to.is_some() || self.only.is_some() || self.refused
    }

    /// Whether something that lasts from one place to another is at least in part within the range.
    pub fn within(&self, start: &Place, end: &Place) -> bool {
        let after = self.from.is_none_or(|from| {
            let (from, end) = from.beside(end);
            end >= from
        });
        after
            && self.to.is_none_or(|to| {
                let (to, start) = to.beside(start);
                start <= to
            })
    }

    /// Whether a record is shown.
    pub fn record(&self, at: &Place, piece: Piece<'_>, answer: [u8; ANSWER_LEN]) -> bool {
        (!self.refused || answer[2..4] != *b"OK")
            && self.within(at, at)
            && self.only.is_none_or(|part| part.has(piece.as_ref()))
    }

    /// Whether a transaction is shown. One that is open at the end lasts on.
    pub fn transaction(&self, it: &Transaction) -> bool {
        let last = Place { item: u64::MAX, offset: u64::MAX, line: None, via_ticks: u64::MAX };
        (!self.refused || it.refused > 0)
            && self.within(&it.start, it.end.as_ref().unwrap_or(&last))
    }
}

impl Part {
    fn of(command: &str, given: &Given) -> Result<Option<Part>, Failure> {
        let Some(word) = given.value("--only") else {
            return Ok(None);
        };
        let part = match word.to_str() {
            Some("clock") => Part::Clock,
            Some("via" | "disk") if command == "decode" => {
                let what = "decode shows clock transactions alone; run --only shows other items";
                return Err(Failure::usage(command, what));
            }
            Some("via") => Part::Via,
            Some("disk") => Part::Disk,
            _ => return Err(Failure::usage(command, "--only needs clock, via or disk")),
        };
        Ok(Some(part))
    }

    /// Whether a record is about it, by its kind and address.
    pub fn has(self, record: &[u8]) -> bool {
        let Some(kind) = record.get(2..4) else {
            return false;
        };
        match kind {
            b"RS" | b"PW" => true,
            b"SE" => self != Part::Disk,
            b"VB" | b"IN" | b"KC" => self == Part::Via,
            b"SN" | b"DI" => self == Part::Disk,
            b"RD" | b"WR" | b"MW" => self.reaches(record.get(6..10).unwrap_or(&[])),
            _ => false,
        }
    }

    fn reaches(self, address: &[u8]) -> bool {
        let number = address.first_chunk::<4>().map(|&bytes| u32::from_le_bytes(bytes));
        match number.map(Address::try_from) {
            Some(Ok(Address::Via(register))) => match self {
                Part::Clock => matches!(register, Register::ORB | Register::DDRB),
                Part::Via => true,
                Part::Disk => false,
            },
            Some(Ok(_)) => self == Part::Disk,
            _ => false,
        }
    }
}
