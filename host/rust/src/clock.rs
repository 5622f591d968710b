//! Transactions with the clock chip, written by the library and run.

use crate::{sys, Item, List, Machine, Seconds};
use std::fmt;

/// Bytes of the longest transaction.
pub const TRANSACTION_MAX: usize = 663;

/// What can be asked of the clock chip in one transaction.
#[derive(Clone, Copy, Debug, PartialEq, Eq, Hash)]
pub enum Ask {
    /// A byte written to a cell.
    WriteCell(u8, u8),
    /// A cell read.
    ReadCell(u8),
    /// A byte written to a byte of the seconds, 0 (lowest) to 3.
    WriteSeconds(u8, u8),
    /// A byte of the seconds read.
    ReadSeconds(u8),
    /// The byte written to write-protect, of which bit 7 counts.
    WriteProtect(u8),
}

impl Ask {
    /// Its number, the number of the cell or seconds byte, and the byte to write: 0 where there is none.
    pub fn numbers(self) -> (u8, u32, u8) {
        match self {
            Ask::WriteCell(cell, byte) => (1, cell.into(), byte),
            Ask::ReadCell(cell) => (2, cell.into(), 0),
            Ask::WriteSeconds(place, byte) => (3, place.into(), byte),
            Ask::ReadSeconds(place) => (4, place.into(), 0),
            Ask::WriteProtect(byte) => (5, 0, byte),
        }
    }

    /// True where the answers hold a byte.
    pub fn reads(self) -> bool {
        matches!(self, Ask::ReadCell(_) | Ask::ReadSeconds(_))
    }
}

/// Why the clock was not asked. The machine is as before.
#[derive(Clone, Copy, Debug, PartialEq, Eq, Hash)]
#[non_exhaustive]
pub enum ClockError {
    /// The chip has no such cell, or no such byte of the seconds: refusal 5.
    Range,
    /// Enable is down, so a transaction is under way: refusal 10.
    Enable,
    /// Write-protect is set, so that the chip would not take the byte.
    Protected,
}

impl ClockError {
    /// The number of the refusal; none for [`ClockError::Protected`], which the library does not refuse.
    pub fn number(self) -> Option<u8> {
        match self {
            ClockError::Range => Some(5),
            ClockError::Enable => Some(10),
            ClockError::Protected => None,
        }
    }
}

impl fmt::Display for ClockError {
    fn fmt(&self, f: &mut fmt::Formatter<'_>) -> fmt::Result {
        f.pad(match self {
            ClockError::Range => "the clock chip has no such cell or seconds byte",
            ClockError::Enable => "the clock's enable line is down",
            ClockError::Protected => "write-protect is set",
        })
    }
}

impl std::error::Error for ClockError {}

/// The clock, with no word of its wires. Each writes a transaction (four for the seconds) and runs it at
/// once: no VIA tick passes, and nothing else of the state changes but bits 0 to 2 of port B's outputs and
/// directions, which are the clock's. On an error nothing changes at all.
///
/// ```
/// use swarmtempo::{Chip, ClockError, Machine, Seconds};
///
/// let mut machine = Machine::fresh(Chip::First);
/// machine.write_cell(3, 0xAA)?;
/// assert_eq!(machine.read_cell(3)?, 0xAA);
/// machine.set_seconds(Seconds(2_000_000_000))?;
/// machine.protect(true)?;
/// assert_eq!(machine.write_cell(3, 0x55), Err(ClockError::Protected));
/// assert_eq!(machine.seconds()?, Seconds(2_000_000_000));
/// # Ok::<(), ClockError>(())
/// ```
impl Machine {
    /// Writes a byte to a cell.
    ///
    /// # Errors
    /// [`ClockError::Range`], [`ClockError::Enable`], or [`ClockError::Protected`] where write-protect is
    /// set: then the chip would not take the byte, whatever the cell holds.
    pub fn write_cell(&mut self, cell: u8, byte: u8) -> Result<(), ClockError> {
        self.write(&[Ask::WriteCell(cell, byte)])
    }

    /// Reads a cell.
    ///
    /// # Errors
    /// [`ClockError::Range`] or [`ClockError::Enable`].
    pub fn read_cell(&mut self, cell: u8) -> Result<u8, ClockError> {
        self.ask(Ask::ReadCell(cell))
    }

    /// Reads the seconds. A program on a bench reads them twice, until both agree, since a tick may come
    /// between two of the four bytes. Here none can: the four reads are of one moment.
    ///
    /// # Errors
    /// [`ClockError::Enable`].
    pub fn seconds(&mut self) -> Result<Seconds, ClockError> {
        let mut bytes = [0; 4];
        for (place, byte) in (0..).zip(&mut bytes) {
            *byte = self.ask(Ask::ReadSeconds(place))?;
        }
        Ok(Seconds(u32::from_le_bytes(bytes)))
    }

    /// Writes the seconds, all four bytes.
    ///
    /// # Errors
    /// [`ClockError::Enable`], or [`ClockError::Protected`].
    pub fn set_seconds(&mut self, seconds: Seconds) -> Result<(), ClockError> {
        let [a, b, c, d] = seconds.0.to_le_bytes();
        let writes = [(0, a), (1, b), (2, c), (3, d)];
        self.write(&writes.map(|(place, byte)| Ask::WriteSeconds(place, byte)))
    }

    /// Sets or clears write-protect.
    ///
    /// # Errors
    /// [`ClockError::Enable`].
    pub fn protect(&mut self, on: bool) -> Result<(), ClockError> {
        self.ask(Ask::WriteProtect(if on { 0x80 } else { 0 })).map(drop)
    }

    /// The items of a transaction for this state, each wait 0 VIA ticks; they are not run. They are the
    /// same where write-protect is set, and have no effect then.
    ///
    /// # Errors
    /// [`ClockError::Range`] or [`ClockError::Enable`].
    ///
    /// # Panics
    /// Where the archive is of another version than this crate, and has longer transactions.
    pub fn transaction(&self, ask: Ask) -> Result<List, ClockError> {
        let (number, place, byte) = ask.numbers();
        let mut out = [0; TRANSACTION_MAX];
        let report = sys::transaction(self.image(), number, place, byte, &mut out);
        match report.refusal {
            0 => {}
            5 => return Err(ClockError::Range),
            10 => return Err(ClockError::Enable),
            other => panic!("libswarmtempo.a is of another version: refusal {other}"),
        }
        let written = usize::try_from(report.written).unwrap_or(usize::MAX);
        Ok(List::from(out.get(..written).expect("at most the longest")))
    }

    /// Writes and runs one transaction: the byte that it read, 0 where it writes.
    fn ask(&mut self, ask: Ask) -> Result<u8, ClockError> {
        let list = self.transaction(ask)?;
        let mut byte = 0;
        for exchange in &self.run_items(&list) {
            let seen = exchange.answer.result().expect("an item of a transaction is done");
            if matches!(exchange.item, Ok(timed) if matches!(timed.item, Item::Read(_))) {
                byte = byte << 1 | seen.value & 1;
            }
        }
        Ok(byte)
    }

    /// Writes that the chip takes: all, or none.
    fn write(&mut self, asks: &[Ask]) -> Result<(), ClockError> {
        for &ask in asks {
            self.transaction(ask)?;
        }
        if self.state().protect {
            return Err(ClockError::Protected);
        }
        for &ask in asks {
            self.ask(ask)?;
        }
        Ok(())
    }
}
