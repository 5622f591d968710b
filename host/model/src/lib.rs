//! A plain model of the board: one state behind `&mut`, written by hand from the requirements, to
//! compare the proved library with and to measure it against. Nothing here is proved.
//!
//! Time is in VIA ticks: 783,360 a second.

#![allow(missing_docs, reason = "fields and functions have the names of the requirements")]
#![allow(clippy::struct_excessive_bools, reason = "lines and flags are levels")]

mod clock;
mod convert;
mod drive;
mod image;
mod items;
mod keyboard;
mod machine;
mod run;
pub mod sheet;
mod transaction;
mod via;

pub use clock::{
    decode_command, decode_extended, Chip, Clock, Command, Phase, Store, Target, CELLS_MOST,
};
pub use convert::{convert, Conversion};
pub use drive::{ticks_of_micros, Drive, Drives, Strobe, EJECT_TICKS, STEP_TICKS, WRITE_TICKS};
pub use image::{fresh_image, run_image};
pub use items::{decode, Item, Place, IWM_BASE, STRIDE, VALUES_MOST, VIA_BASE};
pub use keyboard::{
    keyboard_call, keyboard_fresh, Keyboard, KeyboardEvent, FULL, INQUIRY_TICKS, KEYBOARD_LEN,
};
pub use machine::{Machine, Wires};
pub use run::{frame, Run};
pub use transaction::{transaction, ENABLE_DOWN};
pub use via::{Timer1, Timer2, Via};

/// Refusal and stop numbers.
pub mod refusal {
    /// A cut record, or a length below 2.
    pub const CUT: u8 = 1;
    /// An unknown kind.
    pub const KIND: u8 = 2;
    /// A length that is wrong for the kind.
    pub const LENGTH: u8 = 3;
    /// An address that is none of the 32.
    pub const ADDRESS: u8 = 4;
    /// A line, drive, register, level or count out of range.
    pub const RANGE: u8 = 5;
    /// Fewer than 8 answer bytes left.
    pub const ROOM: u8 = 6;
    /// A state that is not accepted.
    pub const STATE: u8 = 7;
    /// A disk inserted where one is, or removed where none is.
    pub const DISK: u8 = 8;
    /// SN on a register that the drive has itself.
    pub const RETIRED: u8 = 9;
}
