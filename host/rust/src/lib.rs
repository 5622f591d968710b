//! Swarmtempo: the VIA, the clock chip and the disk lines of a Macintosh Plus, behind safe types.
//!
//! A [`Machine`] owns a state, and has one of two clock chips ([`Chip`]). A [`List`] is built of items, each with a wait in [`WaitTicks`]; a run
//! carries them out or refuses them, and answers each.
//!
//! ```
//! use swarmtempo::{Address, Chip, Item, List, Machine, Register, WaitTicks};
//!
//! let mut list = List::new();
//! list.push(WaitTicks(0), Item::Write(Address::Via(Register::IER), 0x81));
//! list.push(WaitTicks(0), Item::Second);
//! list.push(WaitTicks(0), Item::Read(Address::Via(Register::IFR)));
//!
//! let mut machine = Machine::fresh(Chip::First);
//! let transcript = machine.run_items(&list);
//! assert!(transcript.run().at_end());
//! let last = transcript.iter().last().expect("three answers");
//! let seen = last.answer.result()?;
//! assert_eq!((seen.value, seen.level), (0x81, 1));
//! # Ok::<(), swarmtempo::Refusal>(())
//! ```
//!
//! - Items and lists: [`Item`], [`Timed`], [`List`], [`items`]; as text: [`text`]; long ones in fixed
//!   memory: [`Chunks`].
//! - Runs: [`Machine::step`] for one item, [`Machine::run_items`] for items with their answers,
//!   [`Machine::run`] and [`Machine::run_in`] for answers as bytes, which [`answers`] reads.
//! - The clock, with no word of its wires: [`Machine::read_cell`], [`Machine::write_cell`],
//!   [`Machine::seconds`], [`Machine::set_seconds`], [`Machine::protect`]; as items: [`Machine::transaction`].
//! - States: [`Machine::image`] to save and [`Machine::from_image`] to restore; [`State`] to look at.
//! - For people: [`table`], [`vcd`], [`describe`], and `Display` of nearly everything.
//! - The clock's wires as an analyser sees them: [`WireDump`] writes them, [`WireImport`] makes items of
//!   them.
//! - Captures from before SN retired on the drives' own registers: [`convert`].
//! - What of a capture can touch the clock: [`Touches`]; its clock transactions: [`Decoding`].
//! - A keyboard, by itself: [`Keyboard`].
//! - Settings of a bench: [`Sheets`], [`compact`], and as text [`sheet_text`].
//! - The C functions as they are: [`sys`].
//!
//! Ticks and seconds are types of their own, so that one is not passed as the other:
//!
//! ```compile_fail
//! use swarmtempo::{Item, List, Seconds};
//! List::new().push(Seconds(5), Item::Second);
//! ```

#![warn(clippy::cast_possible_truncation, clippy::cast_sign_loss)]

mod address;
mod answer;
mod chip;
mod chunks;
mod clock;
mod command;
mod convert;
pub mod decode;
pub mod describe;
mod error;
mod item;
mod keyboard;
mod list;
mod machine;
pub mod sheet_text;
mod sheets;
mod state;
pub mod sys;
pub mod table;
#[allow(
    clippy::cast_possible_truncation,
    clippy::missing_panics_doc,
    reason = "a number is cut, and a value expected, once its range is checked"
)]
pub mod text;
mod touches;
mod units;
pub mod vcd;
mod wire_dump;
mod wire_import;

pub use address::{Address, DiskLine, Register};
pub use answer::{
    answers, Answer, Answers, Lines, NoAnswer, Refusal, Seen, UnknownRefusal, ANSWER_LEN,
};
pub use chip::Chip;
pub use chunks::{pieces, Chunks, Piece, Pieces, CHUNK_LEN};
pub use clock::{Ask, ClockError, TRANSACTION_MAX};
pub use command::{Command, Target};
pub use convert::{convert, convert_in, Conversion};
pub use decode::{Asked, Decoder, Decoding, Fate, Place, SeenBits, SeenDate, Transaction, Watch};
pub use error::ParseError;
pub use item::{Drive, InLine, Item, SenseRegister, Timed, Values};
pub use keyboard::{Keyboard, KeyboardFull, KeyboardState, INQUIRY_TICKS, KEYBOARD_LEN};
pub use list::{items, Items, List};
pub use machine::{Exchange, Exchanges, Machine, Run, Transcript};
pub use sheets::{
    compact, compact_into, settings, Setting, Sheet, SheetRefusal, Sheets, SETTING_MAX,
};
pub use state::{DriveState, Phase, State, Strobe, Timer1, Timer2, Wires};
pub use touches::{Touch, Touched, Touches};
pub use units::{Micros, Seconds, TooLong, ViaTicks, WaitTicks, TICKS_PER_SECOND};
pub use wire_dump::{wire_save_file, wire_steps, WireDump, WireForm, WIRES};
pub use wire_import::{Femtoseconds, GapTooLong, WireEvent, WireImport};
