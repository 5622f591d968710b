//! Lists as text, one item a line, with the unit beside each time.
//!
//! ```text
//! ; wait kind  what follows
//! 12t WR $EFE1FE $41      ; 12 VIA ticks, then a write
//! 0t  RD VIA.IFR          ; an address by name
//! 0t  WR IWM.LSTRB+ 0
//! 0t  MW VIA.ORB $F9 $FB  ; many writes to one address, 1 to 64 values
//! 12000us VB              ; 12,000 microseconds: 9,401 VIA ticks, rounded up; also SE and RS
//! 0t  IN 3 1              ; line, level
//! 0t  SN internal 6 0     ; drive, register, level
//! 0t  DI internal 1 0 1   ; drive, insert, locked, double-sided
//! 0t  KC 1                ; a pulse of the keyboard's clock, with its data level
//! 0t  PW 5s               ; power cut, 5 seconds off
//! RAW 05 00 53 45 00 00 00  ; bytes as they are
//! ```
//!
//! Numbers are decimal, or hexadecimal after `$` or `0x`. A wait ends in `t` (VIA ticks) or in `us`
//! (microseconds, turned into VIA ticks by the library, rounded up), a time off in `s` (seconds).
//! Letters may be small or capital. Lines end in LF, CR LF, or CR alone. A byte order mark before the
//! first line is skipped.

mod line;
mod show;
mod words;

pub use line::{assemble_line, Converted};
pub use show::{disassemble, item, piece, raw};

use std::fmt;

/// The byte order mark that some editors put before a text, in UTF-8.
pub const BYTE_ORDER_MARK: &[u8] = b"\xEF\xBB\xBF";

/// What is wrong in a line, and the column where, counted from 1.
#[derive(Clone, Debug, PartialEq, Eq)]
pub struct LineError {
    /// Column, in characters.
    pub column: usize,
    /// What is wrong.
    pub message: String,
}

/// What is wrong in a text, and where, counted from 1.
#[derive(Clone, Debug, PartialEq, Eq)]
pub struct TextError {
    /// Line.
    pub line: usize,
    /// Column, in characters.
    pub column: usize,
    /// What is wrong.
    pub message: String,
}

impl LineError {
    /// With the line's number.
    pub fn at_line(self, line: usize) -> TextError {
        TextError { line, column: self.column, message: self.message }
    }
}

impl fmt::Display for TextError {
    fn fmt(&self, f: &mut fmt::Formatter<'_>) -> fmt::Result {
        write!(f, "line {}, column {}: {}", self.line, self.column, self.message)
    }
}

impl std::error::Error for TextError {}

/// The bytes of a text.
///
/// # Errors
/// The first line that is not in the form. [`assemble_all`] gives every one.
pub fn assemble(text: &str) -> Result<Vec<u8>, TextError> {
    let mut bytes = Vec::new();
    for (i, line) in lines(text).enumerate() {
        assemble_line(line, &mut bytes).map_err(|error| error.at_line(i + 1))?;
    }
    Ok(bytes)
}

/// The bytes of a text.
///
/// # Errors
/// Every line that is not in the form, in their order; at least one.
pub fn assemble_all(text: &str) -> Result<Vec<u8>, Vec<TextError>> {
    let mut bytes = Vec::new();
    let mut errors = Vec::new();
    for (i, line) in lines(text).enumerate() {
        if let Err(error) = assemble_line(line, &mut bytes) {
            errors.push(error.at_line(i + 1));
        }
    }
    if errors.is_empty() {
        Ok(bytes)
    } else {
        Err(errors)
    }
}

/// Its lines, without a byte order mark. They end in LF, CR LF, or CR alone, as an old Macintosh
/// writes them.
pub(crate) fn lines(text: &str) -> impl Iterator<Item = &str> {
    let text = text.strip_prefix('\u{FEFF}').unwrap_or(text);
    text.lines().flat_map(|line| line.split('\r'))
}
