//! The words of a line: numbers, times with their unit, addresses, drives.

use super::{Converted, LineError};
use crate::{Address, Drive, Micros, WaitTicks};

/// Microseconds that one wait takes at most: 65,535 VIA ticks.
const MICROS_MOST: u64 = 83_658;

/// Characters of a word that a message shows.
const SHOWN_MOST: usize = 40;

/// A word and the column where it begins.
pub struct Word<'a> {
    pub text: &'a str,
    column: usize,
}

/// The words of a line up to its comment.
pub struct Words<'a> {
    line: &'a str,
    column: usize,
}

impl<'a> Words<'a> {
    pub fn new(line: &'a str) -> Words<'a> {
        Words { line: line.split(';').next().unwrap_or(""), column: 1 }
    }

    pub fn take(&mut self) -> Option<Word<'a>> {
        let trimmed = self.line.trim_start();
        self.column += self.line.chars().count() - trimmed.chars().count();
        if trimmed.is_empty() {
            self.line = trimmed;
            return None;
        }
        let end = trimmed.find(char::is_whitespace).unwrap_or(trimmed.len());
        let (text, rest) = trimmed.split_at(end);
        let column = self.column;
        self.column += text.chars().count();
        self.line = rest;
        Some(Word { text, column })
    }

    pub fn need(&mut self, what: &str) -> Result<Word<'a>, LineError> {
        let column = self.column + 1;
        self.take().ok_or_else(|| LineError { column, message: format!("{what} is missing") })
    }
}

impl Word<'_> {
    pub fn is(&self, name: &str) -> bool {
        self.text.eq_ignore_ascii_case(name)
    }

    /// The word in messages: cut where it is long, and with nothing that moves a terminal's cursor.
    pub fn shown(&self) -> String {
        let mut shown = String::new();
        for character in self.text.chars().take(SHOWN_MOST) {
            if character.is_control() {
                shown.extend(character.escape_default());
            } else {
                shown.push(character);
            }
        }
        if self.text.chars().nth(SHOWN_MOST).is_some() {
            shown.push_str("..");
        }
        shown
    }

    pub fn wrong<T>(&self, message: String) -> Result<T, LineError> {
        Err(LineError { column: self.column, message })
    }

    /// A number from 0 to `most`.
    pub fn number(&self, what: &str, most: u8) -> Result<u8, LineError> {
        match digits(self.text).map(u8::try_from) {
            Some(Ok(number)) if number <= most => Ok(number),
            Some(_) => self.wrong(format!("{what} is 0 to {most}, not {}", self.shown())),
            None => self
                .wrong(format!("{what} is a number, as 65, $41 or 0x41, not `{}`", self.shown())),
        }
    }

    /// A number before its unit, or none where the word is not that.
    fn before(&self, unit: &str) -> Option<u64> {
        let end = self.text.len().checked_sub(unit.len())?;
        let (number, found) = (self.text.get(..end)?, self.text.get(end..)?);
        found.eq_ignore_ascii_case(unit).then(|| digits(number))?
    }

    /// A wait, in VIA ticks or in microseconds.
    pub fn wait(&self) -> Result<(WaitTicks, Option<Converted>), LineError> {
        let text = self.shown();
        if let Some(micros) = self.before("us") {
            return self.wait_of(micros);
        }
        match (self.before("t"), digits(self.text)) {
            (Some(ticks), _) => match u16::try_from(ticks) {
                Ok(ticks) => Ok((WaitTicks(ticks), None)),
                Err(_) => self.wrong(format!("a wait is 0t to 65535t (VIA ticks), not {text}")),
            },
            (None, Some(_)) => self.wrong(format!(
                "a wait needs its unit: {text}t (VIA ticks) or {text}us (microseconds), not {text}"
            )),
            (None, None) => self.wrong(format!(
                "a wait is a number of VIA ticks, as 12t, or of microseconds, as 12000us, not `{text}`"
            )),
        }
    }

    /// A wait of so many microseconds, turned into VIA ticks by the library.
    fn wait_of(&self, micros: u64) -> Result<(WaitTicks, Option<Converted>), LineError> {
        let micros = u32::try_from(micros).ok().map(Micros);
        let wait = micros.and_then(|micros| micros.ticks().wait());
        match (micros, wait) {
            (Some(micros), Some(wait)) => Ok((wait, Some(Converted { micros, wait }))),
            _ => self.wrong(format!(
                "a wait is 0us to {MICROS_MOST}us (microseconds; 65535 VIA ticks), not {}",
                self.shown()
            )),
        }
    }

    /// A time off, in seconds.
    pub fn time_off(&self) -> Result<u32, LineError> {
        let text = self.shown();
        match (self.before("s"), digits(self.text)) {
            (Some(seconds), _) => match u32::try_from(seconds) {
                Ok(seconds) => Ok(seconds),
                Err(_) => {
                    self.wrong(format!("a time off is 0s to {}s (seconds), not {text}", u32::MAX))
                }
            },
            (None, Some(_)) => {
                self.wrong(format!("a time off needs its unit: {text}s (seconds), not {text}"))
            }
            (None, None) => {
                self.wrong(format!("a time off is a number of seconds, as 5s, not `{text}`"))
            }
        }
    }

    pub fn level(&self) -> Result<bool, LineError> {
        Ok(self.number("a level", 1)? == 1)
    }

    pub fn drive(&self) -> Result<Drive, LineError> {
        for drive in [Drive::Internal, Drive::External] {
            if self.is(drive.name()) {
                return Ok(drive);
            }
        }
        self.wrong(format!("a drive is internal or external, not `{}`", self.shown()))
    }

    pub fn address(&self) -> Result<Address, LineError> {
        if let Some(number) = digits(self.text) {
            let address = u32::try_from(number).ok().and_then(Address::from_number);
            return match address {
                Some(address) => Ok(address),
                None => self.wrong(format!("address {} is none of the 32", self.shown())),
            };
        }
        match Address::all().find(|address| self.is(&address.name())) {
            Some(address) => Ok(address),
            None => self.wrong(format!(
                "no address has the name `{}`; names are as VIA.ORB and IWM.LSTRB+",
                self.shown()
            )),
        }
    }

    pub fn raw_byte(&self) -> Result<u8, LineError> {
        let hex = self.text.len() == 2 && self.text.bytes().all(|b| b.is_ascii_hexdigit());
        match u8::from_str_radix(self.text, 16) {
            Ok(byte) if hex => Ok(byte),
            _ => {
                self.wrong(format!("a raw byte is two hexadecimal digits, not `{}`", self.shown()))
            }
        }
    }
}

/// A decimal number, or a hexadecimal one after `$` or `0x`. One that is too large is given as the
/// largest.
fn digits(text: &str) -> Option<u64> {
    let hexadecimal = ["$", "0x", "0X"].iter().find_map(|mark| text.strip_prefix(mark));
    let (digits, radix) = hexadecimal.map_or((text, 10), |digits| (digits, 16));
    if digits.is_empty() || !digits.chars().all(|c| c.is_digit(radix)) {
        return None;
    }
    Some(u64::from_str_radix(digits, radix).unwrap_or(u64::MAX))
}
