//! Sheets as text, one record a line: setting, version, bytes.
//!
//! ```text
//! ; setting version bytes
//! 20 1 14                   ; bytes as two hexadecimal digits each
//! 7  3 "north bench"        ; or as ASCII text between quotes
//! 9  0                      ; set, with no bytes
//! ```
//!
//! Setting (0 to 65,535) and version (0 to 255) are decimal, or hexadecimal after `$`.

use crate::sheets::{settings, Setting, SheetRefusal, SETTING_MAX};
use crate::text::{lines, LineError, TextError};
use std::fmt::Display;

/// The sheet of a text.
///
/// # Errors
/// The first line that is not in the form.
pub fn assemble(text: &str) -> Result<Vec<u8>, TextError> {
    let mut sheet = Vec::new();
    for (i, line) in lines(text).enumerate() {
        assemble_line(line, &mut sheet).map_err(|error| error.at_line(i + 1))?;
    }
    Ok(sheet)
}

/// Appends the record of a line, where it has one.
///
/// # Errors
/// What is wrong in the line; then nothing is appended.
pub fn assemble_line(line: &str, sheet: &mut Vec<u8>) -> Result<(), LineError> {
    let chars: Vec<char> = line.chars().collect();
    let mut at = 0;
    let Some(setting) = number(&chars, &mut at, "a setting", u16::MAX)? else {
        return Ok(());
    };
    let Some(version) = number(&chars, &mut at, "a version", u8::MAX)? else {
        return Err(wrong(at + 1, "a version is missing"));
    };
    let bytes = bytes(&chars, &mut at)?;
    Setting { setting, version, bytes: &bytes }.write(sheet);
    Ok(())
}

fn wrong(column: usize, message: impl Into<String>) -> LineError {
    LineError { column, message: message.into() }
}

/// Past the spaces; true at the line's end or its comment.
fn ended(chars: &[char], at: &mut usize) -> bool {
    while chars.get(*at).is_some_and(|c| c.is_whitespace()) {
        *at += 1;
    }
    chars.get(*at).is_none_or(|&c| c == ';')
}

/// The next word, which ends before a space, a comment or a quote.
fn word(chars: &[char], at: &mut usize) -> String {
    let from = *at;
    while chars.get(*at).is_some_and(|&c| !c.is_whitespace() && c != ';' && c != '"') {
        *at += 1;
    }
    chars[from..*at].iter().collect()
}

fn number<N: TryFrom<u32> + Display>(
    chars: &[char],
    at: &mut usize,
    what: &str,
    most: N,
) -> Result<Option<N>, LineError> {
    if ended(chars, at) {
        return Ok(None);
    }
    let column = *at + 1;
    let text = word(chars, at);
    let (digits, radix) = match text.strip_prefix('$') {
        Some(digits) => (digits, 16),
        None => (text.as_str(), 10),
    };
    let sound = digits.chars().all(|c| c.is_digit(radix));
    let number = u32::from_str_radix(digits, radix).ok().and_then(|number| number.try_into().ok());
    match number {
        Some(number) if sound => Ok(Some(number)),
        _ => Err(wrong(column, format!("{what} is a number from 0 to {most}, not `{text}`"))),
    }
}

fn bytes(chars: &[char], at: &mut usize) -> Result<Vec<u8>, LineError> {
    let mut bytes = Vec::new();
    while !ended(chars, at) {
        let column = *at + 1;
        if chars[*at] == '"' {
            quoted(chars, at, &mut bytes)?;
        } else {
            let text = word(chars, at);
            match u8::from_str_radix(&text, 16) {
                Ok(byte) if text.len() == 2 && !text.starts_with('+') => bytes.push(byte),
                _ => {
                    let message = format!("a byte is two hexadecimal digits, not `{text}`");
                    return Err(wrong(column, message));
                }
            }
        }
        if bytes.len() > SETTING_MAX {
            return Err(wrong(column, format!("a setting has {SETTING_MAX} bytes at most")));
        }
    }
    Ok(bytes)
}

/// ASCII text up to the next quote.
fn quoted(chars: &[char], at: &mut usize, bytes: &mut Vec<u8>) -> Result<(), LineError> {
    *at += 1;
    loop {
        match chars.get(*at) {
            None => return Err(wrong(*at + 1, "a quote is missing")),
            Some('"') => break,
            Some(&c) => match u8::try_from(c) {
                Ok(byte) if shows(byte) => bytes.push(byte),
                _ => return Err(wrong(*at + 1, format!("{c:?} is not ASCII: write its bytes"))),
            },
        }
        *at += 1;
    }
    *at += 1;
    Ok(())
}

/// Whether a byte stands in quotes: ASCII that shows, and no quote.
fn shows(byte: u8) -> bool {
    (b' '..=b'~').contains(&byte) && byte != b'"'
}

/// A record's line, without its end.
pub fn line(record: &Setting<'_>) -> String {
    let head = format!("{} {}", record.setting, record.version);
    format!("{head} {}", shown(record.bytes)).trim_end().to_string()
}

/// Bytes in the text form.
pub fn shown(bytes: &[u8]) -> String {
    if !bytes.is_empty() && bytes.iter().all(|&byte| shows(byte)) {
        return format!("\"{}\"", String::from_utf8_lossy(bytes));
    }
    bytes.iter().map(|byte| format!("{byte:02X}")).collect::<Vec<_>>().join(" ")
}

/// A sheet as text. [`assemble`] gives its bytes back.
///
/// # Errors
/// [`SheetRefusal::Broken`].
pub fn disassemble(sheet: &[u8]) -> Result<String, SheetRefusal> {
    Ok(settings(sheet)?.iter().map(|record| line(record) + "\n").collect())
}
