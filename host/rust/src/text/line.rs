//! A line of text to the bytes of its record.

use super::words::{Word, Words};
use super::LineError;
use crate::{InLine, Item, Micros, Seconds, SenseRegister, Values, WaitTicks};

/// A wait given in microseconds, and the VIA ticks that it came to, rounded up.
#[derive(Clone, Copy, Debug, PartialEq, Eq)]
pub struct Converted {
    /// As written.
    pub micros: Micros,
    /// As run.
    pub wait: WaitTicks,
}

/// Appends the bytes of a line; none for an empty line or a comment. Gives the wait where it was
/// written in microseconds.
///
/// # Errors
/// What is wrong in the line; then nothing is appended.
pub fn assemble_line(line: &str, out: &mut Vec<u8>) -> Result<Option<Converted>, LineError> {
    let mut words = Words::new(line);
    let Some(first) = words.take() else {
        return Ok(None);
    };
    if first.is("RAW") {
        let mut bytes = Vec::new();
        while let Some(word) = words.take() {
            bytes.push(word.raw_byte()?);
        }
        out.append(&mut bytes);
        return Ok(None);
    }
    let (wait, converted) = first.wait()?;
    let kind = words.need("a kind (RD, WR, MW, VB, SE, IN, SN, DI, KC, RS or PW)")?;
    let item = item_of(&kind, &mut words)?;
    if let Some(extra) = words.take() {
        return extra.wrong(format!("`{}` is too much here", extra.shown()));
    }
    item.write(wait, out);
    Ok(converted)
}

fn item_of(kind: &Word<'_>, words: &mut Words<'_>) -> Result<Item, LineError> {
    Ok(match kind.text.to_ascii_uppercase().as_str() {
        "RD" => Item::Read(words.need("an address")?.address()?),
        "WR" => {
            let address = words.need("an address")?.address()?;
            Item::Write(address, words.need("a value")?.number("a value", 255)?)
        }
        "MW" => many(words)?,
        "VB" => Item::Blank,
        "SE" => Item::Second,
        "IN" => input(words)?,
        "SN" => sense(words)?,
        "DI" => Item::Disk {
            drive: words.need("a drive (internal or external)")?.drive()?,
            insert: words.need("insert 1 or remove 0")?.level()?,
            locked: words.need("locked 0 or 1")?.level()?,
            double_sided: words.need("double-sided 0 or 1")?.level()?,
        },
        "KC" => Item::Pulse(words.need("a level")?.level()?),
        "RS" => Item::Reset,
        "PW" => Item::Power(Seconds(words.need("the time off in seconds, as 5s,")?.time_off()?)),
        _ => {
            return kind.wrong(format!(
            "unknown kind `{}`; RD, WR, MW, VB, SE, IN, SN, DI, KC, RS, PW, or a line of RAW bytes",
            kind.shown()
        ))
        }
    })
}

fn many(words: &mut Words<'_>) -> Result<Item, LineError> {
    let address = words.need("an address")?.address()?;
    let mut values = vec![words.need("a value")?.number("a value", 255)?];
    while let Some(word) = words.take() {
        if values.len() == Values::MAX {
            let most = Values::MAX;
            let shown = word.shown();
            return word.wrong(format!("`{shown}` is too much here: MW has {most} values at most"));
        }
        values.push(word.number("a value", 255)?);
    }
    Ok(Item::WriteMany(address, Values::new(&values).expect("in range")))
}

fn input(words: &mut Words<'_>) -> Result<Item, LineError> {
    let line = words.need("a line")?.number("a line", InLine::COUNT - 1)?;
    let line = InLine::new(line).expect("in range");
    Ok(Item::In(line, words.need("a level")?.level()?))
}

fn sense(words: &mut Words<'_>) -> Result<Item, LineError> {
    let drive = words.need("a drive (internal or external)")?.drive()?;
    let register = words.need("a register")?.number("a register", 15)?;
    let register = SenseRegister::new(register).expect("in range");
    Ok(Item::Sense(drive, register, words.need("a level")?.level()?))
}
