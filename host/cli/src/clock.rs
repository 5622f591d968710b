//! `swarmtempo clock`: cells and seconds of an image, read and written by whole transactions.

use super::conflicts::Uses;
use super::failure::Failure;
use super::files::{self, print, say, Out};
use super::keyboard::number;
use super::place::{shown, Input, Output};
use super::words::Given;
use super::{image, source};
use std::ffi::OsString;
use std::fs;
use swarmtempo::describe::date;
use swarmtempo::{ClockError, Machine, Seconds};

const FORMS: &str =
    "read CELL, write CELL BYTE, seconds, set-seconds SECONDS, protect on or protect off";

/// What the words ask for.
#[derive(Clone, Copy)]
enum Wish {
    Read(u64),
    Write(u64, u8),
    Seconds,
    SetSeconds(u32),
    Protect(bool),
}

/// Reads or writes; what is written takes the image's place.
pub fn clock(given: &Given) -> Result<u8, Failure> {
    let words = given.one_to(4)?;
    let input = Input::of(words[0].clone());
    let wish = Wish::of(&words[1..])?;
    let save = given.value("--save").map(Output::of);
    if let Some(save) = &save {
        Uses::of("clock").reads("IMAGE", &input).writes("--save", save).check()?;
    }
    let to = match (wish.writes(), save) {
        (false, None) => None,
        (false, Some(_)) => return Err(usage("--save is of no use here: nothing is written")),
        (true, Some(save)) => Some(save),
        (true, None) => Some(own_place(&input, &words[0])?),
    };
    let mut machine = image::read(&input, source::open(&input)?)?;
    let mut out = to.as_ref().map(Out::bytes).transpose()?;
    let told = wish.grant(&mut machine).map_err(|error| refused(&input, &machine, wish, error))?;
    let Some(mut out) = out.take() else {
        return print(&format!("{told}\n")).map(|()| 0);
    };
    out.put(machine.image())?;
    files::keep([out])?;
    say(&format!("swarmtempo: {told}"));
    Ok(0)
}

/// The file that an image was read from.
fn own_place(input: &Input, word: &OsString) -> Result<Output, Failure> {
    let file = input.path().is_some_and(|path| fs::metadata(path).map_or(true, |it| it.is_file()));
    if file {
        Ok(Output::of(word.clone()))
    } else {
        Err(usage(&format!("{input} is no file: --save names the one to write")))
    }
}

impl Wish {
    fn of(words: &[OsString]) -> Result<Wish, Failure> {
        let Some(first) = words.first() else {
            return Err(usage(&format!("what is asked for is missing: {FORMS}")));
        };
        let words: Vec<&str> =
            words.iter().map(|word| word.to_str().unwrap_or("\u{FFFD}")).collect();
        Ok(match words[..] {
            ["read", cell] => Wish::Read(number_of("CELL", cell)?),
            ["write", cell, byte] => Wish::Write(number_of("CELL", cell)?, byte_of(byte)?),
            ["seconds"] => Wish::Seconds,
            ["set-seconds", seconds] => Wish::SetSeconds(seconds_of(seconds)?),
            ["protect", "on"] => Wish::Protect(true),
            ["protect", "off"] => Wish::Protect(false),
            ["read" | "write" | "seconds" | "set-seconds" | "protect", ..] => {
                return Err(usage(&format!("`{}` has other words after it: {FORMS}", words[0])));
            }
            _ => {
                let first = shown(first);
                return Err(usage(&format!("`{first}` asks for nothing; what does is {FORMS}")));
            }
        })
    }

    fn writes(self) -> bool {
        !matches!(self, Wish::Read(_) | Wish::Seconds)
    }

    /// Does it, and says what the chip holds then.
    fn grant(self, machine: &mut Machine) -> Result<String, ClockError> {
        let cell = |number| u8::try_from(number).map_err(|_| ClockError::Range);
        Ok(match self {
            Wish::Read(number) => {
                format!("cell {number}: ${:02X}", machine.read_cell(cell(number)?)?)
            }
            Wish::Write(number, byte) => {
                machine.write_cell(cell(number)?, byte)?;
                format!("cell {number}: ${byte:02X} written")
            }
            Wish::Seconds => dated(machine.seconds()?),
            Wish::SetSeconds(seconds) => {
                machine.set_seconds(Seconds(seconds))?;
                format!("{} written", dated(Seconds(seconds)))
            }
            Wish::Protect(on) => {
                machine.protect(on)?;
                format!("write-protect: {}", if on { "on" } else { "off" })
            }
        })
    }
}

/// Seconds, and the date that they are.
fn dated(seconds: Seconds) -> String {
    format!("seconds: {} ({})", seconds.0, date(seconds.0))
}

/// A refusal in words: the image is as it was.
fn refused(input: &Input, machine: &Machine, wish: Wish, error: ClockError) -> Failure {
    let status = error.number().unwrap_or(2);
    let why = match (error, wish) {
        (ClockError::Range, Wish::Read(cell) | Wish::Write(cell, _)) => {
            let chip = machine.chip();
            let last = chip.cells() - 1;
            format!("the clock chip has {chip}, 0 to {last}, and no cell {cell} (refusal 5)")
        }
        (ClockError::Enable, _) => format!("{error}: a transaction is under way (refusal 10)"),
        (ClockError::Protected, _) => format!("{error}: the chip would not take it"),
        (error, _) => error.to_string(),
    };
    Failure::Clock(input.to_string(), why, status)
}

fn usage(what: &str) -> Failure {
    Failure::usage("clock", what)
}

fn number_of(name: &str, word: &str) -> Result<u64, Failure> {
    number(word).ok_or_else(|| usage(&format!("{name} is a number, not `{word}`")))
}

fn byte_of(word: &str) -> Result<u8, Failure> {
    let byte = number(word).and_then(|number| u8::try_from(number).ok());
    byte.ok_or_else(|| usage(&format!("BYTE is 0 to 255, or $00 to $FF, not `{word}`")))
}

fn seconds_of(word: &str) -> Result<u32, Failure> {
    let digits = word.strip_suffix('s').unwrap_or(word);
    let seconds = number(digits).and_then(|number| u32::try_from(number).ok());
    let most = u32::MAX;
    seconds.ok_or_else(|| usage(&format!("SECONDS is 0 to {most}, not `{word}`")))
}
