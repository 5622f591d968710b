//! `swarmtempo keyboard`: a text of events run on a keyboard, and its answers.
//!
//! ```text
//! ; wait event
//! 0t     COMMAND $10     ; Inquiry; also by name: INQUIRY INSTANT MODEL TEST
//! 100t   KEY $33         ; a key code
//! 195840t                ; a wait alone
//! ```

use super::conflicts::Uses;
use super::contents::{self, Looks};
use super::failure::{failure, Failure};
use super::files::{self, Out};
use super::lines;
use super::place::{shown, Input, Output};
use super::source;
use super::words::Given;
use std::io::Read;
use swarmtempo::text::LineError;
use swarmtempo::{Keyboard, KeyboardFull, ViaTicks};

/// Source document 000: bit 0 is 1, and the model number in bits 1 to 3 is 1.
const USUAL_MODEL: u8 = 0x03;

const COMMANDS: [(&str, u8); 4] =
    [("INQUIRY", 0x10), ("INSTANT", 0x14), ("MODEL", 0x16), ("TEST", 0x36)];

const HEAD: &str = "line VIA ticks event            answer\n";

/// What a line says.
struct Event {
    line: usize,
    wait: ViaTicks,
    act: Option<Act>,
}

#[derive(Clone, Copy)]
enum Act {
    Command(u8),
    Key(u8),
}

/// Runs the events and shows a row for each, and for each answer within a wait.
pub fn keyboard(given: &Given) -> Result<u8, Failure> {
    let text = given.operand()?.map_or(Input::standard(), Input::of);
    let image = given.value("--image").map(Input::of);
    let save = given.value("--save").map(Output::of);
    let mut uses = Uses::of("keyboard");
    uses.reads("EVENTS", &text).writes("the answers", &Output::standard());
    if let Some(image) = &image {
        uses.reads("--image", image);
    }
    if let Some(save) = &save {
        uses.writes("--save", save);
    }
    uses.check()?;
    let model = model(given)?;
    let mut save = save.as_ref().map(Out::bytes).transpose()?;
    let mut out = Out::text(&Output::standard())?;
    let mut keyboard = match &image {
        Some(image) => restored(image)?,
        None => Keyboard::new(model),
    };
    out.put(HEAD.as_bytes())?;
    let mut now = 0;
    for event in &events(&text)? {
        out.put(rows(&mut keyboard, event, &mut now).as_bytes())?;
    }
    if let Some(save) = &mut save {
        save.put(keyboard.image())?;
    }
    files::keep([Some(out), save].into_iter().flatten()).map(|()| 0)
}

/// The byte of `--model`.
fn model(given: &Given) -> Result<u8, Failure> {
    let Some(word) = given.value("--model") else {
        return Ok(USUAL_MODEL);
    };
    if given.flag("--image") {
        let what = "--model and --image: an image has its model";
        return Err(Failure::usage("keyboard", what));
    }
    word.to_str().and_then(byte).ok_or_else(|| {
        let what = format!("--model needs a byte, 0 to 255 or $00 to $FF, not `{}`", shown(&word));
        Failure::usage("keyboard", &what)
    })
}

/// The keyboard of an image.
fn restored(input: &Input) -> Result<Keyboard, Failure> {
    let mut bytes = Vec::new();
    let most = Keyboard::image_len() as u64 + 1;
    let read = source::open(input)?.take(most).read_to_end(&mut bytes);
    read.map_err(|error| failure(input, error))?;
    Keyboard::from_image(&bytes).map_err(|_| Failure::Keyboard(input.to_string()))
}

/// The events of a text; every wrong line is told.
fn events(input: &Input) -> Result<Vec<Event>, Failure> {
    let (looks, mut file) = contents::sample(input, source::open(input)?)?;
    let mut bytes = Vec::new();
    file.read_to_end(&mut bytes).map_err(|error| failure(input, error))?;
    let what = match looks {
        Looks::Utf16 => Some("a text in UTF-16; save it as UTF-8"),
        Looks::Image => Some("a state image, not a text of events"),
        Looks::Text | Looks::Bytes => {
            bytes.contains(&0).then_some("bytes, not a text of events; --image takes a keyboard")
        }
    };
    if let Some(what) = what {
        return Err(Failure::Content(input.to_string(), what.to_string()));
    }
    let mut events = Vec::new();
    lines::each(input, &bytes, |line, text| {
        if let Some((wait, act)) = parse(text)? {
            events.push(Event { line, wait, act });
        }
        Ok(())
    })?;
    Ok(events)
}

/// The rows of an event, which happens after its wait.
fn rows(keyboard: &mut Keyboard, event: &Event, now: &mut u64) -> String {
    let mut rows = String::new();
    let due = keyboard.state().left.map_or(0, |left| u64::from(left.0));
    if let Some(byte) = keyboard.wait(event.wait) {
        rows.push_str(&row(event.line, *now + due, "(wait)", &answer(byte, "Null")));
    }
    *now += u64::from(event.wait.0);
    if let Some(act) = event.act {
        let (what, said) = done(keyboard, act);
        rows.push_str(&row(event.line, *now, &what, &said));
    }
    rows
}

fn done(keyboard: &mut Keyboard, act: Act) -> (String, String) {
    match act {
        Act::Command(command) => {
            let held = !keyboard.state().codes.is_empty();
            let name = match command {
                0x14 if !held => "Null",
                0x16 => "Model",
                0x36 => "ACK",
                _ => "",
            };
            let said = keyboard.command(command).map_or("-".to_string(), |b| answer(b, name));
            (format!("COMMAND ${command:02X}"), said)
        }
        Act::Key(code) => {
            let said = match keyboard.key(code) {
                Ok(None) => "-".to_string(),
                Ok(Some(byte)) => answer(byte, ""),
                Err(full) => format!("refused {}: {full}", KeyboardFull::NUMBER),
            };
            (format!("KEY ${code:02X}"), said)
        }
    }
}

fn answer(byte: u8, name: &str) -> String {
    format!("${byte:02X} {name}").trim_end().to_string()
}

fn row(line: usize, via_ticks: u64, event: &str, said: &str) -> String {
    format!("{line:4} {via_ticks:9} {event:16} {said}\n")
}

/// A line's wait and what happens after it; none for an empty line or a comment.
fn parse(line: &str) -> Result<Option<(ViaTicks, Option<Act>)>, LineError> {
    let line = line.split(';').next().unwrap_or("").trim_end();
    let mut words = words(line);
    let Some((at, first)) = words.next() else { return Ok(None) };
    let end = line.chars().count() + 1;
    let Some(ticks) = first.strip_suffix(['t', 'T']) else {
        return Err(wrong(at, "a wait ends in t (VIA ticks)"));
    };
    let Some(ticks) = number(ticks).and_then(|ticks| u32::try_from(ticks).ok()) else {
        return Err(wrong(at, &format!("a wait is 0 to {} VIA ticks", u32::MAX)));
    };
    let Some((at, kind)) = words.next() else { return Ok(Some((ViaTicks(ticks), None))) };
    let no_byte = |at| wrong(at, "a byte is 0 to 255, or $00 to $FF");
    let act = match kind.to_ascii_uppercase().as_str() {
        "COMMAND" => {
            let (at, word) = words.next().ok_or_else(|| wrong(end, "a command byte is missing"))?;
            let named = COMMANDS.iter().find(|(name, _)| word.eq_ignore_ascii_case(name));
            let value = named.map(|&(_, value)| value).or_else(|| byte(word));
            Act::Command(value.ok_or_else(|| no_byte(at))?)
        }
        "KEY" => {
            let (at, word) = words.next().ok_or_else(|| wrong(end, "a key code is missing"))?;
            Act::Key(byte(word).ok_or_else(|| no_byte(at))?)
        }
        _ => return Err(wrong(at, "COMMAND or KEY comes here")),
    };
    match words.next() {
        None => Ok(Some((ViaTicks(ticks), Some(act)))),
        Some((at, _)) => Err(wrong(at, "nothing more belongs here")),
    }
}

fn wrong(column: usize, message: &str) -> LineError {
    LineError { column, message: message.to_string() }
}

/// The words of a line, each with its column, counted from 1.
fn words(line: &str) -> impl Iterator<Item = (usize, &str)> {
    line.split_whitespace().map(move |word| {
        let at = word.as_ptr() as usize - line.as_ptr() as usize;
        (line[..at].chars().count() + 1, word)
    })
}

/// Decimal, or hexadecimal after `$` or `0x`.
pub fn number(word: &str) -> Option<u64> {
    let hexadecimal = word.strip_prefix('$').or_else(|| word.strip_prefix("0x"));
    let (digits, radix) = hexadecimal.map_or((word, 10), |digits| (digits, 16));
    if !digits.starts_with(|c: char| c.is_ascii_hexdigit()) {
        return None;
    }
    u64::from_str_radix(digits, radix).ok()
}

fn byte(word: &str) -> Option<u8> {
    number(word).and_then(|number| u8::try_from(number).ok())
}
