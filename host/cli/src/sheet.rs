//! `swarmtempo sheet`: sheets of settings.

use super::conflicts::{ends, Uses};
use super::contents::{self, Looks};
use super::failure::{failure, Failure};
use super::files::{self, print, Out};
use super::lines;
use super::place::{shown, Input, Output};
use super::source;
use super::words::Given;
use std::io::Read;
use swarmtempo::{compact_into, settings, sheet_text, SheetRefusal, Sheets};

/// Exit status of `sheet get` where the setting is not set.
const NOT_SET: u8 = 2;

/// A setting, from the bench sheet or the house sheet.
pub fn get(given: &Given) -> Result<u8, Failure> {
    let setting = setting(given)?;
    let inputs = ["--bench", "--house"].map(|word| (word, given.value(word).map(Input::of)));
    let mut uses = Uses::of("sheet get");
    for (word, input) in &inputs {
        if let Some(input) = input {
            uses.reads(word, input);
        }
    }
    uses.check()?;
    let mut both = [Vec::new(), Vec::new()];
    for ((_, input), sheet) in inputs.iter().zip(&mut both) {
        if let Some(input) = input {
            *sheet = read(input, given.flag("--text"))?;
            Sheets::new(sheet, &[]).map_err(|refusal| refused(input, refusal))?;
        }
    }
    let sheets = Sheets::new(&both[0], &both[1]).expect("each is sound");
    let Some((bytes, sheet)) = sheets.get(setting) else {
        print(&format!("{setting} not set\n"))?;
        return Ok(NOT_SET);
    };
    let line = format!("{setting} {} {}", sheet.name(), sheet_text::shown(bytes));
    print(&format!("{}\n", line.trim_end())).map(|()| 0)
}

/// All records as text; those that do not count say so.
pub fn list(given: &Given) -> Result<u8, Failure> {
    let (from, to) = ends("sheet list", "SHEET", given)?;
    let sheet = read(&from, given.flag("--text"))?;
    let mut out = Out::text(&to)?;
    let refused = |refusal| refused(&from, refusal);
    let counting = swarmtempo::compact(&sheet).map_err(refused)?;
    let mut counting = settings(&counting).map_err(refused)?;
    let mut lines = Vec::new();
    // From the last on: of records that are alike the later one counts.
    for record in settings(&sheet).map_err(refused)?.iter().rev() {
        let counts = counting.pop_if(|last| *last == *record).is_some();
        let remark = if counts { "" } else { " ; does not count" };
        lines.push(format!("{}{remark}\n", sheet_text::line(record)));
    }
    lines.reverse();
    out.put(lines.concat().as_bytes())?;
    files::keep([out]).map(|()| 0)
}

/// Text to a sheet.
pub fn make(given: &Given) -> Result<u8, Failure> {
    let (from, to) = ends("sheet make", "TEXT", given)?;
    save(&to, || read(&from, true))
}

/// The counting records alone.
pub fn compact(given: &Given) -> Result<u8, Failure> {
    let (from, to) = ends("sheet compact", "SHEET", given)?;
    let room = given.number("--room")?.unwrap_or(u64::MAX);
    save(&to, || {
        let sheet = read(&from, given.flag("--text"))?;
        let room = usize::try_from(room).unwrap_or(usize::MAX).min(sheet.len());
        let mut bytes = vec![0; room];
        let written =
            compact_into(&sheet, &mut bytes).map_err(|refusal| refused(&from, refusal))?;
        bytes.truncate(written);
        Ok(bytes)
    })
}

fn setting(given: &Given) -> Result<u16, Failure> {
    let word = given.need()?;
    word.to_str().and_then(|word| word.parse().ok()).ok_or_else(|| {
        let what = format!("SETTING is a number from 0 to 65535, not `{}`", shown(&word));
        Failure::usage("sheet get", &what)
    })
}

/// Writes a sheet, which is made once its file is open.
fn save(to: &Output, sheet: impl FnOnce() -> Result<Vec<u8>, Failure>) -> Result<u8, Failure> {
    let mut out = Out::bytes(to)?;
    out.put(&sheet()?)?;
    files::keep([out]).map(|()| 0)
}

fn refused(input: &Input, refusal: SheetRefusal) -> Failure {
    Failure::Sheet(input.to_string(), refusal)
}

/// A sheet, as it is or from its text.
fn read(input: &Input, text: bool) -> Result<Vec<u8>, Failure> {
    let (looks, mut file) = contents::sample(input, source::open(input)?)?;
    let mut bytes = Vec::new();
    file.read_to_end(&mut bytes).map_err(|error| failure(input, error))?;
    let what = match (looks, text) {
        (Looks::Utf16, _) => "a text in UTF-16; save it as UTF-8",
        (Looks::Image, true) => "a state image, not a text",
        (Looks::Image, false) => "a state image, not a sheet",
        (Looks::Text, false) => "a text, not a sheet; --text says that it is one",
        (Looks::Bytes, true) if bytes.contains(&0) => {
            "bytes, not a text; sheet list makes a text of a sheet"
        }
        (_, true) => return assemble(input, &bytes),
        (_, false) => return Ok(bytes),
    };
    Err(Failure::Content(input.to_string(), what.to_string()))
}

/// The sheet of a text; every wrong line is told.
fn assemble(input: &Input, text: &[u8]) -> Result<Vec<u8>, Failure> {
    let mut sheet = Vec::new();
    lines::each(input, text, |_, line| sheet_text::assemble_line(line, &mut sheet))?;
    Ok(sheet)
}
