//! `swarmtempo asm` and `disasm`: text to records, and back.

use super::conflicts::ends;
use super::contents;
use super::draft;
use super::failure::{failure, Failure};
use super::files::{self, say, Out};
use super::lines::{list_failure, Lines};
use super::source;
use super::summary::converted;
use super::words::Given;
use std::io::{Cursor, Read, Seek, Write};
use swarmtempo::{pieces, text, Chunks, Piece};

/// What to do with records that come as a text.
const RECORDS: &str = "disasm makes a text of records";

/// Text to records. Nothing is written where a line is wrong.
pub fn asm(given: &Given) -> Result<u8, Failure> {
    let (from, to) = ends("asm", "TEXT", given)?;
    let file = source::open(&from)?;
    let mut out = Out::bytes(&to)?;
    let mut lines = Lines::new(&from, file, RECORDS)?;
    if out.can_take_back() {
        lines.pour(&from, |bytes| out.put(bytes))?;
    } else if source::length(&from).is_some() {
        // Looked through first, then written.
        lines.pour(&from, |_| Ok(()))?;
        lines = Lines::new(&from, source::open(&from)?, RECORDS)?;
        lines.pour(&from, |bytes| out.put(bytes))?;
    } else {
        let mut aside = aside();
        let wrong = |error| failure("a temporary file", error);
        lines.pour(&from, |bytes| aside.write_all(bytes).map_err(wrong))?;
        aside.rewind().map_err(wrong)?;
        let mut buffer = vec![0; 1 << 16];
        loop {
            match aside.read(&mut buffer).map_err(wrong)? {
                0 => break,
                count => out.put(&buffer[..count])?,
            }
        }
    }
    files::keep([out])?;
    if let Some((line, first)) = lines.converted().first {
        say(&format!("{from}: {}", converted(lines.converted().count, line, first)));
    }
    Ok(0)
}

/// Where bytes are kept until it is known that they may be written.
pub trait Aside: Read + Write + Seek {}

impl<T: Read + Write + Seek> Aside for T {}

/// A file without a name, or memory where there is none.
pub fn aside() -> Box<dyn Aside> {
    match draft::unnamed(&std::env::temp_dir()) {
        Some(file) => Box::new(file),
        None => Box::new(Cursor::new(Vec::new())),
    }
}

/// Records to text.
pub fn disasm(given: &Given) -> Result<u8, Failure> {
    let (from, to) = ends("disasm", "LIST", given)?;
    let file = source::open(&from)?;
    let mut out = Out::text(&to)?;
    let list = if given.flag("--records") {
        contents::sample(&from, file)?.1
    } else {
        contents::records(&from, file, "asm makes records of it")?
    };
    let mut chunks = Chunks::new(list);
    let mut lines = String::new();
    loop {
        let was_broken = chunks.broken();
        let Some(chunk) = chunks.next().map_err(|error| list_failure(&from, error))? else {
            break;
        };
        lines.clear();
        if was_broken {
            text::raw(chunk, "", &mut lines);
        } else {
            pieces(chunk).for_each(|part: Piece| text::piece(part, &mut lines));
        }
        out.put(lines.as_bytes())?;
    }
    files::keep([out])?;
    Ok(0)
}
