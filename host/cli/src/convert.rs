//! `swarmtempo convert`: an old capture turned over.

use super::conflicts::ends;
use super::contents;
use super::failure::{failure, Failure};
use super::files::{self, say, Out};
use super::numbers::grouped;
use super::place::Input;
use super::source;
use super::words::Given;
use std::io::Read;
use swarmtempo::{pieces, Conversion, Piece, Refusal};

/// Bytes of an old capture at most: it is held in memory, with the new one.
const CAPTURE_MAX: u64 = 1 << 28;

/// Bytes of the retired SN, and of the IN and the DI in its place.
const SENSE_LEN: usize = 9;
const LINE_LEN: usize = 8;
const DISK_LEN: usize = 10;

/// Writes the new capture; the status is 1 where a cut record ended the work.
pub fn convert(given: &Given) -> Result<u8, Failure> {
    let (from, to) = ends("convert", "OLD", given)?;
    let mut out = Out::bytes(&to)?;
    let old = capture(&from, given.flag("--records"))?;
    let (new, end) = swarmtempo::convert(&old);
    out.put(&new)?;
    files::keep([out])?;
    say(&format!("swarmtempo: {}", told(&old, &new, end)));
    Ok(end.stop.map_or(0, Refusal::number))
}

/// The old capture, whole.
fn capture(input: &Input, records: bool) -> Result<Vec<u8>, Failure> {
    let long = || {
        let most = grouped(CAPTURE_MAX);
        Err(Failure::Usage(format!("convert: {input} has more than {most} bytes")))
    };
    if source::length(input).is_some_and(|length| length > CAPTURE_MAX) {
        return long();
    }
    let file = source::open(input)?;
    let list = if records {
        contents::sample(input, file)?.1
    } else {
        contents::records(input, file, "asm makes records of it")?
    };
    let mut bytes = Vec::new();
    let read = list.take(CAPTURE_MAX + 1).read_to_end(&mut bytes);
    read.map_err(|error| failure(input, error))?;
    if bytes.len() as u64 > CAPTURE_MAX {
        return long();
    }
    Ok(bytes)
}

/// What was replaced, and how far the work came.
fn told(old: &[u8], new: &[u8], end: Conversion) -> String {
    let whole = |piece: Piece<'_>| match piece {
        Piece::Record(record) => record.len(),
        Piece::Rest(_) => 0,
    };
    let whole: usize = pieces(old).map(whole).sum();
    // Each replaced SN is a byte shorter, each DI is ten bytes more.
    let disks = (new.len() + end.count - whole) / (DISK_LEN + LINE_LEN - SENSE_LEN);
    let (replaced, alone) = (end.count + disks, end.count);
    let far = match end.stop {
        None => format!("all {whole} bytes converted"),
        Some(_) => format!("stopped at byte {whole} of {}: a record is cut there", old.len()),
    };
    format!("{replaced} SN replaced, {alone} of them without a DI; {far}")
}
