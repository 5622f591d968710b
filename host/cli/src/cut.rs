//! `swarmtempo cut` and `join`: captures cut between records, and put together again.

use super::conflicts::Uses;
use super::failure::Failure;
use super::files::{self, say, Out};
use super::lines::list_failure;
use super::numbers::{counted, grouped};
use super::place::{Input, Output};
use super::request::{chip, Form};
use super::run::List;
use super::words::Given;
use super::{image, source};
use std::ffi::{OsStr, OsString};
use std::fmt;
use std::io::Read;
use swarmtempo::{pieces, Chunks, Machine, Piece};

/// Bytes of a capture at most: it is held in memory.
const CAPTURE_MAX: u64 = 1 << 28;
/// Parts at most: the two files of each are open together.
const PARTS_MAX: usize = 400;

/// Cuts a capture.
pub fn cut(given: &Given) -> Result<u8, Failure> {
    let input = Input::of(given.need()?);
    let place = Place::of(given)?;
    let Some(prefix) = given.value("--out") else {
        return Err(Failure::usage("cut", "--out is missing: what the files' names begin with"));
    };
    let mut uses = Uses::of("cut");
    reads(&mut uses, given, std::slice::from_ref(&input)).check()?;
    let machine = start("cut", given)?;
    let mut bytes = capture("cut", &input, Form::of("cut", given)?)?;
    let left_out = if given.flag("--good") { keep_whole(&mut bytes) } else { 0 };
    let parts = place.parts(&input, &bytes)?;
    let names: Vec<[Output; 2]> = (1..=parts.len()).map(|i| names(&prefix, i)).collect();
    for name in names.iter().flatten() {
        uses.writes("--out", name);
    }
    uses.check()?;
    write(machine, &parts, &names)?;
    let (all, whole) = (counted(parts.len() as u64, "part"), counted(bytes.len() as u64, "byte"));
    say(&format!("swarmtempo: {all} of {whole} together"));
    if left_out > 0 {
        let (rest, at) = (counted(left_out as u64, "byte"), bytes.len());
        say(&format!(
            "swarmtempo: {input}: a record is cut at byte {at}; {rest} from there left out"
        ));
    }
    Ok(0)
}

/// Joins captures.
pub fn join(given: &Given) -> Result<u8, Failure> {
    let inputs = inputs(given.one_to(usize::MAX)?);
    let form = Form::of("join", given)?;
    let output = given.value("-o").map_or(Output::standard(), Output::of);
    reads(&mut Uses::of("join"), given, &inputs).writes("-o", &output).check()?;
    let mut out = Out::bytes(&output)?;
    let mut whole = Vec::new();
    for input in &inputs {
        let bytes = capture("join", input, form)?;
        boundaries(input, &bytes)?;
        whole.extend_from_slice(&bytes);
        short_enough("join", "the whole", &whole)?;
    }
    // Nothing goes to a pipe before all is known to be whole.
    out.put(&whole)?;
    files::keep([out]).map(|()| 0)
}

/// The captures of some words.
pub fn inputs(words: &[OsString]) -> Vec<Input> {
    words.iter().cloned().map(Input::of).collect()
}

/// Captures and an image that a command reads.
pub fn reads<'a>(uses: &'a mut Uses, given: &Given, captures: &[Input]) -> &'a mut Uses {
    for capture in captures {
        uses.reads("CAPTURE", capture);
    }
    if let Some(image) = given.value("--image").map(Input::of) {
        uses.reads("--image", &image);
    }
    uses
}

/// The machine that a capture begins on.
pub fn start(command: &str, given: &Given) -> Result<Machine, Failure> {
    let chip = chip(command, given)?;
    match given.value("--image").map(Input::of) {
        Some(input) => image::read(&input, source::open(&input)?),
        None => Ok(Machine::fresh(chip)),
    }
}

/// A capture that is read.
pub fn list(input: &Input, form: Form) -> Result<List, Failure> {
    List::of(input, form, source::open(input)?, "with --text it is taken as one")
}

/// A capture, whole, as records.
fn capture(command: &str, input: &Input, form: Form) -> Result<Vec<u8>, Failure> {
    let mut bytes = Vec::new();
    let read = list(input, form)?.take(CAPTURE_MAX + 1).read_to_end(&mut bytes);
    read.map_err(|error| list_failure(input, error))?;
    short_enough(command, input, &bytes)?;
    Ok(bytes)
}

/// Refuses what is too long to be held.
fn short_enough(command: &str, what: impl fmt::Display, bytes: &[u8]) -> Result<(), Failure> {
    if bytes.len() as u64 <= CAPTURE_MAX {
        return Ok(());
    }
    let most = grouped(CAPTURE_MAX);
    Err(Failure::Usage(format!("{command}: {what} has more than {most} bytes")))
}

/// Where the records of a capture end; all of them are whole.
fn boundaries(input: &Input, bytes: &[u8]) -> Result<Vec<usize>, Failure> {
    let mut ends = Vec::new();
    let mut end = 0;
    for piece in pieces(bytes) {
        match piece {
            Piece::Record(record) => end += record.len(),
            Piece::Rest(_) => return Err(Failure::Cut(input.to_string(), end as u64)),
        }
        ends.push(end);
    }
    Ok(ends)
}

/// Keeps the whole records before one that is cut; how many bytes are left out.
fn keep_whole(bytes: &mut Vec<u8>) -> usize {
    let whole = pieces(bytes).map_while(|piece| match piece {
        Piece::Record(record) => Some(record.len()),
        Piece::Rest(_) => None,
    });
    let (end, all) = (whole.sum(), bytes.len());
    bytes.truncate(end);
    all - end
}

/// Where to cut.
enum Place {
    /// So many bytes from the start.
    At(u64),
    /// After every so many records.
    Every(usize),
}

impl Place {
    fn of(given: &Given) -> Result<Place, Failure> {
        let wrong = |what| Err(Failure::usage("cut", what));
        match (given.number("--at")?, given.number("--every")?) {
            (Some(offset), None) => Ok(Place::At(offset)),
            (None, Some(0)) => wrong("--every needs a number of records above 0"),
            (None, Some(count)) => Ok(Place::Every(usize::try_from(count).unwrap_or(usize::MAX))),
            (None, None) if given.flag("--good") => Ok(Place::Every(usize::MAX)),
            (None, None) => wrong("--at or --every is missing: where to cut"),
            (Some(_), Some(_)) => wrong("--at and --every: give one of them"),
        }
    }

    /// The parts of a capture, together all of it.
    fn parts<'a>(&self, input: &Input, bytes: &'a [u8]) -> Result<Vec<&'a [u8]>, Failure> {
        let ends = boundaries(input, bytes)?;
        let mut cuts: Vec<usize> = match *self {
            Place::At(offset) => vec![boundary(input, &ends, offset)?, bytes.len()],
            Place::Every(count) => {
                let after = ends.chunks(count).filter_map(|part| part.last().copied());
                after.collect()
            }
        };
        if cuts.is_empty() {
            cuts.push(0);
        }
        if cuts.len() > PARTS_MAX {
            let what = format!("that makes {} parts, more than {PARTS_MAX}", cuts.len());
            return Err(Failure::usage("cut", &what));
        }
        let starts = std::iter::once(0).chain(cuts.iter().copied());
        Ok(starts.zip(&cuts).map(|(start, &end)| &bytes[start..end]).collect())
    }
}

/// An offset that is between two records, before the first or after the last.
fn boundary(input: &Input, ends: &[usize], offset: u64) -> Result<usize, Failure> {
    let at = ends.partition_point(|&end| (end as u64) < offset);
    let before = at.checked_sub(1).map_or(0, |before| ends[before]);
    match ends.get(at) {
        _ if offset == before as u64 => Ok(before),
        Some(&end) if offset == end as u64 => Ok(end),
        Some(end) => {
            let what = format!(
                "byte {offset} of {input} is inside a record, which has bytes {before} to {end}"
            );
            Err(Failure::usage("cut", &what))
        }
        None => {
            let what = format!("{input} has {before} bytes, and no byte {offset}");
            Err(Failure::usage("cut", &what))
        }
    }
}

/// The names of a part and of the state that it starts from.
fn names(prefix: &OsStr, part: usize) -> [Output; 2] {
    ["bin", "st"].map(|kind| {
        let mut name = prefix.to_os_string();
        name.push(format!("-{part:04}.{kind}"));
        Output::of(name)
    })
}

/// All parts and states take their places, or none.
fn write(mut machine: Machine, parts: &[&[u8]], names: &[[Output; 2]]) -> Result<(), Failure> {
    let mut outs = Vec::new();
    for name in names.iter().flatten() {
        outs.push(Out::bytes(name)?);
    }
    for (part, out) in parts.iter().zip(outs.as_chunks_mut::<2>().0) {
        out[0].put(part)?;
        out[1].put(machine.image())?;
        run_through(&mut machine, part);
    }
    files::keep(outs)
}

/// Runs whole records, and forgets their answers.
fn run_through(machine: &mut Machine, part: &[u8]) {
    let mut chunks = Chunks::new(part);
    let mut answers = Vec::new();
    while let Ok(Some(chunk)) = chunks.next() {
        answers.clear();
        machine.run(chunk, &mut answers);
    }
}
