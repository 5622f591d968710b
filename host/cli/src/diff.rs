//! `swarmtempo diff`: where two captures, or two images, differ.

use super::conflicts::Uses;
use super::contents::{self, Looks};
use super::cut::{inputs, list, reads, start};
use super::failure::Failure;
use super::fields::Value;
use super::files::print;
use super::lines::list_failure;
use super::numbers::{counted, grouped};
use super::place::Input;
use super::request::Form;
use super::run::List;
use super::words::Given;
use super::{image, source, states};
use std::io::Read;
use swarmtempo::decode::waited;
use swarmtempo::{pieces, table, Answer, Chunks, Machine, Piece, Place, Refusal, ANSWER_LEN};

/// Fields shown at most.
const FIELDS_SHOWN: usize = 40;
/// Names of fields shown at most where states first differ.
const NAMES_SHOWN: usize = 8;

/// Compares, and gives the exit status.
pub fn diff(given: &Given) -> Result<u8, Failure> {
    let inputs = inputs(given.one_to(2)?);
    let [a, b] = &inputs[..] else {
        return Err(Failure::usage("diff", "B is missing: two captures or two images"));
    };
    let form = Form::of("diff", given)?;
    reads(&mut Uses::of("diff"), given, &inputs).check()?;
    let machine = start("diff", given)?;
    // Standard input is read once, and so is a capture.
    let said = form != Form::Unsaid || a.path().is_none() || b.path().is_none();
    let is_image = |input: &Input| -> Result<bool, Failure> {
        Ok(!said && contents::sample(input, source::open(input)?)?.0 == Looks::Image)
    };
    match (is_image(a)?, is_image(b)?) {
        (true, true) => images(a, b),
        (false, false) => {
            captures(Side::new(a, form, machine.clone())?, Side::new(b, form, machine)?)
        }
        (ours, _) => {
            let (image, other) = if ours { (a, b) } else { (b, a) };
            let what = format!("a state image, and {other} is none: two of a kind are compared");
            Err(Failure::Content(image.to_string(), what))
        }
    }
}

fn images(a: &Input, b: &Input) -> Result<u8, Failure> {
    let read = |input: &Input| -> Result<Machine, Failure> {
        let file: Box<dyn Read> = source::open(input)?;
        image::read(input, file)
    };
    let (ours, theirs) = (read(a)?, read(b)?);
    let differences = states::differences(&ours, &theirs);
    if differences.is_empty() {
        print("the images are the same\n")?;
        return Ok(0);
    }
    print(&format!("the images differ:\n{}", rows(a, b, &differences)))?;
    Ok(1)
}

/// The fields in which two states differ.
fn rows(a: &Input, b: &Input, all: &[(String, Value, Value)]) -> String {
    let mut rows = vec![("field".to_string(), a.to_string(), b.to_string())];
    let shown = all.iter().take(FIELDS_SHOWN);
    rows.extend(shown.map(|(name, a, b)| (name.clone(), a.words(), b.words())));
    let width = |of: fn(&(String, String, String)) -> &String| {
        rows.iter().map(|row| of(row).chars().count()).max().unwrap_or(0)
    };
    let (name, value) = (width(|row| &row.0), width(|row| &row.1));
    let mut out = String::new();
    for (field, a, b) in &rows {
        out.push_str(&format!("  {field:<name$}  {a:<value$}  {b}\n"));
    }
    if all.len() > FIELDS_SHOWN {
        out.push_str(&format!("  and {} more\n", all.len() - FIELDS_SHOWN));
    }
    out
}

/// A capture as far as it is compared.
struct Side {
    input: Input,
    chunks: Chunks<List>,
    /// Records that were read and not yet run, from this byte on.
    held: Vec<u8>,
    from: usize,
    machine: Machine,
    answers: Vec<u8>,
    /// After the last record run.
    at: Place,
    ended: bool,
    stop: Option<Refusal>,
}

/// A record as it is told, and with its answer.
#[derive(Default)]
struct Told {
    record: String,
    answer: String,
}

/// Where a part begins that was run.
struct Begin {
    from: usize,
    at: Place,
}

impl Side {
    fn new(input: &Input, form: Form, machine: Machine) -> Result<Side, Failure> {
        Ok(Side {
            input: input.clone(),
            chunks: Chunks::new(list(input, form)?),
            held: Vec::new(),
            from: 0,
            machine,
            answers: Vec::new(),
            at: Place::default(),
            ended: false,
            stop: None,
        })
    }

    /// Reads on where nothing is held.
    fn fill(&mut self) -> Result<(), Failure> {
        if self.from < self.held.len() || self.ended {
            return Ok(());
        }
        self.held.clear();
        self.from = 0;
        if let List::Text(lines) = self.chunks.source_mut() {
            lines.forget(self.at.offset);
        }
        match self.chunks.next().map_err(|error| list_failure(&self.input, error))? {
            Some(chunk) => self.held.extend_from_slice(chunk),
            None => self.ended = true,
        }
        Ok(())
    }

    fn left(&self) -> &[u8] {
        &self.held[self.from..]
    }

    /// Runs the next so many bytes, which are whole records or the last ones.
    fn run(&mut self, length: usize) -> Begin {
        let begin = Begin { from: self.from, at: self.at };
        let part = &self.held[self.from..self.from + length];
        self.answers.clear();
        let run = self.machine.run(part, &mut self.answers);
        for (piece, answer) in pieces(part).zip(self.answers.as_chunks::<ANSWER_LEN>().0) {
            self.at.item += 1;
            self.at.offset += piece.as_ref().len() as u64;
            self.at.via_ticks += u64::from(waited(piece, answer));
        }
        self.from += length;
        if run.stop.is_some() {
            (self.stop, self.ended, self.from) = (run.stop, true, self.held.len());
        }
        begin
    }

    /// The record of a number in the part that was run last, and its answer.
    fn told(&self, begin: &Begin, number: usize) -> Told {
        let mut at = begin.at;
        let mut told = Told::default();
        let answers = self.answers.as_chunks::<ANSWER_LEN>().0;
        for (i, (piece, answer)) in pieces(&self.held[begin.from..]).zip(answers).enumerate() {
            at.via_ticks += u64::from(waited(piece, answer));
            if i == number {
                told = self.tell(&at, piece, *answer);
                break;
            }
            at.offset += piece.as_ref().len() as u64;
        }
        told
    }

    fn tell(&self, at: &Place, piece: Piece<'_>, answer: [u8; ANSWER_LEN]) -> Told {
        let line = match self.chunks.source() {
            List::Text(lines) => lines.line_at(at.offset),
            List::Records(_) => None,
        };
        let line = line.map_or(String::new(), |line| format!(", line {}", grouped(line)));
        let ticks = counted(at.via_ticks, "VIA tick");
        let answer = Answer::read(&answer)
            .map_or_else(|| format!("{answer:02X?}"), |answer| answer.to_string());
        let byte = grouped(at.offset);
        let record =
            format!("{}: byte {byte}{line}, after {ticks}: {}", self.input, table::record(piece));
        Told { answer: format!("{record}: {answer}"), record }
    }
}

/// What differs between two captures, each with the number of the first item that does.
#[derive(Default)]
struct Found {
    record: Option<String>,
    answer: Option<String>,
    state: Option<String>,
}

fn captures(mut a: Side, mut b: Side) -> Result<u8, Failure> {
    let mut found = Found::default();
    loop {
        a.fill()?;
        b.fill()?;
        match (a.left().is_empty(), b.left().is_empty()) {
            (true, true) => break,
            (false, false) => together(&mut a, &mut b, &mut found),
            (true, false) => alone(&mut b, &a, &mut found, true),
            (false, true) => alone(&mut a, &b, &mut found, false),
        }
    }
    let states = states::differences(&a.machine, &b.machine);
    let same = found.answer.is_none() && states.is_empty();
    let mut out = match &found.record {
        None => format!("the records are the same: {}\n", counted(a.at.item, "item")),
        Some(record) => record.clone(),
    };
    out.push_str(found.answer.as_deref().unwrap_or("the answers are the same\n"));
    if let Some(state) = &found.state {
        out.push_str(state);
    }
    if states.is_empty() {
        out.push_str("the states reached are the same\n");
    } else {
        out.push_str("the states reached differ:\n");
        out.push_str(&rows(&a.input, &b.input, &states));
    }
    for side in [&a, &b] {
        if let Some(stop) = side.stop {
            out.push_str(&format!("{}: {stop}; the rest is not run\n", side.input));
        }
    }
    print(&out)?;
    Ok(u8::from(!same))
}

/// Runs records of both, as many as there are in pairs. From one state, equal records are run at once,
/// and others one by one, so that the first difference in the states is seen.
fn together(a: &mut Side, b: &mut Side, found: &mut Found) {
    let as_one = found.state.is_none();
    let pairs = || pieces(a.left()).zip(pieces(b.left()));
    let most = if as_one { pairs().take_while(|(x, y)| x == y).count() } else { usize::MAX };
    let (ours, theirs) = pairs().take(most.max(1)).fold((0, 0), |(ours, theirs), (x, y)| {
        (ours + x.as_ref().len(), theirs + y.as_ref().len())
    });
    let item = a.at.item + 1;
    let (x, y) = (a.run(ours), b.run(theirs));
    if most == 0 && found.record.is_none() {
        let (ours, theirs) = (a.told(&x, 0).record, b.told(&y, 0).record);
        found.record = Some(first("records", item, &ours, &theirs));
    }
    let answers = a.answers.as_chunks::<ANSWER_LEN>().0;
    let answers = answers.iter().zip(b.answers.as_chunks::<ANSWER_LEN>().0);
    let differ = answers.into_iter().position(|(ours, theirs)| ours != theirs);
    if let Some(i) = differ.filter(|_| found.answer.is_none()) {
        let (ours, theirs) = (a.told(&x, i).answer, b.told(&y, i).answer);
        found.answer = Some(first("answers", item + i as u64, &ours, &theirs));
    }
    if as_one && a.machine != b.machine {
        let all = states::differences(&a.machine, &b.machine);
        let names: Vec<&str> =
            all.iter().take(NAMES_SHOWN).map(|(name, ..)| name.as_str()).collect();
        let more = if all.len() > NAMES_SHOWN { ", .." } else { "" };
        let (item, names) = (grouped(item), names.join(", "));
        found.state = Some(format!("the states first differ after item {item}: {names}{more}\n"));
    }
}

/// One capture has more records than the other.
fn alone(more: &mut Side, ended: &Side, found: &mut Found, swapped: bool) {
    let item = more.at.item + 1;
    let begin = more.run(more.left().len());
    let (told, none) = (more.told(&begin, 0), format!("{}: no more", ended.input));
    let tell = |what: &str, told: &str| {
        let (ours, theirs) = if swapped { (&*none, told) } else { (told, &*none) };
        first(what, item, ours, theirs)
    };
    found.record.get_or_insert_with(|| tell("records", &told.record));
    found.answer.get_or_insert_with(|| tell("answers", &told.answer));
}

/// Where something first differs.
fn first(what: &str, item: u64, ours: &str, theirs: &str) -> String {
    format!("the {what} first differ at item {}:\n  {ours}\n  {theirs}\n", grouped(item))
}
