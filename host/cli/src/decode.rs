//! `swarmtempo decode`: the clock transactions of a capture.

use super::conflicts::Uses;
use super::cut::{reads, start};
use super::failure::Failure;
use super::fields::{seconds, target, Fields, Rows, Value};
use super::files::{self, Out};
use super::filter::Filter;
use super::place::{Input, Output};
use super::request::Form;
use super::walk::Walk;
use super::words::Given;
use swarmtempo::describe::date;
use swarmtempo::{Asked, Decoder, Fate, Place, Transaction};

/// Bytes of rows gathered before they are written.
const ROWS_LEN: usize = 1 << 15;

/// The names of places.
const STARTS: [&str; 4] = ["start_item", "start_offset", "start_line", "start_via_ticks"];
const SETTLED: [&str; 4] = ["settled_item", "settled_offset", "settled_line", "settled_via_ticks"];
const ENDS: [&str; 4] = ["end_item", "end_offset", "end_line", "end_via_ticks"];

/// Shows the transactions, and gives the exit status.
pub fn decode(given: &Given) -> Result<u8, Failure> {
    let input = Input::of(given.need()?);
    let output = given.value("-o").map_or(Output::standard(), Output::of);
    let (form, rows) = (Form::of("decode", given)?, Rows::of("decode", given)?);
    let filter = Filter::of("decode", given)?;
    let uses = &mut Uses::of("decode");
    reads(uses, given, std::slice::from_ref(&input)).writes("-o", &output).check()?;
    let machine = start("decode", given)?;
    let mut decoder = Decoder::new(&machine.state());
    let mut out = Out::text(&output)?;
    let mut walk = Walk::new(&input, form, machine, output.path().is_none())?;
    let mut table = Table { rows, text: form == Form::Text, filter, ready: String::new() };
    table.head();
    walk.whole(|step| {
        decoder.record(step.at, step.piece, step.answer, &mut |it| table.row(&it));
        if table.ready.len() > ROWS_LEN {
            out.put(table.ready.as_bytes())?;
            table.ready.clear();
        }
        Ok(())
    })?;
    decoder.finish(&mut |it| table.row(&it));
    out.put(table.ready.as_bytes())?;
    files::keep([out])?;
    Ok(walk.stopped())
}

/// Writes rows.
struct Table {
    rows: Rows,
    /// The capture is a text: rows have its lines.
    text: bool,
    filter: Filter,
    ready: String,
}

impl Table {
    fn head(&mut self) {
        match self.rows {
            Rows::Words => self.ready.push_str(&head(self.text)),
            Rows::Csv => fields(&nothing()).csv_head(&mut self.ready),
            Rows::Json => {}
        }
    }

    fn row(&mut self, it: &Transaction) {
        if !self.filter.transaction(it) {
            return;
        }
        match self.rows {
            Rows::Words => row(it, self.text, &mut self.ready),
            Rows::Json => fields(it).json(&mut self.ready),
            Rows::Csv => fields(it).csv_row(&mut self.ready),
        }
    }
}

/// Above the rows.
fn head(text: bool) -> String {
    let line = if text { "    line" } else { "" };
    format!(
        "      no.       VIA ticks        seconds      offset{line}  {:<28} {:<9}  fate\n",
        "asked", "byte"
    )
}

/// A transaction, where it begins.
fn row(it: &Transaction, text: bool, out: &mut String) {
    use std::fmt::Write;
    let Place { offset, line, via_ticks, .. } = it.start;
    let _ =
        write!(out, "{:>9}  {via_ticks:>14}  {:>13}  {offset:>10}", it.number, seconds(via_ticks));
    if text {
        let line = line.map_or("-".to_string(), |line| line.to_string());
        let _ = write!(out, "  {line:>6}");
    }
    let _ = writeln!(out, "  {:<28} {:<9}  {}", it.asked, it.byte(), it.fate_words());
}

/// For the names alone.
fn nothing() -> Transaction {
    Transaction {
        number: 0,
        start: Place::default(),
        settled: None,
        end: None,
        begun: false,
        asked: Asked::Before,
        bits: 0,
        data: (0, 0),
        fate: Fate::Before,
        refused: 0,
    }
}

/// All of a transaction.
pub fn fields(it: &Transaction) -> Fields {
    let mut fields = Fields(Vec::with_capacity(40));
    fields.put("number", it.number);
    fields.place(STARTS, Some(&it.start));
    fields.put("start_seconds", Value::Decimal(seconds(it.start.via_ticks)));
    fields.place(SETTLED, it.settled.as_ref()).place(ENDS, it.end.as_ref());
    fields.put("begun", it.begun).put("asked", it.asked.to_string());
    let (first, second, command) = match it.asked {
        Asked::Command { first, second, command } => (Some(first), second, command),
        Asked::First { first, .. } => (Some(first), None, None),
        Asked::Bits { .. } | Asked::Before => (None, None, None),
    };
    fields.put("first", first).put("second", second);
    let kind = match (command, it.asked) {
        (Some(command), _) => Some(command.read),
        (None, Asked::First { first, .. }) => Some(first & 0x80 != 0),
        _ => None,
    };
    fields.put("command", kind.map(|read| if read { "read" } else { "write" }));
    target(&mut fields, command);
    fields.put("bits", it.bits).put("fate", it.fate_name());
    fate(&mut fields, it);
    fields.put("refused", it.refused).put("words", it.to_string());
    fields
}

/// What only some fates have; nothing elsewhere.
fn fate(fields: &mut Fields, it: &Transaction) {
    let (mut byte, mut before, mut needed, mut read) = (None, None, None, None);
    match it.fate {
        Fate::Written { byte: sent, before: was, .. } => (byte, before) = (Some(sent), Some(was)),
        Fate::Protected { byte: sent, .. } => byte = Some(sent),
        Fate::Half { of } => needed = of.map(u64::from),
        Fate::Read { sent, falls, seen, date } => read = Some((sent, falls, seen, date)),
        Fate::Illegal | Fate::Before => {}
    }
    fields.put("byte", byte).put("before", before).put("needed_bits", needed);
    fields.put("sent", read.map(|(sent, ..)| sent));
    fields.put("sent_bits", read.map(|(_, falls, ..)| u64::from(falls)));
    fields.put("seen", read.and_then(|(_, _, seen, _)| seen.byte()));
    fields.put("seen_bits", read.map(|(_, _, seen, _)| seen.count() as u64));
    let seen = read.and_then(|(.., date)| date);
    fields.put("date_seconds", seen.map(|seen| u64::from(seen.seconds)));
    fields.put("date", seen.map(|seen| date(seen.seconds)));
    fields.put("clock_seconds", seen.map(|seen| u64::from(seen.clock)));
    fields.put("date_numbers", seen.map(|seen| Value::all(seen.numbers)));
}
