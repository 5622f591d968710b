//! `swarmtempo run`: a list streamed through the machine in fixed memory.

use super::contents::{self, Sampled};
use super::failure::{failure, Failure};
use super::fields::{Fields, Rows, Value};
use super::files::{self, say, Out};
use super::filter::Filter;
use super::gtkw::SaveFile;
use super::lines::{list_failure, Lines};
use super::place::{Input, Output};
use super::progress::Progress;
use super::request::{Form, Options};
use super::style::Style;
use super::summarize::elsewhere;
use super::summary::{End, Summary};
use super::{image, source};
use std::io::{self, Read};
use swarmtempo::decode::waited;
use swarmtempo::table::{self, HEAD, HEAD_OF_TEXT};
use swarmtempo::vcd::{save_file, Vcd};
use swarmtempo::{
    pieces, Answer, Chip, Chunks, Decoder, DiskLine, Item, Machine, Piece, Place, Refusal, Timed,
    Transaction, ANSWER_LEN,
};

/// What to do with records that come as a text.
pub const RECORDS: &str = "records are run without --text";
/// Bytes of rows gathered before they are written.
const ROWS_LEN: usize = 1 << 15;

/// Runs, and gives the exit status.
pub fn run(options: &Options) -> Result<u8, Failure> {
    let list = source::open(&options.list)?;
    let image = options.image.as_ref().map(|input| Ok((input, source::open(input)?)));
    let image = image.transpose()?;
    let outs = Outs::open(options)?;
    let machine = match image {
        Some((input, file)) => image::read(input, file)?,
        None => Machine::fresh(options.chip),
    };
    if options.form == Form::Text && source::length(&options.list).is_some() {
        // The whole text first, so that nothing is run where a line is wrong.
        let mut text = Lines::new(&options.list, source::open(&options.list)?, RECORDS)?;
        text.pour(&options.list, |_| Ok(()))?;
    }
    let list = List::of(&options.list, options.form, list, "run it with --text")?;
    let mut runner = Runner::new(options, machine, outs)?;
    runner.stream(list, options)?;
    runner.close(options)
}

/// A list, as its records.
pub enum List {
    /// From records.
    Records(Sampled),
    /// From a text.
    Text(Box<Lines>),
}

impl List {
    /// From a file of this form; `advice` is what to do with a text where records are expected.
    pub fn of(
        input: &Input,
        form: Form,
        file: Box<dyn Read>,
        advice: &str,
    ) -> Result<List, Failure> {
        Ok(match form {
            Form::Text => List::Text(Box::new(Lines::new(input, file, RECORDS)?)),
            Form::Records => List::Records(contents::sample(input, file)?.1),
            Form::Unsaid => List::Records(contents::records(input, file, advice)?),
        })
    }
}

impl Read for List {
    fn read(&mut self, buffer: &mut [u8]) -> io::Result<usize> {
        match self {
            List::Records(records) => records.read(buffer),
            List::Text(lines) => lines.read(buffer),
        }
    }
}

/// A list in chunks; one that is not a plain file as it comes.
pub fn chunks_of(mut list: List, live: bool) -> Chunks<List> {
    if let (List::Text(lines), true) = (&mut list, live) {
        lines.go_live();
    }
    if live {
        Chunks::new(list).eager()
    } else {
        Chunks::new(list)
    }
}

/// Where everything goes.
struct Outs {
    table: Option<Out>,
    answers: Option<Out>,
    vcd: Option<Out>,
    beside: Option<SaveFile>,
    save: Option<Out>,
}

impl Outs {
    fn open(options: &Options) -> Result<Outs, Failure> {
        Ok(Outs {
            table: options.table().then(|| Out::text(&Output::standard())).transpose()?,
            answers: options.answers.as_ref().map(Out::bytes).transpose()?,
            vcd: options.vcd.as_ref().map(Out::text).transpose()?,
            beside: options.vcd.as_ref().map(SaveFile::open).transpose()?.flatten(),
            save: options.save.as_ref().map(Out::bytes).transpose()?,
        })
    }
}

struct Runner {
    machine: Machine,
    /// By the plain engine.
    plain: bool,
    answers: Option<Out>,
    table: Option<Out>,
    rows: Rows,
    filter: Filter,
    /// The list is a text: rows have its lines.
    of_text: bool,
    /// Of the last record answered.
    at: Place,
    style: Style,
    vcd: Option<Vcd<Out>>,
    beside: Option<SaveFile>,
    save: Option<Out>,
    summary: Summary,
    /// For the summary, on a chip with 20 cells: the transactions of two bytes that one with 256 would take.
    decoder: Option<Decoder>,
    elsewhere: u64,
    /// Answer bytes left.
    room: u64,
    stop: Option<Refusal>,
    consumed: u64,
    written: u64,
}

impl Runner {
    fn new(options: &Options, machine: Machine, outs: Outs) -> Result<Runner, Failure> {
        let vcd = match outs.vcd {
            Some(out) => Some(Vcd::new(out, machine.state()).map_err(|e| of_dump(options, e))?),
            None => None,
        };
        Ok(Runner {
            summary: Summary::new(machine.state()),
            decoder: (machine.chip() == Chip::First && !options.quiet)
                .then(|| Decoder::new(&machine.state())),
            elsewhere: 0,
            machine,
            plain: options.plain,
            answers: outs.answers,
            table: outs.table,
            rows: options.rows,
            filter: options.filter,
            of_text: options.form == Form::Text,
            at: Place::default(),
            style: Style::of_output(options.colour),
            vcd,
            beside: outs.beside,
            save: outs.save,
            room: options.room.unwrap_or(u64::MAX),
            stop: None,
            consumed: 0,
            written: 0,
        })
    }

    fn stream(&mut self, list: List, options: &Options) -> Result<(), Failure> {
        let text = options.form == Form::Text;
        let total = if text { None } else { source::length(&options.list) };
        let mut progress = Progress::new(options.table(), total);
        let live = source::length(&options.list).is_none();
        let mut chunks = chunks_of(list, live);
        let mut buffer = Vec::new();
        if let Some(table) = &mut self.table {
            table.put(head(self.rows, self.of_text, self.style).as_bytes())?;
        }
        while self.stop.is_none() {
            let chunk = chunks.next().map_err(|error| {
                progress.clear();
                list_failure(&options.list, error)
            })?;
            if chunk.is_none() {
                break;
            }
            let lines = match chunks.source() {
                List::Text(lines) if self.table.is_some() => Some(&**lines),
                _ => None,
            };
            self.chunk(chunks.last(), lines, &mut buffer, options)?;
            if let List::Text(lines) = chunks.source_mut() {
                self.summary.find_lines(|offset| lines.line_at(offset));
                self.summary.converted = lines.converted();
                lines.forget(self.consumed);
            }
            if live {
                self.show_now()?;
            }
            progress.show(self.consumed, self.written / ANSWER_LEN as u64);
        }
        progress.clear();
        Ok(())
    }

    /// What goes to a terminal or a pipe is not held back.
    fn show_now(&mut self) -> Result<(), Failure> {
        let outs = self.table.iter_mut().chain(&mut self.answers);
        outs.filter(|out| !out.can_take_back()).try_for_each(Out::show_now)
    }

    /// A chunk of the list; with a dump one record at a time, to see the wires after each.
    fn chunk(
        &mut self,
        chunk: &[u8],
        lines: Option<&Lines>,
        buffer: &mut Vec<u8>,
        options: &Options,
    ) -> Result<(), Failure> {
        if self.vcd.is_none() {
            return self.step(chunk, lines, buffer);
        }
        for piece in pieces(chunk) {
            let before = self.machine.clone();
            self.step(piece.as_ref(), lines, buffer)?;
            self.watch(piece, buffer, before).map_err(|error| of_dump(options, error))?;
            if self.stop.is_some() {
                break;
            }
        }
        Ok(())
    }

    /// Runs a part of the list; its answers are left in `buffer`.
    fn step(
        &mut self,
        part: &[u8],
        lines: Option<&Lines>,
        buffer: &mut Vec<u8>,
    ) -> Result<(), Failure> {
        let wanted = ANSWER_LEN * pieces(part).count();
        buffer.clear();
        buffer.resize(wanted.min(usize::try_from(self.room).unwrap_or(usize::MAX)), 0);
        let run = if self.plain {
            self.machine.run_in_plain(part, buffer)
        } else {
            self.machine.run_in(part, buffer)
        };
        buffer.truncate(run.written);
        self.show(part, lines, buffer)?;
        self.stop = run.stop;
        self.consumed += run.consumed as u64;
        self.written += run.written as u64;
        self.room -= run.written as u64;
        if let Some(answers) = &mut self.answers {
            answers.put(buffer)?;
        }
        Ok(())
    }

    /// The answers to a part of the list, counted, and as rows of the table.
    fn show(&mut self, part: &[u8], lines: Option<&Lines>, answers: &[u8]) -> Result<(), Failure> {
        let mut offset = self.consumed;
        let mut rows = String::new();
        for (piece, answer) in pieces(part).zip(answers.as_chunks::<ANSWER_LEN>().0) {
            self.summary.note(piece, *answer, offset);
            if let Some(decoder) = &mut self.decoder {
                let count = &mut self.elsewhere;
                decoder.record(self.at, piece, answer, &mut |it: Transaction| {
                    *count += u64::from(it.of_two_elsewhere());
                });
            }
            let begins = offset;
            offset += piece.as_ref().len() as u64;
            let Some(table) = &mut self.table else {
                continue;
            };
            self.at.item += 1;
            self.at.offset = begins;
            self.at.via_ticks += u64::from(waited(piece, answer));
            if !self.filter.record(&self.at, piece, *answer) {
                continue;
            }
            self.at.line = lines.and_then(|lines| lines.line_at(self.at.offset));
            match self.rows {
                Rows::Words => {
                    let start = rows.len();
                    table::row(&self.at, self.of_text, piece, answer, &mut rows);
                    if answer[2..4] != *b"OK" {
                        let row = self.style.refused(&rows[start..]);
                        rows.replace_range(start.., &row);
                    }
                }
                Rows::Json => fields(&self.at, piece, *answer).json(&mut rows),
                Rows::Csv => fields(&self.at, piece, *answer).csv_row(&mut rows),
            }
            if rows.len() > ROWS_LEN {
                table.put(rows.as_bytes())?;
                rows.clear();
            }
        }
        self.table.iter_mut().try_for_each(|table| table.put(rows.as_bytes()))
    }

    /// A record, its answer and the machine before it, for the dump.
    fn watch(&mut self, piece: Piece<'_>, answer: &[u8], before: Machine) -> io::Result<()> {
        let (Some(vcd), Some(answer)) = (&mut self.vcd, answer.first_chunk::<ANSWER_LEN>()) else {
            return Ok(());
        };
        vcd.record(piece, answer, before, self.machine.state())
    }

    /// Files take their places; the summary.
    fn close(mut self, options: &Options) -> Result<u8, Failure> {
        if let Some(save) = &mut self.save {
            save.put(self.machine.image())?;
        }
        let end = self.vcd.as_ref().map_or(0, Vcd::end);
        let beside = self.beside.map(|it| it.write(|dump, save| save_file(dump, save, end)));
        let vcd = self.vcd.map(Vcd::finish).transpose().map_err(|error| of_dump(options, error))?;
        let all = [self.table, self.answers, vcd, beside.transpose()?, self.save];
        files::keep(all.into_iter().flatten())?;
        let number = self.stop.map_or(0, Refusal::number);
        let refusal = self.summary.first_refusal();
        if !options.quiet || number != 0 || refusal != 0 {
            let (consumed, written) = (self.consumed, self.written);
            let end = End { stop: self.stop, consumed, written, state: &self.machine.state() };
            let mut text = self.summary.text(&end, Style::of_errors(options.colour));
            if self.elsewhere > 0 {
                text.push_str(&format!("  clock chip    {}\n", elsewhere(self.elsewhere)));
            }
            say(text.trim_end());
        }
        Ok(if number == 0 && options.strict { refusal } else { number })
    }
}

/// Above the rows.
fn head(rows: Rows, of_text: bool, style: Style) -> String {
    let mut out = String::new();
    match rows {
        Rows::Words => out = style.heading(if of_text { HEAD_OF_TEXT } else { HEAD }),
        Rows::Csv => {
            fields(&Place::default(), Piece::Rest(&[]), [0; ANSWER_LEN]).csv_head(&mut out);
        }
        Rows::Json => {}
    }
    out
}

/// A record and its answer as named values.
fn fields(at: &Place, piece: Piece<'_>, answer: [u8; ANSWER_LEN]) -> Fields {
    let item = Timed::try_from(piece);
    // All of an item; the first bytes of what is none.
    let record = item.map_or_else(|_| table::record(piece), |timed| timed.to_string());
    let mut fields = Fields::default();
    fields.place(["item", "offset", "line", "via_ticks"], Some(at)).put("record", record);
    let (seen, refusal) = match Answer::read(&answer) {
        Some(Answer::Ok(seen)) => (Some(seen), None),
        Some(Answer::No(refusal)) => (None, Some(refusal)),
        None => (None, None),
    };
    let read = item.is_ok_and(|timed| matches!(timed.item, Item::Read(_) | Item::Pulse(_)));
    fields.put("answer", if seen.is_some() { "OK" } else { "NO" });
    fields.put("value", seen.filter(|_| read).map(|seen| seen.value));
    fields.put("level", seen.map(|seen| u64::from(seen.level)));
    fields.put("sel", seen.map(|seen| u64::from(seen.sel)));
    let lines = seen.map(|seen| Value::all(seen.lines.iter().map(DiskLine::name)));
    fields.put("lines_on", lines);
    fields.put("refusal", refusal.map(|refusal| u64::from(refusal.number())));
    fields.put("refusal_words", refusal.map(|refusal| refusal.to_string()));
    fields
}

/// An error of writing the dump.
fn of_dump(options: &Options, error: io::Error) -> Failure {
    let name = options.vcd.as_ref().map_or(String::new(), ToString::to_string);
    failure(name, error)
}
