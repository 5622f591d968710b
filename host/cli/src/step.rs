//! `swarmtempo step`: a list item by item, by commands from a terminal, a pipe or a script.

mod order;

use super::commands::{Command, Flag};
use super::conflicts::Uses;
use super::cut::start;
use super::failure::{failure, Failure};
use super::files::{self, say, Out};
use super::lines::{self, list_failure, Lines};
use super::numbers::{counted, grouped, ticks_and_seconds};
use super::place::{Input, Output};
use super::request::Form;
use super::run::{chunks_of, List};
use super::source;
use super::style::{Style, When};
use super::words::Given;
use order::Order;
use std::collections::VecDeque;
use std::io::{self, BufRead, IsTerminal, Read};
use swarmtempo::table::{Table, HEAD};
use swarmtempo::{
    describe, pieces, wire_steps, Chunks, Machine, Phase, Piece, Refusal, State, Target, Timed,
    ANSWER_LEN,
};

/// Rows kept for `answers`.
const ROWS_KEPT: usize = 1000;
/// Bytes of a script at most.
const SCRIPT_MAX: u64 = 1 << 20;

/// The command.
pub const COMMAND: Command = Command {
    name: "step",
    operand: "CAPTURE",
    brief: "a list item by item, by commands",
    about: "Runs a list as far as it is told, from a terminal, a pipe or a script, a command a line:\n\
            \n  \
            next [COUNT]      the next item, or so many; on a terminal an empty line is next\n  \
            refusal           on until an item is refused\n  \
            cell [CELL]       on until a cell of the clock chip is written, or that cell\n  \
            end               on to the end of the list\n  \
            answers [COUNT]   the rows of the last items: 10, or so many, at most 1000\n  \
            state             the state in words\n  \
            where             how far it is: item, byte offset, line of a text, VIA ticks\n  \
            help, quit        a comment starts with ;\n\
            \n\
            The first letter of a command does, too. Every wrong line of a script is named, as\n\
            FILE:LINE:COLUMN: MESSAGE, and then nothing is run; a wrong command from a pipe ends it.\n\
            \n\
            Exit status: 0 after quit or the last command, 1 a record that is cut was met, 7 the image\n\
            is none of an accepted state.",
    flags: &[
        Flag { name: "--script", value: "FILE", help: "takes the commands from FILE" },
        Flag { name: "--text", value: "", help: "the list is in the text form" },
        Flag { name: "--records", value: "", help: "the list is records even where it looks like a text" },
        Flag {
            name: "--cells",
            value: "CELLS",
            help: "the fresh machine's clock chip has so many cells: 20 (without it, too) or 256",
        },
        Flag {
            name: "--image",
            value: "FILE",
            help: "begins with the state of this image, not with the fresh machine",
        },
        Flag { name: "--save", value: "FILE", help: "writes the image of the state reached" },
    ],
};

/// Steps through a list.
pub fn step(given: &Given) -> Result<u8, Failure> {
    let input = Input::of(given.need()?);
    let script = given.value("--script").map(Input::of);
    let commands = script.clone().unwrap_or(Input::standard());
    let save = given.value("--save").map(Output::of);
    let mut uses = Uses::of("step");
    uses.reads("CAPTURE", &input);
    let word = if script.is_some() { "--script" } else { "the commands (which --script names)" };
    uses.reads(word, &commands);
    if let Some(image) = given.value("--image").map(Input::of) {
        uses.reads("--image", &image);
    }
    uses.writes("what the commands show", &Output::standard());
    if let Some(save) = &save {
        uses.writes("--save", save);
    }
    uses.check()?;
    let form = Form::of("step", given)?;
    let machine = start("step", given)?;
    let list = open(&input, form)?;
    let save = save.as_ref().map(Out::bytes).transpose()?;
    let orders = script.as_ref().map(scripted).transpose()?;
    let mut stepper = Stepper::new(input, list, machine)?;
    match orders {
        Some(orders) => {
            for (line, order) in orders {
                if !stepper.told(&line, order)? {
                    break;
                }
            }
        }
        None => stepper.listen()?,
    }
    stepper.close(save)
}

/// The list. A text in a plain file is looked through first, so that nothing is run where a line is
/// wrong.
fn open(input: &Input, form: Form) -> Result<Chunks<List>, Failure> {
    let advice = "with --text it is taken as one";
    let live = source::length(input).is_none();
    if form == Form::Text && !live {
        let mut text = Lines::new(input, source::open(input)?, "records come without --text")?;
        text.pour(input, |_| Ok(()))?;
    }
    Ok(chunks_of(List::of(input, form, source::open(input)?, advice)?, live))
}

/// All commands of a script; every wrong line is told.
fn scripted(script: &Input) -> Result<Vec<(String, Order)>, Failure> {
    let mut text = Vec::new();
    let read = source::open(script)?.take(SCRIPT_MAX + 1).read_to_end(&mut text);
    read.map_err(|error| failure(script, error))?;
    if text.len() as u64 > SCRIPT_MAX {
        let what = format!("a script has at most {} bytes", grouped(SCRIPT_MAX));
        return Err(Failure::Content(script.to_string(), what));
    }
    let mut orders = Vec::new();
    lines::each(script, &text, |_, line| {
        orders.extend(Order::of(line)?.map(|order| (line.trim().to_string(), order)));
        Ok(())
    })?;
    Ok(orders)
}

/// What came of an item.
struct Done {
    row: String,
    refused: bool,
    /// None where it was refused.
    timed: Option<Timed>,
}

/// A list under way.
struct Stepper {
    input: Input,
    chunks: Chunks<List>,
    /// The chunk under way, and how much of it is done.
    chunk: Vec<u8>,
    at: usize,
    machine: Machine,
    stop: Option<Refusal>,
    table: Table,
    rows: VecDeque<String>,
    out: Out,
    style: Style,
    items: u64,
    /// Where the item to come begins, in bytes, and the line of the last one.
    offset: u64,
    line: Option<u64>,
    ticks: u64,
}

impl Stepper {
    fn new(input: Input, chunks: Chunks<List>, machine: Machine) -> Result<Stepper, Failure> {
        Ok(Stepper {
            input,
            chunks,
            chunk: Vec::new(),
            at: 0,
            machine,
            stop: None,
            table: Table::default(),
            rows: VecDeque::new(),
            out: Out::text(&Output::standard())?,
            style: Style::of_output(When::Auto),
            items: 0,
            offset: 0,
            line: None,
            ticks: 0,
        })
    }

    /// Commands from standard input, as they come.
    fn listen(&mut self) -> Result<(), Failure> {
        let terminal = io::stdin().is_terminal();
        let input = Input::standard();
        let mut from = io::stdin().lock();
        let mut line = Vec::new();
        for number in 1u64.. {
            if terminal {
                self.put("step> ")?;
                self.out.show_now()?;
            }
            line.clear();
            // A longer line is no command; the rest of it is the next one.
            let read = (&mut from).take(SCRIPT_MAX).read_until(b'\n', &mut line);
            if read.map_err(|error| failure(&input, error))? == 0 {
                if terminal {
                    self.put("\n")?;
                }
                break;
            }
            let text = String::from_utf8_lossy(&line).into_owned();
            if !self.heard(text.trim_end(), number, terminal)? {
                break;
            }
        }
        Ok(())
    }

    /// Does what a line says, and says whether to go on. On a terminal an empty line is next, and a
    /// wrong one is told.
    fn heard(&mut self, text: &str, number: u64, terminal: bool) -> Result<bool, Failure> {
        let echo = if terminal { "" } else { text.trim() };
        match Order::of(text) {
            Ok(None) if terminal && text.is_empty() => self.told(echo, Order::Next(1)),
            Ok(None) => Ok(true),
            Ok(Some(order)) => self.told(echo, order),
            Err(error) if terminal => self.put(&format!("{}\n", error.message)).map(|()| true),
            Err(error) => {
                let input = Input::standard();
                self.out.show_now()?;
                say(&format!("{input}:{number}:{}: {}", error.column, error.message));
                Err(Failure::Text(input.to_string(), 1))
            }
        }
    }

    /// Does what it is told, shows it, and says whether to go on.
    fn told(&mut self, line: &str, order: Order) -> Result<bool, Failure> {
        if !line.is_empty() {
            self.put(&format!("> {line}\n"))?;
        }
        match order {
            Order::Next(count) => self.next(count)?,
            Order::Refusal => self.until_refusal()?,
            Order::Cell(cell) => self.until_cell(cell)?,
            Order::End => {
                let before = self.items;
                while self.one()?.is_some() {}
                self.passed(before)?;
            }
            Order::Answers(count) => self.answers(count)?,
            Order::State => self.put(&describe::image(&self.machine))?,
            Order::Where => self.place()?,
            Order::Help => {
                let (_, about) = COMMAND.about.split_once("\n\n").unwrap_or(("", COMMAND.about));
                let commands = about.split("\n\n").next().unwrap_or(about);
                self.put(&format!("{commands}\n"))?;
            }
            Order::Quit => return Ok(false),
        }
        self.out.show_now()?;
        Ok(true)
    }

    fn put(&mut self, text: &str) -> Result<(), Failure> {
        self.out.put(text.as_bytes())
    }

    fn next(&mut self, count: u64) -> Result<(), Failure> {
        let heading = self.style.heading(HEAD);
        for i in 0..count {
            let Some(done) = self.one()? else {
                return self.ended();
            };
            if i == 0 {
                self.put(&heading)?;
            }
            self.row(&done)?;
        }
        Ok(())
    }

    fn until_refusal(&mut self) -> Result<(), Failure> {
        let before = self.items;
        while let Some(done) = self.one()? {
            if done.refused {
                self.passed(before)?;
                self.put(&self.style.heading(HEAD))?;
                return self.row(&done);
            }
        }
        self.put("no item is refused up to the end\n")?;
        self.passed(before)
    }

    fn until_cell(&mut self, wanted: Option<u8>) -> Result<(), Failure> {
        let first = self.items;
        let mut before = self.machine.clone();
        while let Some(done) = self.one()? {
            let cells = done.timed.map_or(Vec::new(), |timed| cells_written(before, timed));
            if cells.iter().any(|&(cell, ..)| wanted.is_none_or(|it| it == cell)) {
                self.passed(first)?;
                self.put(&self.style.heading(HEAD))?;
                self.row(&done)?;
                for (cell, old, new) in cells {
                    self.put(&format!("cell {cell}: ${old:02X} before, ${new:02X} after\n"))?;
                }
                return Ok(());
            }
            before = self.machine.clone();
        }
        let which = wanted.map_or("no cell is".to_string(), |cell| format!("cell {cell} is not"));
        self.put(&format!("{which} written up to the end\n"))?;
        self.passed(first)
    }

    /// A row, coloured where it is of a refusal.
    fn row(&mut self, done: &Done) -> Result<(), Failure> {
        let row = if done.refused { self.style.refused(&done.row) } else { done.row.clone() };
        self.put(&row)
    }

    /// How many items came since.
    fn passed(&mut self, before: u64) -> Result<(), Failure> {
        let items = counted(self.items - before, "item");
        self.put(&format!("{items} on\n"))?;
        if self.stop.is_some() {
            self.ended()
        } else {
            Ok(())
        }
    }

    fn ended(&mut self) -> Result<(), Failure> {
        let why = self.stop.map_or("the end of the list".to_string(), |stop| {
            format!("stop {} ({stop}): the list does not go on", stop.number())
        });
        self.put(&format!("{why}\n"))
    }

    fn answers(&mut self, count: u64) -> Result<(), Failure> {
        let count = usize::try_from(count).unwrap_or(usize::MAX).min(self.rows.len());
        let rows: Vec<String> = self.rows.range(self.rows.len() - count..).cloned().collect();
        self.put(&self.style.heading(HEAD))?;
        self.put(&rows.concat())
    }

    fn place(&mut self) -> Result<(), Failure> {
        let line = self.line.map_or(String::new(), |line| format!(", line {}", grouped(line)));
        let text = format!(
            "after {}{line}, at byte offset {}, after {}\n",
            counted(self.items, "item"),
            grouped(self.offset),
            ticks_and_seconds(self.ticks)
        );
        self.put(&text)
    }

    /// The next piece of the list, or none at its end.
    fn piece(&mut self) -> Result<Option<Vec<u8>>, Failure> {
        if self.at == self.chunk.len() {
            let chunk = self.chunks.next().map_err(|error| list_failure(&self.input, error))?;
            let Some(chunk) = chunk else {
                return Ok(None);
            };
            self.chunk.clear();
            self.chunk.extend_from_slice(chunk);
            self.at = 0;
        }
        let piece = pieces(&self.chunk[self.at..]).next();
        let Some(Piece::Record(bytes) | Piece::Rest(bytes)) = piece else {
            return Ok(None);
        };
        self.at += bytes.len();
        Ok(Some(bytes.to_vec()))
    }

    /// One item, or none at the end.
    fn one(&mut self) -> Result<Option<Done>, Failure> {
        if self.stop.is_some() {
            return Ok(None);
        }
        let Some(bytes) = self.piece()? else {
            return Ok(None);
        };
        let Some(piece) = pieces(&bytes).next() else {
            return Ok(None);
        };
        let mut answer = [0; ANSWER_LEN];
        let run = self.machine.run_in(&bytes, &mut answer);
        self.stop = run.stop;
        self.items += 1;
        if let List::Text(lines) = self.chunks.source_mut() {
            self.line = lines.line_at(self.offset);
            lines.forget(self.offset);
        }
        self.offset += run.consumed as u64;
        let refused = answer[2..4] != *b"OK";
        let timed = Timed::try_from(piece).ok().filter(|_| !refused);
        self.ticks += timed.map_or(0, |timed| u64::from(timed.wait.0));
        let mut row = String::new();
        self.table.row(piece, &answer, &mut row);
        if self.rows.len() == ROWS_KEPT {
            self.rows.pop_front();
        }
        self.rows.push_back(row.clone());
        Ok(Some(Done { row, refused, timed }))
    }

    fn close(self, mut save: Option<Out>) -> Result<u8, Failure> {
        if let Some(save) = &mut save {
            save.put(self.machine.image())?;
        }
        files::keep([Some(self.out), save].into_iter().flatten())?;
        Ok(self.stop.map_or(0, Refusal::number))
    }
}

/// The cells that an item writes that is carried out on this machine: each with its byte before and
/// after.
fn cells_written(mut machine: Machine, timed: Timed) -> Vec<(u8, u8, u8)> {
    let mut before = machine.state();
    let mut cells = Vec::new();
    for Timed { wait, item } in wire_steps(timed) {
        // What is carried out as one is carried out in steps.
        let _ = machine.step(wait, item);
        let after = machine.state();
        if let Some(cell) = cell_written(&before, &after) {
            let [old, new] = [&before, &after].map(|state| state.cells[usize::from(cell)]);
            cells.push((cell, old, new));
        }
        before = after;
    }
    cells
}

/// The cell that was written between two states, one step apart: the eighth bit of its byte was taken,
/// and protect was clear.
fn cell_written(before: &State, after: &State) -> Option<u8> {
    let command = match before.phase {
        Phase::Taking { command, bits: 7, .. } => swarmtempo::Command::of(command),
        Phase::TakingExtended { first, second, bits: 7, .. } => {
            swarmtempo::Command::of_two(first, second)
        }
        _ => None,
    };
    match command?.target {
        Target::Cell(cell) if after.phase == Phase::Ignoring && !before.protect => Some(cell),
        _ => None,
    }
}
