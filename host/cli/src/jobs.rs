//! `swarmtempo run` of many lists at once: a line for each, and a summary.

use super::commands::Flag;
use super::conflicts::Uses;
use super::cut::{inputs, list, start};
use super::failure::{called, Failure};
use super::files::{self, say, Out};
use super::lines::list_failure;
use super::numbers::{counted, ticks_and_seconds};
use super::place::{Input, Output};
use super::request::Form;
use super::run::List;
use super::style::{Style, When};
use super::words::Given;
use std::collections::BTreeMap;
use std::sync::atomic::{AtomicUsize, Ordering};
use std::sync::mpsc::channel;
use std::thread;
use swarmtempo::{pieces, Chunks, Machine, Refusal, Timed, ANSWER_LEN};

/// Lists run at a time, at most.
const JOBS_MOST: u64 = 256;
/// Above the rows.
const HEAD: &str = "status   carried out     refused            VIA ticks  cells changed  list\n";

/// The option that asks for it.
pub const JOBS: Flag = Flag {
    name: "--jobs",
    value: "COUNT",
    help: "runs so many lists at a time (without it: one for each processor)",
};

/// Options that are for one list.
const OF_ONE: [&str; 10] = [
    "--save",
    "--answers",
    "--vcd",
    "--room",
    "--from",
    "--to",
    "--only",
    "--refused",
    "--json",
    "--csv",
];

/// True where the words ask for a row for each list.
pub fn asked(given: &Given) -> bool {
    given.operands().len() > 1 || given.flag(JOBS.name)
}

/// Runs all lists named, each from the same state.
pub fn run(given: &Given) -> Result<u8, Failure> {
    let inputs = inputs(given.one_to(usize::MAX)?);
    let form = Form::of("run", given)?;
    let colour = given.value("--color").map_or(Some(When::Auto), |word| When::of(&word));
    let colour =
        colour.ok_or_else(|| Failure::usage("run", "--color needs always, never or auto"))?;
    if let Some(name) = OF_ONE.into_iter().find(|name| given.flag(name)) {
        let what = format!("{name} is for one list: many are run by name or --jobs");
        return Err(Failure::usage("run", &what));
    }
    let processors = thread::available_parallelism().map_or(1, |count| count.get() as u64);
    let jobs = given.number(JOBS.name)?.unwrap_or(processors.min(JOBS_MOST));
    if jobs == 0 || jobs > JOBS_MOST {
        let what = format!("--jobs needs a number of lists from 1 to {JOBS_MOST}");
        return Err(Failure::usage("run", &what));
    }
    let mut uses = Uses::of("run");
    for input in &inputs {
        uses.reads("LIST", input);
    }
    if let Some(image) = given.value("--image").map(Input::of) {
        uses.reads("--image", &image);
    }
    uses.writes("the rows", &Output::standard()).check()?;
    let machine = start("run", given)?;
    let strict = given.flag("--strict");
    let mut rows = Rows::new(given.flag("--quiet"), colour)?;
    each(
        jobs as usize,
        &inputs,
        |input| one(input, form, machine.clone(), strict),
        |input, row| rows.take(input, row),
    )?;
    rows.close()
}

/// Does something with all inputs, so many at a time, and takes the results in their order.
fn each(
    jobs: usize,
    inputs: &[Input],
    act: impl Fn(&Input) -> Result<Row, Failure> + Sync,
    mut take: impl FnMut(&Input, Result<Row, Failure>) -> Result<(), Failure>,
) -> Result<(), Failure> {
    let next = AtomicUsize::new(0);
    let (sender, results) = channel();
    thread::scope(|scope| {
        for _ in 0..jobs.min(inputs.len()) {
            let (sender, next, act) = (sender.clone(), &next, &act);
            scope.spawn(move || {
                while let Some((i, input)) = {
                    let i = next.fetch_add(1, Ordering::Relaxed);
                    inputs.get(i).map(|input| (i, input))
                } {
                    if sender.send((i, act(input))).is_err() {
                        break;
                    }
                }
            });
        }
        drop(sender);
        let mut early = BTreeMap::new();
        let mut shown = 0;
        for (i, row) in results {
            early.insert(i, row);
            while let Some(row) = early.remove(&shown) {
                if let Err(failure) = take(&inputs[shown], row) {
                    // No more are begun.
                    next.store(inputs.len(), Ordering::Relaxed);
                    return Err(failure);
                }
                shown += 1;
            }
        }
        Ok(())
    })
}

/// What a list came to.
#[derive(Default)]
struct Row {
    status: u8,
    stop: Option<Refusal>,
    carried_out: u64,
    refused: u64,
    /// VIA ticks.
    ticks: u64,
    cells: usize,
}

/// Runs one list, in fixed memory.
fn one(input: &Input, form: Form, mut machine: Machine, strict: bool) -> Result<Row, Failure> {
    let before = machine.state().cells;
    let mut chunks = Chunks::new(list(input, form)?);
    let mut row = Row::default();
    let mut answers = Vec::new();
    let mut first = 0;
    while row.stop.is_none() {
        let Some(chunk) = chunks.next().map_err(|error| list_failure(input, error))? else {
            break;
        };
        answers.clear();
        row.stop = machine.run(chunk, &mut answers).stop;
        for (piece, answer) in pieces(chunk).zip(answers.as_chunks::<ANSWER_LEN>().0) {
            if answer[2..4] == *b"OK" {
                row.carried_out += 1;
                row.ticks += Timed::try_from(piece).map_or(0, |timed| u64::from(timed.wait.0));
            } else {
                row.refused += 1;
                first = if first == 0 { answer[4] } else { first };
            }
        }
        if let List::Text(lines) = chunks.source_mut() {
            lines.forget(u64::MAX);
        }
    }
    row.cells = before.iter().zip(&machine.state().cells).filter(|(a, b)| a != b).count();
    row.status = match row.stop {
        Some(stop) => stop.number(),
        None if strict => first,
        None => 0,
    };
    Ok(row)
}

/// The rows so far, and what they come to.
struct Rows {
    out: Out,
    quiet: bool,
    style: Style,
    errors: Style,
    lists: u64,
    at_end: u64,
    not_run: u64,
    all: Row,
}

impl Rows {
    fn new(quiet: bool, colour: When) -> Result<Rows, Failure> {
        let mut rows = Rows {
            out: Out::text(&Output::standard())?,
            quiet,
            style: Style::of_output(colour),
            errors: Style::of_errors(colour),
            lists: 0,
            at_end: 0,
            not_run: 0,
            all: Row::default(),
        };
        if !quiet {
            rows.out.put(rows.style.heading(HEAD).as_bytes())?;
        }
        Ok(rows)
    }

    fn take(&mut self, input: &Input, row: Result<Row, Failure>) -> Result<(), Failure> {
        self.lists += 1;
        let status = row.as_ref().map_or_else(Failure::status, |row| row.status);
        if self.all.status == 0 {
            self.all.status = status;
        }
        let (text, fine) = match row {
            Ok(row) => {
                self.at_end += u64::from(row.stop.is_none());
                self.all.carried_out += row.carried_out;
                self.all.refused += row.refused;
                self.all.ticks += row.ticks;
                let Row { carried_out, refused, ticks, cells, .. } = row;
                let text = format!(
                    "{status:>6}  {carried_out:>12}  {refused:>10}  {ticks:>19}  {cells:>13}  {input}\n"
                );
                (text, refused == 0)
            }
            Err(failure) => {
                self.not_run += 1;
                say(&self.errors.refused(&format!("swarmtempo: {failure}")));
                let none = "-";
                let text = format!(
                    "{status:>6}  {none:>12}  {none:>10}  {none:>19}  {none:>13}  {input}\n"
                );
                (text, false)
            }
        };
        if self.quiet && fine {
            return Ok(());
        }
        let text = if fine { text } else { self.style.refused(&text) };
        self.out.put(text.as_bytes())?;
        self.out.show_now()
    }

    fn close(self) -> Result<u8, Failure> {
        files::keep([self.out])?;
        if self.quiet && self.all.refused == 0 && self.not_run == 0 {
            return Ok(self.all.status);
        }
        let stopped = self.lists - self.at_end - self.not_run;
        let lines = [
            format!(
                "{}: {} to the end, {stopped} stopped before it, {} not read",
                counted(self.lists, "list"),
                self.at_end,
                self.not_run
            ),
            format!("  carried out   {}", counted(self.all.carried_out, "item")),
            format!("  refused       {}", counted(self.all.refused, "item")),
            format!("  duration      {} in all", ticks_and_seconds(self.all.ticks)),
        ];
        say(&lines.join("\n"));
        if self.all.refused > 0 || self.not_run > 0 {
            say(&format!("  {} run LIST has the refusals of one", called()));
        }
        Ok(self.all.status)
    }
}
