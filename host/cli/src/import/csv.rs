//! Comma-separated values of a logic analyser, read for three of their columns.
//!
//! Lines that begin with `;` or `#` are comments, of which sigrok's `Channels` and `Samplerate` are
//! read. The first other line has the columns' names, unless it has levels.

use super::level::Levels;
use super::reader::{Reader, WaveError};
use super::time::{is_time, of_sample, rate, Unit};
use super::vcd::OPTIONS;
use super::{Take, Told, Wishes};
use swarmtempo::{Femtoseconds, Wires, WIRES};

/// Names of columns told of at most.
const NAMES_MOST: usize = 40;

/// Reads the rows, and hands out a sample at each change, then the end.
pub fn read(
    reader: &mut Reader,
    mut comments: Comments,
    wishes: &Wishes,
    told: &mut Told,
    take: &mut Take<'_>,
) -> Result<(), WaveError> {
    let mut line = Vec::new();
    let mut rows: Option<Rows> = None;
    while let Some(number) = reader.line_of(&mut line)? {
        let Ok(text) = std::str::from_utf8(&line) else {
            return Err(WaveError::at(number, "not text (UTF-8)"));
        };
        let blank = text.trim().is_empty();
        if blank || rows.is_none() && comments.takes(text) || text.starts_with([';', '#']) {
            continue;
        }
        match &mut rows {
            Some(rows) => rows.row(text, number, told, take)?,
            None => {
                let columns = Columns::of(text, &comments, wishes, number)?;
                let mut first = Rows::new(columns);
                if !first.columns.headed {
                    first.row(text, number, told, take)?;
                }
                rows = Some(first);
            }
        }
    }
    match rows {
        Some(rows) => rows.end(reader.line(), take),
        None => Err(WaveError::at(1, "there are no rows, and no Value Change Dump either")),
    }
}

/// What sigrok says in comments.
#[derive(Default)]
pub struct Comments {
    channels: Vec<String>,
    rate: Option<u64>,
}

impl Comments {
    /// True where a line is a comment. The program of sigrok puts META lines among them.
    pub fn takes(&mut self, line: &str) -> bool {
        let meta = line.starts_with("META ");
        if !meta && !line.starts_with([';', '#']) {
            return false;
        }
        let Some((name, value)) = line.split_once(':') else {
            return true;
        };
        let name = name.to_lowercase();
        if name.contains("channels") {
            self.channels = value.split(',').map(|name| name.trim().to_string()).collect();
        } else if name.contains("samplerate") {
            self.rate = rate(value).or(self.rate);
        }
        true
    }
}

/// Where the times come from.
enum Times {
    /// A column of numbers of this unit.
    Column(usize, Unit),
    /// The number of the row, at so many samples a second.
    Rate(u64),
}

/// Which column is what.
struct Columns {
    separator: char,
    signals: [usize; 3],
    times: Times,
    /// The first row has names.
    headed: bool,
}

impl Columns {
    fn of(
        first: &str,
        comments: &Comments,
        wishes: &Wishes,
        line: u64,
    ) -> Result<Columns, WaveError> {
        let separator = [',', '\t', ';'].into_iter().find(|&c| first.contains(c)).unwrap_or(',');
        let cells: Vec<String> = cells(first, separator).map(str::to_string).collect();
        let number = |cell: &String| Unit::of("s").and_then(|unit| unit.decimal(cell)).is_some();
        let headed = !cells.iter().all(number);
        let names = names(&cells, headed, comments);
        let (column, unit) = time_column(&names, headed, comments, wishes, line)?;
        let mut signals = [0; 3];
        for (wire, signal) in signals.iter_mut().enumerate() {
            *signal = column_of(&names, &wishes.names[wire], wire, line)?;
        }
        let [a, b, c] = signals;
        if a == b || b == c || a == c || signals.iter().any(|&it| Some(it) == column) {
            return Err(WaveError::at(line, "two of the names are one column"));
        }
        let times = match (column, wishes.unit.or(unit), wishes.rate.or(comments.rate)) {
            (Some(column), Some(unit), _) => Times::Column(column, unit),
            (Some(column), None, _) => {
                let message = format!(
                    "the unit of the times in {} is not said: name it by --unit",
                    names[column]
                );
                return Err(WaveError::at(line, &message));
            }
            (None, _, Some(rate)) => Times::Rate(rate),
            (None, _, None) => {
                let message =
                    "there is no column of times, and no rate of samples: name one by --time \
                               or --rate";
                return Err(WaveError::at(line, message));
            }
        };
        Ok(Columns { separator, signals, times, headed })
    }
}

/// The cells of a row, without blanks and quotes around them.
fn cells(row: &str, separator: char) -> impl Iterator<Item = &str> {
    row.split(separator).map(|cell| {
        let cell = cell.trim();
        cell.strip_prefix('"').and_then(|cell| cell.strip_suffix('"')).unwrap_or(cell)
    })
}

/// The names of the columns: those of the first row, or of sigrok's channels, which come last where
/// the first row has units alone.
fn names(cells: &[String], headed: bool, comments: &Comments) -> Vec<String> {
    let channels = &comments.channels;
    let before = cells.len().saturating_sub(channels.len());
    let units = cells.iter().skip(before).all(|cell| cell == "logic");
    if channels.is_empty() || channels.len() > cells.len() || headed && !units {
        return if headed { cells.to_vec() } else { vec![String::new(); cells.len()] };
    }
    let first = if headed { cells[..before].to_vec() } else { vec!["time".to_string(); before] };
    first.into_iter().chain(channels.iter().cloned()).collect()
}

/// The column of times, where there is one, and the unit that its name has.
fn time_column(
    names: &[String],
    headed: bool,
    comments: &Comments,
    wishes: &Wishes,
    line: u64,
) -> Result<(Option<usize>, Option<Unit>), WaveError> {
    if let Some(name) = &wishes.time {
        let column = find(names, name).ok_or_else(|| {
            WaveError::at(line, &format!("no column is called {name}; there are {}", named(names)))
        })?;
        return Ok((Some(column), Unit::of_column(&names[column])));
    }
    if !headed && comments.channels.is_empty() {
        return Ok((None, None));
    }
    let column = names.iter().position(|name| is_time(name));
    Ok((column, column.and_then(|column| Unit::of_column(&names[column]))))
}

/// The column of a name, or of a number counted from 1.
fn find(names: &[String], wanted: &str) -> Option<usize> {
    let same = |name: &String| name == wanted;
    let near = |name: &String| name.eq_ignore_ascii_case(wanted);
    names.iter().position(same).or_else(|| names.iter().position(near)).or_else(|| {
        let number: usize = wanted.parse().ok()?;
        number.checked_sub(1).filter(|&column| column < names.len())
    })
}

fn column_of(names: &[String], wanted: &str, wire: usize, line: u64) -> Result<usize, WaveError> {
    let alike = names.iter().filter(|name| *name == wanted).count();
    let (what, option) = (WIRES[wire], OPTIONS[wire]);
    match find(names, wanted) {
        Some(column) if alike < 2 => Ok(column),
        Some(_) => {
            let message =
                format!("{alike} columns are called {wanted}: give the number by {option}");
            Err(WaveError::at(line, &message))
        }
        None => {
            let message = format!(
                "no column is called {wanted}: name the one of {what}, or give its number, by {option}; \
                 there are {}",
                named(names)
            );
            Err(WaveError::at(line, &message))
        }
    }
}

fn named(names: &[String]) -> String {
    let shown: Vec<String> = (1..)
        .zip(names)
        .take(NAMES_MOST)
        .map(|(i, name)| if name.is_empty() { i.to_string() } else { name.clone() })
        .collect();
    shown.join(", ")
}

/// The rows.
struct Rows {
    columns: Columns,
    count: u64,
    time: Option<Femtoseconds>,
    given: Option<Wires>,
}

impl Rows {
    fn new(columns: Columns) -> Rows {
        Rows { columns, count: 0, time: None, given: None }
    }

    fn row(
        &mut self,
        text: &str,
        line: u64,
        told: &mut Told,
        take: &mut Take<'_>,
    ) -> Result<(), WaveError> {
        let time = self.time_of(text, line)?;
        let mut levels = Levels::default();
        for (wire, &column) in self.columns.signals.iter().enumerate() {
            let (text, column) = self.cell(text, column, line)?;
            let letter = if text.len() == 1 { text.as_bytes()[0] } else { b' ' };
            // No row before it has a say: x is wrong in every row.
            let letter = if letter.eq_ignore_ascii_case(&b'x') { b' ' } else { letter };
            levels.set(wire, letter, line, column, told)?;
        }
        self.count += 1;
        self.time = Some(time);
        let wires = levels.wires();
        if self.given.replace(wires) == Some(wires) {
            return Ok(());
        }
        take(time, Some(wires), line)
    }

    /// A cell of a row, and its column in bytes, counted from 1.
    fn cell<'a>(
        &self,
        text: &'a str,
        column: usize,
        line: u64,
    ) -> Result<(&'a str, usize), WaveError> {
        let place = |cell: &str| cell.as_ptr() as usize - text.as_ptr() as usize + 1;
        let found = cells(text, self.columns.separator).nth(column);
        found
            .map(|cell| (cell, place(cell)))
            .ok_or_else(|| WaveError::at(line, &format!("the row has no column {}", column + 1)))
    }

    fn time_of(&self, text: &str, line: u64) -> Result<Femtoseconds, WaveError> {
        let (column, unit) = match self.columns.times {
            Times::Rate(rate) => return Ok(of_sample(self.count, rate)),
            Times::Column(column, unit) => (column, unit),
        };
        let (text, column) = self.cell(text, column, line)?;
        let wrong =
            |message: &str| Err(WaveError::Line { line, column, message: message.to_string() });
        match unit.decimal(text) {
            None => wrong("the time is no number"),
            Some(time) if self.time.is_some_and(|before| time < before) => {
                wrong("the time is before the last one")
            }
            Some(time) => Ok(time),
        }
    }

    fn end(self, line: u64, take: &mut Take<'_>) -> Result<(), WaveError> {
        match self.time {
            Some(time) => take(time, None, line),
            None => Err(WaveError::at(line, "there are no rows")),
        }
    }
}
