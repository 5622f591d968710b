//! A text read line by line, as the records that it stands for, in fixed memory.

use super::contents::{self, Looks, Sampled};
use super::failure::{failure, Failure};
use super::files::say;
use super::place::Input;
use std::collections::VecDeque;
use std::fmt;
use std::io::{self, BufRead, BufReader, Read};
use swarmtempo::text::{assemble_line, Converted, LineError, BYTE_ORDER_MARK};

/// Bytes of a line of text at most.
const LINE_MAX: usize = 1 << 20;

/// The records of a text.
pub struct Lines {
    name: String,
    source: BufReader<Sampled>,
    line: Vec<u8>,
    /// The line is longer than is allowed, and cut there.
    long: bool,
    /// The last line ended in CR: an LF after it belongs to its end.
    after_return: bool,
    /// Lines read.
    number: u64,
    /// Bytes of the last line, and how many of them were given.
    ready: Vec<u8>,
    given: usize,
    /// Where the bytes of lines begin in the records, and the lines' numbers.
    begins: VecDeque<(u64, u64)>,
    /// Bytes of records made.
    made: u64,
    converted: Conversions,
    errors: usize,
    /// What has come is given at once.
    live: bool,
}

/// Waits that were written in microseconds.
#[derive(Clone, Copy, Default)]
pub struct Conversions {
    /// How many.
    pub count: u64,
    /// The first one, and its line.
    pub first: Option<(u64, Converted)>,
}

/// Errors in a text, all of them already written to standard error.
#[derive(Debug)]
struct Wrong(usize);

impl fmt::Display for Wrong {
    fn fmt(&self, f: &mut fmt::Formatter<'_>) -> fmt::Result {
        write!(f, "{} errors in the text", self.0)
    }
}

impl std::error::Error for Wrong {}

/// An error of reading a list, which may be one of its text.
pub fn list_failure(input: &Input, error: io::Error) -> Failure {
    match error.downcast::<Wrong>() {
        Ok(Wrong(count)) => Failure::Text(input.to_string(), count),
        Err(error) => failure(input, error),
    }
}

impl Lines {
    /// Begins to read a text; `advice` is what to do with records.
    pub fn new(input: &Input, file: Box<dyn Read>, advice: &str) -> Result<Lines, Failure> {
        let (looks, file) = contents::sample(input, file)?;
        let mut source = BufReader::with_capacity(1 << 16, file);
        let start = source.fill_buf().map_err(|error| failure(input, error))?;
        let what = match looks {
            Looks::Utf16 => Some("a text in UTF-16; save it as UTF-8".to_string()),
            Looks::Image => Some("a state image, not a text".to_string()),
            _ => start.contains(&0).then(|| format!("bytes, not a text; {advice}")),
        };
        if let Some(what) = what {
            return Err(Failure::Content(input.to_string(), what));
        }
        if start.starts_with(BYTE_ORDER_MARK) {
            source.consume(BYTE_ORDER_MARK.len());
        }
        Ok(Lines {
            name: input.to_string(),
            source,
            line: Vec::new(),
            long: false,
            after_return: false,
            number: 0,
            ready: Vec::new(),
            given: 0,
            begins: VecDeque::new(),
            made: 0,
            converted: Conversions::default(),
            errors: 0,
            live: false,
        })
    }

    /// From now on lines are given as they come, and no more are waited for.
    pub fn go_live(&mut self) {
        self.live = true;
    }

    /// True where the next line would have to be waited for.
    fn would_wait(&self) -> bool {
        !self.source.buffer().iter().any(|byte| b"\n\r".contains(byte))
    }

    /// The waits in microseconds so far.
    pub fn converted(&self) -> Conversions {
        self.converted
    }

    /// The line that made the byte at an offset of the records, as far as it is remembered.
    pub fn line_at(&self, offset: u64) -> Option<u64> {
        let after = self.begins.partition_point(|&(begin, _)| begin <= offset);
        Some(self.begins.get(after.checked_sub(1)?)?.1)
    }

    /// Lines whose bytes end before an offset need not be remembered.
    pub fn forget(&mut self, offset: u64) {
        while self.begins.get(1).is_some_and(|&(begin, _)| begin <= offset) {
            self.begins.pop_front();
        }
    }

    /// All records, part by part; no line is remembered.
    pub fn pour(
        &mut self,
        input: &Input,
        mut take: impl FnMut(&[u8]) -> Result<(), Failure>,
    ) -> Result<(), Failure> {
        let mut buffer = vec![0; 1 << 16];
        loop {
            match self.read(&mut buffer).map_err(|error| list_failure(input, error))? {
                0 => return Ok(()),
                count => take(&buffer[..count])?,
            }
            self.forget(u64::MAX);
        }
    }

    /// The next line's bytes into `ready`; false at the end.
    fn take_line(&mut self) -> io::Result<bool> {
        self.ready.clear();
        self.given = 0;
        if !self.read_line()? {
            return Ok(false);
        }
        self.number += 1;
        match self.assemble() {
            Ok(converted) => {
                if !self.ready.is_empty() {
                    self.begins.push_back((self.made, self.number));
                    self.made += self.ready.len() as u64;
                }
                if let Some(converted) = converted {
                    self.converted.count += 1;
                    self.converted.first.get_or_insert((self.number, converted));
                }
            }
            Err(error) => {
                self.errors += 1;
                let (name, number) = (&self.name, self.number);
                say(&format!("{name}:{number}:{}: {}", error.column, error.message));
            }
        }
        Ok(true)
    }

    /// The next line without its end, LF, CR LF or CR; false at the end of the text.
    fn read_line(&mut self) -> io::Result<bool> {
        self.line.clear();
        self.long = false;
        let mut some = false;
        loop {
            let bytes = match self.source.fill_buf() {
                Err(error) if error.kind() == io::ErrorKind::Interrupted => continue,
                bytes => bytes?,
            };
            if bytes.is_empty() {
                return Ok(some);
            }
            if std::mem::take(&mut self.after_return) && bytes[0] == b'\n' {
                self.source.consume(1);
                continue;
            }
            some = true;
            let end = bytes.iter().position(|byte| b"\n\r".contains(byte));
            let part = &bytes[..end.unwrap_or(bytes.len())];
            let room = LINE_MAX - self.line.len();
            self.long |= part.len() > room;
            self.line.extend_from_slice(&part[..part.len().min(room)]);
            self.after_return = end.is_some_and(|end| bytes[end] == b'\r');
            let taken = part.len() + usize::from(end.is_some());
            self.source.consume(taken);
            if end.is_some() {
                return Ok(true);
            }
        }
    }

    /// The bytes of the line, or what is wrong in it.
    fn assemble(&mut self) -> Result<Option<Converted>, LineError> {
        if self.long {
            let message = format!("a line is longer than {LINE_MAX} bytes");
            return Err(LineError { column: 1, message });
        }
        assemble_line(utf8(&self.line)?, &mut self.ready)
    }
}

/// As many records as there is room for. From a wrong line on no more bytes are given: the rest is
/// looked at for its errors, and then all of them are one error.
impl Read for Lines {
    fn read(&mut self, buffer: &mut [u8]) -> io::Result<usize> {
        let mut filled = 0;
        while filled < buffer.len() {
            let left = &self.ready[self.given..];
            if !left.is_empty() && self.errors == 0 {
                let count = left.len().min(buffer.len() - filled);
                buffer[filled..filled + count].copy_from_slice(&left[..count]);
                filled += count;
                self.given += count;
            } else if self.live && filled > 0 && self.would_wait() || !self.take_line()? {
                break;
            }
        }
        match self.errors {
            0 => Ok(filled),
            errors => Err(io::Error::other(Wrong(errors))),
        }
    }
}

/// A line's characters.
fn utf8(line: &[u8]) -> Result<&str, LineError> {
    std::str::from_utf8(line).map_err(|error| {
        let good = String::from_utf8_lossy(&line[..error.valid_up_to()]);
        let column = good.chars().count() + 1;
        LineError { column, message: "not text (UTF-8)".into() }
    })
}

/// Takes each line of a short text, with its number; every wrong one is told.
pub fn each(
    input: &Input,
    text: &[u8],
    mut take: impl FnMut(usize, &str) -> Result<(), LineError>,
) -> Result<(), Failure> {
    let text = text.strip_prefix(BYTE_ORDER_MARK).unwrap_or(text);
    let lines =
        text.split(|&byte| byte == b'\n').map(|line| line.strip_suffix(b"\r").unwrap_or(line));
    let lines = lines.flat_map(|line| line.split(|&byte| byte == b'\r'));
    let mut errors = 0;
    for (line, i) in lines.zip(1..) {
        if let Err(error) = utf8(line).and_then(|line| take(i, line)) {
            errors += 1;
            say(&format!("{input}:{i}:{}: {}", error.column, error.message));
        }
    }
    match errors {
        0 => Ok(()),
        _ => Err(Failure::Text(input.to_string(), errors)),
    }
}
