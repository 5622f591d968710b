//! Lines and words of an analyser's file, with their places, in fixed memory.

use std::io::{self, BufRead, BufReader, Read};
use swarmtempo::text::BYTE_ORDER_MARK;

/// Bytes of a line or a word at most.
const LONGEST: usize = 1 << 20;

/// What is wrong with a file.
#[derive(Debug)]
pub enum WaveError {
    /// It cannot be read.
    Read(io::Error),
    /// What is made of it cannot be written.
    Write(io::Error),
    /// A line, and the column in it in bytes, both counted from 1.
    Line { line: u64, column: usize, message: String },
}

impl WaveError {
    /// At the start of a line.
    pub fn at(line: u64, message: &str) -> WaveError {
        WaveError::Line { line, column: 1, message: message.to_string() }
    }
}

/// The file.
pub struct Reader {
    source: BufReader<Box<dyn Read>>,
    /// Of the byte to come.
    line: u64,
    column: usize,
    /// The last byte was a CR: an LF after it belongs to it.
    after_return: bool,
}

impl Reader {
    /// From its start; a byte order mark is skipped.
    pub fn new(source: impl Read + 'static) -> Reader {
        let source: Box<dyn Read> = Box::new(source);
        let source = BufReader::with_capacity(1 << 16, source);
        Reader { source, line: 1, column: 1, after_return: false }
    }

    /// True where the first byte that is no blank is this one. Lines that begin with META, which the
    /// program of sigrok puts before what it writes, are handed out and passed over.
    pub fn begins_with(
        &mut self,
        wanted: u8,
        mut meta: impl FnMut(&str),
    ) -> Result<bool, WaveError> {
        if self.fill()?.starts_with(BYTE_ORDER_MARK) {
            self.source.consume(BYTE_ORDER_MARK.len());
        }
        let mut line = Vec::new();
        while self.fill()?.starts_with(b"META ") {
            self.line_of(&mut line)?;
            meta(&String::from_utf8_lossy(&line));
        }
        while let Some(&byte) = self.fill()?.first() {
            if !byte.is_ascii_whitespace() {
                return Ok(byte == wanted);
            }
            self.pass(byte);
        }
        Ok(false)
    }

    /// The line of the byte to come.
    pub fn line(&self) -> u64 {
        self.line
    }

    fn fill(&mut self) -> Result<&[u8], WaveError> {
        loop {
            match self.source.fill_buf() {
                Err(error) if error.kind() == io::ErrorKind::Interrupted => {}
                Err(error) => return Err(WaveError::Read(error)),
                // Asked again, for the borrow ends with the loop.
                Ok(_) => break,
            }
        }
        Ok(self.source.buffer())
    }

    /// One byte is done with.
    fn pass(&mut self, byte: u8) {
        self.source.consume(1);
        let ends_return = std::mem::replace(&mut self.after_return, byte == b'\r');
        match byte {
            b'\n' if ends_return => {}
            b'\n' | b'\r' => (self.line, self.column) = (self.line + 1, 1),
            _ => self.column += 1,
        }
    }

    /// The next word, with its line and column; none at the end.
    pub fn word(&mut self, word: &mut Vec<u8>) -> Result<Option<(u64, usize)>, WaveError> {
        word.clear();
        let mut place = None;
        while let Some(&byte) = self.fill()?.first() {
            if byte.is_ascii_whitespace() {
                if place.is_some() {
                    break;
                }
            } else {
                let (line, column) = *place.get_or_insert((self.line, self.column));
                if word.len() == LONGEST {
                    let message = format!("a word is longer than {LONGEST} bytes");
                    return Err(WaveError::Line { line, column, message });
                }
                word.push(byte);
            }
            self.pass(byte);
        }
        Ok(place)
    }

    /// The next line without its end, and its number; none at the end of the file.
    pub fn line_of(&mut self, line: &mut Vec<u8>) -> Result<Option<u64>, WaveError> {
        line.clear();
        let number = self.line;
        let mut some = false;
        loop {
            let bytes = self.fill()?;
            if bytes.is_empty() {
                return Ok(some.then_some(number));
            }
            if bytes[0] == b'\n' && std::mem::take(&mut self.after_return) {
                self.source.consume(1);
                continue;
            }
            self.after_return = false;
            some = true;
            let bytes = self.source.buffer();
            let end = bytes.iter().position(|byte| b"\r\n".contains(byte));
            let part = &bytes[..end.unwrap_or(bytes.len())];
            if line.len() + part.len() > LONGEST {
                return Err(WaveError::at(
                    number,
                    &format!("a line is longer than {LONGEST} bytes"),
                ));
            }
            line.extend_from_slice(part);
            let taken = part.len();
            if let Some(end) = end {
                self.after_return = bytes[end] == b'\r';
                self.source.consume(taken + 1);
                self.line += 1;
                return Ok(Some(number));
            }
            self.source.consume(taken);
        }
    }
}
