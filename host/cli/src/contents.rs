//! What a file seems to hold, by its first bytes.

use super::failure::{failure, Failure};
use super::image::older;
use super::place::Input;
use std::io::{self, Cursor, Read};
use swarmtempo::Chip;

/// Bytes looked at, at most.
const SAMPLE_LEN: usize = 4096;
/// Bytes that are waited for: the length and the kind of a record.
const SAMPLE_LEAST: usize = 4;

/// What a file seems to hold.
#[derive(Clone, Copy, Debug, PartialEq, Eq)]
pub enum Looks {
    /// A text. Records are never that: their lengths have bytes that no text has.
    Text,
    /// A text in UTF-16, by its byte order mark.
    Utf16,
    /// A state image, of an older layout too.
    Image,
    /// Nothing, blanks alone, or other bytes.
    Bytes,
}

/// By the first bytes of a file.
pub fn looks(sample: &[u8]) -> Looks {
    let control = |&byte: &u8| (byte < b' ' && !b"\t\n\r\x0C".contains(&byte)) || byte == 0x7F;
    let wide = |mark: [u8; 2]| sample.starts_with(&mark) && sample.len().is_multiple_of(2);
    let image = Chip::of_image(sample).is_some_and(|chip| sample.len() == chip.image_len());
    if image || older(sample).is_some() {
        Looks::Image
    } else if wide([0xFF, 0xFE]) || wide([0xFE, 0xFF]) {
        Looks::Utf16
    } else if sample.iter().all(u8::is_ascii_whitespace) || sample.iter().any(control) {
        Looks::Bytes
    } else {
        Looks::Text
    }
}

/// A file whose first bytes were looked at.
pub type Sampled = io::Chain<Cursor<Vec<u8>>, Box<dyn Read>>;

/// Looks at the first bytes of a file, which are read again. Of a pipe it takes what has come, so
/// that one that is fed now and then is not waited for.
pub fn sample(input: &Input, mut file: Box<dyn Read>) -> Result<(Looks, Sampled), Failure> {
    let mut first = vec![0; SAMPLE_LEN];
    let mut length = 0;
    while length < SAMPLE_LEAST {
        match file.read(&mut first[length..]) {
            Ok(0) => break,
            Ok(read) => length += read,
            Err(error) if error.kind() == io::ErrorKind::Interrupted => {}
            Err(error) => return Err(failure(input, error)),
        }
    }
    first.truncate(length);
    Ok((looks(&first), Cursor::new(first).chain(file)))
}

/// Records, or why these bytes are none; `advice` is what to do with a text.
pub fn records(input: &Input, file: Box<dyn Read>, advice: &str) -> Result<Sampled, Failure> {
    let (looks, file) = sample(input, file)?;
    let what = match looks {
        Looks::Bytes => return Ok(file),
        Looks::Text => format!("a text, not records; {advice}"),
        Looks::Utf16 => format!("a text in UTF-16, not records; save it as UTF-8, and {advice}"),
        Looks::Image => "a state image, not records; run takes it by --image".to_string(),
    };
    Err(Failure::Content(input.to_string(), what))
}
