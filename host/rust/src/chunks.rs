//! Lists cut into records, and long lists read in fixed memory.

use std::io::{self, Read};

/// Bytes that [`Chunks`] holds at most. A record has 65,537 bytes at most.
pub const CHUNK_LEN: usize = 256 * 1024;

/// A part of a list.
#[derive(Clone, Copy, Debug, PartialEq, Eq)]
pub enum Piece<'a> {
    /// A whole record, its length included.
    Record(&'a [u8]),
    /// Bytes that begin no whole record, up to the end. A run refuses them with 1 and stops.
    Rest(&'a [u8]),
}

/// The pieces of a list, in order; their bytes together are the list.
pub fn pieces(list: &[u8]) -> Pieces<'_> {
    Pieces { list }
}

/// The iterator of [`pieces`].
#[derive(Clone, Debug)]
pub struct Pieces<'a> {
    list: &'a [u8],
}

impl<'a> Iterator for Pieces<'a> {
    type Item = Piece<'a>;

    fn next(&mut self) -> Option<Piece<'a>> {
        let (piece, rest) = match whole_record(self.list) {
            Found::Whole(end) => {
                let (record, rest) = self.list.split_at(end);
                (Piece::Record(record), rest)
            }
            _ if self.list.is_empty() => return None,
            _ => (Piece::Rest(self.list), &[][..]),
        };
        self.list = rest;
        Some(piece)
    }
}

enum Found {
    /// A record that ends there.
    Whole(usize),
    /// More bytes may make a record of this.
    Short,
    /// A length below 2.
    Broken,
}

fn whole_record(list: &[u8]) -> Found {
    let Some(length) = list.first_chunk::<2>() else {
        return Found::Short;
    };
    let end = 2 + usize::from(u16::from_le_bytes(*length));
    match end {
        0..=3 => Found::Broken,
        _ if end <= list.len() => Found::Whole(end),
        _ => Found::Short,
    }
}

/// Reads a list chunk by chunk. A chunk ends between two records, but for the last one, which also
/// has what follows the last whole record. From a length below 2 on, all bytes are handed out as they
/// come.
pub struct Chunks<R> {
    source: R,
    buffer: Box<[u8]>,
    /// The bytes read and not yet handed out.
    start: usize,
    end: usize,
    ended: bool,
    broken: bool,
    eager: bool,
}

impl<R: Read> Chunks<R> {
    /// A reader of chunks.
    pub fn new(source: R) -> Chunks<R> {
        let buffer = vec![0; CHUNK_LEN].into_boxed_slice();
        Chunks { source, buffer, start: 0, end: 0, ended: false, broken: false, eager: false }
    }

    /// Hands out whole records as soon as they have come, however few they are: for a pipe that is
    /// fed now and then.
    #[must_use]
    pub fn eager(self) -> Chunks<R> {
        Chunks { eager: true, ..self }
    }

    /// The next chunk, or none at the end of the list.
    ///
    /// # Errors
    /// Those of the source.
    #[allow(clippy::should_implement_trait)]
    pub fn next(&mut self) -> io::Result<Option<&[u8]>> {
        self.buffer.copy_within(self.start..self.end, 0);
        self.end -= self.start;
        self.start = 0;
        while !self.ended && self.end < self.buffer.len() {
            match self.source.read(&mut self.buffer[self.end..]) {
                Ok(0) => self.ended = true,
                Ok(read) => self.end += read,
                Err(error) if error.kind() == io::ErrorKind::Interrupted => {}
                Err(error) => return Err(error),
            }
            if self.eager && (self.broken || self.any_record()) {
                break;
            }
        }
        let held = &self.buffer[..self.end];
        let mut whole = 0;
        while !self.broken {
            match whole_record(&held[whole..]) {
                Found::Whole(end) => whole += end,
                Found::Short => break,
                Found::Broken => self.broken = true,
            }
        }
        self.start = if self.ended || self.broken { self.end } else { whole };
        Ok((self.start > 0).then_some(&held[..self.start]))
    }

    /// True where bytes that can be handed out begin with those held.
    fn any_record(&self) -> bool {
        !matches!(whole_record(&self.buffer[..self.end]), Found::Short)
    }

    /// The chunk that was handed out last.
    pub fn last(&self) -> &[u8] {
        &self.buffer[..self.start]
    }

    /// The source of the bytes, to look at.
    pub fn source(&self) -> &R {
        &self.source
    }

    /// The source of the bytes.
    pub fn source_mut(&mut self) -> &mut R {
        &mut self.source
    }

    /// True once a length below 2 was met: the bytes of later chunks make no records.
    pub fn broken(&self) -> bool {
        self.broken
    }
}
