//! Answers as types.

use crate::DiskLine;
use std::fmt;
use std::iter::FusedIterator;

/// Bytes of an answer.
pub const ANSWER_LEN: usize = 8;

/// Why a record was refused, or why a run stopped before the end of its list.
#[derive(Clone, Copy, Debug, PartialEq, Eq, Hash)]
#[repr(u8)]
#[non_exhaustive]
pub enum Refusal {
    /// Fewer than 2 bytes left, a length below 2, or a record cut short. The run stops before it.
    Cut = 1,
    /// Unknown kind.
    Kind = 2,
    /// Length wrong for the kind.
    Length = 3,
    /// Address is none of the 32.
    Address = 4,
    /// Line, drive, register, level or count out of range.
    Range = 5,
    /// List bytes remain, and fewer than 8 answer bytes are left. The run stops before the item.
    Room = 6,
    /// The image is none of an accepted state. Nothing is done.
    State = 7,
    /// A disk inserted where one is, or removed where none is.
    Disk = 8,
    /// SN on a register that the drive has itself: 0 to 5, 12, 15.
    Retired = 9,
}

impl Refusal {
    /// All, in the order of their numbers.
    pub const ALL: [Refusal; 9] = [
        Refusal::Cut,
        Refusal::Kind,
        Refusal::Length,
        Refusal::Address,
        Refusal::Range,
        Refusal::Room,
        Refusal::State,
        Refusal::Disk,
        Refusal::Retired,
    ];

    /// The refusal of a number.
    pub fn from_number(number: u8) -> Option<Refusal> {
        Self::ALL.into_iter().find(|refusal| refusal.number() == number)
    }

    /// Its number.
    pub fn number(self) -> u8 {
        self as u8
    }
}

impl fmt::Display for Refusal {
    fn fmt(&self, f: &mut fmt::Formatter<'_>) -> fmt::Result {
        f.pad(match self {
            Refusal::Cut => "record cut short",
            Refusal::Kind => "unknown kind",
            Refusal::Length => "length wrong for the kind",
            Refusal::Address => "address is none of the 32",
            Refusal::Range => "line, drive, register, level or count out of range",
            Refusal::Room => "no room for an answer",
            Refusal::State => "image is none of an accepted state",
            Refusal::Disk => "a disk is there already, or none is",
            Refusal::Retired => "SN on this register has retired",
        })
    }
}

impl std::error::Error for Refusal {}

/// A number that no refusal has.
#[derive(Clone, Copy, Debug, PartialEq, Eq)]
pub struct UnknownRefusal(pub u8);

impl fmt::Display for UnknownRefusal {
    fn fmt(&self, f: &mut fmt::Formatter<'_>) -> fmt::Result {
        write!(f, "no refusal has the number {}", self.0)
    }
}

impl std::error::Error for UnknownRefusal {}

impl TryFrom<u8> for Refusal {
    type Error = UnknownRefusal;

    fn try_from(number: u8) -> Result<Refusal, UnknownRefusal> {
        Refusal::from_number(number).ok_or(UnknownRefusal(number))
    }
}

impl From<Refusal> for u8 {
    fn from(refusal: Refusal) -> u8 {
        refusal.number()
    }
}

/// The eight disk lines, as a byte: CA0, CA1, CA2, LSTRB, ENABLE, SELECT, Q6, Q7 in bits 0 to 7.
#[derive(Clone, Copy, Debug, Default, PartialEq, Eq, Hash)]
pub struct Lines(pub u8);

impl Lines {
    /// True where the line is on.
    pub fn on(self, line: DiskLine) -> bool {
        self.0 >> line.index() & 1 != 0
    }

    /// The lines that are on.
    pub fn iter(self) -> impl Iterator<Item = DiskLine> {
        DiskLine::ALL.into_iter().filter(move |&line| self.on(line))
    }
}

impl FromIterator<DiskLine> for Lines {
    fn from_iter<I: IntoIterator<Item = DiskLine>>(lines: I) -> Lines {
        Lines(lines.into_iter().fold(0, |byte, line| byte | 1 << line.index()))
    }
}

/// The lines that are on, by name, or `-`.
impl fmt::Display for Lines {
    fn fmt(&self, f: &mut fmt::Formatter<'_>) -> fmt::Result {
        let on: Vec<&str> = self.iter().map(DiskLine::name).collect();
        f.pad(&if on.is_empty() { "-".to_string() } else { on.join(" ") })
    }
}

/// What an item that was done showed. Level, lines and SEL are those after the item.
#[derive(Clone, Copy, Debug, PartialEq, Eq, Hash)]
pub struct Seen {
    /// The value read, or of KC the bit shifted out; else 0.
    pub value: u8,
    /// The interrupt level: 4 for the programmer's switch, 2 for the serial chip, 1 for the VIA while
    /// the serial chip is not asking.
    pub level: u8,
    /// The disk lines.
    pub lines: Lines,
    /// The level of SEL.
    pub sel: bool,
}

impl fmt::Display for Seen {
    fn fmt(&self, f: &mut fmt::Formatter<'_>) -> fmt::Result {
        let Seen { value, level, lines, sel } = self;
        write!(f, "value ${value:02X}, level {level}, SEL {}, lines on {lines}", u8::from(*sel))
    }
}

/// An answer.
///
/// ```
/// use swarmtempo::{Answer, Refusal};
///
/// let answer = Answer::try_from([6, 0, b'N', b'O', 3, 0, 0, 0])?;
/// assert_eq!(answer, Answer::No(Refusal::Length));
/// assert_eq!(answer.to_string(), "NO 3: length wrong for the kind");
/// assert_eq!(answer.result(), Err(Refusal::Length));
/// let answer = Answer::try_from([6, 0, b'O', b'K', 0x81, 1, 0b1001, 1])?;
/// assert_eq!(answer.to_string(), "OK: value $81, level 1, SEL 1, lines on CA0 LSTRB");
/// # Ok::<(), swarmtempo::NoAnswer>(())
/// ```
#[derive(Clone, Copy, Debug, PartialEq, Eq, Hash)]
pub enum Answer {
    /// The item was done.
    Ok(Seen),
    /// The record was refused, and the state is as before.
    No(Refusal),
}

impl Answer {
    /// Reads an answer; none where the bytes are not one.
    pub fn read(bytes: &[u8; ANSWER_LEN]) -> Option<Answer> {
        match *bytes {
            [6, 0, b'O', b'K', value, level, lines, sel @ 0..=1] => {
                Some(Answer::Ok(Seen { value, level, lines: Lines(lines), sel: sel == 1 }))
            }
            [6, 0, b'N', b'O', number, 0, 0, 0] => Refusal::from_number(number).map(Answer::No),
            _ => None,
        }
    }

    /// Its bytes.
    pub fn to_bytes(self) -> [u8; ANSWER_LEN] {
        match self {
            Answer::Ok(Seen { value, level, lines, sel }) => {
                [6, 0, b'O', b'K', value, level, lines.0, sel.into()]
            }
            Answer::No(refusal) => [6, 0, b'N', b'O', refusal.number(), 0, 0, 0],
        }
    }

    /// What was seen.
    ///
    /// # Errors
    /// The refusal.
    pub fn result(self) -> Result<Seen, Refusal> {
        match self {
            Answer::Ok(seen) => Ok(seen),
            Answer::No(refusal) => Err(refusal),
        }
    }
}

impl fmt::Display for Answer {
    fn fmt(&self, f: &mut fmt::Formatter<'_>) -> fmt::Result {
        match self {
            Answer::Ok(seen) => write!(f, "OK: {seen}"),
            Answer::No(refusal) => write!(f, "NO {}: {refusal}", refusal.number()),
        }
    }
}

/// Bytes that are no answer.
#[derive(Clone, Copy, Debug, PartialEq, Eq)]
pub struct NoAnswer;

impl fmt::Display for NoAnswer {
    fn fmt(&self, f: &mut fmt::Formatter<'_>) -> fmt::Result {
        f.write_str("the bytes are no answer")
    }
}

impl std::error::Error for NoAnswer {}

impl TryFrom<[u8; ANSWER_LEN]> for Answer {
    type Error = NoAnswer;

    fn try_from(bytes: [u8; ANSWER_LEN]) -> Result<Answer, NoAnswer> {
        Answer::read(&bytes).ok_or(NoAnswer)
    }
}

impl TryFrom<&[u8]> for Answer {
    type Error = NoAnswer;

    fn try_from(bytes: &[u8]) -> Result<Answer, NoAnswer> {
        bytes.try_into().ok().and_then(Answer::read).ok_or(NoAnswer)
    }
}

impl From<Answer> for [u8; ANSWER_LEN] {
    fn from(answer: Answer) -> [u8; ANSWER_LEN] {
        answer.to_bytes()
    }
}

/// The answers of a run, in order, up to the first bytes that are no answer.
pub fn answers(bytes: &[u8]) -> Answers<'_> {
    Answers { left: bytes.as_chunks().0 }
}

/// The iterator of [`answers`].
#[derive(Clone, Debug)]
pub struct Answers<'a> {
    left: &'a [[u8; ANSWER_LEN]],
}

impl Iterator for Answers<'_> {
    type Item = Answer;

    fn next(&mut self) -> Option<Answer> {
        let (bytes, rest) = self.left.split_first()?;
        let answer = Answer::read(bytes);
        self.left = if answer.is_some() { rest } else { &[] };
        answer
    }
}

impl FusedIterator for Answers<'_> {}
