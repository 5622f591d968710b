//! Items as types, and as records.
//!
//! A new kind is a variant of [`Item`], its letters in [`Item::KINDS`] and [`Item::kind`], its body in
//! [`Item::write`] and [`Item::read`], its words in [`crate::text`] (written and read), a writer in
//! `swarmtempo.h`, and a sample of it in tests/api.rs. The compiler asks for all of these but `KINDS`,
//! `read`, the reading of text and the writer; the test of the sample asks for those.

use crate::address::named;
use crate::units::number;
use crate::{text, Address, ParseError, Refusal, Seconds, WaitTicks};
use std::fmt;
use std::ops::Deref;
use std::str::FromStr;

/// A drive.
#[derive(Clone, Copy, Debug, PartialEq, Eq, Hash)]
pub enum Drive {
    /// Drive 0.
    Internal,
    /// Drive 1.
    External,
}

impl Drive {
    /// Both.
    pub const ALL: [Drive; 2] = [Drive::Internal, Drive::External];

    /// Its name.
    pub fn name(self) -> &'static str {
        match self {
            Drive::Internal => "internal",
            Drive::External => "external",
        }
    }
}

named!(Drive, "a drive, internal or external");

/// An input line that IN sets: 0 mouse switch, 1 X2, 2 Y2, 3 H4, 4 PA7, 5 serial chip asks,
/// 6 programmer's switch.
#[derive(Clone, Copy, Debug, PartialEq, Eq, Hash)]
pub struct InLine(u8);

impl InLine {
    /// How many there are.
    pub const COUNT: u8 = 7;
    const NAMES: [&'static str; Self::COUNT as usize] =
        ["mouse switch", "X2", "Y2", "H4", "PA7", "serial chip asks", "programmer's switch"];

    /// The line of a number below [`InLine::COUNT`].
    pub fn new(number: u8) -> Option<InLine> {
        (number < Self::COUNT).then_some(InLine(number))
    }

    /// Its number.
    pub fn number(self) -> u8 {
        self.0
    }

    /// What stands on it.
    pub fn name(self) -> &'static str {
        Self::NAMES[usize::from(self.0)]
    }
}

/// A sense register, 0 to 15: 8·CA2 + 4·CA1 + 2·CA0 + SEL.
#[derive(Clone, Copy, Debug, PartialEq, Eq, Hash)]
pub struct SenseRegister(u8);

impl SenseRegister {
    /// How many there are.
    pub const COUNT: u8 = 16;

    /// The register of a number below [`SenseRegister::COUNT`].
    pub fn new(number: u8) -> Option<SenseRegister> {
        (number < Self::COUNT).then_some(SenseRegister(number))
    }

    /// Its number.
    pub fn number(self) -> u8 {
        self.0
    }

    /// True for 0 to 5, 12 and 15, which the drive has itself: an SN on them has retired, and a run
    /// refuses it with [`Refusal::Retired`]. [`crate::convert`] turns captures with such items over.
    pub fn is_retired(self) -> bool {
        matches!(self.0, 0..=5 | 12 | 15)
    }
}

/// Something known by its number.
macro_rules! numbered {
    ($type:ident, $expected:literal) => {
        impl fmt::Display for $type {
            fn fmt(&self, f: &mut fmt::Formatter<'_>) -> fmt::Result {
                fmt::Display::fmt(&self.0, f)
            }
        }

        impl FromStr for $type {
            type Err = ParseError;

            fn from_str(text: &str) -> Result<$type, ParseError> {
                let number = number(text).and_then(|number| u8::try_from(number).ok());
                number.and_then($type::new).ok_or_else(|| ParseError::new(text, $expected))
            }
        }

        impl TryFrom<u8> for $type {
            type Error = Refusal;

            /// [`Refusal::Range`] where there is none of this number.
            fn try_from(number: u8) -> Result<$type, Refusal> {
                $type::new(number).ok_or(Refusal::Range)
            }
        }

        impl From<$type> for u8 {
            fn from(value: $type) -> u8 {
                value.0
            }
        }
    };
}

numbered!(InLine, "an input line, 0 to 6");
numbered!(SenseRegister, "a sense register, 0 to 15");

/// The values that an MW writes, 1 to 64 of them, in their order.
///
/// ```
/// use swarmtempo::{Refusal, Values};
///
/// let values = Values::try_from(&[0xF9, 0xFB][..])?;
/// assert_eq!(values[..], [0xF9, 0xFB]);
/// assert_eq!(Values::new(&[]), None);
/// assert_eq!(Values::try_from(&[0; 65][..]), Err(Refusal::Range));
/// # Ok::<(), Refusal>(())
/// ```
#[derive(Clone, Copy, PartialEq, Eq, Hash)]
pub struct Values {
    count: u8,
    /// 0 past the count.
    bytes: [u8; Values::MAX],
}

impl Values {
    /// How many there are at most.
    pub const MAX: usize = 64;

    /// These, where they are 1 to [`Values::MAX`].
    pub fn new(values: &[u8]) -> Option<Values> {
        let mut bytes = [0; Values::MAX];
        bytes.get_mut(..values.len())?.copy_from_slice(values);
        let count = u8::try_from(values.len()).ok().filter(|&count| count > 0)?;
        Some(Values { count, bytes })
    }
}

impl Deref for Values {
    type Target = [u8];

    fn deref(&self) -> &[u8] {
        &self.bytes[..usize::from(self.count)]
    }
}

impl AsRef<[u8]> for Values {
    fn as_ref(&self) -> &[u8] {
        self
    }
}

impl fmt::Debug for Values {
    fn fmt(&self, f: &mut fmt::Formatter<'_>) -> fmt::Result {
        fmt::Debug::fmt(&**self, f)
    }
}

impl TryFrom<&[u8]> for Values {
    type Error = Refusal;

    /// [`Refusal::Range`] where there are none, or too many.
    fn try_from(values: &[u8]) -> Result<Values, Refusal> {
        Values::new(values).ok_or(Refusal::Range)
    }
}

/// What an item does once its wait has passed.
///
/// Written and read as in the text form ([`crate::text`]), without the wait:
///
/// ```
/// use swarmtempo::{Address, Item, Register};
///
/// let item = Item::Write(Address::Via(Register::ORB), 0x41);
/// assert_eq!(item.to_string(), "WR VIA.ORB $41");
/// assert_eq!("wr $EFE1FE 65".parse(), Ok(item));
/// ```
#[derive(Clone, Copy, Debug, PartialEq, Eq, Hash)]
pub enum Item {
    /// RD: reads a byte.
    Read(Address),
    /// WR: writes a byte.
    Write(Address, u8),
    /// MW: writes many bytes to one address, the first after the wait and the others with none.
    /// [`Timed::singles`] gives the single writes.
    WriteMany(Address, Values),
    /// VB: vertical blanking.
    Blank,
    /// SE: the one-second tick.
    Second,
    /// IN: an input line takes a level.
    In(InLine, bool),
    /// SN: a sense register of a drive takes a level.
    Sense(Drive, SenseRegister, bool),
    /// DI: a disk is inserted or removed.
    Disk {
        /// Where.
        drive: Drive,
        /// True to insert, false to remove.
        insert: bool,
        /// Counts on insertion only.
        locked: bool,
        /// Counts on insertion only.
        double_sided: bool,
    },
    /// KC: a pulse of the keyboard's clock, with the level of its data line.
    Pulse(bool),
    /// RS: reset.
    Reset,
    /// PW: power cut, with the time off.
    Power(Seconds),
}

impl Item {
    /// The letters of all kinds.
    pub const KINDS: [&'static [u8; 2]; 11] =
        [b"RD", b"WR", b"MW", b"VB", b"SE", b"IN", b"SN", b"DI", b"KC", b"RS", b"PW"];

    /// The two letters of its kind.
    pub fn kind(&self) -> &'static [u8; 2] {
        match self {
            Item::Read(_) => b"RD",
            Item::Write(..) => b"WR",
            Item::WriteMany(..) => b"MW",
            Item::Blank => b"VB",
            Item::Second => b"SE",
            Item::In(..) => b"IN",
            Item::Sense(..) => b"SN",
            Item::Disk { .. } => b"DI",
            Item::Pulse(_) => b"KC",
            Item::Reset => b"RS",
            Item::Power(_) => b"PW",
        }
    }

    /// Appends the item's record.
    pub fn write(&self, wait: WaitTicks, out: &mut Vec<u8>) {
        let start = out.len();
        out.extend_from_slice(&[0, 0]);
        out.extend_from_slice(self.kind());
        out.extend_from_slice(&wait.0.to_le_bytes());
        match *self {
            Item::Read(address) => out.extend_from_slice(&address.number().to_le_bytes()),
            Item::Write(address, value) => {
                out.extend_from_slice(&address.number().to_le_bytes());
                out.push(value);
            }
            Item::WriteMany(address, values) => {
                out.extend_from_slice(&address.number().to_le_bytes());
                out.push(values.count);
                out.extend_from_slice(&values);
            }
            Item::Blank | Item::Second | Item::Reset => {}
            Item::In(line, level) => out.extend_from_slice(&[line.0, u8::from(level)]),
            Item::Sense(drive, register, level) => {
                out.extend_from_slice(&[drive.into(), register.0, level.into()]);
            }
            Item::Disk { drive, insert, locked, double_sided } => {
                out.push(drive.into());
                out.extend([insert, locked, double_sided].map(u8::from));
            }
            Item::Pulse(level) => out.push(level.into()),
            Item::Power(seconds) => out.extend_from_slice(&seconds.0.to_le_bytes()),
        }
        // No kind has a body that comes near 65,535 bytes.
        #[allow(clippy::cast_possible_truncation, reason = "see above")]
        let length = (out.len() - start - 2) as u16;
        out[start..start + 2].copy_from_slice(&length.to_le_bytes());
    }

    /// Reads a record, given without its length.
    ///
    /// # Errors
    /// The refusal that a run answers whatever the state. [`Refusal::Disk`] is none of those, nor is
    /// [`Refusal::Retired`]: items of an old capture can be looked at and shown.
    pub fn read(record: &[u8]) -> Result<(WaitTicks, Item), Refusal> {
        let (kind, rest) = record.split_first_chunk::<2>().ok_or(Refusal::Cut)?;
        if !Self::KINDS.contains(&kind) {
            return Err(Refusal::Kind);
        }
        let (wait, body) = rest.split_first_chunk::<2>().ok_or(Refusal::Length)?;
        let item = match (kind, body) {
            (b"RD", &[a, b, c, d]) => Item::Read(address([a, b, c, d])?),
            (b"WR", &[a, b, c, d, value]) => Item::Write(address([a, b, c, d])?, value),
            (b"MW", &[a, b, c, d, count, ref values @ ..]) => {
                many(address([a, b, c, d])?, count, values)?
            }
            (b"VB", []) => Item::Blank,
            (b"SE", []) => Item::Second,
            (b"IN", &[line, to]) => Item::In(line.try_into()?, level(to)?),
            (b"SN", &[drive, register, to]) => {
                Item::Sense(drive.try_into()?, register.try_into()?, level(to)?)
            }
            (b"DI", &[drive, insert, locked, double_sided]) => Item::Disk {
                drive: drive.try_into()?,
                insert: level(insert)?,
                locked: level(locked)?,
                double_sided: level(double_sided)?,
            },
            (b"KC", &[to]) => Item::Pulse(level(to)?),
            (b"RS", []) => Item::Reset,
            (b"PW", &[a, b, c, d]) => Item::Power(Seconds(u32::from_le_bytes([a, b, c, d]))),
            _ => return Err(Refusal::Length),
        };
        Ok((WaitTicks(u16::from_le_bytes(*wait)), item))
    }
}

fn address(bytes: [u8; 4]) -> Result<Address, Refusal> {
    u32::from_le_bytes(bytes).try_into()
}

/// An MW: its address is judged first, then the count, and last whether so many values follow.
fn many(address: Address, count: u8, values: &[u8]) -> Result<Item, Refusal> {
    if !(1..=Values::MAX).contains(&count.into()) {
        return Err(Refusal::Range);
    }
    if values.len() != usize::from(count) {
        return Err(Refusal::Length);
    }
    Ok(Item::WriteMany(address, values.try_into()?))
}

fn level(byte: u8) -> Result<bool, Refusal> {
    match byte {
        0 => Ok(false),
        1 => Ok(true),
        _ => Err(Refusal::Range),
    }
}

impl fmt::Display for Item {
    fn fmt(&self, f: &mut fmt::Formatter<'_>) -> fmt::Result {
        let words = text::item(WaitTicks(0), self);
        f.pad(words.strip_prefix("0t ").unwrap_or(&words))
    }
}

impl FromStr for Item {
    type Err = text::LineError;

    fn from_str(text: &str) -> Result<Item, text::LineError> {
        let before = "0t ";
        match format!("{before}{text}").parse::<Timed>() {
            Ok(timed) => Ok(timed.item),
            Err(error) => Err(text::LineError {
                column: error.column.saturating_sub(before.len()).max(1),
                message: error.message,
            }),
        }
    }
}

/// An item and the wait that passes before it acts.
///
/// Written and read as a line of the text form ([`crate::text`]):
///
/// ```
/// use swarmtempo::{Item, Timed, WaitTicks};
///
/// let second = Timed { wait: WaitTicks(12), item: Item::Second };
/// assert_eq!(second.to_string(), "12t SE");
/// assert_eq!("12t SE ; the one-second tick".parse(), Ok(second));
/// assert_eq!(Timed::try_from(&[4, 0, b'S', b'E', 12, 0][..]), Ok(second));
/// ```
#[derive(Clone, Copy, Debug, PartialEq, Eq, Hash)]
pub struct Timed {
    /// Passes first.
    pub wait: WaitTicks,
    /// What is done then.
    pub item: Item,
}

impl Timed {
    /// The bytes of its record.
    pub fn to_bytes(&self) -> Vec<u8> {
        let mut bytes = Vec::new();
        self.item.write(self.wait, &mut bytes);
        bytes
    }

    /// The single items that it stands for: of an MW a WR for each value, the first after its wait and
    /// the others with none; else itself.
    ///
    /// ```
    /// use swarmtempo::Timed;
    ///
    /// let many: Timed = "12t MW VIA.ORB $F9 $FB".parse()?;
    /// let singles: Vec<String> = many.singles().map(|single| single.to_string()).collect();
    /// assert_eq!(singles, ["12t WR VIA.ORB $F9", "0t WR VIA.ORB $FB"]);
    /// # Ok::<(), swarmtempo::text::LineError>(())
    /// ```
    pub fn singles(self) -> impl Iterator<Item = Timed> {
        let count = match self.item {
            Item::WriteMany(_, values) => values.len(),
            _ => 1,
        };
        (0..count).map(move |i| match self.item {
            Item::WriteMany(address, values) => Timed {
                wait: if i == 0 { self.wait } else { WaitTicks(0) },
                item: Item::Write(address, values[i]),
            },
            _ => self,
        })
    }
}

impl From<(WaitTicks, Item)> for Timed {
    fn from((wait, item): (WaitTicks, Item)) -> Timed {
        Timed { wait, item }
    }
}

impl TryFrom<&[u8]> for Timed {
    type Error = Refusal;

    /// From the bytes of one whole record; the refusal that a run answers whatever the state.
    fn try_from(record: &[u8]) -> Result<Timed, Refusal> {
        match record.split_first_chunk::<2>() {
            Some((length, rest)) if rest.len() == usize::from(u16::from_le_bytes(*length)) => {
                Item::read(rest).map(Timed::from)
            }
            _ => Err(Refusal::Cut),
        }
    }
}

impl fmt::Display for Timed {
    fn fmt(&self, f: &mut fmt::Formatter<'_>) -> fmt::Result {
        f.pad(&text::item(self.wait, &self.item))
    }
}

impl FromStr for Timed {
    type Err = text::LineError;

    fn from_str(text: &str) -> Result<Timed, text::LineError> {
        let mut bytes = Vec::new();
        text::assemble_line(text, &mut bytes)?;
        if bytes.is_empty() {
            return Err(text::LineError { column: 1, message: "an item is missing".into() });
        }
        Timed::try_from(&bytes[..])
            .map_err(|refusal| text::LineError { column: 1, message: refusal.to_string() })
    }
}
