//! The 32 addresses, by the names of registers and lines.

use crate::units::number;
use crate::{ParseError, Refusal};
use std::fmt;
use std::str::FromStr;

/// A VIA register, by the data sheet's names.
#[derive(Clone, Copy, Debug, PartialEq, Eq, Hash)]
#[allow(missing_docs, reason = "the names are the data sheet's")]
pub enum Register {
    ORB,
    ORA,
    DDRB,
    DDRA,
    T1CL,
    T1CH,
    T1LL,
    T1LH,
    T2CL,
    T2CH,
    SR,
    ACR,
    PCR,
    IFR,
    IER,
    /// Port A again; clears no flag.
    ORANH,
}

impl Register {
    /// Registers 0 to 15.
    pub const ALL: [Register; 16] = [
        Register::ORB,
        Register::ORA,
        Register::DDRB,
        Register::DDRA,
        Register::T1CL,
        Register::T1CH,
        Register::T1LL,
        Register::T1LH,
        Register::T2CL,
        Register::T2CH,
        Register::SR,
        Register::ACR,
        Register::PCR,
        Register::IFR,
        Register::IER,
        Register::ORANH,
    ];
    const NAMES: [&'static str; 16] = [
        "ORB", "ORA", "DDRB", "DDRA", "T1CL", "T1CH", "T1LL", "T1LH", "T2CL", "T2CH", "SR", "ACR",
        "PCR", "IFR", "IER", "ORANH",
    ];

    /// 0 to 15.
    pub fn index(self) -> usize {
        self as usize
    }

    /// Its name.
    pub fn name(self) -> &'static str {
        Self::NAMES[self.index()]
    }
}

/// One of the eight disk lines.
#[derive(Clone, Copy, Debug, PartialEq, Eq, Hash)]
#[allow(missing_docs, reason = "the names are the hardware's")]
pub enum DiskLine {
    CA0,
    CA1,
    CA2,
    LSTRB,
    ENABLE,
    SELECT,
    Q6,
    Q7,
}

impl DiskLine {
    /// All, in the order of the disk-line byte.
    pub const ALL: [DiskLine; 8] = [
        DiskLine::CA0,
        DiskLine::CA1,
        DiskLine::CA2,
        DiskLine::LSTRB,
        DiskLine::ENABLE,
        DiskLine::SELECT,
        DiskLine::Q6,
        DiskLine::Q7,
    ];
    const NAMES: [&'static str; 8] = ["CA0", "CA1", "CA2", "LSTRB", "ENABLE", "SELECT", "Q6", "Q7"];

    /// Its bit in the disk-line byte.
    pub fn index(self) -> usize {
        self as usize
    }

    /// Its name.
    pub fn name(self) -> &'static str {
        Self::NAMES[self.index()]
    }
}

/// One of the 32 addresses.
///
/// Written `VIA.ORB`, or `IWM.LSTRB-` and `IWM.LSTRB+` for off and on; read as that, in small letters
/// too, or as a number.
///
/// ```
/// use swarmtempo::{Address, Refusal, Register};
///
/// let port_b = Address::Via(Register::ORB);
/// assert_eq!(port_b.to_string(), "VIA.ORB");
/// assert_eq!("via.orb".parse(), Ok(port_b));
/// assert_eq!("$EFE1FE".parse(), Ok(port_b));
/// assert_eq!(Address::try_from(0xEF_E1FE), Ok(port_b));
/// assert_eq!(Address::try_from(0xEF_E1FF), Err(Refusal::Address));
/// ```
#[derive(Clone, Copy, Debug, PartialEq, Eq, Hash)]
pub enum Address {
    /// A VIA register.
    Via(Register),
    /// The IWM location that turns a line off (false) or on (true).
    Iwm(DiskLine, bool),
}

impl Address {
    const VIA: u32 = 0x00EF_E1FE;
    const IWM: u32 = 0x00DF_E1FF;
    const STRIDE: u32 = 512;

    /// The address of a number, or none where it is none of the 32.
    pub fn from_number(number: u32) -> Option<Address> {
        let index = |base: u32| {
            let offset = number.checked_sub(base).filter(|offset| offset % Self::STRIDE == 0)?;
            usize::try_from(offset / Self::STRIDE).ok()
        };
        let via = index(Self::VIA).and_then(|r| Register::ALL.get(r).copied());
        via.map(Address::Via).or_else(|| {
            let k = index(Self::IWM)?;
            Some(Address::Iwm(*DiskLine::ALL.get(k / 2)?, k % 2 == 1))
        })
    }

    /// Its number.
    pub fn number(self) -> u32 {
        match self {
            Address::Via(register) => Self::VIA + Self::STRIDE * register as u32,
            Address::Iwm(line, on) => Self::IWM + Self::STRIDE * (2 * line as u32 + u32::from(on)),
        }
    }

    /// All 32.
    pub fn all() -> impl Iterator<Item = Address> {
        let iwm = DiskLine::ALL
            .into_iter()
            .flat_map(|line| [Address::Iwm(line, false), Address::Iwm(line, true)]);
        Register::ALL.into_iter().map(Address::Via).chain(iwm)
    }

    /// `VIA.ORB`, or `IWM.LSTRB-` and `IWM.LSTRB+` for off and on.
    pub fn name(self) -> String {
        match self {
            Address::Via(register) => format!("VIA.{}", register.name()),
            Address::Iwm(line, on) => format!("IWM.{}{}", line.name(), if on { '+' } else { '-' }),
        }
    }
}

impl TryFrom<u32> for Address {
    type Error = Refusal;

    /// [`Refusal::Address`] where the number is none of the 32.
    fn try_from(number: u32) -> Result<Address, Refusal> {
        Address::from_number(number).ok_or(Refusal::Address)
    }
}

impl From<Address> for u32 {
    fn from(address: Address) -> u32 {
        address.number()
    }
}

impl fmt::Display for Address {
    fn fmt(&self, f: &mut fmt::Formatter<'_>) -> fmt::Result {
        f.pad(&self.name())
    }
}

impl FromStr for Address {
    type Err = ParseError;

    fn from_str(text: &str) -> Result<Address, ParseError> {
        let found = match number(text) {
            Some(number) => u32::try_from(number).ok().and_then(Address::from_number),
            None => Address::all().find(|address| address.name().eq_ignore_ascii_case(text)),
        };
        found.ok_or_else(|| ParseError::new(text, "one of the 32 addresses, as VIA.ORB or $EFE1FE"))
    }
}

/// Something with an index and a name, one of an array of all.
macro_rules! named {
    ($type:ident, $expected:literal) => {
        impl fmt::Display for $type {
            fn fmt(&self, f: &mut fmt::Formatter<'_>) -> fmt::Result {
                f.pad(self.name())
            }
        }

        impl FromStr for $type {
            type Err = ParseError;

            /// By its name, in small letters too.
            fn from_str(text: &str) -> Result<$type, ParseError> {
                let found = Self::ALL.into_iter().find(|it| it.name().eq_ignore_ascii_case(text));
                found.ok_or_else(|| ParseError::new(text, $expected))
            }
        }

        impl TryFrom<u8> for $type {
            type Error = Refusal;

            /// [`Refusal::Range`] where nothing has this number.
            fn try_from(number: u8) -> Result<$type, Refusal> {
                Self::ALL.get(usize::from(number)).copied().ok_or(Refusal::Range)
            }
        }

        impl From<$type> for u8 {
            fn from(value: $type) -> u8 {
                value as u8
            }
        }
    };
}
pub(crate) use named;

named!(Register, "a VIA register, as ORB or IFR");
named!(DiskLine, "a disk line, as CA0 or LSTRB");
