//! Units of time, a type each, so that one is not passed as another.

use crate::{sys, ParseError};
use std::fmt;
use std::str::FromStr;

/// VIA ticks in a second.
pub const TICKS_PER_SECOND: u32 = 783_360;

/// A wait in VIA ticks, 783,360 of which are a second.
///
/// Written `12t`, in full (`{:#}`) `12 VIA ticks`; the first is read back.
///
/// ```
/// use swarmtempo::{Micros, WaitTicks};
///
/// assert_eq!("12t".parse(), Ok(WaitTicks(12)));
/// assert_eq!(format!("{0} or {0:#}", WaitTicks(12)), "12t or 12 VIA ticks");
/// assert_eq!(WaitTicks::try_from(Micros(12_000)), Ok(WaitTicks(9_401)));
/// assert!("12s".parse::<WaitTicks>().is_err());
/// ```
#[derive(Clone, Copy, Debug, Default, PartialEq, Eq, PartialOrd, Ord, Hash)]
pub struct WaitTicks(pub u16);

/// A number of VIA ticks, which may be more than one wait takes. Written as [`WaitTicks`].
#[derive(Clone, Copy, Debug, Default, PartialEq, Eq, PartialOrd, Ord, Hash)]
pub struct ViaTicks(pub u32);

/// A time in seconds. Written `5s`, in full `5 seconds`.
#[derive(Clone, Copy, Debug, Default, PartialEq, Eq, PartialOrd, Ord, Hash)]
pub struct Seconds(pub u32);

/// A time in microseconds. Written `12000us`, in full `12000 microseconds`. Only the library turns it
/// into VIA ticks:
///
/// ```
/// use swarmtempo::{Item, List, Micros, ViaTicks, WaitTicks};
///
/// // 12 ms, a step of a drive: 9,400.32 ticks.
/// let step = Micros(12_000).ticks();
/// assert_eq!(step, ViaTicks(9_401));
/// assert_eq!(step.wait(), Some(WaitTicks(9_401)));
/// if let Some(wait) = step.wait() {
///     List::new().push(wait, Item::Second);
/// }
/// // Half a second is longer than one wait.
/// assert_eq!(Micros(500_000).ticks(), ViaTicks(391_680));
/// assert_eq!(Micros(500_000).ticks().wait(), None);
/// assert_eq!(Micros(500_000).ticks().waits().count(), 6);
/// ```
///
/// It is no wait itself:
///
/// ```compile_fail
/// use swarmtempo::{Item, List, Micros};
/// List::new().push(Micros(12_000), Item::Second);
/// ```
#[derive(Clone, Copy, Debug, Default, PartialEq, Eq, PartialOrd, Ord, Hash)]
pub struct Micros(pub u32);

impl Micros {
    /// In VIA ticks, rounded up (`swarmtempo_ticks_of_micros`).
    pub fn ticks(self) -> ViaTicks {
        ViaTicks(sys::ticks_of_micros(self.0))
    }
}

impl ViaTicks {
    /// As one wait, where it is not too long.
    pub fn wait(self) -> Option<WaitTicks> {
        u16::try_from(self.0).ok().map(WaitTicks)
    }

    /// As waits one after the other, each as long as can be; none for no ticks.
    pub fn waits(self) -> impl Iterator<Item = WaitTicks> {
        let longest = u32::from(u16::MAX);
        let whole = (0..self.0 / longest).map(|_| WaitTicks(u16::MAX));
        let rest = ViaTicks(self.0 % longest).wait().filter(|wait| wait.0 > 0);
        whole.chain(rest)
    }
}

/// More VIA ticks than one wait takes, 65,535.
#[derive(Clone, Copy, Debug, PartialEq, Eq)]
pub struct TooLong(pub ViaTicks);

impl fmt::Display for TooLong {
    fn fmt(&self, f: &mut fmt::Formatter<'_>) -> fmt::Result {
        write!(f, "{:#} are longer than one wait, {:#}", self.0, WaitTicks(u16::MAX))
    }
}

impl std::error::Error for TooLong {}

impl From<WaitTicks> for ViaTicks {
    fn from(wait: WaitTicks) -> ViaTicks {
        ViaTicks(wait.0.into())
    }
}

impl From<Micros> for ViaTicks {
    fn from(micros: Micros) -> ViaTicks {
        micros.ticks()
    }
}

impl TryFrom<ViaTicks> for WaitTicks {
    type Error = TooLong;

    fn try_from(ticks: ViaTicks) -> Result<WaitTicks, TooLong> {
        ticks.wait().ok_or(TooLong(ticks))
    }
}

impl TryFrom<Micros> for WaitTicks {
    type Error = TooLong;

    fn try_from(micros: Micros) -> Result<WaitTicks, TooLong> {
        micros.ticks().try_into()
    }
}

/// A number with its unit, written and read.
macro_rules! with_unit {
    ($type:ident, $unit:literal, $full:literal, $expected:literal) => {
        impl fmt::Display for $type {
            fn fmt(&self, f: &mut fmt::Formatter<'_>) -> fmt::Result {
                if f.alternate() {
                    let more = if self.0 == 1 { "" } else { "s" };
                    return f.pad(&format!("{} {}{more}", self.0, $full));
                }
                f.pad(&format!("{}{}", self.0, $unit))
            }
        }

        impl FromStr for $type {
            type Err = ParseError;

            fn from_str(text: &str) -> Result<$type, ParseError> {
                let number = before_unit(text, $unit).and_then(number);
                let number = number.and_then(|number| number.try_into().ok());
                number.map($type).ok_or_else(|| ParseError::new(text, $expected))
            }
        }
    };
}

with_unit!(WaitTicks, "t", "VIA tick", "a wait from 0t to 65535t (VIA ticks)");
with_unit!(ViaTicks, "t", "VIA tick", "a number of VIA ticks, as 391680t");
with_unit!(Seconds, "s", "second", "a number of seconds, as 5s");
with_unit!(Micros, "us", "microsecond", "a number of microseconds, as 12000us");

fn before_unit<'a>(text: &'a str, unit: &str) -> Option<&'a str> {
    let (number, end) = text.split_at_checked(text.len().checked_sub(unit.len())?)?;
    end.eq_ignore_ascii_case(unit).then_some(number)
}

/// A decimal number, or a hexadecimal one after `$` or `0x`.
pub(crate) fn number(text: &str) -> Option<u64> {
    let hex = ["$", "0x", "0X"].into_iter().find_map(|sign| text.strip_prefix(sign));
    let (digits, radix) = hex.map_or((text, 10), |digits| (digits, 16));
    // from_str_radix takes a sign too.
    digits.chars().all(|c| c.is_digit(radix)).then(|| u64::from_str_radix(digits, radix).ok())?
}
