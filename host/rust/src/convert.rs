//! Old captures turned over: SN on a register that the drive has itself (0 to 5, 12, 15) retired.

use crate::{sys, Refusal};

/// How a conversion ended.
#[derive(Clone, Copy, Debug, PartialEq, Eq, Hash)]
pub struct Conversion {
    /// None at the end of the capture, [`Refusal::Cut`] where a cut record ended the work (what comes
    /// before it is written), [`Refusal::Room`] where the room was too small (nothing is written).
    pub stop: Option<Refusal>,
    /// Bytes written.
    pub written: usize,
    /// Retired SN items that were replaced by an IN alone, with no DI after it.
    pub count: usize,
}

/// Turns an old capture over into lent room. Bytes past those written keep their contents.
#[allow(clippy::cast_possible_truncation, reason = "numbers are at most the room's length")]
pub fn convert_in(old: &[u8], room: &mut [u8]) -> Conversion {
    let sys::Converted { refusal, written, count } = sys::convert(old, room);
    let stop = Refusal::from_number(refusal);
    Conversion { stop, written: written as usize, count: count as usize }
}

/// Turns an old capture over, with all the room it needs.
///
/// ```
/// // SN: internal drive, register 1, level 0, after 258 VIA ticks: a disk was put in.
/// let old = [7, 0, b'S', b'N', 2, 1, 0, 1, 0];
/// let (new, end) = swarmtempo::convert(&old);
/// assert_eq!(new[..8], [6, 0, b'I', b'N', 2, 1, 0, 1]);
/// assert_eq!(new[8..], [8, 0, b'D', b'I', 0, 0, 0, 1, 0, 1]);
/// assert_eq!((end.stop, end.count), (None, 0));
/// ```
pub fn convert(old: &[u8]) -> (Vec<u8>, Conversion) {
    // A retired SN of 9 bytes becomes 18 at most; no other record grows.
    let mut new = vec![0; 2 * old.len()];
    let end = convert_in(old, &mut new);
    new.truncate(end.written);
    (new, end)
}
