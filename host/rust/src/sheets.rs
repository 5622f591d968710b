//! Sheets of settings: how a bench gets its settings.
//!
//! A sheet is a run of records of kind SV. Within a sheet the highest version of a setting counts,
//! the later record where versions are equal; the bench sheet comes before the house sheet.
//!
//! ```
//! use swarmtempo::{sheet_text, Sheet, Sheets};
//!
//! let bench = sheet_text::assemble("7 1 \"north\"").unwrap();
//! let house = sheet_text::assemble("7 9 \"lab\"\n20 1 01").unwrap();
//! let sheets = Sheets::new(&bench, &house).unwrap();
//! assert_eq!(sheets.get(7), Some((&b"north"[..], Sheet::Bench)));
//! assert_eq!(sheets.get(20), Some((&[1][..], Sheet::House)));
//! assert_eq!(sheets.get(8), None);
//! ```

use crate::sys;
use std::fmt;

/// Bytes of a record before the setting's own: length (2), kind (2), setting (2), version (1).
const HEAD: usize = 7;
/// Bytes of a setting at most.
pub const SETTING_MAX: usize = 64;

/// Which of the two sheets.
#[derive(Clone, Copy, Debug, PartialEq, Eq)]
pub enum Sheet {
    /// The bench's own.
    Bench,
    /// The house's, for all benches.
    House,
}

impl Sheet {
    /// In lists and messages.
    pub fn name(self) -> &'static str {
        match self {
            Sheet::Bench => "bench",
            Sheet::House => "house",
        }
    }
}

/// Why a sheet is refused.
#[derive(Clone, Copy, Debug, PartialEq, Eq)]
pub enum SheetRefusal {
    /// 1: a cut record, another kind than SV, or a length outside 5 to 69.
    Broken,
    /// 6: too little room for the records to be written.
    Room,
}

impl SheetRefusal {
    /// The refusal's number.
    pub fn number(self) -> u8 {
        match self {
            SheetRefusal::Broken => 1,
            SheetRefusal::Room => 6,
        }
    }
}

impl fmt::Display for SheetRefusal {
    fn fmt(&self, f: &mut fmt::Formatter<'_>) -> fmt::Result {
        f.write_str(match self {
            SheetRefusal::Broken => {
                "a cut record, another kind than SV, or a length outside 5 to 69"
            }
            SheetRefusal::Room => "too little room",
        })
    }
}

impl std::error::Error for SheetRefusal {}

/// A bench sheet and a house sheet, neither of them broken.
#[derive(Clone, Copy, Debug)]
pub struct Sheets<'a> {
    bench: &'a [u8],
    house: &'a [u8],
}

impl<'a> Sheets<'a> {
    /// Both sheets, checked whole; either may be empty.
    ///
    /// # Errors
    /// [`SheetRefusal::Broken`] where either is broken.
    pub fn new(bench: &'a [u8], house: &'a [u8]) -> Result<Sheets<'a>, SheetRefusal> {
        match sys::sheet_get(bench, house, 0).refusal {
            0 => Ok(Sheets { bench, house }),
            _ => Err(SheetRefusal::Broken),
        }
    }

    /// A setting's bytes, uncopied, and the sheet that they are a part of; none where it is not set.
    pub fn get(&self, setting: u16) -> Option<(&'a [u8], Sheet)> {
        let found = sys::sheet_get(self.bench, self.house, setting);
        let (whole, sheet) = match found.sheet {
            1 => (self.bench, Sheet::Bench),
            2 => (self.house, Sheet::House),
            _ => return None,
        };
        let (start, size) = (usize::try_from(found.start).ok()?, usize::try_from(found.size).ok()?);
        Some((whole.get(start..)?.get(..size)?, sheet))
    }
}

/// Writes a sheet's counting records, one for each setting, in their old order, and gives the number
/// of bytes. Every answer's bytes stay the same. What lies past them keeps its contents.
///
/// # Errors
/// [`SheetRefusal::Broken`], then [`SheetRefusal::Room`]; nothing is written then.
pub fn compact_into(sheet: &[u8], out: &mut [u8]) -> Result<usize, SheetRefusal> {
    match sys::sheet_compact(sheet, out) {
        // Not above the room, so a usize has it.
        (0, written) => usize::try_from(written).map_err(|_| SheetRefusal::Room),
        (1, _) => Err(SheetRefusal::Broken),
        _ => Err(SheetRefusal::Room),
    }
}

/// A sheet's counting records alone.
///
/// # Errors
/// [`SheetRefusal::Broken`].
pub fn compact(sheet: &[u8]) -> Result<Vec<u8>, SheetRefusal> {
    let mut out = vec![0; sheet.len()];
    let written = compact_into(sheet, &mut out)?;
    out.truncate(written);
    Ok(out)
}

/// A record of a sheet.
#[derive(Clone, Copy, Debug, PartialEq, Eq)]
pub struct Setting<'a> {
    /// The setting's number.
    pub setting: u16,
    /// Its version.
    pub version: u8,
    /// Its bytes, [`SETTING_MAX`] at most.
    pub bytes: &'a [u8],
}

impl Setting<'_> {
    /// Appends the record.
    ///
    /// # Panics
    /// Where there are more than [`SETTING_MAX`] bytes.
    pub fn write(&self, out: &mut Vec<u8>) {
        assert!(self.bytes.len() <= SETTING_MAX, "a setting has 64 bytes at most");
        let length = u8::try_from(HEAD - 2 + self.bytes.len()).expect("69 at most");
        out.push(length);
        out.extend_from_slice(b"\0SV");
        out.extend_from_slice(&self.setting.to_le_bytes());
        out.push(self.version);
        out.extend_from_slice(self.bytes);
    }
}

/// The records of a sheet, in order.
///
/// # Errors
/// [`SheetRefusal::Broken`].
pub fn settings(sheet: &[u8]) -> Result<Vec<Setting<'_>>, SheetRefusal> {
    Sheets::new(sheet, &[])?;
    let (mut rest, mut all) = (sheet, Vec::new());
    while !rest.is_empty() {
        let (row, after) = rest.split_at(2 + usize::from(rest[0]));
        all.push(Setting {
            setting: u16::from_le_bytes([row[4], row[5]]),
            version: row[6],
            bytes: &row[HEAD..],
        });
        rest = after;
    }
    Ok(all)
}
