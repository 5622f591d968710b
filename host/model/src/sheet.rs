//! Sheets of settings, read from the requirements into plain collections.

use std::collections::BTreeMap;
use std::ops::Range;

/// A record of a sheet: the setting, its version, and where its bytes and the whole record are.
struct Row {
    setting: u16,
    version: u8,
    bytes: Range<usize>,
    whole: Range<usize>,
}

/// The records, or none where the sheet is broken.
fn rows(sheet: &[u8]) -> Option<Vec<Row>> {
    let mut all = Vec::new();
    let mut at = 0;
    while at != sheet.len() {
        let head = sheet.get(at..at + 2)?;
        let length = usize::from(head[0]) | usize::from(head[1]) << 8;
        let end = at + 2 + length;
        if end > sheet.len() || !(5..=69).contains(&length) || &sheet[at + 2..at + 4] != b"SV" {
            return None;
        }
        all.push(Row {
            setting: u16::from(sheet[at + 4]) | u16::from(sheet[at + 5]) << 8,
            version: sheet[at + 6],
            bytes: at + 7..end,
            whole: at..end,
        });
        at = end;
    }
    Some(all)
}

/// The index of each setting's counting record.
fn counting(rows: &[Row]) -> BTreeMap<u16, usize> {
    let mut best: BTreeMap<u16, usize> = BTreeMap::new();
    // From the last to the first: an earlier record counts only with a higher version.
    for (i, row) in rows.iter().enumerate().rev() {
        let old = best.get(&row.setting).map(|&j| rows[j].version);
        if old.is_none_or(|version| row.version > version) {
            best.insert(row.setting, i);
        }
    }
    best
}

/// What a look-up finds.
#[derive(Clone, Debug, PartialEq, Eq)]
pub enum Found {
    /// The part of the bench sheet.
    Bench(Range<usize>),
    /// The part of the house sheet.
    House(Range<usize>),
    /// In neither.
    NotSet,
    /// Either sheet is broken: refusal 1.
    Broken,
}

/// A setting's bytes.
pub fn lookup(bench: &[u8], house: &[u8], setting: u16) -> Found {
    let (Some(bench), Some(house)) = (rows(bench), rows(house)) else {
        return Found::Broken;
    };
    if let Some(&i) = counting(&bench).get(&setting) {
        return Found::Bench(bench[i].bytes.clone());
    }
    match counting(&house).get(&setting) {
        Some(&i) => Found::House(house[i].bytes.clone()),
        None => Found::NotSet,
    }
}

/// The counting records in their old order.
///
/// # Errors
/// The refusal: 1 for a broken sheet, then 6 where `room` is too little.
pub fn compact(sheet: &[u8], room: usize) -> Result<Vec<u8>, u8> {
    let rows = rows(sheet).ok_or(1)?;
    let mut kept: Vec<usize> = counting(&rows).into_values().collect();
    kept.sort_unstable();
    let bytes: Vec<u8> =
        kept.iter().flat_map(|&i| sheet[rows[i].whole.clone()].iter().copied()).collect();
    if bytes.len() > room {
        return Err(6);
    }
    Ok(bytes)
}
