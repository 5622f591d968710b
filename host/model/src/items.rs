//! Items as bytes.

use crate::refusal;

/// Address of VIA register 0.
pub const VIA_BASE: u32 = 0x00EF_E1FE;
/// Address of IWM location 0.
pub const IWM_BASE: u32 = 0x00DF_E1FF;
/// From one register or location to the next, in bytes.
pub const STRIDE: u32 = 512;

/// Values of an MW at most.
pub const VALUES_MOST: u8 = 64;

/// What an item does after its wait. `Many` is MW, a write for each value, the first after the wait and the
/// others with none; the values stay in the record. `Pulse` is KC, a pulse of the keyboard's clock with the
/// level of its data line.
#[derive(Clone, Debug, PartialEq, Eq)]
pub enum Item<'a> {
    ReadVia { register: u8 },
    ReadIwm { location: u8 },
    WriteVia { register: u8, value: u8 },
    WriteIwm { location: u8 },
    Many { place: Place, values: &'a [u8] },
    Blank,
    Second,
    Line { line: u8, level: bool },
    Sense { drive: u8, register: u8, level: bool },
    Disk { drive: u8, insert: bool, locked: bool, double_sided: bool },
    Reset,
    Power { seconds: u32 },
    Pulse { level: bool },
}

/// What an address stands for.
#[derive(Clone, Copy, Debug, PartialEq, Eq)]
pub enum Place {
    /// A register of the VIA.
    Via(u8),
    /// A location of the IWM.
    Iwm(u8),
}

impl Place {
    /// The write of a value to it.
    pub fn write(self, value: u8) -> Item<'static> {
        match self {
            Place::Via(register) => Item::WriteVia { register, value },
            Place::Iwm(location) => Item::WriteIwm { location },
        }
    }
}

fn place(address: &[u8]) -> Result<Place, u8> {
    let address = u32::from_le_bytes([address[0], address[1], address[2], address[3]]);
    let index = |base: u32| {
        let offset = address.checked_sub(base)?;
        (offset % STRIDE == 0 && offset / STRIDE < 16).then_some((offset / STRIDE) as u8)
    };
    if let Some(register) = index(VIA_BASE) {
        Ok(Place::Via(register))
    } else if let Some(location) = index(IWM_BASE) {
        Ok(Place::Iwm(location))
    } else {
        Err(refusal::ADDRESS)
    }
}

fn level(byte: u8) -> Result<bool, u8> {
    match byte {
        0 => Ok(false),
        1 => Ok(true),
        _ => Err(refusal::RANGE),
    }
}

fn below(byte: u8, limit: u8) -> Result<u8, u8> {
    if byte < limit {
        Ok(byte)
    } else {
        Err(refusal::RANGE)
    }
}

/// The length that each kind but MW has, counting what follows the length.
fn length_of(kind: [u8; 2]) -> Option<usize> {
    match &kind {
        b"RD" | b"PW" | b"DI" => Some(8),
        b"WR" => Some(9),
        b"VB" | b"SE" | b"RS" => Some(4),
        b"KC" => Some(5),
        b"IN" => Some(6),
        b"SN" => Some(7),
        _ => None,
    }
}

/// An MW, whose length depends on its count: a length below 9, the address, the count, the length.
fn many(record: &[u8]) -> Result<(u16, Item<'_>), u8> {
    if record.len() < 9 {
        return Err(refusal::LENGTH);
    }
    let place = place(&record[4..8])?;
    let (count, values) = (record[8], &record[9..]);
    if count == 0 || count > VALUES_MOST {
        return Err(refusal::RANGE);
    }
    if values.len() != usize::from(count) {
        return Err(refusal::LENGTH);
    }
    Ok((u16::from_le_bytes([record[2], record[3]]), Item::Many { place, values }))
}

/// The wait in VIA ticks and the item of a record, given without its length (2 bytes or more).
///
/// # Errors
/// The refusal number.
pub fn decode(record: &[u8]) -> Result<(u16, Item<'_>), u8> {
    let kind = [record[0], record[1]];
    if kind == *b"MW" {
        return many(record);
    }
    let Some(length) = length_of(kind) else {
        return Err(refusal::KIND);
    };
    if record.len() != length {
        return Err(refusal::LENGTH);
    }
    let wait = u16::from_le_bytes([record[2], record[3]]);
    let body = &record[4..];
    let item = match &kind {
        b"RD" => match place(body)? {
            Place::Via(register) => Item::ReadVia { register },
            Place::Iwm(location) => Item::ReadIwm { location },
        },
        b"WR" => place(body)?.write(body[4]),
        b"VB" => Item::Blank,
        b"SE" => Item::Second,
        b"IN" => Item::Line { line: below(body[0], 7)?, level: level(body[1])? },
        b"SN" => {
            let (drive, register) = (below(body[0], 2)?, below(body[1], 16)?);
            let level = level(body[2])?;
            if matches!(register, 0..=5 | 12 | 15) {
                return Err(refusal::RETIRED);
            }
            Item::Sense { drive, register, level }
        }
        b"DI" => Item::Disk {
            drive: below(body[0], 2)?,
            insert: level(body[1])?,
            locked: level(body[2])?,
            double_sided: level(body[3])?,
        },
        b"KC" => Item::Pulse { level: level(body[0])? },
        b"RS" => Item::Reset,
        _ => Item::Power { seconds: u32::from_le_bytes([body[0], body[1], body[2], body[3]]) },
    };
    Ok((wait, item))
}
