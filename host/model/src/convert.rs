//! Old captures turned over, for captures made before SN on a drive's own registers retired.

use crate::refusal;
use crate::run::frame;

/// What a conversion came to.
#[derive(Clone, Debug, PartialEq, Eq)]
pub struct Conversion {
    /// 0, or 1 where a cut record ended the work, or 6 where the room is too small.
    pub refusal: u8,
    /// All that is written; empty on 6.
    pub bytes: Vec<u8>,
    /// Retired SN items replaced with no DI after them; 0 on 6.
    pub count: usize,
    /// Retired SN items replaced; 0 on 6.
    pub replaced: usize,
    /// Bytes of the old capture before the cut record, or all of them; 0 on 6.
    pub consumed: usize,
}

/// What the SN items before said of a drive.
#[derive(Clone, Copy, Default)]
struct Seen {
    present: bool,
    locked: bool,
    single_sided: bool,
}

/// The drive, register and level of a valid SN on a register of the drive's own.
fn retired(record: &[u8]) -> Option<(usize, u8, bool)> {
    let &[b'S', b'N', _, _, drive @ 0..=1, register, level @ 0..=1] = record else {
        return None;
    };
    matches!(register, 0..=5 | 12 | 15).then_some((drive.into(), register, level == 1))
}

/// Turns a capture over into at most `room` bytes.
pub fn convert(list: &[u8], room: usize) -> Conversion {
    let mut out = Conversion { refusal: 0, bytes: Vec::new(), count: 0, replaced: 0, consumed: 0 };
    let mut line0 = 1;
    let mut drives = [Seen::default(); 2];
    while out.consumed < list.len() {
        let rest = &list[out.consumed..];
        let Some(record) = frame(rest) else {
            out.refusal = refusal::CUT;
            break;
        };
        let whole = &rest[..record.len() + 2];
        out.consumed += whole.len();
        let Some((drive, register, level)) = retired(record) else {
            if let &[b'I', b'N', _, _, 0, level @ 0..=1] = record {
                line0 = level;
            }
            out.bytes.extend_from_slice(whole);
            continue;
        };
        out.replaced += 1;
        out.bytes.extend([6, 0, b'I', b'N', record[2], record[3], 0, line0]);
        let seen = &mut drives[drive];
        match register {
            1 if seen.present == level => {
                seen.present = !level;
                let insert = u8::from(!level);
                let locked = u8::from(!level && seen.locked);
                let sides = u8::from(!level && !seen.single_sided);
                out.bytes.extend([8, 0, b'D', b'I', 0, 0, drive as u8, insert, locked, sides]);
                continue;
            }
            3 => seen.locked = !level,
            12 => seen.single_sided = !level,
            _ => {}
        }
        out.count += 1;
    }
    if out.bytes.len() > room {
        let refusal = refusal::ROOM;
        return Conversion { refusal, bytes: Vec::new(), count: 0, replaced: 0, consumed: 0 };
    }
    out
}
