//! Old captures turned over: the library against the model on random captures.

use swarmtempo::{
    convert, convert_in, Chip, Drive, Item, Machine, Refusal, SenseRegister, WaitTicks,
};
use swarmtempo_model as model;

struct Random(u64);

impl Random {
    fn below(&mut self, limit: u64) -> u64 {
        self.0 =
            self.0.wrapping_mul(6_364_136_223_846_793_005).wrapping_add(1_442_695_040_888_963_407);
        (self.0 >> 33) % limit
    }

    fn byte(&mut self, limit: u64) -> u8 {
        self.below(limit) as u8
    }
}

fn record(kind: &[u8], wait: u16, rest: &[u8]) -> Vec<u8> {
    let mut bytes = ((4 + rest.len()) as u16).to_le_bytes().to_vec();
    bytes.extend_from_slice(kind);
    bytes.extend_from_slice(&wait.to_le_bytes());
    bytes.extend_from_slice(rest);
    bytes
}

/// SN and IN for the most part, some of them out of range or of a wrong length; some captures are cut.
fn capture(random: &mut Random, disks: bool) -> Vec<u8> {
    let mut bytes = Vec::new();
    for _ in 0..random.below(40) {
        let wait = random.below(65_536) as u16;
        let register =
            [0, 1, 1, 1, 2, 3, 3, 4, 5, 6, 11, 12, 12, 13, 14, 15, 16][random.below(17) as usize];
        let one = |random: &mut Random| if random.below(20) == 0 { 2 } else { random.byte(2) };
        bytes.extend(match random.below(12) {
            0..=6 => {
                let (drive, level) = (one(random), one(random));
                let mut rest = vec![drive, register, level];
                if random.below(25) == 0 {
                    rest.push(0);
                }
                record(b"SN", wait, &rest)
            }
            7..=8 => {
                let (line, level) = (random.byte(3), one(random));
                record(b"IN", wait, &[line, level])
            }
            9 => record(b"WR", wait, &[0xFE, 0xE1, 0xEF, 0, random.byte(255)]),
            10 if disks => {
                let (drive, insert) = (random.byte(2), random.byte(2));
                record(b"DI", wait, &[drive, insert, random.byte(2), random.byte(2)])
            }
            10 => record(b"SE", wait, &[]),
            _ => record(b"QQ", wait, &[9, 9]),
        });
    }
    if random.below(6) == 0 {
        bytes.truncate(bytes.len().saturating_sub(1 + random.below(5) as usize));
    }
    bytes
}

/// VIA ticks that the items of a capture pass that are not refused by their bytes.
fn ticks(list: &[u8], mut done: impl FnMut(&[u8]) -> bool) -> u64 {
    let (mut at, mut sum) = (0, 0);
    while let Some(record) = model::frame(&list[at..]) {
        if done(record) {
            sum += u64::from(u16::from_le_bytes([record[2], record[3]]));
        }
        at += 2 + record.len();
    }
    sum
}

#[test]
fn as_the_model() {
    let mut random = Random(214);
    let mut refusals = [0; 7];
    for _ in 0..20_000 {
        let old = capture(&mut random, true);
        let whole = model::convert(&old, usize::MAX);
        let room = match random.below(4) {
            0 => whole.bytes.len(),
            1 => whole.bytes.len().saturating_sub(1 + random.below(9) as usize),
            _ => whole.bytes.len() + random.below(30) as usize,
        };
        let expected = model::convert(&old, room);
        let mut out = vec![0xA5; room];
        let end = convert_in(&old, &mut out);
        assert_eq!(end.stop.map_or(0, Refusal::number), expected.refusal);
        assert_eq!((end.written, end.count), (expected.bytes.len(), expected.count));
        assert_eq!(out[..end.written], expected.bytes);
        assert!(out[end.written..].iter().all(|&byte| byte == 0xA5));
        refusals[usize::from(expected.refusal)] += 1;
        if expected.refusal != 6 {
            let (again, second) = convert(&expected.bytes);
            assert_eq!(again, expected.bytes);
            assert_eq!((second.stop, second.count), (None, 0));
        }
    }
    assert!(refusals[0] > 1000 && refusals[1] > 1000 && refusals[6] > 1000, "{refusals:?}");
}

#[test]
fn as_many_ticks() {
    let mut random = Random(9);
    for _ in 0..5_000 {
        let old = capture(&mut random, false);
        let (new, _) = convert(&old);
        // Before, refusal 9 was none.
        let before = ticks(&old, |record| !matches!(model::decode(record), Err(1..=8)));
        let after = ticks(&new, |record| model::decode(record).is_ok());
        assert_eq!(before, after);
        assert!(ticks(&new, |record| model::decode(record) == Err(9)) == 0);
    }
}

/// A run refuses exactly the registers that have retired.
#[test]
fn retired_registers() {
    for register in (0..SenseRegister::COUNT).filter_map(SenseRegister::new) {
        let item = Item::Sense(Drive::External, register, true);
        let done = Machine::fresh(Chip::First).step(WaitTicks(0), item);
        assert_eq!(done.err(), register.is_retired().then_some(Refusal::Retired), "{register}");
    }
}

#[test]
fn a_story() {
    let sn = |wait, drive, register, level| record(b"SN", wait, &[drive, register, level]);
    let line = |wait, level| record(b"IN", wait, &[0, level]);
    let disk = |drive, insert, locked, sides| record(b"DI", 0, &[drive, insert, locked, sides]);
    let old = [
        line(9, 0),
        sn(513, 1, 3, 0),
        sn(1027, 1, 12, 0),
        sn(1541, 1, 1, 0),
        sn(2055, 0, 3, 1),
        sn(1797, 1, 1, 0),
        sn(258, 1, 1, 1),
        sn(7, 0, 6, 0),
    ];
    let new = [
        line(9, 0),
        line(513, 0),
        line(1027, 0),
        line(1541, 0),
        disk(1, 1, 1, 0),
        line(2055, 0),
        line(1797, 0),
        line(258, 0),
        disk(1, 0, 0, 0),
        sn(7, 0, 6, 0),
    ];
    let (bytes, end) = convert(&old.concat());
    assert_eq!(bytes, new.concat());
    assert_eq!((end.stop, end.count), (None, 4));
}
