//! MW: many writes in one item.

mod common;

use common::*;
use swarmtempo_model::{Chip, Machine, Phase};

/// An MW of these values.
fn mw(wait: u16, address: u32, values: &[u8]) -> Vec<u8> {
    counted(wait, address, values.len() as u8, values)
}

/// An MW with this count, whatever the number of its values.
fn counted(wait: u16, address: u32, count: u8, values: &[u8]) -> Vec<u8> {
    let rest = [&address.to_le_bytes()[..], &[count], values].concat();
    record(b"MW", wait, &rest)
}

/// The values of port B that send these bytes: enable down, the bits, enable up.
fn port_b(bytes: &[u8]) -> Vec<u8> {
    let mut values = vec![0];
    for bit in bytes.iter().flat_map(|byte| (0..8).rev().map(move |i| byte >> i & 1)) {
        values.extend([bit, bit | 2]);
    }
    values.push(4);
    values
}

/// Enable up, and the three lines outputs.
fn ready(chip: Chip) -> Bench {
    let mut b = Bench::of(chip);
    b.wr(0, via(ORB), 4);
    b.wr(0, via(DDRB), 7);
    b
}

#[test]
fn refusals_in_their_order() {
    let mut b = Bench::new();
    let (right, wrong) = (via(ORB), via(ORB) + 1);
    // A length below 9, whatever the address.
    assert_eq!(b.refused(&[2, 0, b'M', b'W']), 3);
    assert_eq!(b.refused(&[3, 0, b'M', b'W', 0]), 3);
    assert_eq!(b.refused(&record(b"MW", 9, &[])), 3);
    for address in [right, wrong] {
        assert_eq!(b.refused(&record(b"MW", 9, &address.to_le_bytes())), 3, "length 8");
    }
    // The address before the count, and before the length that the count asks for.
    for (count, values) in [(0, 0), (65, 65), (2, 1), (1, 1)] {
        assert_eq!(b.refused(&counted(9, wrong, count, &vec![7; values])), 4);
        assert_eq!(b.refused(&counted(9, 0x0100_0000 | right, count, &vec![7; values])), 4);
    }
    // The count before that length.
    for (count, values) in [(0, 0), (0, 1), (65, 65), (65, 64), (65, 0), (255, 255), (128, 0)] {
        assert_eq!(b.refused(&counted(9, right, count, &vec![7; values])), 5, "{count}");
    }
    for (count, values) in [(1, 0), (1, 2), (2, 1), (63, 64), (64, 63), (64, 65), (64, 0)] {
        assert_eq!(b.refused(&counted(9, iwm(3), count, &vec![7; values])), 3, "{count}");
    }
    assert_eq!(b.refused(&[2, 0, b'm', b'w']), 2);
    assert_eq!(b.refused(&[2, 0, b'W', b'M']), 2);
    // The edges that are taken.
    assert_eq!(b.ok(&mw(0, right, &[4])), [0, 0, 0, 1]);
    assert_eq!(b.ok(&mw(0, right, &[4; 64])), [0, 0, 0, 1]);
}

#[test]
fn bytes_of_a_record() {
    let bytes = mw(0x0302, 0xEF_E1FE, &[0xF9, 0xFB]);
    let expected = [11, 0, b'M', b'W', 2, 3, 0xFE, 0xE1, 0xEF, 0, 2, 0xF9, 0xFB];
    assert_eq!(bytes, expected);
    let mut b = Bench::new();
    assert_eq!(b.item(&bytes), [6, 0, b'O', b'K', 0, 0, 0, 1]);
    assert_eq!(b.0.via.out_b, 0xFB);
}

#[test]
fn the_wait_passes_once() {
    let mut b = Bench::new();
    b.ok(&mw(5, via(6), &[0x11, 0x22, 0x33]));
    assert_eq!((b.0.via.t1.counter, b.0.via.t2.counter), (0xFFFB, 0xFFFB));
    assert_eq!(b.0.via.t1.latch, 0x0033);
    // T1 is loaded after the wait, and counts no more.
    b.ok(&mw(9, via(5), &[1, 2]));
    assert_eq!((b.0.via.t1.counter, b.0.via.t1.latch), (0x0233, 0x0233));
    assert_eq!(b.0.via.t2.counter, 0xFFF2);
}

#[test]
fn the_answer_is_the_last_ones() {
    let mut b = Bench::new();
    b.ok(&record(b"SE", 0, &[]));
    assert_eq!(b.ok(&mw(0, via(14), &[0x81, 0x01])), [0, 0, 0, 1], "asked, and asks no more");
    assert_eq!(b.ok(&mw(0, via(14), &[0x01, 0x81])), [0, 1, 0, 1]);
    assert_eq!(b.ok(&mw(0, iwm(13), &[1, 2, 3])), [0, 1, 0x40, 1], "Q6 on");
    b.wr(0, via(3), 0x20);
    assert_eq!(b.ok(&mw(0, via(15), &[0x00, 0x20]))[3], 1);
    assert_eq!(b.ok(&mw(0, via(15), &[0x20, 0x00]))[3], 0);
    // Each value acts: both flags are cleared.
    b.ok(&record(b"VB", 0, &[]));
    assert_eq!(b.0.via.flags, 3);
    b.ok(&mw(0, via(13), &[1, 2]));
    assert_eq!(b.0.via.flags, 0);
}

#[test]
fn a_transaction_in_one_item() {
    let mut b = ready(Chip::First);
    b.ok(&mw(0, via(ORB), &port_b(&[0x41, 0xAA])));
    assert_eq!((b.cells()[0], b.0.clock.phase.clone()), (0xAA, Phase::Idle));
    let mut b = ready(Chip::Later);
    let values = port_b(&[0x3F, 0x7C, 0xAA]);
    assert_eq!(values.len(), 50);
    b.ok(&mw(0, via(ORB), &values));
    assert_eq!(b.cells()[255], 0xAA);
    // By the directions of port B: an undriven line is 1.
    let mut b = Bench::new();
    let mut values = vec![6];
    for i in (0..16).rev() {
        let low = 1 - (0x41AAu16 >> i & 1) as u8;
        values.extend([6 | low, 4 | low]);
    }
    b.ok(&mw(0, via(DDRB), &values));
    assert_eq!(b.cells()[0], 0xAA);
}

#[test]
fn enable_drops_a_command_within_an_item() {
    let whole = port_b(&[0x41, 0xAA]);
    // Enable up and down again before the last rise.
    let mut values = whole[..32].to_vec();
    values.extend([4, 0]);
    values.extend_from_slice(&whole[31..]);
    let mut b = ready(Chip::First);
    b.ok(&mw(0, via(ORB), &values));
    assert_eq!(b.cells(), [0; 20]);
    // A command over two items, and one that is still open.
    let mut b = ready(Chip::First);
    b.ok(&mw(0, via(ORB), &whole[..20]));
    assert_eq!(b.0.clock.phase, Phase::Taking { command: 0x41, bits: 1, value: 1 });
    b.ok(&mw(7, via(ORB), &whole[20..]));
    assert_eq!(b.cells()[0], 0xAA);
}

/// Levels count: SEL that moves and comes back within an item spoils a strobe; SEL written with the
/// level that it has does not.
#[test]
fn the_strobe_sees_each_value() {
    for (values, steady) in [([0x20, 0x00], false), ([0x00, 0x00], true)] {
        let mut b = Bench::new();
        b.wr(0, via(3), 0x20);
        b.wr(0, via(15), 0x00);
        b.wr(0, iwm(9), 0);
        b.ok(&mw(5, iwm(7), &[0, 0]));
        assert!(b.0.drives.strobe.steady);
        assert_eq!(b.0.drives.strobe.ticks, 0, "LSTRB rose after the wait");
        b.ok(&mw(8, via(15), &values));
        assert_eq!(b.0.drives.strobe.steady, steady);
        assert_eq!(b.0.drives.strobe.ticks, if steady { 8 } else { 0 });
    }
}

/// Random numbers (xorshift64).
struct Random(u64);

impl Random {
    fn below(&mut self, limit: u64) -> u64 {
        self.0 ^= self.0 << 13;
        self.0 ^= self.0 >> 7;
        self.0 ^= self.0 << 17;
        (self.0 >> 11) % limit
    }
}

/// State and answer are those of the last of the single writes, at every address, from many states.
#[test]
fn an_item_equals_its_writes() {
    let mut random = Random(0x5EED);
    for chip in Chip::BOTH {
        let mut many = Bench::of(chip);
        for round in 0..20_000 {
            let at = random.below(32) as u32;
            let address = if at < 16 { via(at) } else { iwm(at - 16) };
            let address = if round % 3 == 0 { via(ORB) } else { address };
            let values: Vec<u8> = (0..=random.below(64)).map(|_| random.below(256) as u8).collect();
            let wait = random.below(300) as u16;
            let mut single = many.clone();
            let mut last = single.wr(wait, address, values[0]);
            for &value in &values[1..] {
                last = single.wr(0, address, value);
            }
            assert_eq!(many.ok(&mw(wait, address, &values)), last);
            assert_eq!(many.0, single.0);
            assert_eq!(Machine::from_image(&many.0.image()), Some(single.0));
            if round % 50 == 49 {
                many.wr(0, via(DDRB), 7);
            }
        }
    }
}
