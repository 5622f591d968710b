//! The chip of 256 cells: commands of two bytes, its phases and its images; what the first chip does with them.

mod common;

use common::*;
use swarmtempo_model::{fresh_image, run_image, Chip, Machine, Phase, Run};

fn later() -> Bench {
    Bench::of(Chip::Later)
}

/// The first so many bits of some bytes, enable low before them.
fn bits_of(b: &mut Bench, bytes: &[u8], count: usize) {
    b.begin();
    (0..count).for_each(|i| b.bit(bytes[i / 8] >> (7 - i % 8) & 1));
}

#[test]
fn a_write_acts_at_the_24th_rise_and_not_before() {
    for rises in 0..=26 {
        let mut b = later();
        bits_of(&mut b, &[0x3F, 0x7C, 0xAA, 0x55], rises);
        let mut cells = [0; 256];
        cells[0xFF] = if rises < 24 { 0 } else { 0xAA };
        assert_eq!(b.cells(), cells, "{rises} rises");
        b.end();
        assert_eq!(b.cells(), cells, "{rises} rises, enable up");
        assert_eq!(b.0.clock.phase, Phase::Idle);
    }
}

#[test]
fn the_first_chip_ignores_the_first_byte() {
    for first in (0x38..=0x3F).chain(0xB8..=0xBF) {
        let mut b = Bench::new();
        bits_of(&mut b, &[first], 8);
        assert_eq!(b.0.clock.phase, Phase::Ignoring, "${first:02X}");
        [0x7C, 0xAA].into_iter().for_each(|byte| b.byte(byte));
        b.end();
        assert_eq!(b.0.clock.store.cells, [0; 256]);
    }
}

#[test]
fn commands_of_one_byte_reach_the_same_cells() {
    let mut b = later();
    b.send(&[0x38, 0x00, 0x12]);
    assert_eq!((b.cells()[0], b.receive(0xC1)), (0x12, 0x12), "$38 $00 like $41");
    b.send(&[0x41, 0x34]);
    assert_eq!(b.receive_by(&[0xB8, 0x00]), 0x34);
    for chip in Chip::BOTH {
        let mut b = Bench::of(chip);
        b.send(&[0x21, 0x56]);
        assert_eq!(b.cells()[16], 0x56, "$21 is cell 16 on both");
    }
    // Cell 16 is 000 10000.
    assert_eq!(b.receive_by(&[0xB8, 0x40]), 0);
    b.send(&[0x21, 0x78]);
    assert_eq!(b.receive_by(&[0xB8, 0x40]), 0x78);
}

#[test]
fn every_cell_by_two_bytes() {
    let mut b = later();
    for cell in 0..=255u8 {
        b.send(&[0x38 | cell >> 5, (cell & 0x1F) << 2, cell ^ 0xA5]);
        assert_eq!(b.cells()[usize::from(cell)], cell ^ 0xA5);
    }
    for cell in 0..=255u8 {
        let read = [0xB8 | cell >> 5, (cell & 0x1F) << 2];
        assert_eq!(b.receive_by(&read), cell ^ 0xA5);
    }
    assert_eq!(b.receive_by(&[0xBF, 0x7C]), 0xFF ^ 0xA5, "$BF $7C reads cell $FF");
    assert_eq!(b.receive_by(&[0xB9, 0x08]), 0x22 ^ 0xA5, "001 00010, its halves not exchanged");
}

#[test]
fn a_second_byte_of_another_form_is_ignored() {
    for first in [0x3F, 0xBF, 0x38, 0xB8] {
        for second in (0..=255u8).filter(|second| second & 0x83 != 0) {
            let mut b = later();
            bits_of(&mut b, &[first, second], 16);
            assert_eq!(b.0.clock.phase, Phase::Ignoring, "${first:02X} ${second:02X}");
            b.byte(0xAA);
            b.byte(0x41);
            b.byte(0xAA);
            assert_eq!(b.cells(), [0; 256]);
        }
    }
    let mut b = later();
    b.send(&[0x3F, 0x7D, 0xAA]);
    assert_eq!(b.cells(), [0; 256]);
    b.send(&[0x3F, 0x7C, 0xAA]);
    assert_eq!(b.cells()[0xFF], 0xAA, "the next transaction is taken");
}

#[test]
fn a_read_takes_its_byte_at_the_16th_rise() {
    let mut b = later();
    b.send(&[0x3F, 0x7C, 0xAA]);
    bits_of(&mut b, &[0xBF], 8);
    assert_eq!(b.0.clock.phase, Phase::Second { first: 0xBF, bits: 0, value: 0 });
    // Falls between the 8th and the 16th rise put out nothing.
    b.wr(0, via(DDRB), 0x06);
    b.wr(0, via(ORB), 0);
    assert_eq!(b.value(ORB) & 1, 1);
    b.wr(0, via(DDRB), 0x07);
    b.byte(0x7C);
    assert_eq!(b.0.clock.phase, Phase::Sending { byte: 0xAA, falls: 0 });
}

#[test]
fn enable_drops_a_half_sent_second_byte() {
    for rises in 8..24 {
        let mut b = later();
        bits_of(&mut b, &[0x3F, 0x7C, 0xAA], rises);
        b.end();
        b.begin();
        assert_eq!(b.0.clock.phase, Phase::Listening { bits: 0, value: 0 });
        b.byte(0x7C);
        b.byte(0xAA);
        assert_eq!(b.cells(), [0; 256]);
    }
}

#[test]
fn protect_counts_for_all_cells_and_reset_and_power_keep_them() {
    let mut b = later();
    b.send(&[0x3F, 0x7C, 0xAA]);
    b.send(&[0x35, 0x80]);
    b.send(&[0x3F, 0x7C, 0x55]);
    b.send(&[0x3E, 0x04, 0x55]);
    let mut cells = [0; 256];
    cells[0xFF] = 0xAA;
    assert_eq!(b.cells(), cells);
    b.ok(&record(b"RS", 0, &[]));
    assert_eq!(b.cells(), cells);
    bits_of(&mut b, &[0x3F, 0x7C], 16);
    b.ok(&record(b"PW", 0, &5u32.to_le_bytes()));
    assert_eq!((b.cells(), b.0.clock.store.seconds), (&cells[..], 5));
    assert_eq!(b.0.clock.store.chip, Chip::Later);
}

#[test]
fn images_of_kind_sx() {
    let fresh = fresh_image(Chip::Later);
    assert_eq!(fresh.len(), 361);
    assert_eq!(fresh[..4], [0x67, 0x01, b'S', b'X']);
    assert_eq!(fresh[4..124], fresh_image(Chip::First)[4..], "ST in all but length and kind");
    assert_eq!(fresh[124..], [0; 237]);
    let mut b = later();
    b.send(&[0x41, 0x11]);
    b.send(&[0x38, 0x50, 0x22]);
    b.send(&[0x3F, 0x7C, 0x33]);
    let image = b.0.image();
    assert_eq!([image[34], image[124], image[359]], [0x11, 0x22, 0x33], "cells 0, 20 and 255");
    for (rises, phase, second) in [
        (8, [2, 0x3F, 0, 0], 0),
        (11, [2, 0x3F, 3, 0b011], 0),
        (15, [2, 0x3F, 7, 0x3E], 0),
        (16, [5, 0x3F, 0, 0], 0x7C),
        (23, [5, 0x3F, 7, 0x55], 0x7C),
        (24, [4, 0, 0, 0], 0),
    ] {
        let mut b = later();
        bits_of(&mut b, &[0x3F, 0x7C, 0xAA], rises);
        let mut image = b.0.image();
        assert_eq!((&image[24..28], image[360]), (&phase[..], second), "{rises} rises");
        assert_eq!(Machine::from_image(&image), Some(b.0.clone()));
        let run = run_image(&mut image, &record(b"SE", 0, &[]), &mut [0; 8]);
        assert_eq!(run, Run { stop: 0, consumed: 6, written: 8 });
        b.ok(&record(b"SE", 0, &[]));
        assert_eq!(image, b.0.image());
    }
}

#[test]
fn images_that_no_state_has() {
    let mut open = later();
    open.begin();
    let (open, fresh) = (open.0.image(), fresh_image(Chip::Later));
    let mut first = Bench::new();
    first.begin();
    let first = first.0.image();
    let accepted = |image: &[u8], changes: &[(usize, u8)]| {
        let mut image = image.to_vec();
        changes.iter().for_each(|&(at, value)| image[at] = value);
        let machine = Machine::from_image(&image);
        if let Some(machine) = &machine {
            assert_eq!(machine.image(), image);
        }
        machine.is_some()
    };
    assert!(accepted(&fresh, &[(124, 7), (359, 255)]));
    assert!(accepted(&open, &[(24, 2), (25, 0x3F), (26, 7), (27, 127)]));
    assert!(accepted(&open, &[(24, 2), (25, 0xB8)]));
    assert!(accepted(&open, &[(24, 5), (25, 0x3F), (26, 7), (27, 127), (360, 0x7C)]));
    assert!(accepted(&open, &[(24, 5), (25, 0x38)]));
    assert!(!accepted(&fresh, &[(360, 1)]), "idle with a second byte");
    assert!(!accepted(&open, &[(360, 4)]), "listening with a second byte");
    assert!(!accepted(&open, &[(24, 2), (25, 0x3F), (360, 4)]), "a second byte not whole");
    assert!(!accepted(&open, &[(24, 5), (25, 0xBF), (360, 0x7C)]), "a read takes no data");
    assert!(!accepted(&open, &[(24, 5), (25, 0x41)]), "a command of one byte");
    assert!(!accepted(&open, &[(24, 5), (25, 0x3F), (360, 0x7D)]), "a bad second byte");
    assert!(!accepted(&open, &[(24, 5), (25, 0x3F), (26, 8), (360, 0x7C)]), "8 data bits");
    assert!(!accepted(&open, &[(24, 5), (25, 0x3F), (26, 2), (27, 4)]), "a value of 3 bits");
    assert!(!accepted(&open, &[(24, 6)]));
    assert!(!accepted(&first, &[(24, 2), (25, 0x3F)]), "extended on the first chip");
    assert!(!accepted(&first, &[(24, 5), (25, 0x3F)]), "extended on the first chip");
    assert!(!accepted(&fresh, &[(3, b'T')]), "ST of this length");
    assert!(!accepted(&fresh, &[(0, 122), (1, 0), (3, b'T')]), "ST of this length");
    assert!(!accepted(&fresh[..124], &[(0, 122), (1, 0)]), "SX with 20 cells' length");
    assert!(!accepted(&fresh[..360], &[(0, 102)]), "a byte short");
    let older = [&fresh[..23], &fresh[24..]].concat();
    assert!(!accepted(&older, &[(0, 102)]), "without the pulse count");
    assert!(accepted(&fresh, &[(23, 7)]) && !accepted(&fresh, &[(23, 8)]), "the pulse count");
    assert!(!accepted(&[&fresh[..], &[0]].concat(), &[]), "a byte long");
    assert!(!accepted(&fresh, &[(3, b'V')]));
}
