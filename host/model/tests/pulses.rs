//! KC: pulses of the keyboard's clock, and the shift register.

mod common;

use common::*;
use swarmtempo_model::{fresh_image, Chip, Machine};

const SR: u32 = 10;
const ACR: u32 = 11;
const IFR: u32 = 13;
const IER: u32 = 14;
/// ACR bits 4 to 2 as 011, and as 111.
const IN: u8 = 0x0C;
const OUT: u8 = 0x1C;
/// Flag 2.
const SHIFT: u8 = 0x04;

fn kc(b: &mut Bench, level: u8) -> [u8; 4] {
    b.ok(&record(b"KC", 0, &[level]))
}

fn pulses(b: &mut Bench, count: usize, level: u8) {
    for _ in 0..count {
        kc(b, level);
    }
}

/// A machine in a mode, with this byte in register 10.
fn in_mode(acr: u8, sr: u8) -> Bench {
    let mut b = Bench::new();
    b.wr(0, via(SR), sr);
    b.wr(0, via(ACR), acr);
    b
}

#[test]
fn bytes_of_a_record() {
    let bytes = record(b"KC", 0x0102, &[1]);
    assert_eq!(bytes, [5, 0, b'K', b'C', 2, 1, 1]);
    let mut b = in_mode(IN, 0);
    assert_eq!(b.item(&bytes), [6, 0, b'O', b'K', 0, 0, 0, 1]);
    assert_eq!((b.0.via.sr, b.0.via.pulses), (1, 1));
    assert_eq!(b.0.via.t1.counter, 0u16.wrapping_sub(0x0102), "the wait passes");
}

#[test]
fn eight_pulses_in() {
    let mut b = in_mode(IN, 0xFF);
    b.wr(0, via(IER), 0x84);
    for (i, level) in [1, 0, 1, 1, 0, 0, 1, 0].into_iter().enumerate() {
        let asks = u8::from(i == 7);
        assert_eq!(kc(&mut b, level), [0, asks, 0, 1], "pulse {}", i + 1);
        assert_eq!(b.0.via.flags, SHIFT * asks);
    }
    assert_eq!((b.0.via.sr, b.0.via.pulses), (0xB2, 0));
    assert_eq!(b.value(IFR), 0x80 | SHIFT);
    assert_eq!(b.value(SR), 0xB2);
    assert_eq!(b.value(IFR), 0, "reading register 10 clears the flag");
}

#[test]
fn eight_pulses_out() {
    for level in [0, 1] {
        let mut b = in_mode(OUT, 0xB2);
        let bits: Vec<u8> = (0..8).map(|_| kc(&mut b, level)[0]).collect();
        assert_eq!(bits, [1, 0, 1, 1, 0, 0, 1, 0], "high-order first, whatever the level");
        assert_eq!((b.0.via.sr, b.0.via.flags, b.0.via.pulses), (0xB2, SHIFT, 0), "as it was");
        // One more: the old bit 7 is the new bit 0.
        assert_eq!((kc(&mut b, level)[0], b.0.via.sr), (1, 0x65));
    }
}

#[test]
fn other_modes_do_nothing() {
    for acr in 0..=255u8 {
        let mut b = in_mode(acr, 0x80);
        let shifts = acr & 0x0C == 0x0C;
        let before = b.0.clone();
        let value = kc(&mut b, 1)[0];
        assert_eq!(value, u8::from(acr & 0x1C == OUT), "ACR ${acr:02X}");
        assert_eq!(b.0 != before, shifts);
        assert_eq!((b.0.via.sr, b.0.via.pulses), if shifts { (0x01, 1) } else { (0x80, 0) });
    }
}

#[test]
fn in_and_out_share_the_count() {
    let mut b = in_mode(IN, 0);
    pulses(&mut b, 3, 1);
    for acr in [0x00, 0x10, 0x04, OUT] {
        b.wr(0, via(ACR), acr);
        assert_eq!(b.0.via.pulses, 3, "a change of mode keeps it");
        if acr != OUT {
            pulses(&mut b, 9, 1);
            assert_eq!((b.0.via.pulses, b.0.via.flags, b.0.via.sr), (3, 0, 7), "no pulse counts");
        }
    }
    pulses(&mut b, 4, 0);
    assert_eq!((b.0.via.flags, b.0.via.pulses), (0, 7));
    kc(&mut b, 0);
    assert_eq!((b.0.via.flags, b.0.via.pulses, b.0.via.sr), (SHIFT, 0, 0xE0));
}

#[test]
fn register_10_starts_the_count_anew() {
    for write in [false, true] {
        let mut b = in_mode(IN, 0);
        pulses(&mut b, 8 + 3, 1);
        assert_eq!((b.0.via.flags, b.0.via.pulses), (SHIFT, 3));
        if write {
            b.wr(0, via(SR), 0x55);
        } else {
            assert_eq!(b.value(SR), 0xFF);
        }
        assert_eq!((b.0.via.flags, b.0.via.pulses), (0, 0));
        pulses(&mut b, 7, 0);
        assert_eq!(b.0.via.flags, 0);
        kc(&mut b, 0);
        assert_eq!((b.0.via.flags, b.0.via.sr), (SHIFT, 0));
    }
}

/// Clearing flag 2 by register 13 keeps the count, and so do accesses to other registers.
#[test]
fn other_registers_keep_the_count() {
    for register in (0..16).filter(|&register| register != SR) {
        let mut b = in_mode(IN, 0);
        pulses(&mut b, 8 + 5, 1);
        b.rd(0, via(register));
        assert_eq!((b.0.via.flags, b.0.via.pulses), (SHIFT, 5), "register {register} read");
        b.wr(0, via(register), if register == ACR { IN } else { SHIFT });
        let flags = if register == IFR { 0 } else { SHIFT };
        assert_eq!((b.0.via.flags, b.0.via.pulses), (flags, 5), "register {register} written");
        b.wr(0, via(IFR), 0x7F);
        pulses(&mut b, 2, 1);
        assert_eq!(b.0.via.flags, 0);
        kc(&mut b, 1);
        assert_eq!(b.0.via.flags, SHIFT);
    }
}

#[test]
fn reset_and_power_start_the_count_anew() {
    let mut b = in_mode(IN, 0x40);
    pulses(&mut b, 3, 1);
    let mut cut = b.clone();
    b.ok(&record(b"RS", 0, &[]));
    assert_eq!((b.0.via.pulses, b.0.via.sr, b.0.via.acr), (0, 0x07, 0), "register 10 is kept");
    cut.ok(&record(b"PW", 0, &[0; 4]));
    assert_eq!((cut.0.via.pulses, cut.0.via.sr), (0, 0));
    b.wr(0, via(ACR), IN);
    pulses(&mut b, 7, 1);
    assert_eq!(b.0.via.flags, 0);
}

#[test]
fn refusals() {
    for acr in [0x00, IN, OUT, 0xE3] {
        let mut b = in_mode(acr, 0xA5);
        for level in 2..=255 {
            assert_eq!(b.refused(&record(b"KC", 9, &[level])), 5, "in every mode");
        }
        assert_eq!(b.refused(&record(b"KC", 9, &[])), 3);
        assert_eq!(b.refused(&record(b"KC", 9, &[0, 0])), 3);
        assert_eq!(b.refused(&record(b"KC", 9, &[2, 0])), 3, "the length comes first");
        assert_eq!(b.refused(&[2, 0, b'K', b'C']), 3);
        assert_eq!(b.refused(&[3, 0, b'K', b'C', 1]), 3);
        assert_eq!(b.refused(&[2, 0, b'k', b'c']), 2);
    }
}

#[test]
fn a_pulse_moves_no_wire_of_the_clock() {
    for acr in [IN, OUT] {
        let mut b = in_mode(acr, 0x81);
        b.begin();
        b.byte(0x41);
        b.bit(1);
        let (phase, wires) = (b.0.clock.phase.clone(), b.0.wires());
        pulses(&mut b, 5, 1);
        pulses(&mut b, 4, 0);
        assert_eq!((&b.0.clock.phase, b.0.wires()), (&phase, wires));
    }
}

/// The count stands at offset 23, after the enables.
#[test]
fn the_count_in_images() {
    for chip in Chip::BOTH {
        let mut b = Bench::of(chip);
        b.wr(0, via(IER), 0xFF);
        b.wr(0, via(ACR), IN);
        for pulses in [1, 2, 3, 4, 5, 6, 7, 0] {
            kc(&mut b, 1);
            let image = b.0.image();
            assert_eq!((image[22], image[23], image[24]), (0x7F, pulses, 0));
            assert_eq!(Machine::from_image(&image), Some(b.0.clone()));
        }
        assert_eq!(fresh_image(chip)[23], 0);
    }
}
