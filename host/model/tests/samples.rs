//! The samples of the requirements, and the errors that look right.

mod common;

use common::*;
use swarmtempo_model::{fresh_image, run_image, Chip, Machine, Phase, Run};

#[test]
fn s1_empty_list() {
    let mut m = Machine::new(Chip::First);
    assert_eq!(m.run(&[], &mut []), Run { stop: 0, consumed: 0, written: 0 });
    assert_eq!(m, Machine::new(Chip::First));
}

#[test]
fn s2_port_b_of_a_fresh_machine() {
    let list = [0x08, 0x00, 0x52, 0x44, 0x00, 0x00, 0xFE, 0xE1, 0xEF, 0x00];
    let answer = Bench::new().item(&list);
    assert_eq!(answer, [0x06, 0x00, 0x4F, 0x4B, 0xFF, 0x00, 0x00, 0x01]);
}

#[test]
fn s3_wrong_length() {
    let answer = Bench::new().item(&[0x05, 0x00, 0x53, 0x45, 0x00, 0x00, 0x00]);
    assert_eq!(answer, [0x06, 0x00, 0x4E, 0x4F, 0x03, 0x00, 0x00, 0x00]);
}

#[test]
fn s4_second_asks() {
    let mut b = Bench::new();
    assert_eq!(b.wr(0, 0xEF_FDFE, 0x81), [0, 0, 0, 1]);
    assert_eq!(b.ok(&record(b"SE", 0, &[])), [0, 1, 0, 1]);
    assert_eq!(b.rd(0, 0xEF_FBFE), [0x81, 1, 0, 1]);
}

fn load_t1(b: &mut Bench, value: u16) {
    b.wr(0, via(4), value as u8);
    b.wr(0, via(5), (value >> 8) as u8);
}

#[test]
fn s5_one_shot() {
    let mut b = Bench::new();
    load_t1(&mut b, 2);
    assert_eq!(b.rd(2, via(13))[0], 0);
    assert_eq!(b.rd(1, via(13))[0], 0x40);
    assert_eq!((b.0.via.t1.counter, b.0.via.t1.armed), (0xFFFF, false));
    assert_eq!(b.value(5), 0xFF);
}

#[test]
fn s6_free_run() {
    let mut b = Bench::new();
    b.wr(0, via(11), 0x40);
    load_t1(&mut b, 2);
    let mut set = Vec::new();
    for tick in 1..=12 {
        if b.rd(1, via(13))[0] == 0x40 {
            set.push(tick);
            b.wr(0, via(13), 0x40);
        }
    }
    assert_eq!(set, [3, 7, 11]);
}

#[test]
fn s7_cell_0_and_protect() {
    let mut b = Bench::new();
    b.send(&[0x41, 0xAA]);
    assert_eq!(b.cells()[0], 0xAA);
    assert_eq!(b.receive(0xC1), 0xAA);
    let mut b = Bench::new();
    b.send(&[0x35, 0x80]);
    assert!(b.0.clock.store.protect);
    b.send(&[0x41, 0xAA]);
    assert_eq!(b.cells(), [0; 20]);
    b.send(&[0x31, 0xC0]);
    assert_eq!(b.0.clock.store.test, 0);
    b.send(&[0x35, 0x7F]);
    b.send(&[0x41, 0xAA]);
    assert_eq!(b.cells()[0], 0xAA);
}

#[test]
fn s8_fifteen_rises() {
    let mut b = Bench::new();
    b.begin();
    b.byte(0x41);
    (1..8).rev().for_each(|i| b.bit(0xAA >> i & 1));
    b.end();
    assert_eq!(b.cells(), [0; 20]);
    assert_eq!(b.0.clock.phase, Phase::Idle);
}

#[test]
fn s9_reads_of_protect_and_test() {
    for command in [0xB5, 0xB1] {
        let mut b = Bench::new();
        b.begin();
        b.byte(command);
        assert_eq!(b.0.clock.phase, Phase::Ignoring);
    }
}

#[test]
fn s10_rise_with_the_fall_of_enable() {
    let mut b = Bench::new();
    b.wr(0, via(ORB), 0x04);
    b.wr(0, via(DDRB), 0x07);
    b.wr(0, via(ORB), 0x02);
    assert_eq!(b.0.clock.phase, Phase::Listening { bits: 0, value: 0 });
}

#[test]
fn every_cell_by_its_command() {
    let mut b = Bench::new();
    for cell in 0..20u8 {
        let command = if cell < 16 { 0x41 | cell << 2 } else { 0x21 | (cell - 16) << 2 };
        b.send(&[command, 0x80 | cell]);
        assert_eq!(b.cells()[usize::from(cell)], 0x80 | cell);
        assert_eq!(b.receive(command | 0x80), 0x80 | cell);
    }
    for (command, cell) in [(0x21, 16), (0x2D, 19), (0x7D, 15)] {
        b.send(&[command, 0x55]);
        assert_eq!(b.cells()[cell], 0x55);
    }
}

#[test]
fn refusals() {
    let mut b = Bench::new();
    let read = |address: u32| record(b"RD", 9, &address.to_le_bytes());
    assert_eq!(b.refused(&read(0xEF_E1FF)), 4);
    assert_eq!(b.refused(&read(0x01EF_E1FE)), 4);
    assert_eq!(b.refused(&read(0xEF_E1FE + 512 * 16)), 4);
    assert_eq!(b.refused(&read(0xEF_E1FE - 512)), 4);
    assert_eq!(b.refused(&read(0xDF_E1FF + 512 * 16)), 4);
    assert_eq!(b.refused(&record(b"IN", 9, &[7, 0])), 5);
    assert_eq!(b.refused(&record(b"IN", 9, &[0, 2])), 5);
    assert_eq!(b.refused(&record(b"SN", 9, &[2, 0, 0])), 5);
    assert_eq!(b.refused(&record(b"SN", 9, &[0, 16, 0])), 5);
    assert_eq!(b.refused(&record(b"SN", 9, &[0, 0, 2])), 5);
    for register in [0, 1, 2, 3, 4, 5, 12, 15] {
        assert_eq!(b.refused(&record(b"SN", 9, &[1, register, 0])), 9);
    }
    assert_eq!(b.refused(&[5, 0, b'X', b'X', 0, 0, 0]), 2);
    assert_eq!(b.refused(&[2, 0, b'S', b'T']), 2);
    assert_eq!(b.refused(&[2, 0, b's', b'e']), 2);
    assert_eq!(b.refused(&[2, 0, b'S', b'E']), 3);
    assert_eq!(b.refused(&[3, 0, b'R', b'D', 0]), 3);
}

#[test]
fn cut_lists() {
    let second = record(b"SE", 0, &[]);
    for cut in [&[1, 0, 0][..], &[0, 0], &[4], &[4, 0, b'S', b'E', 0]] {
        let list = [&second[..], cut].concat();
        let mut answers = [0xEE; 24];
        let mut m = Machine::new(Chip::First);
        let run = m.run(&list, &mut answers);
        assert_eq!(run, Run { stop: 1, consumed: 6, written: 16 });
        assert_eq!(answers[8..16], [6, 0, b'N', b'O', 1, 0, 0, 0]);
        assert_eq!(answers[16..], [0xEE; 8]);
        assert_eq!(m.clock.store.seconds, 1);
        let run = Machine::new(Chip::First).run(&list, &mut answers[..15]);
        assert_eq!(run, Run { stop: 6, consumed: 6, written: 8 });
    }
}

#[test]
fn small_rooms() {
    let list = record(b"SE", 0, &[]).repeat(3);
    for room in 0..40 {
        let mut answers = vec![0xEE; room];
        let mut m = Machine::new(Chip::First);
        let run = m.run(&list, &mut answers);
        let done = (room / 8).min(3);
        let stop = if done == 3 { 0 } else { 6 };
        assert_eq!(run, Run { stop, consumed: 6 * done, written: 8 * done });
        assert!(answers[8 * done..].iter().all(|&byte| byte == 0xEE));
        assert_eq!(m.clock.store.seconds, done as u32);
    }
}

#[test]
fn power_cut_amid_a_write() {
    let mut b = Bench::new();
    b.begin();
    b.byte(0x41);
    b.bit(1);
    b.ok(&record(b"PW", 7, &5u32.to_le_bytes()));
    assert_eq!(b.cells(), [0; 20]);
    let mut fresh = Machine::new(Chip::First);
    fresh.clock.store.seconds = 5;
    assert_eq!(b.0, fresh);
}

#[test]
fn seconds_wrap() {
    let mut b = Bench::new();
    b.ok(&record(b"PW", 0, &u32::MAX.to_le_bytes()));
    b.ok(&record(b"SE", 0, &[]));
    assert_eq!(b.0.clock.store.seconds, 0);
}

#[test]
fn test_bits_stop_the_seconds() {
    for (test, stands) in [(0x00, false), (0x3F, false), (0x40, true), (0x80, true), (0xC0, true)] {
        let mut b = Bench::new();
        b.ok(&record(b"SE", 0, &[]));
        b.send(&[0x31, test]);
        b.wr(0, via(13), 0x7F);
        b.ok(&record(b"SE", 0, &[]));
        assert_eq!(b.0.via.flags, 1, "the flag comes all the same");
        b.ok(&record(b"PW", 0, &5u32.to_le_bytes()));
        let store = &b.0.clock.store;
        assert_eq!((store.test, store.seconds), (test, if stands { 1 } else { 7 }));
        b.send(&[0x01, 0x20]);
        assert_eq!(b.0.clock.store.seconds, 0x20, "a write still acts");
        b.send(&[0x31, 0x00]);
        b.ok(&record(b"SE", 0, &[]));
        assert_eq!(b.0.clock.store.seconds, 0x21);
    }
}

#[test]
fn register_15_clears_no_flag() {
    for (pcr, left) in [(0x00, 0), (0x02, 1), (0x04, 0), (0x06, 1), (0x08, 0), (0x0E, 0), (0xF3, 1)]
    {
        for write in [false, true] {
            let mut b = Bench::new();
            b.wr(0, via(12), pcr);
            b.ok(&record(b"SE", 0, &[]));
            b.ok(&record(b"VB", 0, &[]));
            if write {
                b.wr(0, via(15), 0x5A);
            } else {
                b.rd(0, via(15));
            }
            assert_eq!(b.0.via.flags, 3);
            if write {
                b.wr(0, via(1), 0x5A);
            } else {
                b.rd(0, via(1));
            }
            assert_eq!(b.0.via.flags, left, "PCR ${pcr:02X}");
        }
    }
}

#[test]
fn seconds_byte_is_latched_once() {
    let mut b = Bench::new();
    b.send(&[0x01, 0x0F]);
    b.begin();
    b.byte(0x81);
    b.wr(0, via(DDRB), 0x06);
    let mut byte = 0;
    for _ in 0..8 {
        b.wr(0, via(ORB), 0);
        byte = byte << 1 | b.value(ORB) & 1;
        b.ok(&record(b"SE", 0, &[]));
        b.wr(0, via(ORB), 2);
    }
    assert_eq!(byte, 0x0F);
    assert_eq!(b.0.clock.store.seconds, 0x0F + 8);
}

#[test]
fn line_is_undriven_before_the_first_and_from_the_ninth_fall() {
    let mut b = Bench::new();
    b.begin();
    b.byte(0x81);
    b.wr(0, via(DDRB), 0x06);
    assert_eq!(b.value(ORB) & 1, 1);
    for fall in 1..=9 {
        b.wr(0, via(ORB), 0);
        assert_eq!(b.value(ORB) & 1, u8::from(fall == 9), "fall {fall}");
        b.wr(0, via(ORB), 2);
        assert_eq!(b.value(ORB) & 1, u8::from(fall == 9), "rise {fall}");
    }
    assert_eq!(b.0.clock.phase, Phase::Ignoring);
}

/// Data-clock moved by its direction bit alone: an input is undriven, so 1.
#[test]
fn direction_writes_make_edges() {
    let mut b = Bench::new();
    b.wr(0, via(DDRB), 0x06);
    for byte in [0x41u8, 0xAA] {
        for i in (0..8).rev() {
            let low = u8::from(byte >> i & 1 == 0);
            b.wr(0, via(DDRB), 0x06 | low);
            b.wr(0, via(DDRB), 0x04 | low);
        }
    }
    assert_eq!(b.cells()[0], 0xAA);
}

#[test]
fn disk_lines_and_sense() {
    let mut b = Bench::new();
    assert_eq!(b.rd(0, iwm(13)), [0xFF, 0, 0x40, 1]);
    assert_eq!(b.rd(0, iwm(14)), [0x80, 0, 0x40, 1], "ENABLE off reads 1");
    b.wr(0, iwm(9), 0);
    assert_eq!(b.refused(&record(b"SN", 0, &[0, 1, 0])), 9);
    assert_eq!(b.rd(0, iwm(14)), [0x80, 0, 0x50, 1], "register 1 is the drive's: no disk");
    b.wr(0, iwm(5), 0);
    b.ok(&record(b"SN", 0, &[0, 9, 0]));
    assert_eq!(b.rd(0, iwm(14)), [0x00, 0, 0x54, 1], "SEL is 1 when undriven: register 9");
    b.wr(0, iwm(4), 0);
    assert_eq!(b.wr(0, iwm(14), 0xFF), [0x00, 0, 0x50, 1]);
    assert_eq!(b.rd(0, iwm(11)), [0xFF, 0, 0x70, 1]);
    assert_eq!(b.rd(0, iwm(14))[0], 0x80, "the external drive");
    b.wr(0, via(3), 0x20);
    b.ok(&record(b"SN", 0, &[1, 14, 0]));
    (1..6).step_by(2).for_each(|k| {
        b.rd(0, iwm(k));
    });
    assert_eq!(b.rd(0, iwm(14)), [0x00, 0, 0x77, 0]);
    b.ok(&record(b"RS", 0, &[]));
    assert_eq!(b.0.lines, 0);
    assert_eq!(b.0.sense, !(1 << 9 | 1 << 30));
}

#[test]
fn inputs_show_in_the_ports() {
    let mut b = Bench::new();
    for line in 0..5u8 {
        b.ok(&record(b"IN", 0, &[line, 0]));
        let (port_b, port_a) = if line < 4 { (!(8 << line), 0xFF) } else { (0xFF, 0x7F) };
        assert_eq!((b.value(0), b.value(15)), (port_b, port_a));
        b.ok(&record(b"IN", 0, &[line, 1]));
    }
}

#[test]
fn interrupt_level_from_three_lines() {
    let mut seen = Vec::new();
    for bits in 0..8u8 {
        let mut b = Bench::new();
        b.wr(0, via(14), 0x81);
        if bits & 1 != 0 {
            b.ok(&record(b"SE", 0, &[]));
        }
        b.ok(&record(b"IN", 0, &[5, bits >> 1 & 1]));
        let level = b.ok(&record(b"IN", 0, &[6, bits >> 2]))[1];
        let via_asks = bits & 3 == 1;
        assert_eq!(level, (bits & 6) + u8::from(via_asks));
        assert_eq!(b.value(13), if bits & 1 != 0 { 0x81 } else { 0 }, "the VIA's own");
        assert_eq!((b.value(0), b.value(15)), (0xFF, 0xFF), "neither shows in a port");
        b.ok(&record(b"RS", 0, &[]));
        assert_eq!(b.ok(&record(b"PW", 0, &[0; 4]))[1], bits & 6, "kept");
        seen.push(level);
    }
    seen.sort_unstable();
    seen.dedup();
    assert_eq!(seen, [0, 1, 2, 4, 5, 6]);
}

#[test]
fn reset_keeps_counters_latches_and_register_10() {
    let mut b = Bench::new();
    for register in 0..16 {
        b.wr(3, via(register), 0xC3);
    }
    b.begin();
    b.ok(&record(b"RS", 0, &[]));
    let via = &b.0.via;
    assert_eq!((via.t1.latch, via.t2.low, via.sr), (0xC3C3, 0xC3, 0xC3));
    assert_eq!((via.t1.counter, via.t2.counter), (0xC3C3 - 30, 0xC3C3 - 18));
    assert_eq!((via.acr, via.pcr, via.flags, via.enables), (0, 0, 0, 0));
    assert!(!via.t1.armed && !via.t1.due && !via.t2.armed);
    assert_eq!(b.0.clock.phase, Phase::Idle);
}

#[test]
fn t2_once_and_standing_still() {
    let mut b = Bench::new();
    b.wr(0, via(8), 2);
    b.wr(0, via(9), 0);
    assert_eq!(b.rd(2, via(13))[0], 0);
    assert_eq!(b.rd(1, via(13))[0], 0x20);
    assert_eq!(b.value(8), 0xFF);
    assert_eq!(b.value(13), 0);
    assert_eq!(b.rd(65535, via(13))[0], 0);
    b.wr(0, via(11), 0x20);
    b.wr(0, via(9), 0);
    assert_eq!(b.rd(65535, via(13))[0], 0);
    assert_eq!(b.value(8), 2);
}

#[test]
fn the_wait_comes_before_the_write() {
    let mut b = Bench::new();
    b.wr(0, via(11), 0x40);
    load_t1(&mut b, 2);
    b.wr(3, via(5), 0);
    let t1 = &b.0.via.t1;
    assert_eq!((t1.counter, t1.due, b.0.via.flags), (2, false, 0));
}

#[test]
fn images_come_back() {
    let mut b = Bench::new();
    b.begin();
    b.byte(0x41);
    b.bit(1);
    b.bit(0);
    let mut image = b.0.image();
    assert_eq!(image[..4], [122, 0, b'S', b'T']);
    assert_eq!(image[24..28], [2, 0x41, 2, 2]);
    assert_eq!(Machine::from_image(&image), Some(b.0.clone()));
    let mut answers = [0; 8];
    let run = run_image(&mut image, &record(b"SE", 0, &[]), &mut answers);
    assert_eq!(run, Run { stop: 0, consumed: 6, written: 8 });
    b.ok(&record(b"SE", 0, &[]));
    assert_eq!(image, b.0.image());
    let fresh = fresh_image(Chip::First);
    assert_eq!(fresh[62..67], [1; 5]);
    assert_eq!(fresh[67..69], [0; 2]);
    assert_eq!(fresh[69..101], [1; 32]);
    assert_eq!(fresh[101..], [0; 23]);
    assert!(fresh[4..62].iter().all(|&byte| byte == 0));
}

#[test]
fn images_that_no_state_has() {
    let mut base = Bench::new();
    base.begin();
    let open = base.0.image();
    let fresh = fresh_image(Chip::First);
    let refused = |image: &[u8], why: &str| {
        let mut lent = image.to_vec();
        let mut answers = [0xEE; 16];
        let run = run_image(&mut lent, &[1], &mut answers);
        assert_eq!(run, Run { stop: 7, consumed: 0, written: 0 }, "{why}");
        assert_eq!(lent, image, "{why}");
        assert_eq!(answers, [0xEE; 16]);
    };
    refused(&fresh[..123], "short");
    refused(&[&fresh[..], &[0]].concat(), "long");
    let with = |image: &[u8], changes: &[(usize, u8)]| {
        let mut image = image.to_vec();
        changes.iter().for_each(|&(at, value)| image[at] = value);
        image
    };
    refused(&with(&fresh, &[(0, 96)]), "length");
    refused(&[&[96, 0][..], &fresh[2..98]].concat(), "an older length");
    refused(&[&[119, 0][..], &fresh[2..121]].concat(), "an older length");
    refused(&[&[121, 0][..], &fresh[2..23], &fresh[24..]].concat(), "an older length");
    refused(&with(&fresh, &[(1, 1)]), "length, high byte");
    refused(&with(&fresh, &[(3, b'X')]), "kind");
    for at in (12..14).chain([17, 28]).chain(54..101) {
        refused(&with(&fresh, &[(at, 2)]), "level");
    }
    for at in [21, 22] {
        refused(&with(&fresh, &[(at, 128)]), "bit 7");
        assert!(Machine::from_image(&with(&fresh, &[(at, 127)])).is_some());
    }
    (8..=255).for_each(|pulses| refused(&with(&fresh, &[(23, pulses)]), "a pulse count"));
    refused(&with(&fresh, &[(24, 1)]), "listening with enable up");
    refused(&with(&fresh, &[(25, 1)]), "idle with a command");
    refused(&with(&fresh, &[(26, 1)]), "idle with bits");
    refused(&with(&fresh, &[(27, 1)]), "idle with a value");
    refused(&with(&open, &[(24, 0)]), "idle with enable down");
    refused(&with(&open, &[(24, 5)]), "phase 5");
    refused(&with(&open, &[(25, 0x41)]), "listening with a command");
    refused(&with(&open, &[(26, 8)]), "8 bits");
    refused(&with(&open, &[(26, 2), (27, 4)]), "value of 3 bits");
    refused(&with(&open, &[(24, 2), (25, 0xC1)]), "a read command");
    refused(&with(&open, &[(24, 2), (25, 0x42)]), "no legal command");
    refused(&with(&open, &[(24, 2), (25, 0x41), (26, 8)]), "8 data bits");
    refused(&with(&open, &[(24, 3), (26, 9)]), "9 falls");
    refused(&with(&open, &[(24, 3), (25, 0xC1)]), "sending with a command");
    refused(&with(&open, &[(24, 4), (27, 1)]), "ignoring with a value");
    for image in [
        with(&open, &[(26, 7), (27, 127)]),
        with(&open, &[(24, 2), (25, 0x35), (26, 7), (27, 127)]),
        with(&open, &[(24, 3), (26, 8), (27, 255)]),
        with(&open, &[(24, 4)]),
        with(&fresh, &[(13, 1), (29, 255)]),
        with(&fresh, &[(23, 7)]),
        with(&open, &[(23, 1)]),
    ] {
        let machine = Machine::from_image(&image).expect("accepted");
        assert_eq!(machine.image()[..], image);
    }
}
