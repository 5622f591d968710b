//! The drives behind the lines.

mod common;

use common::*;
use swarmtempo_model::{Chip, Machine};

const LSTRB: u32 = 3;
const ENABLE: u32 = 4;
const SELECT: u32 = 5;
const Q6: u32 = 6;
/// Registers that a strobe writes, 2·CA1 + CA0.
const DIRTN: u32 = 0;
const STEP: u32 = 1;
const MOTOR: u32 = 2;
const EJECT: u32 = 3;

impl Bench {
    /// A line off or on, by a write.
    fn line(&mut self, wait: u16, line: u32, on: bool) {
        self.wr(wait, iwm(2 * line + u32::from(on)), 0);
    }

    /// The internal drive enabled, SEL at 0.
    fn enabled() -> Bench {
        let mut b = Bench::new();
        b.wr(0, via(3), 0x20);
        b.line(0, ENABLE, true);
        b
    }

    fn aim(&mut self, register: u32, value: bool) {
        self.line(0, 0, register & 1 != 0);
        self.line(0, 1, register & 2 != 0);
        self.line(0, 2, value);
    }

    /// A write by a strobe of so many VIA ticks.
    fn strobe(&mut self, register: u32, value: bool, mut ticks: u32) {
        self.aim(register, value);
        self.line(0, LSTRB, true);
        while ticks > 60_000 {
            self.ok(&record(b"VB", 60_000, &[]));
            ticks -= 60_000;
        }
        self.line(ticks as u16, LSTRB, false);
    }

    fn disk(&mut self, drive: u8, insert: u8, locked: u8, double: u8) -> Vec<u8> {
        let _ = self;
        record(b"DI", 3, &[drive, insert, locked, double])
    }

    fn insert(&mut self, locked: u8, double: u8) {
        let item = self.disk(0, 1, locked, double);
        self.ok(&item);
    }

    /// The sense of a register of the selected drive; the lines are left as they were aimed.
    fn sense(&mut self, register: u32) -> u8 {
        let mut copy = self.clone();
        copy.line(0, Q6, true);
        for (line, bit) in [(2, 8), (1, 4), (0, 2)] {
            copy.line(0, line, register & bit != 0);
        }
        copy.wr(0, via(3), 0x20);
        copy.wr(0, via(15), if register & 1 != 0 { 0x20 } else { 0 });
        copy.rd(0, iwm(14))[0] >> 7
    }
}

#[test]
fn a_step_takes_9401_ticks() {
    let mut b = Bench::enabled();
    assert_eq!((b.sense(2), b.sense(5)), (1, 0));
    b.strobe(STEP, false, 1);
    assert_eq!((b.sense(2), b.sense(5)), (0, 0));
    b.ok(&record(b"VB", 9_400, &[]));
    assert_eq!((b.sense(2), b.sense(5)), (0, 0));
    b.ok(&record(b"VB", 1, &[]));
    assert_eq!((b.sense(2), b.sense(5)), (1, 1));
    assert_eq!(b.0.drives.drives[0].track, 1);
    assert_eq!(b.0.drives.drives[1].track, 0);
}

#[test]
fn steps_asked_meanwhile_do_nothing() {
    let mut b = Bench::enabled();
    b.strobe(STEP, false, 1);
    b.strobe(STEP, false, 783);
    b.strobe(DIRTN, true, 1);
    assert_eq!(b.sense(0), 1, "the direction shows at once");
    b.ok(&record(b"VB", 9_401 - 784, &[]));
    let drive = &b.0.drives.drives[0];
    assert_eq!((drive.track, drive.step_left), (1, 0), "in the direction set when it was asked");
    // A drop at the very tick of the end asks for a new one.
    b.strobe(STEP, false, 1);
    b.aim(STEP, false);
    b.line(9_400, LSTRB, true);
    b.line(1, LSTRB, false);
    let drive = &b.0.drives.drives[0];
    assert_eq!((drive.track, drive.step_left, drive.step_direction), (0, 9_401, true));
    b.ok(&record(b"VB", 65_535, &[]));
    assert_eq!(b.0.drives.drives[0].track, 0, "past the end it stays");
}

#[test]
fn the_last_track() {
    let mut b = Bench::enabled();
    for step in 1..=81u8 {
        b.strobe(STEP, false, 2);
        b.ok(&record(b"VB", 9_401, &[]));
        assert_eq!(b.0.drives.drives[0].track, step.min(79));
    }
}

#[test]
fn lengths_of_a_strobe() {
    for (ticks, acts) in [(0, false), (1, true), (783, true), (784, false), (391_680, false)] {
        let mut b = Bench::enabled();
        b.strobe(DIRTN, true, ticks);
        assert_eq!(b.0.drives.drives[0].direction, acts, "{ticks}");
    }
    for (ticks, acts) in
        [(1, false), (783, false), (391_679, false), (391_680, true), (700_000, true)]
    {
        for value in [true, false] {
            let mut b = Bench::enabled();
            b.insert(1, 1);
            b.strobe(EJECT, value, ticks);
            let drive = &b.0.drives.drives[0];
            let gone = acts && value;
            assert_eq!((drive.disk, drive.locked), (!gone, !gone), "{ticks}");
            assert!(drive.double_sided, "sides stay");
        }
    }
}

#[test]
fn what_spoils_a_strobe() {
    for line in [0, 1, 2, ENABLE, SELECT] {
        for back in [false, true] {
            let mut b = Bench::enabled();
            b.aim(DIRTN, true);
            b.line(0, LSTRB, true);
            let on = b.0.lines >> line & 1 != 0;
            b.line(1, line, !on);
            if back {
                b.line(1, line, on);
            }
            b.line(1, LSTRB, false);
            let drives = &b.0.drives;
            assert!(drives.drives.iter().all(|d| !d.direction && d.step_left == 0), "{line}");
        }
    }
    // Lines set to the level that they have, Q6 and Q7, and a second rise spoil nothing.
    let mut b = Bench::enabled();
    b.aim(DIRTN, true);
    b.line(0, LSTRB, true);
    for (line, on) in
        [(0, false), (2, true), (ENABLE, true), (SELECT, false), (Q6, true), (7, true)]
    {
        b.line(1, line, on);
    }
    b.rd(1, iwm(7));
    b.rd(776, iwm(6));
    assert!(b.0.drives.drives[0].direction, "783 ticks, dropped by a read");
    // SEL moved and came back; SEL at 1; ENABLE late; reset.
    let mut b = Bench::enabled();
    b.aim(DIRTN, true);
    b.line(0, LSTRB, true);
    b.wr(1, via(15), 0x20);
    b.wr(1, via(15), 0x00);
    b.line(1, LSTRB, false);
    assert!(!b.0.drives.drives[0].direction);
    b.wr(1, via(15), 0x20);
    b.strobe(DIRTN, true, 5);
    assert!(!b.0.drives.drives[0].direction);
    let mut b = Bench::enabled();
    b.aim(DIRTN, true);
    b.line(0, ENABLE, false);
    b.line(0, LSTRB, true);
    b.line(1, ENABLE, true);
    b.line(1, LSTRB, false);
    assert!(!b.0.drives.drives[0].direction);
    b.line(0, LSTRB, true);
    b.ok(&record(b"RS", 5, &[]));
    assert!(!b.0.drives.drives[0].direction);
    assert_eq!(b.0.drives, Machine::new(Chip::First).drives);
}

#[test]
fn motor_and_disk() {
    let mut b = Bench::enabled();
    b.strobe(MOTOR, false, 5);
    assert_eq!(b.sense(4), 1, "no disk");
    b.insert(0, 0);
    assert_eq!((b.sense(1), b.sense(3), b.sense(12)), (0, 1, 0));
    b.strobe(MOTOR, false, 5);
    assert_eq!(b.sense(4), 0);
    b.line(0, SELECT, true);
    assert_eq!((b.sense(1), b.sense(4)), (1, 1), "the external drive");
    b.strobe(MOTOR, true, 5);
    b.line(0, SELECT, false);
    b.line(0, ENABLE, false);
    assert_eq!((0..16).map(|r| b.sense(r)).sum::<u8>(), 16, "ENABLE off: all 1");
    b.ok(&record(b"RS", 0, &[]));
    b.line(0, ENABLE, true);
    assert_eq!(b.sense(4), 0, "neither stops the motor");
    b.strobe(STEP, true, 5);
    assert_eq!(b.sense(2), 1, "a step written 1");
    let item = b.disk(0, 0, 1, 1);
    b.ok(&item);
    assert_eq!((b.sense(1), b.sense(4), b.sense(3), b.sense(12)), (1, 1, 1, 0));
    assert_eq!(b.sense(15), 0);
    b.insert(1, 1);
    assert_eq!((b.sense(1), b.sense(3), b.sense(12)), (0, 0, 1));
    b.strobe(MOTOR, false, 5);
    b.strobe(MOTOR, true, 5);
    assert_eq!(b.sense(4), 1);
}

#[test]
fn refusals_of_disks() {
    let mut b = Bench::new();
    for at in 0..4 {
        let mut values = [0, 1, 0, 0];
        values[at] = 2;
        assert_eq!(b.refused(&record(b"DI", 3, &values)), 5);
        values[1] = 0;
        // Looked at in a removal too, and before the disk is.
        assert_eq!(b.refused(&record(b"DI", 3, &values)), if at == 1 { 8 } else { 5 });
    }
    assert_eq!(b.refused(&record(b"DI", 3, &[0, 1, 0])), 3);
    let (insert, remove) = (b.disk(1, 1, 0, 0), b.disk(1, 0, 0, 0));
    assert_eq!(b.refused(&remove), 8);
    b.ok(&insert);
    assert_eq!(b.refused(&insert), 8);
    b.ok(&remove);
    assert_eq!(b.refused(&remove), 8);
}

#[test]
fn power_cut_keeps_the_rest() {
    let mut b = Bench::enabled();
    b.insert(1, 1);
    b.strobe(DIRTN, true, 5);
    b.strobe(MOTOR, false, 5);
    b.strobe(STEP, false, 5);
    let mut late = b.clone();
    late.0.drives.drives[0].track = 5;
    b.ok(&record(b"PW", 9_400, &[0; 4]));
    let drive = &b.0.drives.drives[0];
    assert!(drive.disk && drive.locked && drive.double_sided && drive.direction);
    assert!(!drive.motor && !drive.step_direction);
    assert_eq!((drive.track, drive.step_left), (0, 0));
    late.ok(&record(b"PW", 9_401, &[0; 4]));
    assert_eq!(late.0.drives.drives[0].track, 4, "the cut's own wait passes first");
}

#[test]
fn ranges_in_images() {
    let mut b = Bench::enabled();
    b.insert(1, 0);
    b.aim(DIRTN, true);
    b.line(0, LSTRB, true);
    b.ok(&record(b"VB", 700, &[]));
    let image = b.0.image();
    assert_eq!(image[119..124], [188, 2, 0, 0, 1]);
    assert_eq!(Machine::from_image(&image), Some(b.0.clone()));
    let with = |changes: &[(usize, u8)]| {
        let mut image = image.clone();
        changes.iter().for_each(|&(at, value)| image[at] = value);
        Machine::from_image(&image).is_some()
    };
    assert!(with(&[]));
    assert!(!with(&[(101, 80)]), "track");
    assert!(with(&[(101, 79)]));
    for at in (102..107).chain([109, 123]).chain(111..116).chain([118]) {
        assert!(!with(&[(at, 2)]), "level at {at}");
    }
    assert!(!with(&[(103, 0)]), "locked with no disk");
    assert!(!with(&[(103, 0), (104, 0), (106, 1)]), "motor with no disk");
    assert!(!with(&[(109, 1)]), "a direction with no step");
    assert!(with(&[(107, 1), (109, 1)]));
    assert!(with(&[(107, 0xB9), (108, 0x24)]), "9,401 ticks left");
    assert!(!with(&[(107, 0xBA), (108, 0x24)]), "9,402 ticks left");
    assert!(!with(&[(123, 0)]), "ticks of a strobe that is spoilt");
    assert!(with(&[(123, 0), (119, 0), (120, 0)]));
    assert!(!with(&[(57, 0)]), "LSTRB off");
    assert!(!with(&[(58, 0)]), "ENABLE off");
    assert!(with(&[(119, 0x00), (120, 0xFA), (121, 0x05)]), "391,680 ticks");
    assert!(!with(&[(119, 0x01), (120, 0xFA), (121, 0x05)]), "391,681 ticks");
}
