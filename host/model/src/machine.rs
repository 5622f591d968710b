//! The whole state, and one item carried out.

use crate::clock::{Chip, Clock, Phase};
use crate::drive::{Drive, Drives, Watched};
use crate::items::Item;
use crate::refusal;
use crate::via::{self, Via};

/// Bits of the disk-line byte.
pub const CA0: u8 = 0x01;
pub const CA1: u8 = 0x02;
pub const CA2: u8 = 0x04;
pub const LSTRB: u8 = 0x08;
pub const ENABLE: u8 = 0x10;
pub const SELECT: u8 = 0x20;
pub const Q6: u8 = 0x40;

#[derive(Clone, Debug, PartialEq, Eq)]
pub struct Machine {
    pub via: Via,
    pub clock: Clock,
    /// CA0, CA1, CA2, LSTRB, ENABLE, SELECT, Q6, Q7 in bits 0 to 7; 1 is on.
    pub lines: u8,
    /// The IN lines, line k in bit k: 5 is the serial chip, 6 the programmer's switch.
    pub inputs: u8,
    /// Register r of the internal drive in bit r, of the external drive in bit 16 + r.
    pub sense: u32,
    pub drives: Drives,
}

/// The clock's wires.
#[derive(Clone, Copy, Debug, PartialEq, Eq)]
pub struct Wires {
    /// Low active.
    pub enable: bool,
    pub data_clock: bool,
    pub data: bool,
}

impl Machine {
    /// Fresh.
    pub fn new(chip: Chip) -> Self {
        Machine {
            via: Via::default(),
            clock: Clock::new(chip),
            lines: 0,
            inputs: 0x1F,
            sense: 0xFFFF_FFFF,
            drives: Drives::default(),
        }
    }

    /// What the outside gives port B: data, two undriven lines, IN lines 0 to 3, an undriven line.
    fn input_b(&self) -> u8 {
        u8::from(self.clock.data()) | 0x86 | (self.inputs & 0x0F) << 3
    }

    /// What the outside gives port A: undriven but for IN line 4.
    fn input_a(&self) -> u8 {
        0x7F | (self.inputs & 0x10) << 3
    }

    pub fn wires(&self) -> Wires {
        let levels = self.via.port_b(self.input_b());
        Wires { enable: levels & 4 != 0, data_clock: levels & 2 != 0, data: levels & 1 != 0 }
    }

    pub fn sel(&self) -> bool {
        self.via.port_a(self.input_a()) & 0x20 != 0
    }

    /// The interrupt level: 4 for the switch, 2 for the serial chip, 1 for the VIA while the serial
    /// chip is not asking.
    pub fn level(&self) -> u8 {
        let (serial, switch) = (self.inputs & 0x20 != 0, self.inputs & 0x40 != 0);
        4 * u8::from(switch) + 2 * u8::from(serial) + u8::from(self.via.asks() && !serial)
    }

    /// True for an accepted state, whose chip is idle exactly while enable is 1. The other ranges are
    /// those of the types, and of the image's reader.
    pub fn accepted(&self) -> bool {
        (self.clock.phase == Phase::Idle) == self.wires().enable
            && self.drives.accepted(self.watched())
    }

    /// The levels that a strobe of the drives watches.
    fn watched(&self) -> Watched {
        let on = |line: u8| self.lines & line != 0;
        Watched {
            lstrb: on(LSTRB),
            enable: on(ENABLE),
            ca: [on(CA0), on(CA1), on(CA2)],
            sel: self.sel(),
            select: on(SELECT),
        }
    }

    /// The refusal of an item that the state does not allow.
    pub fn refuses(&self, item: &Item<'_>) -> Option<u8> {
        match *item {
            Item::Disk { drive, insert, .. } => {
                let there = self.drives.drives[usize::from(drive)].disk;
                (insert == there).then_some(refusal::DISK)
            }
            _ => None,
        }
    }

    /// Carries out an item and gives the value read, 0 unless it reads or shifts a bit out.
    pub fn step(&mut self, wait: u16, item: &Item<'_>) -> u8 {
        let Item::Many { place, values } = *item else {
            return self.single(wait, item);
        };
        let mut wait = wait;
        for &value in values {
            self.single(wait, &place.write(value));
            wait = 0;
        }
        0
    }

    /// One access or event: the wires and the strobe are looked at before and after.
    fn single(&mut self, wait: u16, item: &Item<'_>) -> u8 {
        let before = self.wires();
        let strobe = (self.lines & LSTRB != 0).then(|| self.watched());
        self.via.wait(wait);
        self.drives.wait(wait);
        let value = self.act(item);
        self.settle(before);
        if let Some(before) = strobe {
            self.drives.settle(before, self.watched());
        } else if self.lines & LSTRB != 0 {
            self.drives.strobe.steady = self.lines & ENABLE != 0;
        }
        value
    }

    fn act(&mut self, item: &Item<'_>) -> u8 {
        match *item {
            Item::ReadVia { register } => {
                let (input_b, input_a) = (self.input_b(), self.input_a());
                return self.via.read(register, input_b, input_a);
            }
            Item::ReadIwm { location } => {
                self.access(location);
                return self.read_iwm(location);
            }
            Item::WriteVia { register, value } => self.via.write(register, value),
            Item::WriteIwm { location } => self.access(location),
            Item::Many { .. } => unreachable!("it is taken apart into its writes"),
            Item::Blank => self.via.flags |= via::BLANK,
            Item::Second => {
                self.via.flags |= via::SECOND;
                self.clock.store.advance(1);
            }
            Item::Pulse { level } => return self.via.pulse(level),
            Item::Line { line, level } => set(&mut self.inputs, 1 << line, level),
            Item::Sense { drive, register, level } => {
                let bit = 1u32 << (16 * drive + register);
                self.sense = if level { self.sense | bit } else { self.sense & !bit };
            }
            Item::Disk { drive, insert, locked, double_sided } => {
                let drive = &mut self.drives.drives[usize::from(drive)];
                if insert {
                    drive.insert(locked, double_sided);
                } else {
                    drive.remove();
                }
            }
            Item::Reset => {
                self.via.reset();
                self.lines = 0;
            }
            Item::Power { seconds } => {
                self.via = Via::default();
                self.clock.phase = Phase::Idle;
                self.lines = 0;
                self.clock.store.advance(seconds);
                self.drives.drives.iter_mut().for_each(Drive::power_cut);
            }
        }
        0
    }

    /// Any access to an IWM location sets its line.
    fn access(&mut self, location: u8) {
        set(&mut self.lines, 1 << (location / 2), location % 2 == 1);
    }

    /// After the access.
    fn read_iwm(&self, location: u8) -> u8 {
        if location == 14 && self.lines & Q6 != 0 {
            u8::from(self.sensed()) << 7
        } else {
            0xFF
        }
    }

    fn sensed(&self) -> bool {
        if self.lines & ENABLE == 0 {
            return true;
        }
        let on = |line: u8| u32::from(self.lines & line != 0);
        let register = 8 * on(CA2) + 4 * on(CA1) + 2 * on(CA0) + u32::from(self.sel());
        let drive = on(SELECT);
        let stored = self.sense >> (16 * drive + register) & 1 != 0;
        self.drives.drives[drive as usize].sense(register).unwrap_or(stored)
    }

    /// The clock sees the wires after the item.
    fn settle(&mut self, before: Wires) {
        let after = self.wires();
        if after.enable {
            self.clock.phase = Phase::Idle;
        } else if before.enable {
            self.clock.phase = Phase::Listening { bits: 0, value: 0 };
        } else if !before.data_clock && after.data_clock {
            self.clock.rise(after.data);
        } else if before.data_clock && !after.data_clock {
            self.clock.fall();
        }
    }
}

fn set(byte: &mut u8, mask: u8, on: bool) {
    if on {
        *byte |= mask;
    } else {
        *byte &= !mask;
    }
}
