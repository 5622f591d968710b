//! A machine with short forms of the items.
#![allow(dead_code)]

use swarmtempo_model::{Chip, Machine, Run};

pub const ORB: u32 = 0;
pub const DDRB: u32 = 2;

pub fn via(register: u32) -> u32 {
    0xEF_E1FE + 512 * register
}

pub fn iwm(location: u32) -> u32 {
    0xDF_E1FF + 512 * location
}

#[allow(clippy::trivially_copy_pass_by_ref, reason = "a kind is written b\"RD\"")]
pub fn record(kind: &[u8; 2], wait: u16, rest: &[u8]) -> Vec<u8> {
    let mut bytes = ((4 + rest.len()) as u16).to_le_bytes().to_vec();
    bytes.extend_from_slice(kind);
    bytes.extend_from_slice(&wait.to_le_bytes());
    bytes.extend_from_slice(rest);
    bytes
}

/// A machine with short forms of the items; each gives its answer.
#[derive(Clone)]
pub struct Bench(pub Machine);

impl Bench {
    pub fn new() -> Self {
        Bench::of(Chip::First)
    }

    pub fn of(chip: Chip) -> Self {
        Bench(Machine::new(chip))
    }

    pub fn item(&mut self, record: &[u8]) -> [u8; 8] {
        let mut answer = [0xEE; 8];
        let run = self.0.run(record, &mut answer);
        assert_eq!(run, Run { stop: 0, consumed: record.len(), written: 8 });
        answer
    }

    pub fn ok(&mut self, record: &[u8]) -> [u8; 4] {
        let answer = self.item(record);
        assert_eq!(answer[..4], *b"\x06\0OK", "{answer:02X?}");
        [answer[4], answer[5], answer[6], answer[7]]
    }

    pub fn refused(&mut self, record: &[u8]) -> u8 {
        let before = self.0.clone();
        let answer = self.item(record);
        assert_eq!(answer[..4], *b"\x06\0NO", "{answer:02X?}");
        assert_eq!(answer[5..], [0; 3]);
        assert_eq!(self.0, before);
        answer[4]
    }

    pub fn wr(&mut self, wait: u16, address: u32, value: u8) -> [u8; 4] {
        let mut rest = address.to_le_bytes().to_vec();
        rest.push(value);
        self.ok(&record(b"WR", wait, &rest))
    }

    pub fn rd(&mut self, wait: u16, address: u32) -> [u8; 4] {
        self.ok(&record(b"RD", wait, &address.to_le_bytes()))
    }

    pub fn value(&mut self, register: u32) -> u8 {
        self.rd(0, via(register))[0]
    }

    /// Enable low, with data-clock low and data an output.
    pub fn begin(&mut self) {
        self.wr(0, via(ORB), 0x04);
        self.wr(0, via(DDRB), 0x07);
        self.wr(0, via(ORB), 0x00);
    }

    pub fn bit(&mut self, bit: u8) {
        self.wr(0, via(ORB), bit);
        self.wr(0, via(ORB), bit | 2);
    }

    pub fn byte(&mut self, byte: u8) {
        (0..8).rev().for_each(|i| self.bit(byte >> i & 1));
    }

    pub fn end(&mut self) {
        self.wr(0, via(ORB), 0x04);
    }

    pub fn send(&mut self, bytes: &[u8]) {
        self.begin();
        bytes.iter().for_each(|&byte| self.byte(byte));
        self.end();
    }

    /// A read transaction: the byte shown by the falls.
    pub fn receive(&mut self, command: u8) -> u8 {
        self.receive_by(&[command])
    }

    /// The same by a command of one or two bytes.
    pub fn receive_by(&mut self, command: &[u8]) -> u8 {
        self.begin();
        command.iter().for_each(|&byte| self.byte(byte));
        self.wr(0, via(DDRB), 0x06);
        let mut byte = 0;
        for _ in 0..8 {
            self.wr(0, via(ORB), 0);
            byte = byte << 1 | self.value(ORB) & 1;
            self.wr(0, via(ORB), 2);
        }
        self.end();
        byte
    }

    pub fn cells(&self) -> &[u8] {
        self.0.clock.store.cells()
    }
}
