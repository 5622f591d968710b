//! Random captures of the clock's port.

use swarmtempo::{Address, Item, List, Register, Seconds, WaitTicks};

/// Random numbers (splitmix64).
pub struct Random(pub u64);

impl Random {
    pub fn next(&mut self) -> u64 {
        self.0 = self.0.wrapping_add(0x9E37_79B9_7F4A_7C15);
        let mut z = self.0;
        z = (z ^ z >> 30).wrapping_mul(0xBF58_476D_1CE4_E5B9);
        z = (z ^ z >> 27).wrapping_mul(0x94D0_49BB_1331_11EB);
        z ^ z >> 31
    }

    pub fn below(&mut self, limit: u64) -> u64 {
        self.next() % limit
    }

    pub fn byte(&mut self) -> u8 {
        self.next().to_le_bytes()[0]
    }

    pub fn one_in(&mut self, n: u64) -> bool {
        self.below(n) == 0
    }
}

/// A random capture: whole, half-sent, illegal and protected transactions, of one byte and of two,
/// and noise on the port.
struct Maker<'a> {
    random: &'a mut Random,
    list: List,
    /// Waits are at least this many VIA ticks.
    least: u16,
    /// Second ticks and power cuts are put in too.
    seconds: bool,
}

impl Maker<'_> {
    fn push(&mut self, item: Item) {
        let wait = match self.random.below(40) {
            0 => 60_000 + self.random.below(5_536) as u16,
            1..=9 => self.random.below(300) as u16,
            _ => self.random.below(4) as u16,
        };
        self.list.push(WaitTicks(wait.max(self.least)), item);
    }

    fn port(&mut self, register: Register, value: u8) {
        // The other bits are nobody's business here.
        let value = value | self.random.byte() & 0xF8;
        self.push(Item::Write(Address::Via(register), value));
    }

    fn levels(&mut self, value: u8) {
        self.port(Register::ORB, value);
    }

    /// These levels, and any in the bits of a mask.
    fn any(&mut self, base: u8, mask: u8) {
        let value = base | self.random.byte() & mask;
        self.levels(value);
    }

    fn bits(&mut self, byte: u8, count: u8) {
        for bit in (0..count).map(|i| byte >> (7 - i) & 1) {
            if self.random.one_in(3) {
                self.levels(bit);
                self.levels(bit | 2);
            } else {
                // Data and data-clock in one write.
                self.levels(1 - bit);
                self.levels(bit | 2);
            }
        }
    }

    fn transaction(&mut self) {
        const LEGAL: [u8; 8] = [0x41, 0x7D, 0x21, 0x2D, 0x01, 0x0D, 0x31, 0x35];
        self.any(4, 3);
        self.port(Register::DDRB, 7);
        self.any(0, 3);
        let first = match self.random.below(8) {
            0 => self.random.byte(),
            1 | 2 => 0x38 | self.random.byte() & 0x87,
            _ => LEGAL[self.random.below(8) as usize] | self.random.byte() & 0x80,
        };
        let kept = |random: &mut Random| if random.one_in(9) { random.below(8) as u8 } else { 8 };
        let count = kept(self.random);
        self.bits(first, count);
        if first & 0x78 == 0x38 {
            let (second, count) = (self.random.byte() & 0x7C, kept(self.random));
            self.bits(second, count);
        }
        if first & 0x80 != 0 {
            if !self.random.one_in(4) {
                self.port(Register::DDRB, 6);
            }
            for _ in 0..self.random.below(11) {
                self.any(0, 1);
                self.any(2, 1);
            }
        } else {
            // Protect is mostly cleared, so that something is written.
            let data = if first == 0x35 && !self.random.one_in(4) { 0 } else { self.random.byte() };
            let data = if first == 0x31 { data & 0x3F } else { data };
            let count = kept(self.random);
            self.bits(data, count);
        }
        if !self.random.one_in(6) {
            self.any(4, 3);
        }
    }

    fn noise(&mut self) {
        match self.random.below(8) {
            0 => self.push(Item::Reset),
            1 => self.push(Item::Read(Address::Via(Register::ORB))),
            2 => self.push(Item::Blank),
            3 if self.seconds => self.push(Item::Second),
            4 if self.seconds => self.push(Item::Power(Seconds(3))),
            5 => {
                let value = self.random.byte();
                self.port(Register::DDRB, value);
            }
            _ => self.any(0, 0xFF),
        }
    }
}

/// A capture whose waits are at least so many VIA ticks, with second ticks and power cuts or without.
pub fn capture(random: &mut Random, least: u16, seconds: bool) -> List {
    let mut maker = Maker { random, list: List::new(), least, seconds };
    for _ in 0..=maker.random.below(12) {
        if maker.random.one_in(3) {
            maker.noise();
        } else {
            maker.transaction();
        }
    }
    maker.list
}
