//! The library, by the table and by the plain engine, against the plain model on random lists: answers,
//! counts and images.
//!
//! `SWARMTEMPO_SEED` takes another seed (the fixed one is 1), `SWARMTEMPO_LISTS` another number of
//! lists.
//! A difference is made small and printed.

#[path = "differential/decode.rs"]
mod decode;
#[path = "differential/laws.rs"]
mod laws;
#[path = "differential/touches.rs"]
mod touches;
#[path = "differential/transactions.rs"]
mod transactions;

use swarmtempo::text::disassemble;
use swarmtempo::{pieces, sys, Address, Chip, DiskLine, Machine, Register};
use swarmtempo_model as model;

const LISTS: u64 = 250_000;

/// Random numbers (splitmix64).
struct Random(u64);

impl Random {
    fn next(&mut self) -> u64 {
        self.0 = self.0.wrapping_add(0x9E37_79B9_7F4A_7C15);
        let mut z = self.0;
        z = (z ^ z >> 30).wrapping_mul(0xBF58_476D_1CE4_E5B9);
        z = (z ^ z >> 27).wrapping_mul(0x94D0_49BB_1331_11EB);
        z ^ z >> 31
    }

    fn below(&mut self, limit: usize) -> usize {
        (self.next() % limit as u64) as usize
    }

    fn byte(&mut self) -> u8 {
        self.next() as u8
    }

    fn one_in(&mut self, n: usize) -> bool {
        self.below(n) == 0
    }

    fn pick<T: Copy>(&mut self, from: &[T]) -> T {
        from[self.below(from.len())]
    }
}

/// A start image, a list in parts that may be left out, and the answer room in bytes.
#[derive(Clone)]
struct Case {
    image: Vec<u8>,
    parts: Vec<Vec<u8>>,
    room: usize,
}

/// What a run leaves.
#[derive(PartialEq, Eq, Debug)]
struct Left {
    stop: u8,
    consumed: usize,
    written: usize,
    answers: Vec<u8>,
    image: Vec<u8>,
}

/// Stands in unused answer room.
const UNUSED: u8 = 0xE7;

fn by_model(case: &Case) -> Left {
    let (mut image, mut answers) = (case.image.clone(), vec![UNUSED; case.room]);
    let run = model::run_image(&mut image, &case.parts.concat(), &mut answers);
    Left { stop: run.stop, consumed: run.consumed, written: run.written, answers, image }
}

/// One of the two engines: the C entry itself, so that images that are not accepted can be given too.
type Engine = fn(&mut [u8], &[u8], &mut [u8]) -> sys::Report;

const ENGINES: [(&str, Engine); 2] = [("library", sys::run), ("plain engine", sys::run_plain)];

fn by_library(case: &Case) -> Left {
    by_engine(sys::run, case)
}

fn by_engine(engine: Engine, case: &Case) -> Left {
    let (mut image, mut answers) = (case.image.clone(), vec![UNUSED; case.room]);
    let run = engine(&mut image, &case.parts.concat(), &mut answers);
    let [consumed, written] =
        [run.consumed, run.written].map(|n| usize::try_from(n).expect("64 bits"));
    Left { stop: run.stop, consumed, written, answers, image }
}

/// Builds a list part by part, for a machine with this chip.
struct Maker<'a> {
    random: &'a mut Random,
    chip: model::Chip,
    parts: Vec<Vec<u8>>,
}

impl Maker<'_> {
    #[allow(clippy::trivially_copy_pass_by_ref, reason = "a kind is written b\"RD\"")]
    fn record(&mut self, kind: &[u8; 2], wait: u16, rest: &[u8]) {
        let mut part = ((4 + rest.len()) as u16).to_le_bytes().to_vec();
        part.extend_from_slice(kind);
        part.extend_from_slice(&wait.to_le_bytes());
        part.extend_from_slice(rest);
        self.parts.push(part);
    }

    /// Mostly none; else near a counter's edges, or any.
    fn wait(&mut self) -> u16 {
        match self.random.below(8) {
            0..=3 => 0,
            4 | 5 => self.random.below(6) as u16,
            6 => self.random.pick(&[254, 255, 256, 257, 32_767, 65_533, 65_534, 65_535]),
            _ => self.random.next() as u16,
        }
    }

    fn wr(&mut self, wait: u16, register: Register, value: u8) {
        let mut rest = Address::Via(register).number().to_le_bytes().to_vec();
        rest.push(value);
        self.record(b"WR", wait, &rest);
    }

    /// An MW of these values.
    fn mw(&mut self, wait: u16, address: Address, values: &[u8]) {
        let mut rest = address.number().to_le_bytes().to_vec();
        rest.push(values.len() as u8);
        rest.extend_from_slice(values);
        self.record(b"MW", wait, &rest);
    }

    fn rd(&mut self, wait: u16, register: Register) {
        self.record(b"RD", wait, &Address::Via(register).number().to_le_bytes());
    }

    fn address(&mut self) -> u32 {
        let any = self.random.below(32);
        let number = Address::all().nth(any).expect("32 of them").number();
        match self.random.below(24) {
            0 => number.wrapping_add(1),
            1 => number ^ 1 << self.random.below(32),
            2 => number + 512 * 16,
            3 => number - 512,
            _ => number,
        }
    }

    /// Any valid item, or one with a value out of range.
    fn item(&mut self) {
        let wait = self.wait();
        let odd = usize::from(self.random.one_in(12));
        match self.random.below(15) {
            0..=2 => {
                let address = self.address().to_le_bytes();
                self.record(b"RD", wait, &address);
            }
            3..=5 => {
                let mut rest = self.address().to_le_bytes().to_vec();
                rest.push(self.random.byte());
                self.record(b"WR", wait, &rest);
            }
            6 => self.record(b"VB", wait, &[]),
            7 => self.record(b"SE", wait, &[]),
            8 => {
                let rest = [self.random.below(7 + 3 * odd) as u8, self.random.below(2 + odd) as u8];
                self.record(b"IN", wait, &rest);
            }
            9 => {
                let rest = [
                    self.random.below(2 + odd) as u8,
                    self.random.below(16 + 3 * odd) as u8,
                    self.random.below(2 + odd) as u8,
                ];
                self.record(b"SN", wait, &rest);
            }
            10 if self.random.one_in(4) => self.record(b"RS", wait, &[]),
            10 if self.random.one_in(2) => self.place(wait, odd),
            10 => self.disk(),
            12 | 13 => self.many(wait),
            14 => {
                let level = self.random.below(2 + odd) as u8;
                self.record(b"KC", wait, &[level]);
            }
            _ if self.random.one_in(4) => {
                let seconds = self.random.next() as u32;
                let seconds = self.random.pick(&[0, 1, 5, seconds, u32::MAX]);
                self.record(b"PW", wait, &seconds.to_le_bytes());
            }
            _ => self.rd(wait, Register::IFR),
        }
    }

    /// An MW of random values; now and then a count that is not theirs, or a record cut in its body.
    fn many(&mut self, wait: u16) {
        let count = self.random.pick(&[1, 1, 2, 3, 17, 63, 64, 64, 65]);
        let count = if self.random.one_in(3) { self.random.below(67) } else { count };
        let said = match self.random.below(16) {
            0 => self.random.pick(&[0, 1, 64, 65, 128, 255]),
            1 => count as u8 + 1,
            2 => (count as u8).wrapping_sub(1),
            _ => count as u8,
        };
        let mut rest = self.address().to_le_bytes().to_vec();
        rest.push(said);
        rest.extend((0..count).map(|_| self.random.byte()));
        if self.random.one_in(40) {
            rest.truncate(self.random.below(7));
        }
        self.record(b"MW", wait, &rest);
    }

    /// A disk inserted or removed.
    fn place(&mut self, wait: u16, odd: usize) {
        let rest = [0; 4].map(|_: u8| self.random.below(2 + odd) as u8);
        self.record(b"DI", wait, &rest);
    }

    fn line(&mut self, wait: u16, line: DiskLine, on: bool) {
        let mut rest = Address::Iwm(line, on).number().to_le_bytes().to_vec();
        if self.random.one_in(2) {
            self.record(b"RD", wait, &rest);
        } else {
            rest.push(0);
            self.record(b"WR", wait, &rest);
        }
    }

    /// A write to a drive: lines aimed, LSTRB on, waits around the edges, LSTRB off, a look.
    fn strobe(&mut self) {
        if self.random.one_in(3) {
            self.place(0, 0);
        }
        if !self.random.one_in(8) {
            self.wr(0, Register::DDRA, 0x20);
            let sel = if self.random.one_in(10) { 0x20 } else { 0 };
            self.wr(0, Register::ORANH, sel);
        }
        if self.random.one_in(3) {
            let on = self.random.one_in(2);
            self.line(0, DiskLine::SELECT, on);
        }
        self.line(0, DiskLine::ENABLE, true);
        let lines = [DiskLine::CA0, DiskLine::CA1, DiskLine::CA2];
        for line in lines {
            let on = self.random.one_in(2);
            self.line(0, line, on);
        }
        self.line(0, DiskLine::LSTRB, true);
        let mut left = self.random.pick(&[0, 1, 2, 783, 784, 700, 391_679, 391_680, 500_000]);
        while left > 0 {
            let part = if self.random.one_in(3) { 1 + left / 2 } else { left };
            let wait = part.min(65_535) as u16;
            left -= u32::from(wait);
            if left == 0 && !self.random.one_in(5) {
                self.line(wait, DiskLine::LSTRB, false);
            } else if self.random.one_in(10) {
                // SEL, which may move and come back within the item.
                let values = self.random.pick(&[[0x20, 0x00], [0x00, 0x20], [0x00, 0x00]]);
                self.mw(wait, Address::Via(Register::ORANH), &values);
            } else if self.random.one_in(12) {
                let line = self.random.pick(&DiskLine::ALL);
                let on = self.random.one_in(2);
                self.line(wait, line, on);
            } else {
                self.record(b"VB", wait, &[]);
            }
        }
        self.line(0, DiskLine::LSTRB, false);
        if self.random.one_in(2) {
            let wait = self.random.pick(&[1, 8_618, 9_400, 9_401, 9_402]);
            self.record(b"SE", wait, &[]);
        }
        self.sense();
    }

    /// Reads a sense register of the enabled drive.
    fn sense(&mut self) {
        self.line(0, DiskLine::Q6, true);
        for _ in 0..=self.random.below(3) {
            let line = self.random.pick(&[DiskLine::CA0, DiskLine::CA1, DiskLine::CA2]);
            let on = self.random.one_in(2);
            self.line(0, line, on);
            let sense = Address::Iwm(DiskLine::Q7, false).number().to_le_bytes();
            self.record(b"RD", 0, &sense);
        }
    }

    /// A record of any kind and length.
    fn odd_record(&mut self) {
        let kinds = [
            b"RD", b"WR", b"VB", b"SE", b"IN", b"SN", b"RS", b"PW", b"DI", b"MW", b"KC", b"ST",
            b"SX", b"rd", b"OK",
        ];
        let kind = self.random.pick(&kinds);
        let length = self.random.below(12);
        let mut part = (length as u16).to_le_bytes().to_vec();
        part.extend_from_slice(kind);
        while part.len() < 2 + length {
            part.push(self.random.byte() % 4);
        }
        part.truncate((2 + length).max(2));
        if self.random.one_in(30) {
            part.truncate(self.random.below(part.len() + 1));
        }
        self.parts.push(part);
    }

    fn noise(&mut self) {
        let count = self.random.below(24);
        let part = (0..count).map(|i| self.random.byte() % if i % 2 == 0 { 255 } else { 2 });
        let part = part.collect();
        self.parts.push(part);
    }

    /// Now and then something between two items of a transaction.
    fn between(&mut self) {
        if self.random.one_in(40) {
            self.item();
        }
    }

    /// The bytes of a transaction: a command of one byte or two, and what follows it.
    fn command(&mut self) -> [u8; 4] {
        let extended = if self.chip == model::Chip::Later { 2 } else { 12 };
        let [first, second] = if self.random.one_in(extended) {
            self.of_two()
        } else {
            [self.of_one(), self.random.byte()]
        };
        [first, second, self.random.byte(), self.random.byte()]
    }

    /// A command of two bytes; now and then a second byte of another form.
    fn of_two(&mut self) -> [u8; 2] {
        let any = self.random.byte();
        let cell = self.random.pick(&[0, 1, 16, 19, 20, 31, 32, 34, 127, 128, 255, any]);
        let read = self.random.pick(&[0, 0, 0x80]);
        let odd = self.random.pick(&[0, 0, 0, 0, 0, 0, 0, 1, 2, 0x80, 0x83]);
        [0x38 | read | cell >> 5, (cell & 0x1F) << 2 | odd]
    }

    fn of_one(&mut self) -> u8 {
        match self.random.below(10) {
            0 => self.random.byte(),
            1 => self.random.pick(&[0x35, 0x31, 0x31, 0xB5, 0xB1]),
            2 | 3 => self.random.pick(&[0x01, 0x05, 0x09, 0x0D, 0x81, 0x85, 0x89, 0x8D]),
            _ => {
                let cell = self.random.below(20) as u8;
                let write = if cell < 16 { 0x41 | cell << 2 } else { 0x21 | (cell - 16) << 2 };
                write | self.random.pick(&[0, 0x80])
            }
        }
    }

    /// A transaction by port writes: enable down, bits, perhaps falls that are read, enable up.
    fn by_port(&mut self) {
        let high = self.random.byte() & 0xF8;
        let dir = 7 | self.random.byte() & 0xF8;
        let wait = self.wait();
        self.wr(wait, Register::ORB, high | 4);
        self.wr(0, Register::DDRB, dir);
        let clock = self.random.pick(&[0, 2]);
        self.wr(0, Register::ORB, high | clock);
        let bytes = self.command();
        for i in 0..self.bits(bytes[0]) {
            let bit = bytes[i / 8] >> (7 - i % 8) & 1;
            self.wr(0, Register::ORB, high | bit);
            self.between();
            self.wr(0, Register::ORB, high | bit | 2);
            self.between();
        }
        if bytes[0] & 0x80 != 0 || self.random.one_in(6) {
            let released = dir & if self.random.one_in(8) { 0xFF } else { 0xFE };
            self.wr(0, Register::DDRB, released);
            for _ in 0..self.random.below(11) {
                self.wr(0, Register::ORB, high);
                self.rd(0, Register::ORB);
                self.between();
                self.wr(0, Register::ORB, high | 2);
                if self.random.one_in(4) {
                    self.rd(0, Register::ORB);
                }
            }
        }
        if !self.random.one_in(3) {
            let low = self.random.byte() & 3;
            self.wr(0, Register::ORB, high | 4 | low);
        }
    }

    /// Bits of a transaction by its first byte: whole, cut, or too many.
    fn bits(&mut self, first: u8) -> usize {
        let more = if first & 0x78 == 0x38 { 8 } else { 0 };
        match self.random.below(8) {
            0 => self.random.below(8),
            1 => self.random.below(16 + more),
            2 => 15 + more,
            3 => 17 + more + self.random.below(3),
            4 => 8 + more,
            _ => 16 + more,
        }
    }

    /// A transaction whose wires move by direction writes: an input is undriven, so 1.
    fn by_direction(&mut self) {
        let other = self.random.byte() & 0xF8;
        let high = self.random.byte() & 0xF8;
        self.wr(0, Register::ORB, high);
        self.wr(0, Register::DDRB, other | 6);
        let bytes = self.command();
        for i in 0..self.bits(bytes[0]) {
            let low = 1 - (bytes[i / 8] >> (7 - i % 8) & 1);
            self.wr(0, Register::DDRB, other | 6 | low);
            self.between();
            self.wr(0, Register::DDRB, other | 4 | low);
            self.between();
        }
        for _ in 0..self.random.below(10) {
            self.wr(0, Register::DDRB, other | 6);
            self.rd(0, Register::ORB);
            self.wr(0, Register::DDRB, other | 4);
        }
        if !self.random.one_in(3) {
            let low = self.random.byte() & 3;
            self.wr(0, Register::DDRB, other | low);
        }
    }

    /// A transaction in one MW, or in a few: port B's values, or its directions, one after the other.
    fn in_one(&mut self) {
        let bytes = self.command();
        let bits = self.bits(bytes[0]);
        let high = self.random.byte() & 0xF8;
        let bit = |i: usize| bytes[i / 8] >> (7 - i % 8) & 1;
        let (register, mut values) = if self.random.one_in(4) {
            self.wr(0, Register::ORB, high);
            let low = |i: usize| high | (1 - bit(i));
            let edges = (0..bits).flat_map(|i| [low(i) | 6, low(i) | 4]);
            (Register::DDRB, [high | 6].into_iter().chain(edges).collect::<Vec<u8>>())
        } else {
            self.wr(0, Register::ORB, high | 4);
            self.wr(0, Register::DDRB, high | 7);
            let edges = (0..bits).flat_map(|i| [high | bit(i), high | bit(i) | 2]);
            (Register::ORB, [high].into_iter().chain(edges).collect())
        };
        if !self.random.one_in(3) {
            let end = if register == Register::ORB { high | 4 } else { high };
            values.push(end);
        }
        if self.random.one_in(4) {
            // One more edge somewhere: enable up and down again, or a level again.
            let at = self.random.below(values.len());
            let more = self.random.pick(&[[high | 4, high], [values[at]; 2]]);
            values.splice(at..at, more);
        }
        let most = if self.random.one_in(4) { 1 + self.random.below(64) } else { 64 };
        for part in values.chunks(most) {
            let wait = self.wait();
            self.mw(wait, Address::Via(register), part);
            self.between();
        }
    }

    /// Pulses of the keyboard's clock in every mode, and what clears flag 2 or starts the count anew.
    fn shift(&mut self) {
        if self.random.one_in(2) {
            self.wr(0, Register::IER, 0x84);
        }
        for _ in 0..=self.random.below(3) {
            let any = self.random.byte();
            let acr = self.random.pick(&[0x0C, 0x1C, 0x0C | any & 0xE3, 0x1C | any & 0xE3, any]);
            self.wr(0, Register::ACR, acr);
            for _ in 0..self.random.below(18) {
                let wait = self.random.pick(&[0, 0, 0, 1, 300]);
                let level = self.random.below(2) as u8;
                self.record(b"KC", wait, &[level]);
                let any = self.random.byte();
                match self.random.below(40) {
                    0 => self.rd(0, Register::SR),
                    1 => self.wr(0, Register::SR, any),
                    2 => self.mw(0, Address::Via(Register::SR), &[any, !any]),
                    3 => self.wr(0, Register::IFR, any),
                    4 => self.rd(0, Register::IFR),
                    5 => self.record(b"RS", 0, &[]),
                    6 => self.item(),
                    _ => {}
                }
            }
        }
        if self.random.one_in(3) {
            let register = self.random.pick(&[Register::SR, Register::IFR]);
            self.rd(0, register);
        }
    }

    /// Loads a timer and waits around its passages.
    fn timers(&mut self) {
        let latch = match self.random.below(6) {
            0 => self.random.next() as u16,
            1 => self.random.pick(&[255, 256, 32_767, 65_534, 65_535]),
            _ => self.random.below(5) as u16,
        };
        let acr = self.random.pick(&[0x00, 0x40, 0x40, 0x20, 0x60, 0xFF]);
        self.wr(0, Register::ACR, acr);
        if self.random.one_in(2) {
            let enables = self.random.pick(&[0xFF, 0xC0, 0xA0, 0x40, 0x7F]);
            self.wr(0, Register::IER, enables);
        }
        let (low, high) = self.random.pick(&[
            (Register::T1CL, Register::T1CH),
            (Register::T1LL, Register::T1CH),
            (Register::T1LL, Register::T1LH),
            (Register::T2CL, Register::T2CH),
        ]);
        self.wr(0, low, latch as u8);
        self.wr(0, high, (latch >> 8) as u8);
        for _ in 0..2 + self.random.below(6) {
            let edge = u32::from(latch) * self.random.below(4) as u32 + self.random.below(6) as u32;
            let wait = if self.random.one_in(5) { self.wait() } else { edge as u16 };
            let register = self.random.pick(&[
                Register::IFR,
                Register::IFR,
                Register::T1CL,
                Register::T1CH,
                Register::T2CL,
                Register::T2CH,
            ]);
            match self.random.below(12) {
                0 => self.wr(wait, Register::IFR, 0x7F),
                1 => {
                    let acr = self.random.pick(&[0, 0x40, 0x20, 0x60]);
                    self.wr(wait, Register::ACR, acr);
                }
                2 => {
                    let value = self.random.below(3) as u8;
                    let any = self.random.pick(&[
                        Register::T1CL,
                        Register::T1CH,
                        Register::T1LH,
                        Register::T2CH,
                    ]);
                    self.wr(wait, any, value);
                }
                _ => self.rd(wait, register),
            }
        }
    }

    /// Disk lines, sense levels and reads of the sense.
    fn disk(&mut self) {
        for _ in 0..=self.random.below(8) {
            let line = self.random.pick(&DiskLine::ALL);
            let address = Address::Iwm(line, self.random.one_in(2)).number().to_le_bytes();
            self.record(b"RD", 0, &address);
        }
        if self.random.one_in(3) {
            let value = self.random.byte();
            let register = self.random.pick(&[Register::ORA, Register::DDRA, Register::ORANH]);
            self.wr(0, register, value);
        }
        if self.random.one_in(2) {
            for (line, on) in [(DiskLine::ENABLE, true), (DiskLine::Q6, true)] {
                let address = Address::Iwm(line, on).number().to_le_bytes();
                self.record(b"RD", 0, &address);
            }
        }
        let sense = Address::Iwm(DiskLine::Q7, false).number().to_le_bytes();
        self.record(b"RD", 0, &sense);
    }

    fn part(&mut self) {
        match self.random.below(30) {
            24..=26 => self.in_one(),
            27..=29 => self.shift(),
            20..=23 => (0..=self.random.below(3)).for_each(|_| self.strobe()),
            0..=4 => self.by_port(),
            5..=7 => self.by_direction(),
            8..=11 => self.timers(),
            12 | 13 => self.disk(),
            14 => self.odd_record(),
            15 if self.random.one_in(4) => self.noise(),
            _ => (0..=self.random.below(8)).for_each(|_| self.item()),
        }
    }
}

fn some_list(random: &mut Random, chip: model::Chip, most: usize) -> Vec<Vec<u8>> {
    let count = random.below(most + 1);
    let mut maker = Maker { random, chip, parts: Vec::new() };
    match maker.random.below(10) {
        0 => maker.noise(),
        _ => (0..count).for_each(|_| maker.part()),
    }
    maker.parts
}

/// An accepted image with every field at random, mostly amid a command.
fn some_image(random: &mut Random, chip: model::Chip) -> Vec<u8> {
    let mut image = model::fresh_image(chip);
    let later = chip == model::Chip::Later;
    let cells = if later { 124..360 } else { 0..0 };
    for at in (4..12).chain(14..17).chain(18..23).chain(29..54).chain(cells) {
        if random.one_in(2) {
            image[at] = random.byte();
        }
    }
    image[8] = random.pick(&[0, 1, 2, 3, 255]);
    image[9] = random.pick(&[0, 0, 255]);
    image[21] &= 0x7F;
    image[22] &= 0x7F;
    image[23] = random.below(8) as u8;
    for at in [12, 13, 17, 28].into_iter().chain(54..101) {
        image[at] = random.byte() & 1;
    }
    for drive in [101, 110] {
        let disk = random.byte() & 1;
        let left = random.pick(&[0u16, 0, 1, 2, 9_400, 9_401]);
        let fields = [
            random.pick(&[0, 1, 2, 40, 78, 79]),
            random.byte() & 1,
            disk,
            random.byte() & disk,
            random.byte() & 1,
            random.byte() & disk,
        ];
        image[drive..drive + 6].copy_from_slice(&fields);
        image[drive + 6..drive + 8].copy_from_slice(&left.to_le_bytes());
        image[drive + 8] = u8::from(left > 0) & random.byte();
    }
    if image[57] == 1 && image[58] == 1 && !random.one_in(4) {
        let ticks = random.pick(&[0u32, 1, 782, 783, 784, 391_679, 391_680]);
        image[119..123].copy_from_slice(&ticks.to_le_bytes());
        image[123] = 1;
    }
    let low = !random.one_in(5);
    image[4] = image[4] & 0xFB | if low { 0 } else { 4 };
    image[6] |= 4;
    if low {
        let bits = random.below(8) as u8;
        let value = (random.next() % (1 << bits)) as u8;
        let phase = match random.below(if later { 8 } else { 5 }) {
            0 | 1 => {
                // The first bits of a command, so that later ones may complete it.
                let far = later && random.one_in(2);
                let any = random.byte();
                let command = if far { 0x38 | any & 0x87 } else { 0x41 | any & 0xBC };
                [1, 0, bits, first_bits(command, bits)]
            }
            // A half-sent second byte, mostly of the right form.
            5 => {
                let second = random.byte() & random.pick(&[0x7C, 0x7C, 0x7C, 0xFF]);
                [2, 0x38 | random.byte() & 0x87, bits, first_bits(second, bits)]
            }
            // A write of two bytes, with some of its data.
            6 | 7 => {
                image[360] = random.byte() & 0x7C;
                [5, 0x38 | random.byte() & 7, bits, value]
            }
            2 => {
                let command = random.pick(&[0x41, 0x7D, 0x21, 0x2D, 0x01, 0x0D, 0x31, 0x35]);
                [2, command, bits, value]
            }
            3 => [3, 0, random.below(9) as u8, random.byte()],
            _ => [4, 0, 0, 0],
        };
        image[24..28].copy_from_slice(&phase);
    }
    image
}

/// The value of a byte's first bits.
fn first_bits(byte: u8, bits: u8) -> u8 {
    ((u16::from(byte) << bits) >> 8) as u8
}

/// A command under way, at or past the edges of its ranges.
fn odd_phase(random: &mut Random) -> [u8; 4] {
    let bits = random.below(10) as u8;
    let value = random.pick(&[0, 1, (1u32 << bits) - 1, 1 << bits, 255]) as u8;
    let command = random.pick(&[0, 0, 0x41, 0x35, 0xC1, 0xB5, 0x42, 0x38, 0x3F, 0xBF]);
    [random.below(7) as u8, command, bits, value]
}

/// A field of the drives or of the strobe at or past the edges of its range.
fn odd_drives(random: &mut Random, image: &mut [u8]) {
    let drive = random.pick(&[101, 110]);
    match random.below(5) {
        0 => image[drive] = random.pick(&[79, 80, 255]),
        1 => {
            let left = random.pick(&[0u16, 1, 9_401, 9_402, 65_535]);
            image[drive + 6..drive + 8].copy_from_slice(&left.to_le_bytes());
            image[drive + 8] = random.byte() & 1;
        }
        2 => {
            let ticks = random.pick(&[0u32, 1, 391_680, 391_681, 1 << 24]);
            image[119..123].copy_from_slice(&ticks.to_le_bytes());
            image[123] = random.byte() & 1;
        }
        3 => image[57 + random.below(2)] ^= 1,
        _ => image[drive + 1 + random.below(5)] ^= random.pick(&[1, 1, 2]),
    }
}

/// The last byte of an image of kind SX is the second command byte; that of ST is a flag.
fn set_last(image: &mut [u8], byte: u8) {
    if let Some(last) = image.last_mut() {
        *last = byte;
    }
}

/// The other kind's letters, with its length or without, or its length alone.
fn other_kind(random: &mut Random, image: &mut Vec<u8>) {
    let other = if image[3] == b'T' { model::Chip::Later } else { model::Chip::First };
    if !random.one_in(3) {
        image[2..4].copy_from_slice(&other.kind());
    }
    if random.one_in(2) {
        image[..2].copy_from_slice(&(other.image_len() as u16 - 2).to_le_bytes());
    }
    if random.one_in(2) {
        image.resize(other.image_len(), 0);
    }
}

fn some_case(seed: u64) -> Case {
    let random = &mut Random(seed);
    let chip = random.pick(&model::Chip::BOTH);
    let mut image = match random.below(4) {
        0 | 1 => model::fresh_image(chip),
        2 => some_image(random, chip),
        _ => {
            // A state that a list reached.
            let mut image = model::fresh_image(chip);
            let list = some_list(random, chip, 3).concat();
            model::run_image(&mut image, &list, &mut vec![0; 8 * 400]);
            image
        }
    };
    if random.one_in(12) {
        // Mostly an image that no state has.
        match random.below(15) {
            0 => image.truncate(random.below(image.len())),
            1 => image.push(0),
            2..=4 => {
                image[24..28].copy_from_slice(&odd_phase(random));
                if random.one_in(2) {
                    image[24] = random.pick(&[2, 5, 5]);
                    set_last(&mut image, random.pick(&[0, 4, 0x7C, 0x7D, 0x80]));
                }
            }
            12 => other_kind(random, &mut image),
            14 => image[23] = random.pick(&[7, 8, 9, 16, 128, 255]),
            13 => set_last(&mut image, random.pick(&[1, 4, 0x7C, 0x7D])),
            5 | 6 => odd_drives(random, &mut image),
            _ => {
                let at = random.below(image.len());
                image[at] = random.pick(&[0, 1, 2, 3, 8, 128, 255]);
            }
        }
    }
    let parts = some_list(random, chip, 4);
    let whole = 8 * (parts.len() + 8);
    let room = if random.one_in(6) { random.below(whole) } else { whole };
    Case { image, parts, room }
}

/// A sound MW of two values or more, without one of them.
fn without_value(part: &[u8], value: usize) -> Option<Vec<u8>> {
    let count = part.len().checked_sub(11)?;
    if part[2..4] != *b"MW" || count < 2 || usize::from(part[10]) != count || value >= count {
        return None;
    }
    let mut less = part.to_vec();
    less.remove(11 + value);
    less[0] -= 1;
    less[10] -= 1;
    Some(less)
}

/// The smallest case found that still differs.
fn shrink(mut case: Case, differs: impl Fn(&Case) -> bool) -> Case {
    let later = case.image.get(3) == Some(&b'X');
    let fresh = model::fresh_image(model::Chip::BOTH[usize::from(later)]);
    loop {
        let plain = Case { image: fresh.clone(), ..case.clone() };
        let mut better = Some(plain).filter(|it| it.image != case.image && differs(it));
        if better.is_none() {
            let wide = Case { room: 8 * (case.parts.len() + 2), ..case.clone() };
            better = Some(wide).filter(|it| it.room != case.room && differs(it));
        }
        // Parts left out, many at a time and then one by one.
        let mut width = case.parts.len();
        while better.is_none() && width > 0 {
            let mut at = 0;
            while better.is_none() && at + width <= case.parts.len() {
                let mut less = case.clone();
                less.parts.drain(at..at + width);
                better = Some(less).filter(&differs);
                at += 1;
            }
            width /= 2;
        }
        // Values left out of an MW, one by one.
        let places = (0..case.parts.len()).flat_map(|part| (0..64).map(move |value| (part, value)));
        for (at, value) in places {
            if better.is_none() {
                better = without_value(&case.parts[at], value)
                    .map(|part| {
                        let mut less = case.clone();
                        less.parts[at] = part;
                        less
                    })
                    .filter(&differs);
            }
        }
        // Bytes made 0, one by one, waits first.
        for at in 0..if better.is_none() { case.parts.len() } else { 0 } {
            for byte in 2..case.parts[at].len() {
                let mut less = case.clone();
                if better.is_none() && std::mem::take(&mut less.parts[at][byte]) != 0 {
                    better = Some(less).filter(&differs);
                }
            }
        }
        match better {
            Some(less) => case = less,
            None => return case,
        }
    }
}

fn report(case: &Case, seed: u64, index: u64) -> String {
    let [library, plain] = ENGINES.map(|(_, engine)| by_engine(engine, case));
    let list = case.parts.concat();
    let fresh = model::Chip::BOTH.into_iter().find(|&it| case.image == model::fresh_image(it));
    let image = match fresh {
        Some(chip) => format!("fresh, {} cells", chip.cells()),
        None => format!("{:02X?}", case.image),
    };
    format!(
        "list {index} of seed {seed}\nimage: {image}\nanswer room: {} bytes\nlist:\n{}bytes: {list:02X?}\nmodel:   {:02X?}\nlibrary: {library:02X?}\nplain:   {plain:02X?}",
        case.room,
        disassemble(&list),
        by_model(case),
    )
}

fn number(name: &str, otherwise: u64) -> u64 {
    match std::env::var(name) {
        Ok(text) => text.parse().unwrap_or_else(|_| panic!("{name} is not a number: {text}")),
        Err(_) => otherwise,
    }
}

/// What the lists reached, so that none of it is missing unseen.
#[derive(Default, Debug)]
struct Reached {
    stops: [u64; 8],
    refusals: [u64; 10],
    phases: [u64; 6],
    /// Amid a second byte, and past cell 19.
    second_bytes: u64,
    far_cells: u64,
    /// Runs with either chip.
    chips: [u64; 2],
    protected: u64,
    cells: u64,
    seconds: u64,
    asked: u64,
    answers: u64,
    moved: u64,
    motors: u64,
    strobes: u64,
    /// Answers to MW: carried out, and refused by number.
    many: [u64; 10],
    /// Bits 1 shifted out, lists that leave flag 2 set, and the pulse counts that lists leave.
    bits_out: u64,
    shifted: u64,
    pulses: [u64; 8],
}

impl Reached {
    fn count(&mut self, case: &Case, left: &Left) {
        self.stops[usize::from(left.stop)] += 1;
        let list = case.parts.concat();
        for (piece, answer) in pieces(&list).zip(left.answers[..left.written].chunks(8)) {
            self.answers += 1;
            let refused = if answer[2] == b'N' { answer[4] } else { 0 };
            match piece.as_ref().get(2..4) {
                Some(b"MW") => self.many[usize::from(refused)] += 1,
                Some(b"KC") => self.bits_out += u64::from(refused == 0 && answer[4] == 1),
                _ => {}
            }
            if answer[2] == b'N' {
                self.refusals[usize::from(answer[4])] += 1;
            } else {
                self.asked += u64::from(answer[5] != 0);
            }
        }
        if left.stop != 7 {
            let later = left.image[3] == b'X';
            assert_eq!(left.image[..4], case.image[..4], "no run changes the chip");
            self.chips[usize::from(later)] += 1;
            self.phases[usize::from(left.image[24])] += 1;
            let first = left.image[25] & 0x78 == 0x38;
            self.second_bytes += u64::from(left.image[24] == 2 && first);
            self.far_cells += u64::from(later && left.image[124..360] != case.image[124..360]);
            self.protected += u64::from(left.image[28]);
            self.cells += u64::from(left.image[34..54] != case.image[34..54]);
            self.moved += u64::from(left.image[101] != case.image[101]);
            self.motors += u64::from(left.image[106] != case.image[106]);
            self.strobes += u64::from(left.image[123]);
            self.seconds += u64::from(left.image[30..34] != case.image[30..34]);
            self.pulses[usize::from(left.image[23])] += 1;
            self.shifted += u64::from(left.image[21] & 4 != 0);
        }
    }

    fn enough(&self, lists: u64) {
        let counts = [0, 1, 6, 7].map(|i| self.stops[i]).into_iter();
        let refusals = [1, 2, 3, 4, 5, 8, 9].map(|i| self.refusals[i]);
        let counts = counts.chain(refusals).chain(self.phases);
        let counts = counts.chain([self.moved, self.motors, self.strobes]).chain(self.chips);
        let counts = counts.chain([self.second_bytes, self.far_cells]);
        let counts = counts.chain([0, 3, 4, 5].map(|i| self.many[i])).chain(self.pulses);
        let counts = counts.chain([self.bits_out, self.shifted]);
        let counts = counts.chain([self.protected, self.cells, self.seconds, self.asked]);
        for count in counts {
            assert!(count * 500 >= lists, "too little of something: {self:?}");
        }
    }
}

#[test]
fn library_equals_model() {
    let seed = number("SWARMTEMPO_SEED", 1);
    let lists = number("SWARMTEMPO_LISTS", LISTS);
    println!("seed {seed}, {lists} lists");
    let mut reached = Reached::default();
    for index in 0..lists {
        let case = some_case(Random(seed ^ index.wrapping_mul(0xD134_2543_DE82_EF95)).next());
        let left = by_model(&case);
        for (name, engine) in ENGINES {
            if by_engine(engine, &case) != left {
                let small = shrink(case, |case| by_engine(engine, case) != by_model(case));
                panic!("{name} and model differ\n{}", report(&small, seed, index));
            }
        }
        reached.count(&case, &left);
    }
    println!("{reached:?}");
    if lists >= 10_000 {
        reached.enough(lists);
    }
}

/// A difference planted on purpose is found and made small.
#[test]
fn a_difference_is_made_small() {
    let differs = |case: &Case| {
        let left = by_model(case);
        left.stop != 7 && left.image[34] == 0xAA && case.image[34] != 0xAA
    };
    let mut random = Random(3);
    let mut maker = Maker { random: &mut random, chip: model::Chip::First, parts: Vec::new() };
    (0..5).for_each(|_| maker.timers());
    maker.wr(0, Register::ORB, 4);
    maker.wr(0, Register::DDRB, 7);
    maker.wr(0, Register::ORB, 0);
    for i in (0..16).rev() {
        let bit = (0x41AA >> i & 1) as u8;
        maker.wr(9, Register::ORB, bit);
        maker.wr(9, Register::ORB, bit | 2);
    }
    (0..5).for_each(|_| maker.item());
    let parts = maker.parts;
    let image = Machine::fresh(Chip::First).image().to_vec();
    let small = shrink(Case { image, room: 4000, parts }, differs);
    assert!(small.parts.len() <= 34, "{}", disassemble(&small.parts.concat()));
    assert!(differs(&small));
    // The same in one MW, with values that do nothing.
    let mut maker = Maker { random: &mut random, chip: model::Chip::First, parts: Vec::new() };
    maker.wr(0, Register::DDRB, 7);
    let bits = (0..16).rev().map(|i| (0x41AA >> i & 1) as u8);
    let values: Vec<u8> = [0; 20].into_iter().chain(bits.flat_map(|bit| [bit, bit | 2])).collect();
    maker.mw(9, Address::Via(Register::ORB), &values);
    let parts = maker.parts;
    let image = Machine::fresh(Chip::First).image().to_vec();
    let small = shrink(Case { image, room: 4000, parts }, differs);
    let lengths: Vec<usize> = small.parts.iter().map(Vec::len).collect();
    assert!(lengths.len() == 2 && lengths[1] <= 11 + 32, "{lengths:?}");
    assert!(differs(&small));
}
