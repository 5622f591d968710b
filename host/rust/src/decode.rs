//! The clock transactions of a run: what was asked of the clock chip, and what became of it.
//!
//! A [`Decoder`] follows the three wires, item by item, by the history of the requirements: a stretch is
//! a longest series of items with enable 0; a rise is data-clock 1 directly after 0 in one stretch, and
//! its bit is data; a write is complete at the sixteenth rise, that of a command of two bytes at the
//! twenty-fourth. It has cells, seconds, protect and test of its own, which follow from the stretches
//! alone; the tests hold them to the state that the library reaches.
//!
//! ```
//! use swarmtempo::{Chip, Decoding, Fate, List, Machine};
//!
//! // Enable falls, three bits, enable goes up.
//! let text = "0t WR VIA.ORB 4\n0t WR VIA.DDRB 7\n0t WR VIA.ORB 0\n";
//! let bits = "5t WR VIA.ORB 0\n5t WR VIA.ORB 2\n".repeat(3);
//! let list: List = format!("{text}{bits}0t WR VIA.ORB 4").parse()?;
//! let mut seen = Vec::new();
//! let mut decoding = Decoding::new(Machine::fresh(Chip::First));
//! decoding.run(list.as_bytes(), &mut |transaction| seen.push(transaction));
//! decoding.finish(&mut |transaction| seen.push(transaction));
//! assert_eq!(seen.len(), 1);
//! assert_eq!((seen[0].bits, seen[0].fate), (3, Fate::Half { of: None }));
//! assert_eq!(seen[0].to_string(), "3 bits of a command: half sent (3 bits)");
//! # Ok::<(), swarmtempo::text::TextError>(())
//! ```

mod words;

use crate::{pieces, Chip, Command, Machine, Phase, Piece, Run, State, Target, Wires, ANSWER_LEN};

/// Where and when an item of a list is.
#[derive(Clone, Copy, Debug, Default, PartialEq, Eq, Hash)]
pub struct Place {
    /// Its number, counted from 1; 0 is the start.
    pub item: u64,
    /// Where its record begins in the list, in bytes.
    pub offset: u64,
    /// The line of its text, where it has one.
    pub line: Option<u64>,
    /// VIA ticks that all items carried out waited, its own wait with them where it was carried out.
    pub via_ticks: u64,
}

/// The bits of a byte sent that the program read in port B, bit 7 first; none where it read none.
#[derive(Clone, Copy, Debug, Default, PartialEq, Eq, Hash)]
pub struct SeenBits(pub [Option<bool>; 8]);

impl SeenBits {
    /// How many it read.
    pub fn count(self) -> usize {
        self.0.iter().flatten().count()
    }

    /// The byte, where it read all.
    pub fn byte(self) -> Option<u8> {
        self.0.iter().try_fold(0, |byte, bit| bit.map(|bit| byte << 1 | u8::from(bit)))
    }
}

/// The seconds that a program has read in four bytes.
#[derive(Clone, Copy, Debug, PartialEq, Eq, Hash)]
pub struct SeenDate {
    /// As the program saw them, in seconds since 1 January 1904.
    pub seconds: u32,
    /// As the chip had them when it took the last of the four bytes.
    pub clock: u32,
    /// The numbers of the four transactions, in their order.
    pub numbers: [u64; 4],
}

/// The seconds bytes of a reading under way, in one direction: 0, 1, 2, 3 or 3, 2, 1, 0.
#[derive(Clone, Copy, Debug, Default)]
struct Reading {
    /// How many there are, 0 to 3.
    count: usize,
    /// In the order of the reading, each with the number of its transaction.
    bytes: [(u8, u64); 4],
}

impl Reading {
    /// The byte of this place in the reading comes: true where it is the last. Place 0 begins anew, and
    /// one out of turn leaves nothing.
    fn takes(&mut self, place: usize, byte: u8, number: u64) -> bool {
        if place != 0 && place != self.count {
            self.count = 0;
            return false;
        }
        self.bytes[place] = (byte, number);
        self.count = place + 1;
        self.count == 4
    }
}

/// What was asked of the chip.
#[derive(Clone, Copy, Debug, PartialEq, Eq, Hash)]
pub enum Asked {
    /// Fewer than eight bits of a command, and their value.
    Bits {
        /// 0 to 7.
        count: u8,
        /// The first bit is the highest.
        value: u8,
    },
    /// The first byte of a command of two, and fewer than eight bits of the second.
    First {
        /// The byte.
        first: u8,
        /// 0 to 7.
        count: u8,
        /// Of the bits of the second byte.
        value: u8,
    },
    /// A command, of one byte or two; none where these bytes are no command of the chip.
    Command {
        /// The first byte.
        first: u8,
        /// The second byte of a command of two.
        second: Option<u8>,
        /// What it means.
        command: Option<Command>,
    },
    /// It was asked before the list began.
    Before,
}

/// What became of a transaction.
#[derive(Clone, Copy, Debug, PartialEq, Eq, Hash)]
pub enum Fate {
    /// The write was complete, and the chip took the byte.
    Written {
        /// What was written.
        target: Target,
        /// The byte sent. Of one for protect only bit 7 is kept.
        byte: u8,
        /// What was there before; of protect $80 or 0.
        before: u8,
    },
    /// The write was complete, and write-protect kept the byte out.
    Protected {
        /// What would have been written.
        target: Target,
        /// The byte sent.
        byte: u8,
    },
    /// Enable went up too early, or the list ended: nothing was done.
    Half {
        /// The bits that the command needs, where so much of it is known.
        of: Option<u8>,
    },
    /// The bytes are no command of the chip: nothing was done.
    Illegal,
    /// The chip sent a byte.
    Read {
        /// The byte that the chip took to be sent.
        sent: u8,
        /// Bits put out on the data line, 0 to 8: falls of data-clock.
        falls: u8,
        /// What the program read of them.
        seen: SeenBits,
        /// The seconds, where this is the last of the four seconds bytes, read one after the other
        /// upward (0 to 3) or downward, with no other read and no write of seconds between.
        date: Option<SeenDate>,
    },
    /// It was settled before the list began.
    Before,
}

/// All from one fall of enable to its next rise: one command at most.
#[derive(Clone, Copy, Debug, PartialEq, Eq, Hash)]
pub struct Transaction {
    /// Counted from 1.
    pub number: u64,
    /// The item at which enable fell; that before the first where it was 0 at the start.
    pub start: Place,
    /// The item at which it was settled: the last bit of a whole write, of a whole read command, or of
    /// bytes that are no command.
    pub settled: Option<Place>,
    /// The item at which enable went up; none where it is 0 at the end of the list.
    pub end: Option<Place>,
    /// Enable was 0 at the start: bits sent before are counted.
    pub begun: bool,
    /// What was asked.
    pub asked: Asked,
    /// Rises of data-clock in it. The chip takes no bit while it sends, and none once all is settled.
    pub bits: u64,
    /// Bits of the data byte of a write that is half sent: how many, and their value.
    pub data: (u8, u8),
    /// What became of it.
    pub fate: Fate,
    /// Records refused while it lasted.
    pub refused: u64,
}

/// What a [`Decoder`] tells.
pub trait Watch {
    /// A transaction has ended.
    fn transaction(&mut self, transaction: Transaction);

    /// A write to port B, a reset or a power cut has left these wires. An item may do so several times.
    fn wires(&mut self, at: Place, wires: Wires) {
        let _ = (at, wires);
    }
}

impl<F: FnMut(Transaction)> Watch for F {
    fn transaction(&mut self, transaction: Transaction) {
        self(transaction);
    }
}

/// How far the chip is in a stretch.
#[derive(Clone, Copy, Debug, PartialEq, Eq)]
enum Step {
    /// It takes bits of the first byte, of the second, of the data.
    First,
    Second,
    Data,
    /// It sends.
    Sending,
    /// It ignores.
    Over,
}

/// The stretch that is open.
#[derive(Clone, Copy, Debug)]
struct Stretch {
    step: Step,
    /// Bits taken of the byte under way, 0 to 7.
    taken: u8,
    first: u8,
    second: u8,
    data: u8,
    command: Option<Command>,
    /// Falls since the byte to be sent was taken.
    falls: u8,
    /// The chip's seconds when that was.
    clock: u32,
    it: Transaction,
}

/// Follows the clock's wires through a run.
#[derive(Clone, Debug)]
pub struct Decoder {
    chip: Chip,
    cells: Vec<u8>,
    seconds: u32,
    protect: bool,
    test: u8,
    out_b: u8,
    dir_b: u8,
    enable: bool,
    data_clock: bool,
    stretch: Option<Stretch>,
    number: u64,
    /// The readings of the seconds that may be under way, upward and downward.
    readings: [Reading; 2],
}

/// The address of a VIA register, as a record has it.
const fn bytes_of(register: u32) -> [u8; 4] {
    (0x00EF_E1FE + 512 * register).to_le_bytes()
}

const ORB: [u8; 4] = bytes_of(0);
const DDRB: [u8; 4] = bytes_of(2);

impl Decoder {
    /// From a state, in which a command may be half sent.
    pub fn new(state: &State) -> Decoder {
        let wires = state.wires();
        let mut decoder = Decoder {
            chip: state.chip,
            cells: state.cells.clone(),
            seconds: state.seconds.0,
            protect: state.protect,
            test: state.test,
            out_b: state.out_b,
            dir_b: state.dir_b,
            enable: wires.enable,
            data_clock: wires.data_clock,
            stretch: None,
            number: 0,
            readings: [Reading::default(); 2],
        };
        decoder.stretch = decoder.open_at_start(state.phase);
        decoder
    }

    /// The cells, by the transactions so far.
    pub fn cells(&self) -> &[u8] {
        &self.cells
    }

    /// The seconds, by the transactions, second ticks and power cuts so far.
    pub fn seconds(&self) -> u32 {
        self.seconds
    }

    /// Write-protect, by the transactions so far.
    pub fn protect(&self) -> bool {
        self.protect
    }

    /// The test byte, by the transactions so far.
    pub fn test(&self) -> u8 {
        self.test
    }

    /// The wires.
    pub fn wires(&self) -> Wires {
        let driven = self.dir_b & 1 != 0;
        let data = if driven { self.out_b & 1 != 0 } else { self.line() };
        Wires { enable: self.enable, data_clock: self.data_clock, data }
    }

    /// The data line as the chip leaves it: 1 but for the bits that it sends.
    fn line(&self) -> bool {
        match &self.stretch {
            Some(Stretch { step: Step::Sending, falls: falls @ 1..=8, it, .. }) => match it.fate {
                Fate::Read { sent, .. } => sent >> (8 - falls) & 1 != 0,
                _ => true,
            },
            _ => true,
        }
    }

    /// Follows a record, by its answer.
    pub fn record(
        &mut self,
        at: Place,
        piece: Piece<'_>,
        answer: &[u8; ANSWER_LEN],
        watch: &mut impl Watch,
    ) {
        let record = piece.as_ref();
        if answer[2..4] != *b"OK" {
            if let Some(stretch) = &mut self.stretch {
                stretch.it.refused += 1;
            }
            return;
        }
        let (Some(kind), Some(body)) = (record.get(2..4), record.get(6..)) else {
            return;
        };
        match kind {
            b"WR" | b"MW" => self.write_all(at, kind, body, watch),
            b"RD" if body == ORB => self.read(answer[4] & 1 != 0),
            b"SE" => self.pass(1),
            b"RS" => self.begin_anew(at, watch),
            b"PW" => {
                let off = body.first_chunk::<4>().map_or(0, |&off| u32::from_le_bytes(off));
                self.pass(off);
                self.begin_anew(at, watch);
            }
            _ => {}
        }
    }

    /// The values of a WR, or of an MW one after the other.
    fn write_all(&mut self, at: Place, kind: &[u8], body: &[u8], watch: &mut impl Watch) {
        let Some((address, rest)) = body.split_first_chunk::<4>() else {
            return;
        };
        let values = if kind == b"WR" { rest } else { rest.get(1..).unwrap_or(&[]) };
        match *address {
            ORB => values.iter().for_each(|&value| self.ports(at, value, self.dir_b, watch)),
            DDRB => values.iter().for_each(|&value| self.ports(at, self.out_b, value, watch)),
            _ => {}
        }
    }

    /// The list has ended; a transaction may be open.
    pub fn finish(&mut self, watch: &mut impl Watch) {
        if let Some(stretch) = self.stretch {
            watch.transaction(self.ended(stretch, None));
        }
    }

    /// The ports become inputs, and the program begins anew: it has no seconds byte any more.
    fn begin_anew(&mut self, at: Place, watch: &mut impl Watch) {
        self.ports(at, 0, 0, watch);
        self.no_reading();
    }

    /// Seconds go by, unless the test byte stops them.
    fn pass(&mut self, seconds: u32) {
        if self.test & 0xC0 == 0 {
            self.seconds = self.seconds.wrapping_add(seconds);
        }
    }

    /// The program reads bit 0 of port B.
    fn read(&mut self, bit: bool) {
        let Some(Stretch { step: Step::Sending, falls: falls @ 1..=8, it, .. }) = &mut self.stretch
        else {
            return;
        };
        if let Fate::Read { seen, .. } = &mut it.fate {
            seen.0[usize::from(*falls) - 1] = Some(bit);
        }
    }

    /// Port B takes these output bits and directions: enable, data-clock and data may change.
    fn ports(&mut self, at: Place, out: u8, dir: u8, watch: &mut impl Watch) {
        (self.out_b, self.dir_b) = (out, dir);
        let (enable, data_clock) = ((out | !dir) & 4 != 0, (out | !dir) & 2 != 0);
        let before = self.data_clock;
        (self.enable, self.data_clock) = (enable, data_clock);
        match self.stretch.take() {
            Some(stretch) if enable => {
                let ended = self.ended(stretch, Some(at));
                watch.transaction(ended);
            }
            Some(stretch) => {
                self.stretch = Some(stretch);
                match (before, data_clock) {
                    // While bits are taken the chip leaves the line alone, and it is 1 unless driven.
                    (false, true) => self.rise(at, (out | !dir) & 1),
                    (true, false) => self.fall(),
                    _ => {}
                }
            }
            None if !enable => self.stretch = Some(self.opened(at)),
            None => {}
        }
        watch.wires(at, self.wires());
    }

    fn opened(&mut self, at: Place) -> Stretch {
        self.number += 1;
        let asked = Asked::Bits { count: 0, value: 0 };
        Stretch {
            step: Step::First,
            taken: 0,
            first: 0,
            second: 0,
            data: 0,
            command: None,
            falls: 0,
            clock: 0,
            it: Transaction {
                number: self.number,
                start: at,
                settled: None,
                end: None,
                begun: false,
                asked,
                bits: 0,
                data: (0, 0),
                fate: Fate::Half { of: None },
                refused: 0,
            },
        }
    }

    /// What is open in the phase of a state.
    fn open_at_start(&mut self, phase: Phase) -> Option<Stretch> {
        if phase == Phase::Idle {
            return None;
        }
        let mut open = self.opened(Place::default());
        open.it.begun = true;
        match phase {
            Phase::Idle => {}
            Phase::Listening { bits, value } => self.taken(&mut open, &[], bits, value),
            Phase::Taking { command: first, bits, value }
            | Phase::Second { first, bits, value } => {
                self.taken(&mut open, &[first], bits, value);
            }
            Phase::TakingExtended { first, second, bits, value } => {
                self.taken(&mut open, &[first, second], bits, value);
            }
            Phase::Sending { byte: sent, falls } => {
                let seen = SeenBits::default();
                (open.step, open.falls, open.it.asked) = (Step::Sending, falls, Asked::Before);
                open.it.fate = Fate::Read { sent, falls: 0, seen, date: None };
            }
            Phase::Ignoring => {
                (open.step, open.it.asked) = (Step::Over, Asked::Before);
                open.it.fate = Fate::Before;
            }
        }
        Some(open)
    }

    /// Whole bytes, and bits of the next one, that came before the list.
    fn taken(&self, open: &mut Stretch, bytes: &[u8], bits: u8, value: u8) {
        let start = Place::default();
        if let Some(&first) = bytes.first() {
            open.first = first;
            self.command(open, start);
        }
        if let Some(&second) = bytes.get(1) {
            open.second = second;
            self.second(open, start);
        }
        open.taken = bits;
        open.it.bits = 8 * bytes.len() as u64 + u64::from(bits);
        match open.step {
            Step::First => open.first = value,
            Step::Second => open.second = value,
            Step::Data | Step::Sending | Step::Over => open.data = value,
        }
    }

    /// Data-clock rises: the bit is taken, unless the chip sends or ignores.
    fn rise(&mut self, at: Place, bit: u8) {
        let Some(mut open) = self.stretch.take() else {
            return;
        };
        open.it.bits += 1;
        let byte = match open.step {
            Step::First => &mut open.first,
            Step::Second => &mut open.second,
            Step::Data => &mut open.data,
            Step::Sending | Step::Over => {
                self.stretch = Some(open);
                return;
            }
        };
        *byte = *byte << 1 | bit;
        open.taken = (open.taken + 1) % 8;
        if open.taken == 0 {
            match open.step {
                Step::First => self.command(&mut open, at),
                Step::Second => self.second(&mut open, at),
                _ => self.complete(&mut open, at),
            }
        }
        self.stretch = Some(open);
    }

    /// Data-clock falls: the next bit is put out where the chip sends, and the ninth fall ends that.
    fn fall(&mut self) {
        let Some(open) = &mut self.stretch else {
            return;
        };
        if open.step == Step::Sending {
            open.falls += 1;
            if open.falls == 9 {
                (open.step, open.falls) = (Step::Over, 8);
            }
        }
    }

    /// The first byte is whole.
    fn command(&self, open: &mut Stretch, at: Place) {
        if self.chip == Chip::Later && Command::is_first_of_two(open.first) {
            open.step = Step::Second;
            let reads = open.first & 0x80 != 0;
            open.it.fate = Fate::Half { of: Some(if reads { 16 } else { 24 }) };
            return;
        }
        self.commanded(open, Command::of(open.first), 16, at);
    }

    /// The second byte is whole.
    fn second(&self, open: &mut Stretch, at: Place) {
        let command = Command::of_two(open.first, open.second);
        self.commanded(open, command, 24, at);
    }

    /// The command is whole: a read is done at once, a write needs so many bits in all.
    fn commanded(&self, open: &mut Stretch, command: Option<Command>, of: u8, at: Place) {
        let second = (of == 24).then_some(open.second);
        open.it.asked = Asked::Command { first: open.first, second, command };
        open.command = command;
        match command {
            Some(Command { read: false, .. }) => {
                (open.step, open.it.fate) = (Step::Data, Fate::Half { of: Some(of) });
                return;
            }
            Some(Command { read: true, target }) => {
                open.step = Step::Sending;
                open.clock = self.seconds;
                let (sent, seen) = (self.held(target), SeenBits::default());
                open.it.fate = Fate::Read { sent, falls: 0, seen, date: None };
            }
            None => (open.step, open.it.fate) = (Step::Over, Fate::Illegal),
        }
        open.it.settled = Some(at);
    }

    /// A write is complete, and acts where protect is clear before it, or where it is to protect.
    fn complete(&mut self, open: &mut Stretch, at: Place) {
        open.step = Step::Over;
        open.it.settled = Some(at);
        let (Some(Command { target, .. }), byte) = (open.command, open.data) else {
            return;
        };
        if matches!(target, Target::Seconds(_)) {
            self.no_reading();
        }
        if self.protect && target != Target::Protect {
            open.it.fate = Fate::Protected { target, byte };
            return;
        }
        open.it.fate = Fate::Written { target, byte, before: self.held(target) };
        match target {
            Target::Seconds(k) => {
                let mut bytes = self.seconds.to_le_bytes();
                bytes[usize::from(k & 3)] = byte;
                self.seconds = u32::from_le_bytes(bytes);
            }
            Target::Test => self.test = byte,
            Target::Protect => self.protect = byte & 0x80 != 0,
            Target::Cell(cell) => {
                if let Some(cell) = self.cells.get_mut(usize::from(cell)) {
                    *cell = byte;
                }
            }
        }
    }

    /// What stands at a target.
    fn held(&self, target: Target) -> u8 {
        match target {
            Target::Seconds(k) => self.seconds.to_le_bytes()[usize::from(k & 3)],
            Target::Test => self.test,
            Target::Protect => u8::from(self.protect) << 7,
            Target::Cell(cell) => self.cells.get(usize::from(cell)).copied().unwrap_or(0),
        }
    }

    /// Enable has gone up, or the list has ended.
    fn ended(&mut self, open: Stretch, end: Option<Place>) -> Transaction {
        let Stretch { mut it, taken, first, second, data, .. } = open;
        it.end = end;
        match open.step {
            Step::First => it.asked = Asked::Bits { count: taken, value: first },
            Step::Second => it.asked = Asked::First { first, count: taken, value: second },
            Step::Data => it.data = (taken, data),
            Step::Sending | Step::Over => {}
        }
        if let Fate::Read { falls, seen, date, .. } = &mut it.fate {
            *falls = open.falls;
            *date = match (open.command, seen.byte()) {
                (Some(Command { target: Target::Seconds(k), .. }), Some(byte)) => {
                    self.seen_seconds(k, byte, it.number, open.clock)
                }
                _ => {
                    self.no_reading();
                    None
                }
            };
        }
        it
    }

    /// No reading of the seconds is under way.
    fn no_reading(&mut self) {
        self.readings = [Reading::default(); 2];
    }

    /// A seconds byte was read: the date where it is the last of a reading in one direction. Bytes in
    /// another order may be of two readings, and give none.
    fn seen_seconds(&mut self, k: u8, byte: u8, number: u64, clock: u32) -> Option<SeenDate> {
        let place = usize::from(k & 3);
        let [up, down] = &mut self.readings;
        let (rose, fell) = (up.takes(place, byte, number), down.takes(3 - place, byte, number));
        let bytes = match (rose, fell) {
            (true, _) => up.bytes,
            (_, true) => down.bytes,
            _ => return None,
        };
        // The last byte is no part of the next reading.
        self.no_reading();
        let value = bytes.map(|(byte, _)| byte);
        let seconds = if rose { u32::from_le_bytes(value) } else { u32::from_be_bytes(value) };
        Some(SeenDate { seconds, clock, numbers: bytes.map(|(_, number)| number) })
    }
}

/// A run of a list, part by part, that gives its transactions.
#[derive(Clone, Debug)]
pub struct Decoding {
    machine: Machine,
    decoder: Decoder,
    at: Place,
    answers: Vec<u8>,
}

impl Decoding {
    /// From a state.
    pub fn new(machine: Machine) -> Decoding {
        let decoder = Decoder::new(&machine.state());
        Decoding { machine, decoder, at: Place::default(), answers: Vec::new() }
    }

    /// The machine as far as it has come.
    pub fn machine(&self) -> &Machine {
        &self.machine
    }

    /// What the transactions so far come to.
    pub fn decoder(&self) -> &Decoder {
        &self.decoder
    }

    /// Runs the next part of the list, which ends between two records unless it is the last.
    pub fn run(&mut self, part: &[u8], watch: &mut impl Watch) -> Run {
        self.answers.clear();
        let run = self.machine.run(part, &mut self.answers);
        let mut offset = self.at.offset;
        for (piece, answer) in pieces(part).zip(self.answers.as_chunks::<ANSWER_LEN>().0) {
            self.at.item += 1;
            self.at.offset = offset;
            offset += piece.as_ref().len() as u64;
            self.at.via_ticks += u64::from(waited(piece, answer));
            self.decoder.record(self.at, piece, answer, watch);
        }
        self.at.offset = offset;
        run
    }

    /// The list has ended; a transaction may be open.
    pub fn finish(&mut self, watch: &mut impl Watch) {
        self.decoder.finish(watch);
    }
}

/// The VIA ticks that a record waited: its wait, or none where it was refused.
pub fn waited(piece: Piece<'_>, answer: &[u8; ANSWER_LEN]) -> u16 {
    let wait = piece.as_ref().get(4..6).filter(|_| answer[2..4] == *b"OK");
    wait.map_or(0, |wait| u16::from_le_bytes([wait[0], wait[1]]))
}

#[cfg(test)]
mod tests {
    use super::*;
    use crate::{Address, Register};

    #[test]
    fn addresses() {
        for (register, bytes) in [(Register::ORB, ORB), (Register::DDRB, DDRB)] {
            assert_eq!(Address::Via(register).number().to_le_bytes(), bytes);
        }
    }
}
