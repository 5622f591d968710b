//! A saved state: one record of kind ST, or SX where the chip is the later one.

use crate::clock::{decode_command, decode_extended, Chip, Command, Phase};
use crate::machine::Machine;
use crate::refusal;
use crate::run::Run;

/// The cells in the middle of an image of either kind; the others stand near the end of SX.
const CELLS_FIRST: usize = 20;

impl Chip {
    /// Bytes of an image, its length included. SX ends with the cells that ST does not have, and a
    /// second command byte.
    pub fn image_len(self) -> usize {
        match self {
            Chip::First => 124,
            Chip::Later => 124 + 236 + 1,
        }
    }

    /// The kind of its images.
    pub fn kind(self) -> [u8; 2] {
        match self {
            Chip::First => *b"ST",
            Chip::Later => *b"SX",
        }
    }
}

struct Writer<'a> {
    bytes: &'a mut [u8],
    at: usize,
}

impl Writer<'_> {
    fn put(&mut self, bytes: &[u8]) {
        self.bytes[self.at..self.at + bytes.len()].copy_from_slice(bytes);
        self.at += bytes.len();
    }

    fn flag(&mut self, on: bool) {
        self.put(&[u8::from(on)]);
    }

    /// Levels from bit 0 up, a byte each.
    fn levels(&mut self, bits: u32, count: u32) {
        (0..count).for_each(|i| self.flag(bits >> i & 1 != 0));
    }
}

struct Reader<'a> {
    bytes: &'a [u8],
}

impl Reader<'_> {
    fn take<const N: usize>(&mut self) -> Option<[u8; N]> {
        let (taken, rest) = self.bytes.split_first_chunk::<N>()?;
        self.bytes = rest;
        Some(*taken)
    }

    fn byte(&mut self) -> Option<u8> {
        self.take::<1>().map(|[byte]| byte)
    }

    fn word(&mut self) -> Option<u16> {
        self.take().map(u16::from_le_bytes)
    }

    fn flag(&mut self) -> Option<bool> {
        match self.byte()? {
            0 => Some(false),
            1 => Some(true),
            _ => None,
        }
    }

    fn levels(&mut self, count: u32) -> Option<u32> {
        (0..count).try_fold(0, |bits, i| Some(bits | u32::from(self.flag()?) << i))
    }

    fn seven_bits(&mut self) -> Option<u8> {
        self.byte().filter(|&byte| byte < 128)
    }

    /// The half-made command; the second byte of a command of two is none of these four.
    fn phase(&mut self, chip: Chip) -> Option<Phase> {
        let [number, command, bits, value] = self.take()?;
        let taken = bits < 8 && u16::from(value) < 1 << bits;
        match number {
            0 if [command, bits, value] == [0; 3] => Some(Phase::Idle),
            1 if command == 0 && taken => Some(Phase::Listening { bits, value }),
            2 if taken => match decode_command(chip, command)? {
                Command::Write(_) => Some(Phase::Taking { command, bits, value }),
                Command::Extended { .. } => Some(Phase::Second { first: command, bits, value }),
                Command::Read(_) => None,
            },
            3 if command == 0 && bits < 9 => Some(Phase::Sending { byte: value, falls: bits }),
            4 if [command, bits, value] == [0; 3] => Some(Phase::Ignoring),
            5 if taken => Some(Phase::TakingFar { first: command, second: 0, bits, value }),
            _ => None,
        }
    }

    /// The later chip's end of an image.
    fn tail(&mut self, m: &mut Machine) -> Option<()> {
        let chip = m.clock.store.chip;
        if chip == Chip::Later {
            m.clock.store.cells[CELLS_FIRST..].copy_from_slice(&self.take::<236>()?);
        }
        let byte = if chip == Chip::Later { self.byte()? } else { 0 };
        match &mut m.clock.phase {
            Phase::TakingFar { first, second, .. } => {
                *second = byte;
                let command = decode_extended(chip, *first, byte);
                matches!(command, Some(Command::Write(_))).then_some(())
            }
            _ => (byte == 0).then_some(()),
        }
    }
}

impl Machine {
    /// The image of an accepted state.
    pub fn image(&self) -> Vec<u8> {
        let mut image = vec![0; self.clock.store.chip.image_len()];
        self.save(&mut image);
        image
    }

    /// Writes it to memory of its length.
    fn save(&self, image: &mut [u8]) {
        let chip = self.clock.store.chip;
        let mut w = Writer { bytes: image, at: 0 };
        w.put(&(chip.image_len() as u16 - 2).to_le_bytes());
        w.put(&chip.kind());
        let via = &self.via;
        w.put(&[via.out_b, via.out_a, via.dir_b, via.dir_a]);
        w.put(&via.t1.counter.to_le_bytes());
        w.put(&via.t1.latch.to_le_bytes());
        w.flag(via.t1.armed);
        w.flag(via.t1.due);
        w.put(&via.t2.counter.to_le_bytes());
        w.put(&[via.t2.low]);
        w.flag(via.t2.armed);
        w.put(&[via.sr, via.acr, via.pcr, via.flags, via.enables, via.pulses]);
        w.put(&match self.clock.phase {
            Phase::Idle => [0; 4],
            Phase::Listening { bits, value } => [1, 0, bits, value],
            Phase::Taking { command, bits, value } => [2, command, bits, value],
            Phase::Second { first, bits, value } => [2, first, bits, value],
            Phase::TakingFar { first, bits, value, .. } => [5, first, bits, value],
            Phase::Sending { byte, falls } => [3, 0, falls, byte],
            Phase::Ignoring => [4, 0, 0, 0],
        });
        let store = &self.clock.store;
        w.flag(store.protect);
        w.put(&[store.test]);
        w.put(&store.seconds.to_le_bytes());
        w.put(&store.cells[..CELLS_FIRST]);
        w.levels(self.lines.into(), 8);
        w.levels(self.inputs.into(), 7);
        w.levels(self.sense, 32);
        for drive in &self.drives.drives {
            w.put(&[drive.track]);
            let flags =
                [drive.direction, drive.disk, drive.locked, drive.double_sided, drive.motor];
            flags.into_iter().for_each(|on| w.flag(on));
            w.put(&drive.step_left.to_le_bytes());
            w.flag(drive.step_direction);
        }
        w.put(&self.drives.strobe.ticks.to_le_bytes());
        w.flag(self.drives.strobe.steady);
        if chip == Chip::Later {
            w.put(&store.cells[CELLS_FIRST..]);
            let second = match self.clock.phase {
                Phase::TakingFar { second, .. } => second,
                _ => 0,
            };
            w.put(&[second]);
        }
        debug_assert_eq!(w.at, chip.image_len());
    }

    /// The accepted state of an image, or none.
    pub fn from_image(image: &[u8]) -> Option<Machine> {
        let mut r = Reader { bytes: image };
        let length = r.word()?;
        let kind = r.take()?;
        let chip = Chip::BOTH.into_iter().find(|chip| chip.kind() == kind)?;
        if image.len() != chip.image_len() || usize::from(length) != image.len() - 2 {
            return None;
        }
        let mut m = Machine::new(chip);
        let via = &mut m.via;
        [via.out_b, via.out_a, via.dir_b, via.dir_a] = r.take()?;
        via.t1.counter = r.word()?;
        via.t1.latch = r.word()?;
        via.t1.armed = r.flag()?;
        via.t1.due = r.flag()?;
        via.t2.counter = r.word()?;
        via.t2.low = r.byte()?;
        via.t2.armed = r.flag()?;
        [via.sr, via.acr, via.pcr] = r.take()?;
        via.flags = r.seven_bits()?;
        via.enables = r.seven_bits()?;
        via.pulses = r.byte().filter(|&pulses| pulses < 8)?;
        m.clock.phase = r.phase(chip)?;
        let store = &mut m.clock.store;
        store.protect = r.flag()?;
        store.test = r.byte()?;
        store.seconds = u32::from_le_bytes(r.take()?);
        store.cells[..CELLS_FIRST].copy_from_slice(&r.take::<CELLS_FIRST>()?);
        m.lines = r.levels(8)? as u8;
        m.inputs = r.levels(7)? as u8;
        m.sense = r.levels(32)?;
        for drive in &mut m.drives.drives {
            drive.track = r.byte()?;
            drive.direction = r.flag()?;
            drive.disk = r.flag()?;
            drive.locked = r.flag()?;
            drive.double_sided = r.flag()?;
            drive.motor = r.flag()?;
            drive.step_left = r.word()?;
            drive.step_direction = r.flag()?;
        }
        m.drives.strobe.ticks = u32::from_le_bytes(r.take()?);
        m.drives.strobe.steady = r.flag()?;
        r.tail(&mut m)?;
        debug_assert!(r.bytes.is_empty());
        m.accepted().then_some(m)
    }
}

/// The image of a fresh machine.
pub fn fresh_image(chip: Chip) -> Vec<u8> {
    Machine::new(chip).image()
}

/// Runs a list on a lent image, which takes the state reached; on 7 nothing is written.
pub fn run_image(image: &mut [u8], list: &[u8], answers: &mut [u8]) -> Run {
    let Some(mut machine) = Machine::from_image(image) else {
        return Run { stop: refusal::STATE, consumed: 0, written: 0 };
    };
    let run = machine.run(list, answers);
    machine.save(image);
    run
}
