//! An image taken apart, for showing it. The layout is that of kinds ST and SX. Its words are in
//! [`crate::describe`].

use crate::{Chip, Command, DiskLine, InLine, Lines, Seconds, SenseRegister, ViaTicks, WaitTicks};

/// Timer 1.
#[derive(Clone, Copy, Debug, PartialEq, Eq)]
pub struct Timer1 {
    /// The counter.
    pub counter: WaitTicks,
    /// The latches.
    pub latch: WaitTicks,
    /// Its next passage sets flag 6.
    pub armed: bool,
    /// The next tick loads the latches.
    pub due: bool,
}

/// Timer 2.
#[derive(Clone, Copy, Debug, PartialEq, Eq)]
pub struct Timer2 {
    /// The counter.
    pub counter: WaitTicks,
    /// The low latch.
    pub low: u8,
    /// Its next passage sets flag 5.
    pub armed: bool,
}

/// How far the clock chip is in a transaction.
#[derive(Clone, Copy, Debug, PartialEq, Eq)]
pub enum Phase {
    /// Enable is up.
    Idle,
    /// Taking the command: so many bits (0 to 7), and their value.
    Listening {
        /// Bits taken.
        bits: u8,
        /// Their value.
        value: u8,
    },
    /// Taking the data of a write command.
    Taking {
        /// The command.
        command: u8,
        /// Data bits taken, 0 to 7.
        bits: u8,
        /// Their value.
        value: u8,
    },
    /// Taking the second byte of a command of two: the later chip's.
    Second {
        /// The first byte.
        first: u8,
        /// Bits taken, 0 to 7.
        bits: u8,
        /// Their value.
        value: u8,
    },
    /// Taking the data of a write command of two bytes: the later chip's.
    TakingExtended {
        /// The first byte.
        first: u8,
        /// The second byte.
        second: u8,
        /// Data bits taken, 0 to 7.
        bits: u8,
        /// Their value.
        value: u8,
    },
    /// Sending the byte that a read command took.
    Sending {
        /// The byte.
        byte: u8,
        /// Falls of data-clock seen, 0 to 8.
        falls: u8,
    },
    /// Waiting for enable to go up.
    Ignoring,
}

/// A drive.
#[derive(Clone, Copy, Debug, PartialEq, Eq)]
#[allow(clippy::struct_excessive_bools, reason = "they are the drive's lines")]
pub struct DriveState {
    /// 0 to 79.
    pub track: u8,
    /// False towards track 79, true towards track 0.
    pub direction: bool,
    /// A disk is in place.
    pub disk: bool,
    /// It is locked.
    pub locked: bool,
    /// Double-sided.
    pub double_sided: bool,
    /// The motor runs.
    pub motor: bool,
    /// What is left of a step, 0 where none is under way.
    pub step_left: WaitTicks,
    /// The direction of that step.
    pub step_direction: bool,
}

/// A strobe of LSTRB.
#[derive(Clone, Copy, Debug, PartialEq, Eq)]
pub struct Strobe {
    /// Since LSTRB rose, 391,680 at most; 0 unless steady.
    pub ticks: ViaTicks,
    /// ENABLE was on and the other lines held still since LSTRB rose.
    pub steady: bool,
}

/// The levels of the clock's wires.
#[derive(Clone, Copy, Debug, PartialEq, Eq)]
pub struct Wires {
    /// Low while a transaction is on.
    pub enable: bool,
    /// Data-clock.
    pub data_clock: bool,
    /// Data.
    pub data: bool,
}

/// A state.
#[derive(Clone, Debug, PartialEq, Eq)]
pub struct State {
    /// Output bits of port B.
    pub out_b: u8,
    /// Output bits of port A.
    pub out_a: u8,
    /// Directions of port B, 1 for output.
    pub dir_b: u8,
    /// Directions of port A, 1 for output.
    pub dir_a: u8,
    /// Timer 1.
    pub t1: Timer1,
    /// Timer 2.
    pub t2: Timer2,
    /// Register 10.
    pub sr: u8,
    /// Register 11.
    pub acr: u8,
    /// Register 12.
    pub pcr: u8,
    /// Flags 0 to 6.
    pub flags: u8,
    /// Enables of flags 0 to 6.
    pub enables: u8,
    /// Pulses of the keyboard's clock counted, 0 to 7. The eighth sets flag 2.
    pub pulses: u8,
    /// The clock chip's transaction.
    pub phase: Phase,
    /// Only write-protect can be written.
    pub protect: bool,
    /// The test register.
    pub test: u8,
    /// The chip's count, from 1 January 1904.
    pub seconds: Seconds,
    /// The clock chip.
    pub chip: Chip,
    /// Its parameter memory, as many cells as it has.
    pub cells: Vec<u8>,
    /// The disk lines.
    pub lines: Lines,
    /// The levels of the IN lines.
    pub inputs: [bool; InLine::COUNT as usize],
    /// The levels of the sense registers, internal drive first.
    pub sense: [[bool; SenseRegister::COUNT as usize]; 2],
    /// The drives, internal first.
    pub drives: [DriveState; 2],
    /// The strobe under way.
    pub strobe: Strobe,
}

/// Takes the fields of an image from its front.
struct Fields<'a>(&'a [u8]);

impl Fields<'_> {
    fn bytes<const N: usize>(&mut self) -> [u8; N] {
        let (taken, rest) = self.0.split_first_chunk().expect("an accepted image is whole");
        self.0 = rest;
        *taken
    }

    fn byte(&mut self) -> u8 {
        self.bytes::<1>()[0]
    }

    fn ticks(&mut self) -> WaitTicks {
        WaitTicks(u16::from_le_bytes(self.bytes()))
    }

    fn long(&mut self) -> u32 {
        u32::from_le_bytes(self.bytes())
    }

    fn flag(&mut self) -> bool {
        self.byte() != 0
    }

    fn flags<const N: usize>(&mut self) -> [bool; N] {
        self.bytes::<N>().map(|byte| byte != 0)
    }

    fn lines(&mut self) -> Lines {
        let on = self.flags::<8>();
        DiskLine::ALL.into_iter().filter(|line| on[line.index()]).collect()
    }

    fn drive(&mut self) -> DriveState {
        DriveState {
            track: self.byte(),
            direction: self.flag(),
            disk: self.flag(),
            locked: self.flag(),
            double_sided: self.flag(),
            motor: self.flag(),
            step_left: self.ticks(),
            step_direction: self.flag(),
        }
    }

    fn phase(&mut self) -> Phase {
        let [number, command, bits, value] = self.bytes();
        match number {
            0 => Phase::Idle,
            1 => Phase::Listening { bits, value },
            2 if Command::is_first_of_two(command) => Phase::Second { first: command, bits, value },
            2 => Phase::Taking { command, bits, value },
            3 => Phase::Sending { byte: value, falls: bits },
            5 => Phase::TakingExtended { first: command, second: 0, bits, value },
            _ => Phase::Ignoring,
        }
    }

    /// What an image of kind SX has at its end: the other cells, and the second command byte.
    fn tail(&mut self, state: &mut State) {
        if state.chip == Chip::First {
            return;
        }
        state
            .cells
            .extend_from_slice(&self.bytes::<{ Chip::Later.cells() - Chip::First.cells() }>());
        let byte = self.byte();
        if let Phase::TakingExtended { second, .. } = &mut state.phase {
            *second = byte;
        }
    }
}

impl State {
    /// The state of an image that a run accepts.
    pub(crate) fn of_accepted(image: &[u8]) -> State {
        let chip = Chip::of_image(image).expect("an accepted image has a kind");
        let mut f = Fields(image);
        let _length_and_kind: [u8; 4] = f.bytes();
        let mut state = State {
            out_b: f.byte(),
            out_a: f.byte(),
            dir_b: f.byte(),
            dir_a: f.byte(),
            t1: Timer1 { counter: f.ticks(), latch: f.ticks(), armed: f.flag(), due: f.flag() },
            t2: Timer2 { counter: f.ticks(), low: f.byte(), armed: f.flag() },
            sr: f.byte(),
            acr: f.byte(),
            pcr: f.byte(),
            flags: f.byte(),
            enables: f.byte(),
            pulses: f.byte(),
            phase: f.phase(),
            protect: f.flag(),
            test: f.byte(),
            seconds: Seconds(f.long()),
            chip,
            cells: f.bytes::<{ Chip::First.cells() }>().to_vec(),
            lines: f.lines(),
            inputs: f.flags(),
            sense: [f.flags(), f.flags()],
            drives: [f.drive(), f.drive()],
            strobe: Strobe { ticks: ViaTicks(f.long()), steady: f.flag() },
        };
        f.tail(&mut state);
        state
    }

    /// The level of the clock's data line as the chip gives it; 1 where it does not drive it.
    fn chip_data(&self) -> bool {
        match self.phase {
            Phase::Sending { byte, falls: falls @ 1..=8 } => byte >> (8 - falls) & 1 != 0,
            _ => true,
        }
    }

    /// The levels of port B.
    pub fn port_b(&self) -> u8 {
        let inputs = (0..4).fold(0, |byte, i| byte | u8::from(self.inputs[i]) << (3 + i));
        let outside = 0x86 | u8::from(self.chip_data()) | inputs;
        self.out_b & self.dir_b | outside & !self.dir_b
    }

    /// The levels of port A.
    pub fn port_a(&self) -> u8 {
        let outside = 0x7F | u8::from(self.inputs[4]) << 7;
        self.out_a & self.dir_a | outside & !self.dir_a
    }

    /// The clock's wires: PB2, PB1 and PB0.
    pub fn wires(&self) -> Wires {
        let levels = self.port_b();
        Wires { enable: levels & 4 != 0, data_clock: levels & 2 != 0, data: levels & 1 != 0 }
    }

    /// SEL: PA5.
    pub fn sel(&self) -> bool {
        self.port_a() & 0x20 != 0
    }

    /// Neither a one-second tick nor time off moves the seconds: test bit 7 or 6 is 1.
    pub fn seconds_stopped(&self) -> bool {
        self.test & 0xC0 != 0
    }

    /// The interrupt level.
    pub fn level(&self) -> u8 {
        let (serial, switch) = (self.inputs[5], self.inputs[6]);
        let via = self.flags & self.enables != 0 && !serial;
        4 * u8::from(switch) + 2 * u8::from(serial) + u8::from(via)
    }
}
