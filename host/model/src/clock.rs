//! The clock chip: commands, phases, and what it stores.

/// Room for the cells of either chip, in bytes.
pub const CELLS_MOST: usize = 256;

/// Which chip a machine has, chosen when it is made.
#[derive(Clone, Copy, Debug, Default, PartialEq, Eq)]
pub enum Chip {
    #[default]
    First,
    Later,
}

impl Chip {
    pub const BOTH: [Chip; 2] = [Chip::First, Chip::Later];

    /// Parameter memory, in bytes.
    pub fn cells(self) -> usize {
        match self {
            Chip::First => 20,
            Chip::Later => CELLS_MOST,
        }
    }

    /// The chip of a number of cells.
    pub fn of(cells: usize) -> Option<Chip> {
        Chip::BOTH.into_iter().find(|chip| chip.cells() == cells)
    }
}

/// What a command names.
#[derive(Clone, Copy, Debug, PartialEq, Eq)]
pub enum Target {
    /// Byte 0 (lowest) to 3 of the seconds.
    Seconds(u8),
    Test,
    Protect,
    Cell(u8),
}

/// A legal command.
#[derive(Clone, Copy, Debug, PartialEq, Eq)]
pub enum Command {
    Read(Target),
    Write(Target),
    /// The first byte of a command of two, abc of cell abcdefgh: the later chip's.
    Extended {
        read: bool,
        high: u8,
    },
}

/// The meaning of a first command byte, or none where it is not legal.
pub fn decode_command(chip: Chip, byte: u8) -> Option<Command> {
    if chip == Chip::Later && byte & 0x78 == 0x38 {
        return Some(Command::Extended { read: byte >= 0x80, high: byte & 7 });
    }
    if byte & 3 != 1 {
        return None;
    }
    let place = byte >> 2 & 0x1F;
    let target = match place {
        0..=3 => Target::Seconds(place),
        8..=11 => Target::Cell(16 + (place - 8)),
        12 => Target::Test,
        13 => Target::Protect,
        16..=31 => Target::Cell(place - 16),
        _ => return None,
    };
    match (byte & 0x80 != 0, target) {
        (false, _) => Some(Command::Write(target)),
        (true, Target::Test | Target::Protect) => None,
        (true, _) => Some(Command::Read(target)),
    }
}

/// The meaning of a whole command of two bytes, z0111abc 0defgh00, or none where it is not legal.
pub fn decode_extended(chip: Chip, first: u8, second: u8) -> Option<Command> {
    let Some(Command::Extended { read, high }) = decode_command(chip, first) else {
        return None;
    };
    if second & 0x83 != 0 {
        return None;
    }
    let cell = Target::Cell(high << 5 | second >> 2);
    Some(if read { Command::Read(cell) } else { Command::Write(cell) })
}

/// How far a transaction is.
#[derive(Clone, Debug, Default, PartialEq, Eq)]
pub enum Phase {
    #[default]
    Idle,
    /// 0 to 7 command bits taken, and their value.
    Listening {
        bits: u8,
        value: u8,
    },
    /// A legal write command, 0 to 7 data bits taken, and their value.
    Taking {
        command: u8,
        bits: u8,
        value: u8,
    },
    /// The first byte of a command of two, 0 to 7 bits of the second taken, and their value.
    Second {
        first: u8,
        bits: u8,
        value: u8,
    },
    /// A legal write command of two bytes, 0 to 7 data bits taken, and their value.
    TakingFar {
        first: u8,
        second: u8,
        bits: u8,
        value: u8,
    },
    /// The byte that a read took, and 0 to 8 falls of data-clock.
    Sending {
        byte: u8,
        falls: u8,
    },
    Ignoring,
}

/// What the battery keeps.
#[derive(Clone, Debug, PartialEq, Eq)]
pub struct Store {
    pub chip: Chip,
    /// Those that the chip does not have hold 0.
    pub cells: [u8; CELLS_MOST],
    /// Modulo 4,294,967,296.
    pub seconds: u32,
    pub protect: bool,
    pub test: u8,
}

impl Store {
    /// Fresh.
    pub fn new(chip: Chip) -> Self {
        Store { chip, cells: [0; CELLS_MOST], seconds: 0, protect: false, test: 0 }
    }

    /// The cells that the chip has.
    pub fn cells(&self) -> &[u8] {
        &self.cells[..self.chip.cells()]
    }

    fn read(&self, target: Target) -> u8 {
        match target {
            Target::Seconds(byte) => self.seconds.to_le_bytes()[usize::from(byte)],
            Target::Cell(cell) => self.cells[usize::from(cell)],
            Target::Test | Target::Protect => unreachable!("no command reads them"),
        }
    }

    fn write(&mut self, target: Target, value: u8) {
        match target {
            Target::Protect => self.protect = value & 0x80 != 0,
            _ if self.protect => {}
            Target::Seconds(byte) => {
                let mut bytes = self.seconds.to_le_bytes();
                bytes[usize::from(byte)] = value;
                self.seconds = u32::from_le_bytes(bytes);
            }
            Target::Test => self.test = value,
            Target::Cell(cell) => self.cells[usize::from(cell)] = value,
        }
    }

    /// Time passes: one-second ticks or time off. The seconds stand while test bit 7 or 6 is 1.
    pub fn advance(&mut self, seconds: u32) {
        if self.test & 0xC0 == 0 {
            self.seconds = self.seconds.wrapping_add(seconds);
        }
    }
}

#[derive(Clone, Debug, PartialEq, Eq)]
pub struct Clock {
    pub phase: Phase,
    pub store: Store,
}

impl Clock {
    /// Fresh.
    pub fn new(chip: Chip) -> Self {
        Clock { phase: Phase::Idle, store: Store::new(chip) }
    }

    /// The level that the chip gives the data line; 1 where it does not drive it.
    pub fn data(&self) -> bool {
        match self.phase {
            Phase::Sending { byte, falls: falls @ 1..=8 } => byte >> (8 - falls) & 1 != 0,
            _ => true,
        }
    }

    /// Data-clock went from 0 to 1 with enable low.
    pub fn rise(&mut self, data: bool) {
        let bit = u8::from(data);
        match &mut self.phase {
            Phase::Listening { bits, value }
            | Phase::Second { bits, value, .. }
            | Phase::Taking { bits, value, .. }
            | Phase::TakingFar { bits, value, .. } => {
                *value = *value << 1 | bit;
                *bits += 1;
                if *bits == 8 {
                    self.whole_byte();
                }
            }
            _ => {}
        }
    }

    /// Eight bits were taken: of a first byte, of a second byte, or of the data.
    fn whole_byte(&mut self) {
        let chip = self.store.chip;
        self.phase = match self.phase {
            Phase::Listening { value, .. } => match decode_command(chip, value) {
                Some(Command::Read(target)) => self.sending(target),
                Some(Command::Write(_)) => Phase::Taking { command: value, bits: 0, value: 0 },
                Some(Command::Extended { .. }) => Phase::Second { first: value, bits: 0, value: 0 },
                None => Phase::Ignoring,
            },
            Phase::Second { first, value: second, .. } => {
                match decode_extended(chip, first, second) {
                    Some(Command::Read(target)) => self.sending(target),
                    Some(_) => Phase::TakingFar { first, second, bits: 0, value: 0 },
                    None => Phase::Ignoring,
                }
            }
            Phase::Taking { command, value, .. } => {
                if let Some(Command::Write(target)) = decode_command(chip, command) {
                    self.store.write(target, value);
                }
                Phase::Ignoring
            }
            Phase::TakingFar { first, second, value, .. } => {
                if let Some(Command::Write(target)) = decode_extended(chip, first, second) {
                    self.store.write(target, value);
                }
                Phase::Ignoring
            }
            _ => return,
        };
    }

    fn sending(&self, target: Target) -> Phase {
        Phase::Sending { byte: self.store.read(target), falls: 0 }
    }

    /// Data-clock went from 1 to 0 with enable low.
    pub fn fall(&mut self) {
        if let Phase::Sending { byte, falls } = self.phase {
            self.phase =
                if falls < 8 { Phase::Sending { byte, falls: falls + 1 } } else { Phase::Ignoring };
        }
    }
}

#[cfg(test)]
mod tests {
    use super::*;

    /// The patterns as the requirements print them: z is either, a is any.
    const PATTERNS: [(&str, &str); 9] = [
        ("z0000001", "seconds 0"),
        ("z0000101", "seconds 1"),
        ("z0001001", "seconds 2"),
        ("z0001101", "seconds 3"),
        ("00110001", "test"),
        ("00110101", "protect"),
        ("z010aa01", "cell 16"),
        ("z1aaaa01", "cell 0"),
        ("z0111aaa", "extended 0"),
    ];

    fn by_patterns(chip: Chip, byte: u8) -> Option<Command> {
        let rows = if chip == Chip::Later { 9 } else { 8 };
        for (pattern, name) in &PATTERNS[..rows] {
            let mut a = 0;
            let fits = pattern.bytes().enumerate().all(|(i, p)| {
                let bit = byte >> (7 - i) & 1;
                match p {
                    b'0' | b'1' => bit == p - b'0',
                    b'a' => {
                        a = a << 1 | bit;
                        true
                    }
                    _ => true,
                }
            });
            if fits {
                let (word, number) = name.split_once(' ').unwrap_or((name, "0"));
                let number = number.parse::<u8>().unwrap() + a;
                let read = pattern.starts_with('z') && byte & 0x80 != 0;
                let target = match word {
                    "seconds" => Target::Seconds(number),
                    "test" => Target::Test,
                    "protect" => Target::Protect,
                    "extended" => return Some(Command::Extended { read, high: number }),
                    _ => Target::Cell(number),
                };
                return Some(if read { Command::Read(target) } else { Command::Write(target) });
            }
        }
        None
    }

    #[test]
    fn fifty_legal_bytes_and_sixty_six() {
        for (chip, expected) in [(Chip::First, 50), (Chip::Later, 66)] {
            let mut legal = 0;
            for byte in 0..=255 {
                assert_eq!(decode_command(chip, byte), by_patterns(chip, byte), "${byte:02X}");
                legal += usize::from(decode_command(chip, byte).is_some());
            }
            assert_eq!(legal, expected);
        }
    }

    /// z0111abc 0defgh00 is cell abcdefgh: each cell by exactly one pair of bytes, for z 0 and 1.
    #[test]
    fn second_bytes() {
        let mut written = [0; CELLS_MOST];
        for (first, second) in (0..=255).flat_map(|a| (0..=255).map(move |b| (a, b))) {
            let bits = format!("{first:08b}{second:08b}");
            let fits = bits[1..5] == *"0111" && bits[8..9] == *"0" && bits[14..] == *"00";
            let meant = fits.then(|| {
                let cell = u8::from_str_radix(&format!("{}{}", &bits[5..8], &bits[9..14]), 2);
                let cell = Target::Cell(cell.expect("eight digits"));
                if first < 128 {
                    Command::Write(cell)
                } else {
                    Command::Read(cell)
                }
            });
            assert_eq!(decode_extended(Chip::Later, first, second), meant, "{bits}");
            assert_eq!(decode_extended(Chip::First, first, second), None, "{bits}");
            if let Some(Command::Write(Target::Cell(cell))) = meant {
                written[usize::from(cell)] += 1;
            }
        }
        assert_eq!(written, [1; CELLS_MOST]);
    }

    #[test]
    fn named_cells() {
        for chip in Chip::BOTH {
            for (byte, cell) in [(0x41, 0), (0x21, 16), (0x2D, 19), (0x7D, 15)] {
                assert_eq!(decode_command(chip, byte), Some(Command::Write(Target::Cell(cell))));
            }
            for illegal in [0xB5, 0xB1, 0x11, 0x91] {
                assert_eq!(decode_command(chip, illegal), None);
            }
        }
        assert_eq!(
            [20, 256, 0, 19, 21, 255].map(Chip::of),
            [Some(Chip::First), Some(Chip::Later), None, None, None, None]
        );
    }
}
