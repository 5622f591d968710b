//! The clock chip's commands, named.

use std::fmt;

/// What a command names.
#[derive(Clone, Copy, Debug, PartialEq, Eq, Hash)]
pub enum Target {
    /// Byte 0 (lowest) to 3 of the seconds.
    Seconds(u8),
    /// The test register.
    Test,
    /// The write-protect register.
    Protect,
    /// A cell of parameter memory.
    Cell(u8),
}

/// A legal command.
#[derive(Clone, Copy, Debug, PartialEq, Eq, Hash)]
pub struct Command {
    /// True for a read, false for a write.
    pub read: bool,
    /// What is read or written.
    pub target: Target,
}

impl Command {
    /// The meaning of a command of one byte, the same on both chips, or none where it is none.
    pub fn of(byte: u8) -> Option<Command> {
        let read = byte & 0x80 != 0;
        let target = match byte & 0x7F {
            0x01 | 0x05 | 0x09 | 0x0D => Target::Seconds(byte >> 2 & 3),
            0x31 if !read => Target::Test,
            0x35 if !read => Target::Protect,
            rest if rest & 0x73 == 0x21 => Target::Cell(16 + (rest >> 2 & 3)),
            rest if rest & 0x43 == 0x41 => Target::Cell(rest >> 2 & 15),
            _ => return None,
        };
        Some(Command { read, target })
    }

    /// True where the later chip takes a second byte after this one. The first chip ignores it.
    pub fn is_first_of_two(byte: u8) -> bool {
        byte & 0x78 == 0x38
    }

    /// The meaning of a command of two bytes, z0111abc 0defgh00 for cell abcdefgh, or none where the
    /// later chip ignores it.
    pub fn of_two(first: u8, second: u8) -> Option<Command> {
        let legal = Command::is_first_of_two(first) && second & 0x83 == 0;
        let target = Target::Cell((first & 7) << 5 | second >> 2);
        legal.then_some(Command { read: first & 0x80 != 0, target })
    }
}

impl fmt::Display for Command {
    fn fmt(&self, f: &mut fmt::Formatter<'_>) -> fmt::Result {
        f.write_str(if self.read { "read " } else { "write " })?;
        match self.target {
            Target::Seconds(byte) => write!(f, "seconds byte {byte}"),
            Target::Test => f.write_str("test"),
            Target::Protect => f.write_str("protect"),
            Target::Cell(cell) => write!(f, "cell {cell}"),
        }
    }
}
