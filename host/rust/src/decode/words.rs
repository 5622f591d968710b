//! Transactions in words.

use super::{Asked, Fate, SeenBits, Transaction};
use crate::describe::date;
use crate::{Command, Target};
use std::fmt;

/// Bits from the first on, as many as were sent; a dash for each that was not.
fn bits(count: u8, value: u8) -> String {
    let sent = (0..count.min(8)).rev().map(|i| if value >> i & 1 != 0 { '1' } else { '0' });
    format!("%{:-<8}", sent.collect::<String>())
}

/// All bits, the first one first; a dash for each that was not read.
impl fmt::Display for SeenBits {
    fn fmt(&self, f: &mut fmt::Formatter<'_>) -> fmt::Result {
        match self.byte() {
            Some(byte) => f.pad(&format!("${byte:02X}")),
            None => {
                let bits = self.0.iter().map(|bit| match bit {
                    Some(true) => '1',
                    Some(false) => '0',
                    None => '-',
                });
                f.pad(&format!("%{}", bits.collect::<String>()))
            }
        }
    }
}

/// As `$41 write cell 0`.
impl fmt::Display for Asked {
    fn fmt(&self, f: &mut fmt::Formatter<'_>) -> fmt::Result {
        let words = match *self {
            Asked::Bits { count: 0, .. } => "no bit of a command".into(),
            Asked::Bits { count: 1, .. } => "1 bit of a command".into(),
            Asked::Bits { count, .. } => format!("{count} bits of a command"),
            Asked::First { first, .. } => {
                let kind = if first & 0x80 != 0 { "read" } else { "write" };
                format!("${first:02X} {kind} of two bytes")
            }
            Asked::Command { first, second, command } => {
                let second = second.map_or(String::new(), |second| format!(" ${second:02X}"));
                match command {
                    Some(command) => format!("${first:02X}{second} {command}"),
                    None => format!("${first:02X}{second} is no command"),
                }
            }
            Asked::Before => "begun before the list".into(),
        };
        f.pad(&words)
    }
}

impl Transaction {
    /// The byte in words: sent by a write, seen by the program at a read, or the bits that came.
    pub fn byte(&self) -> String {
        match (self.fate, self.asked) {
            (Fate::Written { byte, .. } | Fate::Protected { byte, .. }, _) => {
                format!("${byte:02X}")
            }
            (Fate::Read { seen, .. }, _) => seen.to_string(),
            (_, Asked::Bits { count, value } | Asked::First { count, value, .. }) if count > 0 => {
                bits(count, value)
            }
            (Fate::Half { .. }, _) if self.data.0 > 0 => bits(self.data.0, self.data.1),
            _ => "-".into(),
        }
    }

    /// True where neither enable went up nor all bits came before the list ended: it may go on.
    pub fn not_ended(&self) -> bool {
        matches!(self.fate, Fate::Half { .. }) && self.end.is_none()
    }

    /// True where enable went up again before the first bit.
    pub fn nothing_sent(&self) -> bool {
        matches!(self.fate, Fate::Half { .. }) && self.end.is_some() && self.bits == 0
    }

    /// True where the bytes are no command of this chip, and the first of two on one with 256 cells.
    pub fn of_two_elsewhere(&self) -> bool {
        matches!(self.asked, Asked::Command { first, second: None, command: None }
            if Command::is_first_of_two(first))
    }

    /// The name of its fate, in one word: written, protected, half, nothing, open, illegal, read or
    /// before.
    pub fn fate_name(&self) -> &'static str {
        match self.fate {
            Fate::Written { .. } => "written",
            Fate::Protected { .. } => "protected",
            Fate::Half { .. } if self.not_ended() => "open",
            Fate::Half { .. } if self.nothing_sent() => "nothing",
            Fate::Half { .. } => "half",
            Fate::Illegal => "illegal",
            Fate::Read { .. } => "read",
            Fate::Before => "before",
        }
    }

    /// Its fate in words.
    pub fn fate_words(&self) -> String {
        let mut words = match self.fate {
            Fate::Written { target, byte, before } => written(target, byte, before),
            Fate::Protected { .. } => "kept out by protect".into(),
            Fate::Half { of } => self.half(of),
            Fate::Illegal => self.illegal().into(),
            Fate::Read { sent, falls, seen, .. } => read(sent, falls, seen),
            Fate::Before => "settled before the list".into(),
        };
        if let Fate::Read { date: Some(seen), .. } = self.fate {
            let of = numbers(seen.numbers);
            words.push_str(&format!("; the date read: {} ({of})", date(seen.seconds)));
            if seen.clock != seen.seconds {
                words.push_str(&format!(", while the clock had {}", date(seen.clock)));
            }
        }
        let extra = self.extra_bits();
        if extra > 0 {
            let more = if extra == 1 { "" } else { "s" };
            words.push_str(&format!("; {extra} bit{more} more, ignored"));
        }
        if self.end.is_none() && !self.not_ended() {
            words.push_str("; enable is still 0 at the end");
        }
        if self.begun {
            words.push_str("; begun before the list");
        }
        match self.refused {
            0 => {}
            1 => words.push_str("; 1 record refused meanwhile"),
            count => words.push_str(&format!("; {count} records refused meanwhile")),
        }
        words
    }

    fn illegal(&self) -> &'static str {
        if self.of_two_elsewhere() {
            "illegal: ignored (of two bytes on a chip with 256 cells)"
        } else {
            "illegal: ignored"
        }
    }

    /// Bits that came after those of a whole write.
    pub fn extra_bits(&self) -> u64 {
        let two = matches!(self.asked, Asked::Command { second: Some(_), .. });
        match self.fate {
            Fate::Written { .. } | Fate::Protected { .. } => {
                self.bits.saturating_sub(if two { 24 } else { 16 })
            }
            _ => 0,
        }
    }

    fn half(&self, of: Option<u8>) -> String {
        let (bits, more) = (self.bits, if self.bits == 1 { "" } else { "s" });
        let count = match of {
            Some(of) => format!("{bits} of {of} bits"),
            None => format!("{bits} bit{more}"),
        };
        match self.fate_name() {
            "open" => format!("not ended: {count} so far"),
            "nothing" => "nothing sent".into(),
            _ => format!("half sent ({count})"),
        }
    }
}

/// As `no. 8 to 11`, or each where others are between.
fn numbers(all: [u64; 4]) -> String {
    match all {
        [a, _, _, d] if d.wrapping_sub(a) == 3 => format!("no. {a} to {d}"),
        [a, b, c, d] => format!("no. {a}, {b}, {c}, {d}"),
    }
}

fn written(target: Target, byte: u8, before: u8) -> String {
    match target {
        Target::Protect if byte & 0x80 != 0 => "written: protect is set".into(),
        Target::Protect => "written: protect is clear".into(),
        Target::Test if byte & 0xC0 != 0 => {
            format!("written (was ${before:02X}): the seconds stop")
        }
        _ if byte == before => "written (the same as before)".into(),
        _ => format!("written (was ${before:02X})"),
    }
}

fn read(sent: u8, falls: u8, seen: SeenBits) -> String {
    match (seen.byte(), seen.count()) {
        (Some(byte), _) if byte == sent => "read".into(),
        (Some(_), _) => format!("read, but the chip sent ${sent:02X}"),
        (None, 0) => {
            format!("not looked at in this list: of ${sent:02X} the chip put out {falls} of 8 bits")
        }
        (None, count) => format!("{count} of 8 bits read; the chip sent ${sent:02X}"),
    }
}

/// As `$41 write cell 0: written (was $00)`.
impl fmt::Display for Transaction {
    fn fmt(&self, f: &mut fmt::Formatter<'_>) -> fmt::Result {
        f.write_str(&format!("{}: {}", self.asked, self.fate_words()))
    }
}

impl Asked {
    /// The command, where the chip has it.
    pub fn command(self) -> Option<Command> {
        match self {
            Asked::Command { command, .. } => command,
            _ => None,
        }
    }
}
