//! A writer of clock transactions. The command bytes are looked for among all bytes, by what they mean.

use crate::clock::{decode_command, decode_extended, Chip, Command, Target};
use crate::{refusal, Machine};

/// The clock's enable line is down.
pub const ENABLE_DOWN: u8 = 10;

/// A list on its way, and the bits 3 to 7 of port B's outputs and directions.
struct Writer {
    list: Vec<u8>,
    outputs: u8,
    directions: u8,
}

impl Writer {
    /// An item of no wait at a VIA register's address.
    fn item(&mut self, kind: [u8; 2], register: u32, value: Option<u8>) {
        let address = crate::VIA_BASE + crate::STRIDE * register;
        self.list.extend([if value.is_some() { 9 } else { 8 }, 0, kind[0], kind[1], 0, 0]);
        self.list.extend(address.to_le_bytes());
        self.list.extend(value);
    }

    /// The levels of the three lines, where they are outputs.
    fn lines(&mut self, enable: bool, data_clock: bool, data: bool) {
        let low = u8::from(enable) << 2 | u8::from(data_clock) << 1 | u8::from(data);
        self.item(*b"WR", 0, Some(self.outputs | low));
    }

    /// Enable and data-clock are outputs; data is one while bytes are sent.
    fn sides(&mut self, data: bool) {
        self.item(*b"WR", 2, Some(self.directions | 6 | u8::from(data)));
    }

    /// The high bit first; the chip takes each as data-clock rises.
    fn send(&mut self, byte: u8) {
        for i in (0..8).rev() {
            let data = byte >> i & 1 == 1;
            self.lines(false, false, data);
            self.lines(false, true, data);
        }
    }

    /// The chip shows a bit as data-clock falls.
    fn take(&mut self) {
        for _ in 0..8 {
            self.lines(false, false, false);
            self.item(*b"RD", 0, None);
            self.lines(false, true, false);
        }
    }
}

/// What is asked for: the target, and whether it is read.
fn asked(ask: u8, number: u32) -> Option<(Target, bool)> {
    let place = u8::try_from(number).ok();
    match ask {
        1 | 2 => Some((Target::Cell(place?), ask == 2)),
        3 | 4 => Some((Target::Seconds(place?), ask == 4)),
        5 => Some((Target::Protect, false)),
        _ => None,
    }
}

/// The bytes of a command: one where that is enough. None where the chip has no such thing.
fn command(chip: Chip, target: Target, read: bool) -> Option<Vec<u8>> {
    let wanted = Some(if read { Command::Read(target) } else { Command::Write(target) });
    let mut all = 0..=255;
    if let Some(byte) = all.find(|&byte| decode_command(chip, byte) == wanted) {
        return Some(vec![byte]);
    }
    let pairs = (0..=255).flat_map(|first| (0..=255).map(move |second| (first, second)));
    let mut pairs = pairs.filter(|&(first, second)| decode_extended(chip, first, second) == wanted);
    pairs.next().map(|(first, second)| vec![first, second])
}

/// The bytes of a transaction for the state of an image, in so much room.
///
/// # Errors
/// The refusal: 7, 5, 10 or 6, in this order.
pub fn transaction(
    image: &[u8],
    ask: u8,
    number: u32,
    value: u8,
    room: usize,
) -> Result<Vec<u8>, u8> {
    let machine = Machine::from_image(image).ok_or(refusal::STATE)?;
    let (target, read) = asked(ask, number).ok_or(refusal::RANGE)?;
    let command = command(machine.clock.store.chip, target, read).ok_or(refusal::RANGE)?;
    if !machine.wires().enable {
        return Err(ENABLE_DOWN);
    }
    let (outputs, directions) = (machine.via.out_b & 0xF8, machine.via.dir_b & 0xF8);
    let mut writer = Writer { list: Vec::new(), outputs, directions };
    // Enable stays up while the lines become outputs.
    writer.lines(true, false, false);
    writer.sides(true);
    writer.lines(false, false, false);
    for byte in command {
        writer.send(byte);
    }
    if read {
        writer.sides(false);
        writer.take();
    } else {
        writer.send(value);
    }
    writer.lines(true, true, false);
    if room < writer.list.len() {
        return Err(refusal::ROOM);
    }
    Ok(writer.list)
}
