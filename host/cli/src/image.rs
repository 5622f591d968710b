//! Images read, and what is wrong with one that is refused. The layout is that of docs/FORMATS.md.

use super::contents::{looks, Looks};
use super::failure::{failure, Failure};
use super::place::Input;
use std::io::Read;
use swarmtempo::{Chip, Command, DiskLine, Machine};

/// Older layouts: the chip of their kind, their length in bytes, and what they are without.
const OLDER: [(Chip, usize, &str); 4] = [
    (Chip::First, 98, "without the drives, the strobe, IN lines 5 and 6 and the pulse count"),
    (Chip::First, 121, "without IN lines 5 and 6 and the pulse count"),
    (Chip::First, 123, "without the pulse count"),
    (Chip::Later, 360, "without the pulse count"),
];
/// VIA ticks of a step, and of a strobe where it stops growing.
const STEP_TICKS: u32 = 9_401;
const STROBE_TICKS: u32 = 391_680;

/// The machine of an image.
pub fn read(input: &Input, file: Box<dyn Read>) -> Result<Machine, Failure> {
    let mut image = Vec::new();
    let most = Machine::image_len(Chip::Later) as u64 + 1;
    file.take(most).read_to_end(&mut image).map_err(|error| failure(input, error))?;
    Machine::from_image(&image).map_err(|refusal| {
        let why = format!("{} (refusal {})", wrong(&image), refusal.number());
        Failure::State(input.to_string(), why)
    })
}

/// The older layout that these bytes have.
pub fn older(image: &[u8]) -> Option<&'static (Chip, usize, &'static str)> {
    let kind = Chip::of_image(image);
    let head = image.first_chunk::<2>().map(|&head| usize::from(u16::from_le_bytes(head)));
    OLDER
        .iter()
        .find(|(chip, old, _)| kind == Some(*chip) && image.len() == *old && head == Some(old - 2))
}

/// Why an image is refused.
fn wrong(image: &[u8]) -> String {
    let length = Chip::First.image_len();
    let kind = Chip::of_image(image);
    if let Some((chip, old, without)) = older(image) {
        let length = chip.image_len();
        format!(
            "it is an image of an older layout, {old} bytes, {without}; it has to be {length} bytes. An \
             older version of the program saved it, and there is no conversion: run the capture again \
             from the start"
        )
    } else if looks(image) == Looks::Text {
        "it is a text".to_string()
    } else if let Some(chip) = kind.filter(|chip| chip.image_len() != image.len()) {
        format!(
            "it has {}, an image of its kind, with {chip}, has {}",
            bytes(image),
            chip.image_len()
        )
    } else if of_length(image).is_none() {
        format!("it has {}, an image has {length} or {}", bytes(image), Chip::Later.image_len())
    } else {
        first_wrong(image).unwrap_or_else(|| "a field is out of its range".to_string())
    }
}

/// The bytes read, of which one more than the longest image has says that there may be many.
fn bytes(image: &[u8]) -> String {
    let most = Chip::Later.image_len();
    if image.len() > most {
        format!("more than {most} bytes")
    } else {
        format!("{} bytes", image.len())
    }
}

/// The chip whose images have this length.
fn of_length(image: &[u8]) -> Option<Chip> {
    Chip::BOTH.into_iter().find(|chip| chip.image_len() == image.len())
}

/// The first field of an image that is out of its range: its name, offset and value, and what is
/// accepted there. None where all are in range. The image has the length of a kind.
pub fn first_wrong(image: &[u8]) -> Option<String> {
    let chip = of_length(image)?;
    let mut fields = Fields { image, chip, offset: 0, wrong: None };
    fields.head();
    let enable = fields.via();
    let (phase, command) = fields.clock(enable);
    let strobing = fields.levels();
    for drive in ["internal", "external"] {
        fields.drive(drive);
    }
    fields.strobe(strobing);
    fields.tail(phase, command);
    fields.wrong
}

/// The fields of an image from its front on, up to the first wrong one.
struct Fields<'a> {
    image: &'a [u8],
    chip: Chip,
    offset: usize,
    wrong: Option<String>,
}

impl Fields<'_> {
    /// A field of so many bytes, and whether its value is accepted.
    fn field(
        &mut self,
        name: &str,
        bytes: usize,
        accepted: &str,
        fits: impl Fn(u32) -> bool,
    ) -> u32 {
        let taken = &self.image[self.offset..self.offset + bytes];
        let value = taken.iter().rev().fold(0, |value, &byte| value << 8 | u32::from(byte));
        if self.wrong.is_none() && !fits(value) {
            let digits = 2 * bytes;
            self.wrong = Some(format!(
                "{name}, at offset {}, is {value} (${value:0digits$X}); accepted is {accepted}",
                self.offset
            ));
        }
        self.offset += bytes;
        value
    }

    fn flag(&mut self, name: &str) -> bool {
        self.field(name, 1, "0 or 1", |value| value <= 1) != 0
    }

    /// A flag that may be 1 only under a condition.
    fn flag_if(&mut self, name: &str, allowed: bool, condition: &str) {
        let accepted = format!("0 or 1, and 1 only {condition}");
        self.field(name, 1, &accepted, |value| value == 0 || value == 1 && allowed);
    }

    fn any(&mut self, bytes: usize) {
        self.offset += bytes;
    }

    fn head(&mut self) {
        let rest = u32::try_from(self.image.len() - 2).unwrap_or(u32::MAX);
        self.field("the length of what follows", 2, &rest.to_string(), |value| value == rest);
        let kind = u32::from(u16::from_le_bytes(self.chip.kind()));
        let named = if self.chip == Chip::Later { "SX (83, 88)" } else { "ST (83, 84)" };
        self.field("the kind", 2, named, |value| value == kind);
    }

    /// Gives the level of the clock's enable: bit 2 of port B, 1 where it is not driven.
    fn via(&mut self) -> bool {
        let (out, directions) = (self.image[self.offset], self.image[self.offset + 2]);
        self.any(8);
        self.flag("T1 armed");
        self.flag("T1's load due");
        self.any(3);
        self.flag("T2 armed");
        self.any(3);
        self.field("the VIA's flags", 1, "0 to 127", |value| value < 128);
        self.field("the VIA's enables", 1, "0 to 127", |value| value < 128);
        self.field("the pulse count of the shift register", 1, "0 to 7", |value| value < 8);
        out & 4 != 0 || directions & 4 == 0
    }

    /// Gives the phase and the command.
    fn clock(&mut self, enable: bool) -> (u32, u32) {
        let phase = if enable {
            self.field("the clock's phase", 1, "0 while enable is 1", |value| value == 0)
        } else {
            let most = if self.chip == Chip::Later { 5 } else { 4 };
            let accepted = format!("1 to {most} while enable is 0");
            self.field("the clock's phase", 1, &accepted, |value| (1..=most).contains(&value))
        };
        let command = self.command(phase);
        let bits = match phase {
            1 | 2 | 5 => self.field("the clock's bits taken", 1, "0 to 7", |value| value <= 7),
            3 => self.field("the clock's falls seen", 1, "0 to 8", |value| value <= 8),
            _ => self.zero("the clock's bits taken", phase),
        };
        match phase {
            1 | 2 | 5 => {
                let most = (1u32 << bits.min(7)) - 1;
                let accepted = format!("0 to {most} with {bits} bits taken");
                self.field("the value of the clock's bits", 1, &accepted, |value| value <= most);
            }
            3 => self.any(1),
            _ => {
                self.zero("the value of the clock's bits", phase);
            }
        }
        self.flag("protect");
        self.any(25);
        (phase, command)
    }

    /// The first command byte.
    fn command(&mut self, phase: u32) -> u32 {
        let name = "the clock's command";
        let writes = |value: u32| {
            let command = u8::try_from(value).ok().and_then(Command::of);
            command.is_some_and(|command| !command.read)
        };
        let of_two = |value: u32| u8::try_from(value).is_ok_and(Command::is_first_of_two);
        match (phase, self.chip) {
            (2, Chip::First) => self.field(name, 1, "a legal write command", writes),
            (2, Chip::Later) => {
                let accepted = "a legal write command, or the first byte of a command of two";
                self.field(name, 1, accepted, |value| writes(value) || of_two(value))
            }
            (5, Chip::Later) => {
                let accepted = "the first byte of a write command of two, $38 to $3F";
                self.field(name, 1, accepted, |value| of_two(value) && value < 128)
            }
            _ => self.zero(name, phase),
        }
    }

    /// What an image of kind SX has at its end.
    fn tail(&mut self, phase: u32, command: u32) {
        if self.chip == Chip::First {
            return;
        }
        self.any(Chip::Later.cells() - Chip::First.cells());
        let name = "the clock's second command byte";
        if phase == 5 {
            let first = u8::try_from(command).unwrap_or(0);
            let legal = |value: u32| {
                u8::try_from(value).is_ok_and(|byte| Command::of_two(first, byte).is_some())
            };
            self.field(name, 1, "a byte whose bits 7, 1 and 0 are 0", legal);
        } else {
            self.zero(name, phase);
        }
    }

    fn zero(&mut self, name: &str, phase: u32) -> u32 {
        self.field(name, 1, &format!("0 in phase {phase}"), |value| value == 0)
    }

    /// Gives whether LSTRB and ENABLE are on.
    fn levels(&mut self) -> bool {
        let on = DiskLine::ALL.map(|line| self.flag(&format!("disk line {}", line.name())));
        for line in 0..7 {
            self.flag(&format!("IN line {line}"));
        }
        for drive in ["internal", "external"] {
            for register in 0..16 {
                self.flag(&format!("sense register {register} of the {drive} drive"));
            }
        }
        on[DiskLine::LSTRB.index()] && on[DiskLine::ENABLE.index()]
    }

    fn drive(&mut self, drive: &str) {
        let of = |what: &str| format!("{what} of the {drive} drive");
        self.field(&of("the track"), 1, "0 to 79", |value| value <= 79);
        self.flag(&of("the direction"));
        let disk = self.flag(&of("the disk"));
        self.flag_if(&of("the disk's lock"), disk, "with a disk");
        self.flag(&of("the double-sided flag"));
        self.flag_if(&of("the motor"), disk, "with a disk");
        let accepted = format!("0 to {STEP_TICKS} VIA ticks");
        let left =
            self.field(&of("the time left of the step"), 2, &accepted, |value| value <= STEP_TICKS);
        self.flag_if(&of("the direction of the step"), left > 0, "while a step is pending");
    }

    fn strobe(&mut self, strobing: bool) {
        let steady = self.image[self.offset + 4] != 0;
        let most = if steady { STROBE_TICKS } else { 0 };
        let accepted = format!("0 to {STROBE_TICKS} VIA ticks, and 0 unless it is steady");
        self.field("the time of the strobe", 4, &accepted, |value| value <= most);
        self.flag_if("the strobe's steadiness", strobing, "while LSTRB and ENABLE are on");
    }
}

#[cfg(test)]
mod tests {
    use super::*;

    /// Every byte of several images, with values at every end of a range and, in the clock's phase,
    /// with all values: refused exactly where a field is named.
    #[test]
    fn a_field_is_named_exactly_where_an_image_is_refused() {
        let texts = [
            "",
            "0t WR VIA.ORB $04\n0t WR VIA.DDRB $07\n0t WR VIA.ORB $00\n1t WR VIA.ORB 2",
            include_str!("../../captures/cell.txt"),
            include_str!("../../captures/far.txt"),
            include_str!("../../captures/seek.txt"),
            include_str!("../../captures/many.txt"),
        ];
        for (text, chip) in texts.iter().flat_map(|text| Chip::BOTH.map(|chip| (text, chip))) {
            let lines: Vec<&str> = text.lines().collect();
            for part in (1..=6).map(|sixth| sixth * lines.len() / 6) {
                let list = swarmtempo::text::assemble(&lines[..part].join("\n")).expect("text");
                let mut machine = Machine::fresh(chip);
                assert!(machine.run(&list, &mut Vec::new()).at_end());
                every_byte(machine.image());
            }
        }
    }

    fn every_byte(image: &[u8]) {
        assert_eq!(first_wrong(image), None);
        let ends = [0, 1, 2, 7, 8, 9, 36, 37, 79, 80, 83, 84, 121, 127, 128, 185, 186, 255];
        for offset in 0..image.len() {
            let in_phase = (24..28).contains(&offset) || offset == 360;
            for value in (0..=255).filter(|value| in_phase || ends.contains(value)) {
                let mut changed = image.to_vec();
                changed[offset] = value;
                let wrong = first_wrong(&changed);
                let accepted = Machine::from_image(&changed).is_ok();
                assert_eq!(wrong.is_none(), accepted, "offset {offset}, {value}: {wrong:?}");
            }
        }
    }

    #[test]
    fn a_wrong_field_has_name_offset_and_value() {
        let image = Machine::fresh(Chip::First).image().to_vec();
        for (offset, value, words) in [
            (0, 121, "the length of what follows, at offset 0, is 121 ($0079); accepted is 122"),
            (3, 88, "the kind, at offset 2, is 22611 ($5853); accepted is ST (83, 84)"),
            (12, 2, "T1 armed, at offset 12, is 2 ($02); accepted is 0 or 1"),
            (23, 8, "the pulse count of the shift register, at offset 23, is 8 ($08); accepted is 0 to 7"),
            (24, 1, "the clock's phase, at offset 24, is 1 ($01); accepted is 0 while enable is 1"),
            (101, 80, "the track of the internal drive, at offset 101, is 80 ($50)"),
            (113, 1, "the disk's lock of the external drive, at offset 113, is 1 ($01)"),
            (119, 1, "the time of the strobe, at offset 119, is 1 ($00000001)"),
            (123, 1, "the strobe's steadiness, at offset 123, is 1 ($01)"),
        ] {
            let mut changed = image.clone();
            changed[offset] = value;
            let wrong = first_wrong(&changed).expect("refused");
            assert!(wrong.starts_with(words), "{wrong}");
        }
        let mut later = Machine::fresh(Chip::Later).image().to_vec();
        later[360] = 4;
        let words = "the clock's second command byte, at offset 360, is 4 ($04); accepted is 0 in";
        assert!(first_wrong(&later).expect("refused").starts_with(words));
    }

    #[test]
    fn older_layouts_are_named() {
        for (chip, old, without) in OLDER {
            let mut image = vec![0; old];
            image[..2].copy_from_slice(&u16::try_from(old - 2).expect("short").to_le_bytes());
            image[2..4].copy_from_slice(&chip.kind());
            let (length, cells) = (chip.image_len(), chip.cells());
            let said = format!(
                "it is an image of an older layout, {old} bytes, {without}; it has to be {length} bytes. An \
                 older version of the program saved it, and there is no conversion: run the capture again \
                 from the start"
            );
            assert_eq!(wrong(&image), said);
            image[0] ^= 1;
            let said = format!(
                "it has {old} bytes, an image of its kind, with {cells} cells, has {length}"
            );
            assert_eq!(wrong(&image), said);
        }
    }

    #[test]
    fn lengths_of_both_kinds_are_named() {
        let [first, later] = Chip::BOTH.map(|chip| Machine::fresh(chip).image().to_vec());
        let as_later = [&first[..3], b"X", &first[4..]].concat();
        for (image, said) in [
            (&later[..360], "it has 360 bytes, an image of its kind, with 256 cells, has 361"),
            (&as_later[..], "it has 124 bytes, an image of its kind, with 256 cells, has 361"),
            (&[0; 362], "it has more than 361 bytes, an image has 124 or 361"),
            (&[0, 1, 2], "it has 3 bytes, an image has 124 or 361"),
            (&[0; 361], "the length of what follows, at offset 0, is 0 ($0000); accepted is 359"),
        ] {
            assert_eq!(wrong(image), said);
        }
    }
}
