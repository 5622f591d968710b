//! Broken input into every reader of the library: nothing panics, and what is taken is given back.

use std::fmt::{Debug, Display};
use std::str::FromStr;
use swarmtempo::{
    answers, items, pieces, table, vcd, Address, Answer, Chip, Chunks, Command, DiskLine, Drive,
    InLine, Item, List, Machine, Micros, Refusal, Register, Seconds, SenseRegister, Timed, Values,
    ViaTicks, WaitTicks, ANSWER_LEN,
};

/// Random numbers (splitmix64).
struct Random(u64);

impl Random {
    fn next(&mut self) -> u64 {
        self.0 = self.0.wrapping_add(0x9E37_79B9_7F4A_7C15);
        let mut z = self.0;
        z = (z ^ z >> 30).wrapping_mul(0xBF58_476D_1CE4_E5B9);
        z = (z ^ z >> 27).wrapping_mul(0x94D0_49BB_1331_11EB);
        z ^ z >> 31
    }

    fn below(&mut self, limit: usize) -> usize {
        usize::try_from(self.next() % limit as u64).expect("below")
    }

    fn byte(&mut self) -> u8 {
        self.next().to_le_bytes()[0]
    }

    /// Mostly small, and the letters of kinds.
    fn likely_byte(&mut self) -> u8 {
        let letters = b"RDWRVBSEINSNDIRSPWOKNOSTSXMWKC";
        match self.below(4) {
            0 => self.byte(),
            1 => letters[self.below(letters.len())],
            _ => self.byte() % 12,
        }
    }
}

fn some_item(random: &mut Random) -> Timed {
    let address = Address::all().nth(random.below(32)).expect("32 of them");
    let drive = Drive::ALL[random.below(2)];
    let mut level = || random.byte() % 2 == 1;
    let disk = [level(), level(), level()];
    let number = random.byte();
    let item = match random.below(11) {
        0 => Item::Read(address),
        1 => Item::Write(address, number),
        2 => Item::Blank,
        3 => Item::Second,
        4 => Item::In(InLine::new(number % 7).expect("a line"), disk[0]),
        5 => Item::Sense(drive, SenseRegister::new(number % 16).expect("a register"), disk[0]),
        6 => Item::Disk { drive, insert: disk[0], locked: disk[1], double_sided: disk[2] },
        7 => Item::Reset,
        8 => Item::Pulse(disk[0]),
        9 => {
            let values: Vec<u8> = (0..=number % 64).map(|_| random.byte()).collect();
            Item::WriteMany(address, Values::new(&values).expect("1 to 64"))
        }
        _ => Item::Power(Seconds(number.into())),
    };
    Timed { wait: WaitTicks(u16::from_le_bytes([random.byte(), random.byte() % 3])), item }
}

/// Items, random bytes, and lengths that promise much; a byte or two changed, the end cut off.
fn some_list(random: &mut Random) -> Vec<u8> {
    let mut bytes = Vec::new();
    for _ in 0..random.below(8) {
        match random.below(8) {
            0 => bytes.extend((0..random.below(40)).map(|_| random.likely_byte())),
            1 => bytes.extend([random.byte(), random.byte(), b'W', b'R']),
            2 => {
                let length = 2 + random.byte() % 10;
                bytes.extend([length, 0]);
                bytes.extend((0..length).map(|_| random.likely_byte()));
            }
            _ => bytes.extend(some_item(random).to_bytes()),
        }
    }
    if !bytes.is_empty() {
        for _ in 0..random.below(3) {
            let at = random.below(bytes.len());
            bytes[at] = random.likely_byte();
        }
        if random.below(3) == 0 {
            bytes.truncate(random.below(bytes.len()));
        }
    }
    bytes
}

/// As many answers as records tried, each refusal that needs no state where the reader says so.
#[test]
fn lists() {
    let mut random = Random(1);
    let mut taken = 0;
    for _ in 0..20_000 {
        let bytes = some_list(&mut random);
        let chip = Chip::BOTH[random.below(2)];
        let mut machine = Machine::fresh(chip);
        let transcript = machine.run_items(&bytes);
        let mut count = 0;
        for done in &transcript {
            count += 1;
            assert_eq!(Timed::try_from(done.record), done.item);
            match (done.item, done.answer) {
                (Ok(timed), answer) => {
                    taken += 1;
                    assert_eq!(timed.to_bytes(), done.record);
                    assert_eq!(timed.to_string().parse(), Ok(timed));
                    let retired = matches!(timed.item, Item::Sense(_, it, _) if it.is_retired());
                    assert_eq!(answer == Answer::No(Refusal::Retired), retired);
                    let by_state = matches!(answer, Answer::Ok(_) | Answer::No(Refusal::Disk));
                    assert!(by_state || retired, "{timed}: {answer}");
                }
                (Err(refusal), answer) => assert_eq!(answer, Answer::No(refusal)),
            }
        }
        assert_eq!(count * ANSWER_LEN, transcript.run().written);
        assert_eq!(items(&bytes).count(), pieces(&bytes).count());
        let table = transcript.to_string();
        assert_eq!(table.lines().count(), 1 + count);
        let list = List::from(&bytes[..]);
        assert_eq!(list.to_string().parse(), Ok(list), "text and back");
        let mut dump = Vec::new();
        let mut watched = Machine::fresh(chip);
        assert_eq!(vcd::dump(&mut watched, &bytes, &mut dump).expect("memory"), transcript.run());
        assert_eq!(watched, machine);
        assert!(!machine.to_string().is_empty());
        let mut chunks = Chunks::new(&bytes[..]);
        while let Some(chunk) = chunks.next().expect("memory") {
            assert!(!chunk.is_empty());
        }
    }
    assert!(taken > 10_000, "{taken} items taken");
}

#[test]
fn answers_of_any_bytes() {
    let mut random = Random(2);
    let mut taken = 0;
    for _ in 0..200_000 {
        let mut bytes = [6, 0, b'O', b'K', 0, 0, 0, 0];
        if random.below(2) == 0 {
            bytes[2..4].copy_from_slice(b"NO");
        }
        for _ in 0..random.below(5) {
            bytes[random.below(8)] = random.likely_byte();
        }
        if let Ok(answer) = Answer::try_from(bytes) {
            taken += 1;
            assert_eq!(answer.to_bytes(), bytes);
            assert!(!answer.to_string().is_empty());
        }
        let length = random.below(8);
        assert!(Answer::try_from(&bytes[..length]).is_err());
        assert!(answers(&bytes[..length]).next().is_none());
        // A table has a row for any eight bytes.
        let mut row = String::new();
        table::Table::default().row(swarmtempo::Piece::Rest(&bytes[..length]), &bytes, &mut row);
        assert!(row.ends_with('\n'));
    }
    assert!(taken > 10_000, "{taken} answers taken");
}

#[test]
fn images_of_any_bytes() {
    let mut random = Random(3);
    let mut taken = 0;
    for round in 0..100_000 {
        let mut machine = Machine::fresh(Chip::BOTH[random.below(2)]);
        if round % 8 == 0 {
            machine.run(some_list(&mut random), &mut Vec::new());
        }
        let mut image = machine.image().to_vec();
        for _ in 0..=random.below(3) {
            let at = random.below(image.len());
            image[at] = if random.below(2) == 0 { random.byte() } else { random.byte() % 3 };
        }
        match random.below(10) {
            0 => image.truncate(random.below(image.len())),
            1 => image.extend([0; 3]),
            _ => {}
        }
        match Machine::try_from(&image[..]) {
            Ok(machine) => {
                taken += 1;
                assert_eq!(machine.image(), image);
                assert!(machine.to_string().contains("seconds"));
                assert!(machine.state().drives[0].track < 80);
            }
            Err(refusal) => assert_eq!(refusal, Refusal::State),
        }
    }
    assert!(taken > 10_000, "{taken} images taken");
}

/// A text that is taken is written as one that is taken as the same.
fn reads<T: FromStr + Display + PartialEq + Debug>(text: &str) -> usize
where
    T::Err: Debug + Display,
{
    match text.parse::<T>() {
        Ok(value) => {
            let again = value.to_string().parse::<T>();
            assert_eq!(again.as_ref().ok(), Some(&value), "{text}");
            1
        }
        Err(error) => {
            assert!(!error.to_string().is_empty());
            0
        }
    }
}

#[test]
fn texts_of_any_characters() {
    let parts = [
        "0t",
        "12t",
        "65535T",
        "65536t",
        "5s",
        "99us",
        "us",
        "t",
        "$",
        "0x",
        "$FF",
        "0x1f",
        "-1",
        "+3",
        "RD",
        "wr",
        "SE",
        "IN",
        "SN",
        "DI",
        "PW",
        "RAW",
        "VIA.ORB",
        "via.ifr",
        "IWM.Q6+",
        "IWM.",
        "CA0",
        "ifr",
        "internal",
        "external",
        "0",
        "1",
        "7",
        "15",
        "255",
        "256",
        " ",
        "  ",
        "\t",
        "\n",
        "\r\n",
        ";",
        "ä",
        "\u{FEFF}",
        "\u{0}",
        "٣t",
        "99999999999999999999",
        "FF",
    ];
    let mut random = Random(4);
    let mut taken = [0; 13];
    for _ in 0..200_000 {
        let mut text = String::new();
        for _ in 0..random.below(5) {
            text.push_str(parts[random.below(parts.len())]);
            text.push_str([" ", ""][random.below(2)]);
        }
        if random.below(3) == 0 {
            text.insert_str(0, &some_item(&mut random).to_string());
        }
        let text = if random.below(3) == 0 { text.trim() } else { &text };
        let got = [
            reads::<WaitTicks>(text),
            reads::<ViaTicks>(text),
            reads::<Seconds>(text),
            reads::<Micros>(text),
            reads::<Register>(text),
            reads::<DiskLine>(text),
            reads::<Address>(text),
            reads::<Drive>(text),
            reads::<InLine>(text),
            reads::<SenseRegister>(text),
            reads::<Item>(text),
            reads::<Timed>(text),
            reads::<List>(text),
        ];
        for (count, got) in taken.iter_mut().zip(got) {
            *count += got;
        }
    }
    assert!(taken.iter().all(|&count| count > 100), "{taken:?}");
}

#[test]
fn every_command_byte() {
    let legal: Vec<String> = (0..=255).filter_map(Command::of).map(|it| it.to_string()).collect();
    assert_eq!(legal.len(), 50);
    assert!(legal.iter().all(|words| !words.is_empty()));
    let first_of_two: Vec<u8> = (0..=255).filter(|&it| Command::is_first_of_two(it)).collect();
    assert_eq!(first_of_two, (0x38..=0x3F).chain(0xB8..=0xBF).collect::<Vec<u8>>());
    assert!(first_of_two.iter().all(|&byte| Command::of(byte).is_none()), "66 in all");
    let two = (0..=255).flat_map(|first| (0..=255).map(move |second| (first, second)));
    let two: Vec<_> = two.filter_map(|(first, second)| Command::of_two(first, second)).collect();
    assert_eq!(two.len(), 512, "each cell read and written");
    let named = |first, second| Command::of_two(first, second).map(|it| it.to_string());
    assert_eq!(named(0x3F, 0x7C).as_deref(), Some("write cell 255"));
    assert_eq!(named(0xB9, 0x08).as_deref(), Some("read cell 34"));
    assert_eq!((named(0x3F, 0x7D), named(0x41, 0x00)), (None, None));
}
