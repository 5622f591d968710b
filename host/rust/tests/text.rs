//! The text form: there and back, and its errors.

use std::io::Read;
use swarmtempo::text::{assemble, assemble_all, assemble_line, disassemble};
use swarmtempo::{pieces, Address, Chunks, Micros, Piece, WaitTicks};

struct Random(u64);

impl Random {
    fn next(&mut self) -> u64 {
        self.0 = self.0.wrapping_add(0x9E37_79B9_7F4A_7C15);
        let mut z = self.0;
        z = (z ^ z >> 30).wrapping_mul(0xBF58_476D_1CE4_E5B9);
        z = (z ^ z >> 27).wrapping_mul(0x94D0_49BB_1331_11EB);
        z ^ z >> 31
    }

    fn below(&mut self, limit: u64) -> u64 {
        self.next() % limit
    }

    fn pick<'a>(&mut self, from: &[&'a [u8]]) -> &'a [u8] {
        from[self.below(from.len() as u64) as usize]
    }
}

/// Records of right and wrong kinds, lengths and values, and now and then a broken rest.
fn some_list(random: &mut Random) -> Vec<u8> {
    let kinds: [&[u8]; 14] = [
        b"RD", b"WR", b"MW", b"VB", b"SE", b"IN", b"SN", b"DI", b"KC", b"RS", b"PW", b"ST", b"XX",
        b"rd",
    ];
    let mut list = Vec::new();
    for _ in 0..random.below(12) {
        let mut record = random.pick(&kinds).to_vec();
        let right = match &record[..] {
            b"RD" | b"PW" | b"DI" => 8,
            b"WR" => 9,
            b"MW" => 9 + random.below(67),
            b"KC" => 5,
            b"IN" => 6,
            b"SN" => 7,
            _ => 4,
        };
        let length = if random.below(8) == 0 { 2 + random.below(90) } else { right };
        while record.len() < length as usize {
            let small = random.below(3) > 0;
            record.push((random.next() % if small { 3 } else { 256 }) as u8);
        }
        if length >= 8 && record[..2] != *b"DI" && random.below(5) > 0 {
            let any = Address::all().nth(random.below(32) as usize).expect("32 of them");
            record[4..8].copy_from_slice(&any.number().to_le_bytes());
        }
        if length >= 9 && record[..2] == *b"MW" && random.below(5) > 0 {
            record[8] = (length - 9) as u8;
        }
        list.extend_from_slice(&(length as u16).to_le_bytes());
        list.extend_from_slice(&record);
    }
    match random.below(4) {
        0 => (0..random.below(70)).for_each(|_| list.push(random.next() as u8)),
        1 => list.truncate(random.below(list.len() as u64 + 1) as usize),
        _ => {}
    }
    list
}

#[test]
fn text_and_back() {
    let mut random = Random(1);
    for _ in 0..20_000 {
        let list = some_list(&mut random);
        let text = disassemble(&list);
        assert_eq!(assemble(&text).as_ref(), Ok(&list), "{text}");
    }
}

#[test]
fn every_address_has_a_name() {
    for address in Address::all() {
        let number = assemble(&format!("0t RD ${:X}", address.number()));
        let name = assemble(&format!("0t rd {}", address.name().to_lowercase()));
        assert_eq!(number, name);
        assert!(number.is_ok());
        assert_eq!(Address::from_number(address.number()), Some(address));
        for near in [1, 2, 256, 512 * 16, 0x0100_0000] {
            let moved = Address::from_number(address.number() + near);
            assert!(moved.is_none_or(|other| other != address));
        }
    }
    assert_eq!(Address::from_number(0xEF_E1FF), None);
    assert_eq!(Address::from_number(0xEF_E1FE + 512 * 16), None);
}

#[test]
fn forms_of_the_manual() {
    let text = "; a comment\n\n12t WR $EFE1FE $41 ; more\r\n3t mw VIA.DDRB 7 $F9 0xFB ; three\n0t KC 1\n0t SE\n0t PW 5s\n  0t\tIN 3 1\n0t SN internal 1 0\n$FFFFt RD VIA.ORB\nRAW 01 ff";
    let bytes = assemble(text).expect("in the form");
    let expected: [&[u8]; 9] = [
        &[9, 0, b'W', b'R', 12, 0, 0xFE, 0xE1, 0xEF, 0, 0x41],
        &[12, 0, b'M', b'W', 3, 0, 0xFE, 0xE5, 0xEF, 0, 3, 7, 0xF9, 0xFB],
        &[5, 0, b'K', b'C', 0, 0, 1],
        &[4, 0, b'S', b'E', 0, 0],
        &[8, 0, b'P', b'W', 0, 0, 5, 0, 0, 0],
        &[6, 0, b'I', b'N', 0, 0, 3, 1],
        &[7, 0, b'S', b'N', 0, 0, 0, 1, 0],
        &[8, 0, b'R', b'D', 0xFF, 0xFF, 0xFE, 0xE1, 0xEF, 0],
        &[1, 0xFF],
    ];
    assert_eq!(bytes, expected.concat());
}

#[test]
fn errors_have_line_and_column() {
    for (text, line, column, part) in [
        ("5 SE", 1, 1, "needs its unit: 5t (VIA ticks) or 5us (microseconds)"),
        ("0x5 SE", 1, 1, "needs its unit: 0x5t"),
        ("5 us SE", 1, 1, "needs its unit"),
        ("12ms SE", 1, 1, "as 12000us, not `12ms`"),
        ("us SE", 1, 1, "as 12000us, not `us`"),
        ("83659us SE", 1, 1, "0us to 83658us (microseconds; 65535 VIA ticks)"),
        ("4294967296us SE", 1, 1, "0us to 83658us"),
        ("99999999999999999999999us SE", 1, 1, "0us to 83658us"),
        ("0t PW 5us", 1, 7, "a number of seconds, as 5s"),
        ("0t WR VIA.ORB 0x100", 1, 15, "0 to 255"),
        ("0t WR VIA.ORB 0x", 1, 15, "as 65, $41 or 0x41"),
        ("0t WR VIA.ORB 41h", 1, 15, "as 65, $41 or 0x41"),
        ("\u{FEFF}5 SE", 1, 1, "needs its unit"),
        ("0t SE\n\u{FEFF}0t SE", 2, 1, "VIA ticks"),
        ("0t SE\n0t PW 5", 2, 7, "needs its unit: 5s"),
        ("0t PW 5t", 1, 7, "seconds"),
        ("5s SE", 1, 1, "VIA ticks"),
        ("65536t SE", 1, 1, "0t to 65535t"),
        ("99999999999999999999999t SE", 1, 1, "0t to 65535t"),
        ("0t PW 4294967296s", 1, 7, "0s to 4294967295s"),
        ("0t WR VIA.ORB 256", 1, 15, "0 to 255"),
        ("0t WR VIA.ORB", 1, 15, "a value is missing"),
        ("0t WR VIA.ORC 1", 1, 7, "no address has the name"),
        ("0t WR $EFE1FF 1", 1, 7, "none of the 32"),
        ("0t WR $1FFFFFFFF 1", 1, 7, "none of the 32"),
        ("0t IN 7 1", 1, 7, "0 to 6"),
        ("0t IN 0 2", 1, 9, "0 to 1"),
        ("0t SN middle 1 0", 1, 7, "internal or external"),
        ("0t SN internal 16 0", 1, 16, "0 to 15"),
        ("0t SE 1", 1, 7, "too much"),
        ("0t DI internal 1 0 2", 1, 20, "0 to 1"),
        ("0t DI internal 1 0", 1, 20, "double-sided 0 or 1 is missing"),
        ("0t MW VIA.ORB", 1, 15, "a value is missing"),
        ("0t MW", 1, 7, "an address is missing"),
        ("0t MW 7 1", 1, 7, "none of the 32"),
        ("0t MW VIA.ORB 1 256", 1, 17, "0 to 255"),
        ("0t MW VIA.ORB 1 x", 1, 17, "as 65, $41 or 0x41"),
        ("0t KC", 1, 7, "a level is missing"),
        ("0t KC 2", 1, 7, "0 to 1"),
        ("0t KC 1 1", 1, 9, "too much"),
        ("0t XX", 1, 4, "unknown kind"),
        ("0t", 1, 4, "a kind"),
        ("RAW 1", 1, 5, "two hexadecimal digits"),
        ("RAW +1", 1, 5, "two hexadecimal digits"),
        ("RAW 00 ä0", 1, 8, "two hexadecimal digits"),
        ("\n\n   ört SE", 3, 4, "VIA ticks"),
        ("-1t SE", 1, 1, "VIA ticks"),
        ("0t WR VIA.ORB +1", 1, 15, "a number"),
    ] {
        let error = assemble(text).expect_err(text);
        assert_eq!((error.line, error.column), (line, column), "{text}: {error}");
        assert!(error.message.contains(part), "{text}: {error}");
    }
}

/// One to 64 values.
#[test]
fn many_values() {
    for count in 1..=66 {
        let text = format!("0t MW IWM.CA0+{}", " 1".repeat(count));
        match assemble(&text) {
            Ok(bytes) => {
                assert_eq!(
                    (bytes.len(), bytes[0], bytes[10]),
                    (11 + count, 9 + count as u8, count as u8)
                );
                assert_eq!(
                    disassemble(&bytes),
                    format!("0t MW IWM.CA0+{}\n", " $01".repeat(count))
                );
            }
            Err(error) => {
                assert_eq!((error.line, error.column), (1, 16 + 2 * 64), "{count}");
                assert!(error.message.contains("64 values at most"), "{error}");
            }
        }
        assert_eq!(assemble(&text).is_ok(), count <= 64);
    }
    // Records that are none stay as they are.
    let odd = [10, 0, b'M', b'W', 0, 0, 0xFE, 0xE1, 0xEF, 0, 2, 7];
    let text = disassemble(&odd);
    assert!(text.starts_with("RAW 0A 00 4D 57") && text.contains("NO 3"), "{text}");
    assert_eq!(assemble(&text).as_deref(), Ok(&odd[..]));
}

/// Waits in microseconds become VIA ticks by the library, rounded up, and are given back as such.
#[test]
fn microseconds() {
    for (text, ticks) in [
        ("0us", 0),
        ("1us", 1),
        ("2US", 2),
        ("12000us", 9_401),
        ("$2EE0us", 9_401),
        ("83658us", 65_535),
    ] {
        let mut bytes = Vec::new();
        let converted = assemble_line(&format!("{text} SE"), &mut bytes).expect("in the form");
        let converted = converted.expect("turned into VIA ticks");
        assert_eq!(converted.wait, WaitTicks(ticks), "{text}");
        assert_eq!(converted.micros.ticks().wait(), Some(converted.wait));
        assert_eq!(Ok(bytes), assemble(&format!("{ticks}t SE")));
    }
    assert_eq!(assemble_line("12t SE", &mut Vec::new()), Ok(None));
    // The longest wait, by the library.
    assert_eq!(Micros(83_658).ticks().wait(), Some(WaitTicks(65_535)));
    assert_eq!(Micros(83_659).ticks().wait(), None);
}

#[test]
fn hexadecimal_in_two_ways() {
    let dollar = assemble("$41t WR $EFE1FE $41\n0t IN $3 $1").expect("in the form");
    for mark in ["0x", "0X"] {
        let text = format!("{mark}41t WR {mark}EFE1FE {mark}41\n0t IN {mark}3 {mark}1");
        assert_eq!(assemble(&text).as_ref(), Ok(&dollar));
    }
    assert_eq!(assemble("\u{FEFF}$41t WR VIA.ORB 65\n0t IN 3 1"), Ok(dollar));
}

/// Lines end in LF, CR LF, or CR alone: a comment does not swallow the lines after it.
#[test]
fn ends_of_lines() {
    let expected = assemble("; a list\n0t SE\n\n12t VB").expect("in the form");
    for end in ["\n", "\r\n", "\r"] {
        let text = ["; a list", "0t SE", "", "12t VB", ""].join(end);
        assert_eq!(assemble(&text).as_ref(), Ok(&expected), "{end:?}");
        let wrong = ["; a list", "0t SE", "", "12 VB"].join(end);
        assert_eq!(assemble(&wrong).expect_err("no unit").line, 4, "{end:?}");
    }
}

#[test]
fn all_errors_at_once() {
    let text = "0t SE\n5 SE\n0t XX\n; nothing\n0t PW 5\n";
    let errors = assemble_all(text).expect_err("three lines are wrong");
    let places: Vec<_> = errors.iter().map(|error| (error.line, error.column)).collect();
    assert_eq!(places, [(2, 1), (3, 4), (5, 7)]);
    assert_eq!(assemble(text).as_ref(), Err(&errors[0]));
    assert_eq!(errors[0].to_string(), format!("line 2, column 1: {}", errors[0].message));
    assert_eq!(assemble_all("0t SE"), Ok(vec![4, 0, b'S', b'E', 0, 0]));
}

/// A long or odd word does not fill the message, nor move a terminal's cursor.
#[test]
fn words_in_messages() {
    let long = format!("0t WR VIA.ORB {}", "x".repeat(100_000));
    let error = assemble(&long).expect_err("no number");
    assert!(error.message.len() < 120 && error.message.contains("xxx..`"), "{error}");
    let error = assemble("0t \x1b[2J").expect_err("no kind");
    assert!(error.message.contains("`\\u{1b}[2J`"), "{error}");
}

/// Gives a few bytes at a time.
struct Drip<'a>(&'a [u8], usize);

impl Read for Drip<'_> {
    fn read(&mut self, buffer: &mut [u8]) -> std::io::Result<usize> {
        let count = self.1.min(self.0.len()).min(buffer.len());
        buffer[..count].copy_from_slice(&self.0[..count]);
        self.0 = &self.0[count..];
        Ok(count)
    }
}

#[test]
fn chunks_end_between_records() {
    let mut random = Random(2);
    for round in 0..40 {
        let mut list = Vec::new();
        while list.len() < 700_000 {
            let big = if random.below(30) == 0 { random.below(65_536) } else { random.below(40) };
            let length = big.max(2) as u16;
            list.extend_from_slice(&length.to_le_bytes());
            list.extend((0..length).map(|i| i as u8));
        }
        match round % 4 {
            0 => list.truncate(list.len() - 1),
            1 => {
                let at = pieces(&list).take(500).map(|piece| match piece {
                    Piece::Record(bytes) | Piece::Rest(bytes) => bytes.len(),
                });
                let at: usize = at.sum();
                list.splice(at..at, [1, 0]);
            }
            _ => {}
        }
        let mut chunks = Chunks::new(Drip(&list, 1 + random.below(9000) as usize));
        let mut joined = Vec::new();
        let mut broken = false;
        while let Some(chunk) = chunks.next().expect("no error") {
            assert!(!chunk.is_empty());
            joined.extend_from_slice(chunk);
            let rest = pieces(chunk).any(|piece| matches!(piece, Piece::Rest(_)));
            assert!(!rest || broken || joined.len() == list.len() || round % 4 == 1);
            broken |= rest;
        }
        assert_eq!(joined, list);
        assert_eq!(chunks.broken(), round % 4 == 1);
    }
}
