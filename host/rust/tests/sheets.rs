//! Sheets of settings: the library against the plain model on random sheets, the safe types, the text
//! form.
//!
//! `SWARMTEMPO_SEED` takes another seed (the fixed one is 1), `SWARMTEMPO_SHEETS` another number of pairs.

use swarmtempo::{
    compact, compact_into, settings, sheet_text, sys, Setting, Sheet, SheetRefusal, Sheets,
};
use swarmtempo_model::sheet as model;

const PAIRS: u64 = 20_000;
/// Stands in memory that nothing is written to.
const UNUSED: u8 = 0xE7;

/// Random numbers (splitmix64).
struct Random(u64);

impl Random {
    fn next(&mut self) -> u64 {
        self.0 = self.0.wrapping_add(0x9E37_79B9_7F4A_7C15);
        let mut z = self.0;
        z = (z ^ z >> 30).wrapping_mul(0xBF58_476D_1CE4_E5B9);
        z = (z ^ z >> 27).wrapping_mul(0x94D0_49BB_1331_11EB);
        z ^ z >> 31
    }

    fn below(&mut self, limit: usize) -> usize {
        (self.next() % limit as u64) as usize
    }

    fn one_in(&mut self, n: usize) -> bool {
        self.below(n) == 0
    }

    /// Few numbers, so that records meet: low, high, or alike in one byte.
    fn setting(&mut self) -> u16 {
        [0, 1, 2, 256, 513, 65_535][self.below(6)]
    }

    fn sheet(&mut self) -> Vec<u8> {
        let mut sheet = Vec::new();
        for _ in 0..self.below(9) {
            let bytes: Vec<u8> = match self.below(4) {
                0 => Vec::new(),
                1 => vec![self.next() as u8; 64],
                _ => (0..self.below(6)).map(|_| self.next() as u8).collect(),
            };
            let version = [0, 1, 2, 254, 255][self.below(5)];
            Setting { setting: self.setting(), version, bytes: &bytes }.write(&mut sheet);
        }
        if self.one_in(6) {
            self.damage(&mut sheet);
        }
        sheet
    }

    /// A byte changed, bytes cut off or added; now and then the sheet is sound all the same.
    fn damage(&mut self, sheet: &mut Vec<u8>) {
        match self.below(4) {
            0 => sheet.truncate(self.below(sheet.len() + 1)),
            1 => sheet.push(self.next() as u8),
            2 => sheet.extend_from_slice(&[70, 0, b'S', b'V']),
            _ => {
                if !sheet.is_empty() {
                    let at = self.below(sheet.len());
                    sheet[at] = [0, 1, 4, 5, 69, 70, b'S', b'V', 255][self.below(9)];
                }
            }
        }
        if self.one_in(3) {
            sheet.resize(sheet.len() + self.below(80), 0);
        }
    }
}

fn expected(found: &model::Found) -> sys::Found {
    let (refusal, sheet, part) = match found {
        model::Found::Bench(part) => (0, 1, part.clone()),
        model::Found::House(part) => (0, 2, part.clone()),
        model::Found::NotSet => (0, 0, 0..0),
        model::Found::Broken => (1, 0, 0..0),
    };
    sys::Found { refusal, sheet, start: part.start as u64, size: part.len() as u64 }
}

/// The tool on memory that is all UNUSED: its answer and the memory.
fn tool(sheet: &[u8], room: usize) -> (Result<usize, u8>, Vec<u8>) {
    let mut out = vec![UNUSED; room];
    let written = compact_into(sheet, &mut out).map_err(SheetRefusal::number);
    (written, out)
}

fn number(name: &str, fixed: u64) -> u64 {
    std::env::var(name).map_or(fixed, |text| text.parse().expect("a number"))
}

#[test]
fn library_against_model() {
    let seed = number("SWARMTEMPO_SEED", 1);
    let mut random = Random(seed);
    let (mut set, mut broken, mut shortened) = (0, 0, 0);
    for _ in 0..number("SWARMTEMPO_SHEETS", PAIRS) {
        let (bench, house) = (random.sheet(), random.sheet());
        let setting = random.setting();
        let found = model::lookup(&bench, &house, setting);
        let answer = sys::sheet_get(&bench, &house, setting);
        assert_eq!(answer, expected(&found), "{bench:?} {house:?} {setting}");
        set += u64::from(matches!(found, model::Found::Bench(_) | model::Found::House(_)));
        broken += u64::from(found == model::Found::Broken);

        let room = random.below(bench.len() + 20);
        let mut memory = vec![UNUSED; room];
        let answer = model::compact(&bench, room);
        if let Ok(bytes) = &answer {
            memory[..bytes.len()].copy_from_slice(bytes);
            shortened += u64::from(bytes.len() < bench.len());
        }
        assert_eq!(tool(&bench, room), (answer.map(|b| b.len()), memory), "{bench:?} {room}");

        // Every answer's bytes stay the same, with one sheet compacted and with both.
        if let (Ok(bench1), Ok(house1)) = (compact(&bench), compact(&house)) {
            let old = Sheets::new(&bench, &house).expect("sound");
            for (b, h) in [(&bench1, &house), (&bench, &house1), (&bench1, &house1)] {
                assert_eq!(Sheets::new(b, h).expect("sound").get(setting), old.get(setting));
            }
        }
    }
    println!("seed {seed}: {set} set, {broken} broken, {shortened} shortened");
    assert!(set > 0 && broken > 0 && shortened > 0);
}

#[test]
fn the_part_is_not_copied() {
    let bench = sheet_text::assemble("513 2 0A\n3 0\n513 2 0B 0C\n513 1 0D").expect("a sheet");
    let house = sheet_text::assemble("2 9 0E\n513 200 0F").expect("a sheet");
    let sheets = Sheets::new(&bench, &house).expect("sound");
    let (bytes, sheet) = sheets.get(513).expect("set");
    assert_eq!((bytes, sheet), (&[11, 12][..], Sheet::Bench));
    assert!(std::ptr::eq(bytes, &raw const bench[22..24]));
    assert_eq!(sheets.get(2), Some((&[14][..], Sheet::House)));
    assert_eq!(sheets.get(3), Some((&[][..], Sheet::Bench)));
    assert_eq!(sheets.get(258), None);
    assert_eq!(Sheets::new(&bench, &house[..9]).err(), Some(SheetRefusal::Broken));
    assert_eq!(Sheets::new(&[], &[]).expect("empty").get(0), None);
}

#[test]
fn text_both_ways() {
    let mut random = Random(5);
    for _ in 0..2_000 {
        let sheet = random.sheet();
        let Ok(text) = sheet_text::disassemble(&sheet) else {
            assert_eq!(model::lookup(&sheet, &[], 0), model::Found::Broken);
            continue;
        };
        assert_eq!(sheet_text::assemble(&text).expect("its own text"), sheet);
    }
    let sheet = sheet_text::assemble("$201 2 \"a;b\" 00 ; remark\n\n7 0\n").expect("a sheet");
    assert_eq!(settings(&sheet).expect("sound")[0].bytes, b"a;b\0");
    assert_eq!(sheet_text::disassemble(&sheet).expect("sound"), "513 2 61 3B 62 00\n7 0\n");
    for (text, line, column) in [
        ("1 1\n65536 0", 2, 1),
        ("1 256", 1, 3),
        ("1", 1, 2),
        ("1 1 5", 1, 5),
        ("1 1 \"x", 1, 7),
        ("1 1 \"\u{e9}\"", 1, 6),
        ("1 1 +5", 1, 5),
    ] {
        let error = sheet_text::assemble(text).expect_err(text);
        assert_eq!((error.line, error.column), (line, column), "{text}: {error}");
    }
    let long = format!("1 1 \"{}\"", "x".repeat(65));
    assert!(sheet_text::assemble(&long).is_err());
    assert_eq!(sheet_text::assemble(&long.replacen('x', "", 1)).expect("64").len(), 71);
}
