//! The types of the crate: written and read, turned into each other, gone through; and the same
//! numbers and words as the C header's.

use std::collections::BTreeSet;
use std::error::Error;
use std::fmt::{Debug, Display};
use std::str::FromStr;
use swarmtempo::text::{LineError, TextError};
use swarmtempo::{
    answers, items, sys, table, vcd, Address, Answer, Ask, Chip, ClockError, DiskLine, Drive,
    InLine, Item, KeyboardFull, Lines, List, Machine, Micros, NoAnswer, ParseError, Phase, Refusal,
    Register, Seconds, Seen, SenseRegister, Setting, State, Timed, TooLong, UnknownRefusal, Values,
    ViaTicks, WaitTicks, ANSWER_LEN, INQUIRY_TICKS, KEYBOARD_LEN, SETTING_MAX, TICKS_PER_SECOND,
    TRANSACTION_MAX,
};

const NOW: WaitTicks = WaitTicks(0);

/// As many values as there can be.
fn many() -> Values {
    let values: Vec<u8> = (0..Values::MAX).map(|i| 0xC1 ^ i as u8).collect();
    Values::new(&values).expect("64 of them")
}

/// A sample of each kind. The match has no other arm, so a new kind has to come in here.
fn samples() -> Vec<Item> {
    let (line, register) = (InLine::new(6).unwrap(), SenseRegister::new(13).unwrap());
    let all = vec![
        Item::Read(Address::Iwm(DiskLine::LSTRB, true)),
        Item::Write(Address::Via(Register::T1CH), 0xA5),
        Item::WriteMany(Address::Via(Register::DDRB), many()),
        Item::Blank,
        Item::Second,
        Item::In(line, true),
        Item::Sense(Drive::External, register, true),
        Item::Disk { drive: Drive::External, insert: true, locked: false, double_sided: true },
        Item::Pulse(true),
        Item::Reset,
        Item::Power(Seconds(0x8765_4321)),
    ];
    for item in &all {
        match item {
            Item::Read(_)
            | Item::Write(..)
            | Item::WriteMany(..)
            | Item::Blank
            | Item::Second
            | Item::In(..)
            | Item::Sense(..)
            | Item::Disk { .. }
            | Item::Pulse(_)
            | Item::Reset
            | Item::Power(_) => {}
        }
    }
    all
}

#[test]
fn every_kind_there_and_back() {
    let kinds: BTreeSet<_> = samples().iter().map(Item::kind).collect();
    assert_eq!(kinds, BTreeSet::from(Item::KINDS), "a sample for each kind");
    for item in samples() {
        let timed = Timed { wait: WaitTicks(0xABCD), item };
        let bytes = timed.to_bytes();
        assert_eq!(bytes[2..4], *item.kind());
        assert_eq!(usize::from(bytes[0]) + 2, bytes.len());
        assert_eq!(Timed::try_from(&bytes[..]), Ok(timed));
        assert_eq!(timed.to_string().parse(), Ok(timed));
        assert_eq!(item.to_string().parse(), Ok(item));
        assert_eq!(timed.to_string(), format!("{} {item}", timed.wait));
        assert_eq!(Timed::from((timed.wait, item)), timed);
        // One byte more or fewer is another length.
        let mut long = bytes[2..].to_vec();
        long.push(0);
        assert_eq!(Item::read(&long), Err(Refusal::Length));
        assert_eq!(Item::read(&bytes[2..bytes.len() - 1]), Err(Refusal::Length));
        assert_eq!(Timed::try_from(&bytes[..bytes.len() - 1]), Err(Refusal::Cut));
        // The run takes it.
        assert!(matches!(
            Machine::fresh(Chip::First).step(timed.wait, item),
            Ok(_) | Err(Refusal::Disk)
        ));
    }
}

/// Written, and read back.
fn back<T: Display + FromStr + PartialEq + Debug>(value: T, text: &str)
where
    T::Err: Debug,
{
    assert_eq!(value.to_string(), text);
    assert_eq!(text.parse::<T>().unwrap(), value);
    assert_eq!(text.to_lowercase().parse::<T>().unwrap(), value);
    assert_eq!(format!("{value:>20}").len(), 20, "padded");
    for wrong in ["", " ", "t", "s", "-1", "+1", "0x", "$", "1t1", "99999999999999999999t", "ä"] {
        assert!(wrong.parse::<T>().is_err(), "{wrong} as {value:?}");
    }
}

#[test]
fn units() {
    back(WaitTicks(65_535), "65535t");
    back(ViaTicks(391_680), "391680t");
    back(Seconds(u32::MAX), "4294967295s");
    back(Micros(12_000), "12000us");
    let full = [
        format!("{:#}", WaitTicks(1)),
        format!("{:#}", ViaTicks(2)),
        format!("{:#}", Seconds(0)),
        format!("{:#}", Micros(12)),
    ];
    assert_eq!(full, ["1 VIA tick", "2 VIA ticks", "0 seconds", "12 microseconds"]);
    for other in ["5", "5s", "5us", "5u", "5tt", "65536t"] {
        assert!(other.parse::<WaitTicks>().is_err(), "{other}");
    }
    for other in ["5", "5t", "5us", "4294967296s"] {
        assert!(other.parse::<Seconds>().is_err(), "{other}");
    }
    for other in ["5", "5t", "5s"] {
        assert!(other.parse::<Micros>().is_err(), "{other}");
    }
    assert_eq!(("$1Ft".parse(), "0x1fT".parse()), (Ok(WaitTicks(31)), Ok(WaitTicks(31))));
    // 783,360 a second, rounded up.
    assert_eq!(Micros(1_000_000).ticks(), ViaTicks(TICKS_PER_SECOND));
    assert_eq!(ViaTicks::from(Micros(12_000)), ViaTicks(9_401));
    assert_eq!(WaitTicks::try_from(Micros(83_658)), Ok(WaitTicks(65_535)));
    let long = ViaTicks(65_536);
    assert_eq!(WaitTicks::try_from(Micros(83_659)), Err(TooLong(long)));
    assert_eq!(WaitTicks::try_from(long), Err(TooLong(long)));
    let message = "65536 VIA ticks are longer than one wait, 65535 VIA ticks";
    assert_eq!(TooLong(long).to_string(), message);
    for ticks in [0, 1, 65_534, 65_535, 65_536, 131_070, 391_680, 3_364_505_581] {
        let waits: Vec<WaitTicks> = ViaTicks(ticks).waits().collect();
        assert_eq!(waits.iter().map(|wait| u64::from(wait.0)).sum::<u64>(), ticks.into());
        assert_eq!(waits.len(), ticks.div_ceil(65_535) as usize);
        assert!(waits.iter().all(|wait| wait.0 > 0));
    }
}

#[test]
fn names() {
    back(Register::IFR, "IFR");
    back(DiskLine::LSTRB, "LSTRB");
    back(Drive::External, "external");
    back(Address::Via(Register::ORANH), "VIA.ORANH");
    back(Address::Iwm(DiskLine::Q6, false), "IWM.Q6-");
    back(InLine::new(6).unwrap(), "6");
    back(SenseRegister::new(15).unwrap(), "15");
    assert_eq!(InLine::new(0).unwrap().name(), "mouse switch");
    for address in Address::all() {
        assert_eq!(Address::try_from(u32::from(address)), Ok(address));
        assert_eq!(address.to_string().parse(), Ok(address));
        assert_eq!(format!("${:X}", address.number()).parse(), Ok(address));
        assert_eq!(format!("0x{:x}", address.number()).parse(), Ok(address));
        assert_eq!(address.number().to_string().parse(), Ok(address));
        for off in [1, 2, 256, 0x0100_0000] {
            assert_eq!(Address::try_from(address.number() + off), Err(Refusal::Address));
        }
    }
    let around = [0, 0xEF_E1FE - 512, 0xEF_E1FE + 512 * 16, 0xDF_E1FF - 512, 0xDF_E1FF + 512 * 16];
    for number in around.into_iter().chain([u32::MAX]) {
        assert_eq!(Address::try_from(number), Err(Refusal::Address));
    }
    for number in 0..=255 {
        assert_eq!(Register::try_from(number).map(u8::from), in_range(number, 16));
        assert_eq!(DiskLine::try_from(number).map(u8::from), in_range(number, 8));
        assert_eq!(Drive::try_from(number).map(u8::from), in_range(number, 2));
        assert_eq!(InLine::try_from(number).map(u8::from), in_range(number, 7));
        assert_eq!(SenseRegister::try_from(number).map(u8::from), in_range(number, 16));
        let refusal = Refusal::try_from(number);
        assert_eq!(refusal.is_ok(), (1..=9).contains(&number));
        assert_eq!(refusal.map_or_else(|UnknownRefusal(n)| n, u8::from), number);
    }
}

fn in_range(number: u8, limit: u8) -> Result<u8, Refusal> {
    if number < limit {
        Ok(number)
    } else {
        Err(Refusal::Range)
    }
}

#[test]
fn answers_there_and_back() {
    let lines: Lines = [DiskLine::CA1, DiskLine::Q7].into_iter().collect();
    assert_eq!((lines, lines.to_string().as_str()), (Lines(0x82), "CA1 Q7"));
    assert_eq!(lines.iter().collect::<Vec<_>>(), [DiskLine::CA1, DiskLine::Q7]);
    let done = Answer::Ok(Seen { value: 0x81, level: 5, lines, sel: true });
    let all: Vec<Answer> = Refusal::ALL.map(Answer::No).into_iter().chain([done]).collect();
    let mut bytes = Vec::new();
    for &answer in &all {
        let eight: [u8; ANSWER_LEN] = answer.into();
        assert_eq!(Answer::try_from(eight), Ok(answer));
        assert_eq!(Answer::try_from(&eight[..]), Ok(answer));
        assert_eq!(Answer::try_from(&eight[1..]), Err(NoAnswer));
        bytes.extend(eight);
    }
    assert_eq!(done.to_string(), "OK: value $81, level 5, SEL 1, lines on CA1 Q7");
    assert_eq!(Answer::No(Refusal::Disk).result(), Err(Refusal::Disk));
    assert_eq!(answers(&bytes).collect::<Vec<_>>(), all);
    // Up to the first bytes that are no answer, and not past them.
    bytes[3 * ANSWER_LEN] = 7;
    let mut some = answers(&bytes);
    assert_eq!(some.by_ref().count(), 3);
    assert_eq!(some.next(), None);
    for wrong in [[6, 0, b'O', b'K', 0, 0, 0, 2], [6, 0, b'N', b'O', 10, 0, 0, 0], [0; 8]] {
        assert_eq!(Answer::try_from(wrong), Err(NoAnswer));
    }
}

#[test]
fn lists() {
    let waits = (0..).map(|i| WaitTicks(7 * i));
    let timed: Vec<Timed> = waits.zip(samples()).map(Timed::from).collect();
    let list: List = timed.iter().copied().collect();
    let pairs: List = timed.iter().map(|timed| (timed.wait, timed.item)).collect();
    let mut pushed = List::new();
    assert!(pushed.is_empty());
    for timed in &timed {
        pushed.push(timed.wait, timed.item);
    }
    let mut extended = List::new();
    extended.extend(timed[..2].iter().copied());
    extended.extend(timed[2..].iter().map(|timed| (timed.wait, timed.item)));
    assert!(list == pairs && list == pushed && list == extended);
    assert_eq!(list.as_ref(), list.as_bytes());
    assert_eq!(list.to_string().parse(), Ok(list.clone()));
    assert_eq!(List::from(list.as_bytes()), list);
    assert_eq!(List::from(Vec::from(list.clone())), list);
    assert_eq!((&list).into_iter().collect::<Result<Vec<_>, _>>(), Ok(timed.clone()));
    // Records that are none, and bytes that begin none.
    let mut odd = list.clone();
    odd.push_raw(&[5, 0, b'S', b'E', 0, 0, 0]).push(NOW, Item::Reset).push_raw(&[9, 0, b'W', b'R']);
    let mut got = odd.iter().skip(timed.len());
    assert_eq!(got.next(), Some(Err(Refusal::Length)));
    assert_eq!(got.next(), Some(Ok(Timed { wait: NOW, item: Item::Reset })));
    assert_eq!((got.next(), got.next()), (Some(Err(Refusal::Cut)), None));
    assert_eq!(items(odd.as_ref()).count(), timed.len() + 3);
    let error: TextError = "0t SE\n0t XX".parse::<List>().unwrap_err();
    assert_eq!(error.line, 2);
    let error: LineError = "XX 1".parse::<Item>().unwrap_err();
    assert_eq!(error.column, 1);
    assert!("RAW 00".parse::<Timed>().is_err() && "; only words".parse::<Timed>().is_err());
}

#[test]
fn runs_give_items_with_answers() {
    let mut list = List::new();
    list.push(WaitTicks(9), Item::Write(Address::Via(Register::IER), 0x81));
    list.push_raw(&[5, 0, b'S', b'E', 0, 0, 0]);
    list.push(WaitTicks(3), Item::Second);
    list.push_raw(&[1, 0, 9]);
    list.push(NOW, Item::Reset);
    let mut machine = Machine::fresh(Chip::First);
    let transcript = machine.run_items(&list);
    let mut bytes = Vec::new();
    let mut other = Machine::fresh(Chip::First);
    assert_eq!(transcript.run(), other.run(&list, &mut bytes));
    assert_eq!(transcript.answers(), bytes);
    let got: Vec<_> = transcript.iter().collect();
    assert_eq!(got.len(), 4, "the run stops at a length of 1");
    assert_eq!(got.iter().map(|done| done.record.len()).collect::<Vec<_>>(), [11, 7, 6, 11 - 2]);
    assert_eq!(got[0].item.unwrap().wait, WaitTicks(9));
    assert_eq!((got[1].item, got[1].answer), (Err(Refusal::Length), Answer::No(Refusal::Length)));
    assert_eq!(got[2].answer.result().unwrap().level, 1);
    assert_eq!((got[3].item, got[3].answer), (Err(Refusal::Cut), Answer::No(Refusal::Cut)));
    // The same one by one.
    let mut stepped = Machine::fresh(Chip::First);
    for done in transcript.iter().filter_map(|done| Some((done.item.ok()?, done.answer))) {
        assert_eq!(stepped.step(done.0.wait, done.0.item), done.1.result());
    }
    assert_eq!(stepped, machine);
    // The table of it.
    let table = transcript.to_string();
    let rows: Vec<&str> = table.lines().collect();
    assert_eq!(rows[0].to_string() + "\n", table::HEAD);
    assert!(rows[0].contains("VIA ticks"));
    assert!(rows[1].ends_with("9  9t WR VIA.IER $81                  -      0    1  -"), "{table}");
    assert!(rows[2].ends_with("NO 3: length wrong for the kind"));
    assert!(rows[3].starts_with("       3          18             12  3t SE"), "{table}");
    assert_eq!(rows.len(), 5);
    let run = transcript.run();
    assert_eq!(run.to_string(), "stop 1 (record cut short): 4 answers, 24 bytes consumed");
}

#[test]
fn dumps() {
    let list: List =
        "1t WR VIA.ORB 4\n2t WR VIA.DDRB 7\n3t WR VIA.ORB 0\n0t IN 6 1".parse().unwrap();
    let (mut dumped, mut run) = (Machine::fresh(Chip::First), Machine::fresh(Chip::First));
    let mut dump = Vec::new();
    let report = vcd::dump(&mut dumped, list.as_ref(), &mut dump).unwrap();
    assert_eq!(report, run.run(&list, &mut Vec::new()));
    assert_eq!(dumped, run);
    let dump = String::from_utf8(dump).unwrap();
    // 6 VIA ticks are 7,659.3 ns; the last item comes with no wait, 10 ns after.
    let times: Vec<&str> = dump.lines().filter(|line| line.starts_with('#')).collect();
    assert_eq!(times, ["#0", "#1276", "#3829", "#7659", "#7669", "#7679"]);
    assert!(dump.contains("scommand $\n"), "enable fell: {dump}");
    // A stop at a cut record, and an output that cannot be written.
    let mut cut = list.as_bytes()[..15].to_vec();
    let report = vcd::dump(&mut Machine::fresh(Chip::First), &cut, &mut Vec::new()).unwrap();
    assert_eq!((report.stop, report.consumed, report.written), (Some(Refusal::Cut), 11, 16));
    cut.clear();
    assert!(vcd::dump(&mut Machine::fresh(Chip::First), &cut, Full).is_err());
}

/// An MW has a point for each value, all of them one item: the first after the wait, the others 10 ns
/// apart. The wires are seen after each.
#[test]
fn dumps_of_many_writes() {
    let many: List =
        "1t WR VIA.ORB 4\n0t WR VIA.DDRB 7\n6t MW VIA.ORB 0 1 3 4\n2t SE".parse().unwrap();
    let singles: List = many.iter().flat_map(|timed| timed.unwrap().singles()).collect();
    let (mut dumped, mut single) = (Machine::fresh(Chip::First), Machine::fresh(Chip::First));
    let (mut dump, mut other) = (Vec::new(), Vec::new());
    assert!(vcd::dump(&mut dumped, many.as_ref(), &mut dump).unwrap().at_end());
    assert!(vcd::dump(&mut single, singles.as_ref(), &mut other).unwrap().at_end());
    assert_eq!(dumped, single);
    let (dump, other) = (String::from_utf8(dump).unwrap(), String::from_utf8(other).unwrap());
    let times: Vec<&str> = dump.lines().filter(|line| line.starts_with('#')).collect();
    let expected = ["#0", "#1276", "#1286", "#8935", "#8945", "#8955", "#8965", "#11488", "#11498"];
    assert_eq!(times, expected);
    // The same but for the numbers of the items.
    let code = dump.lines().find_map(|line| line.strip_suffix(" item $end")).unwrap();
    let code = format!(" {}", code.split(' ').next_back().unwrap());
    let but_items = |dump: &str| -> Vec<String> {
        dump.lines().filter(|line| !line.ends_with(&code)).map(String::from).collect()
    };
    assert_eq!(but_items(&dump), but_items(&other));
    let items: Vec<&str> =
        dump.lines().filter(|line| line.starts_with('b') && line.ends_with(&code)).collect();
    assert_eq!(items.len(), 5, "none, and four items: {items:?}");
}

/// The table has an MW's first value and their number, the bit that a KC shifts out, and one row each,
/// with the byte offset of its record.
#[test]
fn tables_of_both_kinds() {
    let list: List =
        "5t MW VIA.SR 1 $80\n1t MW VIA.ACR 0 0 0 $1C\n0t KC 0\n0t KC 0\n0t WR VIA.ORB 1"
            .parse()
            .unwrap();
    let table = Machine::fresh(Chip::First).run_items(&list).to_string();
    let rows: Vec<&str> = table.lines().skip(1).collect();
    for (row, part) in rows.iter().zip([
        "       1           0              5  5t MW VIA.SR $01 $80               -      0    1  -",
        "       2          13              6  1t MW VIA.ACR $00 .. (4)           -      0    1  -",
        "       3          28              6  0t KC 0                          $01      0    1  -",
        "       4          35              6  0t KC 0                          $00      0    1  -",
        "       5          42              6  0t WR VIA.ORB $01                  -      0    1  -",
    ]) {
        assert_eq!(*row, part);
    }
    assert_eq!(rows.len(), 5);
}

/// Refusals of an MW in their order.
#[test]
fn refusals_of_many_writes() {
    let read = |address: u32, count: u8, values: usize| {
        let mut record = b"MW\x09\x00".to_vec();
        record.extend(address.to_le_bytes());
        record.push(count);
        record.resize(9 + values, 7);
        let (length, mut answer) = (record.len() as u16, [0; ANSWER_LEN]);
        let list = [&length.to_le_bytes()[..], &record].concat();
        Machine::fresh(Chip::First).run_in(&list, &mut answer);
        let item = Item::read(&record).map(|(wait, item)| (wait.0, item.kind()));
        assert_eq!(Answer::read(&answer).unwrap().result().err(), item.err(), "{record:02X?}");
        item
    };
    let (right, wrong) = (0xDF_E1FF, 0xDF_E200);
    assert_eq!(read(right, 64, 64), Ok((9, b"MW")));
    assert_eq!(read(right, 1, 1), Ok((9, b"MW")));
    for (count, values) in [(0, 0), (65, 65), (1, 2), (1, 1)] {
        assert_eq!(read(wrong, count, values), Err(Refusal::Address));
    }
    for (count, values) in [(0, 0), (0, 1), (65, 65), (65, 64), (255, 255)] {
        assert_eq!(read(right, count, values), Err(Refusal::Range));
    }
    for (count, values) in [(1, 0), (1, 2), (64, 63), (64, 65)] {
        assert_eq!(read(right, count, values), Err(Refusal::Length));
    }
    let short = Item::read(b"MW\0\0\xFF\xE1\xDF\x01");
    assert_eq!(short, Err(Refusal::Length), "a length of 8, whatever the address");
    assert_eq!(Item::read(b"KC\0\0\x02"), Err(Refusal::Range));
    assert_eq!(Item::read(b"KC\0\0"), Err(Refusal::Length));
}

/// Takes nothing.
struct Full;

impl std::io::Write for Full {
    fn write(&mut self, _: &[u8]) -> std::io::Result<usize> {
        Err(std::io::ErrorKind::StorageFull.into())
    }

    fn flush(&mut self) -> std::io::Result<()> {
        Ok(())
    }
}

#[test]
fn states_in_words() {
    let mut machine = Machine::fresh(Chip::First);
    let text = "0t WR VIA.ORB 4\n0t WR VIA.DDRB 7\n0t WR VIA.ORB 0\n0t WR VIA.ORB 2\n0t DI external 1 1 1\n0t IN 5 1\n0t WR VIA.ACR $0C\n0t KC 1\n0t KC 0\n0t KC 1";
    machine.run(text.parse::<List>().unwrap(), &mut Vec::new());
    let state: State = machine.state();
    let inputs: [bool; 7] = state.inputs;
    assert_eq!((&state.cells[..], inputs[5]), (&[0; 20][..], true));
    assert_eq!((state.sr, state.pulses), (0b101, 3));
    assert_eq!(state.phase, Phase::Listening { bits: 1, value: 0 });
    let words = machine.to_string();
    assert!(words.ends_with(&state.to_string()));
    for part in [
        "State image of kind ST, 124 bytes",
        "shift     in by the keyboard's clock, 3 of 8 pulses counted",
        "IN 5      1 (serial chip asks)",
        "enable 0 (low active), data-clock 1, data 0",
        "half-made: 1 bit, 0 of the command taken",
        "external  track 0, towards track 79, locked disk, double-sided, motor off",
        "1904-01-01 00:00:00",
    ] {
        assert!(words.contains(part), "{part} in {words}");
    }
    assert!(words.contains(&state.phase.to_string()) && words.contains(&state.wires().to_string()));
    assert!(words.contains(&state.drives[1].to_string()));
    // An image, there and back.
    assert_eq!(machine.as_ref(), machine.image());
    assert_eq!(Machine::try_from(machine.as_ref()).as_ref(), Ok(&machine));
    assert_eq!(Machine::try_from(&machine.image()[1..]), Err(Refusal::State));
}

#[test]
fn errors_are_errors() {
    let errors: [Box<dyn Error + Send + Sync>; 10] = [
        Box::new(Refusal::Range),
        Box::new(UnknownRefusal(77)),
        Box::new(NoAnswer),
        Box::new(ClockError::Range),
        Box::new(ClockError::Enable),
        Box::new(ClockError::Protected),
        Box::new(TooLong(ViaTicks(65_536))),
        Box::new("5".parse::<WaitTicks>().unwrap_err()),
        Box::new("5 SE".parse::<Timed>().unwrap_err()),
        Box::new("5 SE".parse::<List>().unwrap_err()),
    ];
    for error in errors {
        assert!(error.to_string().len() > 5);
    }
    let error: ParseError = "5".parse::<WaitTicks>().unwrap_err();
    assert_eq!(error.to_string(), "expected a wait from 0t to 65535t (VIA ticks), not `5`");
    assert!(error.expected().contains("VIA ticks"));
}

const HEADER: &str = include_str!("../../include/swarmtempo.h");

/// The value of a macro of the header.
fn macro_of(name: &str) -> &'static str {
    let define = format!("#define SWARMTEMPO_{name} ");
    let line = HEADER.lines().find_map(|line| line.strip_prefix(define.as_str()));
    line.unwrap_or_else(|| panic!("{name} in the header")).split("/*").next().unwrap().trim()
}

fn number_of(name: &str) -> u32 {
    let digits = macro_of(name).trim_end_matches(['u', 'l']);
    let hex = digits.strip_prefix("0x").map(|digits| u32::from_str_radix(digits, 16));
    hex.unwrap_or_else(|| digits.parse()).expect("a number")
}

#[test]
fn the_header_has_the_same_numbers() {
    assert_eq!(macro_of("VERSION"), format!("\"{}\"", env!("CARGO_PKG_VERSION")));
    let version = ["MAJOR", "MINOR", "PATCH"].map(|part| macro_of(&format!("VERSION_{part}")));
    assert_eq!(version.join("."), env!("CARGO_PKG_VERSION"));
    assert_eq!(number_of("TICKS_PER_SECOND"), TICKS_PER_SECOND);
    assert_eq!(number_of("ANSWER_LEN") as usize, ANSWER_LEN);
    for (chip, cells, length) in
        [(Chip::First, "CELLS_FIRST", "IMAGE_LEN"), (Chip::Later, "CELLS_LATER", "IMAGE_LEN_LATER")]
    {
        assert_eq!(number_of(cells) as usize, chip.cells());
        assert_eq!(number_of(length) as usize, chip.image_len());
        assert_eq!(sys::image_len(number_of(cells)), chip.image_len() as u64);
    }
    assert_eq!(number_of("VALUES_MAX") as usize, Values::MAX);
    let longest =
        samples().into_iter().map(|item| Timed { wait: NOW, item }.to_bytes().len()).max();
    assert_eq!(Some(number_of("ITEM_MAX") as usize), longest);
    for register in Register::ALL {
        assert_eq!(number_of(register.name()) as usize, register.index());
    }
    for line in DiskLine::ALL {
        assert_eq!(number_of(line.name()), 1 << line.index());
    }
    assert_eq!(number_of("KEYBOARD_LEN") as usize, KEYBOARD_LEN);
    assert_eq!(number_of("INQUIRY_TICKS"), INQUIRY_TICKS.0);
    assert_eq!(number_of("SETTING_MAX") as usize, SETTING_MAX);
    let mut record = Vec::new();
    Setting { setting: 0, version: 0, bytes: &[0; SETTING_MAX] }.write(&mut record);
    assert_eq!(number_of("SHEET_RECORD_MAX") as usize, record.len());
    for (name, bench, house) in
        [("NONE", &[][..], &[][..]), ("BENCH", &record[..], &[]), ("HOUSE", &[], &record[..])]
    {
        let found = sys::sheet_get(bench, house, 0);
        assert_eq!(number_of(&format!("SHEET_{name}")), u32::from(found.sheet));
    }
    for (name, ask) in [
        ("WRITE_CELL", Ask::WriteCell(0, 0)),
        ("READ_CELL", Ask::ReadCell(0)),
        ("WRITE_SECONDS", Ask::WriteSeconds(0, 0)),
        ("READ_SECONDS", Ask::ReadSeconds(0)),
        ("WRITE_PROTECT", Ask::WriteProtect(0)),
    ] {
        assert_eq!(number_of(name), u32::from(ask.numbers().0));
    }
    let mut longest = (0, 0);
    for (name, ask) in [
        ("WRITE", Ask::WriteCell(19, 0)),
        ("READ", Ask::ReadCell(19)),
        ("WRITE_FAR", Ask::WriteCell(20, 0)),
        ("READ_FAR", Ask::ReadCell(20)),
    ] {
        let list = Machine::fresh(Chip::Later).transaction(ask).expect("enable is up");
        let long = (list.as_bytes().len(), list.iter().count());
        assert_eq!(number_of(&format!("{name}_LEN")) as usize, long.0);
        assert_eq!(number_of(&format!("{name}_ITEMS")) as usize, long.1);
        longest = longest.max(long);
    }
    assert_eq!(number_of("TRANSACTION_MAX") as usize, longest.0);
    assert_eq!(number_of("TRANSACTION_ITEMS_MAX") as usize, longest.1);
    assert_eq!(TRANSACTION_MAX, longest.0);
    // Every kind has its writer.
    for kind in Item::KINDS {
        let letters = std::str::from_utf8(kind).unwrap().to_lowercase();
        assert!(HEADER.contains(&format!("size_t swarmtempo_{letters}(")), "{letters}");
    }
}

#[test]
fn refusals_have_the_same_numbers_and_words_in_c() {
    let words = include_str!("../../c/words.c");
    let cases = words.lines().filter(|line| line.trim_start().starts_with("case "));
    // None, those of lists and images, the keyboard's, and the writer's own.
    assert_eq!(cases.count(), 1 + Refusal::ALL.len() + 2);
    let enable = ClockError::Enable;
    assert_eq!(enable.number(), u8::try_from(number_of("REFUSED_ENABLE")).ok());
    assert!(words.contains(&format!("case SWARMTEMPO_REFUSED_ENABLE: return \"{enable}\";")));
    assert_eq!(ClockError::Range.number(), Some(Refusal::Range.number()));
    assert_eq!(number_of("REFUSED_KEY"), u32::from(KeyboardFull::NUMBER));
    assert!(words.contains(&format!("case SWARMTEMPO_REFUSED_KEY: return \"{KeyboardFull}\";")));
    for refusal in Refusal::ALL {
        let name = format!("REFUSED_{}", format!("{refusal:?}").to_uppercase());
        assert_eq!(number_of(&name), u32::from(refusal.number()));
        assert!(
            words.contains(&format!("case SWARMTEMPO_{name}: return \"{refusal}\";")),
            "{name}"
        );
    }
}

/// The functions that the header declares and does not define, but for those of `c/words.c`, are
/// those that sys.rs declares.
#[test]
fn sys_declares_what_the_header_declares() {
    let mut declared = BTreeSet::new();
    for line in HEADER.lines() {
        let function = line.starts_with("uint") || line.starts_with("const char *");
        if let (true, Some(at)) = (function, line.find("swarmtempo_")) {
            declared.insert(line[at..].split('(').next().unwrap());
        }
    }
    let words = BTreeSet::from(["swarmtempo_version", "swarmtempo_refusal"]);
    assert!(declared.is_superset(&words));
    let functions = include_str!("../src/sys.rs").split("fn ").skip(1);
    let functions = functions.map(|rest| rest.split('(').next().unwrap());
    let in_sys = functions.filter(|name| name.starts_with("swarmtempo_")).collect();
    assert_eq!(&declared - &words, in_sys);
}
