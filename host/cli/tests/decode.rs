//! `swarmtempo decode`, `summary`, `diff`; filters; JSON and CSV.

mod common;

use common::{feed, program, shell, status, stderr, stdout, Folder, PROGRAM, SECOND};
use std::process::Command;
use std::time::{Duration, Instant};
use swarmtempo::text::assemble;
use swarmtempo::{Address, Answer, Chip, Item, List, Machine, Register, State, WaitTicks};

const LAB: &str = include_str!("../../captures/lab.txt");
const LATER: [&str; 2] = ["--cells", "256"];

fn decoded(words: &[&str], list: &[u8]) -> String {
    let output = program(&[&["decode", "-"][..], words].concat(), list);
    assert_eq!(status(&output), 0, "{}", stderr(&output));
    stdout(&output)
}

/// What stands after the places of each row: asked, byte, fate.
fn ends(shown: &str) -> Vec<String> {
    let rows = shown.lines().skip(1);
    rows.map(|row| {
        row[row.find(['$', '%']).unwrap_or(60)..].split_whitespace().collect::<Vec<_>>().join(" ")
    })
    .collect()
}

/// Enable falls after the ports are set, then some bits.
fn begun(list: &mut List, bytes: &[u8], bits: usize) {
    let port = |value: u8| Item::Write(Address::Via(Register::ORB), value);
    let now = WaitTicks(0);
    list.push(now, port(4)).push(now, Item::Write(Address::Via(Register::DDRB), 7));
    list.push(WaitTicks(3), port(0));
    let all = bytes.iter().flat_map(|byte| (0..8).rev().map(move |i| byte >> i & 1));
    for bit in all.take(bits) {
        list.push(WaitTicks(1), port(bit)).push(WaitTicks(1), port(bit | 2));
    }
}

fn sent(list: &mut List, bytes: &[u8], bits: usize) {
    begun(list, bytes, bits);
    list.push(WaitTicks(1), Item::Write(Address::Via(Register::ORB), 4));
}

/// A read of which so many bits are read; data stays driven where the program forgets to turn it.
fn read(list: &mut List, command: &[u8], bits: usize, turned: bool) {
    begun(list, command, 8 * command.len());
    let write = |register, value| Item::Write(Address::Via(register), value);
    let now = WaitTicks(0);
    if turned {
        list.push(now, write(Register::DDRB, 6));
    }
    for _ in 0..bits {
        list.push(now, write(Register::ORB, 0));
        list.push(now, Item::Read(Address::Via(Register::ORB)));
        list.push(now, write(Register::ORB, 2));
    }
    list.push(now, write(Register::ORB, 4)).push(now, write(Register::DDRB, 7));
}

#[test]
fn the_lab_capture() {
    let text = [&["--text"][..], &LATER].concat();
    let shown = decoded(&text, LAB.as_bytes());
    let head = "      no.       VIA ticks        seconds      offset    line  asked                        byte       fate";
    assert_eq!(shown.lines().next(), Some(head));
    let row = "        1               6       0.000007          22       7  $35 write protect            $00        written: protect is clear";
    assert_eq!(shown.lines().nth(1), Some(row));
    let wanted = [
        "$35 write protect $00 written: protect is clear",
        "$01 write seconds byte 0 $12 written (was $00)",
        "$05 write seconds byte 1 $EF written (was $00)",
        "$09 write seconds byte 2 $CD written (was $00)",
        "$0D write seconds byte 3 $AB written (was $00)",
        "$4D write cell 3 $5A written (was $00)",
        "$3E $20 write cell 200 $33 written (was $00)",
        "$81 read seconds byte 0 $13 read",
        "$85 read seconds byte 1 $EF read",
        "$89 read seconds byte 2 $CD read",
        "$8D read seconds byte 3 $AB read; the date read: 1995-05-04 02:40:19 (no. 8 to 11)",
        "$35 write protect $80 written: protect is set",
        "$4D write cell 3 $99 kept out by protect",
        "$35 write protect $00 written: protect is clear",
        "$4D write cell 3 %01110--- half sent (13 of 16 bits); 1 record refused meanwhile",
        "$4B is no command - illegal: ignored",
        "$CD read cell 3 %01011--- 5 of 8 bits read; the chip sent $5A",
        "$CD read cell 3 $5A read",
        "$BE $20 read cell 200 $33 read",
    ];
    assert_eq!(ends(&shown), wanted);
    // The manual shows rows of it.
    let manual = include_str!("../../../docs/MANUAL.md");
    for number in [0, 6, 7, 11, 13, 15, 16, 17] {
        let row = shown.lines().nth(number).expect("a row").trim_start();
        assert!(manual.contains(row), "{row}");
    }
    // From records there is no line; with 20 cells the commands of two bytes are none.
    let records = assemble(LAB).expect("in the form");
    let shown = decoded(&[], &records);
    assert!(!shown.contains("line"));
    let first = ends(&shown);
    let illegal = "is no command - illegal: ignored (of two bytes on a chip with 256 cells)";
    assert_eq!(first[6], format!("$3E {illegal}"));
    assert_eq!(first[18], format!("$BE {illegal}"));
    assert_eq!(
        (&first[..6], &first[7..18]),
        (&ends(&decoded(&LATER, &records))[..6], &ends(&decoded(&LATER, &records))[7..18])
    );
}

/// Half-sent commands at every bit, of one byte and of two, on both chips.
#[test]
fn half_sent_at_every_bit() {
    for bits in 0..24 {
        for (bytes, chip) in [
            (&[0x41, 0xAA, 0x55][..], Chip::First),
            (&[0x41, 0xAA, 0x55], Chip::Later),
            (&[0x39, 0x08, 0xAA], Chip::Later),
            (&[0xB9, 0x08, 0xAA], Chip::Later),
            (&[0x77, 0x08, 0xAA], Chip::First),
            (&[0x39, 0x09, 0xAA], Chip::Later),
        ] {
            let mut list = List::new();
            sent(&mut list, bytes, bits);
            let cells = chip.cells().to_string();
            let shown = decoded(&["--cells", &cells], list.as_bytes());
            let two = chip == Chip::Later && bytes[0] & 0x78 == 0x38;
            let legal = bytes[0] == 0x41 || two && bytes[1] == 8;
            let (whole, reads) = (if two { 24 } else { 16 }, bytes[0] & 0x80 != 0);
            let known = if two { 16 } else { 8 };
            let wanted = match bits {
                0 => "nothing sent".into(),
                1 => "half sent (1 bit)".into(),
                2..8 => format!("half sent ({bits} bits)"),
                _ if bits < known && reads => format!("half sent ({bits} of 16 bits)"),
                _ if bits < known => format!("half sent ({bits} of 24 bits)"),
                _ if !legal => "illegal: ignored".into(),
                _ if reads => "not looked at in this list: of $00 the chip put out".into(),
                _ if bits < whole => format!("half sent ({bits} of {whole} bits)"),
                16 => "written (was $00)".into(),
                _ => format!("written (was $00); {} bit", bits - 16),
            };
            let row = shown.lines().nth(1).expect("a row");
            assert!(row.contains(&wanted), "{bytes:02X?}, {bits} bits: {wanted}: {row}");
            assert_eq!(shown.lines().count(), 2, "{shown}");
        }
    }
}

#[test]
fn what_the_program_saw() {
    let mut list = List::new();
    sent(&mut list, &[0x41, 0xA5], 16);
    read(&mut list, &[0xC1], 8, true);
    read(&mut list, &[0xC1], 3, true);
    read(&mut list, &[0xC1], 0, true);
    // The data line is left driven to 0: the program sees itself.
    read(&mut list, &[0xC1], 8, false);
    let shown = ends(&decoded(&[], list.as_bytes()));
    let wanted = [
        "$41 write cell 0 $A5 written (was $00)",
        "$C1 read cell 0 $A5 read",
        "$C1 read cell 0 %101----- 3 of 8 bits read; the chip sent $A5",
        "$C1 read cell 0 %-------- not looked at in this list: of $A5 the chip put out 0 of 8 bits",
        "$C1 read cell 0 $00 read, but the chip sent $A5",
    ];
    assert_eq!(shown, wanted);
}

/// A date of bytes that belong to two seconds is shown with what the clock had.
#[test]
fn a_date_read_while_the_seconds_moved() {
    let mut list = List::new();
    for (k, byte) in (0..4).zip([0xFF, 0x00, 0x00, 0x00]) {
        sent(&mut list, &[0x01 | k << 2, byte], 16);
    }
    let read_all = |list: &mut List, tick_after: Option<u8>| {
        for k in 0..4 {
            read(list, &[0x81 | k << 2], 8, true);
            if tick_after == Some(k) {
                list.push(WaitTicks(9), Item::Second);
            }
        }
    };
    read_all(&mut list, None);
    read_all(&mut list, Some(0));
    // A power cut between the bytes: no date.
    read(&mut list, &[0x81], 8, true);
    list.push(WaitTicks(0), Item::Power(swarmtempo::Seconds(0)));
    (1..4).for_each(|k| read(&mut list, &[0x81 | k << 2], 8, true));
    let shown = decoded(&[], list.as_bytes());
    let dates: Vec<&str> =
        shown.lines().filter_map(|row| row.split_once("the date read: ").map(|it| it.1)).collect();
    assert_eq!(
        dates,
        [
            "1904-01-01 00:04:15 (no. 5 to 8)",
            "1904-01-01 00:08:31 (no. 9 to 12), while the clock had 1904-01-01 00:04:16"
        ]
    );
}

/// The dates of these readings, with an SE sixty times after each: what was read, by which transactions.
/// The clock begins at $04030201 seconds; W writes byte 0 as it is, w half a byte, c reads a cell, k
/// writes one, p reads byte 1 in part, r is a reset.
fn dates(readings: &[&str]) -> Vec<(u64, Vec<u64>)> {
    let mut list = List::new();
    for k in 0..4 {
        sent(&mut list, &[0x01 | k << 2, k + 1], 16);
    }
    for reading in readings {
        for of in reading.bytes() {
            match of {
                b'W' => sent(&mut list, &[0x01, 0x01], 16),
                b'w' => sent(&mut list, &[0x01, 0x01], 15),
                b'c' => read(&mut list, &[0xC1], 8, true),
                b'k' => sent(&mut list, &[0x41, 0x77], 16),
                b'p' => read(&mut list, &[0x85], 5, true),
                b'r' => {
                    list.push(WaitTicks(0), Item::Reset);
                }
                digit => read(&mut list, &[0x81 | (digit - b'0') << 2], 8, true),
            }
        }
        for _ in 0..60 {
            list.push(WaitTicks(1), Item::Second);
        }
    }
    let json = decoded(&["--json"], list.as_bytes());
    let all = |row: &str, name: &str| -> Option<Vec<u64>> {
        let (_, value) = row.split_once(&format!("\"{name}\":")).expect(name);
        let value = value.trim_start_matches('[').split([']', '"', '}']).next().unwrap_or("");
        (!value.starts_with("null")).then(|| {
            let numbers = value.split(',').filter(|word| !word.is_empty());
            numbers.map(|word| word.parse().expect("a number")).collect()
        })
    };
    let mut dates = Vec::new();
    for row in json.lines() {
        let Some(date) = all(row, "date_seconds") else {
            continue;
        };
        let clock = all(row, "clock_seconds").expect("there");
        assert_eq!(date, clock, "of one reading, and compared with the clock at it: {row}");
        let numbers = all(row, "date_numbers").expect("there");
        assert_eq!(all(row, "number"), Some(vec![numbers[3]]), "with the last: {row}");
        dates.push((date[0], numbers));
    }
    dates
}

/// A date is of four bytes of one reading: what is stray or cut off shifts nothing.
#[test]
fn a_date_is_of_one_reading() {
    const START: u64 = 0x0403_0201;
    // Each whole reading: the minutes gone by, and its first transaction after the four writes.
    for (readings, wanted) in [
        (&["0123", "0123"][..], &[(0, 1), (1, 5)][..]),
        (&["3210", "3210", "3210"], &[(0, 1), (1, 5), (2, 9)]),
        (&["01230123", "32103210"], &[(0, 1), (0, 5), (1, 9), (1, 13)]),
        // A stray byte first.
        (&["0", "3210", "3210", "3210"], &[(1, 2), (2, 6), (3, 10)]),
        (&["3", "0123", "0123"], &[(1, 2), (2, 6)]),
        (&["1", "0123", "3210"], &[(1, 2), (2, 6)]),
        (&["0", "0123"], &[(1, 2)]),
        (&["3", "3210"], &[(1, 2)]),
        // Begun in the middle, or cut off.
        (&["23", "0123", "0123"], &[(1, 3), (2, 7)]),
        (&["10", "3210", "3210"], &[(1, 3), (2, 7)]),
        (&["123", "0123"], &[(1, 4)]),
        (&["012", "0123", "01", "0123", "0"], &[(1, 4), (3, 10)]),
        (&["32", "3210", "321", "3210"], &[(1, 3), (3, 10)]),
        (&["01", "3210", "23", "0123"], &[(1, 3), (3, 9)]),
        // Bytes that may be of two readings.
        (&["23", "01"], &[]),
        (&["0", "321"], &[]),
        (&["0213"], &[]),
        (&["0123", "123"], &[(0, 1)]),
        // A write of seconds, a reset, another read, a byte of which some bits were read.
        (&["01W23", "0123"], &[(1, 6)]),
        (&["01r23", "0123"], &[(1, 5)]),
        (&["01c23", "0123"], &[(1, 6)]),
        (&["0p123", "0123"], &[(1, 6)]),
        (&["01p23", "3210"], &[(1, 6)]),
    ] {
        // The write of byte 0 comes in the first minute and changes nothing.
        let wanted: Vec<(u64, Vec<u64>)> = wanted
            .iter()
            .map(|&(minutes, first)| (START + 60 * minutes, (4 + first..8 + first).collect()))
            .collect();
        assert_eq!(dates(readings), wanted, "{readings:?}");
    }
    // What does not touch the seconds may stand between.
    assert_eq!(dates(&["01w23"]), [(START, vec![5, 6, 8, 9])]);
    assert_eq!(dates(&["01k23"]), [(START, vec![5, 6, 8, 9])]);
    // A write that protect keeps out ends the reading, too.
    let mut list = List::new();
    sent(&mut list, &[0x35, 0x80], 16);
    for k in 0..4 {
        read(&mut list, &[0x81 | k << 2], 8, true);
        if k == 1 {
            sent(&mut list, &[0x01, 0x01], 16);
        }
    }
    assert!(!decoded(&[], list.as_bytes()).contains("the date read"));
}

/// Commands of two bytes on a chip with 20 cells: the summaries ask for --cells 256.
#[test]
fn commands_of_the_other_chip() {
    let records = assemble(LAB).expect("in the form");
    let hint = "2 illegal of two bytes on a chip with 256 cells: is --cells 256 missing?\n";
    for cells in [&[][..], &LATER] {
        let summary = program(&[&["summary", "-"][..], cells].concat(), &records);
        let run = program(&[&["run", "-"][..], cells].concat(), &records);
        for told in [stdout(&summary), stderr(&run)] {
            assert_eq!(told.contains(hint), cells.is_empty(), "{told}");
        }
    }
}

/// A command that is half sent at the start is in the image; one at the end is open.
#[test]
fn open_at_both_ends() {
    let folder = Folder::new("decode-open");
    let mut list = List::new();
    begun(&mut list, &[0x41, 0xA5], 11);
    let save = folder.path("st");
    let open = folder.put("open", list.as_bytes());
    assert_eq!(status(&program(&["run", &open, "--quiet", "--save", &save], b"")), 0);
    let shown = ends(&decoded(&[], list.as_bytes()));
    assert_eq!(shown, ["$41 write cell 0 %101----- not ended: 11 of 16 bits so far"]);
    let mut list = List::new();
    for bit in [0u8, 0, 1, 0, 1] {
        for value in [bit, bit | 2] {
            list.push(WaitTicks(0), Item::Write(Address::Via(Register::ORB), value));
        }
    }
    list.push(WaitTicks(0), Item::Write(Address::Via(Register::ORB), 4));
    let shown = decoded(&["--image", &save], list.as_bytes());
    assert_eq!(ends(&shown), ["$41 write cell 0 $A5 written (was $00); begun before the list"]);
}

#[test]
fn filters() {
    let records = assemble(LAB).expect("in the form");
    let rows = |words: &[&str]| decoded(&[words, &LATER].concat(), &records).lines().count() - 1;
    assert_eq!(rows(&[]), 19);
    assert_eq!(rows(&["--refused"]), 1);
    assert_eq!(rows(&["--only", "clock"]), 19);
    // Transaction 3 has bytes 770 to 1122, items 71 to 104, VIA ticks 286 to 420.
    assert_eq!(rows(&["--from", "offset:1000", "--to", "offset:1000"]), 1);
    assert_eq!(rows(&["--from", "item:104", "--to", "item:105"]), 2);
    assert_eq!(rows(&["--from", "286t", "--to", "420t"]), 1);
    assert_eq!(rows(&["--from", "61065t"]), 12);
    assert_eq!(rows(&["--to", "item:2"]), 0);
    let table = |words: &[&str]| {
        let words = [&["run", "-"][..], &LATER, words].concat();
        let output = program(&words, &records);
        assert_eq!(status(&output), 0, "{}", stderr(&output));
        stdout(&output).lines().skip(1).map(str::to_string).collect::<Vec<String>>()
    };
    let refused = table(&["--refused"]);
    assert_eq!(refused, ["     569        6205          62165  5t DI internal 0 0 0           NO 8: a disk is there already, or none is"]);
    assert_eq!(table(&["--only", "disk"]).len(), 7);
    assert_eq!(table(&["--only=disk", "--from=item:262"]).len(), 2);
    let [all, clock, via] =
        [&[][..], &["--only=clock"], &["--only=via"]].map(|words| table(words).len());
    assert_eq!((all, clock, via), (all, all - 7, all - 7));
    assert_eq!(table(&["--from", "offset:11", "--to", "offset:22"]).len(), 2);
    // Of a text a row has its line.
    let output = program(&["run", "--text", "-", "--refused", "--cells=256"], LAB.as_bytes());
    assert!(
        stdout(&output).contains("     569        6205     583          62165  5t DI"),
        "{}",
        stdout(&output)
    );
    for (words, said) in [
        (
            &["--from", "12"][..],
            "--from needs item:N, offset:N (bytes) or a number of VIA ticks as 12000t, not `12`",
        ),
        (&["--to", "item:"], "--to needs item:N"),
        (&["--to", "-3t"], "--to needs item:N"),
        (&["--to", "99999999999999999999t"], "--to needs item:N"),
        (&["--from=item:5", "--to=item:4"], "--from is after --to"),
        (&["--only", "keys"], "--only needs clock, via or disk"),
        (&["--json", "--csv"], "--json and --csv: give one of them"),
    ] {
        for command in ["run", "decode"] {
            let output = program(&[&[command, "-"][..], words].concat(), &records);
            assert_eq!(status(&output), 64, "{words:?}");
            assert!(stderr(&output).contains(said), "{words:?}: {}", stderr(&output));
            assert!(output.stdout.is_empty());
        }
    }
    for words in [
        &["run", "-", "--quiet", "--json"][..],
        &["run", "-", "--refused", "--quiet"],
        &["run", "-", "--answers", "/dev/null", "--refused"],
        &["decode", "-", "--only", "disk"],
    ] {
        assert_eq!(status(&program(words, &records)), 64, "{words:?}");
    }
}

/// A reader of one JSON object: names and values as they are written.
fn object(line: &str) -> Vec<(String, String)> {
    let mut rest =
        line.strip_prefix('{').and_then(|line| line.strip_suffix('}')).expect("an object");
    let mut all = Vec::new();
    while !rest.is_empty() {
        let name = value(&mut rest);
        rest = rest.strip_prefix(':').expect("a colon");
        all.push((name.trim_matches('"').to_string(), value(&mut rest)));
        rest = rest.strip_prefix(',').unwrap_or(rest);
    }
    all
}

/// The value that a text begins with.
fn value(rest: &mut &str) -> String {
    let (mut deep, mut quoted, mut escaped) = (0, false, false);
    let end = rest.char_indices().find(|&(_, c)| {
        if quoted {
            (quoted, escaped) = (escaped || c != '"', !escaped && c == '\\');
            return false;
        }
        match c {
            '"' => quoted = true,
            '[' => deep += 1,
            ']' => deep -= 1,
            ',' | ':' | '}' if deep == 0 => return true,
            _ => {}
        }
        false
    });
    let end = end.map_or(rest.len(), |(end, _)| end);
    let (value, left) = rest.split_at(end);
    *rest = left;
    value.to_string()
}

fn get<'a>(object: &'a [(String, String)], name: &str) -> &'a str {
    &object.iter().find(|(it, _)| it == name).unwrap_or_else(|| panic!("no {name}")).1
}

#[test]
fn json_and_csv_of_transactions() {
    let words = ["--text", "--cells", "256"];
    let json = decoded(&[&words[..], &["--json"]].concat(), LAB.as_bytes());
    let all: Vec<_> = json.lines().map(object).collect();
    assert_eq!(all.len(), 19);
    let fates: Vec<&str> = all.iter().map(|it| get(it, "fate")).collect();
    assert_eq!(
        fates[10..17],
        [
            "\"read\"",
            "\"written\"",
            "\"protected\"",
            "\"written\"",
            "\"half\"",
            "\"illegal\"",
            "\"read\""
        ]
    );
    let far = &all[6];
    for (name, wanted) in [
        ("first", "62"),
        ("second", "32"),
        ("target", "\"cell\""),
        ("index", "200"),
        ("byte", "51"),
        ("bits", "24"),
        ("start_line", "213"),
        ("start_via_ticks", "846"),
        ("start_seconds", "0.001079"),
        ("settled_item", "255"),
        ("end_item", "256"),
    ] {
        assert_eq!(get(far, name), wanted, "{name}");
    }
    assert_eq!(
        (get(&all[10], "date"), get(&all[10], "date_seconds")),
        ("\"1995-05-04 02:40:19\"", "2882400019")
    );
    assert_eq!(
        (get(&all[14], "needed_bits"), get(&all[14], "bits"), get(&all[14], "refused")),
        ("16", "13", "1")
    );
    assert_eq!(
        (
            get(&all[16], "seen"),
            get(&all[16], "seen_bits"),
            get(&all[16], "sent"),
            get(&all[16], "sent_bits")
        ),
        ("null", "5", "90", "5")
    );
    let csv = decoded(&[&words[..], &["--csv"]].concat(), LAB.as_bytes());
    let names: Vec<&str> = csv.lines().next().expect("a heading").split(',').collect();
    assert!(names.iter().copied().eq(all[0].iter().map(|(name, _)| name.as_str())));
    assert_eq!(csv.lines().count(), 20);
    assert!(csv.lines().all(|row| row.split(',').count() == names.len()), "{csv}");
    documented(&names);
}

/// Each name stands in docs/FORMATS.md.
fn documented(names: &[&str]) {
    let page = include_str!("../../../docs/FORMATS.md");
    for name in names {
        let plain = name.split('[').next().unwrap_or(name);
        assert!(page.contains(&format!("`{plain}`")), "{name} is not in docs/FORMATS.md");
    }
}

#[test]
fn json_and_csv_of_answers() {
    let list = "5t RD VIA.ORB\n0t RD IWM.LSTRB+\nRAW 05 00 53 45 00 00 00\n";
    let json = stdout(&program(&["run", "--text", "-", "--json"], list.as_bytes()));
    let wanted = concat!(
        r#"{"item":1,"offset":0,"line":1,"via_ticks":5,"record":"5t RD VIA.ORB","answer":"OK","value":255,"level":0,"sel":1,"lines_on":[],"refusal":null,"refusal_words":null}"#,
        "\n",
        r#"{"item":2,"offset":10,"line":2,"via_ticks":5,"record":"0t RD IWM.LSTRB+","answer":"OK","value":255,"level":0,"sel":1,"lines_on":["LSTRB"],"refusal":null,"refusal_words":null}"#,
        "\n",
        r#"{"item":3,"offset":20,"line":3,"via_ticks":5,"record":"RAW 05 00 53 45 00 00 00","answer":"NO","value":null,"level":null,"sel":null,"lines_on":null,"refusal":3,"refusal_words":"length wrong for the kind"}"#,
        "\n",
    );
    assert_eq!(json, wanted);
    let csv = stdout(&program(&["run", "--text", "-", "--csv"], list.as_bytes()));
    let wanted =
        "item,offset,line,via_ticks,record,answer,value,level,sel,lines_on,refusal,refusal_words\n\
                  1,0,1,5,5t RD VIA.ORB,OK,255,0,1,,,\n\
                  2,10,2,5,0t RD IWM.LSTRB+,OK,255,0,1,LSTRB,,\n\
                  3,20,3,5,RAW 05 00 53 45 00 00 00,NO,,,,,3,length wrong for the kind\n";
    assert_eq!(csv, wanted);
    documented(&csv.lines().next().expect("a heading").split(',').collect::<Vec<_>>());
    // A capture with half-sent, illegal, protected and extended transactions, as the library answers it.
    let words = ["run", "--text", "-", "--json", "--cells=256"];
    let json = stdout(&program(&words, LAB.as_bytes()));
    let records = assemble(LAB).expect("in the form");
    let mut machine = Machine::fresh(Chip::Later);
    let transcript = machine.run_items(&records);
    assert_eq!(json.lines().count(), transcript.iter().count());
    let mut offset = 0;
    for (row, done) in json.lines().map(object).zip(&transcript) {
        assert_eq!(get(&row, "offset"), offset.to_string());
        offset += done.record.len();
        let record = done.item.map(|timed| timed.to_string()).expect("items alone");
        assert_eq!(get(&row, "record"), format!("\"{record}\""));
        match done.answer {
            Answer::No(refusal) => assert_eq!(get(&row, "refusal"), refusal.number().to_string()),
            Answer::Ok(seen) => {
                let read = record.contains(" RD ");
                let value = if read { seen.value.to_string() } else { "null".into() };
                assert_eq!((get(&row, "answer"), get(&row, "value")), ("\"OK\"", &*value));
                assert_eq!(get(&row, "level"), seen.level.to_string());
            }
        }
    }
    // Bytes to a file, and rows beside them.
    let folder = Folder::new("decode-answers");
    let output = shell(&folder, "exec \"$0\" run --text - --csv --answers a", &[], list.as_bytes());
    assert_eq!((stdout(&output), folder.get("a").len()), (csv, 24));
}

#[test]
fn summaries() {
    let words = ["summary", "--text", "-", "--cells", "256"];
    let shown = stdout(&program(&words, LAB.as_bytes()));
    let last = "  clock chip    19 transactions: 9 written, 1 kept out by protect, 1 half sent, 1 illegal, 7 read\n";
    assert!(shown.ends_with(last), "{shown}");
    let by_run = stderr(&program(&["run", "--text", "-", "--cells=256"], LAB.as_bytes()));
    assert_eq!(shown.strip_suffix(last), Some(by_run.as_str()));
    let json = stdout(&program(&[&words[..], &["--json"]].concat(), LAB.as_bytes()));
    let all = object(json.trim_end());
    for (name, wanted) in [
        ("stop", "0"),
        ("refused_8", "1"),
        ("refused_8_first_line", "583"),
        ("refused_3_first_item", "null"),
        ("cells_changed", "[3,200]"),
        ("transactions_half", "1"),
        ("transactions_nothing", "0"),
        ("transactions_open", "0"),
        ("clock_seconds_after", "2882400019"),
        ("protect_after", "false"),
    ] {
        assert_eq!(get(&all, name), wanted, "{name}");
    }
    let csv = stdout(&program(&[&words[..], &["--csv"]].concat(), LAB.as_bytes()));
    assert!(csv.starts_with("field,value\nstop,0\n"), "{csv}");
    assert!(csv.contains("\ncells_changed[1],200\n"), "{csv}");
    let numbered = |name: &str| {
        name.strip_prefix("refused_")
            .is_some_and(|rest| rest.starts_with(|c: char| c.is_ascii_digit()))
    };
    documented(
        &all.iter()
            .map(|(name, _)| name.as_str())
            .filter(|name| !numbered(name))
            .collect::<Vec<_>>(),
    );
    // A cut capture: what comes before is counted.
    let cut = program(&["summary", "-"], &[&SECOND[..], &[9]].concat());
    assert_eq!(status(&cut), 1);
    assert!(stdout(&cut).starts_with("stop 1 (record cut short): 2 answers"), "{}", stdout(&cut));
    // SN on a retired register is counted too.
    let retired = stdout(&program(&["summary", "--text", "-"], b"0t SN internal 0 1\n"));
    assert!(retired.contains("    NO 9        1 item"), "{retired}");
}

#[test]
fn images_as_values() {
    let folder = Folder::new("decode-image");
    let image = folder.path("st");
    for chip in Chip::BOTH {
        let cells = chip.cells().to_string();
        let words = ["run", "--text", "-", "--quiet", "--cells", &cells, "--save", &image];
        program(&words, LAB.as_bytes());
        let json = stdout(&program(&["image", &image, "--json"], b""));
        let all = object(json.trim_end());
        assert_eq!(json.lines().count(), 1);
        assert_eq!(get(&all, "seconds"), "2882400019");
        assert_eq!(get(&all, "date"), "\"1995-05-04 02:40:19\"");
        assert_eq!(get(&all, "chip_cells"), cells);
        assert!(get(&all, "cells").starts_with("[0,0,0,90,"), "{json}");
        assert_eq!(get(&all, "cells").split(',').count(), chip.cells());
        let csv = stdout(&program(&["image", "--csv", &image], b""));
        assert!(csv.contains("\ncells[3],90\n"), "{csv}");
        documented(
            &all.iter()
                .map(|(name, _)| {
                    name.as_str().trim_start_matches("external_").trim_start_matches("internal_")
                })
                .collect::<Vec<_>>(),
        );
    }
    assert_eq!(status(&program(&["image", &image, "--json", "--csv"], b"")), 64);
}

fn compared(folder: &Folder, words: &str) -> (i32, String) {
    let done = shell(folder, &format!("exec \"$0\" diff {words}"), &[], b"");
    assert_eq!(stderr(&done), "");
    (status(&done), stdout(&done))
}

#[test]
fn two_captures() {
    let folder = Folder::new("diff");
    folder.put("a", LAB.as_bytes());
    folder.put("b", LAB.as_bytes());
    let same = "the records are the same: 743 items\nthe answers are the same\nthe states reached are the same\n";
    assert_eq!(compared(&folder, "--text --cells 256 a b"), (0, same.to_string()));
    // Another byte is written: the answer is seen where it is read.
    let at = LAB.find("; Cell 200").expect("there");
    let other = LAB[..at].replacen(
        "4t WR VIA.ORB $01\n4t WR VIA.ORB $03         ; a rise: bit 1",
        "4t WR VIA.ORB $00\n4t WR VIA.ORB $02         ; a rise: bit 0",
        13,
    );
    let other = other + &LAB[at..];
    folder.put("b", other.as_bytes());
    let (status, shown) = compared(&folder, "--text --cells 256 a b");
    assert_eq!(status, 1);
    assert!(shown.starts_with("the records first differ at item "), "{shown}");
    assert!(shown.contains("the states first differ after item "), "{shown}");
    assert!(shown.contains("\nthe states reached differ:\n  field "), "{shown}");
    // Records that differ in nothing: a refused one in place of another.
    folder.put("a", b"0t SE\nRAW 02 00 5A 5A\n1t SE\n");
    folder.put("b", b"0t SE\nRAW 02 00 5B 5A\n1t SE\n");
    let wanted = "the records first differ at item 2:\n  a: byte 6, line 2, after 0 VIA ticks: RAW 02 00 5A 5A\n  \
                  b: byte 6, line 2, after 0 VIA ticks: RAW 02 00 5B 5A\nthe answers are the same\nthe states reached are the same\n";
    assert_eq!(compared(&folder, "--text a b"), (0, wanted.to_string()));
    // The state first, then the answer.
    folder.put(
        "a",
        b"0t SE\n0t WR VIA.ORA 1\n9t VB\n3t RD VIA.SR\n0t WR VIA.DDRA $FF\n2t RD VIA.ORA\n",
    );
    folder.put(
        "b",
        b"0t SE\n0t WR VIA.ORA 2\n9t VB\n3t RD VIA.SR\n0t WR VIA.DDRA $FF\n2t RD VIA.ORA\n",
    );
    let wanted = "the records first differ at item 2:\n  \
        a: byte 6, line 2, after 0 VIA ticks: 0t WR VIA.ORA $01\n  \
        b: byte 6, line 2, after 0 VIA ticks: 0t WR VIA.ORA $02\n\
        the answers first differ at item 6:\n  \
        a: byte 44, line 6, after 14 VIA ticks: 2t RD VIA.ORA: OK: value $01, level 0, SEL 0, lines on -\n  \
        b: byte 44, line 6, after 14 VIA ticks: 2t RD VIA.ORA: OK: value $02, level 0, SEL 0, lines on -\n\
        the states first differ after item 2: port_a_out\n\
        the states reached differ:\n  \
        field          a    b\n  \
        port_a_out     $01  $02\n  \
        port_a_levels  $01  $02\n";
    assert_eq!(compared(&folder, "--text a b"), (1, wanted.to_string()));
    let manual = include_str!("../../../docs/MANUAL.md");
    assert!(wanted.lines().all(|line| manual.contains(line)), "the manual shows it");
    // One is longer; one is cut.
    folder.put("a", &SECOND.repeat(50_000));
    folder.put("b", &SECOND.repeat(50_001));
    let (status, shown) = compared(&folder, "a b");
    assert_eq!(status, 1);
    let more = "the records first differ at item 50,001:\n  a: no more\n  b: byte 300,000, after 50,001 VIA ticks: 1t SE\n";
    assert!(shown.starts_with(more), "{shown}");
    assert!(shown.contains("\n  seconds               50000                50001\n"), "{shown}");
    folder.put("b", &[&SECOND.repeat(50_000)[..], &[7]].concat());
    let (status, shown) = compared(&folder, "a b");
    assert_eq!(status, 1);
    assert!(shown.ends_with("b: record cut short; the rest is not run\n"), "{shown}");
}

/// Where a byte of a state stands in an image.
fn place_of(image: &[u8], read: impl Fn(&State) -> u8) -> usize {
    let sets = |&at: &usize| {
        let mut image = image.to_vec();
        image[at] = 7;
        Machine::from_image(&image).is_ok_and(|machine| read(&machine.state()) == 7)
    };
    (4..image.len()).find(sets).expect("a byte of the image")
}

#[test]
fn two_images() {
    let folder = Folder::new("diff-images");
    for (name, chip) in [("a", Chip::First), ("b", Chip::First), ("c", Chip::Later)] {
        folder.put(name, Machine::fresh(chip).image());
    }
    assert_eq!(compared(&folder, "a b"), (0, "the images are the same\n".into()));
    let (status, shown) = compared(&folder, "a c");
    assert_eq!(status, 1);
    assert!(shown.contains("\n  chip_cells   20   256\n"), "{shown}");
    assert!(shown.contains("\n  cells[20]    -    $00\n") && shown.contains(" more\n"), "{shown}");
    let mut image = folder.get("a");
    let (cell, track) =
        (place_of(&image, |state| state.cells[0]), place_of(&image, |state| state.drives[0].track));
    (image[cell], image[track]) = (0xAA, 79);
    folder.put("b", &image);
    let wanted = "the images differ:\n  field           a    b\n  cells[0]        $00  $AA\n  internal_track  0    79\n";
    assert_eq!(compared(&folder, "a b"), (1, wanted.to_string()));
    // Every byte that an accepted image may have is seen.
    for offset in 4..image.len() {
        let mut other = image.clone();
        other[offset] ^= 1;
        if Machine::from_image(&other).is_ok() {
            folder.put("a", &other);
            assert_eq!(compared(&folder, "a b").0, 1, "byte {offset}");
        }
    }
    folder.put("list", &SECOND);
    let mixed = shell(&folder, "exec \"$0\" diff a list", &[], b"");
    assert_eq!(common::status(&mixed), 65);
    assert!(stderr(&mixed).contains("a state image, and list is none"), "{}", stderr(&mixed));
    for (words, wanted) in [("a", 64), ("a b c", 64), ("a absent", 74), ("- -", 64)] {
        assert_eq!(
            common::status(&shell(&folder, &format!("exec \"$0\" diff {words}"), &[], b"")),
            wanted,
            "{words}"
        );
    }
}

/// A file is whole or not there; a closed pipe is no error; a cut record is a status.
#[test]
fn outputs() {
    let folder = Folder::new("decode-files");
    let records = assemble(LAB).expect("in the form");
    folder.put("list", &records);
    let done = shell(&folder, "exec \"$0\" decode list -o rows --cells=256", &[], b"");
    assert_eq!((status(&done), stdout(&done)), (0, String::new()));
    assert_eq!(folder.get("rows"), decoded(&LATER, &records).into_bytes());
    for command in ["decode", "summary", "report"] {
        let script = format!("exec \"$0\" {command} list -o list");
        assert_eq!(status(&shell(&folder, &script, &[], b"")), 64, "{command}");
        let script = format!("exec \"$0\" {command} --text wrong -o new");
        folder.put("wrong", b"0t SE\n5 SE\n");
        assert_eq!(status(&shell(&folder, &script, &[], b"")), 65, "{command}");
        let cut = [&records[..], &[9, 0]].concat();
        let done = program(&[command, "-", "-o", &folder.path("cut")], &cut);
        assert_eq!(status(&done), 1, "{command}: {}", stderr(&done));
        assert!(!folder.get("cut").is_empty());
        assert_eq!(status(&program(&[command, "absent"], b"")), 74);
        assert_eq!(status(&program(&[command], b"")), 64);
    }
    assert_eq!(folder.names(), ["cut", "list", "rows", "wrong"]);
    assert_eq!(folder.get("list"), records);
    folder.put("long", &records.repeat(100));
    let script = "\"$0\" decode long | head -n 2; \"$0\" decode long > /dev/full; echo $?";
    let done = shell(&folder, script, &[], b"");
    let said = stdout(&done);
    assert!(said.ends_with("\n74\n"), "{said}");
    assert_eq!(said.lines().count(), 3, "{said}");
}

/// Decode, report and summary take at most three times as long as a quiet run. The best of some runs, on
/// 12 MB; each run has at least a few hundredths of a second to be measured.
#[test]
fn at_most_three_times_a_quiet_run() {
    let folder = Folder::new("decode-time");
    let records = assemble(LAB).expect("in the form");
    let file = folder.put("list", &records.repeat(12_000_000 / records.len()));
    let time = |words: &[&str]| {
        let once = || {
            let start = Instant::now();
            let done = feed(Command::new(PROGRAM).args(words).arg(&file), b"");
            assert_eq!(status(&done), 0);
            start.elapsed()
        };
        (0..5).map(|_| once()).min().unwrap_or(Duration::ZERO)
    };
    let page = folder.path("page.html");
    for attempt in 0..4 {
        let quiet = time(&["run", "--quiet", "--cells=256"]);
        let others = [
            ("decode", time(&["decode", "--cells=256", "-o", "/dev/null"])),
            ("report", time(&["report", "--cells=256", "-o", &page])),
            ("summary", time(&["summary", "--cells=256"])),
        ];
        let ratios = others.map(|(name, took)| (name, took.as_secs_f64() / quiet.as_secs_f64()));
        if ratios.iter().all(|(_, ratio)| *ratio <= 3.0) {
            return;
        }
        assert!(attempt < 3, "against {quiet:?}: {ratios:.2?}");
    }
}

/// 32 MB of address space are enough for any length.
#[test]
fn fixed_memory() {
    let folder = Folder::new("decode-memory");
    let records = assemble(LAB).expect("in the form");
    folder.put("list", &records.repeat(20_000_000 / records.len()));
    for command in ["decode", "summary", "report", "decode --json", "diff list"] {
        let script = format!("ulimit -v 32768; exec \"$0\" {command} list > out");
        let done = shell(&folder, &script, &[], b"");
        assert_eq!(status(&done), 0, "{command}: {}", stderr(&done));
    }
}
