//! The command line, run as a program.

mod common;

use common::{feed, program, status, stderr, stdout, Folder, PROGRAM};
use std::collections::HashMap;
use std::io::Write;
use std::process::{Command, Stdio};
use swarmtempo::{
    answers, pieces, Address, Answer, Chip, Item, List, Machine, Piece, Refusal, Register, State,
    WaitTicks,
};

fn port_b(value: u8) -> Item {
    Item::Write(Address::Via(Register::ORB), value)
}

/// Sets cell 0 to $AA.
fn transaction() -> List {
    clock_write(0x41, 0xAA)
}

/// A write command of the clock chip, and its byte.
fn clock_write(command: u8, byte: u8) -> List {
    let mut list = List::new();
    list.push(WaitTicks(0), port_b(4));
    list.push(WaitTicks(0), Item::Write(Address::Via(Register::DDRB), 7));
    list.push(WaitTicks(1), port_b(0));
    for i in (0..16).rev() {
        let bit = (u16::from_be_bytes([command, byte]) >> i & 1) as u8;
        list.push(WaitTicks(1), port_b(bit));
        list.push(WaitTicks(1), port_b(bit | 2));
    }
    list.push(WaitTicks(1), port_b(4));
    list
}

#[test]
fn asm_and_disasm() {
    let folder = Folder::new("asm");
    let mut list = transaction();
    list.push_raw(&[5, 0, b'S', b'E', 0, 0, 0, 1, 0, 9, 9, 9]);
    let bytes = folder.put("list", list.as_bytes());
    let text = folder.path("text");
    assert_eq!(status(&program(&["disasm", &bytes, "-o", &text], b"")), 0);
    assert_eq!(status(&program(&["asm", &text, "-o", &folder.path("again")], b"")), 0);
    assert_eq!(folder.get("again"), list.as_bytes());
    let piped = program(&["disasm"], list.as_bytes());
    assert_eq!(piped.stdout, folder.get("text"));
    assert_eq!(program(&["asm"], &piped.stdout).stdout, list.as_bytes());
}

#[test]
fn a_wrong_line_leaves_nothing() {
    let folder = Folder::new("wrong");
    let text = folder.put("text", b"0t SE\n0t SE\n0t PW 5\n");
    let runs = [
        program(&["asm", &text, "-o", &folder.path("out")], b""),
        program(&["asm", &text], b""),
        program(&["run", &text, "--text", "--save", &folder.path("image")], b""),
        program(&["run", "--text", &text, "--vcd", &folder.path("vcd")], b""),
        program(&["run", "--text", &text, "--answers", &folder.path("answers")], b""),
    ];
    for output in runs {
        assert_eq!(status(&output), 65);
        assert!(output.stdout.is_empty());
        assert!(stderr(&output).contains("text:3:7: "), "{}", stderr(&output));
    }
    let piped = program(
        &["run", "--text", "-", "--answers", &folder.path("answers")],
        b"0t SE\nRAW \xFF\n",
    );
    assert_eq!(status(&piped), 65);
    assert!(stderr(&piped).contains("standard input:2:5: "), "{}", stderr(&piped));
    assert_eq!(folder.names(), ["text"]);
}

#[test]
fn exit_statuses() {
    let folder = Folder::new("status");
    let list = folder.put("list", transaction().as_bytes());
    let cut = folder.put("cut", &transaction().as_bytes()[..30]);
    let bad = folder.put("bad", &[0; 124]);
    for (words, expected) in [
        (&["run", &list][..], 0),
        (&["run", &cut], 1),
        (&["run", &list, "--room", "20"], 6),
        (&["run", &list, "--image", &bad], 7),
        (&["image", &bad], 7),
        (&["run"], 64),
        (&["run", &list, &list], 0),
        (&["run", &list, &cut, &bad], 1),
        (&["disasm", &list, &list], 64),
        (&["run", &list, "--rom", "5"], 64),
        (&["run", &list, "--room", "x"], 64),
        (&["run", &list, "--save"], 64),
        (&["fly"], 64),
        (&[], 0),
        (&["run", &folder.path("missing")], 74),
        (&["run", &list, "--save", &folder.path("no/folder")], 74),
        (&["help"], 0),
        (&["version"], 0),
    ] {
        let output = program(words, b"");
        assert_eq!(status(&output), expected, "{words:?}: {}", stderr(&output));
    }
    assert_eq!(folder.names(), ["bad", "cut", "list"]);
}

/// Records of many lengths across the chunks; answers, image and counts equal one run's.
#[test]
fn long_lists_equal_one_run() {
    let folder = Folder::new("long");
    let mut list = List::new();
    for i in 0..60_000u32 {
        match i % 5 {
            0 => list.push(WaitTicks(i as u16), Item::Second),
            1 => list.push(WaitTicks(3), port_b(i as u8)),
            2 => list.push(WaitTicks(0), Item::Read(Address::Via(Register::T1CL))),
            3 => list.push_raw(&[5, 0, b'S', b'E', 0, 0, 0]),
            _ => list.push(WaitTicks(9), Item::Write(Address::Via(Register::DDRB), i as u8)),
        };
        if i % 10_000 == 7 {
            list.push_raw(&[0xFF, 0xFF]).push_raw(&[b'x'; 65_535]);
        }
    }
    list.push_raw(&[9, 0, b'W']);
    let mut machine = Machine::fresh(Chip::First);
    let mut expected = Vec::new();
    let run = machine.run(list.as_bytes(), &mut expected);
    assert_eq!(run.stop, Some(Refusal::Cut));
    let file = folder.put("list", list.as_bytes());
    let (raw, image) = (folder.path("answers"), folder.path("image"));
    let output = program(&["run", &file, "--answers", &raw, "--save", &image], b"");
    assert_eq!(status(&output), 1);
    assert!(folder.get("answers") == expected);
    assert_eq!(folder.get("image"), machine.image());
    let counts = format!("{} bytes consumed, {} bytes written", run.consumed, run.written);
    assert!(
        stderr(&output).replace(',', "").contains(&counts.replace(',', "")),
        "{}",
        stderr(&output)
    );
    let piped = program(&["run", "-", "--answers", "-", "--quiet"], list.as_bytes());
    assert!(piped.stdout == expected);
    let text = program(&["disasm"], list.as_bytes()).stdout;
    let from_text = program(&["run", "-", "--text", "--answers", "-", "--quiet"], &text);
    assert!(from_text.stdout == expected);
    // The room counts over all chunks.
    let room = expected.len() - 24 + 5;
    let short = program(&["run", &file, "--answers", "-", "--room", &room.to_string()], b"");
    assert_eq!(status(&short), 6);
    assert!(short.stdout[..] == expected[..expected.len() - 24]);
}

/// 100 MB, as records and as text, in 32 MB of address space.
#[test]
fn runs_in_fixed_memory() {
    let folder = Folder::new("memory");
    let script = "ulimit -v 32768; exec \"$0\" run - $1 --answers /dev/null --save image";
    let (record, line) = ([4, 0, b'S', b'E', 1, 0], b"1t SE ; a one-second tick, 1 VIA tick on\n");
    for (option, part) in [("", &record[..]), ("--text", line)] {
        let rounds = u32::try_from(100_000_000 / (part.len() * 10_000)).expect("some thousands");
        let mut command = Command::new("sh");
        command.args(["-c", script, PROGRAM, option]).current_dir(&folder.0);
        let command = command.stdin(Stdio::piped()).stderr(Stdio::piped());
        let mut child = command.spawn().expect("started");
        let mut list = child.stdin.take().expect("piped");
        let many = part.repeat(10_000);
        (0..rounds).for_each(|_| list.write_all(&many).expect("taken"));
        drop(list);
        let output = child.wait_with_output().expect("ended");
        assert_eq!(status(&output), 0, "{option}: {}", stderr(&output));
        let machine = Machine::from_image(&folder.get("image")).expect("accepted");
        assert_eq!(machine.state().seconds.0, 10_000 * rounds);
    }
}

#[test]
fn table_for_people() {
    let text = b"0t WR VIA.IER $81\n12t SE\n0t RD VIA.IFR\nRAW 05 00 53 45 00 00 00\n0t RD IWM.Q6+";
    let output = program(&["run", "-", "--text"], text);
    let table = stdout(&output);
    let rows: Vec<&str> = table.lines().collect();
    assert_eq!(rows.len(), 6);
    let words = |row: &str| row.split_whitespace().map(String::from).collect::<Vec<_>>();
    // Item, byte offset, line, VIA ticks, the record and its answer.
    assert_eq!(words(rows[3]), ["3", "17", "3", "12", "0t", "RD", "VIA.IFR", "$81", "1", "1", "-"]);
    assert!(rows[4].ends_with("NO 3: length wrong for the kind"));
    assert!(rows[5].ends_with("Q6"));
}

#[test]
fn image_in_words() {
    let folder = Folder::new("words");
    let bytes = transaction();
    let half = folder.put("half", &bytes.as_bytes()[..11 * (3 + 2 * 11)]);
    let image = folder.path("image");
    assert_eq!(status(&program(&["run", &half, "--save", &image, "--quiet"], b"")), 0);
    let words = stdout(&program(&["image", &image], b""));
    let expected = "command   $41 (write cell 0): 3 bits, 101 of the data taken";
    assert!(words.contains(expected), "{words}");
    assert!(words.contains("1904-01-01 00:00:00"), "{words}");
    assert!(words.contains("cells     $00: 00 00"), "{words}");
    let rest = folder.put("rest", &bytes.as_bytes()[11 * (3 + 2 * 11)..]);
    let end = folder.path("end");
    let words = ["run", &rest, "--image", &image, "--save", &end, "--quiet"];
    assert_eq!(status(&program(&words, b"")), 0);
    assert_eq!(Machine::from_image(&folder.get("end")).expect("accepted").state().cells[0], 0xAA);
}

#[test]
fn drives_lines_and_test_in_words() {
    let folder = Folder::new("words-drives");
    let words_after = |name: &str, list: &[u8], text: bool| {
        let (list, image) = (folder.put(name, list), folder.path("image"));
        let mut words = vec!["run", &list, "--save", &image, "--quiet"];
        words.extend(text.then_some("--text"));
        assert_eq!(status(&program(&words, b"")), 0);
        stdout(&program(&["image", &image], b""))
    };
    let lines: Vec<&str> = SEEK.lines().collect();
    let until = |text: &str| {
        let at = lines.iter().position(|line| line.contains(text)).expect("there");
        lines[..at].join("\n")
    };
    let words = words_after("stepping", until("9400t").as_bytes(), true);
    let stepping = "internal  track 0, towards track 79, disk, double-sided, motor on, \
                    stepping towards track 79 with 9401 VIA ticks left\n";
    assert!(words.contains(stepping), "{words}");
    let external = "external  track 0, towards track 79, no disk, single-sided, motor off\n";
    assert!(words.contains(external), "{words}");
    assert!(words.contains("IN 5      0 (serial chip asks)\n"), "{words}");
    assert!(words.contains("IN 6      0 (programmer's switch)\n"), "{words}");
    assert!(words.contains("level     0\n"), "{words}");
    let words = words_after("asking", until("1t IN 5 0").as_bytes(), true);
    assert!(words.contains("IN 5      1 (serial chip asks)\n"), "{words}");
    assert!(words.contains("IN 6      1 (programmer's switch)\n"), "{words}");
    assert!(words.contains("level     6\n"), "{words}");
    assert!(words.contains("internal  track 2, "), "{words}");
    assert!(words.contains("external  track 1, "), "{words}");
    let words = words_after("strobe", (until("65280t") + "\n500t VB\n").as_bytes(), true);
    assert!(words.contains("strobe    steady for 500 VIA ticks\n"), "{words}");
    // Test bit 7 or 6 stops the seconds, and no other bit.
    for test in [0x00, 0x3F, 0x40, 0x80, 0xC1] {
        let mut list = clock_write(0x31, test);
        list.push(WaitTicks(0), Item::Second);
        let words = words_after("test", list.as_bytes(), false);
        let (stopped, seconds) = if test < 64 { ("", 1) } else { (" (seconds stopped)", 0) };
        assert!(words.contains(&format!("test      ${test:02X}{stopped}\n")), "{words}");
        assert!(words.contains(&format!("seconds   {seconds} seconds: ")), "{words}");
    }
}

#[test]
fn value_change_dump() {
    let folder = Folder::new("vcd");
    let list = folder.put("list", transaction().as_bytes());
    let vcd = folder.path("vcd");
    assert_eq!(status(&program(&["run", &list, "--vcd", &vcd, "--quiet"], b"")), 0);
    let text = String::from_utf8(folder.get("vcd")).expect("UTF-8");
    let (head, body) = text.split_once("$enddefinitions $end\n").expect("a head");
    let code = |name: &str| {
        let line = head.lines().find(|line| line.ends_with(&format!(" {name} $end")));
        line.expect(name).split(' ').nth(3).expect("a code").to_string()
    };
    let rises =
        |name: &str| body.lines().filter(|&line| line == format!("1{}", code(name))).count();
    assert_eq!(rises("data_clock"), 1 + 16, "undriven at the start, then 16 bits");
    assert_eq!(rises("enable"), 2);
    let decoded: Vec<&str> = body.lines().filter(|line| line.starts_with('s')).collect();
    let decoded: Vec<&str> = decoded.iter().map(|line| line.split(' ').next().unwrap()).collect();
    assert_eq!(decoded, ["sidle", "scommand", "swrite_cell_0", "swrite_cell_0_=_$AA", "sidle"]);
    let times = body.lines().filter_map(|line| line.strip_prefix('#'));
    let times: Vec<u64> = times.map(|time| time.parse().expect("a time")).collect();
    assert!(times.windows(2).all(|pair| pair[0] < pair[1]), "{times:?}");
    // 34 waits of one tick each.
    assert_eq!(times[times.len() - 2], 34 * 1_000_000_000 / 783_360);
}

/// The numbers of a dump over time: for each track its changes, with their times in nanoseconds.
struct Dump {
    tracks: HashMap<String, Vec<(u64, u64)>>,
    times: Vec<u64>,
}

impl Dump {
    fn of(text: &str) -> Dump {
        let mut names = HashMap::new();
        let mut dump = Dump { tracks: HashMap::new(), times: Vec::new() };
        for line in text.lines() {
            let words: Vec<&str> = line.split(' ').collect();
            if let ["$var", _, bits, code, name, "$end"] = words[..] {
                let before = names.insert(code, (name, bits.parse::<u32>().expect("bits")));
                assert!(before.is_none(), "one track for {code}");
                let before = dump.tracks.insert(name.to_string(), Vec::new());
                assert!(before.is_none(), "one track named {name}");
            } else if let Some(time) = line.strip_prefix('#') {
                dump.times.push(time.parse().expect("a time"));
            } else if !line.starts_with(['$', 's']) {
                let (value, code) = match words[..] {
                    [value, code] => (value.strip_prefix('b').expect("a vector"), code),
                    _ => line.split_at(1),
                };
                let (name, bits) = names[code];
                assert!(value.len() <= bits as usize, "{line}");
                let value = u64::from_str_radix(value, 2).expect("a number");
                let time = *dump.times.last().expect("a time before a change");
                dump.tracks.get_mut(name).expect("named").push((time, value));
            }
        }
        dump
    }

    fn values(&self, name: &str) -> Vec<u64> {
        self.tracks[name].iter().map(|&(_, value)| value).collect()
    }

    /// What a track shows at a time.
    fn at(&self, name: &str, time: u64) -> u64 {
        let until = self.tracks[name].iter().take_while(|change| change.0 <= time);
        until.last().expect("shown from the start").1
    }

    /// Every track of a state that is not about a transaction.
    fn shows(&self, state: &State, time: u64) {
        for (name, drive) in ["internal", "external"].iter().zip(&state.drives) {
            for (what, value) in [
                ("disk", u64::from(drive.disk)),
                ("motor", u64::from(drive.motor)),
                ("step", u64::from(drive.step_left.0 > 0)),
                ("track", u64::from(drive.track)),
            ] {
                assert_eq!(self.at(&format!("{name}_{what}"), time), value, "{name} {what} {time}");
            }
        }
        let wires = state.wires();
        for (name, value) in [
            ("enable", u64::from(wires.enable)),
            ("data_clock", u64::from(wires.data_clock)),
            ("data", u64::from(wires.data)),
            ("serial_chip", u64::from(state.inputs[5])),
            ("switch", u64::from(state.inputs[6])),
            ("level", u64::from(state.level())),
            ("SEL", u64::from(state.sel())),
            ("seconds", u64::from(state.seconds.0)),
            ("seconds_stopped", u64::from(state.test >= 64)),
        ] {
            assert_eq!(self.at(name, time), value, "{name} {time}");
        }
        for line in swarmtempo::DiskLine::ALL {
            let on = u64::from(state.lines.on(line));
            assert_eq!(self.at(line.name(), time), on, "{} {time}", line.name());
        }
    }
}

/// The nanosecond that so many VIA ticks end in.
fn nanoseconds(ticks: u64) -> u64 {
    ticks * 1_000_000_000 / 783_360
}

/// Motor on and steps of both drives, two lines of IN, a step that a power cut drops, an eject.
const SEEK: &str = include_str!("../../captures/seek.txt");

#[test]
fn drives_in_the_dump() {
    let folder = Folder::new("drives");
    let list = folder.put("list", SEEK.as_bytes());
    let vcd = folder.path("vcd");
    let output = program(&["run", &list, "--text", "--vcd", &vcd, "--quiet"], b"");
    assert_eq!(status(&output), 0, "{}", stderr(&output));
    let dump = Dump::of(&String::from_utf8(folder.get("vcd")).expect("UTF-8"));
    for (name, values) in [
        ("internal_disk", &[0, 1, 0][..]),
        ("internal_motor", &[0, 1, 0, 1, 0]),
        ("internal_step", &[0, 1, 0, 1, 0, 1, 0]),
        ("internal_track", &[0, 1, 2]),
        ("external_disk", &[0]),
        ("external_motor", &[0]),
        ("external_step", &[0, 1, 0]),
        ("external_track", &[0, 1]),
        ("serial_chip", &[0, 1, 0]),
        ("switch", &[0, 1, 0]),
        ("level", &[0, 2, 6, 4, 0]),
        ("refused", &[0, 8, 0]),
        ("seconds_stopped", &[0]),
    ] {
        assert_eq!(dump.values(name), values, "{name}");
    }
    // Steps begin and end where the ticks say; one that ends within a wait shows at its end.
    let times = |name: &str| dump.tracks[name].iter().map(|change| change.0).collect::<Vec<_>>();
    let track: Vec<u64> = [0, 9_421, 29_440].map(nanoseconds).into();
    assert_eq!(times("internal_track"), track);
    let step: Vec<u64> = [0, 20, 9_421, 9_440, 29_440].map(nanoseconds).into();
    assert_eq!(times("internal_step")[..5], step);
    let track: Vec<u64> = [0, 38_901].map(nanoseconds).into();
    assert_eq!(times("external_track"), track);
    // The dump replayed beside the library, item by item.
    let records = program(&["asm", &list], b"").stdout;
    let mut machine = Machine::fresh(Chip::First);
    dump.shows(&machine.state(), 0);
    assert_eq!(dump.times.len(), 2 + pieces(&records).count());
    for (piece, &time) in pieces(&records).zip(&dump.times[1..]) {
        let (Piece::Record(bytes) | Piece::Rest(bytes)) = piece;
        assert!(machine.run(bytes, &mut Vec::new()).at_end());
        dump.shows(&machine.state(), time);
    }
}

/// Test bit 6 stops the seconds.
#[test]
fn stopped_seconds_in_the_dump() {
    let mut list = List::new();
    list.push(WaitTicks(0), Item::Second);
    list.push_raw(clock_write(0x31, 0x40).as_bytes());
    list.push(WaitTicks(0), Item::Second);
    list.push_raw(clock_write(0x31, 0x3F).as_bytes());
    list.push(WaitTicks(0), Item::Second);
    let output = program(&["run", "-", "--vcd", "-", "--quiet"], list.as_bytes());
    assert_eq!(status(&output), 0, "{}", stderr(&output));
    let dump = Dump::of(&stdout(&output));
    assert_eq!(dump.values("seconds_stopped"), [0, 1, 0]);
    assert_eq!(dump.values("seconds"), [0, 1, 2]);
}

/// A dump goes on from an image with all the tracks of the first part's end.
#[test]
fn a_dump_from_an_image() {
    let folder = Folder::new("vcd-image");
    let lines: Vec<&str> = SEEK.lines().collect();
    let at = lines.iter().position(|line| line.contains("9400t")).expect("there");
    let first = folder.put("first", lines[..at].join("\n").as_bytes());
    let (image, vcd) = (folder.path("image"), folder.path("vcd"));
    let words = ["run", &first, "--text", "--save", &image, "--quiet"];
    assert_eq!(status(&program(&words, b"")), 0);
    let words = ["run", "-", "--text", "--image", &image, "--vcd", &vcd, "--quiet"];
    assert_eq!(status(&program(&words, b"9401t VB\n")), 0);
    let dump = Dump::of(&String::from_utf8(folder.get("vcd")).expect("UTF-8"));
    dump.shows(&Machine::from_image(&folder.get("image")).expect("accepted").state(), 0);
    assert_eq!(dump.tracks["internal_step"], [(0, 1), (nanoseconds(9_401), 0)]);
    assert_eq!(dump.tracks["internal_track"], [(0, 0), (nanoseconds(9_401), 1)]);
    assert_eq!(dump.tracks["internal_motor"], [(0, 1)]);
}

/// Text to records between two pipes, more than the memory, and back.
#[test]
fn converts_in_fixed_memory() {
    let script = "yes '1t SE' | head -n 3000000 | (ulimit -v 32768; \"$0\" asm) | \
                  (ulimit -v 32768; \"$0\" disasm) | uniq -c";
    let output = feed(Command::new("sh").args(["-c", script, PROGRAM]), b"");
    assert_eq!(stdout(&output).trim(), "3000000 1t SE", "{}", stderr(&output));
    let folder = Folder::new("memory-text");
    let list = folder.put("list.txt", &b"1t SE\n".repeat(2_500_000));
    let script = "ulimit -v 32768; \"$0\" asm \"$1\" | wc -c; \
                  exec \"$0\" run --text \"$1\" --quiet --strict --save /dev/null";
    let output = feed(Command::new("sh").args(["-c", script, PROGRAM, &list]), b"");
    assert_eq!((status(&output), stdout(&output).trim()), (0, "15000000"), "{}", stderr(&output));
}

/// A dump longer than the memory, with drives that change at every item.
#[test]
fn dumps_in_fixed_memory() {
    let disk = |insert| [8, 0, b'D', b'I', 1, 0, 1, insert, 0, 0];
    let input = [disk(1), disk(0)].concat().repeat(600_000);
    let script = "ulimit -v 32768; \"$0\" run - --quiet --vcd - | tail -c 200";
    let output = feed(Command::new("sh").args(["-c", script, PROGRAM]), &input);
    let end = stdout(&output);
    let last = format!("#{}\n", nanoseconds(1_200_000) + 10);
    assert!(end.ends_with(&last), "{end}{}", stderr(&output));
    assert!(end.contains(&format!("\n#{}\n", nanoseconds(1_200_000))), "{end}");
}

#[test]
fn answers_for_programs() {
    let output = program(&["run", "-", "--answers", "-"], &[4, 0, b'S', b'E', 0, 0, 0]);
    let got: Vec<Answer> = answers(&output.stdout).collect();
    assert_eq!(got.len(), 2);
    assert_eq!(got[1], Answer::No(Refusal::Cut));
    assert_eq!(status(&output), 1);
}

#[test]
fn bench_has_a_row_for_each_list() {
    let output = program(&["bench", "--records", "1000"], b"");
    assert_eq!(status(&output), 0, "{}", stderr(&output));
    assert!(stdout(&output).lines().count() >= 8);
    for row in
        ["KC in ", "KC out ", "WR x64 clock ", "MW x64 clock ", "MW x64 latch ", "MW x64 line "]
    {
        assert!(stdout(&output).lines().any(|line| line.starts_with(row)), "{row}");
    }
    let said = stdout(&output);
    let values = said.lines().find_map(|line| line.strip_prefix("values ")).expect("a line");
    let ratios: Vec<(&str, f64)> = values
        .split(' ')
        .filter_map(|word| word.split_once('='))
        .map(|(name, ratio)| (name, ratio.parse().expect("a number")))
        .collect();
    assert_eq!(
        ratios.iter().map(|it| it.0).collect::<Vec<_>>(),
        ["clock", "latch", "line", "worst"]
    );
    assert!(ratios.iter().all(|it| it.1 > 0.0 && it.1 <= ratios[3].1), "{values}");
    // The fewest records.
    assert_eq!(status(&program(&["bench", "--records", "1"], b"")), 0);
}

const MANY: &str = include_str!("../../captures/many.txt");

/// A transaction in one item, and bytes shifted by the keyboard's clock.
#[test]
fn many_writes_and_pulses() {
    let folder = Folder::new("many");
    let list = folder.put("many.txt", MANY.as_bytes());
    let (save, vcd) = (folder.path("end"), folder.path("vcd"));
    let output = program(&["run", "--text", &list, "--save", &save, "--vcd", &vcd], b"");
    assert_eq!(status(&output), 0, "{}", stderr(&output));
    let table = stdout(&output);
    let rows: Vec<Vec<&str>> =
        table.lines().skip(1).map(|row| row.split_whitespace().collect()).collect();
    // Item, byte offset, line of the text, VIA ticks, record.
    assert_eq!(rows[2][..8], ["3", "22", "8", "4", "4t", "MW", "VIA.ORB", "$00"]);
    assert_eq!(rows[2][8..], ["..", "(34)", "-", "0", "1", "-"]);
    assert_eq!(rows[7][..9], ["8", "127", "14", "12", "2t", "MW", "VIA.ORB", "$02", "$00"]);
    let value = |kind: &str| -> Vec<u8> {
        let values = rows.iter().filter(|row| row[5] == kind).map(|row| &row[row.len() - 4][1..]);
        values.map(|value| u8::from_str_radix(value, 16).expect("a value")).collect()
    };
    let byte = |bits: &[u8]| bits.iter().fold(0u8, |byte, bit| byte << 1 | bit & 1);
    assert_eq!(byte(&value("RD")[..8]), 0xAA, "cell 0 read back");
    assert_eq!(byte(&value("KC")[..8]), 0xB2, "shifted out");
    assert_eq!(value("KC")[8..], [0; 8], "shifted in");
    assert_eq!(value("RD")[8..], [0xB2, 0x84, 0x7B]);
    assert!(stderr(&output).contains("cell 0: $00 before, $AA after"), "{}", stderr(&output));
    let said = stdout(&program(&["image", &save], b""));
    assert!(said.contains("shift     in by the keyboard's clock, 0 of 8 pulses counted"), "{said}");
    // The dump shows every bit of the transaction.
    let dump = String::from_utf8(folder.get("vcd")).expect("UTF-8");
    assert!(dump.contains("swrite_cell_0_=_$AA $\n") && dump.contains("sread_cell_0_=_$AA $\n"));
    let points = dump.lines().filter(|line| line.starts_with('#')).count();
    let writes = MANY.lines().filter_map(|line| line.split_once(" MW VIA.ORB "));
    let values =
        writes.map(|(_, rest)| rest.split(';').next().unwrap_or("").split('$').count() - 1);
    let items = rows.len() + values.map(|count| count - 1).sum::<usize>();
    assert_eq!(points, 1 + items + 1, "the start, a point for each value and item, the end");
    // Text and back.
    let bytes = program(&["asm", &list], b"").stdout;
    let text = stdout(&program(&["disasm", "-"], &bytes));
    assert_eq!(program(&["asm", "-"], text.as_bytes()).stdout, bytes);
    assert!(text.contains("\n2t MW VIA.ORB $02 $04\n") && text.contains("\n258t KC 1\n"), "{text}");
}
