//! Random bytes and broken texts into every reader, for a bounded while: no panic, no hang.
//!
//! `SWARMTEMPO_SEED=N` tries others, `SWARMTEMPO_WHILE=N` for so many seconds each.

mod common;

use common::{Folder, PROGRAM};
use std::fs::File;
use std::process::{Command, Stdio};
use std::time::{Duration, Instant};
use swarmtempo::text::{assemble_all, assemble_line, disassemble};
use swarmtempo::{answers, pieces, sheet_text, Chip, Chunks, Item, Machine, Piece};

/// A run of the program that takes longer hangs.
const PATIENCE: Duration = Duration::from_secs(20);

struct Random(u64);

impl Random {
    fn next(&mut self) -> u64 {
        self.0 = self.0.wrapping_add(0x9E37_79B9_7F4A_7C15);
        let mut z = self.0;
        z = (z ^ z >> 30).wrapping_mul(0xBF58_476D_1CE4_E5B9);
        z = (z ^ z >> 27).wrapping_mul(0x94D0_49BB_1331_11EB);
        z ^ z >> 31
    }

    fn below(&mut self, limit: usize) -> usize {
        usize::try_from(self.next() % limit.max(1) as u64).expect("below a limit")
    }

    fn byte(&mut self) -> u8 {
        self.next().to_le_bytes()[0]
    }

    fn bytes(&mut self, most: usize) -> Vec<u8> {
        let length = self.below(most + 1);
        (0..length).map(|_| self.byte()).collect()
    }

    /// Some bytes put in, left out, changed or doubled.
    fn broken(&mut self, whole: &[u8]) -> Vec<u8> {
        let mut bytes = whole.to_vec();
        for _ in 0..=self.below(6) {
            let at = self.below(bytes.len() + 1);
            match self.below(6) {
                0 => bytes.truncate(at),
                1 => drop(bytes.splice(at..at, self.bytes(9))),
                2 => drop(bytes.splice(at..at, *b" \t;$0x99999999999us")),
                3 if at < bytes.len() => bytes[at] = self.byte(),
                4 if at < bytes.len() => bytes[at] ^= 1 << self.below(8),
                _ => {
                    let end = at + self.below(bytes.len() - at + 1);
                    bytes.extend_from_within(at..end);
                }
            }
        }
        bytes
    }
}

fn number(name: &str, otherwise: u64) -> u64 {
    std::env::var(name).ok().and_then(|word| word.parse().ok()).unwrap_or(otherwise)
}

/// For a while, with numbers of its own.
fn for_a_while(salt: u64, mut act: impl FnMut(&mut Random)) {
    let seed = number("SWARMTEMPO_SEED", 30);
    let length = Duration::from_secs(number("SWARMTEMPO_WHILE", 2));
    let (mut random, start, mut rounds) = (Random(seed ^ salt << 32), Instant::now(), 0u64);
    while start.elapsed() < length || rounds < 20 {
        act(&mut random);
        rounds += 1;
    }
    println!("seed {seed}: {rounds} rounds");
}

const TEXTS: [&str; 5] = [
    include_str!("../../captures/first.txt"),
    include_str!("../../captures/seek.txt"),
    include_str!("../../captures/far.txt"),
    include_str!("../../captures/many.txt"),
    "12t WR $EFE1FE 0x41\n83658us RD VIA.IFR\n0t IN 6 1\n0t SN external 15 1\n\
     0t DI external 1 1 1\n$FFFFt PW 4294967295s\nRAW 05 00 53 45 00 00 00\n",
];

const SHEET: &str = "7 3 \"north bench\"\n20 1 14\n$201 255 00 FF ; remark\n7 3 \"x\"\n9 0\n";

const EVENTS: &str = "0t COMMAND Inquiry\n100t KEY $33\n195840t ; alone\n0t COMMAND 0x16\n";

/// As analysers write them.
const WAVES: [&str; 2] = [
    "$timescale 10 us $end\n$scope module top $end\n$var wire 1 ! enable $end\n\
     $var wire 1 \" data_clock $end\n$var wire 1 # data $end\n$upscope $end\n\
     $enddefinitions $end\n#0\n$dumpvars\n1!\nx\"\nz#\n$end\n#5 0!\n#7 0\" b0 #\n#90000 1\"\n",
    "; Channels (3/3): enable, data_clock, data\n; Samplerate: 10 MHz\nnanoseconds,logic,logic,logic\n\
     100,1,1,1\n600,0,1,1\n800,0,0,0\n2100.5,0,1,0\n3e8,0,1,0\n",
];

fn broken_text(random: &mut Random) -> Vec<u8> {
    let text = TEXTS[random.below(TEXTS.len())];
    random.broken(text.as_bytes())
}

fn records(random: &mut Random) -> Vec<u8> {
    assemble_all(TEXTS[random.below(TEXTS.len())]).expect("in the form")
}

/// Anything that a file can hold: noise, broken texts, records and images.
fn contents(random: &mut Random) -> Vec<u8> {
    match random.below(8) {
        0 => random.bytes(300),
        1 => random.broken(&sheet_text::assemble(SHEET).expect("in the form")),
        2 => random.broken(SHEET.as_bytes()),
        3 => {
            let chip = Chip::BOTH[random.below(2)];
            random.broken(Machine::fresh(chip).image())
        }
        6 if random.below(2) == 0 => random.broken(EVENTS.as_bytes()),
        6 => {
            let wave = WAVES[random.below(WAVES.len())];
            random.broken(wave.as_bytes())
        }
        4 => {
            let list = records(random);
            random.broken(&list)
        }
        5 => vec![random.byte(); random.below(200_000)],
        _ => broken_text(random),
    }
}

#[test]
fn texts() {
    for_a_while(1, |random| {
        let text = broken_text(random);
        let text = String::from_utf8_lossy(&text);
        match assemble_all(&text) {
            Ok(bytes) => assert_eq!(assemble_all(&disassemble(&bytes)), Ok(bytes)),
            Err(errors) => {
                assert!(errors.windows(2).all(|pair| pair[0].line < pair[1].line));
                for error in errors {
                    let mut lines = text.lines().flat_map(|line| line.split('\r'));
                    let line = lines.nth(error.line - 1).expect("a line of the text");
                    assert!((1..=line.chars().count() + 2).contains(&error.column), "{error}");
                    assert!(!error.message.is_empty() && error.message.len() < 400, "{error}");
                }
            }
        }
        let noise = random.bytes(60);
        let mut out = vec![7];
        if assemble_line(&String::from_utf8_lossy(&noise), &mut out).is_err() {
            assert_eq!(out, [7], "nothing is appended where a line is wrong");
        }
    });
}

#[test]
fn lists_and_answers() {
    for_a_while(2, |random| {
        let list = contents(random);
        let whole: usize =
            pieces(&list).map(|(Piece::Record(it) | Piece::Rest(it))| it.len()).sum();
        assert_eq!(whole, list.len());
        let chunks = Chunks::new(&list[..]);
        let mut chunks = if random.below(2) == 0 { chunks } else { chunks.eager() };
        let mut joined = Vec::new();
        while let Some(chunk) = chunks.next().expect("no error") {
            joined.extend_from_slice(chunk);
        }
        assert_eq!(joined, list);
        let _ = Item::read(&list);
        assert!(answers(&list).count() <= list.len() / 8);
        let mut machine = Machine::fresh(Chip::First);
        let mut room = Vec::new();
        let run = machine.run(&list, &mut room);
        assert_eq!(answers(&room).count() * 8, run.written);
        assert!(run.consumed <= list.len());
    });
}

#[test]
fn images() {
    for_a_while(3, |random| {
        let list = records(random);
        let mut machine = Machine::fresh(Chip::BOTH[random.below(2)]);
        machine.run(&list[..random.below(list.len())], &mut Vec::new());
        let image = random.broken(machine.image());
        if let Ok(machine) = Machine::from_image(&image) {
            let state = machine.state();
            assert!(state.level() <= 6 && state.cells.len() == state.chip.cells());
            assert_eq!(machine.image(), image);
        }
    });
}

/// The program on files of every kind, under every command: one of its statuses, and in time.
#[test]
fn the_program() {
    let folder = Folder::new("robust");
    folder.put("nothing", b"");
    folder.put("orders", b"next 3\nrefusal\ncell\nend\nanswers 5\nwhere\nstate\n");
    let commands: &[&[&str]] = &[
        &["run", "file"],
        &["run", "file", "--records", "--json", "--from", "item:2", "--only", "clock"],
        &["run", "-", "--text", "--csv", "--refused", "--to", "100t"],
        &["decode", "file", "--records"],
        &["decode", "-", "--text", "--json", "--cells", "256"],
        &["decode", "-", "--image", "file", "--csv"],
        &["summary", "file", "--records", "--csv"],
        &["report", "file", "--records", "-o", "page", "--from", "offset:9"],
        &["report", "-", "--text", "--cells", "256"],
        &["diff", "file", "nothing"],
        &["diff", "nothing", "file", "--records"],
        &["diff", "-", "file", "--text"],
        &["image", "file", "--json"],
        &["run", "file", "--text"],
        &["run", "file", "--records", "--vcd", "vcd", "--quiet"],
        &["run", "file", "--records", "--save", "save", "--answers", "answers"],
        &["run", "-", "--text", "--strict", "--vcd", "-", "--quiet"],
        &["run", "-", "--image", "file"],
        &["asm", "-o", "out"],
        &["disasm", "file", "--records"],
        &["image", "file"],
        &["convert", "file", "-o", "out"],
        &["convert", "--records"],
        &["cut", "file", "--records", "--every", "1000", "--out", "part"],
        &["join", "file", "nothing", "file", "-o", "out"],
        &["touches", "file", "--records"],
        &["touches", "-", "file", "--text"],
        &["step", "nothing", "--records"],
        &["step", "file", "--records", "--script", "orders"],
        &["import", "file", "-o", "out"],
        &["import", "-", "--as-text", "--rate", "1000000", "--unit", "ns", "--seconds"],
        &["export", "file", "--records", "-o", "wires.vcd"],
        &["export", "-", "--text", "--csv"],
        &["sheet", "get", "7", "--bench", "file"],
        &["sheet", "get", "7", "--text", "--house", "file"],
        &["sheet", "list"],
        &["clock", "file", "read", "3"],
        &["clock", "-", "write", "3", "$AA", "--save", "out"],
        &["keyboard", "--save", "out"],
        &["keyboard", "--image", "file", "nothing"],
        &["sheet", "make", "file", "-o", "out"],
        &["sheet", "compact", "file", "-o", "out", "--room", "70"],
    ];
    for_a_while(4, |random| {
        let file = folder.put("file", &contents(random));
        let words = commands[random.below(commands.len())];
        let mut command = Command::new(PROGRAM);
        command.args(words).current_dir(&folder.0).stdout(Stdio::null());
        command.stdin(File::open(&file).expect("there"));
        command.stderr(File::create(folder.path("told")).expect("made"));
        let mut child = command.spawn().expect("started");
        let start = Instant::now();
        let ended = loop {
            if let Some(ended) = child.try_wait().expect("watched") {
                break ended;
            }
            if start.elapsed() > PATIENCE {
                child.kill().expect("ended");
                panic!("{words:?} hangs on {file}");
            }
            std::thread::sleep(Duration::from_micros(300));
        };
        let told = String::from_utf8_lossy(&folder.get("told")).into_owned();
        assert!(!told.contains("panicked"), "{words:?} on {file}: {told}");
        let status = ended.code().unwrap_or(-1);
        assert!(
            [0, 1, 2, 3, 4, 5, 6, 7, 8, 9, 10, 65].contains(&status),
            "{words:?} {status}: {told}"
        );
    });
}
