//! The program's words: options, help, messages, the summary, the first list.

mod common;

use common::{feed, has, program, shell, status, stderr, stdout, Folder, PROGRAM, SECOND};
use std::fs;
use std::process::Command;
use swarmtempo::text::assemble;
use swarmtempo::{Chip, Machine, CHUNK_LEN};

const COMMANDS: [&str; 27] = [
    "run",
    "decode",
    "summary",
    "report",
    "diff",
    "asm",
    "disasm",
    "convert",
    "cut",
    "join",
    "touches",
    "step",
    "import",
    "export",
    "image",
    "clock",
    "keyboard",
    "sheet get",
    "sheet list",
    "sheet make",
    "sheet compact",
    "sample",
    "bench",
    "man",
    "completions",
    "help",
    "version",
];

/// A command's words and more.
fn words<'a>(name: &'a str, more: &'a str) -> Vec<&'a str> {
    name.split(' ').chain([more]).collect()
}

#[test]
fn every_command_has_help_and_version() {
    let all = stdout(&program(&["help"], b""));
    assert_eq!(all, stdout(&program(&["--help"], b"")));
    assert_eq!(all, stdout(&program(&["-h"], b"")));
    let version = stdout(&program(&["version"], b""));
    assert_eq!(version, format!("swarmtempo {}\n", env!("CARGO_PKG_VERSION")));
    for name in COMMANDS {
        assert!(all.contains(&format!("\n  swarmtempo {name}")), "{name}");
        let own = program(&words(name, "--help"), b"");
        assert_eq!(status(&own), 0);
        assert!(stdout(&own).starts_with(&format!("swarmtempo {name}")), "{}", stdout(&own));
        assert_eq!(own.stdout, program(&words(&format!("help {name}"), "--"), b"").stdout);
        assert_eq!(own.stdout, program(&words(name, "-h"), b"").stdout);
        assert_eq!(stdout(&program(&words(name, "-V"), b"")), version);
        assert_eq!(stdout(&program(&words(name, "--version"), b"")), version);
    }
    for flag in ["--text", "--image FILE", "--save FILE", "--vcd FILE", "--quiet", "--strict"] {
        assert!(stdout(&program(&["run", "--help"], b"")).contains(flag), "{flag}");
    }
    assert_eq!(stdout(&program(&["-V"], b"")), version);
    assert_eq!(stdout(&program(&["--version"], b"")), version);
    let sheet = program(&["sheet", "--help"], b"");
    assert!(stdout(&sheet).contains("\n  swarmtempo sheet compact [SHEET]"), "{}", stdout(&sheet));
    assert_eq!(sheet.stdout, program(&["help", "sheet"], b"").stdout);
    assert_eq!(stdout(&program(&["sheet", "-V"], b"")), version);
    // Help comes first, whatever else is wrong.
    let wrong = program(&["run", "--fly", "a", "b", "--help"], b"");
    assert_eq!(wrong.stdout, program(&["run", "--help"], b"").stdout);
}

/// No time without its unit in full: VIA ticks, nanoseconds, microseconds, seconds.
#[test]
fn units_in_full() {
    let folder = Folder::new("units");
    let image = folder.put("image", Machine::fresh(Chip::First).image());
    let mut said: Vec<String> =
        COMMANDS.map(|name| stdout(&program(&words(name, "--help"), b""))).into();
    for words in [
        &[][..],
        &["help"],
        &["help", "sheet"],
        &["man"],
        &["image", &image],
        &["bench", "--records=10"],
    ] {
        said.push(stdout(&program(words, b"")));
    }
    let refused = program(&["run", "--text", "-"], b"9us SE\n7t PW 8s\n0t DI internal 0 0 0\n");
    let wrong = program(&["asm"], b"5 SE\n90000us SE\n70000t SE\nx SE\n0t PW 5\n0t PW x\n");
    said.extend([stdout(&refused), stderr(&refused), stderr(&wrong)]);
    for text in said {
        // The text form has its units at the numbers, as 12t.
        let text = text.replace("one-second tick", "");
        let words: Vec<&str> = text.split_whitespace().collect();
        for pair in words.windows(2) {
            let word = pair[1].trim_matches(|c: char| !c.is_alphanumeric());
            let short = ["s", "sec", "ms", "us", "ns", "\u{B5}s"].contains(&word);
            let number = pair[0].ends_with(|c: char| c.is_ascii_digit());
            assert!(!(short && number), "{pair:?} in {text}");
            let bare = ["tick", "ticks"].contains(&word) && !pair[0].ends_with("VIA");
            assert!(!bare, "{pair:?} in {text}");
        }
    }
}

#[test]
fn options_in_their_forms() {
    let folder = Folder::new("options");
    folder.put("x", &SECOND);
    folder.put("--quiet", &SECOND);
    folder.put("-", &SECOND);
    let run = |words: &[&str]| feed(Command::new(PROGRAM).args(words).current_dir(&folder.0), b"");
    for words in [
        &["run", "x", "--save", "a", "--quiet"][..],
        &["run", "--save=a", "--quiet", "x"],
        &["run", "--quiet", "--save=a", "--", "x"],
        &["run", "--quiet", "--save=a", "--", "--quiet"],
        &["run", "--quiet", "--save=a", "./-"],
        &["run", "x", "--save=--save", "--quiet"],
    ] {
        assert_eq!(status(&run(words)), 0, "{words:?}: {}", stderr(&run(words)));
    }
    assert_eq!(folder.get("--save"), folder.get("a"));
    for (words, said) in [
        (&["run", "x", "--sav", "a"][..], "unknown option --sav; --save is meant, perhaps"),
        (&["run", "x", "--save"], "--save needs a value: FILE"),
        (&["run", "x", "--save="], "--save needs a value: FILE"),
        (&["run", "x", "--save", "--quiet"], "--save needs a value before --quiet"),
        (&["run", "x", "--quiet=1"], "--quiet takes no value"),
        (&["run", "x", "--quiet", "--quiet"], "--quiet is given twice"),
        (&["run", "x", "--room", "1t"], "--room needs a number, not `1t`"),
        (&["disasm", "x", "y"], "`y` is too much"),
        (&["disasm", "--", "x", "--quiet"], "`--quiet` is too much"),
        (&["run", "x", "--text", "--records"], "--text and --records"),
        (&["run", "x", "--color=red"], "--color needs always, never or auto"),
        (&["run"], "LIST is missing"),
        (&["image"], "FILE is missing"),
        (&["rum"], "unknown command `rum`; run is meant, perhaps"),
        (&["help", "fly"], "unknown command `fly`; see swarmtempo help"),
        (&["sheet"], "sheet: its command is missing: get, list, make, compact; see"),
        (&["sheet", "gte", "7"], "unknown command `sheet gte`; sheet get is meant, perhaps"),
        (&["shet"], "unknown command `shet`; sheet is meant, perhaps"),
        (&["sheet", "get"], "sheet get: SETTING is missing; see swarmtempo sheet get --help"),
        (&["completions", "dos"], "SHELL is one of bash, zsh, fish"),
    ] {
        let output = run(words);
        assert_eq!(status(&output), 64, "{words:?}: {}", stderr(&output));
        assert!(stderr(&output).contains(said), "{words:?}: {}", stderr(&output));
        assert!(output.stdout.is_empty());
    }
}

/// A list whose summary has something of everything: cells 0 and 1, protect, refusals, power off.
fn eventful() -> Vec<u8> {
    let write = |command: u8, byte: u8| {
        let mut text = String::from("0t WR VIA.ORB 4\n0t WR VIA.DDRB 7\n0t WR VIA.ORB 0\n");
        for i in (0..16).rev() {
            let bit = u16::from_be_bytes([command, byte]) >> i & 1;
            text.push_str(&format!("1t WR VIA.ORB {bit}\n1t WR VIA.ORB {}\n", bit | 2));
        }
        text + "0t WR VIA.ORB 4\n"
    };
    let text = [
        "1t SE\n".into(),
        write(0x41, 0xAA),
        write(0x45, 0x07),
        write(0x35, 0x80),
        "RAW 05 00 53 45 00 00 00\nRAW 05 00 53 45 00 00 00\n9t DI internal 0 0 0\n".into(),
        "10t PW 5s\n".into(),
    ];
    assemble(&text.concat()).expect("in the form")
}

#[test]
fn a_summary_after_every_run() {
    let output = program(&["run", "-", "--answers", "/dev/null"], &eventful());
    let said = stderr(&output);
    let lines: Vec<&str> = said.lines().collect();
    assert_eq!(status(&output), 0);
    let expected = [
        "stop 0 (end of the list): 113 answers, 1,228 bytes consumed, 904 bytes written",
        "  carried out   110 items",
        "  refused       3 items",
        "    NO 3        2 items (length wrong for the kind), the first at offset 1,194 bytes, item 110",
        "    NO 8        1 item (a disk is there already, or none is), the first at offset 1,208 bytes, item 112",
        "  duration      107 VIA ticks (0.000136 seconds), and 5 seconds of power off",
        "  clock seconds 0 seconds (1904-01-01 00:00:00) before, 6 seconds (1904-01-01 00:00:06) after",
        "  cells changed cell 0: $00 before, $AA after; cell 1: $00 before, $07 after",
        "  write-protect clear before, set after",
    ];
    assert_eq!(lines, expected);
    // Of a text the first line of each refusal too.
    let text = program(&["disasm"], &eventful()).stdout;
    let text = [b"; a comment\n\n", &text[..]].concat();
    let said = stderr(&program(&["run", "--text", "-"], &text));
    assert!(said.contains("offset 1,194 bytes, item 110, line 112\n"), "{said}");
    assert!(said.contains("offset 1,208 bytes, item 112, line 114\n"), "{said}");
}

/// Far into a long text the line is still right, and across the end of a chunk; in a file as in a
/// pipe.
#[test]
fn the_line_of_a_late_refusal() {
    let folder = Folder::new("late");
    for count in [100_000, CHUNK_LEN / SECOND.len()] {
        let mut text = "0t VB\n; nothing\n".repeat(count);
        text.push_str("0t DI internal 0 0 0\n0t VB\n");
        let file = folder.put("text", text.as_bytes());
        let place =
            format!("offset {} bytes, item {}, line {}\n", 6 * count, count + 1, 2 * count + 1);
        for output in [
            program(&["run", "--text", &file, "--quiet"], b""),
            program(&["run", "--text", "-", "--quiet"], text.as_bytes()),
        ] {
            let said = stderr(&output).replace(',', "");
            assert!(said.contains(&place.replace(',', "")), "{said}");
        }
    }
}

#[test]
fn quiet_and_strict() {
    let cases: [(&[u8], i32, bool); 4] = [
        (&SECOND, 0, false),
        (&[5, 0, b'S', b'E', 0, 0, 0, 2, 0, b'?', b'?'], 3, true),
        (&[2, 0, b'?', b'?', 5, 0, b'S', b'E', 0, 0, 0], 2, true),
        (&[2, 0, b'?', b'?', 1, 0], 1, true),
    ];
    for (list, strict, told) in cases {
        let output = program(&["run", "-", "--quiet", "--strict"], list);
        assert_eq!(status(&output), strict, "{}", stderr(&output));
        let output = program(&["run", "-", "--quiet"], list);
        assert_eq!(status(&output), i32::from(strict == 1));
        assert_eq!(stderr(&output).contains("  refused "), told, "{}", stderr(&output));
        assert!(output.stdout.is_empty());
        let output = program(&["run", "-"], list);
        assert!(stderr(&output).contains("  refused "), "{}", stderr(&output));
    }
    assert!(
        stderr(&program(&["run", "-", "--quiet", "--room", "7"], &SECOND)).starts_with("stop 6")
    );
}

/// Every wrong line of a file, with file, line, column and message.
#[test]
fn all_errors_of_a_text() {
    let folder = Folder::new("errors");
    let file = folder.put("list.txt", b"\xEF\xBB\xBF5 SE\n0t SE\n0t PW 5\nRAW \xFF\n0t XX\n");
    let told = |name: &str| {
        [(1, 1), (3, 7), (4, 5), (5, 4)].map(|(line, column)| format!("{name}:{line}:{column}: "))
    };
    let bytes = fs::read(&file).expect("there");
    for (output, name) in [
        (program(&["asm", &file, "-o", &folder.path("out")], b""), file.as_str()),
        (program(&["asm", &file], b""), &file),
        (program(&["asm"], &bytes), "standard input"),
        (program(&["run", "--text", &file, "--save", &folder.path("out")], b""), &file),
        (program(&["run", "--text", "-", "--quiet"], &bytes), "standard input"),
    ] {
        let said = stderr(&output);
        let lines: Vec<&str> = said.lines().collect();
        assert_eq!(status(&output), 65, "{said}");
        assert_eq!(lines.len(), 5, "{said}");
        for (line, start) in lines.iter().zip(told(name)) {
            assert!(line.starts_with(&start), "{said}");
        }
        let end = format!("swarmtempo: {name}: 4 errors in the text; nothing is run or written");
        assert_eq!(lines[4], end);
        assert!(output.stdout.is_empty());
    }
    assert_eq!(folder.names(), ["list.txt"]);
}

/// Lines end in LF, CR LF, or CR alone, also across the buffers; one that is too long is an error, and
/// the next ones are read.
#[test]
fn ends_of_lines() {
    for end in ["\n", "\r\n", "\r"] {
        let text =
            format!("; a list{end}0t SE{end}{end}1t SE ; the last of four{end}").repeat(40_000);
        let output = program(&["asm"], text.as_bytes());
        assert_eq!(status(&output), 0, "{end:?}: {}", stderr(&output));
        assert!(output.stdout == assemble("0t SE\n1t SE").expect("in the form").repeat(40_000));
        let wrong = text + "5 SE" + end + &"x".repeat(3 << 20) + end + "6 SE";
        let said = stderr(&program(&["asm"], wrong.as_bytes()));
        let told = [
            "standard input:160001:1: a wait needs its unit",
            "standard input:160002:1: a line is longer than 1048576 bytes",
            "standard input:160003:1: a wait needs its unit",
        ];
        assert_eq!(said.lines().count(), 4, "{end:?}: {said}");
        assert!(said.lines().zip(told).all(|(line, start)| line.starts_with(start)), "{said}");
    }
}

#[test]
fn microseconds_are_shown_as_ticks() {
    let folder = Folder::new("micros");
    let file = folder.put("list.txt", b"\xEF\xBB\xBF; a step\n12000us SE\n0x0At SE\n1us SE\n");
    let output = program(&["run", "--text", &file], b"");
    let words = "  microseconds  2 waits in microseconds turned into VIA ticks, rounded up; \
                 the first, line 2: 12,000 microseconds are 9,401 VIA ticks\n";
    assert!(stderr(&output).contains(words), "{}", stderr(&output));
    let table = stdout(&output);
    for row in [
        "       1           0       2           9401  9401t SE",
        "       2           6       3           9411  10t SE",
        "       3          12       4           9412  1t SE",
    ] {
        assert!(table.contains(row), "{table}");
    }
    assert!(table.lines().next().expect("a heading").contains("VIA ticks"));
    let output = program(&["asm", &file, "-o", &folder.path("list")], b"");
    assert!(stderr(&output).contains("12,000 microseconds are 9,401 VIA ticks"));
    assert_eq!(folder.get("list"), assemble("9401t SE\n10t SE\n1t SE").expect("in the form"));
}

/// A text where records are expected, and the other way round, of any length.
#[test]
fn files_of_another_kind_are_named() {
    let folder = Folder::new("kinds");
    let text = "0t SE ; a line of text\n".repeat(30_000);
    for length in [1, 2, 3, 7, 100, 8_300, 8_400, 70_000, text.len()] {
        let file = folder.put("text", &text.as_bytes()[..length]);
        for output in [
            program(&["run", &file], b""),
            program(&["run", "-"], &text.as_bytes()[..length]),
            program(&["disasm", &file], b""),
        ] {
            let said = stderr(&output);
            assert_eq!(status(&output), 65, "{length}: {said}");
            assert!(said.contains(": a text, not records; "), "{length}: {said}");
            assert!(output.stdout.is_empty());
        }
        let said = stderr(&program(&["image", &file], b""));
        assert!(said.contains("it is a text"), "{length}: {said}");
    }
    // Bytes that look like a text are records where the user says so.
    let forced = program(&["run", "-", "--records", "--quiet"], b"no");
    assert_eq!(status(&forced), 1);
    let image = folder.put("image", Machine::fresh(Chip::First).image());
    let list = folder.put("list", &SECOND.repeat(40));
    let wide: Vec<u8> = "\u{FEFF}0t SE\n".encode_utf16().flat_map(u16::to_le_bytes).collect();
    let wide = folder.put("wide", &wide);
    for (words, said) in [
        (["run", &image], "image: a state image, not records; run takes it by --image"),
        (["run", &wide], "wide: a text in UTF-16, not records"),
        (["asm", &wide], "wide: a text in UTF-16; save it as UTF-8"),
        (["asm", &list], "list: bytes, not a text; disasm makes a text of records"),
        (["asm", &image], "image: a state image, not a text"),
    ] {
        let output = program(&words, b"");
        assert_eq!(status(&output), 65, "{words:?}: {}", stderr(&output));
        assert!(stderr(&output).contains(said), "{words:?}: {}", stderr(&output));
    }
}

#[test]
fn a_bad_image_has_a_field() {
    let folder = Folder::new("field");
    let mut image = Machine::fresh(Chip::First).image().to_vec();
    image[101] = 80;
    let bad = folder.put("bad.st", &image);
    let old = folder.put("old.st", &[&[96, 0, b'S', b'T'][..], &[0; 94]].concat());
    let list = folder.put("list", &SECOND);
    for output in [program(&["image", &bad], b""), program(&["run", &list, "--image", &bad], b"")] {
        assert_eq!(status(&output), 7);
        let said = "bad.st: not the image of an accepted state: the track of the internal drive, \
                    at offset 101, is 80 ($50); accepted is 0 to 79 (refusal 7)\n";
        assert!(stderr(&output).contains(said), "{}", stderr(&output));
    }
    assert_eq!(folder.get("old.st").len(), 98);
    for (length, kind) in [(98u16, *b"ST"), (121, *b"ST"), (123, *b"ST"), (360, *b"SX")] {
        let mut image = vec![0; usize::from(length)];
        image[..2].copy_from_slice(&(length - 2).to_le_bytes());
        image[2..4].copy_from_slice(&kind);
        std::fs::write(&old, &image).expect("written");
        for words in [
            &["image", &old][..],
            &["run", &list, "--image", &old],
            &["clock", &old, "seconds"],
            &["diff", &old, &old],
        ] {
            let output = program(words, b"");
            let told = stderr(&output);
            assert_eq!(status(&output), 7, "{words:?}: {told}");
            let layout = format!("an image of an older layout, {length} bytes");
            let advice =
                "An older version of the program saved it, and there is no conversion: run the \
                          capture again from the start (refusal 7)";
            assert!(told.contains(&layout) && told.contains(advice), "{words:?}: {told}");
        }
    }
    let output = program(&["image", "-"], &image);
    assert!(stderr(&output).starts_with("swarmtempo: standard input: not "), "{}", stderr(&output));
}

/// The list that the program runs by itself, and every command that it names after it.
#[test]
fn the_first_list_and_what_it_names() {
    let folder = Folder::new("tour");
    let output = program(&[], b"");
    assert_eq!(status(&output), 0);
    assert!(output.stderr.is_empty());
    let tour = stdout(&output);
    for part in ["bit 0 reads: 10101010, $AA", "$81      1", "NO 8      -", "holds $AA"] {
        assert!(tour.contains(part), "{part}: {tour}");
    }
    let (_, next) = tour.split_once("\nNext:\n").expect("what comes next");
    let commands: Vec<&str> = next.lines().filter_map(|line| line.split("  ").nth(1)).collect();
    assert_eq!(commands.len(), 8, "{next}");
    for command in commands {
        let script = command.replacen("swarmtempo", "\"$0\"", 1);
        let output = shell(&folder, &script, &[], b"");
        assert_eq!(status(&output), 0, "{command}: {}", stderr(&output));
    }
    let files = ["end.st", "first.gtkw", "first.html", "first.txt", "first.vcd"];
    assert_eq!(folder.names(), files);
    assert_eq!(
        Machine::from_image(&folder.get("end.st")).expect("accepted").state().cells[0],
        0xAA
    );
    let mut command = Command::new(PROGRAM);
    let named = stdout(&feed(command.env("SWARMTEMPO_CALLED", "./swarmtempo"), b""));
    assert!(named.contains("\n  ./swarmtempo run --text first.txt "), "{named}");
}

/// The man page has no mistake that groff would tell of, and names every option.
#[test]
fn the_man_page() {
    let text = stdout(&program(&["man"], b""));
    for part in [".SS sheet\n", ".SS sheet compact [SHEET]", "7  3 \"north bench\"", "KEY $33"] {
        assert!(text.contains(part), "{part}");
    }
    let folder = Folder::new("man");
    let page = folder.path("swarmtempo.1");
    assert_eq!(status(&program(&["man", "-o", &page], b"")), 0);
    let text = String::from_utf8(folder.get("swarmtempo.1")).expect("UTF-8");
    for word in COMMANDS.iter().chain(&["\\-\\-strict", "\\-\\-vcd", "microseconds", "VIA ticks"]) {
        assert!(text.contains(word), "{word}");
    }
    assert!(!text.contains("\n\n"), "an empty line would be a break");
    if has("groff", "the man page through groff") {
        let output = shell(&folder, "groff -ww -b -man -Tutf8 -z swarmtempo.1", &[], b"");
        assert_eq!((status(&output), stderr(&output)), (0, String::new()));
    }
}

#[test]
fn completions_complete() {
    for shell in ["bash", "zsh", "fish"] {
        let text = stdout(&program(&["completions", shell], b""));
        for word in COMMANDS.iter().flat_map(|name| name.split(' ')).chain(["strict", "vcd"]) {
            assert!(text.contains(word), "{shell}: {word}");
        }
        if has(shell, "completions read by their shell") {
            let output = feed(Command::new(shell).args(["-n", "/dev/stdin"]), text.as_bytes());
            assert_eq!((status(&output), stderr(&output)), (0, String::new()), "{shell}");
        }
    }
    if !has("bash", "completions asked") {
        return;
    }
    let folder = Folder::new("completions");
    folder.put("list.bin", b"");
    let script = "source <(\"$0\" completions bash); COMP_WORDS=(swarmtempo \"$@\"); \
                  COMP_CWORD=$#; _swarmtempo; echo ${COMPREPLY[@]}";
    for (words, expected) in [
        (&["dis"][..], "disasm"),
        (&["run", "--st"], "--strict"),
        (&["run", "--color", "al"], "always"),
        (&["run", "--save", "li"], "list.bin"),
        (&["run", "li"], "list.bin"),
        (&["completions", ""], "bash zsh fish"),
        (&["run", "--room", "li"], ""),
        (&["she"], "sheet"),
        (&["sheet", ""], "get list make compact --help"),
        (&["sheet", "get", "--h"], "--house --help"),
        (&["sheet", "get", "--house", "li"], "list.bin"),
        (&["sheet", "get", "7"], ""),
        (&["sheet", "list", "li"], "list.bin"),
    ] {
        let mut command = Command::new("bash");
        command.args(["-c", script, PROGRAM]).args(words).current_dir(&folder.0);
        let output = feed(&mut command, b"");
        assert_eq!(stdout(&output).trim_end(), expected, "{words:?}: {}", stderr(&output));
    }
}

#[test]
fn colours_where_they_are_wanted() {
    let refused = [5, 0, b'S', b'E', 0, 0, 0];
    let plain = program(&["run", "-"], &refused);
    assert!(!stdout(&plain).contains('\x1b') && !stderr(&plain).contains('\x1b'));
    let coloured = program(&["run", "-", "--color=always"], &refused);
    assert!(stdout(&coloured).contains("\x1b[31m       1 "), "{}", stdout(&coloured));
    assert!(stderr(&coloured).contains("\x1b[31m    NO 3 "), "{}", stderr(&coloured));
    if !has("script", "colours on a terminal") {
        return;
    }
    // On a terminal, which `script` stands in for.
    let folder = Folder::new("colours");
    folder.put("x", &refused);
    for (set, wanted) in [
        ("TERM=xterm NO_COLOR=", true),
        ("TERM=xterm NO_COLOR=1", false),
        ("TERM=dumb NO_COLOR=", false),
    ] {
        let script =
            format!("export {set} PROGRAM=\"$0\"; script -qec '\"$PROGRAM\" run x' /dev/null");
        let output = shell(&folder, &script, &[], b"");
        let said = stdout(&output);
        assert!(said.contains("NO 3"), "{said}");
        assert_eq!(said.contains("\x1b[31m"), wanted, "{set}: {said}");
    }
}

/// The bar of a long run fits a narrow terminal, and stays away from a dumb one.
#[test]
fn the_bar_fits() {
    let what = "the bar on a terminal";
    if !has("script", what) || !has("stty", what) {
        return;
    }
    let folder = Folder::new("bar");
    let list = "{ cat x; sleep 0.7; cat x; sleep 0.2; cat x; }";
    folder.put("x", &SECOND.repeat(50_000));
    for (term, columns, wanted) in [("xterm", 24, true), ("xterm", 200, true), ("dumb", 200, false)]
    {
        let script = format!(
            "export TERM={term} PROGRAM=\"$0\"; script -qec 'stty cols {columns}; \
             {list} | \"$PROGRAM\" run - --quiet' /dev/null"
        );
        let said = stdout(&shell(&folder, &script, &[], b""));
        let bars: Vec<&str> =
            said.split('\r').filter_map(|part| part.strip_suffix("\x1b[K")).collect();
        assert_eq!(bars.iter().any(|bar| bar.contains("MB")), wanted, "{term} {columns}: {said:?}");
        assert!(bars.iter().all(|bar| bar.chars().count() < columns), "{bars:?}");
    }
}
