//! The command line with either clock chip: `run --cells`, images of both kinds in words, the dump.

mod common;

use common::*;
use swarmtempo::text::disassemble;
use swarmtempo::{Address, Chip, Item, List, Machine, Register, WaitTicks};

const FAR: &str = include_str!("../../captures/far.txt");

/// Enable down, some bytes sent, enable up.
fn sent(list: &mut List, bytes: &[u8]) {
    let port = |value: u8| Item::Write(Address::Via(Register::ORB), value);
    let now = WaitTicks(0);
    list.push(now, port(4)).push(now, Item::Write(Address::Via(Register::DDRB), 7));
    list.push(now, port(0));
    for bit in bytes.iter().flat_map(|byte| (0..8).rev().map(move |i| byte >> i & 1)) {
        list.push(now, port(bit)).push(now, port(bit | 2));
    }
    list.push(now, port(4));
}

#[test]
fn the_chip_is_chosen_at_the_start() {
    let folder = Folder::new("cells");
    let save = folder.path("end");
    for (words, chip, cells) in [
        (&["--cells", "256"][..], Chip::Later, "cell 255: $00 before, $AA after"),
        (&["--cells=20"], Chip::First, "none"),
        (&[], Chip::First, "none"),
    ] {
        let words = [&["run", "--text", "-", "--save", &save][..], words].concat();
        let output = program(&words, FAR.as_bytes());
        assert_eq!(status(&output), 0, "{}", stderr(&output));
        let line = format!("  cells changed {cells}\n");
        assert!(stderr(&output).contains(&line), "{}", stderr(&output));
        let image = folder.get("end");
        assert_eq!(image.len(), chip.image_len());
        let machine = Machine::from_image(&image).expect("accepted");
        let held: u32 = machine.state().cells.iter().map(|&byte| u32::from(byte)).sum();
        assert_eq!(held, if chip == Chip::Later { 0xAA } else { 0 });
        // From the image it goes on with the same chip.
        let on = program(&["run", "--text", "-", "--image", &save, "--save", "-", "--quiet"], b"");
        assert_eq!(on.stdout, image);
    }
}

/// Every first byte, with a second one and data: a run by the patterns shows and leaves what one by the
/// table does.
#[test]
fn the_plain_engine_does_the_same() {
    let folder = Folder::new("plain");
    let mut list = List::default();
    for first in 0..=255 {
        sent(&mut list, &[first, 0x2C, first ^ 0x5A]);
    }
    for cells in ["20", "256"] {
        let runs = [&["--plain"][..], &[]].map(|words| {
            let save = folder.path("end");
            let common = ["run", "-", "--records", "--cells", cells, "--save", &save];
            let output = program(&[&common[..], words].concat(), list.as_ref());
            assert_eq!(status(&output), 0, "{}", stderr(&output));
            (output.stdout, output.stderr, folder.get("end"))
        });
        assert_eq!(runs[0], runs[1], "{cells} cells");
        assert!(String::from_utf8_lossy(&runs[0].1).contains("  cells changed cell "));
    }
}

#[test]
fn words_for_cells() {
    let folder = Folder::new("cells-words");
    let image = folder.put("image", Machine::fresh(Chip::Later).image());
    for (words, said) in [
        (&["--cells", "21"][..], "--cells needs 20 or 256"),
        (&["--cells", "-1"], "--cells needs 20 or 256"),
        (&["--cells"], "--cells needs a value: CELLS"),
        (&["--cells", "256", "--image", &image], "an image says how many cells there are"),
    ] {
        let output = program(&[&["run", "-"][..], words].concat(), b"");
        assert_eq!(status(&output), 64);
        assert!(stderr(&output).contains(said), "{}", stderr(&output));
    }
    let output = program(&["run", &image], b"");
    assert!(stderr(&output).contains("a state image, not records; run takes it by --image"));
}

#[test]
fn all_cells_in_words() {
    let folder = Folder::new("cells-image");
    let mut list = List::new();
    for cell in 0..=255u8 {
        sent(&mut list, &[0x38 | cell >> 5, (cell & 0x1F) << 2, cell ^ 0xFF]);
    }
    let file = folder.put("list", list.as_bytes());
    let save = folder.path("end");
    let words = ["run", &file, "--cells", "256", "--save", &save];
    let said = stderr(&program(&words, b""));
    assert!(said.contains("cell 19: $00 before, $EC after; and 235 more\n"), "{said}");
    let words = stdout(&program(&["image", &save], b""));
    assert!(words.starts_with("State image of kind SX, 361 bytes\n"), "{words}");
    let at = words.find("  256 cells       0  1  2").expect("a heading");
    let rows: Vec<&str> = words[at..].lines().skip(1).take(16).collect();
    assert_eq!(rows[0], "            $00: FF FE FD FC FB FA F9 F8 F7 F6 F5 F4 F3 F2 F1 F0");
    assert_eq!(rows[15], "            $F0: 0F 0E 0D 0C 0B 0A 09 08 07 06 05 04 03 02 01 00");
    let heading = words[at..].lines().next().expect("a line");
    assert_eq!(heading.find(" 0"), rows[0].find("FF"), "above its column");
}

/// Values of the dump's decoded track, in their order.
fn decoded(words: &[&str], list: &str) -> Vec<String> {
    let words = [&["run", "--text", "-", "--quiet", "--vcd", "-"][..], words].concat();
    let output = program(&words, list.as_bytes());
    assert_eq!(status(&output), 0, "{}", stderr(&output));
    let values = stdout(&output);
    let values = values.lines().filter_map(|line| line.strip_prefix('s')?.strip_suffix(" $"));
    values.map(str::to_string).collect()
}

#[test]
fn commands_of_two_bytes_in_the_dump() {
    let later = ["--cells", "256"];
    let seen = decoded(&later, FAR);
    assert_eq!(
        seen,
        [
            "idle",
            "command",
            "$3F,_second_byte",
            "write_cell_255",
            "write_cell_255_=_$AA",
            "idle",
            "command",
            "$BF,_second_byte",
            "read_cell_255_=_$AA",
            "idle"
        ]
    );
    let seen = decoded(&[], FAR);
    assert_eq!(seen, ["idle", "command", "ignored_$3F", "idle", "command", "ignored_$BF", "idle"]);
    let mut list = List::new();
    sent(&mut list, &[0x35, 0x80]);
    sent(&mut list, &[0x3F, 0x7D, 0xAA]);
    sent(&mut list, &[0x39, 0x08, 0xAA]);
    let seen = decoded(&later, &disassemble(list.as_bytes()));
    assert!(seen.contains(&"ignored_$3F_$7D".to_string()), "{seen:?}");
    assert!(seen.contains(&"write_cell_34_=_$AA_(protected)".to_string()), "{seen:?}");
}
