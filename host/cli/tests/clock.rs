//! `swarmtempo clock`: an image's cells and seconds.

mod common;

use common::{program, shell, status, stderr, stdout, Folder};
use std::fs;
use std::os::unix::fs::PermissionsExt;
use swarmtempo::{Chip, Machine, Seconds};

fn run(folder: &Folder, words: &str) -> (i32, String, String) {
    let said = shell(folder, &format!("exec \"$0\" clock {words}"), &[], b"");
    (status(&said), stdout(&said), stderr(&said))
}

#[test]
fn written_and_read_back() {
    for (chip, cell) in [(Chip::First, 19), (Chip::Later, 200)] {
        let folder = Folder::new(&format!("clock_{cell}"));
        let file = folder.put("state", Machine::fresh(chip).image());
        fs::set_permissions(&file, fs::Permissions::from_mode(0o640)).expect("a mode");
        let told = |words: &str| -> String {
            let (status, out, err) = run(&folder, words);
            assert_eq!(status, 0, "{words}: {err}");
            out + &err
        };
        assert_eq!(
            told(&format!("state write {cell} '$AA'")),
            format!("swarmtempo: cell {cell}: $AA written\n")
        );
        assert_eq!(told("state write 3 18"), "swarmtempo: cell 3: $12 written\n");
        let before = folder.get("state");
        assert_eq!(told(&format!("state read {cell}")), format!("cell {cell}: $AA\n"));
        assert_eq!(told("state read 0x03"), "cell 3: $12\n");
        assert_eq!(told("state seconds"), "seconds: 0 (1904-01-01 00:00:00)\n");
        // A read leaves the file as it is.
        assert_eq!(folder.get("state"), before);
        assert_eq!(
            told("state set-seconds 2000000000s"),
            "swarmtempo: seconds: 2000000000 (1967-05-18 03:33:20) written\n"
        );
        assert_eq!(told("state seconds"), "seconds: 2000000000 (1967-05-18 03:33:20)\n");
        assert_eq!(told("state protect on"), "swarmtempo: write-protect: on\n");
        let before = folder.get("state");
        for write in ["write 3 $55", "write 3 18", "set-seconds 5"] {
            let (status, out, err) = run(&folder, &format!("state {write}"));
            assert_eq!((status, out.as_str()), (2, ""));
            assert_eq!(
                err,
                "swarmtempo: state: write-protect is set: the chip would not take it\n"
            );
            assert_eq!(folder.get("state"), before);
        }
        assert_eq!(told("state read 3"), "cell 3: $12\n");
        assert_eq!(told("state protect off --save other"), "swarmtempo: write-protect: off\n");
        assert_eq!(folder.get("state"), before);
        let machine = Machine::from_image(&folder.get("other")).expect("accepted");
        let state = machine.state();
        assert!(!state.protect && state.seconds == Seconds(2_000_000_000) && state.cells[3] == 18);
        assert_eq!(state.cells[usize::from(cell as u8)], 0xAA);
        assert_eq!(folder.names(), ["other", "state"]);
        let mode = fs::metadata(&file).expect("there").permissions().mode();
        assert_eq!(mode & 0o777, 0o640);
    }
}

#[test]
fn refusals() {
    let folder = Folder::new("clock_refused");
    folder.put("first", Machine::fresh(Chip::First).image());
    let mut down = Machine::fresh(Chip::Later);
    let list: swarmtempo::List = "0t WR VIA.DDRB $04".parse().expect("in the form");
    down.run(&list, &mut Vec::new());
    folder.put("down", down.image());
    folder.put("cut", &down.image()[1..]);
    for (words, wanted, says) in [
        ("first read 20", 5, "first: the clock chip has 20 cells, 0 to 19, and no cell 20"),
        ("first write 256 1", 5, "and no cell 256 (refusal 5)"),
        ("first read 99999999999", 5, "and no cell 99999999999 (refusal 5)"),
        ("down read 256", 5, "the clock chip has 256 cells, 0 to 255, and no cell 256"),
        ("down read 3", 10, "down: the clock's enable line is down: a transaction is under way"),
        ("down protect off", 10, "(refusal 10)"),
        ("down seconds", 10, "(refusal 10)"),
        ("down set-seconds 1", 10, "(refusal 10)"),
        ("cut read 3", 7, "cut: not the image of an accepted state"),
        ("missing read 3", 74, "missing: "),
        ("missing write 3 1", 74, "missing: "),
        ("", 64, "IMAGE ASK is missing"),
        ("first", 64, "what is asked for is missing: read CELL, write CELL BYTE, seconds"),
        ("first reed 3", 64, "`reed` asks for nothing; what does is read CELL"),
        ("first read", 64, "`read` has other words after it"),
        ("first read 3 4", 64, "`read` has other words after it"),
        ("first write 3", 64, "`write` has other words after it"),
        ("first write 3 4 5", 64, "`5` is too much"),
        ("first read three", 64, "CELL is a number, not `three`"),
        ("first read -- -1", 64, "CELL is a number, not `-1`"),
        ("first write 3 256", 64, "BYTE is 0 to 255, or $00 to $FF, not `256`"),
        ("first write 3 '$1FF'", 64, "BYTE is 0 to 255"),
        ("first set-seconds 4294967296", 64, "SECONDS is 0 to 4294967295"),
        ("first set-seconds soon", 64, "not `soon`"),
        ("first protect maybe", 64, "`protect` has other words after it"),
        ("first read 3 --save other", 64, "--save is of no use here"),
        ("first write 3 4 --save ./first", 64, "what is read is not written over"),
        ("- write 3 4", 64, "standard input is no file: --save names the one to write"),
        ("/dev/null protect on", 64, "/dev/null is no file"),
    ] {
        let before = (folder.names(), folder.get("first"), folder.get("down"));
        let (status, out, err) = run(&folder, words);
        assert_eq!((status, out.as_str()), (wanted, ""), "{words}: {err}");
        assert!(err.contains(says), "{words}: {err}");
        assert_eq!((folder.names(), folder.get("first"), folder.get("down")), before, "{words}");
    }
}

/// A link is followed; a file that may not be written, and a folder, are refused.
#[test]
fn places() {
    let folder = Folder::new("clock_places");
    let file = folder.put("state", Machine::fresh(Chip::First).image());
    std::os::unix::fs::symlink("state", folder.path("link")).expect("a link");
    let (status, _, err) = run(&folder, "link write 3 7");
    assert_eq!(status, 0, "{err}");
    assert!(fs::symlink_metadata(folder.path("link")).expect("there").is_symlink());
    let machine = Machine::from_image(&folder.get("state")).expect("accepted");
    assert_eq!(machine.state().cells[3], 7);
    fs::set_permissions(&file, fs::Permissions::from_mode(0o440)).expect("a mode");
    let before = folder.get("state");
    let (status, _, err) = run(&folder, "state write 3 8");
    assert_eq!((status, folder.get("state")), (74, before), "{err}");
    assert!(err.contains("read-only"), "{err}");
    let (status, _, err) = run(&folder, "state write 3 8 --save missing/new");
    assert_eq!(status, 74, "{err}");
    let (status, _, err) = run(&folder, ". write 3 8");
    assert_eq!(status, 64, "{err}");
    assert_eq!(folder.names(), ["link", "state"]);
}

#[test]
fn by_standard_input_and_output() {
    let image = Machine::fresh(Chip::Later).image().to_vec();
    let read = program(&["clock", "-", "read", "255"], &image);
    assert_eq!((status(&read), stdout(&read)), (0, "cell 255: $00\n".into()), "{}", stderr(&read));
    let written = program(&["clock", "-", "write", "255", "7", "--save", "-"], &image);
    assert_eq!(status(&written), 0, "{}", stderr(&written));
    let machine = Machine::from_image(&written.stdout).expect("accepted");
    assert_eq!(machine.state().cells[255], 7);
}
