//! `swarmtempo sheet`: sheets of settings on the command line.

mod common;

use common::{program, shell, status, stderr, stdout, Folder};
use swarmtempo::{Chip, Machine};

/// Two texts and their sheets.
fn sheets(name: &str) -> Folder {
    let folder = Folder::new(name);
    folder.put("bench.txt", b"7 1 \"old\"\n9 0\n7 1 \"north\"\n");
    folder.put("house.txt", b"7 9 \"lab\"\n20 1 14\n");
    for name in ["bench", "house"] {
        let (text, sheet) = (format!("{name}.txt"), format!("{name}.sv"));
        assert_eq!(sheet_in(&folder, &["make", &text, "-o", &sheet]), (0, String::new()));
    }
    folder
}

/// The command in a folder: its status, and what it wrote.
fn sheet_in(folder: &Folder, words: &[&str]) -> (i32, String) {
    let output = shell(folder, "exec \"$0\" sheet \"$@\"", words, b"");
    (status(&output), stdout(&output))
}

/// What it told on standard error.
fn told(folder: &Folder, words: &[&str]) -> (i32, String) {
    let output = shell(folder, "exec \"$0\" sheet \"$@\"", words, b"");
    (status(&output), stderr(&output))
}

#[test]
fn settings_are_got() {
    let folder = sheets("sheet_get");
    let both = ["--bench", "bench.sv", "--house", "house.sv"];
    let get = |setting: &str| sheet_in(&folder, &[&["get", setting][..], &both[..]].concat());
    assert_eq!(get("7"), (0, "7 bench \"north\"\n".into()));
    assert_eq!(get("20"), (0, "20 house 14\n".into()));
    assert_eq!(get("9"), (0, "9 bench\n".into()));
    assert_eq!(get("8"), (2, "8 not set\n".into()));
    assert_eq!(sheet_in(&folder, &["get", "8"]), (2, "8 not set\n".into()));
    for wrong in ["65536", "-1", "x", ""] {
        assert_eq!(get(wrong).0, 64, "{wrong}");
    }
    let text = ["get", "20", "--text", "--house", "house.txt"];
    assert_eq!(sheet_in(&folder, &text), (0, "20 house 14\n".into()));
    let twice = told(&folder, &["get", "7", "--bench=-", "--house=-"]);
    assert!(twice.0 == 64 && twice.1.contains("both come from standard input"), "{}", twice.1);
}

#[test]
fn sheets_are_listed_and_made() {
    let folder = sheets("sheet_list");
    let listed = sheet_in(&folder, &["list", "bench.sv"]);
    assert_eq!(listed, (0, "7 1 \"old\" ; does not count\n9 0\n7 1 \"north\"\n".into()));
    folder.put("again.txt", listed.1.as_bytes());
    assert_eq!(sheet_in(&folder, &["make", "again.txt", "-o", "again.sv"]).0, 0);
    assert_eq!(folder.get("again.sv"), folder.get("bench.sv"));
    // Of records that are alike the later one counts; between pipes, with a byte order mark.
    let alike = program(&["sheet", "make"], b"\xEF\xBB\xBF5 1 AA\r\n6 2\r\n5 1 AA");
    let listed = program(&["sheet", "list"], &alike.stdout);
    assert_eq!(stdout(&listed), "5 1 AA ; does not count\n6 2\n5 1 AA\n");
    let nothing = program(&["sheet", "list"], b"");
    assert_eq!((status(&nothing), stdout(&nothing)), (0, String::new()));
}

#[test]
fn sheets_are_compacted() {
    let folder = sheets("sheet_compact");
    assert_eq!(sheet_in(&folder, &["compact", "bench.sv", "-o", "small.sv"]), (0, String::new()));
    assert_eq!(sheet_in(&folder, &["list", "small.sv"]), (0, "9 0\n7 1 \"north\"\n".into()));
    assert_eq!(sheet_in(&folder, &["compact", "bench.sv", "-oexact.sv", "--room", "19"]).0, 0);
    assert_eq!(folder.get("exact.sv"), folder.get("small.sv"));
    let text = ["compact", "--text", "bench.txt", "-o", "text.sv"];
    assert_eq!(sheet_in(&folder, &text).0, 0);
    assert_eq!(folder.get("text.sv"), folder.get("small.sv"));
}

/// Refusals and errors: their statuses, their words, and no file.
#[test]
fn nothing_is_written_where_something_is_wrong() {
    let folder = sheets("sheet_wrong");
    folder.put("cut.sv", &folder.get("bench.sv")[..9]);
    folder.put("image", Machine::fresh(Chip::First).image());
    folder.put("wrong.txt", b"1 1\n65536 0\n2 2 \"a\n\xFF\n3 3\n");
    let names = folder.names();
    let broken =
        "cut.sv: a cut record, another kind than SV, or a length outside 5 to 69 (refusal 1)";
    for (words, wanted, said) in [
        (&["compact", "bench.sv", "-o", "no", "--room", "18"][..], 6, "bench.sv: too little room"),
        (&["compact", "cut.sv", "-o", "no"], 1, broken),
        (&["list", "cut.sv", "-o", "no"], 1, broken),
        (&["get", "20", "--bench", "cut.sv", "--house", "house.sv"], 1, broken),
        (&["get", "20", "--bench", "house.sv", "--house", "cut.sv"], 1, broken),
        (&["get", "20", "--bench", "bench.txt"], 65, "bench.txt: a text, not a sheet; --text"),
        (&["list", "image", "-o", "no"], 65, "image: a state image, not a sheet"),
        (&["make", "house.sv", "-o", "no"], 65, "house.sv: bytes, not a text; sheet list"),
        (&["make", "wrong.txt", "-o", "no"], 65, "wrong.txt:2:1: a setting is a number from 0"),
        (&["make", "wrong.txt", "-o", "no"], 65, "wrong.txt:3:7: a quote is missing"),
        (&["make", "wrong.txt", "-o", "no"], 65, "wrong.txt:4:1: not text (UTF-8)"),
        (&["make", "wrong.txt", "-o", "no"], 65, "wrong.txt: 3 errors in the text; nothing is"),
        (&["list", "absent", "-o", "no"], 74, "absent: No such file"),
        (&["make", "bench.txt", "-o", "bench.txt"], 64, "TEXT bench.txt and -o bench.txt are one"),
        (&["compact", "bench.sv", "-o", "./bench.sv"], 64, "what is read is not written over"),
        (&["compact", "bench.sv", "-o", "no", "--room", "x"], 64, "--room needs a number"),
    ] {
        let (status, text) = told(&folder, words);
        assert_eq!(status, wanted, "{words:?}: {text}");
        assert!(text.contains(said), "{words:?}: {text}");
        assert_eq!(folder.names(), names, "{words:?}");
    }
}
