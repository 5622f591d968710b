//! `swarmtempo cut` and `join`: captures in parts, and whole again.

mod common;

use common::{program, shell, status, stderr, Folder, SECOND};
use swarmtempo::text::assemble;

/// Records of 6 and 11 bytes, and what is refused.
const TEXT: &str =
    "12t SE\n0t WR VIA.DDRB $07\n5t VB\nRAW 02 00 5A 5A\n9t PW 5s\n3t RS\n65535t SE\n";

fn capture() -> Vec<u8> {
    assemble(TEXT).expect("in the form")
}

fn cut(folder: &Folder, words: &[&str]) -> (i32, String) {
    let done = shell(folder, "exec \"$0\" cut \"$@\"", words, b"");
    (status(&done), stderr(&done))
}

/// Runs the parts one after the other, each from its own state; the answers joined, the last image.
fn run_parts(folder: &Folder, count: usize) -> (Vec<u8>, Vec<u8>) {
    let mut answers = Vec::new();
    for part in 1..=count {
        let name = format!("p-{part:04}");
        let run =
            "\"$0\" run $1.bin --records --image $1.st --answers a --save s --quiet 2>/dev/null";
        assert_eq!(status(&shell(folder, run, &[&name], b"")), 0, "{name}");
        answers.extend(folder.get("a"));
        if part < count {
            let next = format!("p-{:04}.st", part + 1);
            assert_eq!(
                folder.get("s"),
                folder.get(&next),
                "{name} leaves what the next starts from"
            );
        }
    }
    (answers, folder.get("s"))
}

#[test]
fn parts_run_as_the_whole() {
    for (number, cells) in ["20", "256"].into_iter().enumerate() {
        let folder = Folder::new(&format!("cut{number}"));
        folder.put("whole", &capture());
        folder.put("text", TEXT.as_bytes());
        let run = "\"$0\" run whole --cells $1 --answers answers --save save --quiet 2>/dev/null";
        assert_eq!(status(&shell(&folder, run, &[cells], b"")), 0);
        let wanted = (folder.get("answers"), folder.get("save"));
        for (words, parts) in [
            (&["whole", "--at", "17"][..], 2),
            (&["whole", "--at", "0"], 2),
            (&["text", "--text", "--at", "23"], 2),
            (&["whole", "--every", "1"], 7),
            (&["whole", "--every", "3"], 3),
            (&["whole", "--every", "99"], 1),
        ] {
            let words = [words, &["--cells", cells, "--out", "p"]].concat();
            let (status, told) = cut(&folder, &words);
            let said = if parts == 1 { "part".into() } else { format!("{parts} parts") };
            assert!(status == 0 && told.contains(&said), "{words:?}: {status} {told}");
            assert_eq!(run_parts(&folder, parts), wanted, "{words:?}");
            let names: Vec<String> = (1..=parts).map(|i| format!("p-{i:04}.bin")).collect();
            let join = format!("exec \"$0\" join --records {} -o joined", names.join(" "));
            let joined = shell(&folder, &join, &[], b"");
            assert_eq!(common::status(&joined), 0, "{}", stderr(&joined));
            assert_eq!(folder.get("joined"), capture(), "{words:?}");
        }
    }
}

/// An MW is one record: parts begin and end around it, amid a command, and never within it.
#[test]
fn many_writes_stay_whole() {
    let folder = Folder::new("cut_many");
    let many = include_str!("../../captures/many.txt");
    let whole = assemble(many).expect("in the form");
    folder.put("whole", &whole);
    let run = "\"$0\" run whole --answers answers --save save --quiet 2>/dev/null";
    assert_eq!(status(&shell(&folder, run, &[], b"")), 0);
    let wanted = (folder.get("answers"), folder.get("save"));
    let (status, told) = cut(&folder, &["whole", "--every", "1", "--out", "p"]);
    let records = swarmtempo::pieces(&whole).count();
    assert!(status == 0 && told.contains(&format!("{records} parts")), "{told}");
    assert_eq!(run_parts(&folder, records), wanted);
    // The first MW has bytes 22 to 67: 11 and 34 values.
    for (at, wanted) in [("22", 0), ("23", 64), ("40", 64), ("66", 64), ("67", 0)] {
        let (status, told) = cut(&folder, &["whole", "--at", at, "--out", "q"]);
        assert_eq!(status, wanted, "{at}: {told}");
        let said = format!("byte {at} of whole is inside a record, which has bytes 22 to 67");
        assert_eq!(told.contains(&said), wanted == 64, "{told}");
    }
}

/// A part goes on from the state of an image.
#[test]
fn from_an_image() {
    let folder = Folder::new("cut_image");
    folder.put("whole", &capture());
    folder.put("again", &SECOND.repeat(2));
    let run = "\"$0\" run whole --save image --quiet 2>/dev/null";
    shell(&folder, run, &[], b"");
    let words = ["again", "--image", "image", "--every", "1", "--out", "p"];
    assert_eq!(cut(&folder, &words).0, 0);
    assert_eq!(folder.get("p-0001.st"), folder.get("image"));
    assert_ne!(folder.get("p-0002.st"), folder.get("image"));
}

#[test]
fn nothing_is_written_where_something_is_wrong() {
    let folder = Folder::new("cut_wrong");
    folder.put("whole", &capture());
    folder.put("text", TEXT.as_bytes());
    folder.put("short", &[&capture()[..], &[9, 0, b'W']].concat());
    folder.put("many", &SECOND.repeat(401));
    folder.put("q-0001.bin", &SECOND);
    std::fs::create_dir(folder.path("r-0002.st")).expect("a folder");
    let names = folder.names();
    let out = ["--out", "p"];
    for (words, wanted, said) in [
        (
            &["whole", "--at", "7"][..],
            64,
            "byte 7 of whole is inside a record, which has bytes 6 to 17",
        ),
        (&["whole", "--at", "1000"], 64, "whole has 49 bytes, and no byte 1000"),
        (&["whole"], 64, "--at or --every is missing"),
        (&["whole", "--at", "6", "--every", "1"], 64, "give one of them"),
        (&["whole", "--every", "0"], 64, "above 0"),
        (&["many", "--every", "1"], 64, "that makes 401 parts, more than 400"),
        (&["short", "--at", "6"], 1, "short: a record is cut at byte 49; no file is written"),
        (&["short", "--every", "1"], 1, "short: a record is cut at byte 49"),
        (&["text", "--at", "6"], 65, "text: a text, not records; with --text it is taken as one"),
        (&["whole", "--text", "--at", "6"], 65, "bytes, not a text"),
        (&["whole", "--at", "6", "--image", "text"], 7, "not the image of an accepted state"),
        (&["absent", "--at", "6"], 74, "absent: No such file"),
    ] {
        let (status, told) = cut(&folder, &[words, &out].concat());
        assert_eq!(status, wanted, "{words:?}: {told}");
        assert!(told.contains(said), "{words:?}: {told}");
        assert_eq!(folder.names(), names);
    }
    assert_eq!(cut(&folder, &["whole", "--at", "6"]).0, 64, "--out is missing");
    let (status, told) = cut(&folder, &["q-0001.bin", "--at", "0", "--out", "q"]);
    assert!(status == 64 && told.contains("are one file"), "{told}");
    // The last file of four cannot be written: none is.
    let (status, told) = cut(&folder, &["whole", "--at", "6", "--out", "r"]);
    assert!(status == 74 && told.contains("r-0002.st: a folder"), "{told}");
    assert_eq!(folder.names(), names);
}

/// Of a capture that ends within a record, the whole records before it are kept.
#[test]
fn what_is_good_is_kept() {
    let folder = Folder::new("cut_good");
    let whole = capture();
    folder.put("whole", &whole);
    folder.put("short", &[&whole[..], &[9, 0, b'W']].concat());
    // A length below 2, and what looks like records after it.
    folder.put("low", &[&whole[..], &[1, 0], &SECOND[..]].concat());
    folder.put("nothing", &[4]);
    for (name, words, parts, said) in [
        (
            "short",
            &["--good"][..],
            1,
            "short: a record is cut at byte 49; 3 bytes from there left out\n",
        ),
        ("low", &["--good"], 1, "low: a record is cut at byte 49; 8 bytes from there left out\n"),
        ("short", &["--good", "--at", "17"], 2, "3 bytes from there left out\n"),
        ("short", &["--at", "49", "--good"], 2, "3 bytes from there left out\n"),
        ("short", &["--every", "3", "--good"], 3, "3 bytes from there left out\n"),
        ("whole", &["--good"], 1, "49 bytes together\n"),
    ] {
        let (status, told) = cut(&folder, &[&[name], words, &["--out", "p"]].concat());
        assert!(status == 0 && told.ends_with(said), "{name} {words:?}: {told}");
        let kept: Vec<u8> =
            (1..=parts).flat_map(|part| folder.get(&format!("p-{part:04}.bin"))).collect();
        assert_eq!(kept, whole, "{name} {words:?}");
        run_parts(&folder, parts);
    }
    let (status, told) = cut(&folder, &["nothing", "--good", "--out", "n"]);
    assert!(status == 0 && told.contains("1 byte from there left out"), "{told}");
    assert_eq!(folder.get("n-0001.bin"), b"");
    // Without it the message names it, and so does the report's advice.
    let (status, told) = cut(&folder, &["short", "--at", "6", "--out", "q"]);
    assert!(status == 1 && told.contains("swarmtempo cut --good keeps the records before it"));
    let page = shell(&folder, "exec \"$0\" report short", &[], b"");
    assert!(String::from_utf8_lossy(&page.stdout).contains("cut CAPTURE --good --out PREFIX"));
    assert!(stderr(&page).contains("at byte 49; the rest is not run"), "{}", stderr(&page));
}

#[test]
fn joined_captures_are_whole() {
    let folder = Folder::new("join");
    folder.put("a", &SECOND);
    folder.put("short", &[4, 0, b'S']);
    let names = folder.names();
    let join = |words: &[&str]| {
        let done = shell(&folder, "exec \"$0\" join \"$@\"", words, b"");
        (status(&done), done.stdout.clone(), stderr(&done))
    };
    for words in [&["a", "short", "-o", "new"][..], &["short", "a", "-o", "new"], &["a", "short"]] {
        let (status, out, told) = join(words);
        assert_eq!((status, out), (1, Vec::new()), "{told}");
        assert!(told.contains("short: a record is cut at byte 0"), "{told}");
    }
    assert_eq!(join(&["a", "a", "-o", "a"]).0, 64);
    assert_eq!(join(&[]).0, 64);
    let long = std::fs::File::create(folder.path("long")).expect("made");
    long.set_len((1 << 28) + 1).expect("a long file");
    let (status, _, told) = join(&["long", "-o", "new"]);
    assert!(status == 64 && told.contains("long has more than 268,435,456 bytes"), "{told}");
    std::fs::remove_file(folder.path("long")).expect("removed");
    assert_eq!(join(&["-", "-"]).0, 64);
    assert_eq!(folder.names(), names);
    assert_eq!(join(&["a", "a", "a"]).1, SECOND.repeat(3));
    assert_eq!(program(&["join", "--text", "-"], TEXT.as_bytes()).stdout, capture());
}
