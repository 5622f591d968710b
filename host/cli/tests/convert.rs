//! `swarmtempo convert`: old captures turned over.

mod common;

use common::{program, shell, status, stderr, stdout, Folder};
use std::fs::File;

fn record(kind: &[u8], wait: u8, rest: &[u8]) -> Vec<u8> {
    let length = u8::try_from(4 + rest.len()).expect("short");
    [&[length, 0], kind, &[wait, 0], rest].concat()
}

/// A disk is put into the internal drive; its direction; a second.
fn capture() -> Vec<u8> {
    let items = [record(b"SN", 5, &[0, 1, 0]), record(b"SN", 6, &[0, 0, 1]), record(b"SE", 1, &[])];
    items.concat()
}

#[test]
fn captures_are_turned_over() {
    let folder = Folder::new("convert");
    folder.put("old", &capture());
    let convert = "exec \"$0\" convert \"$@\"";
    let done = shell(&folder, convert, &["old", "-o", "new"], b"");
    let said = "swarmtempo: 2 SN replaced, 1 of them without a DI; all 24 bytes converted\n";
    assert_eq!((status(&done), stderr(&done)), (0, said.into()));
    let new = swarmtempo::convert(&capture()).0;
    assert_eq!(folder.get("new"), new);
    assert_eq!(program(&["convert"], &capture()).stdout, new, "between pipes");
    let run = shell(&folder, "exec \"$0\" run new --strict --quiet", &[], b"");
    assert_eq!((status(&run), stdout(&run)), (0, String::new()), "{}", stderr(&run));
    let run = shell(&folder, "exec \"$0\" run old --strict --quiet", &[], b"");
    assert_eq!(status(&run), 9, "{}", stderr(&run));

    folder.put("cut", &[&capture()[..], &[9, 0, b'W']].concat());
    let done = shell(&folder, convert, &["cut", "-o", "new"], b"");
    assert_eq!(status(&done), 1);
    let end = "stopped at byte 24 of 27: a record is cut there\n";
    assert!(stderr(&done).ends_with(end), "{}", stderr(&done));
    assert_eq!(folder.get("new"), new);
}

#[test]
fn nothing_is_written_where_something_is_wrong() {
    let folder = Folder::new("convert_wrong");
    folder.put("old", &capture());
    folder.put("text", b"0t SN internal 1 0\n");
    let long = File::create(folder.path("long")).expect("made");
    long.set_len((1 << 28) + 1).expect("a long file");
    let names = folder.names();
    for (words, wanted, said) in [
        (&["long", "-o", "new"][..], 64, "long has more than 268,435,456 bytes"),
        (&["old", "-o", "old"], 64, "OLD old and -o old are one file"),
        (&["text", "-o", "new"], 65, "text: a text, not records; asm makes records of it"),
        (&["absent", "-o", "new"], 74, "absent: No such file"),
    ] {
        let done = shell(&folder, "exec \"$0\" convert \"$@\"", words, b"");
        assert_eq!(status(&done), wanted, "{words:?}: {}", stderr(&done));
        assert!(stderr(&done).contains(said), "{words:?}: {}", stderr(&done));
        assert_eq!(folder.names(), names);
    }
}
