//! `swarmtempo keyboard`: events on a keyboard by itself.

mod common;

use common::{program, shell, status, stderr, stdout, Folder};

#[test]
fn answers_and_their_times() {
    let text = b"; a key, then none\n0t COMMAND Inquiry\n100t KEY $33\n5t COMMAND 0x10\n\
                 200000t KEY 43 ; after the Null\n0t command instant\n";
    let said = program(&["keyboard"], text);
    let wanted = "\
line VIA ticks event            answer
   2         0 COMMAND $10      -
   3       100 KEY $33          $33
   4       105 COMMAND $10      -
   5    195945 (wait)           $7B Null
   5    200105 KEY $2B          -
   6    200105 COMMAND $14      $2B
";
    assert_eq!((stdout(&said), stderr(&said), status(&said)), (wanted.into(), String::new(), 0));

    let keys = (1..=9).fold(String::new(), |text, code| text + &format!("0t KEY {code}\r"));
    let said = program(&["keyboard", "-", "--model=$8B"], (keys + "0t COMMAND MODEL\r").as_bytes());
    let out = stdout(&said);
    assert!(out.contains("   9         0 KEY $09          refused 11: eight key codes are held"));
    assert!(out.ends_with("  10         0 COMMAND $16      $8B Model\n"), "{out}");
    assert_eq!(status(&said), 0);
}

#[test]
fn saved_and_restored() {
    let folder = Folder::new("keyboard");
    let file = folder.path("kb");
    let said = program(&["keyboard", "--save", &file], b"0t KEY $33\n0t KEY $2B\n");
    assert_eq!(status(&said), 0, "{}", stderr(&said));
    let said = program(&["keyboard", "--image", &file], b"0t COMMAND INSTANT\n");
    assert!(stdout(&said).ends_with("COMMAND $14      $33\n"), "{}", stdout(&said));
    let wrong = folder.put("wrong", b"none");
    let said = program(&["keyboard", "--image", &wrong], b"");
    assert_eq!(status(&said), 7);
    assert!(stderr(&said).contains("wrong: not the image of an accepted keyboard"));
}

/// Every wrong line is told, nothing is run, and no file is written.
#[test]
fn wrong_lines() {
    let folder = Folder::new("keyboard_wrong");
    let text =
        "0t KEY\n 5 KEY 1\n0t KEY 256\n0t COMMAND NAP\n4294967296t\n0t WR 1 2\n0t KEY 1 2\n1t\n";
    folder.put("events", text.as_bytes());
    let said = shell(&folder, "exec \"$0\" keyboard events --save kb", &[], b"");
    let wanted = "\
events:1:7: a key code is missing
events:2:2: a wait ends in t (VIA ticks)
events:3:8: a byte is 0 to 255, or $00 to $FF
events:4:12: a byte is 0 to 255, or $00 to $FF
events:5:1: a wait is 0 to 4294967295 VIA ticks
events:6:4: COMMAND or KEY comes here
events:7:10: nothing more belongs here
swarmtempo: events: 7 errors in the text; nothing is run or written
";
    assert_eq!((stderr(&said), status(&said)), (wanted.into(), 65));
    assert_eq!(folder.names(), ["events"]);
    for (words, wanted, what) in [
        (&["--model", "300"][..], 64, "--model needs a byte, 0 to 255 or $00 to $FF, not `300`"),
        (&["--model", "1", "--image", "x"], 64, "--model and --image: an image has its model"),
        (&["events", "--save", "events"], 64, "EVENTS events and --save events are one file"),
        (&["--image", "-"], 64, "EVENTS and --image both come from standard input"),
        (&["absent"], 74, "absent: No such file"),
    ] {
        let said = shell(&folder, "exec \"$0\" keyboard \"$@\"", words, b"");
        assert_eq!(status(&said), wanted, "{words:?}: {}", stderr(&said));
        assert!(stderr(&said).contains(what), "{words:?}: {}", stderr(&said));
        assert_eq!(folder.names(), ["events"]);
    }
    let said = program(&["keyboard"], b"0t KEY 1\n\0");
    assert_eq!(status(&said), 65, "{}", stderr(&said));
}
