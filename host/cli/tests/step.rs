//! `swarmtempo step`: a list item by item, from a script and from a pipe.

mod common;

use common::{has, program, shell, status, stderr, stdout, Folder, PROGRAM, SECOND};
use std::io::{BufRead, BufReader, Write};
use std::process::{Command, Stdio};
use swarmtempo::table::{Table, HEAD};
use swarmtempo::{pieces, Chip, List, Machine, ANSWER_LEN};

const CELL: &str = include_str!("../../captures/cell.txt");
const FAR: &str = include_str!("../../captures/far.txt");

/// The rows of a list, as run shows them.
fn rows(list: &str) -> Vec<String> {
    let list: List = list.parse().expect("in the form");
    let mut answers = Vec::new();
    Machine::fresh(Chip::First).run(&list, &mut answers);
    let mut table = Table::default();
    let answers = answers.as_chunks::<ANSWER_LEN>().0;
    let row = |(piece, answer)| {
        let mut row = String::new();
        table.row(piece, answer, &mut row);
        row
    };
    pieces(list.as_ref()).zip(answers).map(row).collect()
}

#[test]
fn a_script() {
    let folder = Folder::new("step");
    // Cell 0 written, then a refusal, then cell 0 under protect ($35 $80), which is not written.
    let bits = |byte: u8| {
        let bit = move |i: u8| byte >> (7 - i) & 1;
        (0..8).map(move |i| format!("0t WR VIA.ORB {}\n0t WR VIA.ORB {}\n", bit(i), bit(i) | 2))
    };
    let write = |command: u8, byte: u8| {
        let bits: String = bits(command).chain(bits(byte)).collect();
        format!("1t WR VIA.ORB 4\n0t WR VIA.ORB 0\n{bits}")
    };
    let list = [
        "0t WR VIA.DDRB 7\n",
        &write(0x41, 0x11),
        "5t DI internal 0 0 0\n",
        &write(0x45, 0x11),
        &write(0x35, 0x80),
        &write(0x41, 0x22),
        "7t SE\n",
    ]
    .concat();
    folder.put("list", list.as_bytes());
    folder.put(
        "script",
        b"; through it\nnext\nNEXT 2 ; two more\nwhere\ncell\nrefusal\nwhere\nc 1\ncell 0\nanswers 1\n\
          next\nwhere\nquit\nnext\n",
    );
    let script = "exec \"$0\" step --text list --script script --save end.st";
    let done = shell(&folder, script, &[], b"");
    assert_eq!((status(&done), stderr(&done).as_str()), (0, ""));
    let rows = rows(&list);
    let row = |number: usize| &rows[number - 1];
    let wanted = format!(
        "> next\n{HEAD}{}> NEXT 2 ; two more\n{HEAD}{}{}\
         > where\nafter 3 items, line 3, at byte offset 33, after 1 VIA tick (0.000001 seconds)\n\
         > cell\n32 items on\n{HEAD}{}cell 0: $00 before, $11 after\n\
         > refusal\n1 item on\n{HEAD}{}\
         > where\nafter 36 items, line 36, at byte offset 395, after 1 VIA tick (0.000001 seconds)\n\
         > c 1\n34 items on\n{HEAD}{}cell 1: $00 before, $11 after\n\
         > cell 0\ncell 0 is not written up to the end\n69 items on\n> answers 1\n{HEAD}{}\
         > next\nthe end of the list\n\
         > where\nafter 139 items, line 139, at byte offset 1,523, after 11 VIA ticks (0.000014 seconds)\n\
         > quit\n",
        row(1),
        row(2),
        row(3),
        row(35),
        row(36),
        row(70),
        row(139)
    );
    assert!(row(36).contains("NO 8"), "{}", row(36));
    assert_eq!(stdout(&done), wanted);
    let state = Machine::from_image(&folder.get("end.st")).expect("accepted").state();
    assert_eq!((state.cells[0], state.cells[1], state.protect), (0x11, 0x11, true));
    // From a pipe it is the same.
    let piped = shell(&folder, "exec \"$0\" step --text list <script", &[], b"");
    assert_eq!(stdout(&piped), wanted);
}

#[test]
fn states_cells_and_ends() {
    let folder = Folder::new("step-states");
    folder.put("far", FAR.as_bytes());
    folder.put("cut", &[&SECOND[..], &SECOND, &[9, 0, b'W']].concat());
    let done =
        shell(&folder, "exec \"$0\" step --text far --cells 256", &[], b"cell 255\nstate\nhelp\n");
    let shown = stdout(&done);
    assert!(shown.contains("cell 255: $00 before, $AA after\n"), "{shown}");
    assert!(shown.contains("State image of kind SX, 361 bytes") && shown.contains("next [COUNT]"));
    // On the first chip that transaction writes nothing.
    let done = shell(&folder, "exec \"$0\" step --text far", &[], b"cell\n");
    assert!(stdout(&done).contains("no cell is written up to the end"), "{}", stdout(&done));
    let done = shell(&folder, "exec \"$0\" step cut --save a.st", &[], b"end\nnext\n");
    let wanted =
        "> end\n3 items on\nstop 1 (record cut short): the list does not go on\n> next\nstop 1";
    assert!(stdout(&done).starts_with(wanted), "{}", stdout(&done));
    assert_eq!(status(&done), 1);
    // On from an image.
    let done = shell(&folder, "exec \"$0\" step cut --image a.st --save b.st", &[], b"n 1\n");
    assert_eq!(status(&done), 0);
    let state = Machine::from_image(&folder.get("b.st")).expect("accepted").state();
    assert_eq!(state.seconds.0, 3);
    // As many rows as are kept.
    folder.put("long", &SECOND.repeat(70_000));
    let done = shell(&folder, "exec \"$0\" step long", &[], b"n 3\nend\nanswers 2000\n");
    let shown = stdout(&done);
    assert_eq!(shown.lines().count(), 1 + 4 + 2 + 1 + 1001, "{}", &shown[..400]);
    assert!(shown.contains("\n69,997 items on\n") && shown.contains("\n   69001 "));
}

/// Wrong commands, and words.
#[test]
fn what_is_wrong() {
    let folder = Folder::new("step-wrong");
    folder.put("list", &SECOND.repeat(3));
    folder.put("script", b"next\nfly\n  next x\ncell 256\nquit now\n");
    folder.put("bad.txt", b"0t SE\n0t XX\n");
    let done = shell(&folder, "exec \"$0\" step list --script script --save end.st", &[], b"");
    assert_eq!((status(&done), stdout(&done).as_str()), (65, ""));
    for part in
        ["script:2:1: `fly` is no", "script:3:8: next needs", "script:4:6: cells", "script:5:6:"]
    {
        assert!(stderr(&done).contains(part), "{part}: {}", stderr(&done));
    }
    let done = shell(&folder, "exec \"$0\" step list --save end.st", &[], b"next\nfly\nnext\n");
    assert_eq!(status(&done), 65);
    assert!(
        stdout(&done).lines().count() == 3 && stderr(&done).contains("standard input:2:1: `fly`")
    );
    assert!(!folder.names().contains(&"end.st".to_string()));
    let done = shell(&folder, "exec \"$0\" step --text bad.txt", &[], b"next\n");
    assert_eq!((status(&done), stdout(&done).as_str()), (65, ""));
    for words in [
        &["step"][..],
        &["step", "list", "more"],
        &["step", "-"],
        &["step", "list", "--script", "script", "--save", "script"],
        &["step", "list", "--text", "--records"],
    ] {
        let done = shell(&folder, "x=$0; exec \"$x\" \"$@\"", words, b"");
        assert_eq!(status(&done), 64, "{words:?}: {}", stderr(&done));
    }
    assert_eq!(status(&shell(&folder, "exec \"$0\" step list --script none", &[], b"")), 74);
    // The list from standard input, the commands from a script.
    folder.put("script", b"end");
    let done = shell(&folder, "exec \"$0\" step - --script script", &[], &SECOND.repeat(5));
    assert_eq!(stdout(&done), "> end\n5 items on\n");
}

/// A program that gives a command, reads what it shows, and then gives the next.
#[test]
fn one_command_after_the_other() {
    let folder = Folder::new("step-live");
    let list = folder.put("list", CELL.as_bytes());
    let mut command = Command::new(PROGRAM);
    command.args(["step", "--text", &list]).stdin(Stdio::piped()).stdout(Stdio::piped());
    let mut child = command.spawn().expect("started");
    let mut input = child.stdin.take().expect("piped");
    let mut lines = BufReader::new(child.stdout.take().expect("piped")).lines();
    for item in 1..=4 {
        input.write_all(b"next\n").expect("taken");
        let shown: Vec<String> = lines.by_ref().take(3).map(|it| it.expect("text")).collect();
        assert!(shown[2].trim_start().starts_with(&format!("{item} ")), "{shown:?}");
    }
    drop(input);
    assert!(child.wait().expect("ended").success());
    // A reader that goes away is no error.
    let done = shell(
        &folder,
        "{ \"$0\" step --text list; echo $? >status; } | head -n 1",
        &[],
        b"end\nn\n",
    );
    assert_eq!((stdout(&done).as_str(), folder.get("status")), ("> end\n", b"0\n".to_vec()));
    assert_eq!(status(&program(&["step", &list, "--text"], b"")), 0);
}

/// On a terminal, where `script` makes one.
#[test]
fn on_a_terminal() {
    let folder = Folder::new("step-terminal");
    if !has("script", "the stepper on a terminal") {
        return;
    }
    folder.put("list", CELL.as_bytes());
    let run = "TERM=dumb script -qec \"'$0' step --text list\" typed";
    let done = shell(&folder, run, &[], b"n 2\nfly\n\nq\n");
    let shown = stdout(&done);
    assert_eq!(status(&done), 0, "{shown}{}", stderr(&done));
    for part in ["step> ", "       2 ", "`fly` is no command", "       3 "] {
        assert!(shown.contains(part), "{part}: {shown}");
    }
}
