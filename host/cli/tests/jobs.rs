//! `swarmtempo run A B C --jobs N`: many lists at once.

mod common;

use common::{program, shell, status, stderr, stdout, Folder, SECOND};
use swarmtempo::{text, Chip, Machine};

const CELL: &str = include_str!("../../captures/cell.txt");
const HEAD: &str = "status   carried out     refused            VIA ticks  cells changed  list\n";

fn row(status: u8, counts: [&str; 4], list: &str) -> String {
    let [done, refused, ticks, cells] = counts;
    format!("{status:>6}  {done:>12}  {refused:>10}  {ticks:>19}  {cells:>13}  {list}\n")
}

#[test]
fn a_row_for_each_and_a_summary() {
    let folder = Folder::new("jobs");
    folder.put("cell", &text::assemble(CELL).expect("in the form"));
    folder.put("long", &SECOND.repeat(200_000));
    folder.put("cut", &[&SECOND[..], &[9, 0, b'W']].concat());
    folder.put("refused", &text::assemble("5t DI internal 0 0 0\n3t SE\n").expect("in the form"));
    folder.put("text", b"0t SE\n");
    let none = ["-"; 4];
    let rows = [
        row(0, ["200000", "0", "200000", "0"], "long"),
        row(0, ["80", "0", "174", "1"], "cell"),
        row(0, ["1", "1", "3", "0"], "refused"),
        row(1, ["1", "1", "1", "0"], "cut"),
        row(74, none, "none"),
        row(65, none, "text"),
    ];
    for jobs in ["", "--jobs 1", "--jobs 2", "--jobs=200"] {
        let script = format!("exec \"$0\" run long cell refused cut none text {jobs}");
        let done = shell(&folder, &script, &[], b"");
        assert_eq!(stdout(&done), format!("{HEAD}{}", rows.concat()), "{jobs}");
        // The first that is not 0, in the order in which they are named.
        assert_eq!(status(&done), 1);
        let said = stderr(&done);
        for part in [
            "swarmtempo: none: No such file",
            "text: a text, not records; with --text it is taken as one",
            "6 lists: 3 to the end, 1 stopped before it, 2 not read\n",
            "  carried out   200,082 items\n",
            "  refused       2 items\n",
            "  duration      200,178 VIA ticks (0.255537 seconds) in all\n",
        ] {
            assert!(said.contains(part), "{part}: {said}");
        }
    }
    // Quiet, strict, one list, standard input.
    let quiet = shell(&folder, "exec \"$0\" run long cell --quiet --jobs 2", &[], b"");
    let shown = (status(&quiet), stdout(&quiet), stderr(&quiet));
    assert_eq!(shown, (0, String::new(), String::new()));
    let strict = shell(&folder, "exec \"$0\" run cell refused --quiet --strict", &[], b"");
    assert_eq!((status(&strict), stdout(&strict)), (8, row(8, ["1", "1", "3", "0"], "refused")));
    let piped = shell(&folder, "exec \"$0\" run - --jobs 1", &[], &SECOND);
    assert_eq!(stdout(&piped), format!("{HEAD}{}", row(0, ["1", "0", "1", "0"], "standard input")));
}

/// Each list starts from the image given, and none sees another.
#[test]
fn from_one_state() {
    let folder = Folder::new("jobs-image");
    folder.put("cell", &text::assemble(CELL).expect("in the form"));
    folder.put("text", CELL.as_bytes());
    let mut machine = Machine::fresh(Chip::Later);
    machine.run(folder.get("cell"), &mut Vec::new());
    folder.put("end.sx", machine.image());
    // Cell 0 has its value already.
    let done = shell(&folder, "exec \"$0\" run cell cell --image end.sx", &[], b"");
    assert_eq!(stdout(&done), format!("{HEAD}{0}{0}", row(0, ["80", "0", "174", "0"], "cell")));
    let done = shell(&folder, "exec \"$0\" run --text text text --cells 256", &[], b"");
    assert_eq!(stdout(&done), format!("{HEAD}{0}{0}", row(0, ["80", "0", "174", "1"], "text")));
}

#[test]
fn wrong_words() {
    for (words, said) in [
        (&["run", "a", "b", "--save", "c"][..], "--save is for one list"),
        (&["run", "a", "--jobs", "1", "--vcd", "c"], "--vcd is for one list"),
        (&["run", "a", "b", "--answers=c"], "--answers is for one list"),
        (&["run", "a", "b", "--room=8"], "--room is for one list"),
        (&["run", "a", "--jobs", "0"], "--jobs needs a number of lists from 1 to 256"),
        (&["run", "a", "--jobs", "257"], "--jobs needs a number of lists from 1 to 256"),
        (&["run", "--jobs", "2"], "LIST is missing"),
        (&["run", "-", "-"], "both come from standard input"),
        (&["run", "a", "b", "--text", "--records"], "--text and --records"),
        (&["run", "a", "b", "--color=red"], "--color needs"),
    ] {
        let done = program(words, b"");
        assert_eq!(status(&done), 64, "{words:?}");
        assert!(stderr(&done).contains(said), "{words:?}: {}", stderr(&done));
    }
}

/// A reader that goes away is no error.
#[test]
fn a_closed_pipe() {
    let folder = Folder::new("jobs-closed");
    folder.put("x", &SECOND.repeat(100));
    let names = vec!["x"; 2_000].join(" ");
    let script = format!("{{ \"$0\" run {names} 2>told; echo $? >status; }} | head -n 1");
    let done = shell(&folder, &script, &[], b"");
    assert_eq!((stdout(&done).as_str(), folder.get("status")), (HEAD, b"0\n".to_vec()));
    let told = String::from_utf8(folder.get("told")).expect("text");
    assert!(told.starts_with("2,000 lists: 2000 to the end"), "{told}");
}
