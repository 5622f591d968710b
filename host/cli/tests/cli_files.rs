//! The program's files: all are written or none, whatever happens meanwhile.

mod common;

use common::{
    feed, program, shell, skipped, status, stderr, stdout, watches_calls, Folder, PROGRAM, SECOND,
};
use std::ffi::OsStr;
use std::fs;
use std::io::Write;
use std::os::unix::ffi::OsStrExt;
use std::os::unix::fs::{symlink, MetadataExt, PermissionsExt};
use std::os::unix::process::ExitStatusExt;
use std::process::{Command, Stdio};
use swarmtempo::Machine;

/// The image after so many seconds.
fn seconds_of(image: &[u8]) -> u32 {
    Machine::from_image(image).expect("accepted").state().seconds.0
}

/// Words that name one file twice: both are named, and nothing is read or written.
#[test]
fn one_file_under_two_words() {
    let folder = Folder::new("conflicts");
    folder.put("x", &SECOND);
    folder.put("text", b"0t SE\n");
    symlink("x", folder.path("link")).expect("a link");
    symlink("fresh", folder.path("dangling")).expect("a link");
    fs::hard_link(folder.path("x"), folder.path("twin")).expect("a link");
    let names = folder.names();
    for (words, first, second) in [
        (&["run", "x", "--save", "x"][..], "LIST x", "--save x"),
        (&["run", "link", "--save", "x"], "LIST link", "--save x"),
        (&["run", "x", "--vcd", "link"], "LIST x", "--vcd link"),
        (&["run", "x", "--answers", "twin"], "LIST x", "--answers twin"),
        (&["run", "x", "--image=text", "--save=./text"], "--image text", "--save ./text"),
        (&["asm", "text", "-o", "text"], "TEXT text", "-o text"),
        (&["disasm", "x", "-ox"], "LIST x", "-o x"),
        (&["run", "x", "--save", "new", "--vcd", "./new"], "--vcd ./new", "--save new"),
        (&["run", "x", "--save", "fresh", "--vcd", "dangling"], "--vcd dangling", "--save fresh"),
        (&["run", "x", "--answers", "-", "--save", "-"], "--answers", "--save"),
        (&["run", "x", "--vcd", "-"], "the table of answers", "--vcd"),
        (&["run", "-", "--image", "-"], "LIST", "--image"),
    ] {
        // Standard input stays open: what waits for it would wait for ever.
        let mut command = Command::new(PROGRAM);
        command.args(words).current_dir(&folder.0);
        command.stdin(Stdio::piped()).stdout(Stdio::piped()).stderr(Stdio::piped());
        let mut child = command.spawn().expect("started");
        let open = child.stdin.take();
        let output = child.wait_with_output().expect("ended");
        drop(open);
        let said = stderr(&output);
        assert_eq!(status(&output), 64, "{words:?}: {said}");
        assert!(said.contains(&format!("{first} ")) && said.contains(second), "{words:?}: {said}");
        assert!(output.stdout.is_empty());
    }
    assert_eq!(folder.names(), names);
    assert_eq!(folder.get("x"), SECOND);
    assert_eq!(folder.get("text"), b"0t SE\n");
}

/// Standard input and output that the shell has put on a named file.
#[test]
fn one_file_under_a_word_and_a_redirection() {
    let folder = Folder::new("redirected");
    folder.put("x", &SECOND);
    for script in [
        "\"$0\" run - --save x <x",
        "\"$0\" run x >>x",
        "\"$0\" run x --save y >y",
        "\"$0\" disasm <x >>x",
    ] {
        let output = shell(&folder, script, &[], b"");
        assert_eq!(status(&output), 64, "{script}: {}", stderr(&output));
        assert_eq!(folder.get("x"), SECOND, "{script}");
    }
    // A device may be named twice.
    let words = ["run", "x", "--save", "/dev/null", "--vcd", "/dev/null", "--quiet"];
    let mut command = Command::new(PROGRAM);
    assert_eq!(status(&feed(command.args(words).current_dir(&folder.0), b"")), 0);
}

/// A reader that goes away ends the table alone: the file is there, and the status is the run's.
#[test]
fn a_closed_pipe_drops_no_file() {
    let folder = Folder::new("closed");
    folder.put("big", &SECOND.repeat(30_000));
    folder.put("cut", &[&SECOND.repeat(30_000)[..], &[9, 0, b'W']].concat());
    for (list, errors, expected) in [("big", "2>told", 0), ("cut", "2>told", 1), ("big", "2>&1", 0)]
    {
        let script = format!(
            "{{ \"$0\" run {list} --save end.st --vcd end.vcd {errors}; echo $? >status; }} | head -n 1"
        );
        let output = shell(&folder, &script, &[], b"");
        assert_eq!(stdout(&output).lines().count(), 1);
        assert_eq!(folder.get("status"), format!("{expected}\n").as_bytes(), "{script}");
        assert_eq!(seconds_of(&folder.get("end.st")), 30_000);
        assert!(folder.get("end.vcd").ends_with(b"\n"));
        fs::remove_file(folder.path("end.st")).expect("there");
    }
    // What goes to the pipe itself: answers, a text.
    let script = "{ \"$0\" run big --answers - --save end.st; echo $? >status; } | head -c 8";
    assert_eq!(shell(&folder, script, &[], b"").stdout.len(), 8);
    assert_eq!(folder.get("status"), b"0\n");
    assert_eq!(seconds_of(&folder.get("end.st")), 30_000);
    let script = "{ \"$0\" disasm big; echo $? >status; } | head -n 1";
    assert_eq!(shell(&folder, script, &[], b"").stdout, b"1t SE\n");
    assert_eq!(folder.get("status"), b"0\n");
}

/// Killed in the middle of a run, by each of some signals: the folder is as it was.
#[test]
fn a_run_killed_in_the_middle() {
    let folder = Folder::new("killed");
    folder.put("end.st", b"as before");
    for signal in ["KILL", "TERM", "INT", "HUP"] {
        let words = ["run", "-", "--save", "end.st", "--vcd", "new.vcd", "--answers", "new.bin"];
        let mut command = Command::new(PROGRAM);
        command.args(words).current_dir(&folder.0);
        let mut child = command.stdin(Stdio::piped()).spawn().expect("started");
        let mut list = child.stdin.take().expect("piped");
        // More than a pipe and two chunks hold: the run is under way.
        list.write_all(&SECOND.repeat(120_000)).expect("taken");
        let number = child.id().to_string();
        let sent = Command::new("sh").args(["-c", "kill -s $0 $1", signal, &number]).status();
        assert!(sent.expect("sent").success());
        let ended = child.wait().expect("ended");
        assert!(ended.signal().is_some(), "{signal}: {ended}");
        assert_eq!(folder.names(), ["end.st"], "{signal}");
        assert_eq!(folder.get("end.st"), b"as before", "{signal}");
    }
}

/// An output that fails in the middle: no file, whichever it is; the right one is named.
#[test]
fn a_full_disk_leaves_nothing() {
    let folder = Folder::new("full");
    folder.put("big", &SECOND.repeat(100_000));
    folder.put("end.st", b"as before");
    let names = folder.names();
    for (script, file) in [
        ("\"$0\" run big --save end.st --vcd /dev/full --quiet", "/dev/full"),
        ("\"$0\" run big --save end.st >/dev/full", "standard output"),
        (
            "\"$0\" asm -o new >/dev/full; \"$0\" run big --answers /dev/full --save new",
            "/dev/full",
        ),
        // Short outputs: the failure comes when all is flushed, after the others are whole.
        ("printf '\\4\\0SE\\0\\0' | \"$0\" run - --answers new --vcd /dev/full", "/dev/full"),
        ("printf '\\4\\0SE\\0\\0' | \"$0\" run - --vcd new --save /dev/full --quiet", "/dev/full"),
        // A file may have 64 KiB: the dump comes to an end.
        (
            "trap '' XFSZ; ulimit -f 128; \"$0\" run big --save end.st --vcd new.vcd --quiet",
            "new.vcd",
        ),
        ("trap '' XFSZ; ulimit -f 128; \"$0\" disasm big -o new.txt", "new.txt"),
    ] {
        let output = shell(&folder, script, &[], b"wrong");
        let said = stderr(&output);
        assert_eq!(status(&output), 74, "{script}: {said}");
        assert!(said.contains(&format!("swarmtempo: {file}: ")), "{script}: {said}");
        assert_eq!(folder.names(), names, "{script}");
        assert_eq!(folder.get("end.st"), b"as before");
    }
}

/// A file system of 256 KiB that is really full, where this machine lets a test mount one.
#[test]
fn a_small_file_system_that_is_full() {
    let folder = Folder::new("small");
    folder.put("big", &SECOND.repeat(100_000));
    fs::create_dir(folder.path("disk")).expect("a folder");
    let mount = "mount -t tmpfs -o size=256k none disk";
    let tried = shell(&folder, &format!("unshare -rm sh -c '{mount}'"), &[], b"");
    if !tried.status.success() {
        return skipped("a small file system that is full", &stderr(&tried));
    }
    let run = "\"$0\" run big --save disk/end.st --vcd disk/new.vcd --quiet";
    let script = format!(
        "{mount} && echo before >disk/end.st && {{ {run}; echo $? >status; ls -A disk; cat disk/end.st; }}"
    );
    let mut command = Command::new("unshare");
    command.args(["-rm", "sh", "-c", &script, PROGRAM]).current_dir(&folder.0);
    let output = feed(&mut command, b"");
    assert_eq!(folder.get("status"), b"74\n", "{}", stderr(&output));
    assert_eq!(output.stdout, b"end.st\nbefore\n");
    assert!(stderr(&output).contains("disk/new.vcd: No space left"), "{}", stderr(&output));
}

/// Every output is opened before anything is run: one that cannot be leaves the others alone.
#[test]
fn outputs_are_opened_first() {
    let folder = Folder::new("first");
    folder.put("x", &SECOND);
    folder.put("end.st", b"as before");
    fs::create_dir(folder.path("sub")).expect("a folder");
    let names = folder.names();
    for (words, said) in [
        (["--vcd", "no/folder/y"], "no/folder/y: its folder no/folder is not there"),
        (["--vcd", "sub"], "sub: a folder, not a file"),
        (["--vcd", "new/"], "new/: a folder's name, not a file's"),
    ] {
        let mut command = Command::new(PROGRAM);
        let words = [&["run", "x", "--save", "end.st"], &words[..]].concat();
        let output = feed(command.args(words).current_dir(&folder.0), b"");
        assert_eq!(status(&output), 74, "{}", stderr(&output));
        assert!(output.stdout.is_empty(), "nothing is run");
        assert!(stderr(&output).contains(said), "{}", stderr(&output));
        assert_eq!(folder.get("end.st"), b"as before");
    }
    assert_eq!(folder.names(), names);
}

/// A link is followed, a mode is kept, another's temporary file stays, a read-only file is refused.
#[test]
fn what_is_replaced() {
    let folder = Folder::new("replaced");
    let list = folder.put("x", &SECOND);
    fs::create_dir(folder.path("sub")).expect("a folder");
    folder.put("sub/end.st", b"old");
    fs::set_permissions(folder.path("sub/end.st"), fs::Permissions::from_mode(0o640)).expect("set");
    symlink("sub/end.st", folder.path("link")).expect("a link");
    symlink("sub/later.st", folder.path("dangling")).expect("a link");
    folder.put("link.part", b"another's");
    for (name, file) in [("link", "sub/end.st"), ("dangling", "sub/later.st")] {
        let output = program(&["run", &list, "--quiet", "--save", &folder.path(name)], b"");
        assert_eq!(status(&output), 0, "{}", stderr(&output));
        assert!(fs::symlink_metadata(folder.path(name)).expect("there").is_symlink());
        assert_eq!(seconds_of(&folder.get(file)), 1);
    }
    assert_eq!(fs::metadata(folder.path("sub/end.st")).expect("there").mode() & 0o777, 0o640);
    assert_eq!(folder.get("link.part"), b"another's");
    // A new file has the mode that the user asks for.
    let script = "umask 027; \"$0\" run x --quiet --save new.st";
    assert_eq!(status(&shell(&folder, script, &[], b"")), 0);
    assert_eq!(fs::metadata(folder.path("new.st")).expect("there").mode() & 0o777, 0o640);
    let read_only = folder.put("read-only", b"old");
    fs::set_permissions(&read_only, fs::Permissions::from_mode(0o444)).expect("set");
    let output = program(&["run", &list, "--save", &read_only], b"");
    assert_eq!(status(&output), 74);
    assert!(stderr(&output).contains("read-only: the file is read-only"), "{}", stderr(&output));
    assert_eq!(folder.get("read-only"), b"old");
    let names = ["dangling", "link", "link.part", "new.st", "read-only", "sub", "x"];
    assert_eq!(folder.names(), names);
}

/// Names that are not UTF-8 are names.
#[test]
fn names_that_are_not_text() {
    let folder = Folder::new("bytes");
    let (list, image) = (OsStr::from_bytes(b"l\xFFst"), OsStr::from_bytes(b"\xFE.st"));
    fs::write(folder.0.join(list), SECOND).expect("written");
    let run =
        |words: &[&OsStr]| feed(Command::new(PROGRAM).args(words).current_dir(&folder.0), b"");
    let [r, save, shown] = ["run", "--save", "image"].map(OsStr::new);
    assert_eq!(status(&run(&[r, list, save, image])), 0);
    assert_eq!(seconds_of(&fs::read(folder.0.join(image)).expect("there")), 1);
    assert_eq!(status(&run(&[shown, image])), 0);
    let attached = OsStr::from_bytes(b"--save=\xFE.st");
    assert_eq!(status(&run(&[r, list, attached])), 0);
    assert_eq!(status(&run(&[r, OsStr::from_bytes(b"none\xFF")])), 74);
}

/// Written to the disk before it takes its place, as the system's calls show, where they can be seen.
#[test]
fn synced_before_it_takes_its_place() {
    let folder = Folder::new("synced");
    folder.put("x", &SECOND);
    let script = "strace -f -o calls -e trace=fsync,fdatasync,rename,renameat,renameat2 \
                  \"$0\" run x --quiet --save a.st --vcd b.vcd";
    if !watches_calls(&folder, "files synced before they take their places") {
        return;
    }
    assert_eq!(status(&shell(&folder, script, &[], b"")), 0);
    let calls = String::from_utf8(folder.get("calls")).expect("UTF-8");
    let at = |part: &str| calls.lines().position(|line| line.contains(part)).expect(part);
    let syncs = calls.lines().take(at("rename")).filter(|line| line.contains("sync(")).count();
    assert_eq!(syncs, 3, "{calls}");
}

/// A signal while finished files take their places: all of them do, and then it acts. It comes with the
/// call that places the first file, the second or the third, where calls can be watched: at no time of
/// the clock, so that a slow machine changes nothing.
#[test]
fn a_signal_while_files_take_their_places() {
    let folder = Folder::new("placing");
    folder.put("x", &SECOND);
    if !watches_calls(&folder, "a signal while files take their places") {
        return;
    }
    let calls = "rename,renameat,renameat2";
    for place in 1..=3 {
        let mut command = Command::new("strace");
        command.args(["-f", "-o", "/dev/null", "-e", &format!("trace={calls}")]);
        command.args(["-e", &format!("inject={calls}:signal=TERM:when={place}")]);
        command.args([PROGRAM, "run", "x", "--quiet", "--save", "a.st", "--vcd", "b.vcd"]);
        let output = feed(command.current_dir(&folder.0), b"");
        let signal = output.status.signal();
        assert_eq!(signal, Some(15), "it acts in the end: {place}, {}", stderr(&output));
        assert_eq!(folder.names(), ["a.st", "b.gtkw", "b.vcd", "x"], "{place}");
        assert_eq!(seconds_of(&folder.get("a.st")), 1);
        for name in ["a.st", "b.gtkw", "b.vcd"] {
            fs::remove_file(folder.path(name)).expect("removed");
        }
    }
}
