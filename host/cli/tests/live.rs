//! `swarmtempo run -`: answers appear as records come in.

mod common;

use common::{program, status, stdout, Folder, PROGRAM, SECOND};
use std::fs;
use std::io::{Read, Write};
use std::process::{Child, ChildStdin, Command, Stdio};
use std::sync::mpsc::{channel, Receiver};
use std::time::Duration;

/// What has to come comes within this.
const PATIENCE: Duration = Duration::from_secs(20);
/// What has not come by then is taken not to come.
const WHILE: Duration = Duration::from_millis(300);

/// A run whose input is fed piecewise.
struct Live {
    child: Child,
    input: ChildStdin,
    output: Receiver<Vec<u8>>,
    seen: Vec<u8>,
}

impl Live {
    fn new(words: &[&str]) -> Live {
        let mut command = Command::new(PROGRAM);
        command.args(words).stdin(Stdio::piped()).stdout(Stdio::piped()).stderr(Stdio::null());
        let mut child = command.spawn().expect("started");
        let (input, mut from) =
            (child.stdin.take().expect("piped"), child.stdout.take().expect("piped"));
        let (sender, output) = channel();
        std::thread::spawn(move || {
            let mut buffer = [0; 4096];
            while let Ok(count @ 1..) = from.read(&mut buffer) {
                if sender.send(buffer[..count].to_vec()).is_err() {
                    break;
                }
            }
        });
        Live { child, input, output, seen: Vec::new() }
    }

    fn feed(&mut self, bytes: &[u8]) {
        self.input.write_all(bytes).expect("taken");
    }

    /// Waits until so many bytes, or lines, have come.
    fn until(&mut self, enough: impl Fn(&[u8]) -> bool) {
        while !enough(&self.seen) {
            let more = self.output.recv_timeout(PATIENCE);
            let seen = String::from_utf8_lossy(&self.seen).into_owned();
            self.seen.extend(more.unwrap_or_else(|_| panic!("nothing more comes: {seen}")));
        }
    }

    fn stays(&mut self) {
        assert!(self.output.recv_timeout(WHILE).is_err(), "nothing can have come");
    }

    fn end(self) -> i32 {
        let Live { mut child, input, .. } = self;
        drop(input);
        child.wait().expect("ended").code().expect("a status")
    }
}

fn lines(count: usize) -> impl Fn(&[u8]) -> bool {
    move |seen| seen.split(|&byte| byte == b'\n').count() == count + 1
}

#[test]
fn rows_as_records_come_in() {
    let mut live = Live::new(&["run", "-"]);
    // A record in two parts, and then two at once with a part of a third.
    live.feed(&SECOND[..5]);
    live.stays();
    live.feed(&SECOND[5..]);
    live.until(lines(2));
    live.feed(&[&SECOND[..], &SECOND, &SECOND[..1]].concat());
    live.until(lines(4));
    live.feed(&SECOND[1..]);
    live.until(lines(5));
    let rows = String::from_utf8(live.seen.clone()).expect("text");
    assert!(rows.lines().last().expect("rows").contains("1t SE"), "{rows}");
    live.feed(&[9, 0, b'W']);
    assert_eq!(live.end(), 1);
}

#[test]
fn answers_as_records_come_in() {
    let mut live = Live::new(&["run", "-", "--answers", "-"]);
    for count in 1..=5 {
        live.feed(&SECOND);
        live.until(|seen| seen.len() == 8 * count);
    }
    assert_eq!(live.end(), 0);
}

#[test]
fn rows_as_lines_come_in() {
    let mut live = Live::new(&["run", "--text", "-"]);
    live.feed(b"; a comment\n\n1t S");
    live.stays();
    live.feed(b"E ; remark\n2t V");
    live.until(lines(2));
    live.feed(b"B\r");
    live.until(lines(3));
    live.feed(b"\n3t SE\r\n4t SE\n");
    live.until(lines(5));
    live.feed(b"5t SE");
    assert_eq!(live.end(), 0);
}

/// A named pipe is as live as standard input.
#[test]
fn a_named_pipe() {
    let folder = Folder::new("live");
    let pipe = folder.path("pipe");
    let made = Command::new("mkfifo").arg(&pipe).status().expect("started");
    assert!(made.success());
    let mut live = Live::new(&["run", &pipe]);
    let mut to = fs::File::options().write(true).open(&pipe).expect("a reader");
    to.write_all(&SECOND).expect("taken");
    live.until(lines(2));
    drop(to);
    assert_eq!(live.end(), 0);
}

/// The same rows and bytes, however they come.
#[test]
fn the_same_as_from_a_file() {
    let folder = Folder::new("live-same");
    let text = include_str!("../../captures/first.txt");
    let records = swarmtempo::text::assemble(text).expect("in the form");
    for (name, words, bytes) in [
        ("list", &["run", "-"][..], &records[..]),
        ("list.txt", &["run", "-", "--text"], text.as_bytes()),
    ] {
        let file = folder.put(name, bytes);
        let from_file = [&["run", &file][..], &words[2..]].concat();
        let wanted = program(&from_file, b"");
        for step in [1, 2, 3, 7, 64, 5_000] {
            let mut live = Live::new(words);
            bytes.chunks(step).for_each(|part| live.feed(part));
            live.until(|seen| seen.len() == wanted.stdout.len());
            assert_eq!(String::from_utf8(live.seen.clone()).expect("text"), stdout(&wanted));
            assert_eq!(live.end(), status(&wanted));
        }
    }
}
