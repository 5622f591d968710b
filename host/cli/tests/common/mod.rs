//! The program, run by tests in a folder of their own.
#![allow(dead_code)]

use std::fs;
use std::io::Write;
use std::path::{Path, PathBuf};
use std::process::{Command, Output, Stdio};

pub const PROGRAM: &str = env!("CARGO_BIN_EXE_swarmtempo");

/// A folder of its own for each test.
pub struct Folder(pub PathBuf);

impl Folder {
    pub fn new(name: &str) -> Folder {
        let path = Path::new(env!("CARGO_TARGET_TMPDIR")).join(name);
        let _ = fs::remove_dir_all(&path);
        fs::create_dir_all(&path).expect("a folder");
        Folder(path)
    }

    pub fn path(&self, name: &str) -> String {
        self.0.join(name).to_str().expect("UTF-8").to_string()
    }

    pub fn put(&self, name: &str, bytes: &[u8]) -> String {
        fs::write(self.path(name), bytes).expect("written");
        self.path(name)
    }

    pub fn get(&self, name: &str) -> Vec<u8> {
        fs::read(self.path(name)).expect("there")
    }

    /// Names of all files.
    pub fn names(&self) -> Vec<String> {
        let entries = fs::read_dir(&self.0).expect("a folder");
        let mut names: Vec<String> =
            entries.map(|e| e.expect("entry").file_name().into_string().expect("UTF-8")).collect();
        names.sort();
        names
    }
}

pub fn program(words: &[&str], input: &[u8]) -> Output {
    feed(Command::new(PROGRAM).args(words), input)
}

pub fn feed(command: &mut Command, input: &[u8]) -> Output {
    let command = command.stdin(Stdio::piped()).stdout(Stdio::piped()).stderr(Stdio::piped());
    let mut child = command.spawn().expect("started");
    let mut stdin = child.stdin.take().expect("piped");
    let input = input.to_vec();
    let writer = std::thread::spawn(move || drop(stdin.write_all(&input)));
    let output = child.wait_with_output().expect("ended");
    writer.join().expect("written");
    output
}

pub fn status(output: &Output) -> i32 {
    output.status.code().expect("a status")
}

pub fn stdout(output: &Output) -> String {
    String::from_utf8(output.stdout.clone()).expect("UTF-8")
}

pub fn stderr(output: &Output) -> String {
    String::from_utf8(output.stderr.clone()).expect("UTF-8")
}

/// A script for `sh`, with the program as $0 and more words as $1 and on, in a folder.
pub fn shell(folder: &Folder, script: &str, words: &[&str], input: &[u8]) -> Output {
    let mut command = Command::new("sh");
    command.args(["-c", script, PROGRAM]).args(words).current_dir(&folder.0);
    feed(&mut command, input)
}

/// True where a program can be run here; else a line says what is left out, which host/check shows.
pub fn has(program: &str, what: &str) -> bool {
    let found = Command::new("sh").args(["-c", "command -v \"$0\"", program]).output();
    let has = found.is_ok_and(|found| found.status.success());
    if !has {
        skipped(what, &format!("no {program} here"));
    }
    has
}

/// Says what is left out, and why.
pub fn skipped(what: &str, why: &str) {
    println!("skipped: {what}: {}", why.trim());
}

/// True where the system's calls can be watched; else a line says what is left out.
pub fn watches_calls(folder: &Folder, what: &str) -> bool {
    if !has("strace", what) {
        return false;
    }
    let tried = shell(folder, "strace -o /dev/null true", &[], b"");
    if !tried.status.success() {
        skipped(what, &stderr(&tried));
    }
    tried.status.success()
}

/// A record of a one-second tick after one VIA tick.
pub const SECOND: [u8; 6] = [4, 0, b'S', b'E', 1, 0];
