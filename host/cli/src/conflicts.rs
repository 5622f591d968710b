//! Words that name one file twice, found before anything is read or written.

use super::draft::{folder_of, Target};
use super::failure::Failure;
use super::place::{Input, Output};
use super::words::Given;
use std::ffi::OsString;
use std::fmt;
use std::fs::{self, File, Metadata};
use std::io;
use std::os::fd::AsFd;
use std::os::unix::fs::{FileTypeExt, MetadataExt};
use std::path::PathBuf;

/// What a name stands for.
#[derive(PartialEq)]
enum Identity {
    /// A file, a pipe: its device and its number there.
    There(u64, u64),
    /// A file that is not there yet: its folder, its name.
    New(PathBuf, OsString),
}

/// A word and what it names.
struct Named {
    word: String,
    shown: String,
    standard: bool,
    /// Another word for the same file is refused. None for a device, as /dev/null.
    identity: Option<Identity>,
}

/// The inputs and outputs of a command.
pub struct Uses {
    command: &'static str,
    inputs: Vec<Named>,
    outputs: Vec<Named>,
}

impl Uses {
    /// None yet.
    pub fn of(command: &'static str) -> Uses {
        Uses { command, inputs: Vec::new(), outputs: Vec::new() }
    }

    /// Something that is read, under the word that asks for it.
    pub fn reads(&mut self, word: &str, input: &Input) -> &mut Uses {
        let identity = match input.path() {
            Some(path) => fs::metadata(path).ok().and_then(|data| there(&data)),
            None => of_standard(io::stdin().as_fd()),
        };
        let standard = input.path().is_none();
        let (word, shown) = (word.to_string(), input.to_string());
        self.inputs.push(Named { word, shown, standard, identity });
        self
    }

    /// Something that is written, under the word that asks for it.
    pub fn writes(&mut self, word: &str, output: &Output) -> &mut Uses {
        let identity = match output.path() {
            Some(path) => match fs::metadata(path) {
                Ok(data) => there(&data),
                Err(_) => Target::of(path).ok().and_then(|target| new(&target)),
            },
            None => of_standard(io::stdout().as_fd()),
        };
        let standard = output.path().is_none();
        let (word, shown) = (word.to_string(), output.to_string());
        self.outputs.push(Named { word, shown, standard, identity });
        self
    }

    /// Refuses two words for one file.
    pub fn check(&self) -> Result<(), Failure> {
        let outputs = pairs(&self.outputs).find(|(a, b)| a.standard && b.standard || a.is(b));
        let over = self.inputs.iter().find_map(|input| {
            self.outputs.iter().find(|output| output.is(input)).map(|output| (input, output))
        });
        let inputs = pairs(&self.inputs).find(|(a, b)| a.standard && b.standard);
        let what = if let Some((a, b)) = over {
            format!("{a} and {b} are one file: what is read is not written over")
        } else if let Some((a, b)) = outputs {
            if a.standard && b.standard {
                format!("{a} and {b} both go to standard output: name a file for one")
            } else {
                format!("{a} and {b} are one file: name two")
            }
        } else if let Some((a, b)) = inputs {
            format!("{a} and {b} both come from standard input: name a file for one")
        } else {
            return Ok(());
        };
        Err(Failure::usage(self.command, &what))
    }
}

/// What a command reads, by default standard input, and what it writes by `-o`, by default standard
/// output.
pub fn ends(command: &'static str, word: &str, given: &Given) -> Result<(Input, Output), Failure> {
    let input = given.operand()?.map_or(Input::standard(), Input::of);
    let output = given.value("-o").map_or(Output::standard(), Output::of);
    Uses::of(command).reads(word, &input).writes("-o", &output).check()?;
    Ok((input, output))
}

/// Every two of them, the earlier one first.
fn pairs(all: &[Named]) -> impl Iterator<Item = (&Named, &Named)> {
    all.iter().enumerate().flat_map(|(i, b)| all[..i].iter().map(move |a| (a, b)))
}

/// The word, and what it names where that says more.
impl fmt::Display for Named {
    fn fmt(&self, f: &mut fmt::Formatter<'_>) -> fmt::Result {
        f.write_str(&self.word)?;
        if self.standard {
            return Ok(());
        }
        write!(f, " {}", self.shown)
    }
}

impl Named {
    fn is(&self, other: &Named) -> bool {
        self.identity.is_some() && self.identity == other.identity
    }
}

fn there(data: &Metadata) -> Option<Identity> {
    // A terminal or a connection is often both standard input and output, and that is well.
    let kind = data.file_type();
    let shared = kind.is_char_device() || kind.is_socket();
    (!shared).then(|| Identity::There(data.dev(), data.ino()))
}

fn new(target: &Target) -> Option<Identity> {
    let folder = fs::canonicalize(folder_of(&target.path)).ok()?;
    Some(Identity::New(folder, target.path.file_name()?.to_os_string()))
}

fn of_standard(file: std::os::fd::BorrowedFd<'_>) -> Option<Identity> {
    there(&File::from(file.try_clone_to_owned().ok()?).metadata().ok()?)
}
