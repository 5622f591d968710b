//! Why a command failed, and the status that it exits with.

use std::fmt;
use std::io;
use swarmtempo::SheetRefusal;

/// Why a command failed.
#[derive(Debug)]
pub enum Failure {
    /// Wrong words on the command line.
    Usage(String),
    /// Errors in a text, already written one a line: the text's name, and how many.
    Text(String, usize),
    /// A file that holds something else than what is asked of it.
    Content(String, String),
    /// A file that cannot be read or written.
    File(String, io::Error),
    /// A capture with a record that is cut, at this offset in bytes.
    Cut(String, u64),
    /// An image that is none of an accepted state.
    State(String, String),
    /// What is asked of an image's clock and not done: the image, why, and the status.
    Clock(String, String, u8),
    /// An image that is none of an accepted keyboard.
    Keyboard(String),
    /// A sheet that is refused.
    Sheet(String, SheetRefusal),
}

impl Failure {
    /// The exit status.
    pub fn status(&self) -> u8 {
        match self {
            Failure::Usage(_) => 64,
            Failure::Text(..) | Failure::Content(..) => 65,
            Failure::File(..) => 74,
            Failure::Cut(..) => 1,
            Failure::State(..) | Failure::Keyboard(_) => 7,
            Failure::Clock(_, _, status) => *status,
            Failure::Sheet(_, refusal) => refusal.number(),
        }
    }

    /// Words that begin with the command's name.
    pub fn usage(command: &str, what: &str) -> Failure {
        Failure::Usage(format!("{command}: {what}; see {} {command} --help", called()))
    }
}

impl fmt::Display for Failure {
    fn fmt(&self, f: &mut fmt::Formatter<'_>) -> fmt::Result {
        match self {
            Failure::Usage(what) => f.write_str(what),
            Failure::Text(name, 1) => {
                write!(f, "{name}: 1 error in the text; nothing is run or written")
            }
            Failure::Text(name, count) => {
                write!(f, "{name}: {count} errors in the text; nothing is run or written")
            }
            Failure::Content(name, what) | Failure::Clock(name, what, _) => {
                write!(f, "{name}: {what}")
            }
            Failure::File(name, error) => write!(f, "{name}: {}", reason(error)),
            Failure::Cut(name, offset) => {
                write!(
                    f,
                    "{name}: a record is cut at byte {offset}; no file is written ({} cut --good \
                     keeps the records before it)",
                    called()
                )
            }
            Failure::State(name, why) => {
                write!(f, "{name}: not the image of an accepted state: {why}")
            }
            Failure::Keyboard(name) => write!(f, "{name}: not the image of an accepted keyboard"),
            Failure::Sheet(name, refusal) => {
                write!(f, "{name}: {refusal} (refusal {})", refusal.number())
            }
        }
    }
}

/// An error of reading or writing `name`.
pub fn failure(name: impl fmt::Display, error: io::Error) -> Failure {
    Failure::File(name.to_string(), error)
}

/// An error in words, without its number.
pub fn reason(error: &io::Error) -> String {
    let words = error.to_string();
    words.split(" (os error").next().unwrap_or(&words).to_string()
}

/// How the program was called, for the commands that it names: a script that stands before it says so
/// in `SWARMTEMPO_CALLED`.
pub fn called() -> String {
    let name = std::env::var("SWARMTEMPO_CALLED").unwrap_or_default();
    if name.is_empty() || name.chars().any(char::is_control) {
        return "swarmtempo".to_string();
    }
    name
}
