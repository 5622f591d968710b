//! Where lists, images and results come from and go to: a file, or `-` for standard input or output.

use std::ffi::{OsStr, OsString};
use std::fmt;
use std::path::{Path, PathBuf};

/// Something that is read.
#[derive(Clone, Debug)]
pub struct Input(Option<PathBuf>);

/// Something that is written.
#[derive(Clone, Debug)]
pub struct Output(Option<PathBuf>);

impl Input {
    /// Standard input for `-`, else a file.
    pub fn of(word: OsString) -> Input {
        Input(path_of(word))
    }

    /// Standard input.
    pub fn standard() -> Input {
        Input(None)
    }

    /// The file, or none for standard input.
    pub fn path(&self) -> Option<&Path> {
        self.0.as_deref()
    }
}

impl Output {
    /// Standard output for `-`, else a file.
    pub fn of(word: OsString) -> Output {
        Output(path_of(word))
    }

    /// Standard output.
    pub fn standard() -> Output {
        Output(None)
    }

    /// The file, or none for standard output.
    pub fn path(&self) -> Option<&Path> {
        self.0.as_deref()
    }
}

fn path_of(word: OsString) -> Option<PathBuf> {
    (word != *OsStr::new("-")).then(|| PathBuf::from(word))
}

impl fmt::Display for Input {
    fn fmt(&self, f: &mut fmt::Formatter<'_>) -> fmt::Result {
        f.write_str(&self.path().map_or("standard input".into(), |path| shown(path.as_os_str())))
    }
}

impl fmt::Display for Output {
    fn fmt(&self, f: &mut fmt::Formatter<'_>) -> fmt::Result {
        f.write_str(&self.path().map_or("standard output".into(), |path| shown(path.as_os_str())))
    }
}

/// A word in messages: as it is, but for what would move a terminal's cursor.
pub fn shown(word: &OsStr) -> String {
    let text = word.to_string_lossy();
    if text.is_empty() || text.chars().any(char::is_control) {
        format!("{text:?}")
    } else {
        text.into_owned()
    }
}
