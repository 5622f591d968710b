//! Colours, where they are wanted.

use std::ffi::OsStr;
use std::io::{self, IsTerminal};

/// When colours are used.
#[derive(Clone, Copy, Debug, PartialEq, Eq)]
pub enum When {
    /// On a terminal that is not dumb, unless `NO_COLOR` is set.
    Auto,
    /// Always.
    Always,
    /// Never.
    Never,
}

impl When {
    /// The word of `--color`.
    pub fn of(word: &OsStr) -> Option<When> {
        match word.to_str()? {
            "auto" => Some(When::Auto),
            "always" => Some(When::Always),
            "never" => Some(When::Never),
            _ => None,
        }
    }
}

/// How words are written.
#[derive(Clone, Copy, Debug, PartialEq, Eq)]
pub struct Style {
    coloured: bool,
}

impl Style {
    /// For standard output.
    pub fn of_output(when: When) -> Style {
        Style::of(when, io::stdout().is_terminal())
    }

    /// For standard error.
    pub fn of_errors(when: When) -> Style {
        Style::of(when, io::stderr().is_terminal())
    }

    fn of(when: When, terminal: bool) -> Style {
        let set = std::env::var_os("NO_COLOR").is_some_and(|value| !value.is_empty());
        let coloured = match when {
            When::Auto => terminal && !set && !dumb(),
            When::Always => true,
            When::Never => false,
        };
        Style { coloured }
    }

    /// A heading.
    pub fn heading(self, text: &str) -> String {
        self.painted("1", text)
    }

    /// Something refused or wrong.
    pub fn refused(self, text: &str) -> String {
        self.painted("31", text)
    }

    /// The text, up to its line end, in a colour.
    fn painted(self, code: &str, text: &str) -> String {
        if !self.coloured {
            return text.to_string();
        }
        let line = text.trim_end_matches('\n');
        format!("\x1b[{code}m{line}\x1b[m{}", &text[line.len()..])
    }
}

/// True for a terminal that only prints what it is given.
pub fn dumb() -> bool {
    std::env::var_os("TERM").is_none_or(|term| term.is_empty() || term == *OsStr::new("dumb"))
}
