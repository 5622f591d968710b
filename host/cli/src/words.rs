//! The words after a command: options, their values, and what else is named.

use super::commands::{Command, Flag};
use super::failure::Failure;
use super::place::shown;
use std::ffi::{OsStr, OsString};
use std::os::unix::ffi::{OsStrExt, OsStringExt};

/// What the words of a command say.
pub struct Given {
    command: &'static Command,
    flags: Vec<(&'static str, OsString)>,
    operands: Vec<OsString>,
}

/// True where one of some words comes before `--`, whatever else is there.
pub fn asks(words: &[OsString], names: &[&str]) -> bool {
    let options = words.iter().take_while(|word| *word != OsStr::new("--"));
    options.into_iter().any(|word| names.iter().any(|name| *word == *OsStr::new(name)))
}

impl Given {
    /// Takes the words apart: `--option value`, `--option=value`, `-o value`, `-ovalue`; after `--`
    /// there are no options.
    pub fn parse(command: &'static Command, words: Vec<OsString>) -> Result<Given, Failure> {
        let mut given = Given { command, flags: Vec::new(), operands: Vec::new() };
        let mut words = words.into_iter();
        while let Some(word) = words.next() {
            match word.as_bytes() {
                b"--" => given.operands.extend(words.by_ref()),
                [b'-', _, ..] => given.option(&word, &mut words)?,
                _ => given.operands.push(word),
            }
        }
        Ok(given)
    }

    fn wrong<T>(&self, what: &str) -> Result<T, Failure> {
        Err(Failure::usage(self.command.name, what))
    }

    /// An option, and its value where it has one.
    fn option(
        &mut self,
        word: &OsStr,
        words: &mut impl Iterator<Item = OsString>,
    ) -> Result<(), Failure> {
        let (name, attached) = split(word);
        let Some(flag) = self.command.flags.iter().find(|flag| *flag.name == *name) else {
            return self.wrong(&unknown(&name, self.command.flags));
        };
        if self.flags.iter().any(|(name, _)| *name == flag.name) {
            return self.wrong(&format!("{} is given twice", flag.name));
        }
        let value = match (flag.value.is_empty(), attached) {
            (true, None) => OsString::new(),
            (true, Some(_)) => return self.wrong(&format!("{} takes no value", flag.name)),
            (false, Some(value)) => value,
            (false, None) => self.next_value(flag, words)?,
        };
        if !flag.value.is_empty() && value.is_empty() {
            return self.wrong(&format!("{} needs a value: {}", flag.name, flag.value));
        }
        self.flags.push((flag.name, value));
        Ok(())
    }

    fn next_value(
        &self,
        flag: &Flag,
        words: &mut impl Iterator<Item = OsString>,
    ) -> Result<OsString, Failure> {
        let Some(value) = words.next() else {
            return self.wrong(&format!("{} needs a value: {}", flag.name, flag.value));
        };
        let known = |it: &Flag| value == *OsStr::new(it.name);
        if value == *OsStr::new("--") || self.command.flags.iter().any(known) {
            let (name, value) = (flag.name, shown(&value));
            return self.wrong(&format!("{name} needs a value before {value}: {}", flag.value));
        }
        Ok(value)
    }

    /// True where an option without a value is given.
    pub fn flag(&self, name: &str) -> bool {
        self.flags.iter().any(|(flag, _)| *flag == name)
    }

    /// The value of an option.
    pub fn value(&self, name: &str) -> Option<OsString> {
        self.flags.iter().find(|(flag, _)| *flag == name).map(|(_, value)| value.clone())
    }

    /// The number that an option has for its value.
    pub fn number(&self, name: &str) -> Result<Option<u64>, Failure> {
        let Some(word) = self.value(name) else {
            return Ok(None);
        };
        match word.to_str().and_then(|word| word.parse().ok()) {
            Some(number) => Ok(Some(number)),
            None => self.wrong(&format!("{name} needs a number, not `{}`", shown(&word))),
        }
    }

    /// All operands, at least one and at most so many.
    pub fn one_to(&self, most: usize) -> Result<&[OsString], Failure> {
        match self.operands.get(most) {
            Some(extra) => self.wrong(&format!("`{}` is too much", shown(extra))),
            None if self.operands.is_empty() => {
                self.wrong(&format!("{} is missing", self.command.operand.trim_end_matches('.')))
            }
            None => Ok(&self.operands),
        }
    }

    /// All operands.
    pub fn operands(&self) -> &[OsString] {
        &self.operands
    }

    /// The one operand, where there is one.
    pub fn operand(&self) -> Result<Option<OsString>, Failure> {
        let most = usize::from(!self.command.operand.is_empty());
        match self.operands.get(most) {
            Some(extra) => self.wrong(&format!("`{}` is too much", shown(extra))),
            None => Ok(self.operands.first().cloned()),
        }
    }

    /// The one operand.
    pub fn need(&self) -> Result<OsString, Failure> {
        match self.operand()? {
            Some(operand) => Ok(operand),
            None => {
                self.wrong(&format!("{} is missing", self.command.operand.trim_end_matches('.')))
            }
        }
    }
}

/// An option's name, and a value that stands in the same word.
fn split(word: &OsStr) -> (OsString, Option<OsString>) {
    let bytes = word.as_bytes();
    let at = if bytes.starts_with(b"--") {
        bytes.iter().position(|&byte| byte == b'=')
    } else {
        (bytes.len() > 2).then_some(2)
    };
    let name = |bytes: &[u8]| OsString::from_vec(bytes.to_vec());
    match at {
        None => (word.to_os_string(), None),
        Some(at) => {
            let skipped = at + usize::from(bytes[at] == b'=');
            (name(&bytes[..at]), Some(name(&bytes[skipped..])))
        }
    }
}

fn unknown(name: &OsStr, flags: &[Flag]) -> String {
    let name = shown(name);
    match nearest(&name, flags.iter().map(|flag| flag.name)) {
        Some(near) => format!("unknown option {name}; {near} is meant, perhaps"),
        None => format!("unknown option {name}"),
    }
}

/// The word that differs by one letter, or by two where it is longer than four.
pub fn nearest<'a>(word: &str, from: impl Iterator<Item = &'a str>) -> Option<&'a str> {
    let near = from.map(|name| (distance(word, name), name)).min()?;
    (near.0 == 1 || near.0 == 2 && near.1.len() > 4).then_some(near.1)
}

/// Letters put in, left out or changed.
fn distance(a: &str, b: &str) -> usize {
    let b: Vec<char> = b.chars().collect();
    let mut row: Vec<usize> = (0..=b.len()).collect();
    for (i, x) in a.chars().enumerate() {
        let mut corner = row[0];
        row[0] = i + 1;
        for (j, &y) in b.iter().enumerate() {
            let changed = corner + usize::from(x != y);
            corner = row[j + 1];
            row[j + 1] = changed.min(corner + 1).min(row[j] + 1);
        }
    }
    row[b.len()]
}
