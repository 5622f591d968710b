//! A Value Change Dump, read for three of its signals.

use super::level::Levels;
use super::reader::{Reader, WaveError};
use super::time::Unit;
use super::{Take, Told, Wishes};
use swarmtempo::{Femtoseconds, Wires, WIRES};

/// Names of signals told of at most.
const NAMES_MOST: usize = 20;
/// Signals of one name kept at most: two are too many already.
const ALIKE_MOST: usize = 4;

/// Reads a dump, and hands out a sample at each time with a change, then the end.
pub fn read(
    reader: &mut Reader,
    wishes: &Wishes,
    told: &mut Told,
    take: &mut Take<'_>,
) -> Result<(), WaveError> {
    let head = Head::read(reader, wishes)?;
    let unit = head.unit(reader, wishes, told)?;
    let codes = head.codes(reader, wishes)?;
    let mut body = Body { codes, unit, levels: Levels::default(), time: None, given: None };
    let mut word = Vec::new();
    while let Some((line, column)) = reader.word(&mut word)? {
        body.word(reader, &mut word, (line, column), told, take)?;
    }
    body.end(reader.line(), told, take)
}

/// A signal of the dump.
struct Signal {
    path: String,
    code: Vec<u8>,
    bits: u32,
}

/// What stands before the changes.
#[derive(Default)]
struct Head {
    scopes: Vec<String>,
    unit: Option<Unit>,
    /// The signals whose names fit, for each wire: exactly, and but for capital letters.
    exact: [Vec<Signal>; 3],
    near: [Vec<Signal>; 3],
    names: Vec<String>,
    count: u64,
}

impl Head {
    fn read(reader: &mut Reader, wishes: &Wishes) -> Result<Head, WaveError> {
        let mut head = Head::default();
        let mut word = Vec::new();
        loop {
            let Some((line, column)) = reader.word(&mut word)? else {
                let message = "the file ends before $enddefinitions";
                return Err(WaveError::at(reader.line(), message));
            };
            let wrong =
                |message: &str| Err(WaveError::Line { line, column, message: message.to_string() });
            let keyword = word.clone();
            if !keyword.starts_with(b"$") {
                return wrong("a keyword is expected here, as $var");
            }
            let words = rest(reader, line, column)?;
            match (&keyword[..], &words[..]) {
                (b"$enddefinitions", _) => return Ok(head),
                (b"$scope", [_, name]) => head.scopes.push(name.clone()),
                (b"$scope", _) => return wrong("$scope needs a kind and a name"),
                (b"$upscope", _) => drop(head.scopes.pop()),
                (b"$timescale", words) => match timescale(&words.concat()) {
                    Some(unit) => head.unit = Some(unit),
                    None => return wrong("$timescale needs 1, 10 or 100, and s to fs"),
                },
                (b"$var", [_, bits, code, name @ ..]) if !name.is_empty() => {
                    let Ok(bits) = bits.parse() else {
                        return wrong("$var needs a number of bits");
                    };
                    head.signal(wishes, bits, code, &name.concat());
                }
                (b"$var", _) => return wrong("$var needs a kind, bits, a code and a name"),
                _ => {}
            }
        }
    }

    fn signal(&mut self, wishes: &Wishes, bits: u32, code: &str, name: &str) {
        let mut path = self.scopes.join(".");
        if !path.is_empty() {
            path.push('.');
        }
        path.push_str(name);
        self.count += 1;
        if self.names.len() < NAMES_MOST {
            self.names.push(path.clone());
        }
        for (wire, wanted) in wishes.names.iter().enumerate() {
            let code = code.as_bytes();
            let lists = [
                (&mut self.exact[wire], fits(&path, wanted)),
                (&mut self.near[wire], fits(&path.to_lowercase(), &wanted.to_lowercase())),
            ];
            for (list, fits) in lists {
                let known = list.iter().any(|signal| signal.code == code);
                if fits && !known && list.len() < ALIKE_MOST {
                    list.push(Signal { path: path.clone(), code: code.to_vec(), bits });
                }
            }
        }
    }

    fn unit(&self, reader: &Reader, wishes: &Wishes, told: &mut Told) -> Result<Unit, WaveError> {
        match (wishes.unit, self.unit) {
            (Some(asked), Some(said)) if asked != said => {
                told.times = Some("times are taken by --unit, not by $timescale".to_string());
                Ok(asked)
            }
            (Some(unit), _) | (None, Some(unit)) => Ok(unit),
            (None, None) => {
                let message = "there is no $timescale: name the unit of times by --unit";
                Err(WaveError::at(reader.line(), message))
            }
        }
    }

    /// The codes of the three signals.
    fn codes(&self, reader: &Reader, wishes: &Wishes) -> Result<[Vec<u8>; 3], WaveError> {
        let mut codes = [const { Vec::new() }; 3];
        for (wire, code) in codes.iter_mut().enumerate() {
            let (name, option) = (&wishes.names[wire], OPTIONS[wire]);
            let found =
                if self.exact[wire].is_empty() { &self.near[wire] } else { &self.exact[wire] };
            let message = match &found[..] {
                [Signal { bits: 1, code: found, .. }] => {
                    code.clone_from(found);
                    continue;
                }
                [signal] => {
                    format!("the signal {} has {} bits, not 1", signal.path, signal.bits)
                }
                [] => format!(
                    "no signal is called {name}: name the one of {} by {option}; there are {}",
                    WIRES[wire],
                    self.named()
                ),
                many => {
                    let paths: Vec<&str> = many.iter().map(|it| it.path.as_str()).collect();
                    format!(
                        "more than one signal is called {name}: name one by {option}, with its scope: {}",
                        paths.join(", ")
                    )
                }
            };
            return Err(WaveError::at(reader.line(), &message));
        }
        let [a, b, c] = &codes;
        if a == b || b == c || a == c {
            return Err(WaveError::at(reader.line(), "two of the three names are one signal"));
        }
        Ok(codes)
    }

    fn named(&self) -> String {
        let more = self.count - self.names.len() as u64;
        let names = if self.names.is_empty() { "none".into() } else { self.names.join(", ") };
        if more > 0 {
            format!("{names} and {more} more")
        } else {
            names
        }
    }
}

/// The options that name the signals.
pub const OPTIONS: [&str; 3] = ["--enable", "--data-clock", "--data"];

/// True where a name is a path, or its end after a dot.
fn fits(path: &str, name: &str) -> bool {
    path.strip_suffix(name).is_some_and(|scope| scope.is_empty() || scope.ends_with('.'))
}

/// `10ns`, of the words of $timescale.
fn timescale(text: &str) -> Option<Unit> {
    let end = text.find(|c: char| !c.is_ascii_digit())?;
    let count = text[..end].parse().ok().filter(|count| [1, 10, 100].contains(count))?;
    Unit::of(&text[end..])?.times(count)
}

/// The words up to $end.
fn rest(reader: &mut Reader, line: u64, column: usize) -> Result<Vec<String>, WaveError> {
    let mut words = Vec::new();
    let mut word = Vec::new();
    while reader.word(&mut word)?.is_some() {
        if word == b"$end" {
            return Ok(words);
        }
        // A comment may be long; no other keyword has so many words.
        if words.len() < 16 {
            words.push(String::from_utf8_lossy(&word).into_owned());
        }
    }
    Err(WaveError::Line { line, column, message: "its $end is missing".into() })
}

/// A time of the dump, in digits alone.
fn time_of(digits: &[u8]) -> Option<u64> {
    let digits = std::str::from_utf8(digits).ok()?;
    digits.bytes().all(|byte| byte.is_ascii_digit()).then(|| digits.parse().ok())?
}

/// The changes.
struct Body {
    codes: [Vec<u8>; 3],
    unit: Unit,
    levels: Levels,
    time: Option<u64>,
    given: Option<Wires>,
}

impl Body {
    fn word(
        &mut self,
        reader: &mut Reader,
        word: &mut Vec<u8>,
        (line, column): (u64, usize),
        told: &mut Told,
        take: &mut Take<'_>,
    ) -> Result<(), WaveError> {
        let wrong =
            |message: &str| Err(WaveError::Line { line, column, message: message.to_string() });
        match word[0] {
            b'#' => match time_of(&word[1..]) {
                Some(time) if self.time.is_some_and(|before| time < before) => {
                    wrong("the time is before the last one")
                }
                Some(time) => self.pass(time, line, told, take),
                None => wrong("a time is a number after #"),
            },
            letter @ (b'0' | b'1' | b'x' | b'X' | b'z' | b'Z') => {
                self.change(&word[1..], letter, line, column, told)
            }
            b'b' | b'B' => {
                let letter = if word.len() > 1 { word[word.len() - 1] } else { b' ' };
                match reader.word(word)? {
                    Some(_) => self.change(word, letter, line, column, told),
                    None => wrong("a signal's code is missing after the value"),
                }
            }
            b'r' | b'R' | b's' | b'S' => match reader.word(word)? {
                Some(_) => Ok(()),
                None => wrong("a signal's code is missing after the value"),
            },
            b'$' => match &word[..] {
                b"$dumpvars" | b"$dumpall" | b"$dumpon" | b"$dumpoff" | b"$end" => Ok(()),
                _ => rest(reader, line, column).map(drop),
            },
            _ => wrong("neither a time, nor a change, nor a keyword"),
        }
    }

    fn change(
        &mut self,
        code: &[u8],
        letter: u8,
        line: u64,
        column: usize,
        told: &mut Told,
    ) -> Result<(), WaveError> {
        match self.codes.iter().position(|it| it == code) {
            Some(wire) => self.levels.set(wire, letter, line, column, told),
            None => Ok(()),
        }
    }

    /// All changes of a time are known once another begins.
    fn pass(
        &mut self,
        time: u64,
        line: u64,
        told: &mut Told,
        take: &mut Take<'_>,
    ) -> Result<(), WaveError> {
        if self.time != Some(time) {
            self.give(line, told, take)?;
            self.time = Some(time);
        }
        Ok(())
    }

    fn give(&mut self, line: u64, told: &mut Told, take: &mut Take<'_>) -> Result<(), WaveError> {
        let Some(time) = self.time else {
            return Ok(());
        };
        let wires = self.levels.wires();
        if self.given.is_none() {
            self.levels.tell(told);
        }
        if self.given.replace(wires) == Some(wires) {
            return Ok(());
        }
        take(self.at(time, line)?, Some(wires), line)
    }

    fn at(&self, time: u64, line: u64) -> Result<Femtoseconds, WaveError> {
        let late = || WaveError::at(line, "the time is too late to be counted in VIA ticks");
        self.unit.whole(time).ok_or_else(late)
    }

    fn end(&mut self, line: u64, told: &mut Told, take: &mut Take<'_>) -> Result<(), WaveError> {
        self.give(line, told, take)?;
        match self.time {
            Some(time) => take(self.at(time, line)?, None, line),
            None => Err(WaveError::at(line, "there is no time, as #0, in the dump")),
        }
    }
}
