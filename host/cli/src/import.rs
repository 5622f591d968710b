//! `swarmtempo import`: the clock's wires as an analyser saw them, turned into items.

mod csv;
mod level;
mod reader;
mod time;
mod vcd;

use super::assemble::aside;
use super::commands::{Command, Flag};
use super::conflicts::Uses;
use super::contents::{self, Looks};
use super::failure::{failure, Failure};
use super::files::{self, say, Out};
use super::numbers::{counted, ticks_and_seconds};
use super::place::{Input, Output};
use super::request::chip;
use super::source;
use super::words::Given;
use csv::Comments;
use reader::{Reader, WaveError};
use std::io::{Read, Seek, Write};
use swarmtempo::{Femtoseconds, Timed, WireEvent, WireImport, Wires, WIRES};
use time::Unit;

/// The command.
pub const COMMAND: Command = Command {
    name: "import",
    operand: "FILE",
    brief: "the clock's wires from a logic analyser, as a list",
    about: "Turns enable, data-clock and data as a logic analyser saw them (a Value Change Dump, or comma-\n\
            separated values: sigrok's, or with a column of times) into a list of writes to port B, to be\n\
            run. What begins with $ is taken as a dump. A FILE of - is standard input.\n\
            \n\
            Times are counted in VIA ticks from the first sample, each rounded to the nearest one: what is\n\
            rounded does not add up. What the wires do not tell is said on standard error, and in the text\n\
            form in comments. Where a line is wrong it is named, as FILE:LINE:COLUMN: MESSAGE, and nothing is\n\
            written.",
    flags: &[
        Flag {
            name: "-o",
            value: "FILE",
            help: "writes to FILE, which appears whole or not at all (without it: standard output)",
        },
        Flag { name: "--as-text", value: "", help: "writes the text form, with comments, not records" },
        Flag { name: "--enable", value: "NAME", help: "the signal of enable (without it: enable)" },
        Flag {
            name: "--data-clock",
            value: "NAME",
            help: "the signal of data-clock (without it: data_clock)",
        },
        Flag { name: "--data", value: "NAME", help: "the signal of data (without it: data)" },
        Flag {
            name: "--time",
            value: "NAME",
            help: "the column of times (without it: the one that is called time, or by a unit)",
        },
        Flag {
            name: "--unit",
            value: "UNIT",
            help: "the unit of times: s, ms, us, ns, ps or fs (without it: what FILE says)",
        },
        Flag {
            name: "--rate",
            value: "HZ",
            help: "samples a second where there are no times (without it: what FILE says)",
        },
        Flag {
            name: "--cells",
            value: "CELLS",
            help: "the bench's clock chip has so many cells: 20 (without it, too) or 256",
        },
        Flag {
            name: "--driven",
            value: "",
            help: "data is driven as it was seen while the chip sends, too, and not let go",
        },
        Flag {
            name: "--seconds",
            value: "",
            help: "puts in an SE every 783,360 VIA ticks (a second) from the start",
        },
        Flag {
            name: "--goes-on",
            value: "",
            help: "goes on from an image with these wires: a transaction under way is not left out",
        },
    ],
};

/// Imports a file.
pub fn import(given: &Given) -> Result<u8, Failure> {
    let input = Input::of(given.need()?);
    let output = given.value("-o").map_or(Output::standard(), Output::of);
    Uses::of("import").reads("FILE", &input).writes("-o", &output).check()?;
    let wishes = Wishes::of(given)?;
    let mut reader = open(&input)?;
    let text = given.flag("--as-text");
    let mut out = if text { Out::text(&output)? } else { Out::bytes(&output)? };
    let mut importer = Importer::new(&input, given, text)?;
    if out.can_take_back() {
        importer.pour(&mut reader, &wishes, &output.to_string(), &mut out)?;
    } else {
        // Nothing goes to a pipe before all is known to be right.
        let to = "a temporary file";
        let wrong = |error| failure(to, error);
        let mut aside = aside();
        importer.pour(&mut reader, &wishes, to, &mut aside)?;
        aside.rewind().map_err(wrong)?;
        let mut buffer = vec![0; 1 << 16];
        loop {
            match aside.read(&mut buffer).map_err(wrong)? {
                0 => break,
                count => out.put(&buffer[..count])?,
            }
        }
    }
    files::keep([out])?;
    for line in importer.found().iter().chain(&importer.untold()) {
        say(&format!("{input}: {line}"));
    }
    Ok(0)
}

/// The file.
fn open(input: &Input) -> Result<Reader, Failure> {
    let (looks, file) = contents::sample(input, source::open(input)?)?;
    if matches!(looks, Looks::Utf16 | Looks::Image) {
        let what = "neither a Value Change Dump nor comma-separated values in UTF-8";
        return Err(Failure::Content(input.to_string(), what.to_string()));
    }
    if looks == Looks::Text && is_capture(file.get_ref().0.get_ref()) {
        let what =
            "a capture in the text form, not a file of an analyser: decode and run take it with \
                    --text";
        return Err(Failure::Content(input.to_string(), what.to_string()));
    }
    Ok(Reader::new(file))
}

/// Whether the first line that is no comment is an item.
fn is_capture(sample: &[u8]) -> bool {
    let lines =
        sample.split(|&byte| byte == b'\n').filter_map(|line| std::str::from_utf8(line).ok());
    let first = lines.map(str::trim).find(|line| !line.is_empty() && !line.starts_with(';'));
    first.is_some_and(|line| swarmtempo::text::assemble(line).is_ok_and(|list| !list.is_empty()))
}

/// Reads a dump, or comma-separated values.
fn read(
    reader: &mut Reader,
    wishes: &Wishes,
    told: &mut Told,
    take: &mut Take<'_>,
) -> Result<(), WaveError> {
    let mut comments = Comments::default();
    let dump = reader.begins_with(b'$', |meta| {
        comments.takes(meta);
    })?;
    if dump {
        vcd::read(reader, wishes, told, take)
    } else {
        csv::read(reader, comments, wishes, told, take)
    }
}

/// What the words say of the file.
pub struct Wishes {
    /// The signals' names, in the order of [`WIRES`].
    pub names: [String; 3],
    /// The name of the column of times.
    pub time: Option<String>,
    /// The unit of times.
    pub unit: Option<Unit>,
    /// Samples a second.
    pub rate: Option<u64>,
}

impl Wishes {
    fn of(given: &Given) -> Result<Wishes, Failure> {
        let word = |name: &str| given.value(name).map(|word| word.to_string_lossy().into_owned());
        let mut names = WIRES.map(str::to_string);
        for (name, option) in names.iter_mut().zip(["--enable", "--data-clock", "--data"]) {
            if let Some(word) = word(option) {
                *name = word;
            }
        }
        let [a, b, c] = &names;
        if a == b || b == c || a == c {
            return Err(Failure::usage("import", "two signals have one name"));
        }
        let unit =
            match word("--unit") {
                None => None,
                Some(word) => Some(Unit::of(&word).ok_or_else(|| {
                    Failure::usage("import", "--unit needs s, ms, us, ns, ps or fs")
                })?),
            };
        let rate = given.number("--rate")?;
        if rate == Some(0) {
            return Err(Failure::usage("import", "--rate needs samples a second above 0"));
        }
        Ok(Wishes { names, time: word("--time"), unit, rate })
    }
}

/// What a reader tells beside the samples.
#[derive(Default)]
pub struct Told {
    /// How times were taken, where that needs a word.
    pub times: Option<String>,
    /// Samples of z, undriven, taken as 1, and the first one's line.
    pub undriven: u64,
    /// The line of the first of them.
    pub undriven_line: u64,
    /// Names of signals that had no level at the start, taken as 1.
    pub unknown: Vec<&'static str>,
}

/// A sample of the wires, or the end of them, at a time, from a line.
pub type Take<'a> = dyn FnMut(Femtoseconds, Option<Wires>, u64) -> Result<(), WaveError> + 'a;

/// How far the transaction under way is.
#[derive(Clone, Copy, Debug, PartialEq, Eq)]
enum Way {
    /// None is under way, or one that began before the start.
    Out,
    /// No byte is whole yet.
    Begun,
    /// A byte is, and more is needed.
    Byte,
    /// It is counted by what it was.
    Settled,
}

/// Turns samples into bytes, and counts.
#[allow(clippy::struct_excessive_bools, reason = "each is a wish or a fact of its own")]
struct Importer {
    name: String,
    import: WireImport,
    text: bool,
    driven: bool,
    seconds: bool,
    start: Option<Femtoseconds>,
    /// VIA ticks of the last sample, and of the last item.
    tick: u64,
    item_tick: u64,
    left_out: bool,
    items: u64,
    /// Changes in one VIA tick with the one before.
    crowded: u64,
    began: u64,
    written: u64,
    asked: u64,
    ignored: u64,
    half: u64,
    /// Enable went up again before the first bit.
    nothing: u64,
    /// Begun before the start (--goes-on).
    before: u64,
    way: Way,
    told: Told,
}

impl Importer {
    fn new(input: &Input, given: &Given, text: bool) -> Result<Importer, Failure> {
        let (driven, seconds) = (given.flag("--driven"), given.flag("--seconds"));
        let import = WireImport::new(chip("import", given)?)
            .driven(driven)
            .with_seconds(seconds)
            .goes_on(given.flag("--goes-on"));
        Ok(Importer {
            name: input.to_string(),
            import,
            text,
            driven,
            seconds,
            start: None,
            tick: 0,
            item_tick: 0,
            left_out: false,
            items: 0,
            crowded: 0,
            began: 0,
            written: 0,
            asked: 0,
            ignored: 0,
            half: 0,
            nothing: 0,
            before: 0,
            way: Way::Out,
            told: Told::default(),
        })
    }

    /// The whole file, as items, to an output of this name.
    fn pour(
        &mut self,
        reader: &mut Reader,
        wishes: &Wishes,
        to: &str,
        out: &mut impl Write,
    ) -> Result<(), Failure> {
        if self.text {
            let head = self.head();
            out.write_all(head.as_bytes()).map_err(|error| failure(to, error))?;
        }
        let mut told = Told::default();
        let mut bytes = Vec::new();
        let mut take = |time, wires, line| {
            bytes.clear();
            self.sample(time, wires, line, &mut bytes)?;
            out.write_all(&bytes).map_err(WaveError::Write)
        };
        let read = read(reader, wishes, &mut told, &mut take);
        read.map_err(|error| self.wrong(to, error))?;
        self.told = told;
        if self.text {
            let mut tail = String::new();
            self.found().iter().for_each(|line| tail.push_str(&format!("; {line}\n")));
            out.write_all(tail.as_bytes()).map_err(|error| failure(to, error))?;
        }
        Ok(())
    }

    /// An error, told with its line.
    fn wrong(&self, to: &str, error: WaveError) -> Failure {
        match error {
            WaveError::Read(error) => failure(&self.name, error),
            WaveError::Write(error) => failure(to, error),
            WaveError::Line { line, column, message } => {
                say(&format!("{}:{line}:{column}: {message}", self.name));
                Failure::Text(self.name.clone(), 1)
            }
        }
    }

    /// A sample, or the end: its items are appended.
    fn sample(
        &mut self,
        time: Femtoseconds,
        wires: Option<Wires>,
        line: u64,
        out: &mut Vec<u8>,
    ) -> Result<(), WaveError> {
        let start = self.start.get_or_insert(time).0;
        let late = || WaveError::at(line, "the time is too late to be counted in VIA ticks");
        let tick = time.0.checked_sub(start).map(Femtoseconds).and_then(Femtoseconds::nearest_tick);
        self.tick = tick.ok_or_else(late)?;
        let (text, before) = (self.text, self.items);
        let mut items = 0;
        let mut seen = None;
        let mut take = |timed: Timed, event: Option<WireEvent>| {
            items += 1;
            seen = seen.or(event);
            put(timed, event, text, out);
        };
        let done = match wires {
            Some(wires) => self.import.sample(self.tick, wires, &mut take),
            None => self.import.finish(self.tick, &mut take),
        };
        done.map_err(|error| WaveError::at(line, &error.to_string()))?;
        self.left_out |= self.import.leaves_out();
        self.items += items;
        if items > 0 {
            self.crowded += u64::from(before > 2 && self.tick == self.item_tick);
            self.item_tick = self.tick;
        }
        self.count(seen);
        Ok(())
    }

    /// Each transaction is counted once by what it was.
    fn count(&mut self, event: Option<WireEvent>) {
        let Some(event) = event else {
            return;
        };
        let (way, counted) = match (event, self.way) {
            (WireEvent::Began, _) => (Way::Begun, &mut self.began),
            (WireEvent::Written(..), _) => (Way::Settled, &mut self.written),
            (WireEvent::Ignored(..), _) => (Way::Settled, &mut self.ignored),
            (WireEvent::Asked(command), _) if command.read => (Way::Settled, &mut self.asked),
            (WireEvent::HalfSent(0), Way::Begun) => (Way::Out, &mut self.nothing),
            (WireEvent::HalfSent(_), _) => (Way::Out, &mut self.half),
            (WireEvent::Ended, Way::Out) => (Way::Out, &mut self.before),
            (WireEvent::Asked(_) | WireEvent::FirstOfTwo(_), _) => {
                self.way = Way::Byte;
                return;
            }
            (WireEvent::Sent(..) | WireEvent::SentInPart(..) | WireEvent::Ended, _) => {
                self.way = Way::Settled;
                return;
            }
        };
        *counted += 1;
        self.way = way;
    }

    /// The transactions, and what they were: the parts add up to the whole.
    fn transactions(&self) -> String {
        let low = self.import.under_way();
        let before = self.before + u64::from(low && self.way == Way::Out);
        let open = u64::from(low && matches!(self.way, Way::Begun | Way::Byte));
        let mut line = format!(
            "{}: {}, {}, {} ignored, {} half sent",
            counted(self.began + before, "transaction"),
            counted(self.written, "whole write"),
            counted(self.asked, "read"),
            self.ignored,
            self.half
        );
        for (count, what) in [
            (self.nothing, "with nothing sent"),
            (open, "not ended"),
            (before, "begun before the start"),
        ] {
            if count > 0 {
                line.push_str(&format!(", {count} {what}"));
            }
        }
        line
    }

    /// What stands before the items of a text.
    fn head(&self) -> String {
        let mut head = format!("; The clock's wires of {}, imported.\n", self.name);
        self.untold().iter().for_each(|line| head.push_str(&format!("; {line}\n")));
        head
    }

    /// What was found.
    fn found(&self) -> Vec<String> {
        let mut lines =
            vec![format!("{} over {}", counted(self.items, "item"), ticks_and_seconds(self.tick))];
        lines.push(self.transactions());
        if self.began == 0 {
            lines.push("enable never goes low: are the signals named right?".to_string());
        }
        if self.left_out {
            lines.push(
                "enable is low at the start: the rest of that transaction is left out, for its first \
                 bits are not here (--goes-on keeps it)"
                    .to_string(),
            );
        }
        if self.import.under_way() {
            lines.push("enable is low at the end: the last transaction may go on".to_string());
        }
        if self.crowded > 0 {
            lines.push(format!(
                "{} in one VIA tick with the one before: they keep their order, with a wait of 0",
                counted(self.crowded, "change")
            ));
        }
        lines.extend(self.told.times.clone());
        if self.told.undriven > 0 {
            let (count, line) = (counted(self.told.undriven, "level"), self.told.undriven_line);
            lines.push(format!("{count} of z (undriven) taken as 1, the first in line {line}"));
        }
        for name in &self.told.unknown {
            lines.push(format!("{name} has no level at the start: taken as 1"));
        }
        lines
    }

    /// What the wires do not tell.
    fn untold(&self) -> Vec<String> {
        let data = if self.driven {
            "not on the wires: who drives data; the list drives it throughout, as it was seen"
        } else {
            "not on the wires: who drives data; the list lets go of it from a legal read's eighth bit \
             until enable goes up, and drives it else"
        };
        let seconds = if self.seconds {
            "not on the wires: one-second ticks; there is an SE every 783,360 VIA ticks from the start"
        } else {
            "not on the wires: one-second ticks; there is no SE, and the seconds stand"
        };
        [
            data,
            seconds,
            "not on the wires: resets, power cuts, port A, the other lines of port B (made inputs), \
             timers, interrupts, disks",
            "not on the wires: cells, seconds, protect and test before the start; the list begins on a \
             fresh machine unless run has --image",
            "times are rounded to the nearest VIA tick (1,277 nanoseconds), each from the start; edges closer \
             than the analyser's samples have the order in which it saw them",
        ]
        .map(str::to_string)
        .to_vec()
    }
}

/// Appends an item: its record, or its line.
fn put(timed: Timed, event: Option<WireEvent>, text: bool, out: &mut Vec<u8>) {
    if !text {
        timed.item.write(timed.wait, out);
        return;
    }
    let line = timed.to_string();
    let line = match event {
        None | Some(WireEvent::Began | WireEvent::Ended) => format!("{line}\n"),
        Some(event) => format!("{line:<25} ; {event}\n"),
    };
    out.extend_from_slice(line.as_bytes());
}
