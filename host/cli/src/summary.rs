//! What a run came to, for people.

use super::fields::{Fields, Value};
use super::lines::Conversions;
use super::numbers::{counted, grouped, ticks_and_seconds};
use super::style::Style;
use super::walk::Step;
use swarmtempo::describe::date;
use swarmtempo::{Piece, Refusal, State, ANSWER_LEN};

/// Refusals have numbers below this.
const NUMBERS: usize = 16;
/// Of the cells changed, so many are named; run --save and image show all.
const CELLS_SHOWN: usize = 20;

/// Counts what a run does.
pub struct Summary {
    before: State,
    carried_out: u64,
    refused: [Refused; NUMBERS],
    /// The number of the first refusal, or 0.
    first: u8,
    /// VIA ticks of the waits that passed.
    ticks: u64,
    /// Seconds of the power cuts carried out.
    seconds_off: u64,
    /// Waits that a text gave in microseconds.
    pub converted: Conversions,
}

/// The records refused with one number.
#[derive(Clone, Copy, Default)]
struct Refused {
    count: u64,
    /// The first of them: its offset in the list, its number there, and the line of its text.
    offset: u64,
    item: u64,
    line: Option<u64>,
}

/// How a run ended.
pub struct End<'a> {
    pub stop: Option<Refusal>,
    /// Bytes of the list.
    pub consumed: u64,
    /// Bytes of the answers.
    pub written: u64,
    pub state: &'a State,
}

impl Summary {
    /// Before a run that begins with this state.
    pub fn new(before: State) -> Summary {
        Summary {
            before,
            carried_out: 0,
            refused: [Refused::default(); NUMBERS],
            first: 0,
            ticks: 0,
            seconds_off: 0,
            converted: Conversions::default(),
        }
    }

    /// A record at an offset of the list, and its answer.
    pub fn note(&mut self, piece: Piece<'_>, answer: [u8; ANSWER_LEN], offset: u64) {
        if answer[2..4] == *b"OK" {
            self.carried_out += 1;
            if let Piece::Record(record) = piece {
                self.passed(record);
            }
            return;
        }
        let number = answer[4];
        let item = self.answered() + 1;
        if self.first == 0 {
            self.first = number;
        }
        if let Some(refused) = self.refused.get_mut(usize::from(number)) {
            if refused.count == 0 {
                (refused.offset, refused.item) = (offset, item);
            }
            refused.count += 1;
        }
    }

    /// A record, its answer and the line of its text.
    pub fn note_at(&mut self, step: &Step<'_>) {
        self.note(step.piece, *step.answer, step.at.offset);
        if step.answer[2..4] != *b"OK" {
            self.find_lines(|offset| (offset == step.at.offset).then_some(step.at.line).flatten());
        }
    }

    /// The times of a record that was carried out.
    fn passed(&mut self, record: &[u8]) {
        if let Some(&[_, _, kind, letter, low, high]) = record.first_chunk::<6>() {
            self.ticks += u64::from(u16::from_le_bytes([low, high]));
            if [kind, letter] == *b"PW" {
                let seconds = record[6..].first_chunk::<4>();
                self.seconds_off += seconds.map_or(0, |&off| u64::from(u32::from_le_bytes(off)));
            }
        }
    }

    fn answered(&self) -> u64 {
        self.carried_out + self.refused_in_all()
    }

    fn refused_in_all(&self) -> u64 {
        self.refused.iter().map(|refused| refused.count).sum()
    }

    /// Puts in the lines of first refusals that came since.
    pub fn find_lines(&mut self, line_at: impl Fn(u64) -> Option<u64>) {
        for refused in self.refused.iter_mut().filter(|refused| refused.count > 0) {
            if refused.line.is_none() {
                refused.line = line_at(refused.offset);
            }
        }
    }

    /// The number of the first refusal, or 0.
    pub fn first_refusal(&self) -> u8 {
        self.first
    }

    /// The summary, its lines ended.
    pub fn text(&self, end: &End<'_>, style: Style) -> String {
        let number = end.stop.map_or(0, Refusal::number);
        let why = end.stop.map_or("end of the list".to_string(), |stop| stop.to_string());
        let head = format!(
            "stop {number} ({why}): {}, {} consumed, {} written\n",
            counted(end.written / ANSWER_LEN as u64, "answer"),
            counted(end.consumed, "byte"),
            counted(end.written, "byte")
        );
        let mut out = if number == 0 { style.heading(&head) } else { style.refused(&head) };
        out.push_str(&format!("  carried out   {}\n", counted(self.carried_out, "item")));
        self.refusals(style, &mut out);
        out.push_str(&format!("  duration      {}", ticks_and_seconds(self.ticks)));
        if self.seconds_off > 0 {
            out.push_str(&format!(", and {} of power off", counted(self.seconds_off, "second")));
        }
        out.push('\n');
        self.microseconds(&mut out);
        self.clock(end.state, &mut out);
        out
    }

    /// The summary as named values.
    pub fn fields(&self, end: &End<'_>) -> Fields {
        let mut fields = Fields::default();
        let why = end.stop.map_or("end of the list".to_string(), |stop| stop.to_string());
        fields.put("stop", u64::from(end.stop.map_or(0, Refusal::number))).put("stop_words", why);
        fields.put("answers", end.written / ANSWER_LEN as u64);
        fields.put("consumed_bytes", end.consumed).put("written_bytes", end.written);
        fields.put("carried_out", self.carried_out).put("refused", self.refused_in_all());
        for refusal in Refusal::ALL {
            let refused = &self.refused[usize::from(refusal.number())];
            let of = |what: &str| format!("refused_{}{what}", refusal.number());
            let first = (refused.count > 0).then_some(refused);
            fields.put(of(""), refused.count);
            fields.put(of("_first_item"), first.map(|first| first.item));
            fields.put(of("_first_offset"), first.map(|first| first.offset));
            fields.put(of("_first_line"), first.and_then(|first| first.line));
        }
        fields.put("duration_via_ticks", self.ticks);
        fields.put("duration_seconds", Value::Decimal(super::fields::seconds(self.ticks)));
        fields.put("power_off_seconds", self.seconds_off);
        fields.put("waits_in_microseconds", self.converted.count);
        for (when, state) in [("before", &self.before), ("after", end.state)] {
            let of = |what: &str| format!("{what}_{when}");
            fields.put(of("clock_seconds"), u64::from(state.seconds.0));
            fields.put(of("date"), date(state.seconds.0));
            fields.put(of("protect"), state.protect).put(of("test"), state.test);
        }
        let cells = self.before.cells.iter().zip(&end.state.cells).enumerate();
        let changed = cells.filter(|(_, (before, after))| before != after);
        fields.put("cells_changed", Value::all(changed.map(|(cell, _)| cell as u64)));
        fields
    }

    fn refusals(&self, style: Style, out: &mut String) {
        out.push_str(&format!("  refused       {}\n", counted(self.refused_in_all(), "item")));
        for (number, refused) in (0..).zip(&self.refused).filter(|(_, refused)| refused.count > 0) {
            let why = Refusal::from_number(number).map_or(String::new(), |why| why.to_string());
            let line =
                refused.line.map_or(String::new(), |line| format!(", line {}", grouped(line)));
            let line = format!(
                "    NO {number}        {} ({why}), the first at offset {} bytes, item {}{line}\n",
                counted(refused.count, "item"),
                grouped(refused.offset),
                grouped(refused.item)
            );
            out.push_str(&style.refused(&line));
        }
    }

    fn microseconds(&self, out: &mut String) {
        if let Some((line, first)) = self.converted.first {
            out.push_str(&format!(
                "  microseconds  {}\n",
                converted(self.converted.count, line, first)
            ));
        }
    }

    fn clock(&self, after: &State, out: &mut String) {
        let before = &self.before;
        let seconds = |state: &State| {
            let seconds = state.seconds.0;
            format!("{} ({})", counted(seconds.into(), "second"), date(seconds))
        };
        out.push_str(&format!(
            "  clock seconds {} before, {} after\n",
            seconds(before),
            seconds(after)
        ));
        let cells = before.cells.iter().zip(&after.cells).enumerate();
        let mut changed: Vec<String> = cells
            .filter(|(_, (before, after))| before != after)
            .map(|(cell, (before, after))| {
                format!("cell {cell}: ${before:02X} before, ${after:02X} after")
            })
            .collect();
        let more = changed.len().saturating_sub(CELLS_SHOWN);
        changed.truncate(CELLS_SHOWN);
        if more > 0 {
            changed.push(format!("and {more} more"));
        }
        let cells = if changed.is_empty() { "none".to_string() } else { changed.join("; ") };
        out.push_str(&format!("  cells changed {cells}\n"));
        let protect = |state: &State| if state.protect { "set" } else { "clear" };
        out.push_str(&format!(
            "  write-protect {} before, {} after\n",
            protect(before),
            protect(after)
        ));
    }
}

/// Waits in microseconds, in words.
pub fn converted(count: u64, line: u64, first: swarmtempo::text::Converted) -> String {
    format!(
        "{} in microseconds turned into VIA ticks, rounded up; the first, line {}: {} are {}",
        counted(count, "wait"),
        grouped(line),
        counted(first.micros.0.into(), "microsecond"),
        counted(first.wait.0.into(), "VIA tick")
    )
}
