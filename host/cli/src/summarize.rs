//! `swarmtempo summary`: what a run of a capture comes to.

use super::conflicts::Uses;
use super::cut::{reads, start};
use super::failure::Failure;
use super::fields::{Fields, Rows};
use super::files::{self, Out};
use super::numbers::counted;
use super::place::{Input, Output};
use super::request::Form;
use super::style::{Style, When};
use super::summary::{End, Summary};
use super::walk::Walk;
use super::words::Given;
use swarmtempo::{Decoder, Fate, Transaction};

/// Transactions by their fates.
#[derive(Clone, Copy, Debug, Default, PartialEq, Eq)]
pub struct Fates {
    pub all: u64,
    pub written: u64,
    pub protected: u64,
    pub half: u64,
    pub nothing: u64,
    pub open: u64,
    pub illegal: u64,
    /// Of the illegal ones those of two bytes on a chip with 256 cells.
    pub elsewhere: u64,
    pub read: u64,
    pub before: u64,
}

impl Fates {
    /// One more.
    pub fn count(&mut self, it: &Transaction) {
        self.all += 1;
        self.elsewhere += u64::from(it.of_two_elsewhere());
        *match it.fate {
            Fate::Written { .. } => &mut self.written,
            Fate::Protected { .. } => &mut self.protected,
            Fate::Half { .. } if it.not_ended() => &mut self.open,
            Fate::Half { .. } if it.nothing_sent() => &mut self.nothing,
            Fate::Half { .. } => &mut self.half,
            Fate::Illegal => &mut self.illegal,
            Fate::Read { .. } => &mut self.read,
            Fate::Before => &mut self.before,
        } += 1;
    }

    /// In words.
    pub fn words(&self) -> String {
        let Fates { all, written, protected, half, nothing, open, illegal, read, before, .. } =
            *self;
        let kinds = [
            (written, "written"),
            (protected, "kept out by protect"),
            (half, "half sent"),
            (nothing, "nothing sent"),
            (open, "not ended"),
            (illegal, "illegal"),
            (read, "read"),
            (before, "settled before the list"),
        ];
        let some = kinds.iter().filter(|(count, _)| *count > 0);
        let parts: Vec<String> = some.map(|(count, kind)| format!("{count} {kind}")).collect();
        let colon = if parts.is_empty() { "" } else { ": " };
        let mut words = format!("{}{colon}{}", counted(all, "transaction"), parts.join(", "));
        if self.elsewhere > 0 {
            words.push_str(&format!("; {}", elsewhere(self.elsewhere)));
        }
        words
    }

    fn fields(&self, fields: &mut Fields) {
        fields.put("transactions", self.all).put("transactions_written", self.written);
        fields.put("transactions_protected", self.protected);
        fields.put("transactions_half", self.half).put("transactions_nothing", self.nothing);
        fields.put("transactions_open", self.open).put("transactions_illegal", self.illegal);
        fields.put("transactions_read", self.read).put("transactions_before", self.before);
    }
}

/// So many transactions of two bytes on a chip with 20 cells, in words.
pub fn elsewhere(count: u64) -> String {
    format!("{count} illegal of two bytes on a chip with 256 cells: is --cells 256 missing?")
}

/// Shows the summary, and gives the exit status.
pub fn summary(given: &Given) -> Result<u8, Failure> {
    let input = Input::of(given.need()?);
    let output = given.value("-o").map_or(Output::standard(), Output::of);
    let (form, rows) = (Form::of("summary", given)?, Rows::of("summary", given)?);
    let uses = &mut Uses::of("summary");
    reads(uses, given, std::slice::from_ref(&input)).writes("-o", &output).check()?;
    let machine = start("summary", given)?;
    let mut decoder = Decoder::new(&machine.state());
    let (mut summary, mut fates) = (Summary::new(machine.state()), Fates::default());
    let mut out = Out::text(&output)?;
    let mut walk = Walk::new(&input, form, machine, false)?;
    walk.whole(|step| {
        summary.note_at(&step);
        decoder.record(step.at, step.piece, step.answer, &mut |it| fates.count(&it));
        Ok(())
    })?;
    decoder.finish(&mut |it| fates.count(&it));
    summary.converted = walk.converted;
    let (stop, consumed, written) = (walk.stop, walk.consumed, walk.written);
    let end = End { stop, consumed, written, state: &walk.machine().state() };
    let mut text = String::new();
    if rows == Rows::Words {
        let style = match output.path() {
            None => Style::of_output(When::Auto),
            Some(_) => Style::of_output(When::Never),
        };
        text = summary.text(&end, style);
        text.push_str(&format!("  clock chip    {}\n", fates.words()));
    } else {
        let mut fields = summary.fields(&end);
        fates.fields(&mut fields);
        match rows {
            Rows::Csv => fields.csv_pairs(&mut text),
            _ => fields.json(&mut text),
        }
    }
    out.put(text.as_bytes())?;
    files::keep([out])?;
    Ok(walk.stop.map_or(0, swarmtempo::Refusal::number))
}
