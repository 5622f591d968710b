//! A capture run through a machine in fixed memory, with the place of each record.

use super::failure::Failure;
use super::lines::{list_failure, Conversions, Lines};
use super::place::Input;
use super::progress::Progress;
use super::request::Form;
use super::run::{List, RECORDS};
use super::{cut, source};
use swarmtempo::decode::waited;
use swarmtempo::{pieces, Chunks, Machine, Piece, Place, Refusal, ANSWER_LEN};

/// A capture that is run.
pub struct Walk {
    input: Input,
    chunks: Chunks<List>,
    machine: Machine,
    answers: Vec<u8>,
    at: Place,
    progress: Progress,
    /// Waits that a text gave in microseconds.
    pub converted: Conversions,
    /// Why the run stopped before the end.
    pub stop: Option<Refusal>,
    /// Bytes of the list.
    pub consumed: u64,
    /// Bytes of the answers.
    pub written: u64,
}

/// A record that was answered.
pub struct Step<'a> {
    /// Where and when.
    pub at: Place,
    /// The record.
    pub piece: Piece<'a>,
    /// Its answer.
    pub answer: &'a [u8; ANSWER_LEN],
}

impl Walk {
    /// Of a capture from a state; `table` is true where rows go to standard output.
    pub fn new(input: &Input, form: Form, machine: Machine, table: bool) -> Result<Walk, Failure> {
        if form == Form::Text && source::length(input).is_some() {
            // The whole text first, so that nothing is shown where a line is wrong.
            let mut text = Lines::new(input, source::open(input)?, RECORDS)?;
            text.pour(input, |_| Ok(()))?;
        }
        let total = if form == Form::Text { None } else { source::length(input) };
        Ok(Walk {
            input: input.clone(),
            chunks: Chunks::new(cut::list(input, form)?),
            machine,
            answers: Vec::new(),
            at: Place::default(),
            progress: Progress::new(table, total),
            converted: Conversions::default(),
            stop: None,
            consumed: 0,
            written: 0,
        })
    }

    /// The machine as far as it has come.
    pub fn machine(&self) -> &Machine {
        &self.machine
    }

    /// Runs the next part, and takes each record of it; false at the end.
    pub fn part(
        &mut self,
        mut take: impl FnMut(Step<'_>) -> Result<(), Failure>,
    ) -> Result<bool, Failure> {
        if self.stop.is_some() {
            return Ok(false);
        }
        let more = self.chunks.next().map_err(|error| {
            self.progress.clear();
            list_failure(&self.input, error)
        })?;
        if more.is_none() {
            return Ok(false);
        }
        let part = self.chunks.last();
        let lines = match self.chunks.source() {
            List::Text(lines) => Some(lines),
            List::Records(_) => None,
        };
        self.answers.clear();
        let run = self.machine.run(part, &mut self.answers);
        let mut offset = self.consumed;
        for (piece, answer) in pieces(part).zip(self.answers.as_chunks::<ANSWER_LEN>().0) {
            self.at.item += 1;
            self.at.offset = offset;
            self.at.line = lines.and_then(|lines| lines.line_at(offset));
            self.at.via_ticks += u64::from(waited(piece, answer));
            offset += piece.as_ref().len() as u64;
            take(Step { at: self.at, piece, answer })?;
        }
        self.stop = run.stop;
        self.consumed += run.consumed as u64;
        self.written += run.written as u64;
        if let List::Text(lines) = self.chunks.source_mut() {
            self.converted = lines.converted();
            lines.forget(self.consumed);
        }
        self.progress.show(self.consumed, self.at.item);
        Ok(true)
    }

    /// Runs all that is left.
    pub fn whole(
        &mut self,
        mut take: impl FnMut(Step<'_>) -> Result<(), Failure>,
    ) -> Result<(), Failure> {
        while self.part(&mut take)? {}
        self.progress.clear();
        Ok(())
    }

    /// Says so where the capture is cut; the number that its run stops with.
    pub fn stopped(&self) -> u8 {
        if let Some(refusal) = self.stop {
            let offset = self.at.offset;
            super::files::say(&format!(
                "swarmtempo: {}: {refusal}, at byte {offset}; the rest is not run",
                self.input
            ));
        }
        self.stop.map_or(0, Refusal::number)
    }
}
