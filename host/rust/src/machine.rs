//! The machine.

use crate::table::{Table, HEAD};
use crate::{
    chunks, pieces, sys, Answer, Chip, Item, Piece, Pieces, Refusal, Seen, State, Timed, WaitTicks,
    ANSWER_LEN,
};
use std::fmt;
use std::iter::FusedIterator;

/// How a run ended.
#[derive(Clone, Copy, Debug, PartialEq, Eq, Hash)]
pub struct Run {
    /// None at the end of the list, else [`Refusal::Cut`], [`Refusal::Room`] or [`Refusal::State`].
    pub stop: Option<Refusal>,
    /// Bytes of the list: whole records answered, except one refused with 1.
    pub consumed: usize,
    /// Bytes of the answers: 8 times their number.
    pub written: usize,
}

impl Run {
    #[allow(clippy::cast_possible_truncation, reason = "counts are at most the slices' lengths")]
    fn of_report(report: sys::Report) -> Run {
        let sys::Report { stop, consumed, written } = report;
        let stop = Refusal::from_number(stop);
        Run { stop, consumed: consumed as usize, written: written as usize }
    }

    /// True where the run came to the end of its list.
    pub fn at_end(&self) -> bool {
        self.stop.is_none()
    }

    /// 0 at the end of the list, else the refusal's number.
    pub fn stop_number(&self) -> u8 {
        self.stop.map_or(0, Refusal::number)
    }
}

impl fmt::Display for Run {
    fn fmt(&self, f: &mut fmt::Formatter<'_>) -> fmt::Result {
        write!(f, "stop {} (", self.stop_number())?;
        match self.stop {
            None => f.write_str("end of the list")?,
            Some(refusal) => write!(f, "{refusal}")?,
        }
        let answers = self.written / ANSWER_LEN;
        write!(f, "): {answers} answers, {} bytes consumed", self.consumed)
    }
}

/// A machine: it owns the image of an accepted state.
#[derive(Clone, Debug, PartialEq, Eq, Hash)]
pub struct Machine {
    image: Vec<u8>,
}

impl Machine {
    /// A fresh machine with this clock chip.
    ///
    /// # Panics
    /// As [`Machine::image_len`].
    #[allow(clippy::cast_possible_truncation, reason = "20 or 256 cells")]
    pub fn fresh(chip: Chip) -> Machine {
        let mut image = vec![0; Machine::image_len(chip)];
        let refusal = sys::fresh(&mut image, chip.cells() as u32);
        assert_eq!(refusal, 0, "an image of its own length has room");
        Machine { image }
    }

    /// Bytes of an image, by the archive.
    ///
    /// # Panics
    /// Where the archive is of another version than this crate, and has another image.
    #[allow(clippy::cast_possible_truncation, reason = "20 or 256 cells")]
    pub fn image_len(chip: Chip) -> usize {
        let by_archive = usize::try_from(sys::image_len(chip.cells() as u32));
        let same = by_archive == Ok(chip.image_len());
        assert!(same, "libswarmtempo.a is of another version than the crate swarmtempo");
        chip.image_len()
    }

    /// The machine of a saved image.
    ///
    /// # Errors
    /// [`Refusal::State`] where no accepted state has this image.
    pub fn from_image(image: &[u8]) -> Result<Machine, Refusal> {
        let chip = Chip::of_image(image).ok_or(Refusal::State)?;
        if image.len() != Machine::image_len(chip) {
            return Err(Refusal::State);
        }
        let mut machine = Machine { image: image.to_vec() };
        match machine.run_in(&[], &mut []).stop {
            None => Ok(machine),
            Some(refusal) => Err(refusal),
        }
    }

    /// Its clock chip, which no run changes.
    pub fn chip(&self) -> Chip {
        Chip::of_image(&self.image).unwrap_or_default()
    }

    /// The image, to be saved.
    pub fn image(&self) -> &[u8] {
        &self.image
    }

    /// The state in the image.
    pub fn state(&self) -> State {
        State::of_accepted(&self.image)
    }

    /// Does one item, after a wait.
    ///
    /// ```
    /// use swarmtempo::{Address, Chip, Item, Machine, Register, WaitTicks};
    ///
    /// let mut machine = Machine::fresh(Chip::First);
    /// let seen = machine.step(WaitTicks(0), Item::Read(Address::Via(Register::ORB)))?;
    /// assert_eq!(seen.value, 0xFF);
    /// # Ok::<(), swarmtempo::Refusal>(())
    /// ```
    ///
    /// # Errors
    /// The refusal; then the state is as before.
    ///
    /// # Panics
    /// Where the archive is of another version than this crate, and answers what this does not know.
    pub fn step(&mut self, wait: WaitTicks, item: Item) -> Result<Seen, Refusal> {
        let mut answer = [0; ANSWER_LEN];
        self.run_in(&Timed { wait, item }.to_bytes(), &mut answer);
        Answer::read(&answer).expect("an item is answered").result()
    }

    /// Runs a list with room for every answer, which is appended to `answers`.
    pub fn run(&mut self, list: impl AsRef<[u8]>, answers: &mut Vec<u8>) -> Run {
        let list = list.as_ref();
        let start = answers.len();
        answers.resize(start + ANSWER_LEN * chunks::pieces(list).count(), 0);
        let run = self.run_in(list, &mut answers[start..]);
        answers.truncate(start + run.written);
        run
    }

    /// Runs a list with a given room for answers. Bytes past those written keep their contents.
    pub fn run_in(&mut self, list: &[u8], room: &mut [u8]) -> Run {
        Run::of_report(sys::run(&mut self.image, list, room))
    }

    /// The same by the plain engine: the clock chip's command bytes by their bit patterns, where
    /// [`Machine::run_in`] looks them up in a table. That both do the same is proved.
    pub fn run_in_plain(&mut self, list: &[u8], room: &mut [u8]) -> Run {
        Run::of_report(sys::run_plain(&mut self.image, list, room))
    }

    /// Runs a list, and gives its items with their answers.
    ///
    /// ```
    /// use swarmtempo::{Chip, List, Machine, Refusal};
    ///
    /// let list: List = "0t WR VIA.IER $81\n0t SE\nRAW 05 00 53 45 00 00 00".parse()?;
    /// let transcript = Machine::fresh(Chip::First).run_items(&list);
    /// assert!(transcript.run().at_end());
    /// for done in &transcript {
    ///     match done.item {
    ///         Ok(timed) => println!("{timed}: {}", done.answer),
    ///         Err(refusal) => assert_eq!(refusal, Refusal::Length),
    ///     }
    /// }
    /// print!("{transcript}"); // the same as a table
    /// # Ok::<(), swarmtempo::text::TextError>(())
    /// ```
    pub fn run_items<'a>(&mut self, list: &'a (impl AsRef<[u8]> + ?Sized)) -> Transcript<'a> {
        let list = list.as_ref();
        let mut answers = Vec::new();
        let run = self.run(list, &mut answers);
        Transcript { run, list, answers }
    }
}

/// Fresh, with the first chip.
impl Default for Machine {
    fn default() -> Machine {
        Machine::fresh(Chip::First)
    }
}

/// The image.
impl AsRef<[u8]> for Machine {
    fn as_ref(&self) -> &[u8] {
        &self.image
    }
}

impl TryFrom<&[u8]> for Machine {
    type Error = Refusal;

    /// As [`Machine::from_image`].
    fn try_from(image: &[u8]) -> Result<Machine, Refusal> {
        Machine::from_image(image)
    }
}

/// A list that was run, with its answers. Written as the table of [`crate::table`].
#[derive(Clone, Debug, PartialEq, Eq)]
pub struct Transcript<'a> {
    run: Run,
    list: &'a [u8],
    answers: Vec<u8>,
}

impl<'a> Transcript<'a> {
    /// How the run ended.
    pub fn run(&self) -> Run {
        self.run
    }

    /// The answers as bytes.
    pub fn answers(&self) -> &[u8] {
        &self.answers
    }

    /// The records answered, in order.
    pub fn iter(&self) -> Exchanges<'a, '_> {
        Exchanges { pieces: pieces(self.list), answers: self.answers.as_chunks().0.iter() }
    }
}

impl<'a, 'b> IntoIterator for &'b Transcript<'a> {
    type Item = Exchange<'a>;
    type IntoIter = Exchanges<'a, 'b>;

    fn into_iter(self) -> Exchanges<'a, 'b> {
        self.iter()
    }
}

impl fmt::Display for Transcript<'_> {
    fn fmt(&self, f: &mut fmt::Formatter<'_>) -> fmt::Result {
        f.write_str(HEAD)?;
        let mut table = Table::default();
        let mut row = String::new();
        for (piece, answer) in pieces(self.list).zip(self.answers.as_chunks().0) {
            row.clear();
            table.row(piece, answer, &mut row);
            f.write_str(&row)?;
        }
        Ok(())
    }
}

/// A record of a list, with its answer.
#[derive(Clone, Copy, Debug, PartialEq, Eq)]
pub struct Exchange<'a> {
    /// The record's bytes.
    pub record: &'a [u8],
    /// The item, or why the bytes are none.
    pub item: Result<Timed, Refusal>,
    /// Its answer.
    pub answer: Answer,
}

/// The iterator of [`Transcript::iter`].
#[derive(Clone, Debug)]
pub struct Exchanges<'a, 'b> {
    pieces: Pieces<'a>,
    answers: std::slice::Iter<'b, [u8; ANSWER_LEN]>,
}

impl<'a> Iterator for Exchanges<'a, '_> {
    type Item = Exchange<'a>;

    fn next(&mut self) -> Option<Exchange<'a>> {
        let answer = Answer::read(self.answers.next()?)?;
        let piece = self.pieces.next()?;
        let (Piece::Record(record) | Piece::Rest(record)) = piece;
        Some(Exchange { record, item: piece.try_into(), answer })
    }
}

impl FusedIterator for Exchanges<'_, '_> {}
