//! What the words of `swarmtempo run` ask for.

use super::conflicts::Uses;
use super::failure::Failure;
use super::fields::Rows;
use super::filter::Filter;
use super::gtkw;
use super::place::{Input, Output};
use super::style::When;
use super::words::Given;
use swarmtempo::Chip;

/// What the words say of the list.
#[derive(Clone, Copy, PartialEq, Eq)]
pub enum Form {
    /// Records; a text is refused.
    Unsaid,
    /// Records, whatever they look like.
    Records,
    /// A text.
    Text,
}

impl Form {
    /// By the words of a command.
    pub fn of(command: &str, given: &Given) -> Result<Form, Failure> {
        match (given.flag("--text"), given.flag("--records")) {
            (true, true) => {
                let what = "--text and --records: the list is one of them";
                Err(Failure::usage(command, what))
            }
            (true, false) => Ok(Form::Text),
            (false, true) => Ok(Form::Records),
            (false, false) => Ok(Form::Unsaid),
        }
    }
}

/// The words of the command.
pub struct Options {
    /// What the list is.
    pub form: Form,
    /// No table, and no summary where nothing is refused.
    pub quiet: bool,
    /// A refusal is a status.
    pub strict: bool,
    /// By the plain engine.
    pub plain: bool,
    /// Whether there are colours.
    pub colour: When,
    /// The clock chip of a fresh machine.
    pub chip: Chip,
    /// The image to begin with.
    pub image: Option<Input>,
    /// Where the image reached goes.
    pub save: Option<Output>,
    /// Where the answers go, as bytes.
    pub answers: Option<Output>,
    /// Where the dump goes.
    pub vcd: Option<Output>,
    /// Answer bytes in all.
    pub room: Option<u64>,
    /// How the rows of the table are written.
    pub rows: Rows,
    /// Which of them are shown.
    pub filter: Filter,
    /// The list.
    pub list: Input,
}

impl Options {
    /// From the command's words; words that name one file twice are refused.
    pub fn of(given: &Given) -> Result<Options, Failure> {
        let output = |name: &str| given.value(name).map(Output::of);
        let colour = given.value("--color").map_or(Some(When::Auto), |word| When::of(&word));
        let options = Options {
            form: Form::of("run", given)?,
            quiet: given.flag("--quiet"),
            strict: given.flag("--strict"),
            plain: given.flag("--plain"),
            colour: colour
                .ok_or_else(|| Failure::usage("run", "--color needs always, never or auto"))?,
            chip: chip("run", given)?,
            image: given.value("--image").map(Input::of),
            save: output("--save"),
            answers: output("--answers"),
            vcd: output("--vcd"),
            room: given.number("--room")?,
            rows: Rows::of("run", given)?,
            filter: Filter::of("run", given)?,
            list: Input::of(given.need()?),
        };
        if !options.table() && (options.rows != Rows::Words || options.filter.some()) {
            let what = "--json, --csv, --from, --to, --only and --refused are about rows, which \
                        --quiet leaves out, and --answers unless there is --json or --csv";
            return Err(Failure::usage("run", what));
        }
        options.uses().check()?;
        Ok(options)
    }

    /// True where a table is shown.
    pub fn table(&self) -> bool {
        (self.answers.is_none() || self.rows != Rows::Words) && !self.quiet
    }

    /// What is read, and what is written.
    fn uses(&self) -> Uses {
        let mut uses = Uses::of("run");
        uses.reads("LIST", &self.list);
        if let Some(image) = &self.image {
            uses.reads("--image", image);
        }
        if self.table() {
            uses.writes("the table of answers (which --quiet leaves out)", &Output::standard());
        }
        for (word, output) in
            [("--answers", &self.answers), ("--vcd", &self.vcd), ("--save", &self.save)]
        {
            if let Some(output) = output {
                uses.writes(word, output);
            }
        }
        if let Some(beside) = self.vcd.as_ref().and_then(gtkw::beside) {
            uses.writes("the .gtkw beside --vcd", &beside);
        }
        uses
    }
}

/// The clock chip of a fresh machine. An image has its own.
pub fn chip(command: &str, given: &Given) -> Result<Chip, Failure> {
    let Some(word) = given.value("--cells") else {
        return Ok(Chip::First);
    };
    if given.value("--image").is_some() {
        let what = "--cells and --image: an image says how many cells there are";
        return Err(Failure::usage(command, what));
    }
    let cells = word.to_str().and_then(|word| word.parse().ok());
    let needs = || Failure::usage(command, "--cells needs 20 or 256, the cells of the clock chip");
    cells.and_then(Chip::of_cells).ok_or_else(needs)
}
