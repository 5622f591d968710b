//! Which clock chip a machine has.

use crate::ParseError;
use std::fmt;
use std::str::FromStr;

/// The clock chip of a machine, chosen when it is made.
#[derive(Clone, Copy, Debug, Default, PartialEq, Eq, Hash)]
pub enum Chip {
    /// 20 cells; its images are of kind ST.
    #[default]
    First,
    /// 256 cells, reached by commands of two bytes too; its images are of kind SX.
    Later,
}

impl Chip {
    /// Both.
    pub const BOTH: [Chip; 2] = [Chip::First, Chip::Later];

    /// Cells of parameter memory.
    pub const fn cells(self) -> usize {
        match self {
            Chip::First => 20,
            Chip::Later => 256,
        }
    }

    /// The chip with so many cells.
    pub fn of_cells(cells: usize) -> Option<Chip> {
        Chip::BOTH.into_iter().find(|chip| chip.cells() == cells)
    }

    /// The kind of its images.
    pub const fn kind(self) -> [u8; 2] {
        match self {
            Chip::First => *b"ST",
            Chip::Later => *b"SX",
        }
    }

    /// Bytes of an image.
    pub const fn image_len(self) -> usize {
        match self {
            Chip::First => 124,
            Chip::Later => 361,
        }
    }

    /// The chip of an image, by its kind; none where the bytes have neither.
    pub fn of_image(image: &[u8]) -> Option<Chip> {
        let kind = image.get(2..4)?;
        Chip::BOTH.into_iter().find(|chip| chip.kind() == *kind)
    }
}

/// As `256 cells`.
impl fmt::Display for Chip {
    fn fmt(&self, f: &mut fmt::Formatter<'_>) -> fmt::Result {
        write!(f, "{} cells", self.cells())
    }
}

/// From the number of cells.
impl FromStr for Chip {
    type Err = ParseError;

    fn from_str(text: &str) -> Result<Chip, ParseError> {
        let cells = text.strip_suffix(" cells").unwrap_or(text);
        let chip = cells.parse().ok().and_then(Chip::of_cells);
        chip.ok_or_else(|| ParseError::new(text, "a number of cells, 20 or 256"))
    }
}
