//! Lists of items.

use crate::{pieces, text, Item, Piece, Pieces, Refusal, Timed, WaitTicks};
use std::fmt;
use std::iter::FusedIterator;
use std::str::FromStr;

/// A list of items, as the bytes that a run takes. It may have bytes that make no item too.
///
/// ```
/// use swarmtempo::{Item, List, Timed, WaitTicks};
///
/// let mut list: List = "12t SE\n0t VB".parse()?;
/// list.push(WaitTicks(3), Item::Reset);
/// list.extend([Timed { wait: WaitTicks(0), item: Item::Second }]);
/// assert_eq!(list.as_ref().len(), 4 * 6);
/// let items: Result<Vec<Timed>, _> = list.iter().collect();
/// assert_eq!(items?[2].to_string(), "3t RS");
/// assert_eq!(list.to_string(), "12t SE\n0t VB\n3t RS\n0t SE\n");
/// # Ok::<(), Box<dyn std::error::Error>>(())
/// ```
#[derive(Clone, Debug, Default, PartialEq, Eq, Hash)]
pub struct List {
    bytes: Vec<u8>,
}

impl List {
    /// An empty list.
    pub fn new() -> List {
        List::default()
    }

    /// Appends an item that comes after a wait.
    pub fn push(&mut self, wait: WaitTicks, item: Item) -> &mut List {
        item.write(wait, &mut self.bytes);
        self
    }

    /// Appends bytes as they are: a record of any kind, or none.
    pub fn push_raw(&mut self, bytes: &[u8]) -> &mut List {
        self.bytes.extend_from_slice(bytes);
        self
    }

    /// The list's bytes.
    pub fn as_bytes(&self) -> &[u8] {
        &self.bytes
    }

    /// True where it has no byte.
    pub fn is_empty(&self) -> bool {
        self.bytes.is_empty()
    }

    /// Its items, in order. See [`items`].
    pub fn iter(&self) -> Items<'_> {
        items(&self.bytes)
    }
}

/// The items of a list, in order: for a record that is none, the refusal that a run answers whatever
/// the state. Bytes that begin no whole record give [`Refusal::Cut`], and are the last.
pub fn items(list: &[u8]) -> Items<'_> {
    Items { pieces: pieces(list) }
}

/// The iterator of [`items`].
#[derive(Clone, Debug)]
pub struct Items<'a> {
    pieces: Pieces<'a>,
}

impl Iterator for Items<'_> {
    type Item = Result<Timed, Refusal>;

    fn next(&mut self) -> Option<Result<Timed, Refusal>> {
        self.pieces.next().map(Timed::try_from)
    }
}

impl FusedIterator for Items<'_> {}

impl TryFrom<Piece<'_>> for Timed {
    type Error = Refusal;

    fn try_from(piece: Piece<'_>) -> Result<Timed, Refusal> {
        Timed::try_from(piece.as_ref())
    }
}

/// The bytes of a piece.
impl AsRef<[u8]> for Piece<'_> {
    fn as_ref(&self) -> &[u8] {
        let (Piece::Record(bytes) | Piece::Rest(bytes)) = self;
        bytes
    }
}

impl<'a> IntoIterator for &'a List {
    type Item = Result<Timed, Refusal>;
    type IntoIter = Items<'a>;

    fn into_iter(self) -> Items<'a> {
        self.iter()
    }
}

impl Extend<Timed> for List {
    fn extend<I: IntoIterator<Item = Timed>>(&mut self, items: I) {
        for Timed { wait, item } in items {
            self.push(wait, item);
        }
    }
}

impl Extend<(WaitTicks, Item)> for List {
    fn extend<I: IntoIterator<Item = (WaitTicks, Item)>>(&mut self, items: I) {
        self.extend(items.into_iter().map(Timed::from));
    }
}

impl FromIterator<Timed> for List {
    fn from_iter<I: IntoIterator<Item = Timed>>(items: I) -> List {
        let mut list = List::new();
        list.extend(items);
        list
    }
}

impl FromIterator<(WaitTicks, Item)> for List {
    fn from_iter<I: IntoIterator<Item = (WaitTicks, Item)>>(items: I) -> List {
        items.into_iter().map(Timed::from).collect()
    }
}

impl AsRef<[u8]> for List {
    fn as_ref(&self) -> &[u8] {
        &self.bytes
    }
}

/// A list of any bytes.
impl From<Vec<u8>> for List {
    fn from(bytes: Vec<u8>) -> List {
        List { bytes }
    }
}

impl From<&[u8]> for List {
    fn from(bytes: &[u8]) -> List {
        bytes.to_vec().into()
    }
}

impl From<List> for Vec<u8> {
    fn from(list: List) -> Vec<u8> {
        list.bytes
    }
}

/// The text form, a line for each item.
impl fmt::Display for List {
    fn fmt(&self, f: &mut fmt::Formatter<'_>) -> fmt::Result {
        f.write_str(&text::disassemble(&self.bytes))
    }
}

/// From the text form.
impl FromStr for List {
    type Err = text::TextError;

    fn from_str(text: &str) -> Result<List, text::TextError> {
        text::assemble(text).map(List::from)
    }
}
