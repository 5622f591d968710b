//! Answers for people, as a table.
//!
//! A row has the item's number in the list, counted from 1; where its record begins there, in bytes; the
//! line of its text, where it has one; the VIA ticks that the waits of the items done so far come to; the
//! record; and its answer. Of an MW with more than three values it has the
//! first, and how many there are: `0t MW VIA.ORB $04 .. (36)`.
//!
//! ```
//! use swarmtempo::table::{Table, HEAD};
//! use swarmtempo::{pieces, Chip, List, Machine, ANSWER_LEN};
//!
//! let list: List = "12t RD VIA.ORB".parse()?;
//! let mut answers = Vec::new();
//! Machine::fresh(Chip::First).run(&list, &mut answers);
//! let mut text = HEAD.to_string();
//! let mut table = Table::default();
//! for (piece, answer) in pieces(list.as_ref()).zip(answers.as_chunks::<ANSWER_LEN>().0) {
//!     table.row(piece, answer, &mut text);
//! }
//! let row = "       1           0             12  12t RD VIA.ORB                   $FF      0    1  -";
//! assert_eq!(text.lines().nth(1), Some(row));
//! # Ok::<(), swarmtempo::text::TextError>(())
//! ```

use crate::decode::waited;
use crate::{Answer, Item, Piece, Place, Timed, ANSWER_LEN};

/// The heading.
pub const HEAD: &str =
    "    item      offset      VIA ticks  record                         value  level  SEL  lines on\n";
/// The heading where rows have the lines of a text.
pub const HEAD_OF_TEXT: &str =
    "    item      offset    line      VIA ticks  record                         value  level  SEL  lines on\n";

/// Counts items, bytes and VIA ticks, and writes rows.
#[derive(Clone, Debug, Default)]
pub struct Table {
    at: Place,
    /// Where the next record begins.
    next: u64,
}

impl Table {
    /// Appends the row of a piece of a list and its answer.
    pub fn row(&mut self, piece: Piece<'_>, answer: &[u8; ANSWER_LEN], out: &mut String) {
        self.at.item += 1;
        self.at.offset = self.next;
        self.next += piece.as_ref().len() as u64;
        self.at.via_ticks += u64::from(waited(piece, answer));
        row(&self.at, false, piece, answer, out);
    }
}

/// Appends the row of a piece of a list that stands at a place, and its answer; with the line of a text
/// under [`HEAD_OF_TEXT`].
pub fn row(
    at: &Place,
    of_text: bool,
    piece: Piece<'_>,
    answer: &[u8; ANSWER_LEN],
    out: &mut String,
) {
    let item = Timed::try_from(piece);
    let answer = Answer::read(answer).ok_or(answer);
    let record = record(piece);
    let seen = match (item, answer) {
        (Ok(timed), Ok(Answer::Ok(seen))) => {
            let read = matches!(timed.item, Item::Read(_) | Item::Pulse(_));
            let value = if read { format!("${:02X}", seen.value) } else { "-".into() };
            let sel = u8::from(seen.sel);
            format!("{value:>5}  {:>5}  {sel:>3}  {}", seen.level, seen.lines)
        }
        (_, Ok(answer)) => answer.to_string(),
        (_, Err(bytes)) => format!("{bytes:02X?}"),
    };
    out.push_str(&format!("{:>8}  {:>10}", at.item, at.offset));
    if of_text {
        let line = at.line.map_or("-".to_string(), |line| line.to_string());
        out.push_str(&format!("  {line:>6}"));
    }
    out.push_str(&format!("  {:>13}  {record:<30} {seen}\n", at.via_ticks));
}

/// A record in the text form; its first bytes where it is no item.
pub fn record(piece: Piece<'_>) -> String {
    Timed::try_from(piece).map_or_else(|_| raw(piece.as_ref()), shown)
}

/// Values of an MW that are all shown.
const VALUES_SHOWN: usize = 3;

fn shown(timed: Timed) -> String {
    match timed.item {
        Item::WriteMany(address, values) if values.len() > VALUES_SHOWN => {
            let (name, first, count) = (address.name(), values[0], values.len());
            format!("{} MW {name} ${first:02X} .. ({count})", timed.wait)
        }
        _ => timed.to_string(),
    }
}

fn raw(bytes: &[u8]) -> String {
    let shown: Vec<String> = bytes.iter().take(8).map(|byte| format!("{byte:02X}")).collect();
    format!("RAW {}{}", shown.join(" "), if bytes.len() > 8 { " .." } else { "" })
}
