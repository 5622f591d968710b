//! Records to text.

use crate::{pieces, Item, Piece, Refusal, WaitTicks};

/// Bytes on a `RAW` line at most.
const RAW_WIDTH: usize = 32;

/// An item in the text form, without a line end.
pub fn item(wait: WaitTicks, item: &Item) -> String {
    let kind = item.kind().map(char::from);
    let head = format!("{}t {}{}", wait.0, kind[0], kind[1]);
    match *item {
        Item::Read(address) => format!("{head} {}", address.name()),
        Item::Write(address, value) => format!("{head} {} ${value:02X}", address.name()),
        Item::WriteMany(address, values) => {
            let values: Vec<String> = values.iter().map(|value| format!("${value:02X}")).collect();
            format!("{head} {} {}", address.name(), values.join(" "))
        }
        Item::Blank | Item::Second | Item::Reset => head,
        Item::In(line, level) => format!("{head} {} {}", line.number(), u8::from(level)),
        Item::Sense(drive, register, level) => {
            format!("{head} {} {} {}", drive.name(), register.number(), u8::from(level))
        }
        Item::Disk { drive, insert, locked, double_sided } => {
            let [insert, locked, sides] = [insert, locked, double_sided].map(u8::from);
            format!("{head} {} {insert} {locked} {sides}", drive.name())
        }
        Item::Pulse(level) => format!("{head} {}", u8::from(level)),
        Item::Power(seconds) => format!("{head} {}s", seconds.0),
    }
}

/// Appends bytes as `RAW` lines, with a remark on the first.
pub fn raw(bytes: &[u8], remark: &str, out: &mut String) {
    for (i, row) in bytes.chunks(RAW_WIDTH).enumerate() {
        out.push_str("RAW");
        for byte in row {
            out.push_str(&format!(" {byte:02X}"));
        }
        if i == 0 && !remark.is_empty() {
            out.push_str(" ; ");
            out.push_str(remark);
        }
        out.push('\n');
    }
}

/// Appends the text of a piece of a list.
pub fn piece(piece: Piece<'_>, out: &mut String) {
    let remark = |refusal: Refusal| format!("NO {}: {refusal}", refusal.number());
    match piece {
        Piece::Record(record) => match Item::read(&record[2..]) {
            Ok((wait, done)) => {
                out.push_str(&item(wait, &done));
                out.push('\n');
            }
            Err(refusal) => raw(record, &remark(refusal), out),
        },
        Piece::Rest(rest) => raw(rest, &remark(Refusal::Cut), out),
    }
}

/// A list as text. [`assemble`](super::assemble) gives its bytes back.
pub fn disassemble(list: &[u8]) -> String {
    let mut out = String::new();
    pieces(list).for_each(|part| piece(part, &mut out));
    out
}
