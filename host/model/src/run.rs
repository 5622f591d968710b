//! A run over a list.

use crate::items::decode;
use crate::machine::Machine;
use crate::refusal;

/// How a run ended.
#[derive(Clone, Copy, Debug, PartialEq, Eq)]
pub struct Run {
    /// 0 at the end of the list, else 1, 6 or 7.
    pub stop: u8,
    /// Bytes of the list.
    pub consumed: usize,
    /// Bytes of the answers.
    pub written: usize,
}

/// The first record of a list that has bytes left, without its length; none where it is cut.
pub fn frame(list: &[u8]) -> Option<&[u8]> {
    let length = usize::from(u16::from_le_bytes([*list.first()?, *list.get(1)?]));
    if length < 2 {
        return None;
    }
    list.get(2..2 + length)
}

fn refused(number: u8) -> [u8; 8] {
    [6, 0, b'N', b'O', number, 0, 0, 0]
}

impl Machine {
    /// The answer to a record, given without its length.
    fn answer(&mut self, record: &[u8]) -> [u8; 8] {
        let decoded = decode(record);
        let allowed = decoded.and_then(|(wait, item)| match self.refuses(&item) {
            Some(number) => Err(number),
            None => Ok((wait, item)),
        });
        match allowed {
            Ok((wait, item)) => {
                let value = self.step(wait, &item);
                [6, 0, b'O', b'K', value, self.level(), self.lines, u8::from(self.sel())]
            }
            Err(number) => refused(number),
        }
    }

    /// Runs a list on an accepted state.
    pub fn run(&mut self, list: &[u8], answers: &mut [u8]) -> Run {
        let mut consumed = 0;
        let mut written = 0;
        let stop = loop {
            let rest = &list[consumed..];
            if rest.is_empty() {
                break 0;
            }
            let Some(room) = answers[written..].first_chunk_mut::<8>() else {
                break refusal::ROOM;
            };
            written += 8;
            let Some(record) = frame(rest) else {
                *room = refused(refusal::CUT);
                break refusal::CUT;
            };
            *room = self.answer(record);
            consumed += 2 + record.len();
        };
        Run { stop, consumed, written }
    }
}
