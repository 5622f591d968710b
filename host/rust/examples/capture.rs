//! A reader of captures: runs each on a fresh machine, in fixed memory, and says what it had.
//!
//! ```sh
//! cargo run --example capture -- captures/cell.txt capture.bin
//! ```
//!
//! A file whose name ends in `.txt` is in the text form, any other has records.

use std::collections::BTreeMap;
use std::error::Error;
use std::fs::{read_to_string, File};
use std::io::{Cursor, Read};
use std::path::Path;
use swarmtempo::{Chip, Chunks, List, Machine, Refusal, TICKS_PER_SECOND};

/// What a capture had.
#[derive(Default)]
struct Counts {
    kinds: BTreeMap<[u8; 2], u64>,
    /// How often each refusal came, and where first, in bytes from the start.
    refusals: BTreeMap<u8, (u64, u64)>,
    /// VIA ticks of the items done.
    ticks: u64,
    /// Bytes gone through.
    offset: u64,
    stop: Option<Refusal>,
}

impl Counts {
    fn read(&mut self, machine: &mut Machine, capture: impl Read) -> Result<(), Box<dyn Error>> {
        let mut chunks = Chunks::new(capture);
        while let (None, Some(chunk)) = (self.stop, chunks.next()?) {
            let transcript = machine.run_items(chunk);
            for done in &transcript {
                match (done.item, done.answer.result()) {
                    (Ok(timed), Ok(_)) => {
                        *self.kinds.entry(*timed.item.kind()).or_default() += 1;
                        self.ticks += u64::from(timed.wait.0);
                    }
                    (_, Err(refusal)) => {
                        let first = (0, self.offset);
                        self.refusals.entry(refusal.number()).or_insert(first).0 += 1;
                    }
                    (Err(refusal), Ok(_)) => unreachable!("done, though {refusal}"),
                }
                self.offset += done.record.len() as u64;
            }
            self.stop = transcript.run().stop;
        }
        Ok(())
    }
}

fn main() -> Result<(), Box<dyn Error>> {
    for name in std::env::args().skip(1) {
        let mut machine = Machine::fresh(Chip::First);
        let mut counts = Counts::default();
        let text = Path::new(&name).extension().is_some_and(|end| end == "txt");
        if text {
            let list: List = read_to_string(&name)?.parse()?;
            counts.read(&mut machine, Cursor::new(list))?;
        } else {
            counts.read(&mut machine, File::open(&name)?)?;
        }
        println!("{name}");
        for (kind, count) in &counts.kinds {
            println!("  {} {count}", String::from_utf8_lossy(kind));
        }
        for (&number, (count, first)) in &counts.refusals {
            let refusal = Refusal::try_from(number)?;
            println!("  NO {number} {count} ({refusal}), first at byte {first}");
        }
        let (whole, rest) = (
            counts.ticks / u64::from(TICKS_PER_SECOND),
            counts.ticks % u64::from(TICKS_PER_SECOND),
        );
        println!("  {} VIA ticks: {whole} seconds and {rest} VIA ticks", counts.ticks);
        let state = machine.state();
        let protect = if state.protect { "set" } else { "clear" };
        println!("  clock at the end: {:#}, protect {protect}", state.seconds);
        println!("  {}", counts.stop.map_or("end of the list".into(), |stop| stop.to_string()));
    }
    Ok(())
}
