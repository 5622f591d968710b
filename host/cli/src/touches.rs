//! `swarmtempo touches`: what of a capture can touch the clock, and whether two captures agree in it.

use super::conflicts::Uses;
use super::cut::{inputs, list, reads, start};
use super::failure::Failure;
use super::files::{self, print, say, Out};
use super::lines::list_failure;
use super::numbers::counted;
use super::place::{Input, Output};
use super::request::Form;
use super::run::List;
use super::words::Given;
use std::collections::VecDeque;
use swarmtempo::{Chunks, Machine, Refusal, Touched, Touches};

/// Above the rows.
const HEAD: &str = "      offset           VIA ticks  item\n";

/// Shows the touches of one capture, or compares those of two.
pub fn touches(given: &Given) -> Result<u8, Failure> {
    let inputs = inputs(given.one_to(2)?);
    let form = Form::of("touches", given)?;
    reads(&mut Uses::of("touches"), given, &inputs).check()?;
    let machine = start("touches", given)?;
    match &inputs[..] {
        [a, b] => {
            let first = Walk::new(a, form, machine.clone())?;
            compare(first, Walk::new(b, form, machine)?)
        }
        all => all.iter().try_fold(0, |_, one| show(Walk::new(one, form, machine.clone())?)),
    }
}

/// All touches of a capture, and the status that it stops with.
fn show(mut walk: Walk) -> Result<u8, Failure> {
    let mut out = Out::text(&Output::standard())?;
    out.put(HEAD.as_bytes())?;
    while let Some(Touched { offset, via_ticks, touch }) = walk.next()? {
        out.put(format!("{offset:>12}  {via_ticks:>18}  {touch}\n").as_bytes())?;
    }
    files::keep([out])?;
    Ok(walk.stopped())
}

/// Whether two agree: 0, or 1 and where they first part.
fn compare(mut a: Walk, mut b: Walk) -> Result<u8, Failure> {
    let mut same = 0;
    let (ours, theirs) = loop {
        match (a.next()?, b.next()?) {
            (None, None) => {
                a.stopped();
                b.stopped();
                print(&format!("they agree: {} in both\n", counted(same, "item")))?;
                return Ok(0);
            }
            (Some(ours), Some(theirs)) if ours.touch == theirs.touch => same += 1,
            parted => break parted,
        }
    };
    let (before, ours, theirs) = (counted(same, "item"), a.told(ours), b.told(theirs));
    print(&format!("they part after {before}:\n  {ours}\n  {theirs}\n"))?;
    Ok(1)
}

/// A capture that is run, and its touches, in fixed memory.
struct Walk {
    input: Input,
    chunks: Chunks<List>,
    touches: Touches,
    ready: VecDeque<Touched>,
    stop: Option<Refusal>,
}

impl Walk {
    fn new(input: &Input, form: Form, machine: Machine) -> Result<Walk, Failure> {
        Ok(Walk {
            input: input.clone(),
            chunks: Chunks::new(list(input, form)?),
            touches: Touches::new(machine),
            ready: VecDeque::new(),
            stop: None,
        })
    }

    /// The next touch, or none at the end.
    fn next(&mut self) -> Result<Option<Touched>, Failure> {
        while self.ready.is_empty() && self.stop.is_none() {
            let chunk = self.chunks.next().map_err(|error| list_failure(&self.input, error))?;
            let Some(chunk) = chunk else {
                break;
            };
            let ready = &mut self.ready;
            self.stop = self.touches.run(chunk, |touched| ready.push_back(touched)).stop;
            if let List::Text(lines) = self.chunks.source_mut() {
                lines.forget(u64::MAX);
            }
        }
        Ok(self.ready.pop_front())
    }

    /// Says so where the capture is cut; the number that its run stops with.
    fn stopped(&self) -> u8 {
        if let Some(refusal) = self.stop {
            say(&format!("swarmtempo: {}: {refusal}; the rest is not run", self.input));
        }
        self.stop.map_or(0, Refusal::number)
    }

    /// A touch in words, or that there is none left.
    fn told(&self, touched: Option<Touched>) -> String {
        match touched {
            Some(Touched { offset, via_ticks, touch }) => {
                let ticks = counted(via_ticks, "VIA tick");
                format!("{}: at byte {offset}, after {ticks}: {touch}", self.input)
            }
            None => format!("{}: no more", self.input),
        }
    }
}
