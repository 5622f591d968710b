//! The clock's three wires alone, as a logic analyser would have written them.
//!
//! Times are in steps of 100 nanoseconds, from the VIA ticks waited, rounded down: a viewer that makes
//! a sample of each step, as sigrok does, then has 10,000,000 a second. Changes with no wait between
//! them are a step apart, so that their order shows; where 13 or more come in one VIA tick, what
//! follows is late by that much.

use crate::vcd::save_head;
use crate::{Timed, WaitTicks, Wires, TICKS_PER_SECOND};
use std::io::{self, Write};

/// Steps of 100 nanoseconds in a second.
const STEPS_PER_SECOND: u64 = 10_000_000;

/// The wires, in the order of the columns, and of the dump's variables `!`, `"` and `#`.
pub const WIRES: [&str; 3] = ["enable", "data_clock", "data"];

/// The items that one stands for where the wires are compared, one after the other: done in its place
/// they leave the same state.
pub fn wire_steps(timed: Timed) -> impl Iterator<Item = Timed> {
    timed.singles()
}

/// How the wires are written.
#[derive(Clone, Copy, Debug, PartialEq, Eq)]
pub enum WireForm {
    /// As a Value Change Dump.
    Vcd,
    /// As comma-separated values, a row for each change, with its time in nanoseconds.
    Csv,
}

/// Writes the wires over time.
///
/// ```
/// use swarmtempo::{WireDump, WireForm, Wires, WaitTicks};
///
/// let up = Wires { enable: true, data_clock: true, data: true };
/// let mut dump = WireDump::new(Vec::new(), WireForm::Csv, up)?;
/// dump.item(WaitTicks(12), Wires { enable: false, ..up })?;
/// let text = String::from_utf8(dump.finish()?).expect("text");
/// assert_eq!(text, "Time [ns],enable,data_clock,data\n0,1,1,1\n15300,0,1,1\n15400,0,1,1\n");
/// # Ok::<(), std::io::Error>(())
/// ```
pub struct WireDump<W> {
    out: W,
    form: WireForm,
    shown: Wires,
    /// VIA ticks passed.
    ticks: u64,
    /// The step of the last change.
    step: u64,
}

impl<W: Write> WireDump<W> {
    /// Begins with the wires before the first item.
    ///
    /// # Errors
    /// Those of the output, here as below.
    pub fn new(mut out: W, form: WireForm, start: Wires) -> io::Result<WireDump<W>> {
        match form {
            WireForm::Csv => {
                out.write_all(format!("Time [ns],{}\n", WIRES.join(",")).as_bytes())?;
            }
            WireForm::Vcd => out.write_all(head().as_bytes())?,
        }
        let mut dump = WireDump { out, form, shown: start, ticks: 0, step: 0 };
        match form {
            WireForm::Csv => dump.row()?,
            WireForm::Vcd => {
                dump.out.write_all(b"#0\n$dumpvars\n")?;
                dump.changes([true; 3])?;
                dump.out.write_all(b"$end\n")?;
            }
        }
        Ok(dump)
    }

    /// After an item that was carried out, and is one of [`wire_steps`]: its wait, and the wires then.
    ///
    /// # Errors
    /// Those of the output.
    pub fn item(&mut self, wait: WaitTicks, after: Wires) -> io::Result<()> {
        self.ticks += u64::from(wait.0);
        let changed = [
            self.shown.enable != after.enable,
            self.shown.data_clock != after.data_clock,
            self.shown.data != after.data,
        ];
        if changed == [false; 3] {
            return Ok(());
        }
        self.step = self.reached();
        self.shown = after;
        match self.form {
            WireForm::Csv => self.row(),
            WireForm::Vcd => {
                self.out.write_all(format!("#{}\n", self.step).as_bytes())?;
                self.changes(changed)
            }
        }
    }

    /// Where the dump ends, in steps of 100 nanoseconds.
    pub fn end(&self) -> u64 {
        self.reached()
    }

    /// The end of the list. The output is given back, flushed.
    ///
    /// # Errors
    /// Those of the output.
    pub fn finish(mut self) -> io::Result<W> {
        self.step = self.end();
        match self.form {
            WireForm::Csv => self.row()?,
            WireForm::Vcd => self.out.write_all(format!("#{}\n", self.step).as_bytes())?,
        }
        self.out.flush()?;
        Ok(self.out)
    }

    /// The step of the VIA ticks passed, after that of the last change.
    fn reached(&self) -> u64 {
        let exact =
            u128::from(self.ticks) * u128::from(STEPS_PER_SECOND) / u128::from(TICKS_PER_SECOND);
        u64::try_from(exact).unwrap_or(u64::MAX).max(self.step.saturating_add(1))
    }

    fn levels(&self) -> [u8; 3] {
        [self.shown.enable, self.shown.data_clock, self.shown.data].map(u8::from)
    }

    fn row(&mut self) -> io::Result<()> {
        let [enable, data_clock, data] = self.levels();
        let nanoseconds = u128::from(self.step) * 100;
        self.out.write_all(format!("{nanoseconds},{enable},{data_clock},{data}\n").as_bytes())
    }

    fn changes(&mut self, changed: [bool; 3]) -> io::Result<()> {
        for ((level, code), changed) in self.levels().into_iter().zip(['!', '"', '#']).zip(changed)
        {
            if changed {
                self.out.write_all(format!("{level}{code}\n").as_bytes())?;
            }
        }
        Ok(())
    }
}

/// The head of a dump.
fn head() -> String {
    let mut head = String::from("$version Swarmtempo $end\n");
    head.push_str("$comment The clock's wires; a VIA tick is 12.7655 steps. $end\n");
    head.push_str("$timescale 100 ns $end\n$scope module clock $end\n");
    for (name, code) in WIRES.into_iter().zip(['!', '"', '#']) {
        head.push_str(&format!("$var wire 1 {code} {name} $end\n"));
    }
    head.push_str("$upscope $end\n$enddefinitions $end\n");
    head
}

/// A save file of `GTKWave`, named `save`, for a dump of the wires that stands beside it, named `dump`,
/// and ends at so many steps.
pub fn wire_save_file(dump: &str, save: &str, end: u64) -> String {
    let mut out = save_head(dump, save, end);
    out.push_str("@200\n-clock\n@28\n");
    WIRES.iter().for_each(|name| out.push_str(&format!("clock.{name}\n")));
    out
}
