//! Levels of the three signals, as a file gives them one after the other.

use super::reader::WaveError;
use super::Told;
use swarmtempo::{Wires, WIRES};

/// The levels so far; none where a signal has had none yet.
#[derive(Clone, Copy, Default)]
pub struct Levels([Option<bool>; 3]);

impl Levels {
    /// A signal's level by its letter: 0, 1, z (undriven, which is 1), or x, which is nothing before
    /// the first level and wrong after it.
    pub fn set(
        &mut self,
        signal: usize,
        letter: u8,
        line: u64,
        column: usize,
        told: &mut Told,
    ) -> Result<(), WaveError> {
        let level = match letter {
            b'0' => false,
            b'1' => true,
            b'z' | b'Z' => {
                if told.undriven == 0 {
                    told.undriven_line = line;
                }
                told.undriven += 1;
                true
            }
            b'x' | b'X' if self.0[signal].is_none() => return Ok(()),
            b'x' | b'X' => {
                let message = format!("{} has an unknown level here, x", WIRES[signal]);
                return Err(WaveError::Line { line, column, message });
            }
            _ => {
                let message = format!("{} needs the level 0 or 1", WIRES[signal]);
                return Err(WaveError::Line { line, column, message });
            }
        };
        self.0[signal] = Some(level);
        Ok(())
    }

    /// The wires; those without a level are 1, as undriven lines are.
    pub fn wires(self) -> Wires {
        let [enable, data_clock, data] = self.0.map(|level| level.unwrap_or(true));
        Wires { enable, data_clock, data }
    }

    /// Tells of the signals without a level.
    pub fn tell(self, told: &mut Told) {
        let unknown = WIRES.into_iter().zip(self.0).filter(|(_, level)| level.is_none());
        told.unknown = unknown.map(|(name, _)| name).collect();
    }
}
