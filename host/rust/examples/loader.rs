//! A loader: writes settings into cells of the clock chip, and the date, reads them back and checks them, and
//! sets write-protect. Where one of them is a cell past 19, the machine has the later chip, of 256 cells.
//! It knows nothing of wires: the library writes the transactions.
//!
//! ```sh
//! cargo run --example loader -- 3=0x41 19=7 255=1
//! ```

use std::error::Error;
use swarmtempo::{Ask, Chip, ClockError, Machine, Seconds};

/// 1 January 2000, in seconds from 1 January 1904.
const DATE: Seconds = Seconds(3_029_529_600);

/// Writes all, with write-protect clear, and sets it.
fn load(machine: &mut Machine, settings: &[(u8, u8)]) -> Result<(), ClockError> {
    machine.protect(false)?;
    for &(cell, value) in settings {
        machine.write_cell(cell, value)?;
    }
    machine.set_seconds(DATE)?;
    machine.protect(true)
}

/// `3=0x41` or `3=65`.
fn setting(word: &str) -> Option<(u8, u8)> {
    let (cell, value) = word.split_once('=')?;
    let cell: u8 = cell.parse().ok()?;
    let value = match value.strip_prefix("0x") {
        Some(digits) => u8::from_str_radix(digits, 16).ok()?,
        None => value.parse().ok()?,
    };
    Some((cell, value))
}

fn main() -> Result<(), Box<dyn Error>> {
    let mut settings = Vec::new();
    for word in std::env::args().skip(1) {
        settings.push(setting(&word).ok_or(format!("a setting is CELL=VALUE, not `{word}`"))?);
    }
    if settings.is_empty() {
        settings.extend([(0, 0xAA), (15, 0x01), (16, 0x7F), (19, 0x80)]);
    }
    let fits = |chip: &Chip| settings.iter().all(|&(cell, _)| usize::from(cell) < chip.cells());
    let chip = Chip::BOTH.into_iter().find(fits).unwrap_or(Chip::Later);
    let mut machine = Machine::fresh(chip);
    load(&mut machine, &settings)?;
    for &(cell, value) in &settings {
        let got = machine.read_cell(cell)?;
        if got != value {
            return Err(format!("cell {cell} holds ${got:02X}, not ${value:02X}").into());
        }
        println!("cell {cell} holds ${got:02X}");
        // Write-protect is set: an error, and nothing is changed.
        assert_eq!(machine.write_cell(cell, !value), Err(ClockError::Protected));
    }
    if machine.seconds()? != DATE {
        return Err("the seconds are others".into());
    }
    // A transaction as items, for a capture.
    let list = machine.transaction(Ask::ReadSeconds(0))?;
    println!("a read of a seconds byte is {} items of no wait", list.iter().count());
    Ok(())
}
