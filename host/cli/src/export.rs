//! `swarmtempo export`: the clock's wires of a run, as a logic analyser would have written them.

use super::commands::{Command, Flag};
use super::conflicts::Uses;
use super::cut::{list, reads, start};
use super::failure::{failure, Failure};
use super::files::{self, say, Out};
use super::gtkw::{self, SaveFile};
use super::lines::list_failure;
use super::place::{Input, Output};
use super::request::Form;
use super::run::List;
use super::words::Given;
use swarmtempo::{
    pieces, wire_save_file, wire_steps, Chunks, Machine, Refusal, Timed, WaitTicks, WireDump,
    WireForm, Wires, ANSWER_LEN,
};

/// The command.
pub const COMMAND: Command = Command {
    name: "export",
    operand: "CAPTURE",
    brief: "the clock's wires alone, for a logic analyser's programs",
    about: "Runs a capture and writes enable, data-clock and data over time as a Value Change Dump that\n\
            sigrok reads whole, in steps of 100 nanoseconds, or as comma-separated values (--csv, or a FILE\n\
            whose name ends in .csv). Beside a\n\
            dump in a file x.vcd it writes x.gtkw, unless that is there already, by which GTKWave opens\n\
            with the tracks in place. import makes a list of it again, with the same transactions of the clock chip.\n\
            \n\
            Exit status: 1 where a record is cut; what comes before it is written.",
    flags: &[
        Flag {
            name: "-o",
            value: "FILE",
            help: "writes to FILE, which appears whole or not at all (without it: standard output)",
        },
        Flag { name: "--csv", value: "", help: "comma-separated values, a row for each change" },
        Flag { name: "--text", value: "", help: "the capture is in the text form" },
        Flag {
            name: "--records",
            value: "",
            help: "the capture is records even where it looks like a text",
        },
        Flag {
            name: "--cells",
            value: "CELLS",
            help: "the fresh machine's clock chip has so many cells: 20 (without it, too) or 256",
        },
        Flag {
            name: "--image",
            value: "FILE",
            help: "begins with the state of this image, not with the fresh machine",
        },
    ],
};

/// Exports a capture.
pub fn export(given: &Given) -> Result<u8, Failure> {
    let input = Input::of(given.need()?);
    let output = given.value("-o").map_or(Output::standard(), Output::of);
    let named = output
        .path()
        .is_some_and(|path| path.extension().is_some_and(|end| end.eq_ignore_ascii_case("csv")));
    let form = if named || given.flag("--csv") { WireForm::Csv } else { WireForm::Vcd };
    let beside = if form == WireForm::Vcd { gtkw::beside(&output) } else { None };
    let mut uses = Uses::of("export");
    reads(&mut uses, given, std::slice::from_ref(&input)).writes("-o", &output);
    if let Some(beside) = &beside {
        uses.writes("the .gtkw beside -o", beside);
    }
    uses.check()?;
    let machine = start("export", given)?;
    let list = list(&input, Form::of("export", given)?)?;
    let out = Out::text(&output)?;
    let save = if beside.is_some() { SaveFile::open(&output)? } else { None };
    let wrong = |error| failure(&output, error);
    let mut dump = WireDump::new(out, form, machine.state().wires()).map_err(wrong)?;
    let stop = pour(&input, machine, list, |wait, wires| dump.item(wait, wires).map_err(wrong))?;
    let end = dump.end();
    let save = save.map(|save| save.write(|dump, save| wire_save_file(dump, save, end)));
    let out = dump.finish().map_err(wrong)?;
    files::keep([Some(out), save.transpose()?].into_iter().flatten())?;
    if let Some((refusal, offset)) = stop {
        say(&format!("swarmtempo: {input}: {refusal}, at byte {offset}; the rest is not run"));
    }
    Ok(stop.map_or(0, |(refusal, _)| refusal.number()))
}

/// Runs a list item by item, and hands out the wait of each that was carried out, and the wires after
/// it. Where a record is cut: the refusal, and its offset in bytes.
fn pour(
    input: &Input,
    mut machine: Machine,
    list: List,
    mut take: impl FnMut(WaitTicks, Wires) -> Result<(), Failure>,
) -> Result<Option<(Refusal, u64)>, Failure> {
    let mut offset = 0;
    let mut chunks = Chunks::new(list);
    while let Some(chunk) = chunks.next().map_err(|error| list_failure(input, error))? {
        for piece in pieces(chunk) {
            let at = offset;
            offset += piece.as_ref().len() as u64;
            let Ok(timed) = Timed::try_from(piece) else {
                // Refused, whatever the state; a cut record ends the list.
                match machine.run_in(piece.as_ref(), &mut [0; ANSWER_LEN]).stop {
                    None => continue,
                    Some(stop) => return Ok(Some((stop, at))),
                }
            };
            for Timed { wait, item } in wire_steps(timed) {
                if machine.step(wait, item).is_ok() {
                    take(wait, machine.state().wires())?;
                }
            }
        }
        if let List::Text(lines) = chunks.source_mut() {
            lines.forget(u64::MAX);
        }
    }
    Ok(None)
}
