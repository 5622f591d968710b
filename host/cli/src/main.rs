//! The command line: commands, their words, and what they exit with. See `swarmtempo help`.

mod assemble;
mod bench;
mod clock;
mod commands;
mod completions;
mod conflicts;
mod contents;
mod convert;
mod cut;
mod decode;
mod diff;
mod draft;
mod export;
mod failure;
mod fields;
mod files;
mod filter;
mod gtkw;
mod help;
mod image;
mod import;
mod jobs;
mod keyboard;
mod lines;
mod manual;
mod numbers;
mod place;
mod progress;
mod report;
mod request;
mod run;
mod sheet;
mod source;
mod states;
mod step;
mod style;
mod summarize;
mod summary;
mod sys;
mod touches;
mod tour;
mod walk;
mod words;

use commands::{COMMANDS, GROUPS};
use failure::{called, Failure};
use files::{print, say, Out};
use place::{Input, Output};
use std::ffi::{OsStr, OsString};
use std::process::ExitCode;
use style::{Style, When};
use swarmtempo::describe;
use words::Given;

const VERSION: &str = concat!("swarmtempo ", env!("CARGO_PKG_VERSION"), "\n");

/// Runs the command of the program's words.
fn main() -> ExitCode {
    match command(std::env::args_os().skip(1).collect()) {
        Ok(status) => ExitCode::from(status),
        Err(failure) => {
            let style = Style::of_errors(When::Auto);
            say(&style.refused(&format!("swarmtempo: {failure}")));
            ExitCode::from(failure.status())
        }
    }
}

fn command(mut words: Vec<OsString>) -> Result<u8, Failure> {
    if words.is_empty() {
        return tour::tour();
    }
    let mut name = words.remove(0);
    if let Some(group) = name.to_str().and_then(commands::group) {
        match words.first() {
            None => {
                let names = group.last_words().join(", ");
                return Err(Failure::usage(
                    group.name,
                    &format!("its command is missing: {names}"),
                ));
            }
            Some(word) if word == "-h" || word == "--help" => {
                return print(&help::of_group(group)).map(|()| 0);
            }
            Some(word) if word == "-V" || word == "--version" => {
                return print(VERSION).map(|()| 0);
            }
            Some(word) => {
                name.push(" ");
                name.push(word);
                words.remove(0);
            }
        }
    }
    let command = match name.to_str() {
        Some("-h" | "--help") => commands::find("help"),
        Some("-V" | "--version") => commands::find("version"),
        Some(name) => commands::find(name),
        None => None,
    };
    let Some(command) = command else {
        return Err(unknown(&name));
    };
    if words::asks(&words, &["-h", "--help"]) {
        return print(&help::of(command)).map(|()| 0);
    }
    if words::asks(&words, &["-V", "--version"]) {
        return print(VERSION).map(|()| 0);
    }
    act(command.name, &Given::parse(command, words)?)
}

fn act(command: &str, given: &Given) -> Result<u8, Failure> {
    match command {
        "run" if jobs::asked(given) => jobs::run(given),
        "run" => run::run(&request::Options::of(given)?),
        "decode" => decode::decode(given),
        "summary" => summarize::summary(given),
        "report" => report::report(given),
        "diff" => diff::diff(given),
        "asm" => assemble::asm(given),
        "disasm" => assemble::disasm(given),
        "convert" => convert::convert(given),
        "cut" => cut::cut(given),
        "join" => cut::join(given),
        "touches" => touches::touches(given),
        "import" => import::import(given),
        "export" => export::export(given),
        "step" => step::step(given),
        "image" => {
            let input = Input::of(given.need()?);
            let rows = fields::Rows::of("image", given)?;
            let machine = image::read(&input, source::open(&input)?)?;
            let mut text = String::new();
            match rows {
                fields::Rows::Words => text = describe::image(&machine),
                fields::Rows::Json => states::fields(&machine).json(&mut text),
                fields::Rows::Csv => states::fields(&machine).csv_pairs(&mut text),
            }
            print(&text).map(|()| 0)
        }
        "clock" => clock::clock(given),
        "keyboard" => keyboard::keyboard(given),
        "sheet get" => sheet::get(given),
        "sheet list" => sheet::list(given),
        "sheet make" => sheet::make(given),
        "sheet compact" => sheet::compact(given),
        "sample" => write(given, tour::LIST),
        "bench" => {
            given.operand()?;
            let records = given.number("--records")?.unwrap_or(200_000).clamp(1, 10_000_000);
            if given.flag("--instructions") {
                bench::instructions(records.min(10_000) as usize).map(|()| 0)
            } else {
                bench::bench(records as usize).map(|()| 0)
            }
        }
        "man" => write(given, &manual::page()),
        "completions" => {
            let shell = given.need()?;
            let text = completions::of(&shell).ok_or_else(|| {
                let names = completions::SHELLS.join(", ");
                Failure::usage("completions", &format!("SHELL is one of {names}"))
            })?;
            given.operand()?;
            to_output(given, &text)
        }
        "version" => {
            given.operand()?;
            print(VERSION).map(|()| 0)
        }
        _ => helped(&given.operands().join(OsStr::new(" "))),
    }
}

/// Help: of all commands where no name is given, else of a command or a group.
fn helped(name: &OsStr) -> Result<u8, Failure> {
    let name = match name.to_str() {
        Some("") => return print(&help::all()).map(|()| 0),
        Some(name) => name,
        None => return Err(unknown(name)),
    };
    match (commands::find(name), commands::group(name)) {
        (Some(command), _) => print(&help::of(command)).map(|()| 0),
        (None, Some(group)) => print(&help::of_group(group)).map(|()| 0),
        (None, None) => Err(unknown(OsStr::new(name))),
    }
}

/// Writes a text to the file of `-o`, and takes no other word.
fn write(given: &Given, text: &str) -> Result<u8, Failure> {
    given.operand()?;
    to_output(given, text)
}

fn to_output(given: &Given, text: &str) -> Result<u8, Failure> {
    let mut out = Out::text(&given.value("-o").map_or(Output::standard(), Output::of))?;
    out.put(text.as_bytes())?;
    files::keep([out]).map(|()| 0)
}

fn unknown(name: &OsStr) -> Failure {
    let name = place::shown(name);
    let names = COMMANDS.iter().map(|command| command.name);
    let near = words::nearest(&name, names.chain(GROUPS.iter().map(|group| group.name)));
    let near = near.map_or(String::new(), |near| format!("; {near} is meant, perhaps"));
    Failure::Usage(format!("unknown command `{name}`{near}; see {} help", called()))
}
