//! `swarmtempo report`: a capture as one page that opens from a disk: waveform, transactions, refusals,
//! the state at the end. It is gathered in fixed memory; the page says what it leaves out.

use super::conflicts::Uses;
use super::cut::{reads, start};
use super::failure::Failure;
use super::fields::{quoted, seconds};
use super::files::{self, Out};
use super::filter::Filter;
use super::numbers::{counted, grouped};
use super::place::{Input, Output};
use super::request::Form;
use super::style::{Style, When};
use super::summarize::Fates;
use super::summary::{End, Summary};
use super::walk::{Step, Walk};
use super::words::Given;
use swarmtempo::{
    describe, table, Decoder, DiskLine, Fate, Lines, Machine, Place, Refusal, State, Transaction,
    Watch, Wires,
};

/// Transactions shown at most; of later ones so many that did not do what they asked.
const TRANSACTIONS_MOST: usize = 2_000;
const TROUBLED_MOST: usize = 500;
/// Changes of the wires and lines drawn at most.
const SAMPLES_MOST: usize = 20_000;
/// Refused records marked in the waveform at most, and listed for each number.
const REFUSED_MOST: usize = 2_000;
const LISTED_MOST: usize = 20;

const STYLE: &str = include_str!("report/page.css");
const SCRIPT: &str = include_str!("report/page.js");

/// Writes the page, and gives the exit status.
pub fn report(given: &Given) -> Result<u8, Failure> {
    let input = Input::of(given.need()?);
    let output = given.value("-o").map_or(Output::standard(), Output::of);
    let form = Form::of("report", given)?;
    let filter = Filter::of("report", given)?;
    let uses = &mut Uses::of("report");
    reads(uses, given, std::slice::from_ref(&input)).writes("-o", &output).check()?;
    let machine = start("report", given)?;
    let mut out = Out::text(&output)?;
    let mut gathered = Gathered::new(&machine, filter);
    let mut decoder = Decoder::new(&machine.state());
    let mut summary = Summary::new(machine.state());
    let mut walk = Walk::new(&input, form, machine, false)?;
    walk.whole(|step| {
        summary.note_at(&step);
        gathered.step(&step, &mut decoder);
        Ok(())
    })?;
    decoder.finish(&mut gathered);
    summary.converted = walk.converted;
    let (stop, consumed, written) = (walk.stop, walk.consumed, walk.written);
    let end = End { stop, consumed, written, state: &walk.machine().state() };
    let words = summary.text(&end, Style::of_output(When::Never));
    let page = Page { input: &input, of_text: form == Form::Text, words, gathered: &gathered };
    out.put(page.text(walk.machine(), walk.stop).as_bytes())?;
    files::keep([out])?;
    Ok(walk.stopped())
}

/// Levels of all that is drawn, in bits: enable, data-clock, data, the eight disk lines, SEL, and the
/// interrupt level in three.
type Mask = u16;

const SEL_BIT: u32 = 11;
const LEVEL_BIT: u32 = 12;

fn of_wires(wires: Wires) -> Mask {
    let [enable, clock, data] = [wires.enable, wires.data_clock, wires.data].map(Mask::from);
    enable | clock << 1 | data << 2
}

fn of_lines(lines: u8, sel: bool, level: u8) -> Mask {
    Mask::from(lines) << 3 | Mask::from(sel) << SEL_BIT | Mask::from(level & 7) << LEVEL_BIT
}

fn of_state(state: &State) -> Mask {
    let Lines(lines) = state.lines;
    of_wires(state.wires()) | of_lines(lines, state.sel(), state.level())
}

/// A record that was refused.
struct Refused {
    at: Place,
    number: u8,
    record: String,
}

/// What the page shows, in fixed memory.
struct Gathered {
    filter: Filter,
    /// All transactions by their fates, in the whole capture.
    fates: Fates,
    shown: Vec<Transaction>,
    /// Transactions within the range.
    within: u64,
    samples: Vec<(Place, Mask)>,
    /// Changes within the range that are not drawn.
    undrawn: u64,
    mask: Mask,
    refused: Vec<Refused>,
    /// Refusals within the range, by number.
    refusals: [u64; 16],
    /// The last place, and the last one within the range.
    at: Place,
    last: Place,
}

impl Gathered {
    fn new(machine: &Machine, filter: Filter) -> Gathered {
        Gathered {
            filter,
            fates: Fates::default(),
            shown: Vec::new(),
            within: 0,
            samples: Vec::new(),
            undrawn: 0,
            mask: of_state(&machine.state()),
            refused: Vec::new(),
            refusals: [0; 16],
            at: Place::default(),
            last: Place::default(),
        }
    }

    fn step(&mut self, step: &Step<'_>, decoder: &mut Decoder) {
        let inside = self.filter.within(&step.at, &step.at);
        if inside && self.samples.is_empty() {
            // The levels before the first record of the range.
            self.samples.push((self.at, self.mask));
        }
        decoder.record(step.at, step.piece, step.answer, self);
        let [_, _, kind, letter, number, level, lines, sel] = *step.answer;
        if [kind, letter] == *b"OK" {
            let mask = of_wires(decoder.wires()) | of_lines(lines, sel != 0, level);
            self.sample(step.at, mask);
        } else if inside {
            self.refuse(step, number);
        }
        self.at = step.at;
        if inside {
            self.last = step.at;
        }
    }

    fn sample(&mut self, at: Place, mask: Mask) {
        if self.mask == mask {
            return;
        }
        self.mask = mask;
        if !self.filter.within(&at, &at) {
            return;
        }
        if self.samples.len() < SAMPLES_MOST {
            self.samples.push((at, mask));
        } else {
            self.undrawn += 1;
        }
    }

    fn refuse(&mut self, step: &Step<'_>, number: u8) {
        let count = &mut self.refusals[usize::from(number & 15)];
        *count += 1;
        let listed = *count <= LISTED_MOST as u64;
        if self.refused.len() < REFUSED_MOST || listed {
            let record = if listed { table::record(step.piece) } else { String::new() };
            self.refused.push(Refused { at: step.at, number, record });
        }
    }
}

/// True where a transaction did not do what it asked, or a program did not see what the chip sent.
fn troubled(it: &Transaction) -> bool {
    match it.fate {
        Fate::Half { .. } => !it.nothing_sent(),
        Fate::Protected { .. } | Fate::Illegal => true,
        Fate::Read { sent, seen, date, .. } => {
            seen.byte() != Some(sent) || date.is_some_and(|date| date.seconds != date.clock)
        }
        Fate::Written { .. } | Fate::Before => false,
    }
}

impl Watch for Gathered {
    fn transaction(&mut self, it: Transaction) {
        self.fates.count(&it);
        if !self.filter.transaction(&it) {
            return;
        }
        self.within += 1;
        let room = self.shown.len() < TRANSACTIONS_MOST;
        if room || troubled(&it) && self.shown.len() < TRANSACTIONS_MOST + TROUBLED_MOST {
            self.shown.push(it);
        }
    }

    fn wires(&mut self, at: Place, wires: Wires) {
        self.sample(at, self.mask & !7 | of_wires(wires));
    }
}

/// A page.
struct Page<'a> {
    input: &'a Input,
    of_text: bool,
    words: String,
    gathered: &'a Gathered,
}

impl Page<'_> {
    fn text(&self, machine: &Machine, stop: Option<Refusal>) -> String {
        let name = escaped(&self.input.to_string());
        let mut out = format!(
            "<!DOCTYPE html>\n<html lang=\"en\">\n<head>\n<meta charset=\"utf-8\">\n\
             <meta name=\"viewport\" content=\"width=device-width, initial-scale=1\">\n\
             <meta name=\"generator\" content=\"swarmtempo {}\">\n\
             <title>{name}: clock and disk lines</title>\n<style>\n{STYLE}</style>\n</head>\n<body>\n",
            env!("CARGO_PKG_VERSION")
        );
        let chip = machine.chip();
        out.push_str(&format!("<h1>{name}</h1>\n<p>Clock chip with {chip}. "));
        out.push_str(&escaped(&self.gathered.fates.words()));
        out.push_str(
            ". Times are in VIA ticks, 783,360 a second, from the start of the capture.</p>\n",
        );
        self.left_out(stop, &mut out);
        out.push_str(WAVEFORM);
        self.transactions(&mut out);
        self.refusals(&mut out);
        out.push_str("<h2>Summary</h2>\n<pre>");
        out.push_str(&escaped(&self.words));
        out.push_str("</pre>\n<h2>State at the end</h2>\n<pre>");
        out.push_str(&escaped(&describe::image(machine)));
        out.push_str("</pre>\n");
        out.push_str(GLOSSARY);
        out.push_str("<script type=\"application/json\" id=\"data\">");
        self.data(&mut out);
        out.push_str(&format!("</script>\n<script>\n{SCRIPT}</script>\n</body>\n</html>\n"));
        out
    }

    /// What the page does not have.
    fn left_out(&self, stop: Option<Refusal>, out: &mut String) {
        let all = self.gathered;
        let mut lines = Vec::new();
        if let Some(stop) = stop {
            lines.push(format!("The capture ends amid a record ({stop}): the rest was not run."));
        }
        if all.filter.some() {
            let (inside, whole) = (grouped(all.within), grouped(all.fates.all));
            lines.push(format!(
                "Only a part was asked for: {inside} of {whole} transactions. The summary and the state \
                 at the end are those of the whole capture."
            ));
        }
        if all.within > all.shown.len() as u64 {
            lines.push(format!(
                "Of {} the first {} are shown, and of later ones the first {} that did not do what they \
                 asked. <code>swarmtempo decode</code> shows all; <code>report --from</code> begins later.",
                counted(all.within, "transaction"),
                grouped(TRANSACTIONS_MOST as u64),
                grouped(TROUBLED_MOST as u64),
            ));
        }
        if all.undrawn > 0 {
            let end = all.samples.last().map_or(0, |(at, _)| at.item);
            lines.push(format!(
                "The waveform ends at item {}: {} after it are not drawn. <code>report --from item:{}</code> \
                 draws on from there.",
                grouped(end),
                counted(all.undrawn, "change"),
                end
            ));
        }
        let refused: u64 = all.refusals.iter().sum();
        if refused > all.refused.len() as u64 {
            let (all, marked) = (counted(refused, "refused record"), grouped(REFUSED_MOST as u64));
            lines.push(format!("Of {all} the first {marked} are marked in the waveform."));
        }
        if !lines.is_empty() {
            let lines = lines.join("</p>\n<p>");
            out.push_str(&format!("<div class=\"left\" id=\"left\"><p>{lines}</p></div>\n"));
        }
    }

    fn transactions(&self, out: &mut String) {
        out.push_str("<h2>Clock transactions</h2>\n");
        if self.gathered.shown.is_empty() {
            out.push_str("<p>None.</p>\n");
            return;
        }
        out.push_str(
            "<p class=\"screen\"><label>Show rows with <input id=\"find\" type=\"search\" \
             placeholder=\"half sent, cell 3, ..\"></label></p>\n<table>\n<thead><tr><th class=\"n\">No.</th>\
             <th class=\"n\">VIA ticks</th><th class=\"n\">seconds</th><th class=\"n\">item</th>\
             <th class=\"n\">offset (bytes)</th>",
        );
        if self.of_text {
            out.push_str("<th class=\"n\">line</th>");
        }
        out.push_str("<th>asked</th><th>byte</th><th>fate</th></tr></thead>\n<tbody>\n");
        for it in &self.gathered.shown {
            self.transaction(it, out);
        }
        out.push_str("</tbody>\n</table>\n");
    }

    fn transaction(&self, it: &Transaction, out: &mut String) {
        let Place { item, offset, line, via_ticks } = it.start;
        let bad = if troubled(it) { " bad" } else { "" };
        out.push_str(&format!(
            "<tr class=\"t {}{bad}\" id=\"t{}\"><td class=\"n\">{1}</td><td class=\"n\">{}</td>\
             <td class=\"n\">{}</td><td class=\"n\">{}</td><td class=\"n\">{}</td>",
            it.fate_name(),
            it.number,
            grouped(via_ticks),
            seconds(via_ticks),
            grouped(item),
            grouped(offset)
        ));
        if self.of_text {
            let line = line.map_or("-".into(), grouped);
            out.push_str(&format!("<td class=\"n\">{line}</td>"));
        }
        out.push_str(&format!(
            "<td>{}</td><td class=\"b\">{}</td><td class=\"f\">{}</td></tr>\n",
            escaped(&it.asked.to_string()),
            escaped(&it.byte()),
            escaped(&it.fate_words())
        ));
    }

    fn refusals(&self, out: &mut String) {
        out.push_str("<h2>Refusals</h2>\n");
        if self.gathered.refusals.iter().all(|&count| count == 0) {
            out.push_str("<p>No record was refused.</p>\n");
            return;
        }
        for refusal in Refusal::ALL {
            if self.gathered.refusals[usize::from(refusal.number() & 15)] > 0 {
                self.refusal(refusal, out);
            }
        }
    }

    /// The records refused with one number, what that means and what to do.
    fn refusal(&self, refusal: Refusal, out: &mut String) {
        let number = refusal.number();
        let count = self.gathered.refusals[usize::from(number & 15)];
        let (meaning, advice) = guide(refusal);
        out.push_str(&format!(
            "<h3 id=\"no{number}\">NO {number}: {refusal} ({})</h3>\n<p>{meaning}</p>\n\
             <p><b>What to do:</b> {advice}</p>\n<table><thead><tr><th class=\"n\">item</th>\
             <th class=\"n\">offset (bytes)</th><th class=\"n\">line</th><th class=\"n\">VIA ticks</th>\
             <th>record</th></tr></thead><tbody>\n",
            counted(count, "record")
        ));
        let listed = self.gathered.refused.iter().filter(|it| it.number == number);
        for it in listed.take(LISTED_MOST) {
            let Place { item, offset, line, via_ticks } = it.at;
            let line = line.map_or("-".into(), grouped);
            let cells = [grouped(item), grouped(offset), line, grouped(via_ticks)];
            let cells = cells.map(|cell| format!("<td class=\"n\">{cell}</td>")).concat();
            let record = escaped(&it.record);
            out.push_str(&format!("<tr>{cells}<td class=\"b\">{record}</td></tr>\n"));
        }
        out.push_str("</tbody></table>\n");
        if count > LISTED_MOST as u64 {
            let more = grouped(count - LISTED_MOST as u64);
            out.push_str(&format!(
                "<p>And {more} more: <code>swarmtempo run --refused</code> shows all.</p>\n"
            ));
        }
    }

    /// What the script draws.
    fn data(&self, out: &mut String) {
        let all = self.gathered;
        let lines = DiskLine::ALL.map(DiskLine::name);
        let names = ["enable", "data-clock", "data"].into_iter().chain(lines).chain(["SEL"]);
        let tracks = names.zip(0..).map(|(name, bit)| (name, bit, 1));
        out.push_str("{\"tracks\":[");
        for (i, (name, bit, most)) in tracks.chain([("level", LEVEL_BIT, 7)]).enumerate() {
            let comma = if i > 0 { "," } else { "" };
            out.push_str(&format!("{comma}{{\"name\":\"{name}\",\"bit\":{bit},\"most\":{most}}}"));
        }
        let end = if all.undrawn > 0 { all.samples.last().map(|(at, _)| *at) } else { None };
        let end = end.unwrap_or(all.last);
        out.push_str(&format!("],\"end_item\":{},\"end_tick\":{}", end.item, end.via_ticks));
        deltas("items", all.samples.iter().map(|(at, _)| at.item), out);
        deltas("ticks", all.samples.iter().map(|(at, _)| at.via_ticks), out);
        let masks: Vec<String> = all.samples.iter().map(|(_, mask)| mask.to_string()).collect();
        out.push_str(&format!(",\"masks\":[{}],\"transactions\":[", masks.join(",")));
        for (i, it) in all.shown.iter().enumerate() {
            if i > 0 {
                out.push(',');
            }
            drawn(it, &all.at, out);
        }
        out.push_str("],\"refused\":[");
        for (i, it) in all.refused.iter().take(REFUSED_MOST).enumerate() {
            let comma = if i > 0 { "," } else { "" };
            let (number, item, tick) = (it.number, it.at.item, it.at.via_ticks);
            out.push_str(&format!(
                "{comma}{{\"number\":{number},\"item\":{item},\"tick\":{tick}}}"
            ));
        }
        out.push_str("]}");
    }
}

/// A transaction as the script takes it. One that is open lasts to the end.
fn drawn(it: &Transaction, last: &Place, out: &mut String) {
    let end = it.end.as_ref().unwrap_or(last);
    out.push_str(&format!(
        "{{\"number\":{},\"start_item\":{},\"end_item\":{},\"start_tick\":{},\"end_tick\":{},\"bad\":{},\"label\":",
        it.number,
        it.start.item,
        end.item,
        it.start.via_ticks,
        end.via_ticks,
        troubled(it)
    ));
    let label = match it.fate {
        Fate::Written { byte, .. } => format!("{} = ${byte:02X}", it.asked),
        Fate::Read { .. } => format!("{} = {}", it.asked, it.byte()),
        Fate::Protected { .. } => format!("{}: kept out", it.asked),
        Fate::Half { .. } if it.not_ended() => format!("{}: not ended", it.asked),
        Fate::Half { .. } if it.nothing_sent() => "nothing sent".to_string(),
        Fate::Half { .. } => format!("{}: half sent", it.asked),
        Fate::Illegal | Fate::Before => it.asked.to_string(),
    };
    quoted(&label, out);
    out.push_str(",\"words\":");
    quoted(&it.to_string(), out);
    out.push('}');
}

/// Numbers that never fall, each as what it is more than the one before.
fn deltas(name: &str, numbers: impl Iterator<Item = u64>, out: &mut String) {
    out.push_str(&format!(",\"{name}\":["));
    let mut before = 0;
    for (i, number) in numbers.enumerate() {
        if i > 0 {
            out.push(',');
        }
        out.push_str(&(number - before).to_string());
        before = number;
    }
    out.push(']');
}

/// A text within a page.
fn escaped(text: &str) -> String {
    let mut out = String::new();
    for c in text.chars() {
        match c {
            '&' => out.push_str("&amp;"),
            '<' => out.push_str("&lt;"),
            '>' => out.push_str("&gt;"),
            '"' => out.push_str("&quot;"),
            _ => out.push(c),
        }
    }
    out
}

/// What a refusal means, and what to do.
fn guide(refusal: Refusal) -> (&'static str, &'static str) {
    match refusal {
        Refusal::Cut => (
            "The capture ends in the middle of a record, or a length is below 2. The run stopped there.",
            "Look whether the capture was copied whole. What comes before the place is good: \
             <code>swarmtempo cut CAPTURE --good --out PREFIX</code> keeps it.",
        ),
        Refusal::Kind => (
            "The two letters of the record are no kind of item.",
            "Look whether the capture comes from a newer logger, or is damaged there. The record did nothing.",
        ),
        Refusal::Length => (
            "The record is shorter or longer than its kind has.",
            "The logger wrote it wrong, or the capture is damaged there. The record did nothing.",
        ),
        Refusal::Address => (
            "The address is none of the 32 of the VIA and the IWM.",
            "The program reached another part of the machine, or the logger has another map of addresses. \
             The record did nothing; if it should have reached the clock, bits are missing there.",
        ),
        Refusal::Range => (
            "A line, drive, register or level is out of its range.",
            "Look at the record's values; docs/FORMATS.md has the ranges. The record did nothing.",
        ),
        Refusal::Room => ("There was no room for an answer.", "Give more room, or none in particular."),
        Refusal::State => (
            "The image given is none of an accepted state.",
            "Save the image again; <code>swarmtempo image</code> names its first wrong field.",
        ),
        Refusal::Disk => (
            "A disk was put in where one is, or taken out where none is.",
            "A DI before it is missing or doubled in the capture, or the capture began on another state: \
             give that by <code>--image</code>.",
        ),
        Refusal::Retired => (
            "SN on a register that the drive has itself.",
            "This is a capture from before the drives were modelled: turn it over by <code>swarmtempo \
             convert</code>.",
        ),
        _ => (
            "This version of the page has no more to say of it.",
            "docs/FORMATS.md has all refusals. The record did nothing.",
        ),
    }
}

/// Above the table: the waveform, which the script draws.
const WAVEFORM: &str = "<h2>Waveform</h2>\n<div class=\"bar\">\
             <button data-act=\"in\" title=\"key +\">zoom in</button>\
             <button data-act=\"out\" title=\"key -\">zoom out</button>\
             <button data-act=\"all\" title=\"key 0\">all</button>\
             <button data-act=\"left\" title=\"left arrow\">&larr;</button>\
             <button data-act=\"right\" title=\"right arrow\">&rarr;</button>\
             <button data-act=\"before\" title=\"key p\">previous transaction</button>\
             <button data-act=\"after\" title=\"key n\">next transaction</button>\
             <span>across:</span>\
             <button data-mode=\"item\" aria-pressed=\"true\">items</button>\
             <button data-mode=\"time\" aria-pressed=\"false\">VIA ticks</button></div>\n\
             <div id=\"whole\" title=\"the whole capture; click to move\"><div id=\"part\"></div></div>\n\
             <svg id=\"wave\" viewBox=\"0 0 1200 440\" role=\"img\" aria-label=\"levels of the clock's wires \
             and the disk lines\"><text x=\"20\" y=\"40\">The waveform is drawn by a script, which is turned \
             off here. All else on this page is text.</text></svg>\n\
             <div id=\"seen\">Move over the waveform to see the levels; turn the wheel to zoom, drag to move.\n\
             A click on a transaction, here or in the table, goes there.</div>\n";

/// At its end.
const GLOSSARY: &str = "\
<h2>Words on this page</h2>
<p><b>VIA tick</b>: 1/783,360 of a second, about 1.277 microseconds. <b>Seconds</b> in a table are counted from the
start of the capture; the clock chip's own seconds are counted from 1 January 1904. <b>Transaction</b>: all from a fall of
enable to its next rise. <b>Written</b>: the whole command and its byte came, and the chip took it. <b>Kept out by
protect</b>: they came, and write-protect was set. <b>Half sent</b>: enable went up before the last bit; nothing was
done. <b>Nothing sent</b>: enable went up before the first bit. <b>Not ended</b>: the capture ends before enable went up
and before all bits came. <b>Illegal</b>: the bits are no command; nothing was done. <b>Read</b>: the chip sent a byte; the byte in the table
is what the program saw in port B. A dash in a row of bits is a bit that did not come, or was not read.</p>
";
