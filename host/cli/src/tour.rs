//! `swarmtempo` with no word: a small list is run and explained.

use super::failure::{called, Failure};
use super::files;
use super::numbers::{counted, ticks_and_seconds};
use super::style::{Style, When};
use swarmtempo::describe::date;
use swarmtempo::{answers, pieces, text, Answer, Chip, Item, Machine, Piece};

/// The list. In it `;;` begins a heading, and `;-` the words for the lines without a comment below it,
/// which make one row together.
pub const LIST: &str = include_str!("../../captures/first.txt");

const INTRODUCTION: &str = "\
swarmtempo runs lists of timed bus accesses and input events on the board (VIA, clock chip,
disk lines) and gives an answer to each. This small list was run just now, on a fresh machine.
Time is in VIA ticks, 783,360 a second: a wait of 4t is 4 VIA ticks, and the second column is
the time since the start. Level is the interrupt level that the processor sees.

";
const HEAD: &str = "   items  VIA ticks  record                  value  level  what happens\n";

/// Runs the list, shows it, and names what to do next.
pub fn tour() -> Result<u8, Failure> {
    let style = Style::of_output(When::Auto);
    let mut tour = Tour::new(style);
    tour.out.push_str(INTRODUCTION);
    tour.out.push_str(HEAD);
    for line in LIST.lines() {
        tour.line(line);
    }
    tour.end();
    tour.out.push_str(&next());
    files::print(&tour.out)?;
    Ok(0)
}

struct Tour<'a> {
    style: Style,
    machine: Machine,
    /// Items and VIA ticks so far.
    items: usize,
    ticks: u64,
    /// Words for lines without a comment, and their records.
    words: &'a str,
    records: Vec<u8>,
    out: String,
}

impl<'a> Tour<'a> {
    fn new(style: Style) -> Tour<'a> {
        Tour {
            style,
            machine: Machine::fresh(Chip::First),
            items: 0,
            ticks: 0,
            words: "",
            records: Vec::new(),
            out: String::new(),
        }
    }

    fn line(&mut self, line: &'a str) {
        let (_, comment) = line.split_once(';').unwrap_or((line, ""));
        let mut record = Vec::new();
        // The list is in the form: the tests run it.
        let _ = text::assemble_line(line, &mut record);
        if record.is_empty() || !comment.is_empty() {
            self.row();
        }
        self.records.append(&mut record);
        if let Some(heading) = comment.strip_prefix(';') {
            self.out.push('\n');
            self.out.push_str(&self.style.heading(&format!("{}\n", heading.trim())));
        } else if let Some(words) = comment.strip_prefix('-') {
            self.words = words.trim();
        } else if !comment.is_empty() {
            self.words = comment.trim();
            self.row();
        }
    }

    /// A row for the records gathered.
    fn row(&mut self) {
        let records = std::mem::take(&mut self.records);
        if records.is_empty() {
            return;
        }
        let mut bytes = Vec::new();
        self.machine.run(&records, &mut bytes);
        let items: Vec<(u16, Item)> = pieces(&records).filter_map(read).collect();
        let answers: Vec<Answer> = answers(&bytes).collect();
        let (mut values, mut level, mut refusal) = (Vec::new(), 0, None);
        for ((wait, item), answer) in items.iter().zip(&answers) {
            match *answer {
                Answer::Ok(seen) => {
                    self.ticks += u64::from(*wait);
                    level = seen.level;
                    values.extend(matches!(item, Item::Read(_)).then_some(seen.value));
                }
                Answer::No(why) => refusal = Some(why),
            }
        }
        let first = self.items + 1;
        self.items += items.len();
        let (number, record) = match items[..] {
            [(wait, item)] => (first.to_string(), text::item(swarmtempo::WaitTicks(wait), &item)),
            _ => (format!("{first} to {}", self.items), format!("{} items", items.len())),
        };
        let (value, words) = shown(&values, self.words);
        let (value, level) = match refusal {
            None => (value, level.to_string()),
            Some(why) => (format!("NO {}", why.number()), "-".to_string()),
        };
        let ticks = self.ticks;
        let row =
            format!("{number:>8} {ticks:>10}  {record:<22} {value:>6}  {level:>5}  {words}\n");
        let row = if refusal.is_some() { self.style.refused(&row) } else { row };
        self.out.push_str(&row);
    }

    fn end(&mut self) {
        self.row();
        let state = self.machine.state();
        self.out.push_str(&format!(
            "\nIn all {}. Cell 0 of the clock chip holds ${:02X}; its clock shows\n{} ({}).\n",
            ticks_and_seconds(self.ticks),
            state.cells[0],
            counted(state.seconds.0.into(), "second"),
            date(state.seconds.0)
        ));
    }
}

fn read(piece: Piece<'_>) -> Option<(u16, Item)> {
    match piece {
        Piece::Record(record) => Item::read(&record[2..]).ok().map(|(wait, item)| (wait.0, item)),
        Piece::Rest(_) => None,
    }
}

/// The value read, and the words; those of eight values have their lowest bits as a byte.
fn shown(values: &[u8], words: &str) -> (String, String) {
    match values {
        [] => ("-".into(), words.into()),
        [value] => (format!("${value:02X}"), words.into()),
        _ => {
            let byte = values.iter().fold(0, |byte: u8, value| byte << 1 | value & 1);
            let bits: String = values.iter().map(|value| char::from(b'0' + (value & 1))).collect();
            ("..".into(), format!("{words}: {bits}, ${byte:02X}"))
        }
    }
}

/// What to do next.
fn next() -> String {
    let mut out = String::from("\nNext:\n");
    for (words, what) in [
        ("sample -o first.txt", "writes this list as text, to be changed"),
        ("run --text first.txt", "runs it: a row for each item, a summary"),
        ("run --text first.txt --save end.st", "and keeps the state reached"),
        ("image end.st", "shows that state in words"),
        ("decode --text first.txt", "what the clock chip was asked, and what became of it"),
        ("report --text first.txt -o first.html", "a page of it, with the waveform"),
        ("run --text first.txt --quiet --vcd first.vcd", "draws the wires, for GTKWave"),
        ("help", "all commands and the text form"),
    ] {
        let command = format!("{} {words}", called());
        out.push_str(&format!("  {command:<56} {what}\n"));
    }
    out
}
