//! How fast runs are, beside a plain model of the same board: a list for each kind of item, for
//! refusals, for transactions with the clock chip, for long waits and for a mix, and calls with one
//! item; and the same writes as WR items and as MW items of 64 values.

use super::failure::{failure, Failure};
use super::files::print;
use std::process::Command;
use std::time::{Duration, Instant};
use swarmtempo::{
    Address, Chip, DiskLine, Drive, InLine, Item, List, Machine, Register, Seconds, SenseRegister,
    Timed, Values, WaitTicks, ANSWER_LEN,
};
use swarmtempo_model::run_image;

/// Each list is run so many times, and the quickest counts.
const ROUNDS: usize = 9;

/// The list whose ratio the summary gives by itself.
const MIX: &str = "mix";

/// The list that is run in calls of one item.
const ONE: &str = "one item a call";

/// Lists that write the same values, as WR items and as MW items of 64: what they write to, and their
/// names. A row has the time for each value.
const PAIRS: [(&str, &str, &str); 3] = [
    ("clock", "WR x64 clock", "MW x64 clock"),
    ("latch", "WR x64 latch", "MW x64 latch"),
    ("line", "WR x64 line", "MW x64 line"),
];

/// Names the one list that this process is to run, and who runs it: what `bench --instructions` tells
/// the processes that it counts.
const ONLY: &str = "SWARMTEMPO_BENCH_ONLY";

fn via(register: Register, value: u8) -> Item {
    Item::Write(Address::Via(register), value)
}

fn iwm(line: DiskLine, on: bool) -> Item {
    Item::Read(Address::Iwm(line, on))
}

/// The items that send these bytes to the clock chip, enable low from the first to the last.
fn sent(bytes: &[u8]) -> Vec<Item> {
    let mut items = vec![via(Register::ORB, 4), via(Register::DDRB, 7), via(Register::ORB, 0)];
    for byte in bytes {
        for i in (0..8).rev() {
            let bit = byte >> i & 1;
            items.push(via(Register::ORB, bit));
            items.push(via(Register::ORB, bit | 2));
        }
    }
    items
}

/// A byte written to a cell.
fn written(cell: u8, value: u8) -> Vec<Item> {
    let mut items = sent(&[0x41 | (cell % 16) << 2, value]);
    items.push(via(Register::ORB, 4));
    items
}

/// A cell's byte read: the command, then the data line as an input and eight falls.
fn fetched(cell: u8) -> Vec<Item> {
    let mut items = sent(&[0xC1 | (cell % 16) << 2]);
    items.push(via(Register::DDRB, 6));
    for _ in 0..8 {
        items.push(via(Register::ORB, 0));
        items.push(Item::Read(Address::Via(Register::ORB)));
        items.push(via(Register::ORB, 2));
    }
    items.push(via(Register::ORB, 4));
    items
}

/// LSTRB pulsed for a step of the internal drive.
fn stepped() -> Vec<Item> {
    let mut items = vec![iwm(DiskLine::ENABLE, true), iwm(DiskLine::CA0, true)];
    items.extend([
        iwm(DiskLine::LSTRB, true),
        iwm(DiskLine::LSTRB, false),
        iwm(DiskLine::Q6, true),
    ]);
    items.push(iwm(DiskLine::Q7, false));
    items
}

/// A list of so many records, the items over and over.
fn list(records: usize, wait: u16, items: &[Item]) -> List {
    let mut list = List::new();
    items.iter().cycle().take(records).for_each(|&item| {
        list.push(WaitTicks(wait), item);
    });
    list
}

/// The same after an item that comes once.
fn after(first: Item, records: usize, wait: u16, items: &[Item]) -> List {
    let mut all = list(records.min(1), wait, &[first]);
    all.push_raw(list(records.saturating_sub(1), wait, items).as_bytes());
    all
}

/// So many values to one address after an item that comes once, as WR items and as MW items of 64. The
/// first of 64 comes after 1 VIA tick, the others with no wait.
fn pair(first: Item, records: usize, address: Address, values: &[u8]) -> [List; 2] {
    let [mut single, mut many] = [(); 2].map(|()| list(records.min(1), 1, &[first]));
    let values: Vec<u8> = values.iter().copied().cycle().take(records.saturating_sub(1)).collect();
    for values in values.chunks(Values::MAX).filter_map(Values::new) {
        let timed = Timed { wait: WaitTicks(1), item: Item::WriteMany(address, values) };
        single.extend(timed.singles());
        many.extend([timed]);
    }
    [single, many]
}

/// The lists of [`PAIRS`]: transactions that set cells, a latch, a disk line.
fn pairs(records: usize) -> Vec<(&'static str, List)> {
    let clock: Vec<u8> = (0..16)
        .flat_map(|cell| written(cell, 0x5A ^ cell))
        .filter_map(|item| match item {
            Item::Write(Address::Via(Register::ORB), value) => Some(value),
            _ => None,
        })
        .collect();
    let any = [0x12, 0x34, 0x56];
    let of = |address, values: &[u8]| pair(via(Register::DDRB, 7), records, address, values);
    let lists = [
        of(Address::Via(Register::ORB), &clock),
        of(Address::Via(Register::T1LL), &any),
        of(Address::Iwm(DiskLine::CA0, true), &any),
    ];
    let named = PAIRS.into_iter().zip(lists);
    named.flat_map(|((_, wr, mw), [single, many])| [(wr, single), (mw, many)]).collect()
}

fn raw(records: usize, record: &[u8]) -> List {
    let mut list = List::new();
    (0..records).for_each(|_| {
        list.push_raw(record);
    });
    list
}

fn disk(insert: bool) -> Item {
    Item::Disk { drive: Drive::External, insert, locked: true, double_sided: true }
}

/// Every kind of item, and what is refused.
fn kinds(records: usize) -> Vec<(&'static str, List)> {
    let registers = || Register::ALL.into_iter();
    let reads: Vec<Item> = registers().map(|r| Item::Read(Address::Via(r))).collect();
    let writes: Vec<Item> = registers().map(|r| via(r, 0x5A)).collect();
    let places = || DiskLine::ALL.into_iter().flat_map(|l| [(l, false), (l, true)]);
    let looks: Vec<Item> = places().map(|(l, on)| iwm(l, on)).collect();
    let sets: Vec<Item> = places().map(|(l, on)| Item::Write(Address::Iwm(l, on), 0)).collect();
    let line = InLine::new(3).expect("a line");
    let register = SenseRegister::new(7).expect("a register");
    let sense = [iwm(DiskLine::Q6, true), iwm(DiskLine::ENABLE, true), iwm(DiskLine::Q7, false)];
    let of = |items: &[Item]| list(records, 1, items);
    vec![
        ("RD VIA 0..15", of(&reads)),
        ("RD VIA port B", of(&[Item::Read(Address::Via(Register::ORB))])),
        ("WR VIA 0..15", of(&writes)),
        ("WR VIA port B", of(&[via(Register::ORB, 4), via(Register::ORB, 6)])),
        ("WR VIA port A", of(&[via(Register::ORA, 32), via(Register::ORA, 0)])),
        ("RD IWM 0..15", of(&looks)),
        ("RD IWM sense", of(&sense)),
        ("WR IWM 0..15", of(&sets)),
        ("VB", of(&[Item::Blank])),
        ("SE", of(&[Item::Second])),
        ("IN", of(&[Item::In(line, false), Item::In(line, true)])),
        ("SN", of(&[Item::Sense(Drive::Internal, register, false)])),
        ("RS", of(&[Item::Reset])),
        ("PW", of(&[Item::Power(Seconds(5))])),
        ("DI", of(&[disk(true), disk(false)])),
        ("KC", of(&[Item::Pulse(true)])),
        ("KC in", after(via(Register::ACR, 0x0C), records, 1, &[Item::Pulse(true)])),
        ("KC out", after(via(Register::ACR, 0x1C), records, 1, &[Item::Pulse(false)])),
        ("refused 2", raw(records, &[4, 0, b'X', b'X', 0, 0])),
        ("refused 3", raw(records, &[5, 0, b'S', b'E', 0, 0, 0])),
        ("refused 8", of(&[disk(false)])),
    ]
}

/// What is run: every kind, then what shells do.
fn lists(records: usize) -> Vec<(&'static str, List)> {
    let mut all = kinds(records);
    all.extend(pairs(records));
    let writes: Vec<Item> = (0..16).flat_map(|cell| written(cell, 0x5A ^ cell)).collect();
    let reads: Vec<Item> = (0..16).flat_map(fetched).collect();
    let timers = [
        via(Register::ACR, 0x40),
        via(Register::T1CL, 100),
        via(Register::T1CH, 0),
        Item::Read(Address::Via(Register::IFR)),
        Item::Read(Address::Via(Register::T1CL)),
        Item::Blank,
    ];
    let line = InLine::new(3).expect("a line");
    let register = SenseRegister::new(6).expect("a register");
    let mut mix = writes[..40].to_vec();
    mix.extend(Register::ALL.into_iter().map(|r| Item::Read(Address::Via(r))));
    mix.extend_from_slice(&timers);
    mix.extend(DiskLine::ALL.into_iter().flat_map(|l| [iwm(l, false), iwm(l, true)]));
    mix.extend([Item::In(line, false), Item::Sense(Drive::Internal, register, false)]);
    mix.extend([Item::Second, Item::Power(Seconds(5)), Item::Reset]);
    all.extend([
        ("clock write", list(records, 0, &writes)),
        ("clock read", list(records, 0, &reads)),
        ("waits 65535t", list(records, 65_535, &timers)),
        ("drive steps", list(records, 400, &stepped())),
        (MIX, list(records, 10, &mix)),
        (ONE, list(records, 1, &[Item::Read(Address::Via(Register::IFR))])),
    ]);
    all
}

/// One list run by the library or by the model: a call for the list, or one for each of its records.
struct Run<'a> {
    list: &'a [u8],
    answers: Vec<u8>,
    /// Bytes of the list a call.
    call: usize,
}

impl<'a> Run<'a> {
    fn new(name: &str, list: &'a List, records: usize) -> Run<'a> {
        let bytes = list.as_bytes();
        let call = if name == ONE { bytes.len() / records } else { bytes.len() };
        Run { list: bytes, answers: vec![0; ANSWER_LEN * records], call }
    }

    fn library(&mut self, chip: Chip) {
        let mut machine = Machine::fresh(chip);
        let room = self.answers.len() / (self.list.len() / self.call);
        for (list, answers) in self.list.chunks(self.call).zip(self.answers.chunks_mut(room)) {
            assert!(machine.run_in(list, answers).at_end());
        }
    }

    // A function of its own, so that its instructions can be counted.
    #[inline(never)]
    fn model(&mut self) {
        let mut image = Machine::fresh(Chip::First).image().to_vec();
        let room = self.answers.len() / (self.list.len() / self.call);
        for (list, answers) in self.list.chunks(self.call).zip(self.answers.chunks_mut(room)) {
            assert_eq!(run_image(&mut image, list, answers).stop, 0);
        }
    }
}

fn timed(mut run: impl FnMut()) -> Duration {
    let start = Instant::now();
    run();
    start.elapsed()
}

/// The quickest of several rounds, of the library with 20 cells, of the model, and of the library with
/// 256 cells. They take turns, so that what else the machine does meets all.
fn best(name: &str, list: &List, records: usize) -> [Duration; 3] {
    let [mut first, mut model, mut later] = [(); 3].map(|()| Run::new(name, list, records));
    let mut quickest = [Duration::MAX; 3];
    for _ in 0..ROUNDS {
        quickest[0] = quickest[0].min(timed(|| first.library(Chip::First)));
        quickest[2] = quickest[2].min(timed(|| later.library(Chip::Later)));
        quickest[1] = quickest[1].min(timed(|| model.model()));
    }
    assert_eq!(first.answers, model.answers, "library and model differ on {name}");
    assert_eq!(first.answers, later.answers, "the chips differ on {name}");
    quickest
}

/// A line for scripts: the mix, the worst list of records in one call, and calls of one item.
fn summary(word: &str, digits: usize, ratios: &[(&str, f64)]) -> String {
    let of = |name: &str| ratios.iter().find(|r| r.0 == name).map_or(f64::NAN, |r| r.1);
    let rows = ratios.iter().filter(|r| r.0 != ONE);
    let worst = rows.max_by(|a, b| a.1.total_cmp(&b.1)).copied().unwrap_or(("none", f64::NAN));
    format!(
        "{word} mix={:.digits$} worst={:.digits$} one-item={:.digits$} worst-list=\"{}\"\n",
        of(MIX),
        worst.1,
        of(ONE),
        worst.0
    )
}

/// The library's quickest time for each list of [`PAIRS`], in seconds. The two of a pair take turns.
fn paired(records: usize) -> Vec<(&'static str, f64)> {
    let mut times = Vec::new();
    for lists in pairs(records).as_chunks::<2>().0 {
        let mut runs = lists.each_ref().map(|(name, list)| Run::new(name, list, records));
        let mut quickest = [Duration::MAX; 2];
        for _ in 0..ROUNDS {
            for (run, quickest) in runs.iter_mut().zip(&mut quickest) {
                *quickest = timed(|| run.library(Chip::First)).min(*quickest);
            }
        }
        times.extend(lists.iter().zip(quickest).map(|(list, time)| (list.0, time.as_secs_f64())));
    }
    times
}

/// A line for scripts: of each pair, the library's figure for a value of an MW by that for its WR.
fn by_value(figures: &[(&str, f64)]) -> String {
    let of = |name: &str| figures.iter().find(|r| r.0 == name).map_or(f64::NAN, |r| r.1);
    let ratios = PAIRS.map(|(what, wr, mw)| (what, of(mw) / of(wr)));
    let worst = ratios.iter().map(|r| r.1).fold(f64::NAN, f64::max);
    let shown = ratios.map(|(what, ratio)| format!("{what}={ratio:.2}"));
    format!("values {} worst={worst:.2}\n", shown.join(" "))
}

/// Prints a row for each list, and the summary.
pub fn bench(records: usize) -> Result<(), Failure> {
    if let Ok(only) = std::env::var(ONLY) {
        run_only(&only, records);
        return Ok(());
    }
    print(&format!("{records} records a list, the best of {ROUNDS} rounds\n"))?;
    let (library, model) = ("library: nanoseconds", "model: nanoseconds");
    let (later, cells) = ("256 cells: nanoseconds", "256 cells");
    print(&format!(
        "{:<18} {:>17} {library:>21} {model:>21} {:>7} {later:>23} {cells:>10}\n",
        "", "library: records", ""
    ))?;
    let each = "a record";
    print(&format!(
        "{:<18} {:>17} {each:>21} {each:>21} {:>7} {each:>23} {:>10}\n",
        "list", "a second", "ratio", "by 20"
    ))?;
    let (mut ratios, mut by_cells) = (Vec::new(), Vec::new());
    for (name, list) in lists(records) {
        let [library, model, later] = best(name, &list, records)
            .map(|time: Duration| time.as_secs_f64() * 1e9 / records as f64);
        let (ratio, by_first) = (library / model, later / library);
        print(&format!(
            "{name:<18} {:>17.0} {library:>21.1} {model:>21.1} {ratio:>7.2} {later:>23.1} {by_first:>10.3}\n",
            1e9 / library,
        ))?;
        ratios.push((name, ratio));
        by_cells.push((name, by_first));
    }
    print("ratio: time of the library by time of the model; below 1 the library is quicker\n")?;
    print("256 cells by 20: time of the library with 256 cells by its time with 20\n")?;
    print("x64: a record is a value; values: the library's time for a value of an MW by that for its WR\n")?;
    print(&by_value(&paired(records)))?;
    print(&summary("cells", 3, &by_cells))?;
    print(&summary("summary", 2, &ratios))
}

// ---- instructions, counted by callgrind

/// Runs one list, by one side: what a process under callgrind does.
fn run_only(only: &str, records: usize) {
    let (side, wanted) = only.split_once(' ').unwrap_or((only, ""));
    for (name, list) in lists(records).iter().filter(|l| l.0 == wanted) {
        let mut run = Run::new(name, list, records);
        match side {
            "library" => run.library(Chip::First),
            "later" => run.library(Chip::Later),
            _ => run.model(),
        }
    }
}

/// The instructions a record of one list, by one side.
fn counted(side: &str, function: &str, name: &str, records: usize) -> Result<f64, Failure> {
    let program = std::env::current_exe().map_err(|error| failure("this program", error))?;
    let output = Command::new("valgrind")
        .args(["--tool=callgrind", "--callgrind-out-file=/dev/null"])
        .arg(format!("--toggle-collect={function}"))
        .arg(program)
        .args(["bench", "--records", &records.to_string()])
        .env(ONLY, format!("{side} {name}"))
        .output()
        .map_err(|error| failure("valgrind", error))?;
    let text = String::from_utf8_lossy(&output.stderr);
    let collected = text.lines().find_map(|line| line.split_once("Collected :"));
    let number = collected.and_then(|(_, n)| n.trim().parse::<f64>().ok());
    number.map(|n| n / records as f64).ok_or_else(|| {
        Failure::Content("valgrind".into(), format!("no count of instructions: {}", text.trim()))
    })
}

/// Prints a row for each list: instructions a record, the same whatever else the machine does. It
/// needs valgrind.
pub fn instructions(records: usize) -> Result<(), Failure> {
    print(&format!("{records} records a list, instructions a record\n"))?;
    print("list                 library       model   ratio  256 cells  256 cells by 20\n")?;
    let (mut ratios, mut by_cells, mut figures) = (Vec::new(), Vec::new(), Vec::new());
    for (name, _) in lists(1) {
        let library = counted("library", "swarmtempo_run", name, records)?;
        let model = counted("model", "*Run*model*", name, records)?;
        let later = counted("later", "swarmtempo_run", name, records)?;
        let (ratio, by_first) = (library / model, later / library);
        print(&format!(
            "{name:<18} {library:>9.0} {model:>11.0} {ratio:>7.2} {later:>10.0} {by_first:>16.3}\n"
        ))?;
        ratios.push((name, ratio));
        by_cells.push((name, by_first));
        figures.push((name, library));
    }
    print(&by_value(&figures))?;
    print(&summary("cells", 3, &by_cells))?;
    print(&summary("summary", 2, &ratios))
}
