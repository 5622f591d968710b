//! Wires, lines and drives over time, as a Value Change Dump.
//!
//! A VIA tick is 1,276.55 nanoseconds. Items with no wait between them are drawn 10 nanoseconds apart,
//! so that their order shows; where more than 127 come in one tick, what follows is late by that much.
//! The state is taken after each item, of an MW after each of its values: what ends within a wait (a step
//! of a drive, a timer) shows at its end.
//!
//! ```
//! use swarmtempo::{vcd, Chip, List, Machine};
//!
//! let list: List = "12t WR VIA.ORB 4\n0t WR VIA.DDRB 7\n0t WR VIA.ORB 0".parse()?;
//! let mut dump = Vec::new();
//! let run = vcd::dump(&mut Machine::fresh(Chip::First), list.as_ref(), &mut dump)?;
//! assert!(run.at_end());
//! let dump = String::from_utf8(dump)?;
//! assert!(dump.starts_with("$version Swarmtempo $end"));
//! # Ok::<(), Box<dyn std::error::Error>>(())
//! ```

use crate::{
    pieces, Answer, Command, DiskLine, Machine, Phase, Piece, Run, State, Timed, WaitTicks,
    ANSWER_LEN, TICKS_PER_SECOND,
};
use std::io::{self, Write};

/// Between two items, at least.
const GAP_NANOSECONDS: u64 = 10;

/// Tracks in a dump.
const COUNT: usize = 31;

/// The tracks: scope, name, bits (0: a string). Names are unique, for a viewer that leaves the scope
/// out.
const TRACKS: [(&str, &str, u32); COUNT] = [
    ("clock", "enable", 1),
    ("clock", "data_clock", 1),
    ("clock", "data", 1),
    ("clock", "decoded", 0),
    ("clock", "command", 8),
    ("clock", "second_byte", 8),
    ("clock", "byte", 8),
    ("clock", "seconds", 32),
    ("clock", "seconds_stopped", 1),
    ("via", "SEL", 1),
    ("via", "level", 3),
    ("inputs", "serial_chip", 1),
    ("inputs", "switch", 1),
    ("disk", "CA0", 1),
    ("disk", "CA1", 1),
    ("disk", "CA2", 1),
    ("disk", "LSTRB", 1),
    ("disk", "ENABLE", 1),
    ("disk", "SELECT", 1),
    ("disk", "Q6", 1),
    ("disk", "Q7", 1),
    ("drives", "internal_disk", 1),
    ("drives", "internal_motor", 1),
    ("drives", "internal_step", 1),
    ("drives", "internal_track", 7),
    ("drives", "external_disk", 1),
    ("drives", "external_motor", 1),
    ("drives", "external_step", 1),
    ("drives", "external_track", 7),
    ("list", "item", 32),
    ("list", "refused", 4),
];

/// What a save file of `GTKWave` begins with: the dump, the save file itself (by which `GTKWave` finds
/// the dump beside it), and a zoom at which all units of time up to the end are in sight.
pub(crate) fn save_head(dump: &str, save: &str, end: u64) -> String {
    // 200 pixels are 2 to the power of the zoom; a window of the size below shows about 800.
    let zoom = (end.max(4) as f64 / 4.0).log2();
    format!(
        "[*] Swarmtempo\n[dumpfile] \"{dump}\"\n[savefile] \"{save}\"\n[timestart] 0\n\
         [size] 1280 800\n[pos] -1 -1\n*-{zoom:.6} -1\n"
    )
}

/// A save file of `GTKWave`, named `save`, for a dump that stands beside it, named `dump`, and ends at
/// so many nanoseconds: all tracks in place, scope by scope, numbers as people read them.
///
/// ```
/// let text = swarmtempo::vcd::save_file("cell.vcd", "cell.gtkw", 222_130);
/// assert!(text.contains("[dumpfile] \"cell.vcd\"\n"));
/// assert!(text.contains("@28\nswarmtempo.clock.enable\n"));
/// ```
pub fn save_file(dump: &str, save: &str, end: u64) -> String {
    let mut out = save_head(dump, save, end);
    let mut scope = "";
    for (of, name, bits) in TRACKS {
        if of != scope {
            out.push_str(&format!("@200\n-{of}\n"));
            scope = of;
        }
        // Binary for a wire, hexadecimal for a byte, decimal for a count, text for words.
        let (flags, range) = match bits {
            0 => ("820", String::new()),
            1 => ("28", String::new()),
            8 => ("22", "[7:0]".to_string()),
            bits => ("24", format!("[{}:0]", bits - 1)),
        };
        out.push_str(&format!("@{flags}\nswarmtempo.{of}.{name}{range}\n"));
    }
    out
}

/// Runs a list record by record, with room for every answer, and writes the dump.
///
/// # Errors
/// Those of the output; then the machine has done the items before.
pub fn dump(machine: &mut Machine, list: &[u8], out: impl Write) -> io::Result<Run> {
    let mut vcd = Vcd::new(out, machine.state())?;
    let mut all = Run { stop: None, consumed: 0, written: 0 };
    for piece in pieces(list) {
        let mut answer = [0; ANSWER_LEN];
        let before = machine.clone();
        let run = machine.run_in(piece.as_ref(), &mut answer);
        all.consumed += run.consumed;
        all.written += run.written;
        all.stop = run.stop;
        vcd.record(piece, &answer, before, machine.state())?;
        if all.stop.is_some() {
            break;
        }
    }
    vcd.finish()?;
    Ok(all)
}

/// Writes a dump.
pub struct Vcd<W> {
    out: W,
    /// What each track shows; none before the first sample.
    shown: [Option<u64>; COUNT],
    /// What the track of words shows.
    shown_words: String,
    before: State,
    decoded: Decoded,
    items: u64,
    /// VIA ticks passed.
    ticks: u64,
    /// The time of the last sample.
    nanoseconds: u64,
}

/// What the decoded track shows: words, and the last command and data bytes.
struct Decoded {
    words: String,
    command: u8,
    /// The second byte of a command of two; else 0.
    second: u8,
    byte: u8,
}

impl<W: Write> Vcd<W> {
    /// Begins a dump with the state before the first item.
    ///
    /// # Errors
    /// Those of the output, here as below.
    pub fn new(mut out: W, start: State) -> io::Result<Vcd<W>> {
        let mut head = String::from("$version Swarmtempo $end\n");
        head.push_str(
            "$comment A VIA tick is 1276.55 nanoseconds; items without a wait are 10 nanoseconds apart. $end\n",
        );
        head.push_str("$timescale 1 ns $end\n$scope module swarmtempo $end\n");
        let mut scope = "";
        for (i, &(of, name, bits)) in TRACKS.iter().enumerate() {
            if of != scope {
                if !scope.is_empty() {
                    head.push_str("$upscope $end\n");
                }
                head.push_str(&format!("$scope module {of} $end\n"));
                scope = of;
            }
            let (kind, bits) = if bits == 0 { ("string", 1) } else { ("wire", bits) };
            head.push_str(&format!("$var {kind} {bits} {} {name} $end\n", code(i)));
        }
        head.push_str("$upscope $end\n$upscope $end\n$enddefinitions $end\n");
        out.write_all(head.as_bytes())?;
        let decoded = Decoded::open(start.phase);
        let mut vcd = Vcd {
            out,
            shown: [None; COUNT],
            shown_words: String::new(),
            before: start.clone(),
            decoded,
            items: 0,
            ticks: 0,
            nanoseconds: 0,
        };
        vcd.out.write_all(b"#0\n$dumpvars\n")?;
        vcd.changes(&start, 0)?;
        vcd.out.write_all(b"$end\n")?;
        Ok(vcd)
    }

    /// After a record: its answer, the machine before it, and the state after it. The values of an MW are
    /// written to that machine one by one, to see the wires after each; they are one item of the dump.
    ///
    /// # Errors
    /// Those of the output.
    pub fn record(
        &mut self,
        piece: Piece<'_>,
        answer: &[u8; ANSWER_LEN],
        before: Machine,
        after: State,
    ) -> io::Result<()> {
        match (Answer::read(answer), Timed::try_from(piece)) {
            (Some(Answer::Ok(_)), Ok(timed)) => self.done(timed, before, after),
            (Some(Answer::No(refusal)), _) => self.item(WaitTicks(0), refusal.number(), after),
            _ => Ok(()),
        }
    }

    /// After an item that was done: a point for each single item that it stands for.
    fn done(&mut self, timed: Timed, mut machine: Machine, after: State) -> io::Result<()> {
        self.items += 1;
        let mut singles = timed.singles().peekable();
        while let Some(Timed { wait, item }) = singles.next() {
            if singles.peek().is_none() {
                return self.point(wait, 0, after);
            }
            // A write that an MW did is not refused.
            let _ = machine.step(wait, item);
            self.point(wait, 0, machine.state())?;
        }
        Ok(())
    }

    /// After an item: its wait (0 where it was refused), the refusal's number or 0, and the state then.
    ///
    /// # Errors
    /// Those of the output.
    pub fn item(&mut self, wait: WaitTicks, refused: u8, after: State) -> io::Result<()> {
        self.items += 1;
        self.point(wait, refused, after)
    }

    /// A point of the dump: so many VIA ticks after the one before, or a little later.
    fn point(&mut self, wait: WaitTicks, refused: u8, after: State) -> io::Result<()> {
        self.ticks += u64::from(wait.0);
        let exact = u128::from(self.ticks) * 1_000_000_000 / u128::from(TICKS_PER_SECOND);
        self.nanoseconds = u64::try_from(exact)
            .unwrap_or(u64::MAX)
            .max(self.nanoseconds.saturating_add(GAP_NANOSECONDS));
        self.out.write_all(format!("#{}\n", self.nanoseconds).as_bytes())?;
        self.decoded.follow(&self.before, &after);
        self.changes(&after, refused)?;
        self.before = after;
        Ok(())
    }

    /// Where the dump ends, in nanoseconds.
    pub fn end(&self) -> u64 {
        self.nanoseconds.saturating_add(GAP_NANOSECONDS)
    }

    /// The end of the list. The output is given back, flushed.
    ///
    /// # Errors
    /// Those of the output.
    pub fn finish(mut self) -> io::Result<W> {
        let end = format!("#{}\n", self.end());
        self.out.write_all(end.as_bytes())?;
        self.out.flush()?;
        Ok(self.out)
    }

    /// Writes the tracks that changed.
    fn changes(&mut self, state: &State, refused: u8) -> io::Result<()> {
        let values = self.values(state, refused);
        for (i, (value, (_, _, bits))) in values.into_iter().zip(TRACKS).enumerate() {
            let text = if bits == 0 {
                if self.shown_words == self.decoded.words {
                    continue;
                }
                self.shown_words.clone_from(&self.decoded.words);
                format!("s{} {}\n", self.shown_words.replace(' ', "_"), code(i))
            } else {
                if self.shown[i].replace(value) == Some(value) {
                    continue;
                }
                match bits {
                    1 => format!("{value}{}\n", code(i)),
                    _ => format!("b{value:b} {}\n", code(i)),
                }
            };
            self.out.write_all(text.as_bytes())?;
        }
        Ok(())
    }

    /// A number for each track; that of the words is not looked at.
    fn values(&self, state: &State, refused: u8) -> [u64; COUNT] {
        let wires = state.wires();
        let line = |line: DiskLine| u64::from(state.lines.on(line));
        let [internal, external] = &state.drives;
        [
            u64::from(wires.enable),
            u64::from(wires.data_clock),
            u64::from(wires.data),
            0,
            u64::from(self.decoded.command),
            u64::from(self.decoded.second),
            u64::from(self.decoded.byte),
            u64::from(state.seconds.0),
            u64::from(state.seconds_stopped()),
            u64::from(state.sel()),
            u64::from(state.level()),
            u64::from(state.inputs[5]),
            u64::from(state.inputs[6]),
            line(DiskLine::CA0),
            line(DiskLine::CA1),
            line(DiskLine::CA2),
            line(DiskLine::LSTRB),
            line(DiskLine::ENABLE),
            line(DiskLine::SELECT),
            line(DiskLine::Q6),
            line(DiskLine::Q7),
            u64::from(internal.disk),
            u64::from(internal.motor),
            u64::from(internal.step_left.0 > 0),
            u64::from(internal.track),
            u64::from(external.disk),
            u64::from(external.motor),
            u64::from(external.step_left.0 > 0),
            u64::from(external.track),
            self.items & 0xFFFF_FFFF,
            u64::from(refused),
        ]
    }
}

/// A track's short name: one printable character.
fn code(track: usize) -> char {
    ('!'..='~').nth(track).unwrap_or('~')
}

const _: () = assert!(COUNT <= ('~' as usize - '!' as usize), "a character for each track");

fn named(command: u8) -> String {
    Command::of(command).map_or(format!("${command:02X}"), |command| command.to_string())
}

fn named_by_two(first: u8, second: u8) -> String {
    let named = Command::of_two(first, second).map(|command| command.to_string());
    named.unwrap_or(format!("${first:02X} ${second:02X}"))
}

impl Decoded {
    /// A command that was under way before the first item.
    fn open(phase: Phase) -> Decoded {
        let (words, command, second) = match phase {
            Phase::Idle => ("idle".into(), 0, 0),
            Phase::Listening { .. } => ("command".into(), 0, 0),
            Phase::Taking { command, .. } => (named(command), command, 0),
            Phase::Second { first, .. } => (format!("${first:02X}, second byte"), first, 0),
            Phase::TakingExtended { first, second, .. } => {
                (named_by_two(first, second), first, second)
            }
            Phase::Sending { byte, .. } => (format!("read = ${byte:02X}"), 0, 0),
            Phase::Ignoring => ("ignoring".into(), 0, 0),
        };
        Decoded { words, command, second, byte: 0 }
    }

    fn follow(&mut self, before: &State, after: &State) {
        let data = u8::from(after.wires().data);
        match (before.phase, after.phase) {
            (_, Phase::Idle) => self.words = "idle".into(),
            (Phase::Idle, _) => self.words = "command".into(),
            (Phase::Listening { value, .. }, phase) if before.phase != phase => {
                self.first(value << 1 | data, phase);
            }
            (Phase::Second { first, value, .. }, phase) if before.phase != phase => {
                self.second(first, value << 1 | data, phase);
            }
            (Phase::Taking { command, value, .. }, Phase::Ignoring) => {
                self.byte = value << 1 | data;
                self.words = format!("{} = ${:02X}", named(command), self.byte);
                if before.protect && command != 0x35 {
                    self.words.push_str(" (protected)");
                }
            }
            (Phase::TakingExtended { first, second, value, .. }, Phase::Ignoring) => {
                self.byte = value << 1 | data;
                self.words = format!("{} = ${:02X}", named_by_two(first, second), self.byte);
                if before.protect {
                    self.words.push_str(" (protected)");
                }
            }
            _ => {}
        }
    }

    /// At a bit of the first byte: what it made of the chip's phase.
    fn first(&mut self, taken: u8, phase: Phase) {
        match phase {
            Phase::Sending { byte, .. } => {
                self.byte = byte;
                self.words = format!("{} = ${byte:02X}", named(taken));
            }
            Phase::Taking { .. } => self.words = named(taken),
            Phase::Second { .. } => self.words = format!("${taken:02X}, second byte"),
            Phase::Ignoring => self.words = format!("ignored ${taken:02X}"),
            _ => return,
        }
        (self.command, self.second) = (taken, 0);
    }

    /// At a bit of the second byte.
    fn second(&mut self, first: u8, taken: u8, phase: Phase) {
        match phase {
            Phase::Sending { byte, .. } => {
                self.byte = byte;
                self.words = format!("{} = ${byte:02X}", named_by_two(first, taken));
            }
            Phase::TakingExtended { .. } => self.words = named_by_two(first, taken),
            Phase::Ignoring => self.words = format!("ignored ${first:02X} ${taken:02X}"),
            _ => return,
        }
        self.second = taken;
    }
}
