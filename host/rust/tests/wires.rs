//! A capture's wires written as an analyser would, and turned into items again: the same transactions.
//!
//! `SWARMTEMPO_SEED` takes another seed, `SWARMTEMPO_LISTS` another number of captures.

#[path = "wires/maker.rs"]
mod maker;

use maker::{capture, Random};
use swarmtempo::{
    pieces, wire_steps, Address, Chip, Command, Femtoseconds, Item, List, Machine, Phase, Register,
    State, Target, Timed, WaitTicks, WireDump, WireEvent, WireForm, WireImport, Wires,
};

const CAPTURES: u64 = 4_000;

/// The levels after each item, with the VIA ticks then.
fn levels(machine: &mut Machine, list: &[u8]) -> Vec<(u64, Wires)> {
    let mut seen = vec![(0, machine.state().wires())];
    for timed in pieces(list).map(|piece| Timed::try_from(piece).expect("an item")) {
        for Timed { wait, item } in wire_steps(timed) {
            machine.step(wait, item).expect("carried out");
            let ticks = seen[seen.len() - 1].0 + u64::from(wait.0);
            seen.push((ticks, machine.state().wires()));
        }
    }
    seen
}

/// The complete writes of a history, by the requirements' own words: the rises of each stretch.
fn complete_writes(chip: Chip, history: &[(u64, Wires)]) -> Vec<(Target, u8)> {
    let mut writes = Vec::new();
    for stretch in history.chunk_by(|a, b| a.1.enable == b.1.enable).filter(|it| !it[0].1.enable) {
        let rise = |pair: &&[(u64, Wires)]| !pair[0].1.data_clock && pair[1].1.data_clock;
        let bits: Vec<bool> = stretch.windows(2).filter(rise).map(|pair| pair[1].1.data).collect();
        let byte = |at: usize| {
            let bits = bits.get(8 * at..8 * at + 8)?;
            Some(bits.iter().fold(0u8, |byte, &bit| byte << 1 | u8::from(bit)))
        };
        let Some(first) = byte(0) else {
            continue;
        };
        let (command, data) = match Command::of(first) {
            None if chip == Chip::Later => {
                (byte(1).and_then(|second| Command::of_two(first, second)), byte(2))
            }
            command => (command, byte(1)),
        };
        if let (Some(Command { read: false, target }), Some(data)) = (command, data) {
            writes.push((target, data));
        }
    }
    writes
}

/// The wires of a run as rows of comma-separated values.
fn exported(machine: &mut Machine, list: &[u8]) -> String {
    let mut dump =
        WireDump::new(Vec::new(), WireForm::Csv, machine.state().wires()).expect("memory");
    for timed in pieces(list).map(|piece| Timed::try_from(piece).expect("an item")) {
        for Timed { wait, item } in wire_steps(timed) {
            machine.step(wait, item).expect("carried out");
            dump.item(wait, machine.state().wires()).expect("memory");
        }
    }
    String::from_utf8(dump.finish().expect("memory")).expect("text")
}

fn imported(rows: &str, mut import: WireImport) -> (List, Vec<WireEvent>) {
    let (mut list, mut events) = (List::new(), Vec::new());
    for row in rows.lines().skip(1) {
        let cells: Vec<i128> = row.split(',').map(|cell| cell.parse().expect("number")).collect();
        let tick = Femtoseconds(cells[0] * 1_000_000).nearest_tick().expect("in range");
        let wires = Wires { enable: cells[1] == 1, data_clock: cells[2] == 1, data: cells[3] == 1 };
        let take = |timed: Timed, event| {
            list.push(timed.wait, timed.item);
            events.extend(event);
        };
        import.sample(tick, wires, take).expect("no gap");
    }
    (list, events)
}

fn same_store(a: &State, b: &State, seconds: bool) -> bool {
    // A byte of the seconds that is sent is not the same where the seconds are not.
    let sending = |state: &State| matches!(state.phase, Phase::Sending { .. });
    let same_phase = a.phase == b.phase || !seconds && sending(a) && sending(b);
    (&a.cells, a.protect, a.test) == (&b.cells, b.protect, b.test)
        && same_phase
        && (!seconds || a.seconds == b.seconds)
}

fn number(name: &str, otherwise: u64) -> u64 {
    std::env::var(name).ok().and_then(|word| word.parse().ok()).unwrap_or(otherwise)
}

/// Cells, seconds, protect, test, the transaction under way at the end, and every complete write.
#[test]
fn random_captures_of_both_chips() {
    let (seed, captures) = (number("SWARMTEMPO_SEED", 31), number("SWARMTEMPO_LISTS", CAPTURES));
    let mut random = Random(seed);
    let (mut written, mut kept_out, mut far, mut half) = (0, 0, 0, 0);
    for round in 0..captures {
        let chip = Chip::BOTH[random.below(2) as usize];
        let seconds = random.one_in(4);
        let driven = random.one_in(3);
        let list = capture(&mut random, 0, seconds);
        let mut machine = Machine::fresh(chip);
        let rows = exported(&mut machine, list.as_ref());
        let (again, events) = imported(&rows, WireImport::new(chip).driven(driven));
        let mut other = Machine::fresh(chip);
        let theirs = levels(&mut other, again.as_ref());
        let ours = levels(&mut Machine::fresh(chip), list.as_ref());
        let told = format!("seed {seed}, round {round}, {chip}\n{list}\n{rows}\n{again}");
        assert!(same_store(&machine.state(), &other.state(), !seconds), "{told}");
        let writes = complete_writes(chip, &ours);
        assert_eq!(writes, complete_writes(chip, &theirs), "{told}");
        // What the follower tells is what the history holds.
        let events_written: Vec<(Target, u8)> = events
            .iter()
            .filter_map(|event| match event {
                WireEvent::Written(command, byte) => Some((command.target, *byte)),
                _ => None,
            })
            .collect();
        assert_eq!(events_written, writes, "{told}");
        written += writes.len();
        far += writes.iter().filter(|(it, _)| matches!(it, Target::Cell(20..))).count();
        kept_out += usize::from(machine.state().protect);
        half += events.iter().filter(|it| matches!(it, WireEvent::HalfSent(_))).count();
    }
    println!("seed {seed}: {captures} captures, {written} complete writes, {half} half sent");
    assert!(written > 1_000 && far > 100 && kept_out > 50 && half > 100, "{far} {kept_out} {half}");
}

/// From a state in the middle of a transaction, on from there.
#[test]
fn captures_that_go_on() {
    let mut random = Random(number("SWARMTEMPO_SEED", 31) + 1);
    let mut low = 0;
    for round in 0..number("SWARMTEMPO_LISTS", CAPTURES) / 4 {
        let chip = Chip::BOTH[random.below(2) as usize];
        let list = capture(&mut random, 0, false);
        let all: Vec<&[u8]> = pieces(list.as_ref())
            .map(|piece| {
                let (swarmtempo::Piece::Record(bytes) | swarmtempo::Piece::Rest(bytes)) = piece;
                bytes
            })
            .collect();
        let (first, rest) = all.split_at(random.below(all.len() as u64) as usize);
        let mut start = Machine::fresh(chip);
        start.run(first.concat(), &mut Vec::new());
        low += u64::from(!start.state().wires().enable);
        let (mut machine, mut other) = (start.clone(), start.clone());
        let rows = exported(&mut machine, &rest.concat());
        let (again, _) = imported(&rows, WireImport::new(chip).goes_on(true));
        other.run(&again, &mut Vec::new());
        let told = format!("round {round}, {chip}\n{list}\n{rows}\n{again}");
        assert!(same_store(&machine.state(), &other.state(), true), "{told}");
    }
    assert!(low > 100, "{low}");
}

/// Every change comes at the VIA tick at which it came: what is rounded does not add up.
#[test]
fn times_do_not_drift() {
    let mut random = Random(number("SWARMTEMPO_SEED", 31) + 2);
    let changes = |levels: Vec<(u64, Wires)>| {
        let mut kept = levels.clone();
        kept.dedup_by(|b, a| a.1 == b.1);
        kept
    };
    for _ in 0..500 {
        let list = capture(&mut random, 2, false);
        let rows = exported(&mut Machine::fresh(Chip::Later), list.as_ref());
        let (again, _) = imported(&rows, WireImport::new(Chip::Later).driven(true));
        let ours = changes(levels(&mut Machine::fresh(Chip::Later), list.as_ref()));
        let theirs = changes(levels(&mut Machine::fresh(Chip::Later), again.as_ref()));
        assert_eq!(ours, theirs, "{list}\n{rows}\n{again}");
    }
}

#[test]
fn ticks() {
    // 783,360 VIA ticks are a second; the middle between two goes up.
    for (femtoseconds, tick) in [
        (0, Some(0)),
        (1, Some(0)),
        (638_276_143, Some(0)),
        (638_276_144, Some(1)),
        (1_276_552_287, Some(1)),
        (1_000_000_000_000_000, Some(783_360)),
        (86_400_000_000_000_000_000, Some(67_682_304_000)),
        (-1, None),
        (i128::MAX, None),
    ] {
        let tick_of = Femtoseconds(femtoseconds).nearest_tick();
        assert_eq!(tick_of, tick, "{femtoseconds}");
    }
}

#[test]
fn long_waits_second_ticks_and_gaps() {
    let up = Wires { enable: true, data_clock: true, data: true };
    let down = Wires { enable: false, ..up };
    let mut lines = Vec::new();
    let mut import = WireImport::new(Chip::First).with_seconds(true);
    for (tick, wires) in [(7, up), (7 + 3 * 65_535 + 5, down), (783_367, up), (783_368, down)] {
        import.sample(tick, wires, |timed, _| lines.push(timed.to_string())).expect("no gap");
    }
    let still = "65535t WR VIA.DDRB $07";
    let mut wanted = vec!["0t WR VIA.ORB $07", "0t WR VIA.DDRB $07", still, still, still];
    wanted.extend(["5t WR VIA.ORB $03"]);
    wanted.extend([still; 8]);
    wanted.extend(["62470t SE", "0t WR VIA.ORB $07", "1t WR VIA.ORB $03"]);
    assert_eq!(lines, wanted);
    let day = 86_400 * 783_360;
    assert!(import.clone().sample(783_368 + day, up, |_, _| ()).is_ok());
    assert!(import.sample(783_369 + day, up, |_, _| panic!("refused")).is_err());
}

/// A transaction that began before the capture is left out, and not taken for another.
#[test]
fn a_start_in_the_middle() {
    let rows = |list: &str| {
        let list: List = list.parse().expect("in the form");
        let mut machine = Machine::fresh(Chip::First);
        machine.step(WaitTicks(0), Item::Write(Address::Via(Register::DDRB), 7)).expect("done");
        exported(&mut machine, list.as_ref())
    };
    // Sixteen rises of $41 $AA with enable low from the first sample on, then a whole $45 $55.
    let bits = |bytes: [u8; 2]| {
        let word = u16::from_be_bytes(bytes);
        let bit = move |i: u16| word >> (15 - i) & 1;
        (0..16).map(move |i| format!("2t WR VIA.ORB {0}\n2t WR VIA.ORB {1}\n", bit(i), bit(i) | 2))
    };
    let mut list: String = bits([0x41, 0xAA]).collect();
    list.push_str("2t WR VIA.ORB 4\n2t WR VIA.ORB 0\n");
    list.extend(bits([0x45, 0x55]));
    let (again, events) = imported(&rows(&list), WireImport::new(Chip::First));
    let mut machine = Machine::fresh(Chip::First);
    machine.run(&again, &mut Vec::new());
    assert_eq!(machine.state().cells[..2], [0, 0x55]);
    assert_eq!(events.iter().filter(|it| matches!(it, WireEvent::Written(..))).count(), 1);
}
