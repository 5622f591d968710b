//! What decode says of a run, held to the states that the library reaches and to a plain reading of the
//! requirements: the history of the wires, its stretches, rises and complete writes.

use super::laws::{each, some_state};
use super::{some_list, Maker, Random};
use swarmtempo::{
    pieces, Asked, Chip, Command, Decoding, Fate, Machine, Phase, Piece, State, Target,
    Transaction, Wires, ANSWER_LEN,
};
use swarmtempo_model as model;

/// A write that is complete by the history: the item where it ends, and whether protect kept it out.
#[derive(Clone, Copy, Debug, PartialEq, Eq)]
struct Complete {
    item: u64,
    target: Target,
    byte: u8,
    kept_out: bool,
}

/// The history of a run: enable, data-clock and data after each item, and the item's number.
type History = Vec<(u64, Wires)>;

/// A record as single writes, where it has several: each value is an entry of the history.
fn singles(piece: Piece<'_>) -> Vec<Vec<u8>> {
    let record = piece.as_ref();
    let Some((head, values)) = record.split_at_checked(11).filter(|_| record[2..4] == *b"MW")
    else {
        return vec![record.to_vec()];
    };
    let wait = |i: usize| if i == 0 { [head[4], head[5]] } else { [0, 0] };
    let single = |(i, value): (usize, &u8)| {
        [&[9, 0, b'W', b'R'][..], &wait(i), &head[6..10], &[*value]].concat()
    };
    values.iter().enumerate().map(single).collect()
}

/// Runs a list item by item: the history, and the state after each item.
fn by_steps(image: &[u8], list: &[u8]) -> (History, Vec<State>, Vec<[u8; ANSWER_LEN]>) {
    let mut machine = Machine::from_image(image).expect("accepted");
    let (mut history, mut states) = (vec![(0, machine.state().wires())], Vec::new());
    let mut answers = Vec::new();
    for (piece, item) in pieces(list).zip(1..) {
        let mut answer = [0; ANSWER_LEN];
        let mut whole = machine.clone();
        let run = whole.run_in(piece.as_ref(), &mut answer);
        if answer[2..4] == *b"OK" {
            for single in singles(piece) {
                machine.run_in(&single, &mut [0; ANSWER_LEN]);
                history.push((item, machine.state().wires()));
            }
        }
        assert_eq!(machine.image(), whole.image(), "single writes leave the same");
        states.push(machine.state());
        answers.push(answer);
        if run.stop.is_some() {
            break;
        }
    }
    (history, states, answers)
}

/// The bits of the stretch that is open at the start, or none where it holds no complete write.
fn begun(state: &State) -> Option<Vec<u8>> {
    let low = |count: u8, value: u8| (0..count).rev().map(move |i| value >> i & 1);
    Some(match state.phase {
        Phase::Idle => Vec::new(),
        Phase::Listening { bits, value } => low(bits, value).collect(),
        Phase::Taking { command: first, bits, value } | Phase::Second { first, bits, value } => {
            low(8, first).chain(low(bits, value)).collect()
        }
        Phase::TakingExtended { first, second, bits, value } => {
            low(8, first).chain(low(8, second)).chain(low(bits, value)).collect()
        }
        Phase::Sending { .. } | Phase::Ignoring => return None,
    })
}

fn num(bits: &[u8]) -> u8 {
    bits.iter().fold(0, |value, bit| value << 1 | bit)
}

/// "Where the first eight bits of a stretch, high-order first, are a legal write command and it has at
/// least sixteen rises, it holds a complete write, of bits 9 to 16"; of a command of two bytes at the
/// twenty-fourth.
fn complete(chip: Chip, bits: &[u8]) -> Option<(Target, u8)> {
    let far = chip == Chip::Later && bits.len() >= 8 && Command::is_first_of_two(num(&bits[..8]));
    let command = match bits.len() {
        16 if !far => Command::of(num(&bits[..8])),
        24 if far => Command::of_two(num(&bits[..8]), num(&bits[8..16])),
        _ => None,
    };
    let write = command.filter(|command| !command.read)?;
    Some((write.target, num(&bits[bits.len() - 8..])))
}

/// All complete writes, by the history alone.
fn by_history(start: &State, history: &History) -> Vec<Complete> {
    let mut bits = begun(start);
    let mut protect = start.protect;
    let mut all = Vec::new();
    for pair in history.windows(2) {
        let ((_, before), (item, after)) = (pair[0], pair[1]);
        if before.enable || after.enable {
            bits = Some(Vec::new());
            continue;
        }
        let Some(bits) = bits.as_mut().filter(|_| !before.data_clock && after.data_clock) else {
            continue;
        };
        bits.push(u8::from(after.data));
        if let Some((target, byte)) = complete(start.chip, bits) {
            let kept_out = protect && target != Target::Protect;
            all.push(Complete { item, target, byte, kept_out });
            if target == Target::Protect {
                protect = byte & 0x80 != 0;
            }
        }
    }
    all
}

/// The transactions of a list, run in one call.
fn decoded(image: &[u8], list: &[u8]) -> (Vec<Transaction>, Decoding) {
    let mut decoding = Decoding::new(Machine::from_image(image).expect("accepted"));
    let mut all = Vec::new();
    decoding.run(list, &mut |transaction| all.push(transaction));
    decoding.finish(&mut |transaction| all.push(transaction));
    (all, decoding)
}

/// The complete writes that decode tells.
fn told(transactions: &[Transaction]) -> Vec<Complete> {
    let told = transactions.iter().filter_map(|it| {
        let (target, byte, kept_out) = match it.fate {
            Fate::Written { target, byte, .. } => (target, byte, false),
            Fate::Protected { target, byte } => (target, byte, true),
            _ => return None,
        };
        Some(Complete { item: it.settled?.item, target, byte, kept_out })
    });
    told.collect()
}

/// What the clock keeps.
#[derive(Clone, Debug, PartialEq, Eq)]
struct Kept {
    cells: Vec<u8>,
    seconds: u32,
    protect: bool,
    test: u8,
}

impl Kept {
    fn of(state: &State) -> Kept {
        let State { cells, seconds, protect, test, .. } = state;
        Kept { cells: cells.clone(), seconds: seconds.0, protect: *protect, test: *test }
    }

    fn write(&mut self, target: Target, byte: u8) {
        match target {
            Target::Seconds(k) => {
                let shift = 8 * u32::from(k);
                self.seconds = self.seconds & !(0xFF << shift) | u32::from(byte) << shift;
            }
            Target::Test => self.test = byte,
            Target::Protect => self.protect = byte >= 0x80,
            Target::Cell(cell) => self.cells[usize::from(cell)] = byte,
        }
    }

    fn pass(&mut self, record: &[u8]) {
        let off = match record.get(2..4) {
            Some(b"SE") => 1,
            Some(b"PW") => u32::from_le_bytes(record[6..10].try_into().expect("four bytes")),
            _ => 0,
        };
        if self.test < 0x40 {
            self.seconds = self.seconds.wrapping_add(off);
        }
    }
}

/// What decode calls written is what changes, item by item, and nothing else does.
fn changes_are_told(
    start: &State,
    list: &[u8],
    states: &[State],
    all: &[Transaction],
    ok: &[bool],
) {
    let mut kept = Kept::of(start);
    let mut left = all.iter().filter(|it| matches!(it.fate, Fate::Written { .. })).peekable();
    for ((piece, item), (state, ok)) in pieces(list).zip(1u64..).zip(states.iter().zip(ok)) {
        if *ok {
            kept.pass(piece.as_ref());
        }
        while let Some(it) = left.next_if(|it| it.settled.is_some_and(|at| at.item == item)) {
            let Fate::Written { target, byte, before } = it.fate else { unreachable!() };
            assert_eq!(before, held(&kept, target), "{it:?}");
            kept.write(target, byte);
        }
        assert_eq!(kept, Kept::of(state), "after item {item}");
    }
    assert_eq!(left.next(), None, "all that is written is settled at an item");
}

fn held(kept: &Kept, target: Target) -> u8 {
    match target {
        Target::Seconds(k) => kept.seconds.to_le_bytes()[usize::from(k)],
        Target::Test => kept.test,
        Target::Protect => u8::from(kept.protect) << 7,
        Target::Cell(cell) => kept.cells[usize::from(cell)],
    }
}

/// What the lists reached.
#[derive(Default, Debug)]
struct Reached {
    written: u64,
    protected: u64,
    half: u64,
    illegal: u64,
    read: u64,
    far: u64,
    seen: u64,
    in_part: u64,
    begun: u64,
    open: u64,
}

impl Reached {
    fn count(&mut self, it: &Transaction) {
        *match it.fate {
            Fate::Written { .. } => &mut self.written,
            Fate::Protected { .. } => &mut self.protected,
            Fate::Half { .. } => &mut self.half,
            Fate::Illegal => &mut self.illegal,
            Fate::Read { .. } => &mut self.read,
            Fate::Before => &mut self.begun,
        } += 1;
        let far = matches!(it.asked, Asked::Command { second: Some(_), command: Some(_), .. });
        self.far += u64::from(far);
        if let Fate::Read { seen, .. } = it.fate {
            self.seen += u64::from(seen.byte().is_some());
            self.in_part += u64::from((1..8).contains(&seen.count()));
        }
        self.open += u64::from(it.end.is_none());
    }
}

#[test]
fn decode_equals_history_and_states() {
    let mut reached = Reached::default();
    let protect = protect_at();
    each(|random, chip| {
        let mut image = some_state(random, chip);
        if random.one_in(4) {
            image[protect] = 1;
        }
        let mut parts = some_list(random, chip, 8);
        reads(random, chip, &mut parts);
        let list = parts.concat();
        let start = Machine::from_image(&image).expect("accepted").state();
        let (history, states, answers) = by_steps(&image, &list);
        let (all, decoding) = decoded(&image, &list);
        assert_eq!(told(&all), by_history(&start, &history), "{list:02X?} on {image:02X?}");
        let ok: Vec<bool> = answers.iter().map(|answer| answer[2..4] == *b"OK").collect();
        changes_are_told(&start, &list, &states, &all, &ok);
        let (end, own) = (states.last().unwrap_or(&start), decoding.decoder());
        let by_decoder = Kept {
            cells: own.cells().to_vec(),
            seconds: own.seconds(),
            protect: own.protect(),
            test: own.test(),
        };
        assert_eq!((by_decoder, own.wires()), (Kept::of(end), end.wires()));
        assert_eq!(decoding.machine().state(), *end);
        for it in &all {
            sent(it, &states);
            reached.count(it);
        }
    });
    println!("{reached:?}");
    let Reached { written, protected, half, illegal, read, far, seen, in_part, begun, open } =
        reached;
    for count in [written, protected, half, illegal, read, far, seen, in_part, begun, open] {
        assert!(count > 1_000, "too little of something: {count}");
    }
}

/// Where protect stands in an image.
fn protect_at() -> usize {
    let image = Machine::fresh(Chip::First).image().to_vec();
    let sets = |&at: &usize| {
        let mut image = image.clone();
        image[at] = 1;
        Machine::from_image(&image).is_ok_and(|machine| machine.state().protect)
    };
    (4..image.len()).find(sets).expect("a byte for protect")
}

/// What a read is said to send is what the chip has in its state.
fn sent(it: &Transaction, states: &[State]) {
    let (Fate::Read { sent, .. }, Some(at)) = (it.fate, it.settled) else {
        return;
    };
    if it.end.is_some_and(|end| end.item == at.item) {
        return;
    }
    let place = usize::try_from(at.item - 1).expect("a number of items");
    if let Phase::Sending { byte, falls: 0 } = states[place].phase {
        assert_eq!(sent, byte);
    }
}

/// Reads of port B among the items, most of them where a program reads a bit.
fn reads(random: &mut Random, chip: model::Chip, parts: &mut Vec<Vec<u8>>) {
    if random.one_in(3) {
        return;
    }
    let mut maker = Maker { random, chip, parts: Vec::new() };
    let every = maker.random.one_in(2);
    for part in parts.drain(..) {
        let write = part.get(2..4) == Some(b"WR");
        maker.parts.push(part);
        if write && (every || maker.random.one_in(3)) {
            maker.rd(0, swarmtempo::Register::ORB);
        }
    }
    *parts = maker.parts;
}
