//! Clock transactions, by the library and by the model's own writer; and what running them does.

use super::laws::{each, some_state};
use super::{some_case, Random, UNUSED};
use swarmtempo::{sys, Ask, ClockError, Machine, Seconds};
use swarmtempo_model as model;

/// A call's numbers.
#[derive(Clone, Copy, Debug)]
struct Call {
    ask: u8,
    number: u32,
    value: u8,
    room: usize,
}

fn some_call(random: &mut Random) -> Call {
    let number = match random.below(8) {
        0 | 1 => random.below(4),
        2 | 3 => random.below(20),
        4 | 5 => random.below(256),
        6 => 254 + random.below(6),
        _ => random.next() as u32 as usize,
    };
    let ask = if random.one_in(12) { random.byte() } else { 1 + random.below(5) as u8 };
    let room = match random.below(8) {
        0 => random.pick(&[0, 1, 395, 396, 397, 486, 487, 488, 571, 572, 573, 662]),
        1 => random.below(700),
        _ => 663 + random.below(40),
    };
    Call { ask, number: number as u32, value: random.byte(), room }
}

/// The refusal or 0, the bytes written, and the buffer.
fn by_library(image: &[u8], call: Call) -> (u8, u64, Vec<u8>) {
    let mut out = vec![UNUSED; call.room];
    let said = sys::transaction(image, call.ask, call.number, call.value, &mut out);
    (said.refusal, said.written, out)
}

fn by_model(image: &[u8], call: Call) -> (u8, u64, Vec<u8>) {
    let mut out = vec![UNUSED; call.room];
    match model::transaction(image, call.ask, call.number, call.value, call.room) {
        Ok(bytes) => {
            out[..bytes.len()].copy_from_slice(&bytes);
            (0, bytes.len() as u64, out)
        }
        Err(refusal) => (refusal, 0, out),
    }
}

/// What is left of a state: the store as it should be, port B's bits 0 to 2, and all else as before.
fn left(image: &[u8], call: Call) -> Vec<u8> {
    let mut machine = model::Machine::from_image(image).expect("accepted");
    let (store, place) = (&mut machine.clock.store, call.number as usize);
    match call.ask {
        5 => store.protect = call.value & 0x80 != 0,
        1 if !store.protect => store.cells[place] = call.value,
        3 if !store.protect => {
            let mut bytes = store.seconds.to_le_bytes();
            bytes[place] = call.value;
            store.seconds = u32::from_le_bytes(bytes);
        }
        _ => {}
    }
    let reads = call.ask == 2 || call.ask == 4;
    machine.via.out_b = machine.via.out_b & 0xF8 | 6;
    machine.via.dir_b = machine.via.dir_b & 0xF8 | if reads { 6 } else { 7 };
    assert!(machine.wires().enable);
    machine.image()
}

/// The byte that a read is to show.
fn stored(image: &[u8], call: Call) -> Option<u8> {
    let store = model::Machine::from_image(image).expect("accepted").clock.store;
    match call.ask {
        2 => Some(store.cells[call.number as usize]),
        4 => Some(store.seconds.to_le_bytes()[call.number as usize]),
        _ => None,
    }
}

/// Bit 0 of the answers to the RDs, the high bit first; none where there is no RD.
fn shown(list: &[u8], answers: &[u8]) -> Option<u8> {
    let (mut at, mut bits) = (0, Vec::new());
    for answer in answers.chunks(8) {
        let record = model::frame(&list[at..]).expect("whole records");
        at += 2 + record.len();
        if record[..2] == *b"RD" {
            bits.push(answer[4] & 1);
        }
    }
    assert!(bits.is_empty() || bits.len() == 8, "{bits:?}");
    bits.into_iter().reduce(|byte, bit| byte << 1 | bit)
}

/// Runs what was written with room for just its answers.
fn run(image: &[u8], call: Call, list: &[u8]) {
    let (mut after, items) = (image.to_vec(), swarmtempo::pieces(list).count());
    let mut answers = vec![UNUSED; 8 * items];
    let report = sys::run(&mut after, list, &mut answers);
    let whole = (0, list.len() as u64, answers.len() as u64);
    assert_eq!((report.stop, report.consumed, report.written), whole, "{call:?} on {image:02X?}");
    assert!(answers.chunks(8).all(|answer| answer[2..4] == *b"OK"));
    assert_eq!(after, left(image, call), "{call:?} on {image:02X?}");
    assert_eq!(shown(list, &answers), stored(image, call), "{call:?} on {image:02X?}");
}

/// How often each refusal came: 0, 5, 6, 7, 10.
#[derive(Default, Debug)]
struct Counts([u32; 11]);

impl Counts {
    fn all_above(&self, least: u32) {
        for refusal in [0, 5, 6, 7, 10] {
            assert!(self.0[refusal] > least, "refusal {refusal}: {self:?}");
        }
    }
}

#[test]
fn library_equals_model() {
    let mut counts = Counts::default();
    each(|random, chip| {
        let image = match random.below(8) {
            0 => some_case(random.next()).image,
            1 => {
                let mut image = some_state(random, chip);
                let at = random.below(image.len());
                image[at] ^= 1 << random.below(8);
                image
            }
            _ => some_state(random, chip),
        };
        for _ in 0..4 {
            let call = some_call(random);
            let by_library = by_library(&image, call);
            assert_eq!(by_library, by_model(&image, call), "{call:?} on {image:02X?}");
            counts.0[usize::from(by_library.0)] += 1;
            if by_library.0 == 0 {
                run(&image, call, &by_library.2[..by_library.1 as usize]);
            }
        }
    });
    counts.all_above(500);
}

/// Every refusal comes before those after it, and writes nothing.
#[test]
fn order_of_refusals() {
    let fresh = model::fresh_image(model::Chip::First);
    let mut down = fresh.clone();
    let lower = "0t WR VIA.DDRB $04\n".parse::<swarmtempo::List>().expect("in the form");
    sys::run(&mut down, lower.as_bytes(), &mut [0; 8]);
    let call = |ask, number, room| Call { ask, number, value: 0x5A, room };
    for (image, call, refusal) in [
        (&fresh[1..], call(1, 20, 0), 7),
        (&[][..], call(9, 0, 0), 7),
        (&down[..], call(1, 20, 0), 5),
        (&down[..], call(3, 4, 0), 5),
        (&down[..], call(0, 3, 0), 5),
        (&down[..], call(6, 3, 0), 5),
        (&down[..], call(2, 256 + 3, 0), 5),
        (&down[..], call(1, 19, 0), 10),
        (&down[..], call(5, 256, 0), 10),
        (&fresh[..], call(1, 19, 395), 6),
        (&fresh[..], call(2, 19, 486), 6),
        (&fresh[..], call(5, u32::MAX, 395), 6),
        (&fresh[..], call(5, u32::MAX, 396), 0),
    ] {
        let said = by_library(image, call);
        assert_eq!(said, by_model(image, call), "{call:?}");
        assert_eq!(said.0, refusal, "{call:?}");
        if refusal != 0 {
            assert_eq!((said.1, said.2), (0, vec![UNUSED; call.room]), "{call:?}");
        }
    }
}

/// The methods that write and run in one call: what they leave, and that an error leaves all as it was.
#[test]
fn methods() {
    let (mut taken, mut under_protect, mut busy) = (0, 0, 0);
    each(|random, chip| {
        let image = some_state(random, chip);
        let mut machine = Machine::from_image(&image).expect("accepted");
        let before = machine.state();
        let enable = before.wires().enable;
        let (cell, byte, seconds) = (random.byte(), random.byte(), Seconds(random.next() as u32));
        let refused = if usize::from(cell) >= chip.cells() {
            Some(ClockError::Range)
        } else {
            (!enable).then_some(ClockError::Enable)
        };
        let kept = before.protect.then_some(ClockError::Protected);
        let write = refused.or(kept).map_or(Ok(()), Err);
        assert_eq!(machine.write_cell(cell, byte), write);
        let cells = machine.state().cells;
        let changed = cells.iter().zip(&before.cells).filter(|(a, b)| a != b).count();
        assert!(changed <= 1);
        let holds = if write.is_ok() { byte } else { before.cells[cell as usize % cells.len()] };
        assert!(write != Ok(()) || cells[usize::from(cell)] == byte);
        assert_eq!(machine.read_cell(cell), refused.map_or(Ok(holds), Err));
        let enabled = (!enable).then_some(ClockError::Enable);
        assert_eq!(machine.seconds(), enabled.map_or(Ok(before.seconds), Err));
        let set = machine.set_seconds(seconds);
        assert_eq!(set, enabled.or(kept).map_or(Ok(()), Err));
        if set.is_ok() {
            assert_eq!(machine.state().seconds, seconds);
            assert_eq!(machine.seconds(), Ok(seconds));
        }
        assert_eq!(machine.protect(byte >= 128), enabled.map_or(Ok(()), Err));
        if enable {
            assert_eq!(machine.state().protect, byte >= 128);
        } else {
            assert_eq!(machine.image(), image);
        }
        taken += u32::from(set.is_ok());
        under_protect += u32::from(set == Err(ClockError::Protected));
        busy += u32::from(set == Err(ClockError::Enable));
    });
    assert!(taken > 1_000 && under_protect > 300 && busy > 1_000, "{taken} {under_protect} {busy}");
}

/// Lengths are those of the header and of docs/FORMATS.md, whatever the state.
#[test]
fn lengths() {
    each(|random, chip| {
        let image = some_state(random, chip);
        let machine = Machine::from_image(&image).expect("accepted");
        if !machine.state().wires().enable {
            return;
        }
        let byte = random.byte();
        for (ask, bytes, items) in [
            (Ask::WriteCell(byte % 20, byte), 396, 36),
            (Ask::ReadCell(byte % 20), 487, 45),
            (Ask::WriteSeconds(byte % 4, byte), 396, 36),
            (Ask::ReadSeconds(byte % 4), 487, 45),
            (Ask::WriteProtect(byte), 396, 36),
            (Ask::WriteCell(byte.max(20), byte), 572, 52),
            (Ask::ReadCell(byte.max(20)), 663, 61),
        ] {
            match machine.transaction(ask) {
                Ok(list) => {
                    let long = (list.as_bytes().len(), list.iter().count());
                    assert_eq!(long, (bytes, items), "{ask:?}");
                    assert!(list.iter().all(|it| it.is_ok_and(|it| it.wait.0 == 0)));
                }
                Err(error) => {
                    assert_eq!((error, chip), (ClockError::Range, model::Chip::First), "{ask:?}");
                    assert!(bytes > 487, "{ask:?}");
                }
            }
        }
    });
}
