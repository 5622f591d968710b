//! The decoder by itself: records of several writes, and bytes that make no sense.

use swarmtempo::{
    pieces, Address, Asked, Chip, Command, Decoder, Fate, Machine, Piece, Place, Register, Target,
    Transaction, Watch, Wires, ANSWER_LEN,
};

const OK: [u8; ANSWER_LEN] = [6, 0, b'O', b'K', 0, 0, 0, 1];

/// Keeps all that a decoder tells.
#[derive(Default)]
struct Kept {
    transactions: Vec<Transaction>,
    wires: Vec<(u64, Wires)>,
}

impl Watch for Kept {
    fn transaction(&mut self, transaction: Transaction) {
        self.transactions.push(transaction);
    }

    fn wires(&mut self, at: Place, wires: Wires) {
        self.wires.push((at.item, wires));
    }
}

fn record(kind: [u8; 2], register: Register, rest: &[u8]) -> Vec<u8> {
    let address = Address::Via(register).number().to_le_bytes();
    let length = u16::try_from(8 + rest.len()).expect("short").to_le_bytes();
    [&length[..], &kind, &[0, 0], &address, rest].concat()
}

/// Port B's values for some bytes, from enable down to enable up.
fn values(bytes: &[u8]) -> Vec<u8> {
    let bits = bytes.iter().flat_map(|byte| (0..8).rev().map(move |i| byte >> i & 1));
    [0].into_iter().chain(bits.flat_map(|bit| [bit, bit | 2])).chain([4]).collect()
}

fn follow(records: &[Vec<u8>]) -> (Kept, Decoder) {
    let mut decoder = Decoder::new(&Machine::fresh(Chip::First).state());
    let mut kept = Kept::default();
    for (record, item) in records.iter().zip(1..) {
        let at = Place { item, ..Place::default() };
        decoder.record(at, Piece::Record(record), &OK, &mut kept);
    }
    decoder.finish(&mut kept);
    (kept, decoder)
}

/// Many writes in one record are followed one by one: two transactions may end in it.
#[test]
fn many_writes_in_one_record() {
    let all = [values(&[0x41, 0xAA]), values(&[0x45, 0x55])].concat();
    let ports = [record(*b"WR", Register::ORB, &[4]), record(*b"WR", Register::DDRB, &[7])];
    let count = u8::try_from(all.len()).expect("68 values");
    let many = record(*b"MW", Register::ORB, &[&[count][..], &all].concat());
    let singles = all.iter().map(|&value| record(*b"WR", Register::ORB, &[value]));
    let singles: Vec<Vec<u8>> = ports.iter().cloned().chain(singles).collect();
    let (at_once, by_many) = follow(&[&ports[..], &[many]].concat());
    let (one_by_one, by_singles) = follow(&singles);
    let fates = |kept: &Kept| kept.transactions.iter().map(|it| it.fate).collect::<Vec<_>>();
    let written = |cell, byte| Fate::Written { target: Target::Cell(cell), byte, before: 0 };
    assert_eq!(fates(&at_once), [written(0, 0xAA), written(1, 0x55)]);
    assert_eq!(fates(&at_once), fates(&one_by_one));
    assert!(at_once.transactions.iter().all(|it| it.start.item == 3 && it.bits == 16));
    let wires = |kept: &Kept| kept.wires.iter().map(|it| it.1).collect::<Vec<_>>();
    assert_eq!(wires(&at_once), wires(&one_by_one));
    assert_eq!(by_many.cells(), by_singles.cells());
    assert_eq!(by_many.cells()[..3], [0xAA, 0x55, 0]);
}

/// The data line as the chip drives it is among the wires.
#[test]
fn wires_of_a_read() {
    let mut records =
        vec![record(*b"WR", Register::ORB, &[4]), record(*b"WR", Register::DDRB, &[7])];
    let sent = [values(&[0x41, 0xA5]), values(&[0xC1])].concat();
    let sent = &sent[..sent.len() - 1];
    records.extend(sent.iter().map(|&value| record(*b"WR", Register::ORB, &[value])));
    records.push(record(*b"WR", Register::DDRB, &[6]));
    let falls = records.len();
    for value in [0, 2].into_iter().cycle().take(18) {
        records.push(record(*b"WR", Register::ORB, &[value]));
    }
    let (kept, _) = follow(&records);
    let after = kept.wires[falls..].iter().filter(|(_, wires)| !wires.data_clock);
    let line: Vec<u8> = after.map(|(_, wires)| u8::from(wires.data)).collect();
    assert_eq!(line, [1, 0, 1, 0, 0, 1, 0, 1, 1], "bits 7 to 0, then undriven");
    let last = kept.transactions.last().expect("open at the end");
    let command = Some(Command { read: true, target: Target::Cell(0) });
    assert_eq!(last.asked, Asked::Command { first: 0xC1, second: None, command });
    assert!(matches!(last.fate, Fate::Read { sent: 0xA5, falls: 8, .. }), "{last:?}");
    assert_eq!(last.end, None);
}

/// Any bytes as records, any bytes as answers, from any phase: nothing but a result.
#[test]
fn bytes_without_sense() {
    let mut seed = 1u64;
    let mut byte = || {
        seed = seed.wrapping_mul(6_364_136_223_846_793_005).wrapping_add(1_442_695_040_888_963_407);
        (seed >> 33).to_le_bytes()[0]
    };
    let kinds = [*b"WR", *b"MW", *b"RD", *b"PW", *b"SE", *b"RS", *b"??"];
    for chip in Chip::BOTH {
        let mut decoder = Decoder::new(&Machine::fresh(chip).state());
        let mut kept = Kept::default();
        for item in 0..200_000 {
            let mut bytes: Vec<u8> = (0..byte() % 20).map(|_| byte()).collect();
            if byte() % 4 > 0 {
                let register = [Register::ORB, Register::DDRB][usize::from(byte() % 2)];
                let values: Vec<u8> = (0..byte() % 6).map(|_| byte() & 7).collect();
                bytes = record(kinds[usize::from(byte() % 7)], register, &values);
                bytes.truncate(bytes.len() - usize::from(byte() % 8 / 7));
            }
            let mut answer = OK;
            answer[usize::from(byte() % 8)] = byte();
            let at = Place { item, ..Place::default() };
            let whole = pieces(&bytes).next().unwrap_or(Piece::Rest(&bytes));
            decoder.record(at, whole, &answer, &mut kept);
            if let Some(last) = kept.transactions.pop() {
                assert!(!last.to_string().is_empty() && !last.byte().is_empty());
                assert!(last.start.item <= item);
            }
        }
        assert_eq!(decoder.cells().len(), chip.cells());
    }
}
