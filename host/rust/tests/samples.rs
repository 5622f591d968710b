//! S2, S4 and a save and restore amid a half-sent command, through the safe types.

use swarmtempo::{
    answers, Address, Answer, Chip, Item, Lines, List, Machine, Phase, Refusal, Register, Run,
    Seen, WaitTicks,
};

const NOW: WaitTicks = WaitTicks(0);

fn write(register: Register, value: u8) -> Item {
    Item::Write(Address::Via(register), value)
}

fn seen(value: u8, level: u8) -> Answer {
    Answer::Ok(Seen { value, level, lines: Lines(0), sel: true })
}

#[test]
fn s2_port_b_of_a_fresh_machine() {
    let mut list = List::new();
    list.push(NOW, Item::Read(Address::Via(Register::ORB)));
    assert_eq!(list.as_bytes(), [0x08, 0x00, 0x52, 0x44, 0x00, 0x00, 0xFE, 0xE1, 0xEF, 0x00]);
    let mut bytes = Vec::new();
    let run = Machine::fresh(Chip::First).run(list.as_bytes(), &mut bytes);
    assert_eq!(run, Run { stop: None, consumed: 10, written: 8 });
    assert_eq!(bytes, [0x06, 0x00, 0x4F, 0x4B, 0xFF, 0x00, 0x00, 0x01]);
}

#[test]
fn s4_second_asks() {
    let mut list = List::new();
    list.push(NOW, write(Register::IER, 0x81));
    list.push(NOW, Item::Second);
    list.push(NOW, Item::Read(Address::Via(Register::IFR)));
    let mut bytes = Vec::new();
    assert!(Machine::fresh(Chip::First).run(list.as_bytes(), &mut bytes).at_end());
    let got: Vec<Answer> = answers(&bytes).collect();
    assert_eq!(got, [seen(0, 0), seen(0, 1), seen(0x81, 1)]);
}

/// The items that set cell 0 to $AA.
fn transaction() -> Vec<Item> {
    let mut items =
        vec![write(Register::ORB, 4), write(Register::DDRB, 7), write(Register::ORB, 0)];
    for i in (0..16).rev() {
        let bit = (0x41AAu16 >> i & 1) as u8;
        items.push(write(Register::ORB, bit));
        items.push(write(Register::ORB, bit | 2));
    }
    items.push(write(Register::ORB, 4));
    items
}

fn list_of(items: &[Item]) -> List {
    let mut list = List::new();
    items.iter().for_each(|&item| {
        list.push(NOW, item);
    });
    list
}

#[test]
fn save_and_restore_amid_a_command() {
    let items = transaction();
    let mut whole = Machine::fresh(Chip::First);
    let mut expected = Vec::new();
    assert!(whole.run(list_of(&items).as_bytes(), &mut expected).at_end());
    assert_eq!(whole.state().cells[0], 0xAA);
    for cut in 0..=items.len() {
        let (first, second) = items.split_at(cut);
        let mut got = Vec::new();
        let mut machine = Machine::fresh(Chip::First);
        machine.run(list_of(first).as_bytes(), &mut got);
        let saved = machine.image().to_vec();
        drop(machine);
        let mut restored = Machine::from_image(&saved).expect("a saved image is accepted");
        restored.run(list_of(second).as_bytes(), &mut got);
        assert_eq!(got, expected);
        assert_eq!(restored, whole);
    }
    let mut half = Machine::fresh(Chip::First);
    half.run(list_of(&items[..3 + 2 * 11]).as_bytes(), &mut Vec::new());
    let phase = half.state().phase;
    assert_eq!(phase, Phase::Taking { command: 0x41, bits: 3, value: 0b101 });
}

/// Enable down, then the first so many bits of some bytes.
fn sent(machine: &mut Machine, bytes: &[u8], bits: usize) {
    let mut items =
        vec![write(Register::ORB, 4), write(Register::DDRB, 7), write(Register::ORB, 0)];
    for bit in (0..bits).map(|i| bytes[i / 8] >> (7 - i % 8) & 1) {
        items.extend([write(Register::ORB, bit), write(Register::ORB, bit | 2)]);
    }
    assert!(machine.run(list_of(&items), &mut Vec::new()).at_end());
}

/// A whole transaction on a fresh machine, and the cells that hold something then.
fn cells_after(chip: Chip, bytes: &[u8]) -> Vec<(usize, u8)> {
    let mut machine = Machine::fresh(chip);
    sent(&mut machine, bytes, 8 * bytes.len());
    assert_eq!(machine.chip(), chip);
    let cells = machine.state().cells;
    assert_eq!(cells.len(), chip.cells());
    cells.into_iter().enumerate().filter(|(_, value)| *value != 0).collect()
}

#[test]
fn the_later_chip() {
    let mut machine = Machine::fresh(Chip::Later);
    sent(&mut machine, &[0x3F, 0x7C, 0xAA], 23);
    let phase = Phase::TakingExtended { first: 0x3F, second: 0x7C, bits: 7, value: 0x55 };
    assert_eq!((machine.state().phase, machine.state().cells), (phase, vec![0; 256]));
    assert!(machine.to_string().contains("$3F $7C (write cell 255): 7 bits, 1010101 of the data"));
    sent(&mut machine, &[0x3F, 0x7C, 0xAA], 11);
    let phase = Phase::Second { first: 0x3F, bits: 3, value: 0b011 };
    assert_eq!(machine.state().phase, phase, "what was half-sent is dropped");
    assert_eq!(cells_after(Chip::Later, &[0x3F, 0x7C, 0xAA]), [(255, 0xAA)]);
    assert_eq!(cells_after(Chip::Later, &[0x38, 0x00, 0xAA]), [(0, 0xAA)], "like $41");
    assert_eq!(cells_after(Chip::Later, &[0x39, 0x08, 0xAA]), [(0b001_00010, 0xAA)]);
    assert_eq!(cells_after(Chip::Later, &[0x3F, 0x7D, 0xAA]), [], "a bad second byte");
    assert_eq!(cells_after(Chip::First, &[0x3F, 0x7C, 0xAA]), [], "ignored");
    for chip in Chip::BOTH {
        assert_eq!(cells_after(chip, &[0x21, 0xAA]), [(16, 0xAA)]);
    }
    sent(&mut machine, &[0x3F, 0x7C, 0xAA], 24);
    sent(&mut machine, &[0xBF, 0x7C], 16);
    assert_eq!(machine.state().phase, Phase::Sending { byte: 0xAA, falls: 0 });
}

#[test]
fn stops() {
    let mut machine = Machine::fresh(Chip::First);
    let mut room = [0xEE; 12];
    let list = [4, 0, b'S', b'E', 0, 0, 4, 0, b'S', b'E', 0, 0];
    let run = machine.run_in(&list, &mut room);
    assert_eq!(run, Run { stop: Some(Refusal::Room), consumed: 6, written: 8 });
    assert_eq!(room[8..], [0xEE; 4]);
    let mut bytes = vec![1, 2, 3];
    let run = machine.run(&list[..7], &mut bytes);
    assert_eq!(run, Run { stop: Some(Refusal::Cut), consumed: 6, written: 16 });
    assert_eq!(bytes.len(), 19);
    assert_eq!(answers(&bytes[3..]).last(), Some(Answer::No(Refusal::Cut)));
    assert_eq!(Machine::from_image(&[]), Err(Refusal::State));
    let mut image = machine.image().to_vec();
    image.push(0);
    assert_eq!(Machine::from_image(&image), Err(Refusal::State));
}
