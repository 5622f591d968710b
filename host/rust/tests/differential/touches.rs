//! What can touch the clock, by the library and by the model's own walk; lists that agree in it.

use super::laws::{each, some_state};
use super::{some_list, Maker, Random};
use swarmtempo::{Address, Machine, Register, Seconds, Touch, Touched, Touches};
use swarmtempo_model as model;

/// The touches of a list, and the image that it leaves.
fn by_library(image: &[u8], list: &[u8]) -> (Vec<Touched>, Vec<u8>) {
    let mut walk = Touches::new(Machine::from_image(image).expect("accepted"));
    let mut all = Vec::new();
    walk.run(list, |touched| all.push(touched));
    (all, walk.machine().image().to_vec())
}

/// The same, item by item on the model.
fn by_model(image: &[u8], list: &[u8]) -> (Vec<Touched>, Vec<u8>) {
    let mut machine = model::Machine::from_image(image).expect("accepted");
    let (mut at, mut via_ticks, mut all) = (0, 0, Vec::new());
    while let Some(record) = model::frame(&list[at..]) {
        let offset = at as u64;
        at += 2 + record.len();
        let Ok((wait, item)) = model::decode(record) else {
            continue;
        };
        if machine.refuses(&item).is_some() {
            continue;
        }
        machine.step(wait, &item);
        via_ticks += u64::from(wait);
        let mut push = |touch| all.push(Touched { offset, via_ticks, touch });
        match item {
            model::Item::WriteVia { register: 0, value } => {
                push(Touch::Write(Register::ORB, value));
            }
            model::Item::WriteVia { register: 2, value } => {
                push(Touch::Write(Register::DDRB, value));
            }
            model::Item::Many { place: model::Place::Via(0), values } => {
                values.iter().for_each(|&value| push(Touch::Write(Register::ORB, value)));
            }
            model::Item::Many { place: model::Place::Via(2), values } => {
                values.iter().for_each(|&value| push(Touch::Write(Register::DDRB, value)));
            }
            model::Item::Second => push(Touch::Second),
            model::Item::Reset => push(Touch::Reset),
            model::Item::Power { seconds } => push(Touch::Power(Seconds(seconds))),
            _ => {}
        }
    }
    (all, machine.image())
}

/// The values of the writes to one register that begin these touches, at most so many.
fn writes(touches: &[Touched], most: usize) -> Option<(Register, Vec<u8>)> {
    let write = |touched: &Touched| match touched.touch {
        Touch::Write(register, value) => Some((register, value)),
        _ => None,
    };
    let (first, _) = write(touches.first()?)?;
    let same = touches.iter().map_while(write).take_while(|(register, _)| *register == first);
    Some((first, same.map(|(_, value)| value).take(most).collect()))
}

/// Another list that touches the clock in the same way: other waits, other items between, writes put
/// together in an MW and those of an MW taken apart.
fn other(random: &mut Random, chip: model::Chip, touches: &[Touched]) -> Vec<u8> {
    let mut maker = Maker { random, chip, parts: Vec::new() };
    let mut at = 0;
    while let Some(touched) = touches.get(at) {
        for _ in 0..maker.random.below(3) {
            between(&mut maker);
        }
        let wait = maker.wait();
        let most = 1 + maker.random.below(64);
        if let Some((register, values)) = writes(&touches[at..], most) {
            if maker.random.one_in(2) {
                maker.mw(wait, Address::Via(register), &values);
                at += values.len();
                continue;
            }
        }
        at += 1;
        match touched.touch {
            Touch::Write(register, value) => maker.wr(wait, register, value),
            Touch::Second => maker.record(b"SE", wait, &[]),
            Touch::Reset => maker.record(b"RS", wait, &[]),
            Touch::Power(seconds) => maker.record(b"PW", wait, &seconds.0.to_le_bytes()),
        }
    }
    between(&mut maker);
    maker.parts.concat()
}

/// An item that is no touch.
fn between(maker: &mut Maker<'_>) {
    let wait = maker.wait();
    let any = maker.random.byte();
    match maker.random.below(8) {
        6 => maker.record(b"KC", wait, &[any & 1]),
        7 => {
            let address = Address::all().nth(usize::from(any) % 32).expect("32 of them");
            if ![Register::ORB, Register::DDRB].map(Address::Via).contains(&address) {
                maker.mw(wait, address, &[any, !any, 0x0C]);
            }
        }
        0 => maker.record(b"VB", wait, &[]),
        1 => maker.record(b"IN", wait, &[any % 7, any >> 7]),
        2 => maker.place(wait, 1),
        3 => maker.disk(),
        4 => {
            let registers = Register::ALL;
            let register = maker.random.pick(&registers);
            if register != Register::ORB && register != Register::DDRB {
                maker.wr(wait, register, any);
            }
        }
        _ => {
            let register = maker.random.pick(&Register::ALL);
            maker.rd(wait, register);
        }
    }
}

/// The bytes of an image that hold phase, protect, test, seconds and cells, and a second command byte.
fn clock(image: &[u8]) -> (&[u8], &[u8]) {
    (&image[24..54], &image[124..])
}

fn sequence(touches: &[Touched]) -> Vec<Touch> {
    touches.iter().map(|touched| touched.touch).collect()
}

#[test]
fn library_equals_model() {
    let mut count = 0;
    each(|random, chip| {
        let image = some_state(random, chip);
        let list = some_list(random, chip, 4).concat();
        let by_model = by_model(&image, &list);
        assert_eq!(by_library(&image, &list), by_model, "{list:02X?} on {image:02X?}");
        count += by_model.0.len();
    });
    assert!(count > 100_000, "{count}");
}

#[test]
fn lists_that_agree_leave_one_clock() {
    let (mut changed, mut differ) = (0, 0);
    each(|random, chip| {
        let image = some_state(random, chip);
        let list = some_list(random, chip, 4).concat();
        let (touches, left) = by_library(&image, &list);
        let list = other(random, chip, &touches);
        let (others, right) = by_library(&image, &list);
        assert_eq!(sequence(&touches), sequence(&others));
        assert_eq!(clock(&left), clock(&right), "{list:02X?} on {image:02X?}");
        changed += u64::from(clock(&left) != clock(&image));
        differ += u64::from(left != right);
    });
    assert!(changed > 5_000 && differ > 5_000, "{changed} {differ}");
}
