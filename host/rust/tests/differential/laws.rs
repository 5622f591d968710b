//! The laws that captures are cut by, on random states and lists, through the C entry.

use super::{by_library, number, some_image, some_list, Case, Left, Random, UNUSED};
use swarmtempo::pieces;
use swarmtempo_model as model;

const CASES: u64 = 20_000;

/// An accepted state: fresh, with every field at random, or reached by a list.
pub fn some_state(random: &mut Random, chip: model::Chip) -> Vec<u8> {
    let mut image = match random.below(4) {
        0 => model::fresh_image(chip),
        1 => some_image(random, chip),
        _ => {
            let mut image = model::fresh_image(chip);
            let list = some_list(random, chip, 3).concat();
            model::run_image(&mut image, &list, &mut vec![0; 8 * 400]);
            image
        }
    };
    if random.one_in(3) {
        // Test bit 7 stops the seconds.
        image[29] ^= 0x80;
    }
    assert_eq!(run(&image, &[]).stop, 0, "an accepted state");
    image
}

/// Tries something with many random numbers, on states of either chip.
pub fn each(mut try_one: impl FnMut(&mut Random, model::Chip)) {
    let seed = number("SWARMTEMPO_SEED", 1);
    println!("seed {seed}, {CASES} cases");
    for index in 0..CASES {
        let random = &mut Random(seed ^ index.wrapping_mul(0xD134_2543_DE82_EF95));
        try_one(random, model::Chip::BOTH[(index % 2) as usize]);
    }
}

/// One call, with room for all answers.
fn run(image: &[u8], parts: &[Vec<u8>]) -> Left {
    by_library(&Case { image: image.to_vec(), parts: parts.to_vec(), room: 8 * parts.len() })
}

#[allow(clippy::trivially_copy_pass_by_ref, reason = "a kind is written b\"RS\"")]
fn record(kind: &[u8; 2], wait: u16, rest: &[u8]) -> Vec<u8> {
    let length = (4 + rest.len() as u16).to_le_bytes();
    [&length[..], kind, &wait.to_le_bytes(), rest].concat()
}

/// An IN that sets a line to the level that it has does nothing but wait.
fn idle(random: &mut Random, image: &[u8]) -> [u8; 2] {
    let inputs = model::Machine::from_image(image).expect("accepted").inputs;
    let line = random.below(7) as u8;
    [line, inputs >> line & 1]
}

/// Waits of a and then b VIA ticks leave what c and then d leave where a + b = c + d, and what a + b
/// leaves where that is a wait; also above 65,535 VIA ticks.
#[test]
fn waits_add() {
    let (mut long, mut short) = (0, 0);
    each(|random, chip| {
        let image = some_state(random, chip);
        let rest = idle(random, &image);
        let most = random.pick(&[3, 300, 10_000, 65_535, 65_535]);
        let [a, b] = [0; 2].map(|_: u8| random.below(most + 1));
        let sum = a + b;
        let c = random.below(sum.min(65_535) + 1).max(sum.saturating_sub(65_535));
        let waits = |all: &[usize]| -> Left {
            let waits = all.iter().map(|&wait| wait as u16);
            run(&image, &waits.map(|wait| record(b"IN", wait, &rest)).collect::<Vec<_>>())
        };
        let apart = waits(&[a, b]);
        // The answer between shows another moment; the last answer and the state do not.
        let other = waits(&[c, sum - c]);
        assert_eq!(apart.image, other.image, "{a} {b} {c} on {image:02X?}");
        assert_eq!(apart.answers[8..], other.answers[8..], "{a} {b} {c} on {image:02X?}");
        if sum <= 65_535 {
            let once = waits(&[sum]);
            assert_eq!(apart.image, once.image, "{a} {b} on {image:02X?}");
            assert_eq!(apart.answers[8..], once.answers, "{a} {b} on {image:02X?}");
            short += 1;
        } else {
            long += 1;
        }
    });
    assert!(long > CASES / 10 && short > CASES / 10, "{long} {short}");
}

/// Two resets with no wait between equal one; with a wait between they do not, on some state.
#[test]
fn resets() {
    let mut apart = 0;
    each(|random, chip| {
        let image = some_state(random, chip);
        let wait = random.pick(&[0, 1, 255, random.0 as u16]);
        let once = run(&image, &[record(b"RS", wait, &[])]);
        let twice = run(&image, &[record(b"RS", wait, &[]), record(b"RS", 0, &[])]);
        assert_eq!((&twice.image, twice.stop), (&once.image, 0), "{wait} on {image:02X?}");
        assert_eq!(twice.answers, once.answers.repeat(2));
        let later = run(&image, &[record(b"RS", wait, &[]), record(b"RS", 1, &[])]);
        apart += u64::from(later.image != once.image);
    });
    assert!(apart > CASES / 10, "{apart}");
}

/// Power cuts of s and t seconds with no wait between equal one of s + t modulo 4,294,967,296.
#[test]
fn power_cuts_add() {
    let (mut wrapped, mut stopped) = (0, 0);
    each(|random, chip| {
        let image = some_state(random, chip);
        let wait = random.pick(&[0, 1, 255, random.0 as u16]);
        let any = random.next() as u32;
        let [s, t] = [0; 2].map(|_: u8| random.pick(&[0, 1, 86_400, any, !any, u32::MAX]));
        let power = |wait, seconds: u32| record(b"PW", wait, &seconds.to_le_bytes());
        let once = run(&image, &[power(wait, s.wrapping_add(t))]);
        let twice = run(&image, &[power(wait, s), power(0, t)]);
        assert_eq!((&twice.image, twice.stop), (&once.image, 0), "{s} {t} on {image:02X?}");
        assert_eq!(twice.answers, once.answers.repeat(2));
        wrapped += u64::from(s.checked_add(t).is_none());
        stopped += u64::from(once.image[30..34] == image[30..34] && s.wrapping_add(t) != 0);
    });
    assert!(wrapped > CASES / 10 && stopped > CASES / 50, "{wrapped} {stopped}");
}

/// Two calls on one image: the second gets the answer room that the first left.
fn in_two_calls(case: &Case, at: usize) -> Option<Left> {
    let list = case.parts.concat();
    let part = |image: &[u8], bytes: &[u8], room| {
        by_library(&Case { image: image.to_vec(), parts: vec![bytes.to_vec()], room })
    };
    let first = part(&case.image, &list[..at], case.room);
    if first.stop != 0 {
        return None;
    }
    let second = part(&first.image, &list[at..], case.room - first.written);
    let answers = [&first.answers[..first.written], &second.answers].concat();
    Some(Left {
        stop: second.stop,
        consumed: first.consumed + second.consumed,
        written: first.written + second.written,
        answers,
        image: second.image,
    })
}

/// A list cut between records and run in two calls equals the whole: answers joined, counts added.
#[test]
fn lists_are_cut() {
    let (mut tried, mut stops) = (0, [0; 8]);
    each(|random, chip| {
        let image = some_state(random, chip);
        let parts = some_list(random, chip, 4);
        let records = pieces(&parts.concat()).count();
        let whole = 8 * records;
        let room = if random.one_in(3) { random.below(whole + 9) } else { whole };
        let at = random.below(records + 1);
        let at = pieces(&parts.concat()).take(at).map(|piece| piece.as_ref().len()).sum();
        let case = Case { image, parts, room };
        let Some(left) = in_two_calls(&case, at) else {
            return;
        };
        assert_eq!(
            left,
            by_library(&case),
            "cut at {at}, {room} bytes of room: {:02X?}",
            case.parts
        );
        assert!(left.answers[left.written..].iter().all(|&byte| byte == UNUSED));
        tried += 1;
        stops[usize::from(left.stop)] += 1;
    });
    assert!(tried > CASES / 2 && stops[1] > 0 && stops[6] > CASES / 100, "{tried} {stops:?}");
}
