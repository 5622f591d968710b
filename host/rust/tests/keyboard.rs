//! The keyboard: the library against the plain model on random events; its types.
//!
//! `SWARMTEMPO_SEED` takes another seed (the fixed one is 1), `SWARMTEMPO_EVENTS` another number of events.

use swarmtempo::sys::{self, Said};
use swarmtempo::{Keyboard, KeyboardFull, KeyboardState, Refusal, ViaTicks, INQUIRY_TICKS};
use swarmtempo_model::{keyboard_call, keyboard_fresh, KeyboardEvent, KEYBOARD_LEN};

fn by_library(image: &mut [u8], event: KeyboardEvent) -> Said {
    match event {
        KeyboardEvent::Command(byte) => sys::keyboard_command(image, byte),
        KeyboardEvent::Key(code) => sys::keyboard_key(image, code),
        KeyboardEvent::Wait(ticks) => sys::keyboard_wait(image, ticks),
    }
}

fn by_model(image: &mut [u8], event: KeyboardEvent) -> Said {
    let (refusal, answer) = keyboard_call(image, event);
    Said { refusal, answered: u8::from(answer.is_some()), answer: answer.unwrap_or(0) }
}

/// Random numbers (splitmix64).
struct Random(u64);

impl Random {
    fn next(&mut self) -> u64 {
        self.0 = self.0.wrapping_add(0x9E37_79B9_7F4A_7C15);
        let mut z = self.0;
        z = (z ^ z >> 30).wrapping_mul(0xBF58_476D_1CE4_E5B9);
        z = (z ^ z >> 27).wrapping_mul(0x94D0_49BB_1331_11EB);
        z ^ z >> 31
    }

    fn below(&mut self, limit: u64) -> u64 {
        self.next() % limit
    }

    fn byte(&mut self) -> u8 {
        self.next() as u8
    }

    /// An event, a key in `keys` of 8.
    fn event(&mut self, keys: u64) -> KeyboardEvent {
        if self.below(8) < keys {
            return KeyboardEvent::Key(self.byte());
        }
        match self.below(9) {
            0..=3 => {
                let known = [0x10, 0x10, 0x10, 0x14, 0x16, 0x36];
                KeyboardEvent::Command(known[self.below(6) as usize])
            }
            4 => KeyboardEvent::Command(self.byte()),
            _ => KeyboardEvent::Wait(self.ticks()),
        }
    }

    /// Waits short, long, and close to what an Inquiry waits.
    fn ticks(&mut self) -> u32 {
        match self.below(4) {
            0 => self.below(4) as u32,
            1 => 195_838 + self.below(4) as u32,
            2 => self.below(200_000) as u32,
            _ => self.next() as u32,
        }
    }

    /// An image: of a keyboard in use, with a byte changed, of another length, or of random bytes.
    fn image(&mut self) -> Vec<u8> {
        let mut image = vec![0; KEYBOARD_LEN];
        keyboard_fresh(&mut image, self.byte());
        for _ in 0..self.below(12) {
            let event = self.event(4);
            keyboard_call(&mut image, event);
        }
        match self.below(8) {
            0 => {
                let at = self.below(KEYBOARD_LEN as u64) as usize;
                image[at] = if self.below(2) == 0 { self.byte() } else { image[at] ^ 1 };
            }
            1 => {
                let len = self.below(24) as usize;
                image.resize(len, 0);
            }
            2 => image[6..].fill_with(|| self.byte()),
            _ => {}
        }
        image
    }
}

#[test]
fn library_and_model_agree() {
    let number = |name: &str, usual: u64| {
        std::env::var(name).map_or(usual, |word| word.parse().expect("a number"))
    };
    let (seed, events) = (number("SWARMTEMPO_SEED", 1), number("SWARMTEMPO_EVENTS", 2_000_000));
    let mut random = Random(seed);
    let (mut taken, mut refused, mut full, mut nulls) = (0, 0, 0, 0);
    while taken < events {
        let start = random.image();
        let (mut library, mut model) = (start.clone(), start.clone());
        let keys = random.below(7);
        for _ in 0..random.below(60) {
            let (before, event) = (library.clone(), random.event(keys));
            let left = by_library(&mut library, event);
            assert_eq!(left, by_model(&mut model, event), "seed {seed}: {event:?} on {before:?}");
            assert_eq!(library, model, "seed {seed}: {event:?} on {before:?}");
            if left.refusal != 0 {
                assert_eq!(library, before, "a refusal changes nothing");
            }
            refused += u64::from(left.refusal == 7);
            full += u64::from(left.refusal == 11);
            let null = Said { refusal: 0, answered: 1, answer: 0x7B };
            nulls += u64::from(matches!(event, KeyboardEvent::Wait(_)) && left == null);
            taken += 1;
            if left.refusal == 7 && random.below(2) == 0 {
                break;
            }
        }
    }
    assert!(refused > 0 && full > 0 && nulls > 0, "{refused} {full} {nulls}");
    println!(
        "seed {seed}: {taken} events, {refused} refused with 7, {full} with 11, {nulls} Nulls"
    );
}

#[test]
fn fresh_in_any_room() {
    for room in 0..24 {
        let (mut library, mut model) = (vec![0xE7; room], vec![0xE7; room]);
        let refusal = sys::keyboard_fresh(&mut library, 0x8B);
        assert_eq!(refusal, keyboard_fresh(&mut model, 0x8B));
        assert_eq!(refusal == 6, room < KEYBOARD_LEN);
        assert_eq!(library, model, "room {room}");
    }
}

#[test]
fn types() {
    assert_eq!(Keyboard::image_len(), KEYBOARD_LEN);
    let mut keyboard = Keyboard::new(0x0B);
    assert_eq!(keyboard.command(0x16), Some(0x0B));
    assert_eq!(keyboard.command(0x36), Some(0x7D));
    for code in 1..=8 {
        assert_eq!(keyboard.key(code), Ok(None));
    }
    let held = keyboard.clone();
    assert_eq!(keyboard.key(9), Err(KeyboardFull));
    assert_eq!(keyboard, held);
    assert_eq!(keyboard.command(0x10), Some(1));
    let state = KeyboardState { model: 0x0B, codes: (2..=8).collect(), left: None };
    assert_eq!(keyboard.state(), state);
    let again = Keyboard::from_image(keyboard.image());
    assert_eq!(again, Ok(keyboard.clone()));
    assert_eq!(Keyboard::from_image(&keyboard.image()[1..]), Err(Refusal::State));

    let mut keyboard = Keyboard::new(0x0B);
    assert_eq!(keyboard.command(0x10), None);
    assert_eq!(keyboard.wait(ViaTicks(INQUIRY_TICKS.0 - 1)), None);
    assert_eq!(keyboard.state().left, Some(ViaTicks(1)));
    assert_eq!(keyboard.wait(ViaTicks(1)), Some(0x7B));
    assert_eq!(keyboard.wait(ViaTicks(u32::MAX)), None);
}
