//! The keyboard, a part of its own.

use crate::{sys, Refusal, ViaTicks};
use std::fmt;

/// Bytes of a keyboard's image.
pub const KEYBOARD_LEN: usize = 18;
/// VIA ticks that an Inquiry waits for a key: a quarter of a second.
pub const INQUIRY_TICKS: ViaTicks = ViaTicks(195_840);

/// Eight key codes are held already: refusal 11. Nothing is changed.
#[derive(Clone, Copy, Debug, PartialEq, Eq, Hash)]
pub struct KeyboardFull;

impl KeyboardFull {
    /// Its number.
    pub const NUMBER: u8 = 11;
}

impl fmt::Display for KeyboardFull {
    fn fmt(&self, f: &mut fmt::Formatter<'_>) -> fmt::Result {
        f.write_str("eight key codes are held already")
    }
}

impl std::error::Error for KeyboardFull {}

/// A keyboard: it owns the image of an accepted state. Commands, key codes and waits go in, answer
/// bytes come out. No item of a list reaches it: a shell carries its bits.
///
/// ```
/// use swarmtempo::{Keyboard, ViaTicks, INQUIRY_TICKS};
///
/// let mut keyboard = Keyboard::new(0x03);
/// assert_eq!(keyboard.command(0x10), None); // Inquiry: no code is held, so it waits
/// assert_eq!(keyboard.wait(ViaTicks(100)), None);
/// assert_eq!(keyboard.key(0x33), Ok(Some(0x33))); // the key answers it, and is not kept
/// assert_eq!(keyboard.command(0x14), Some(0x7B)); // Instant: Null
/// assert_eq!(keyboard.command(0x10), None);
/// assert_eq!(keyboard.wait(INQUIRY_TICKS), Some(0x7B));
/// ```
#[derive(Clone, Debug, PartialEq, Eq, Hash)]
pub struct Keyboard {
    image: Vec<u8>,
}

/// What a keyboard holds.
#[derive(Clone, Debug, PartialEq, Eq, Hash)]
pub struct KeyboardState {
    /// The byte that Model answers.
    pub model: u8,
    /// The key codes held, the oldest first; eight at most.
    pub codes: Vec<u8>,
    /// VIA ticks until a waiting Inquiry answers Null; none where none waits.
    pub left: Option<ViaTicks>,
}

impl Keyboard {
    /// A keyboard with no code held, whose Model answers this byte.
    ///
    /// # Panics
    /// As [`Keyboard::image_len`].
    pub fn new(model: u8) -> Keyboard {
        let mut image = vec![0; Keyboard::image_len()];
        let refusal = sys::keyboard_fresh(&mut image, model);
        assert_eq!(refusal, 0, "an image of its own length has room");
        Keyboard { image }
    }

    /// Bytes of an image.
    ///
    /// # Panics
    /// Where the archive is of another version than this crate, and has another image.
    pub fn image_len() -> usize {
        let same = usize::try_from(sys::keyboard_len()) == Ok(KEYBOARD_LEN);
        assert!(same, "libswarmtempo.a is of another version than the crate swarmtempo");
        KEYBOARD_LEN
    }

    /// The keyboard of a saved image.
    ///
    /// # Errors
    /// [`Refusal::State`] where no accepted keyboard has this image.
    pub fn from_image(image: &[u8]) -> Result<Keyboard, Refusal> {
        let mut keyboard = Keyboard { image: image.to_vec() };
        match sys::keyboard_wait(&mut keyboard.image, 0).refusal {
            0 => Ok(keyboard),
            _ => Err(Refusal::State),
        }
    }

    /// The image, to be saved.
    pub fn image(&self) -> &[u8] {
        &self.image
    }

    /// What the image says.
    pub fn state(&self) -> KeyboardState {
        let held = usize::from(self.image[5]);
        let left = u32::from_le_bytes([14, 15, 16, 17].map(|k| self.image[k]));
        KeyboardState {
            model: self.image[4],
            codes: self.image[6..6 + held].to_vec(),
            left: (left != 0).then_some(ViaTicks(left)),
        }
    }

    /// A command byte: $10 Inquiry, $14 Instant, $16 Model, $36 Test; another gets no answer. Any ends
    /// a waiting Inquiry.
    pub fn command(&mut self, byte: u8) -> Option<u8> {
        answer(sys::keyboard_command(&mut self.image, byte))
    }

    /// A key code: it answers a waiting Inquiry, or is kept.
    ///
    /// # Errors
    /// [`KeyboardFull`] where eight are held already.
    pub fn key(&mut self, code: u8) -> Result<Option<u8>, KeyboardFull> {
        match sys::keyboard_key(&mut self.image, code) {
            sys::Said { refusal: KeyboardFull::NUMBER, .. } => Err(KeyboardFull),
            said => Ok(answer(said)),
        }
    }

    /// So many VIA ticks pass. The answer is the Null of an Inquiry that waited long enough. A wait
    /// may be cut anywhere.
    pub fn wait(&mut self, ticks: ViaTicks) -> Option<u8> {
        answer(sys::keyboard_wait(&mut self.image, ticks.0))
    }
}

/// The answer byte, of an image that is accepted.
fn answer(said: sys::Said) -> Option<u8> {
    debug_assert_eq!(said.refusal, 0, "the image is of an accepted state");
    (said.answered != 0).then_some(said.answer)
}

impl TryFrom<&[u8]> for Keyboard {
    type Error = Refusal;

    fn try_from(image: &[u8]) -> Result<Keyboard, Refusal> {
        Keyboard::from_image(image)
    }
}
