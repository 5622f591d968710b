//! The keyboard, by hand: the codes in a queue, the ticks that an Inquiry has waited.

use crate::refusal;
use std::collections::VecDeque;

/// Bytes of a keyboard's image.
pub const KEYBOARD_LEN: usize = 18;
/// VIA ticks after which a waiting Inquiry answers Null.
pub const INQUIRY_TICKS: u32 = 195_840;
/// A ninth code.
pub const FULL: u8 = 11;

const NULL: u8 = 0x7B;
const PASSED: u8 = 0x7D;
const PLACES: usize = 8;

/// What happens to a keyboard.
#[derive(Clone, Copy, Debug, PartialEq, Eq)]
pub enum KeyboardEvent {
    /// A command byte.
    Command(u8),
    /// A key code.
    Key(u8),
    /// A wait in VIA ticks.
    Wait(u32),
}

/// A keyboard.
#[derive(Clone, Debug, PartialEq, Eq)]
pub struct Keyboard {
    model: u8,
    codes: VecDeque<u8>,
    /// VIA ticks that an Inquiry has waited.
    waited: Option<u32>,
}

impl Keyboard {
    /// One that was just made.
    pub fn new(model: u8) -> Keyboard {
        Keyboard { model, codes: VecDeque::new(), waited: None }
    }

    /// An event: the answer byte.
    ///
    /// # Errors
    /// The refusal.
    pub fn take(&mut self, event: KeyboardEvent) -> Result<Option<u8>, u8> {
        match event {
            KeyboardEvent::Command(byte) => {
                self.waited = None;
                Ok(self.command(byte))
            }
            KeyboardEvent::Key(code) if self.waited.take().is_some() => Ok(Some(code)),
            KeyboardEvent::Key(_) if self.codes.len() == PLACES => Err(FULL),
            KeyboardEvent::Key(code) => {
                self.codes.push_back(code);
                Ok(None)
            }
            KeyboardEvent::Wait(ticks) => {
                let Some(before) = self.waited else { return Ok(None) };
                let now = u64::from(before) + u64::from(ticks);
                if now < u64::from(INQUIRY_TICKS) {
                    self.waited = Some(now as u32);
                    return Ok(None);
                }
                self.waited = None;
                Ok(Some(NULL))
            }
        }
    }

    fn command(&mut self, byte: u8) -> Option<u8> {
        match byte {
            0x10 => {
                let oldest = self.codes.pop_front();
                if oldest.is_none() {
                    self.waited = Some(0);
                }
                oldest
            }
            0x14 => self.codes.pop_front().or(Some(NULL)),
            0x16 => Some(self.model),
            0x36 => Some(PASSED),
            _ => None,
        }
    }

    /// Its image.
    pub fn image(&self) -> [u8; KEYBOARD_LEN] {
        let mut image = [0; KEYBOARD_LEN];
        image[..4].copy_from_slice(b"\x10\x00KB");
        image[4] = self.model;
        image[5] = self.codes.len() as u8;
        for (place, &code) in image[6..].iter_mut().zip(&self.codes) {
            *place = code;
        }
        let left = self.waited.map_or(0, |waited| INQUIRY_TICKS - waited);
        image[14..].copy_from_slice(&left.to_le_bytes());
        image
    }

    /// The keyboard of an image, or none.
    pub fn from_image(image: &[u8]) -> Option<Keyboard> {
        if image.len() != KEYBOARD_LEN || &image[..4] != b"\x10\x00KB" {
            return None;
        }
        let held = usize::from(image[5]);
        let left = u32::from_le_bytes(image[14..].try_into().ok()?);
        let places = &image[6..6 + PLACES];
        if held > PLACES || places[held..].iter().any(|&code| code != 0) {
            return None;
        }
        if left > INQUIRY_TICKS || (left > 0 && held > 0) {
            return None;
        }
        let codes = places[..held].iter().copied().collect();
        let waited = (left > 0).then(|| INQUIRY_TICKS - left);
        Some(Keyboard { model: image[4], codes, waited })
    }
}

/// An event on a lent image: the refusal or 0, and the answer byte where there is one.
pub fn keyboard_call(image: &mut [u8], event: KeyboardEvent) -> (u8, Option<u8>) {
    let Some(mut keyboard) = Keyboard::from_image(image) else {
        return (refusal::STATE, None);
    };
    match keyboard.take(event) {
        Ok(answer) => {
            image.copy_from_slice(&keyboard.image());
            (0, answer)
        }
        Err(number) => (number, None),
    }
}

/// The image of a keyboard just made: 0, or 6 where the room is too short.
pub fn keyboard_fresh(image: &mut [u8], model: u8) -> u8 {
    if image.len() < KEYBOARD_LEN {
        return refusal::ROOM;
    }
    image[..KEYBOARD_LEN].copy_from_slice(&Keyboard::new(model).image());
    0
}
