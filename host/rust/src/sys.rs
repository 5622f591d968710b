//! The C entry: its functions, declared here and nowhere else, each behind a safe one that takes
//! slices. This is the only unsafe code.
//!
//! These take any bytes, also an image that no machine has; [`Machine`](crate::Machine) is for daily
//! use. A new entry of `swarmtempo.h` has its declaration and a safe function below.

#![allow(unsafe_code)]

use std::ffi::c_uchar;

extern "C" {
    fn swarmtempo_run(
        image: *mut c_uchar,
        image_len: usize,
        list: *const c_uchar,
        list_len: usize,
        answers: *mut c_uchar,
        answers_len: usize,
        consumed: *mut u64,
        written: *mut u64,
    ) -> u8;
    fn swarmtempo_run_plain(
        image: *mut c_uchar,
        image_len: usize,
        list: *const c_uchar,
        list_len: usize,
        answers: *mut c_uchar,
        answers_len: usize,
        consumed: *mut u64,
        written: *mut u64,
    ) -> u8;
    fn swarmtempo_image_len(cells: u32) -> u64;
    fn swarmtempo_ticks_of_micros(micros: u32) -> u32;
    fn swarmtempo_fresh(image: *mut c_uchar, image_len: usize, cells: u32) -> u8;
    fn swarmtempo_convert(
        list: *const c_uchar,
        list_len: usize,
        out: *mut c_uchar,
        out_len: usize,
        written: *mut u64,
        count: *mut u64,
    ) -> u8;
    fn swarmtempo_sheet_get(
        bench: *const c_uchar,
        bench_len: usize,
        house: *const c_uchar,
        house_len: usize,
        setting: u16,
        sheet: *mut u8,
        start: *mut u64,
        size: *mut u64,
    ) -> u8;
    fn swarmtempo_sheet_compact(
        sheet: *const c_uchar,
        sheet_len: usize,
        out: *mut c_uchar,
        out_len: usize,
        written: *mut u64,
    ) -> u8;
    fn swarmtempo_transaction(
        image: *const c_uchar,
        image_len: usize,
        ask: u8,
        number: u32,
        value: u8,
        out: *mut c_uchar,
        out_len: usize,
        written: *mut u64,
    ) -> u8;
    fn swarmtempo_keyboard_len() -> u64;
    fn swarmtempo_keyboard_fresh(image: *mut c_uchar, image_len: usize, model: u8) -> u8;
    fn swarmtempo_keyboard_command(
        image: *mut c_uchar,
        image_len: usize,
        command: u8,
        answered: *mut u8,
        answer: *mut u8,
    ) -> u8;
    fn swarmtempo_keyboard_key(
        image: *mut c_uchar,
        image_len: usize,
        code: u8,
        answered: *mut u8,
        answer: *mut u8,
    ) -> u8;
    fn swarmtempo_keyboard_wait(
        image: *mut c_uchar,
        image_len: usize,
        via_ticks: u32,
        answered: *mut u8,
        answer: *mut u8,
    ) -> u8;
}

/// What a run reports, as numbers.
#[derive(Clone, Copy, Debug, PartialEq, Eq)]
pub struct Report {
    /// 0 at the end of the list, else 1, 6 or 7.
    pub stop: u8,
    /// Bytes of the list consumed.
    pub consumed: u64,
    /// Bytes of the answers written.
    pub written: u64,
}

/// What a call of either engine's entry is given.
type RunEntry = unsafe extern "C" fn(
    *mut c_uchar,
    usize,
    *const c_uchar,
    usize,
    *mut c_uchar,
    usize,
    *mut u64,
    *mut u64,
) -> u8;

fn run_by(entry: RunEntry, image: &mut [u8], list: &[u8], answers: &mut [u8]) -> Report {
    // Numbers that no run reports, so that one left unwritten would show.
    let (mut consumed, mut written) = (u64::MAX, u64::MAX);
    // SAFETY: three slices and two numbers that live through the call and do not overlap.
    let stop = unsafe {
        entry(
            image.as_mut_ptr(),
            image.len(),
            list.as_ptr(),
            list.len(),
            answers.as_mut_ptr(),
            answers.len(),
            &raw mut consumed,
            &raw mut written,
        )
    };
    Report { stop, consumed, written }
}

/// Runs a list on the state of an image.
pub fn run(image: &mut [u8], list: &[u8], answers: &mut [u8]) -> Report {
    run_by(swarmtempo_run, image, list, answers)
}

/// The same by the plain engine: command bytes of the clock chip by their bit patterns, not by the
/// table.
pub fn run_plain(image: &mut [u8], list: &[u8], answers: &mut [u8]) -> Report {
    run_by(swarmtempo_run_plain, image, list, answers)
}

/// Bytes of an image of a machine with so many cells; 0 where no machine has so many.
pub fn image_len(cells: u32) -> u64 {
    // SAFETY: takes and gives a number.
    unsafe { swarmtempo_image_len(cells) }
}

/// Microseconds as VIA ticks, rounded up.
pub fn ticks_of_micros(micros: u32) -> u32 {
    // SAFETY: takes and gives a number.
    unsafe { swarmtempo_ticks_of_micros(micros) }
}

/// Writes the image of a fresh machine with so many cells: 0, 5 where no machine has so many, or 6
/// where there are too few bytes.
pub fn fresh(image: &mut [u8], cells: u32) -> u8 {
    // SAFETY: a slice that lives through the call, and a number.
    unsafe { swarmtempo_fresh(image.as_mut_ptr(), image.len(), cells) }
}

/// What a writer reports, as numbers.
#[derive(Clone, Copy, Debug, PartialEq, Eq)]
pub struct Transaction {
    /// 0, or 7, 5, 10 or 6.
    pub refusal: u8,
    /// Bytes written.
    pub written: u64,
}

/// Writes a transaction with the clock of the state of an image, asked for by numbers.
pub fn transaction(image: &[u8], ask: u8, number: u32, value: u8, out: &mut [u8]) -> Transaction {
    let mut written = u64::MAX;
    // SAFETY: two slices, of which the first is only read, and a number that live through the call and
    // do not overlap.
    let refusal = unsafe {
        swarmtempo_transaction(
            image.as_ptr(),
            image.len(),
            ask,
            number,
            value,
            out.as_mut_ptr(),
            out.len(),
            &raw mut written,
        )
    };
    Transaction { refusal, written }
}

/// What a conversion reports, as numbers.
#[derive(Clone, Copy, Debug, PartialEq, Eq)]
pub struct Converted {
    /// 0 at the end of the capture, 1 where a record is cut, 6 where there is too little room.
    pub refusal: u8,
    /// Bytes written.
    pub written: u64,
    /// SN items replaced without a DI.
    pub count: u64,
}

/// Turns an old capture over.
pub fn convert(list: &[u8], out: &mut [u8]) -> Converted {
    let (mut written, mut count) = (u64::MAX, u64::MAX);
    // SAFETY: two slices and two numbers that live through the call and do not overlap.
    let refusal = unsafe {
        swarmtempo_convert(
            list.as_ptr(),
            list.len(),
            out.as_mut_ptr(),
            out.len(),
            &raw mut written,
            &raw mut count,
        )
    };
    Converted { refusal, written, count }
}

/// Where a setting's bytes are, as numbers.
#[derive(Clone, Copy, Debug, PartialEq, Eq)]
pub struct Found {
    /// 0, or 1 where either sheet is broken.
    pub refusal: u8,
    /// 0 not set, 1 in the bench sheet, 2 in the house sheet.
    pub sheet: u8,
    /// Where the bytes start in that sheet.
    pub start: u64,
    /// How many bytes they are.
    pub size: u64,
}

/// Looks a setting up in a bench sheet and a house sheet.
pub fn sheet_get(bench: &[u8], house: &[u8], setting: u16) -> Found {
    // Numbers that no look-up gives, as above.
    let (mut sheet, mut start, mut size) = (u8::MAX, u64::MAX, u64::MAX);
    // SAFETY: two slices that are only read, and three numbers, all of which live through the call.
    let refusal = unsafe {
        swarmtempo_sheet_get(
            bench.as_ptr(),
            bench.len(),
            house.as_ptr(),
            house.len(),
            setting,
            &raw mut sheet,
            &raw mut start,
            &raw mut size,
        )
    };
    Found { refusal, sheet, start, size }
}

/// Writes a sheet's counting records: 0, 1 where the sheet is broken or 6 where there are too few
/// bytes, and the bytes written.
pub fn sheet_compact(sheet: &[u8], out: &mut [u8]) -> (u8, u64) {
    let mut written = u64::MAX;
    // SAFETY: two slices and a number that live through the call and do not overlap.
    let refusal = unsafe {
        swarmtempo_sheet_compact(
            sheet.as_ptr(),
            sheet.len(),
            out.as_mut_ptr(),
            out.len(),
            &raw mut written,
        )
    };
    (refusal, written)
}

/// What a keyboard says to an event, as numbers.
#[derive(Clone, Copy, Debug, PartialEq, Eq)]
pub struct Said {
    /// 0, 7 where no accepted keyboard has this image, or 11 where a key is one too many.
    pub refusal: u8,
    /// 1 where there is an answer byte, else 0.
    pub answered: u8,
    /// The answer byte, 0 where there is none.
    pub answer: u8,
}

/// Bytes of a keyboard's image.
pub fn keyboard_len() -> u64 {
    // SAFETY: takes nothing.
    unsafe { swarmtempo_keyboard_len() }
}

/// Writes the image of a keyboard that was just made: 0, or 6 where there are too few bytes.
pub fn keyboard_fresh(image: &mut [u8], model: u8) -> u8 {
    // SAFETY: a slice that lives through the call.
    unsafe { swarmtempo_keyboard_fresh(image.as_mut_ptr(), image.len(), model) }
}

/// A command byte.
pub fn keyboard_command(image: &mut [u8], command: u8) -> Said {
    let (at, len) = (image.as_mut_ptr(), image.len());
    // SAFETY: a slice, and the two numbers of `said`, live through the call and do not overlap.
    said(|answered, answer| unsafe {
        swarmtempo_keyboard_command(at, len, command, answered, answer)
    })
}

/// A key code.
pub fn keyboard_key(image: &mut [u8], code: u8) -> Said {
    let (at, len) = (image.as_mut_ptr(), image.len());
    // SAFETY: as for a command.
    said(|answered, answer| unsafe { swarmtempo_keyboard_key(at, len, code, answered, answer) })
}

/// A wait in VIA ticks.
pub fn keyboard_wait(image: &mut [u8], via_ticks: u32) -> Said {
    let (at, len) = (image.as_mut_ptr(), image.len());
    // SAFETY: as for a command.
    said(|answered, answer| unsafe {
        swarmtempo_keyboard_wait(at, len, via_ticks, answered, answer)
    })
}

fn said(call: impl FnOnce(*mut u8, *mut u8) -> u8) -> Said {
    // Numbers that would show where they are left unwritten.
    let (mut answered, mut answer) = (u8::MAX, u8::MAX);
    let refusal = call(&raw mut answered, &raw mut answer);
    Said { refusal, answered, answer }
}
