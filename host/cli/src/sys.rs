//! Calls of the system that std does not have; the program's only unsafe code.
//!
//! - `linkat`: a file without a name gets one (std's `hard_link` does not follow `/proc/self/fd`).
//! - `signal`, `raise`, `unlink`: a file that has its temporary name already is removed where the
//!   program is ended by a signal, and a signal waits while finished files take their places.
//! - `ioctl`: the width of a terminal.
#![allow(unsafe_code)]

use std::ffi::{c_char, c_int, c_ulong, CString};
use std::fs::File;
use std::io;
use std::os::fd::AsRawFd;
use std::os::unix::ffi::OsStrExt;
use std::path::Path;
use std::ptr::null_mut;
use std::sync::atomic::{AtomicBool, AtomicI32, AtomicPtr, Ordering::SeqCst};
use std::sync::Once;

extern "C" {
    fn linkat(
        old_folder: c_int,
        old: *const c_char,
        new_folder: c_int,
        new: *const c_char,
        flags: c_int,
    ) -> c_int;
    fn unlink(path: *const c_char) -> c_int;
    fn signal(number: c_int, handler: usize) -> usize;
    fn raise(number: c_int) -> c_int;
    fn ioctl(file: c_int, request: c_ulong, ...) -> c_int;
}

const AT_FDCWD: c_int = -100;
const AT_SYMLINK_FOLLOW: c_int = 0x400;
const TIOCGWINSZ: c_ulong = 0x5413;
const SIG_DFL: usize = 0;
const SIG_IGN: usize = 1;
/// HUP, INT, QUIT, TERM, XCPU, XFSZ.
const ENDING: [c_int; 6] = [1, 2, 3, 15, 24, 25];

/// Names of files to be removed where a signal ends the program. A name is never freed.
static DOOMED: [AtomicPtr<c_char>; 16] = [const { AtomicPtr::new(null_mut()) }; 16];
/// True while finished files take their places.
static HELD: AtomicBool = AtomicBool::new(false);
/// The signal that came meanwhile, or 0.
static CAME: AtomicI32 = AtomicI32::new(0);

/// Gives a name to a file that was opened without one.
pub fn give_name(file: &File, name: &Path) -> io::Result<()> {
    let old = CString::new(format!("/proc/self/fd/{}", file.as_raw_fd()))?;
    let new = CString::new(name.as_os_str().as_bytes())?;
    // SAFETY: two strings that end in NUL and live through the call.
    let done = unsafe { linkat(AT_FDCWD, old.as_ptr(), AT_FDCWD, new.as_ptr(), AT_SYMLINK_FOLLOW) };
    if done == 0 {
        Ok(())
    } else {
        Err(io::Error::last_os_error())
    }
}

/// Calls of nothing but what a handler may call, and atomics.
extern "C" fn on_signal(number: c_int) {
    if HELD.load(SeqCst) {
        CAME.store(number, SeqCst);
        return;
    }
    for name in &DOOMED {
        let name = name.load(SeqCst);
        if !name.is_null() {
            // SAFETY: a string that ends in NUL and is never freed.
            unsafe { unlink(name) };
        }
    }
    end_by(number);
}

fn end_by(number: c_int) {
    // SAFETY: numbers alone; the signal's own action ends the program.
    unsafe {
        signal(number, SIG_DFL);
        raise(number);
    }
}

/// Watches the signals that end a program, but for those that its caller had it ignore.
fn watch() {
    static ONCE: Once = Once::new();
    ONCE.call_once(|| {
        for number in ENDING {
            // SAFETY: the handler is a function of the right kind that lives for ever.
            unsafe {
                if signal(number, on_signal as *const () as usize) == SIG_IGN {
                    signal(number, SIG_IGN);
                }
            }
        }
    });
}

/// A file's temporary name, which is taken away where a signal ends the program or this is dropped.
pub struct Doomed(usize);

impl Doomed {
    /// From now on. None where too many are watched already.
    pub fn watch(name: &Path) -> Option<Doomed> {
        watch();
        let name = CString::new(name.as_os_str().as_bytes()).ok()?.into_raw();
        let free = |slot: &AtomicPtr<c_char>| {
            slot.compare_exchange(null_mut(), name, SeqCst, SeqCst).is_ok()
        };
        DOOMED.iter().position(free).map(Doomed)
    }
}

/// The name is watched no more.
impl Drop for Doomed {
    fn drop(&mut self) {
        DOOMED[self.0].store(null_mut(), SeqCst);
    }
}

/// Does something that a signal does not cut in two; a signal that came meanwhile acts after it.
pub fn uncut<T>(act: impl FnOnce() -> T) -> T {
    watch();
    HELD.store(true, SeqCst);
    let done = act();
    HELD.store(false, SeqCst);
    match CAME.swap(0, SeqCst) {
        0 => {}
        number => on_signal(number),
    }
    done
}

/// Columns of the terminal that a file is, or none.
pub fn columns(terminal: &impl AsRawFd) -> Option<usize> {
    // Rows, columns, and two more that nobody uses.
    let mut size = [0u16; 4];
    // SAFETY: the request writes four numbers of 16 bits.
    let done = unsafe { ioctl(terminal.as_raw_fd(), TIOCGWINSZ, size.as_mut_ptr()) };
    (done == 0 && size[1] > 0).then_some(usize::from(size[1]))
}
