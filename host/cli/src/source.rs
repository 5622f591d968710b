//! Files opened to be read.

use super::failure::{failure, Failure};
use super::place::Input;
use std::fs::File;
use std::io::{self, Read};

/// A file, or standard input.
pub fn open(input: &Input) -> Result<Box<dyn Read>, Failure> {
    let Some(path) = input.path() else {
        return Ok(Box::new(io::stdin()));
    };
    let file = File::open(path).map_err(|error| failure(input, error))?;
    if file.metadata().is_ok_and(|data| data.is_dir()) {
        return Err(failure(input, io::Error::other("a folder, not a file")));
    }
    Ok(Box::new(file))
}

/// Length of a plain file in bytes.
pub fn length(input: &Input) -> Option<u64> {
    let data = std::fs::metadata(input.path()?).ok()?;
    data.is_file().then_some(data.len())
}
