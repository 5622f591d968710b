//! What a command writes: all of it, or no file at all.

use super::draft::{Draft, Target};
use super::failure::{failure, Failure};
use super::place::Output;
use super::sys;
use std::fs::{self, File};
use std::io::{self, BufWriter, IsTerminal, Write};
use std::os::fd::AsFd;

/// Something that takes output.
pub struct Out {
    name: String,
    to: To,
}

enum To {
    /// Standard output, a device or a pipe: what is written is gone. After its reader has gone away,
    /// as `head` does, nothing more is written, and that is no error.
    Stream { to: BufWriter<File>, closed: bool },
    /// A file.
    Draft(Box<Draft>),
}

impl Out {
    /// For bytes, which a terminal does not take.
    pub fn bytes(output: &Output) -> Result<Out, Failure> {
        if output.path().is_none() && io::stdout().is_terminal() {
            return Err(Failure::Usage("bytes do not go to a terminal: name a file".into()));
        }
        Out::text(output)
    }

    /// For text.
    pub fn text(output: &Output) -> Result<Out, Failure> {
        let opened = match output.path() {
            None => io::stdout().as_fd().try_clone_to_owned().map(|fd| stream(File::from(fd))),
            Some(path) if path.is_dir() => Err(io::Error::other("a folder, not a file")),
            Some(path) if fs::metadata(path).is_ok_and(|data| !data.is_file()) => {
                File::options().write(true).open(path).map(stream)
            }
            Some(path) => {
                Target::of(path).and_then(Draft::open).map(|draft| To::Draft(Box::new(draft)))
            }
        };
        let to = opened.map_err(|error| failure(output, error))?;
        Ok(Out { name: output.to_string(), to })
    }

    /// True where what is written is dropped unless it is kept.
    pub fn can_take_back(&self) -> bool {
        matches!(self.to, To::Draft(_))
    }

    /// Writes.
    pub fn put(&mut self, bytes: &[u8]) -> Result<(), Failure> {
        self.write_all(bytes).map_err(|error| failure(&self.name, error))
    }

    /// What was written so far goes on its way.
    pub fn show_now(&mut self) -> Result<(), Failure> {
        self.flush().map_err(|error| failure(&self.name, error))
    }

    fn settle(&mut self) -> Result<(), Failure> {
        let settled = match &mut self.to {
            To::Draft(draft) => draft.settle(),
            To::Stream { .. } => self.flush(),
        };
        settled.map_err(|error| failure(&self.name, error))
    }

    fn draft(&mut self) -> Option<(&str, &mut Draft)> {
        match &mut self.to {
            To::Draft(draft) => Some((&self.name, draft)),
            To::Stream { .. } => None,
        }
    }
}

fn stream(file: File) -> To {
    To::Stream { to: BufWriter::with_capacity(1 << 16, file), closed: false }
}

impl Write for Out {
    fn write(&mut self, bytes: &[u8]) -> io::Result<usize> {
        match &mut self.to {
            To::Draft(draft) => draft.write(bytes),
            To::Stream { closed: true, .. } => Ok(bytes.len()),
            To::Stream { to, closed } => unless_closed(to.write(bytes), closed, bytes.len()),
        }
    }

    fn flush(&mut self) -> io::Result<()> {
        match &mut self.to {
            To::Draft(draft) => draft.flush(),
            To::Stream { closed: true, .. } => Ok(()),
            To::Stream { to, closed } => unless_closed(to.flush(), closed, ()),
        }
    }
}

/// What was done, or that the reader has gone away.
fn unless_closed<T>(done: io::Result<T>, closed: &mut bool, instead: T) -> io::Result<T> {
    match done {
        Err(error) if error.kind() == io::ErrorKind::BrokenPipe => {
            *closed = true;
            Ok(instead)
        }
        done => done,
    }
}

/// All is written: every file takes its place, or none.
pub fn keep(outs: impl IntoIterator<Item = Out>) -> Result<(), Failure> {
    let mut outs: Vec<Out> = outs.into_iter().collect();
    for out in &mut outs {
        out.settle()?;
    }
    let mut drafts: Vec<(&str, &mut Draft)> = outs.iter_mut().filter_map(Out::draft).collect();
    for (name, draft) in &mut drafts {
        draft.give_name().map_err(|error| failure(name, error))?;
    }
    if drafts.is_empty() {
        return Ok(());
    }
    sys::uncut(|| {
        for (name, draft) in &mut drafts {
            draft.place().map_err(|error| failure(name, error))?;
        }
        Ok(())
    })?;
    for (_, draft) in &drafts {
        draft.sync_folder();
    }
    Ok(())
}

/// Writes to standard output.
pub fn print(text: &str) -> Result<(), Failure> {
    let mut out = Out::text(&Output::standard())?;
    out.put(text.as_bytes())?;
    keep([out])
}

/// Writes a line to standard error, where there is someone to read it.
pub fn say(line: &str) {
    let _ = writeln!(io::stderr(), "{line}");
}
