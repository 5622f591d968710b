//! The save file of `GTKWave` beside a dump, so that it opens with the tracks in place.

use super::failure::Failure;
use super::files::Out;
use super::place::Output;
use std::path::PathBuf;

/// A save file that is to be written.
pub struct SaveFile {
    out: Out,
    dump: String,
    save: String,
}

/// Where the save file of a dump goes: beside it, `x.gtkw` for `x.vcd`. None where the dump is no
/// file, and none where one is there already: someone may have arranged its tracks.
pub fn beside(dump: &Output) -> Option<Output> {
    let path = dump.path()?;
    let is_dump = path.extension().is_some_and(|kind| kind.eq_ignore_ascii_case("vcd"));
    let save = if is_dump {
        path.with_extension("gtkw")
    } else {
        let mut name = path.file_name()?.to_os_string();
        name.push(".gtkw");
        path.with_file_name(name)
    };
    let device = std::fs::metadata(path).is_ok_and(|data| !data.is_file());
    let there = save.symlink_metadata().is_ok();
    let named = [path, &save].iter().all(|path| name_of(path).is_some());
    (!device && !there && named).then(|| Output::of(save.into_os_string()))
}

/// A file's name, where it can stand between quotes.
fn name_of(path: &std::path::Path) -> Option<String> {
    let name = path.file_name()?.to_str()?;
    (!name.contains(|c: char| c == '"' || c.is_control())).then(|| name.to_string())
}

impl SaveFile {
    /// For a dump, where it gets one.
    pub fn open(dump: &Output) -> Result<Option<SaveFile>, Failure> {
        let Some(output) = beside(dump) else {
            return Ok(None);
        };
        let out = Out::text(&output)?;
        let name = |output: &Output| output.path().map(PathBuf::from).and_then(|it| name_of(&it));
        Ok(name(dump).zip(name(&output)).map(|(dump, save)| SaveFile { out, dump, save }))
    }

    /// Its text, by the names of the dump and of the save file; then it is ready to be kept.
    pub fn write(mut self, text: impl FnOnce(&str, &str) -> String) -> Result<Out, Failure> {
        let text = text(&self.dump, &self.save);
        self.out.put(text.as_bytes())?;
        Ok(self.out)
    }
}
