//! A file on its way: it takes its place whole, or leaves nothing.
//!
//! It is written without any name where the system can do that (Linux, most file systems): then not
//! even a program that is killed leaves something behind. Elsewhere (FAT, NFS) it is written under a
//! hidden name that nobody else has, which is removed where the program fails or a signal ends it.

use super::failure::reason;
use super::sys;
use std::collections::hash_map::RandomState;
use std::fs::{self, File, Metadata, OpenOptions};
use std::hash::{BuildHasher, Hasher};
use std::io::{self, BufWriter, Write};
use std::os::fd::AsRawFd;
use std::os::unix::ffi::OsStrExt;
use std::os::unix::fs::{fchown, MetadataExt, OpenOptionsExt};
use std::path::{Path, PathBuf};

/// A file without a name, in a folder.
#[cfg(any(target_arch = "aarch64", target_arch = "arm"))]
const O_TMPFILE: i32 = 0o20_000_000 | 0o40_000;
#[cfg(not(any(target_arch = "aarch64", target_arch = "arm")))]
const O_TMPFILE: i32 = 0o20_000_000 | 0o200_000;

/// Links followed to a file at most.
const LINKS_MOST: usize = 40;
/// Names tried at most.
const TRIES: usize = 100;

/// The place that a draft will take: links followed, and the file that is there now.
pub struct Target {
    /// Where.
    pub path: PathBuf,
    /// The file that will be replaced.
    pub existing: Option<Metadata>,
}

impl Target {
    /// The place of a name.
    pub fn of(name: &Path) -> io::Result<Target> {
        if name.as_os_str().as_bytes().ends_with(b"/") {
            return Err(io::Error::other("a folder's name, not a file's"));
        }
        let mut path = name.to_path_buf();
        for _ in 0..LINKS_MOST {
            let Ok(link) = fs::read_link(&path) else {
                let existing = fs::metadata(&path).ok();
                return Ok(Target { path, existing });
            };
            path = folder_of(&path).join(link);
        }
        Err(io::Error::other("too many links, one to the other"))
    }

    /// Refuses a file that may not be written.
    fn check_writable(&self) -> io::Result<()> {
        let Some(existing) = &self.existing else {
            return Ok(());
        };
        if existing.permissions().readonly() {
            return Err(io::Error::other("the file is read-only"));
        }
        File::options().write(true).open(&self.path).map(drop)
    }
}

/// The folder that a file is in.
pub fn folder_of(path: &Path) -> PathBuf {
    match path.parent() {
        Some(folder) if !folder.as_os_str().is_empty() => folder.to_path_buf(),
        _ => PathBuf::from("."),
    }
}

/// A file on its way.
pub struct Draft {
    file: BufWriter<File>,
    target: Target,
    /// None while the file has no name.
    name: Option<Name>,
}

/// A name of the draft's own, which is removed with it.
struct Name {
    path: PathBuf,
    placed: bool,
    _watched: Option<sys::Doomed>,
}

impl Draft {
    /// Begins a file.
    pub fn open(target: Target) -> io::Result<Draft> {
        target.check_writable()?;
        let folder = folder_of(&target.path);
        if !folder.is_dir() {
            let words = format!("its folder {} is not there", folder.display());
            return Err(io::Error::other(words));
        }
        let file = unnamed(&folder);
        Draft::begin(target, file)
    }

    /// In a file without a name, or else in one with a name of its own.
    fn begin(target: Target, file: Option<File>) -> io::Result<Draft> {
        let (file, name) = if let Some(file) = file {
            (file, None)
        } else {
            let folder = folder_of(&target.path);
            named(&folder).map_err(|error| {
                let (folder, error) = (folder.display(), reason(&error));
                io::Error::other(format!("no file can be made in its folder {folder}: {error}"))
            })?
        };
        Ok(Draft { file: BufWriter::with_capacity(1 << 16, file), target, name })
    }

    /// All is written: the mode of the file that will be replaced, and everything on the disk.
    pub fn settle(&mut self) -> io::Result<()> {
        self.file.flush()?;
        let file = self.file.get_ref();
        if let Some(old) = &self.target.existing {
            // Its owner too, where the system allows that.
            let _ = fchown(file, Some(old.uid()), Some(old.gid()));
            file.set_permissions(old.permissions())?;
        }
        file.sync_all()
    }

    /// A file without a name gets one beside its place.
    pub fn give_name(&mut self) -> io::Result<()> {
        if self.name.is_none() {
            let file = self.file.get_ref();
            let ((), name) =
                fresh_name(&folder_of(&self.target.path), |path| sys::give_name(file, path))?;
            self.name = Some(name);
        }
        Ok(())
    }

    /// The file takes its place.
    pub fn place(&mut self) -> io::Result<()> {
        if let Some(name) = &mut self.name {
            fs::rename(&name.path, &self.target.path)?;
            name.placed = true;
        }
        Ok(())
    }

    /// The new name on the disk too; an error here loses nothing.
    pub fn sync_folder(&self) {
        if let Ok(folder) = File::open(folder_of(&self.target.path)) {
            let _ = folder.sync_all();
        }
    }
}

impl Write for Draft {
    fn write(&mut self, bytes: &[u8]) -> io::Result<usize> {
        self.file.write(bytes)
    }

    fn flush(&mut self) -> io::Result<()> {
        self.file.flush()
    }
}

impl Drop for Name {
    fn drop(&mut self) {
        if !self.placed {
            let _ = fs::remove_file(&self.path);
        }
    }
}

/// A file without a name, where it could get one later.
pub fn unnamed(folder: &Path) -> Option<File> {
    let mut options = OpenOptions::new();
    let file = options.read(true).write(true).custom_flags(O_TMPFILE).open(folder).ok()?;
    let seen = Path::new("/proc/self/fd").join(file.as_raw_fd().to_string());
    fs::symlink_metadata(seen).is_ok().then_some(file)
}

/// A file with a name of its own.
fn named(folder: &Path) -> io::Result<(File, Option<Name>)> {
    let (file, name) =
        fresh_name(folder, |path| OpenOptions::new().write(true).create_new(true).open(path))?;
    Ok((file, Some(name)))
}

/// Makes something under a name that nobody has.
fn fresh_name<T>(folder: &Path, make: impl Fn(&Path) -> io::Result<T>) -> io::Result<(T, Name)> {
    let mut tries = 0;
    loop {
        let number = RandomState::new().build_hasher().finish();
        let path = folder.join(format!(".swarmtempo-{}-{number:016x}", std::process::id()));
        let watched = sys::Doomed::watch(&path);
        tries += 1;
        match make(&path) {
            Ok(it) => return Ok((it, Name { path, placed: false, _watched: watched })),
            Err(error) if error.kind() == io::ErrorKind::AlreadyExists && tries < TRIES => {}
            Err(error) => return Err(error),
        }
    }
}

#[cfg(test)]
mod tests {
    use super::*;
    use std::process::{Command, Stdio};
    use std::time::{Duration, Instant};

    /// Names the folder to the test that is run in a process of its own.
    const FOLDER: &str = "SWARMTEMPO_TEST_FOLDER";

    fn folder(name: &str) -> PathBuf {
        let folder = std::env::temp_dir().join(format!("swarmtempo-{}-{name}", std::process::id()));
        fs::create_dir_all(&folder).expect("a folder");
        folder
    }

    fn names(folder: &Path) -> Vec<String> {
        let entries = fs::read_dir(folder).expect("a folder");
        entries.map(|it| it.expect("entry").file_name().into_string().expect("UTF-8")).collect()
    }

    /// As on a file system that has no files without a name.
    fn named_draft(folder: &Path) -> Draft {
        let target = Target::of(&folder.join("end.st")).expect("a place");
        let mut draft = Draft::begin(target, None).expect("begun");
        draft.write_all(b"image").expect("written");
        draft
    }

    #[test]
    fn under_a_name_it_is_whole_or_gone() {
        let folder = folder("named");
        let mut draft = named_draft(&folder);
        assert!(names(&folder)[0].starts_with(".swarmtempo-"));
        let other = named_draft(&folder);
        assert_eq!(names(&folder).len(), 2, "a name for each");
        drop(other);
        assert_eq!(names(&folder).len(), 1);
        draft.settle().expect("on the disk");
        draft.give_name().expect("has one");
        draft.place().expect("in its place");
        drop(draft);
        assert_eq!(names(&folder), ["end.st"]);
        assert_eq!(fs::read(folder.join("end.st")).expect("there"), b"image");
        fs::remove_dir_all(folder).expect("removed");
    }

    /// The signals that this process was told to ignore, as bits from 0 for signal 1.
    fn ignored() -> u64 {
        let status = fs::read_to_string("/proc/self/status").expect("Linux");
        let mask = status.lines().find_map(|line| line.strip_prefix("SigIgn:")).expect("a mask");
        u64::from_str_radix(mask.trim(), 16).expect("hexadecimal")
    }

    #[test]
    fn under_a_name_a_signal_takes_it_away() {
        let folder = folder("signal");
        for (signal, number) in [("TERM", 15), ("INT", 2), ("HUP", 1)] {
            if ignored() >> (number - 1) & 1 != 0 {
                println!("skipped: a file under a name and {signal}: ignored here, as by nohup");
                continue;
            }
            let mut command = Command::new(std::env::current_exe().expect("this program"));
            command.args(["--ignored", "--exact", "draft::tests::a_draft_that_waits"]);
            let command = command.env(FOLDER, &folder).stdout(Stdio::null());
            let mut child = command.spawn().expect("started");
            let start = Instant::now();
            while names(&folder).is_empty() && start.elapsed() < Duration::from_secs(20) {
                std::thread::sleep(Duration::from_millis(5));
            }
            assert_eq!(names(&folder).len(), 1, "begun");
            let number = child.id().to_string();
            let sent = Command::new("sh").args(["-c", "kill -s $0 $1", signal, &number]).status();
            assert!(sent.expect("sent").success());
            assert!(!child.wait().expect("ended").success());
            assert!(names(&folder).is_empty(), "{signal}");
        }
        fs::remove_dir_all(folder).expect("removed");
    }

    #[test]
    #[ignore = "the other test runs it, and ends it"]
    fn a_draft_that_waits() {
        if let Some(folder) = std::env::var_os(FOLDER) {
            let _draft = named_draft(Path::new(&folder));
            std::thread::sleep(Duration::from_secs(30));
        }
    }
}
