//! The directory of a table: `snap-N` is its text after N entries, `log-N` has the entries from the ordinal N on in the form of docs/SAVED.md,
//! `current` names the newest log, `identity` tells the table from others, and `lock` is held.
use nix::unistd::geteuid;
use std::fs::{self, File, OpenOptions, TryLockError};
use std::io::{self, Read, Write};
use std::os::unix::fs::{MetadataExt, OpenOptionsExt};
use std::path::{Path, PathBuf};

/// How many workers a head has: the seats of the service.
pub const SEATS: u32 = 16;

/// What may be there besides the snapshots and the logs.
const OTHERS: [&str; 5] = ["lock", "current", "identity", "leases", "lost+found"];

/// Files that are being written have this end, and are nothing yet.
const NEW: &str = ".new";

pub struct Directory {
    pub path: PathBuf,
    guard: File,
}

/// What there is, each by its ordinal, the least first.
#[derive(Debug, Default, PartialEq)]
pub struct Files {
    pub snapshots: Vec<u64>,
    pub logs: Vec<u64>,
}

/// A sentence that names the place.
pub type Fault = String;

/// Which file a fault is of.
pub fn fault_at<T: std::fmt::Display>(path: &Path) -> impl Fn(T) -> Fault {
    let path = path.display().to_string();
    move |why| format!("{path}: {why}")
}

impl Directory {
    /// Takes the directory for this process, if it is one of its own.
    pub fn take(path: &Path) -> Result<Directory, Fault> {
        let (owner, user) = (owner_of(path)?, geteuid().as_raw());
        if owner != user {
            return Err(fault_at(path)(format!("belongs to the user {owner}, and this process is the user {user}'s")));
        }
        let mut options = OpenOptions::new();
        options.read(true).write(true).create(true).truncate(false).mode(0o600);
        Directory::list(path)?;
        let place = path.join("lock");
        let guard = options.open(&place).map_err(fault_at(&place))?;
        Directory::hold(path, &place, guard)
    }

    /// The same to read it alone, whoever it belongs to: nothing is made there.
    pub fn look(path: &Path) -> Result<Directory, Fault> {
        owner_of(path)?;
        Directory::list(path)?;
        let place = path.join("lock");
        match File::open(&place) {
            Ok(guard) => Directory::hold(path, &place, guard),
            Err(error) if error.kind() == io::ErrorKind::NotFound => {
                let guard = File::open(path).map_err(fault_at(path))?;
                Ok(Directory { path: path.to_owned(), guard })
            }
            Err(error) => Err(fault_at(&place)(error)),
        }
    }

    fn hold(path: &Path, place: &Path, guard: File) -> Result<Directory, Fault> {
        match guard.try_lock() {
            Ok(()) => Ok(Directory { path: path.to_owned(), guard }),
            Err(TryLockError::WouldBlock) => Err(fault_at(place)("another pidtabd has this directory")),
            Err(TryLockError::Error(error)) => Err(fault_at(place)(error)),
        }
    }

    /// Whether it has nothing of a table.
    pub fn is_new(&self) -> Result<bool, Fault> {
        let has_one = self.files()? != Files::default() || self.identity()?.is_some() || self.current()?.is_some();
        Ok(!has_one && !self.former_leases().exists())
    }

    /// The same for another thread.
    pub fn again(&self) -> Result<Directory, Fault> {
        let guard = self.guard.try_clone().map_err(fault_at(&self.path))?;
        Ok(Directory { path: self.path.clone(), guard })
    }

    /// The snapshots and the logs. A file that is none of these says that the directory is another's.
    pub fn files(&self) -> Result<Files, Fault> {
        Directory::list(&self.path)
    }

    fn list(path: &Path) -> Result<Files, Fault> {
        let mut files = Files::default();
        for entry in fs::read_dir(path).map_err(fault_at(path))? {
            let name = entry.map_err(fault_at(path))?.file_name();
            let name = name.to_string_lossy();
            if let Some(ordinal) = ordinal_of(&name, "snap-") {
                files.snapshots.push(ordinal);
            } else if let Some(ordinal) = ordinal_of(&name, "log-") {
                files.logs.push(ordinal);
            } else if !OTHERS.contains(&&*name) && !name.ends_with(NEW) && !name.starts_with("old-") {
                return Err(fault_at(path)(format!(
                    "has {name:?}, which is no file of pidtabd: give it a directory of its own"
                )));
            }
        }
        files.snapshots.sort_unstable();
        files.logs.sort_unstable();
        Ok(files)
    }

    pub fn log(&self, base: u64) -> PathBuf {
        self.path.join(format!("log-{base:020}"))
    }

    pub fn snapshot(&self, ordinal: u64) -> PathBuf {
        self.path.join(format!("snap-{ordinal:020}"))
    }

    /// Where a former release had its leases.
    pub fn former_leases(&self) -> PathBuf {
        self.path.join("leases")
    }

    /// The log has them now.
    pub fn remove_former_leases(&self) -> Result<(), Fault> {
        let path = self.former_leases();
        fs::remove_file(&path).and_then(|()| self.sync()).map_err(fault_at(&path))
    }

    /// What was created, renamed or removed is so on the disk.
    pub fn sync(&self) -> io::Result<()> {
        File::open(&self.path)?.sync_all()
    }

    /// A whole file: under another name first, so that it is there whole or not at all.
    pub fn write(&self, path: &Path, parts: &[&[u8]]) -> io::Result<()> {
        self.put(path, parts)?;
        self.sync()
    }

    /// The same, whose name is not on the disk yet.
    pub fn put(&self, path: &Path, parts: &[&[u8]]) -> io::Result<File> {
        let mut new = path.as_os_str().to_owned();
        new.push(NEW);
        let mut options = OpenOptions::new();
        let mut file = options.write(true).create(true).truncate(true).mode(0o600).open(&new)?;
        parts.iter().try_for_each(|it| file.write_all(it))?;
        file.sync_all()?;
        fs::rename(&new, path)?;
        Ok(file)
    }

    /// Says which log is the newest.
    pub fn set_current(&self, base: u64) -> io::Result<()> {
        self.write(&self.path.join("current"), &[format!("log-{base:020}\n").as_bytes()])
    }

    /// The log that was the newest when that was written last. A log that came later is not in it yet.
    pub fn current(&self) -> Result<Option<u64>, Fault> {
        let path = self.path.join("current");
        let mut text = String::new();
        match File::open(&path).and_then(|it| it.take(64).read_to_string(&mut text)) {
            Err(error) if error.kind() == io::ErrorKind::NotFound => Ok(None),
            Err(error) => Err(fault_at(&path)(error)),
            Ok(_) => {
                let base = text.strip_suffix('\n').and_then(|it| ordinal_of(it, "log-"));
                base.map(Some).ok_or_else(|| fault_at(&path)("names no log"))
            }
        }
    }

    /// What tells the table from all others, if it is there.
    pub fn identity(&self) -> Result<Option<String>, Fault> {
        let path = self.path.join("identity");
        match fs::read_to_string(&path) {
            Err(error) if error.kind() == io::ErrorKind::NotFound => Ok(None),
            Err(error) => Err(fault_at(&path)(error)),
            Ok(text) => {
                let identity = text.strip_suffix('\n').filter(|it| is_identity(it));
                identity.map(|it| Some(it.to_owned())).ok_or_else(|| fault_at(&path)("has no identity"))
            }
        }
    }

    pub fn set_identity(&self, identity: &str) -> Result<(), Fault> {
        let path = self.path.join("identity");
        self.write(&path, &[identity.as_bytes(), b"\n"]).map_err(fault_at(&path))
    }

    /// Takes away, or renames, what a snapshot has made needless. What cannot be taken away is tried again behind the next one.
    pub fn put_away(&self, below: u64, archive: bool) -> io::Result<()> {
        let files = self.files().map_err(io::Error::other)?;
        let logs = files.logs.into_iter().filter(|it| *it < below).map(|it| self.log(it));
        let snapshots = files.snapshots.into_iter().filter(|it| *it < below).map(|it| self.snapshot(it));
        for path in logs.chain(snapshots) {
            if archive {
                let name = path.file_name().unwrap_or_default().to_string_lossy();
                fs::rename(&path, path.with_file_name(format!("old-{name}")))?;
            } else {
                fs::remove_file(&path)?;
            }
        }
        Ok(())
    }
}

/// Whose the directory is, if nobody else may write it.
fn owner_of(path: &Path) -> Result<u32, Fault> {
    let about = fs::metadata(path).map_err(fault_at(path))?;
    if !about.is_dir() {
        return Err(fault_at(path)("is no directory"));
    }
    if about.mode() & 0o022 != 0 {
        return Err(fault_at(path)("may be written by others: `chmod go-w` it"));
    }
    Ok(about.uid())
}

/// 128 random bits.
pub fn new_identity() -> Result<String, Fault> {
    let (path, mut bytes) = (Path::new("/dev/urandom"), [0; 16]);
    File::open(path).and_then(|mut it| it.read_exact(&mut bytes)).map_err(fault_at(path))?;
    Ok(format!("{:032x}", u128::from_be_bytes(bytes)))
}

pub fn is_identity(word: &str) -> bool {
    word.len() == 32 && word.bytes().all(|it| matches!(it, b'0'..=b'9' | b'a'..=b'f'))
}

/// The ordinal in a name with 20 digits behind the front.
fn ordinal_of(name: &str, front: &str) -> Option<u64> {
    let digits = name.strip_prefix(front).filter(|it| it.len() == 20)?;
    digits.bytes().all(|it| it.is_ascii_digit()).then(|| digits.parse().ok())?
}
