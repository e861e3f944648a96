//! The command line.
use crate::allowed::Allowed;
use crate::engine::Keep;
use crate::log::Sync;
use lexopt::prelude::*;
use lexopt::Parser;
use std::ffi::OsString;
use std::path::PathBuf;

pub const USAGE: &str = "\
usage: pidtabd [OPTION ..]
  --socket PATH       a Unix socket; without it those that systemd passes
  --mode OCTAL        the socket's mode (0600)
  --allow WHO,..      who may connect: UID, NAME or %GROUP; with :ro he may only ask, with :below=CGROUP he
                      makes and ends tasks below that cgroup alone, an id or a path (whoever the mode lets)
  --allow-file FILE   the same, a WHO a line, which SIGHUP has read again
  --dir DIR           where the log and the snapshots are (nothing is kept)
  --fsync WHEN        no, everysec, always (everysec)
  --segment BYTES     of the log, before a snapshot is made: 4096 or more (67108864)
  --archive           what a snapshot makes needless is renamed, not removed
  --pid-max N         of a new table: 301 to 4194304 (32768)
  --follow SOCKET     has the table of the service there, until TAKEOVER
  --max-clients N     1 to 100000 (1000)
  --max-user-clients N  of a user, but root and the daemon's own (half of --max-clients)
  --max-controls N    how many cgroups there may be (65536)
  --max-output BYTES  of LIST and DUMP that wait to be taken (268435456)
  --reap              what a lease has ended is waited for, where task 1 has to
  --stall SECONDS     who takes no answer for so long is closed: 1 to 86400 (60)
  --slowlog-log-slower-than N  SLOWLOG has what takes so many microseconds: 0 or more (10000)
  --metrics SOCKET    writes the figures of the service there for Prometheus, and ends
  --check DIR         writes what the directory has, or what is wrong with it, and ends; it changes nothing
  --copy SOCKET DIR   writes the table of the service there into an empty directory, and ends
  --commands          writes the table of commands, and ends
  --version, --help
";

/// What a user may do.
#[derive(Clone, Copy, Debug, PartialEq)]
pub enum Rights {
    All,
    /// He may ask, and make no call.
    Asks,
    /// He may ask, and make calls by tasks in the cgroup and those below it.
    Below(u64),
    /// The same, and the cgroup is not there yet.
    BelowNone,
}

#[derive(Clone, Debug)]
pub struct Options {
    pub socket: Option<PathBuf>,
    pub mode: u32,
    pub allowed: Allowed,
    pub keep: Keep,
    pub follow: Option<PathBuf>,
    pub most_clients: usize,
    pub most_user_clients: Option<usize>,
    pub most_output: usize,
    pub stall: u64,
    /// In microseconds.
    pub slower_than: u64,
    /// What a lease has ended is waited for, where task 1 has to.
    pub reaps: bool,
}

/// What the command line asks for.
pub enum Wanted {
    Serve(Box<Options>),
    Help,
    Version,
    Commands,
    /// The figures of the service at that socket.
    Metrics(PathBuf),
    /// What the directory has.
    Check(PathBuf),
    /// The table of the service at that socket, in an empty directory.
    Copy {
        socket: PathBuf,
        directory: PathBuf,
    },
}

impl Default for Options {
    fn default() -> Options {
        let (path, sync, segment, archive) = (None, Sync::EverySecond, 64 << 20, false);
        Options {
            socket: None,
            mode: 0o600,
            allowed: Allowed::default(),
            keep: Keep { path, sync, segment, archive, pid_max: 32768, most_controls: 65536 },
            follow: None,
            most_clients: 1000,
            most_user_clients: None,
            most_output: 256 << 20,
            stall: 60,
            slower_than: 10_000,
            reaps: false,
        }
    }
}

/// The options behind which a value comes.
const WITH_VALUES: [&str; 15] = [
    "socket",
    "follow",
    "dir",
    "mode",
    "allow",
    "allow-file",
    "fsync",
    "segment",
    "pid-max",
    "max-clients",
    "max-user-clients",
    "max-controls",
    "max-output",
    "stall",
    "slowlog-log-slower-than",
];

/// Reads the command line. What is wrong with it is a sentence.
pub fn read(line: impl IntoIterator<Item = OsString> + 'static) -> Result<Wanted, String> {
    let mut parser = Parser::from_args(line);
    let (mut options, mut words) = (Options::default(), Words::default());
    while let Some(word) = parser.next().map_err(|fault| fault.to_string())? {
        match word {
            Long("help") => return Ok(Wanted::Help),
            Long("version") => return Ok(Wanted::Version),
            Long("commands") => return Ok(Wanted::Commands),
            Long("metrics") => return Ok(Wanted::Metrics(path(&mut parser)?)),
            Long("check") => return Ok(Wanted::Check(path(&mut parser)?)),
            Long("copy") => {
                let (socket, directory) = (path(&mut parser)?, path(&mut parser)?);
                return Ok(Wanted::Copy { socket, directory });
            }
            Long("archive") => options.keep.archive = true,
            Long("reap") => options.reaps = true,
            Long(name) if !WITH_VALUES.contains(&name) => return Err(format!("there is no option --{name}")),
            Long(name) => {
                let name = name.to_owned();
                let value = parser.value().map_err(|fault| fault.to_string())?;
                take(&mut options, &mut words, &name, value)?;
            }
            other => return Err(other.unexpected().to_string()),
        }
    }
    options.allowed = Allowed::read(&words.allow, words.allow_file)?;
    Ok(Wanted::Serve(Box::new(options)))
}

fn path(parser: &mut Parser) -> Result<PathBuf, String> {
    parser.value().map(PathBuf::from).map_err(|fault| fault.to_string())
}

/// What is read once all options are there.
#[derive(Default)]
struct Words {
    allow: String,
    allow_file: Option<PathBuf>,
}

fn take(options: &mut Options, words: &mut Words, name: &str, value: OsString) -> Result<(), String> {
    let path = PathBuf::from(&value);
    let word = value.to_string_lossy();
    let number = |least, most| number(name, &word, least, most);
    match name {
        "socket" => options.socket = Some(path),
        "follow" => options.follow = Some(path),
        "dir" => options.keep.path = Some(path),
        "mode" => {
            options.mode =
                u32::from_str_radix(&word, 8).ok().filter(|it| *it <= 0o777).ok_or("--mode is three octal digits")?
        }
        "allow" => words.allow = word.into_owned(),
        "allow-file" => words.allow_file = Some(path),
        "fsync" => options.keep.sync = sync(&word)?,
        "segment" => options.keep.segment = number(4096, u64::MAX)?,
        "pid-max" => options.keep.pid_max = number(301, 4_194_304)? as u32,
        "max-clients" => options.most_clients = number(1, 100_000)? as usize,
        "max-user-clients" => options.most_user_clients = Some(number(1, 100_000)? as usize),
        "max-controls" => options.keep.most_controls = number(0, u64::MAX)? as usize,
        "max-output" => options.most_output = number(1, u64::MAX)? as usize,
        "stall" => options.stall = number(1, 86_400)?,
        "slowlog-log-slower-than" => options.slower_than = number(0, u64::MAX)?,
        _ => return Err(format!("there is no option --{name}")),
    }
    Ok(())
}

fn number(name: &str, word: &str, least: u64, most: u64) -> Result<u64, String> {
    let read = crate::resp::number(word.as_bytes(), most).filter(|it| *it >= least);
    read.ok_or_else(|| format!("--{name} is a number from {least} to {most}"))
}

fn sync(word: &str) -> Result<Sync, String> {
    let all = [Sync::Never, Sync::EverySecond, Sync::Always];
    let found = all.into_iter().find(|it| it.word() == word);
    found.ok_or_else(|| "--fsync is no, everysec or always".to_owned())
}

#[cfg(test)]
mod tests {
    use super::*;

    fn options(words: &[&str]) -> Result<Options, String> {
        match read(words.iter().map(OsString::from).collect::<Vec<_>>())? {
            Wanted::Serve(options) => Ok(*options),
            _ => Err("not served".to_owned()),
        }
    }

    #[test]
    fn they_are_read() {
        let read = options(&[
            "--dir",
            "/d",
            "--fsync=always",
            "--allow",
            "0,7:ro,8:below=5",
            "--segment",
            "4096",
            "--archive",
        ])
        .expect("options");
        assert_eq!((read.keep.sync, read.keep.segment, read.keep.archive), (Sync::Always, 4096, true));
        assert_eq!(
            (read.allowed.rights_of(7, 7, |_| None), read.allowed.rights_of(8, 8, |_| None)),
            (Some(Rights::Asks), Some(Rights::Below(5)))
        );
        assert_eq!((read.mode, read.keep.pid_max, read.stall), (0o600, 32768, 60));
    }

    #[test]
    fn what_is_wrong_is_said() {
        let wrong: [&[&str]; 16] = [
            &["--nothing", "x"],
            &["--pid-max", "300"],
            &["--fsync", "often"],
            &["--allow", "x"],
            &["--allow", "1:rw"],
            &["--allow", "1:"],
            &["--allow", "1:below="],
            &["--mode", "888"],
            &["--mode", "7777"],
            &["--segment", "4095"],
            &["word"],
            &["--stall"],
            &["--metrics"],
            &["--check"],
            &["--copy", "socket"],
            &["--slowlog-log-slower-than", "-1"],
        ];
        assert_eq!(wrong.iter().find(|it| options(it).is_ok()), None);
        assert_eq!(options(&["--nosuch"]).unwrap_err(), "there is no option --nosuch");
        assert_eq!(options(&["--dir"]).unwrap_err(), "missing argument for option '--dir'");
    }
}
