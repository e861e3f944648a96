//! The table of a service, `pidtabd`, by its socket: requests of RESP, and their answers.
use crate::{Argument, Call, Child, Ended, Error, Kind, Listing, Reaped, Refusal, Reply, Which};
use std::io::{self, BufRead, BufReader, Read, Write};
use std::os::unix::net::UnixStream;
use std::path::Path;
use std::time::Duration;
use std::{fmt, process};

/// No answer of a service has a longer line, in bytes, or arrays that stand deeper in one another.
const LONGEST_LINE: u64 = 1 << 16;
const DEEPEST: u32 = 8;

/// The longest time to live of a lease, in ms: a day.
const LONGEST_TTL: u64 = 86_400_000;

const NO_SERVICE: &str = "what answers is no service of pidtab";

/// A connection to a service, `pidtabd`: its calls are those of the one table of all clients, and are saved there as the service is told to save.
///
/// ```no_run
/// use pidtab::{Connected, Error};
///
/// let mut table = Connected::connect("unix:/run/pidtab.sock")?;
/// let child = table.fork_new(1)?;
/// match table.exit(child.root, 7) {
///     Err(Error::NotServed) => println!("{}", table.why()),
///     done => done?,
/// }
/// # Ok::<(), std::io::Error>(())
/// ```
///
/// What the service does not do for this connection is `NotServed`, and no call was made. After `Disconnected` the last call was made or was not, and the
/// connection is closed, as else the next answer would be that of another request: so it is if the service ends, if an answer does not come in time,
/// and in a forked child. [`Connected::why`] says why. Threads that share one have it in a `Mutex`. It is closed once it is dropped.
pub struct Connected {
    /// None: it is closed.
    stream: Option<BufReader<UnixStream>>,
    why: String,
    /// Whose connection it is. In a forked child that is another process.
    process: u32,
}

impl Connected {
    /// Connects to the service at `unix:/run/pidtab.sock`, or at a path alone. Each part of an answer is waited for as long as it takes.
    ///
    /// # Errors
    /// That of `connect(2)`.
    pub fn connect(address: impl AsRef<Path>) -> io::Result<Connected> {
        let address = address.as_ref();
        let path = address.to_str().and_then(|it| it.strip_prefix("unix:"));
        Ok(Connected::over(UnixStream::connect(
            path.map_or(address, Path::new),
        )?))
    }

    fn over(stream: UnixStream) -> Connected {
        Connected {
            stream: Some(BufReader::new(stream)),
            why: String::new(),
            process: process::id(),
        }
    }

    /// So long each part of an answer is waited for; none: as long as it takes.
    ///
    /// # Errors
    /// `InvalidInput` for no time at all; `NotConnected`.
    pub fn set_timeout(&mut self, timeout: Option<Duration>) -> io::Result<()> {
        let stream = self.stream.as_ref().ok_or(io::ErrorKind::NotConnected)?;
        stream.get_ref().set_read_timeout(timeout)?;
        stream.get_ref().set_write_timeout(timeout)
    }

    /// What the service has said last that it does not do, as `NOPERM this user may only ask`, or why the connection is closed. Empty before.
    pub fn why(&self) -> &str {
        &self.why
    }

    /// How many calls are recorded.
    ///
    /// # Errors
    /// `NotServed`, `Disconnected`.
    pub fn position(&mut self) -> Result<u64, Error> {
        match self.ask(&["PIDTAB.POSITION"])? {
            Answer::Number(position) => Ok(position),
            _ => Err(self.end(NO_SERVICE)),
        }
    }

    /// The list of the table, as `pidtab list` writes it.
    ///
    /// # Errors
    /// `NotServed`, `Disconnected`.
    pub fn list(&mut self) -> Result<String, Error> {
        match self.ask(&["PIDTAB.LIST"])? {
            Answer::Text(text) => Ok(text),
            _ => Err(self.end(NO_SERVICE)),
        }
    }

    /// The same list, read.
    ///
    /// # Errors
    /// `NotServed`, `Disconnected`.
    pub fn listing(&mut self) -> Result<Listing, Error> {
        let list = self.list()?;
        list.parse().map_err(|_| self.end(NO_SERVICE))
    }

    /// What this connection forks from now on ends so long after the last connection with the lease has gone: 0 to a day, in whole ms. Its name has 1 to 64
    /// visible characters of ASCII.
    ///
    /// # Errors
    /// `Argument` for a time that is too long; `NotServed`, also for such a name; `Disconnected`.
    pub fn lease(&mut self, name: &str, ttl: Duration) -> Result<(), Error> {
        let ms = u64::try_from(ttl.as_millis()).unwrap_or(u64::MAX);
        if let Some(outside) = Argument::outside("ttl", ms, 0u32, LONGEST_TTL) {
            return Err(Error::Argument(outside));
        }
        self.ask(&["PIDTAB.LEASE", name, &ms.to_string()]).map(drop)
    }

    /// Forgets the lease, whose tasks stay. Whether there was one.
    ///
    /// # Errors
    /// `NotServed`, `Disconnected`.
    pub fn release(&mut self, name: &str) -> Result<bool, Error> {
        match self.ask(&["PIDTAB.RELEASE", name])? {
            Answer::Number(count) => Ok(count == 1),
            _ => Err(self.end(NO_SERVICE)),
        }
    }

    /// The answer to a request, which is no error.
    fn ask(&mut self, words: &[&str]) -> Result<Answer, Error> {
        match self.exchange(words)? {
            Answer::Said(said) => Err(self.not_served(said)),
            answer => Ok(answer),
        }
    }

    fn not_served(&mut self, said: String) -> Error {
        self.why = said;
        Error::NotServed
    }

    fn exchange(&mut self, words: &[&str]) -> Result<Answer, Error> {
        if self.process != process::id() {
            return Err(self.end("the connection is that of the parent process"));
        }
        let stream = self.stream.as_mut().ok_or(Error::Disconnected)?;
        exchange(stream, words).map_err(|fault| self.end(&fault.to_string()))
    }

    /// Closes the connection.
    fn end(&mut self, why: &str) -> Error {
        if self.stream.take().is_some() {
            self.why = why.to_owned();
        }
        Error::Disconnected
    }
}

impl fmt::Debug for Connected {
    fn fmt(&self, to: &mut fmt::Formatter<'_>) -> fmt::Result {
        to.debug_struct("Connected").finish_non_exhaustive()
    }
}

impl Connected {
    /// As [`Table::call`](crate::Table::call).
    ///
    /// # Errors
    /// `NoMemory`, `Spent`, `NotServed`, `Disconnected`.
    pub fn call(&mut self, call: Call) -> Result<Reply, Error> {
        let line = call.line();
        let words: Vec<_> = ["PIDTAB.CALL"].into_iter().chain(line.split(' ')).collect();
        let answer = match self.exchange(&words)? {
            Answer::Said(said) => return self.refused(said),
            answer => answer,
        };
        reply_of(call, answer).ok_or_else(|| self.end(NO_SERVICE))
    }

    fn made<T>(
        &mut self,
        call: Call,
        read: impl FnOnce(Reply) -> Result<T, Reply>,
    ) -> Result<T, Error> {
        call.told(self.call(call)?, read)
    }

    /// A refusal of the table, or why the call was not made.
    fn refused(&mut self, said: String) -> Result<Reply, Error> {
        match (read_refusal(&said), said.as_str()) {
            (Some((errno, refusal)), _) => Ok(Reply::Refused { errno, refusal }),
            (None, "OOM no-memory") => Err(Error::NoMemory),
            (None, "ERR spent") => Err(Error::Spent),
            _ => Err(self.not_served(said)),
        }
    }
}

/// The calls, of the table of the service.
#[rustfmt::skip]
impl Connected {
    // Written by tools/interface: methods.
    /// As [`Table::fork`](crate::Table::fork), with its errors.
    pub fn fork(&mut self, caller: u32) -> Result<Child, Error> { self.made(Call::Fork { caller, new_space: false }, Reply::child) }
    /// As [`Table::fork_new`](crate::Table::fork_new), with its errors.
    pub fn fork_new(&mut self, caller: u32) -> Result<Child, Error> { self.made(Call::Fork { caller, new_space: true }, Reply::child) }
    /// As [`Table::getpid`](crate::Table::getpid), with its errors.
    pub fn getpid(&mut self, caller: u32) -> Result<u32, Error> { self.made(Call::Getpid { caller }, Reply::number) }
    /// As [`Table::nspid`](crate::Table::nspid), with its errors.
    pub fn nspid(&mut self, caller: u32, number: u32) -> Result<Vec<u32>, Error> { self.made(Call::Nspid { caller, number }, Reply::levels) }
    /// As [`Table::exec`](crate::Table::exec), with its errors.
    pub fn exec(&mut self, caller: u32) -> Result<(), Error> { self.made(Call::Exec { caller }, Reply::nothing) }
    /// As [`Table::exit`](crate::Table::exit), with its errors.
    pub fn exit(&mut self, caller: u32, status: u8) -> Result<(), Error> { self.made(Call::Exit { caller, status }, Reply::nothing) }
    /// As [`Table::wait`](crate::Table::wait), with its errors.
    pub fn wait(&mut self, caller: u32, which: Which) -> Result<Option<Reaped>, Error> { self.made(Call::Wait { caller, which }, Reply::reaped) }
    /// As [`Table::getppid`](crate::Table::getppid), with its errors.
    pub fn getppid(&mut self, caller: u32) -> Result<u32, Error> { self.made(Call::Getppid { caller }, Reply::number) }
    /// As [`Table::setpgid`](crate::Table::setpgid), with its errors.
    pub fn setpgid(&mut self, caller: u32, pid: i32, pgid: i32) -> Result<(), Error> { self.made(Call::Setpgid { caller, pid, pgid }, Reply::nothing) }
    /// As [`Table::setsid`](crate::Table::setsid), with its errors.
    pub fn setsid(&mut self, caller: u32) -> Result<u32, Error> { self.made(Call::Setsid { caller }, Reply::number) }
    /// As [`Table::mk`](crate::Table::mk), with its errors.
    pub fn mk(&mut self, parent: u64) -> Result<u64, Error> { self.made(Call::Mk { parent }, Reply::control) }
    /// As [`Table::rm`](crate::Table::rm), with its errors.
    pub fn rm(&mut self, id: u64) -> Result<(), Error> { self.made(Call::Rm { id }, Reply::nothing) }
    /// As [`Table::limit`](crate::Table::limit), with its errors.
    pub fn limit(&mut self, id: u64, limit: Option<u32>) -> Result<(), Error> { self.made(Call::Limit { id, limit }, Reply::nothing) }
    /// As [`Table::move_task`](crate::Table::move_task), with its errors.
    pub fn move_task(&mut self, task: u32, id: u64) -> Result<(), Error> { self.made(Call::Move { task, id }, Reply::nothing) }
    /// As [`Table::count`](crate::Table::count), with its errors.
    pub fn count(&mut self, id: u64) -> Result<u64, Error> { self.made(Call::Count { id }, Reply::counted) }
    /// As [`Table::getpgid`](crate::Table::getpgid), with its errors.
    pub fn getpgid(&mut self, caller: u32, pid: u32) -> Result<u32, Error> { self.made(Call::Getpgid { caller, pid }, Reply::number) }
    /// As [`Table::getsid`](crate::Table::getsid), with its errors.
    pub fn getsid(&mut self, caller: u32, pid: u32) -> Result<u32, Error> { self.made(Call::Getsid { caller, pid }, Reply::number) }
    /// As [`Table::next`](crate::Table::next), with its errors.
    pub fn next(&mut self, caller: u32, kind: Kind, from: u32) -> Result<Option<u32>, Error> { self.made(Call::Next { caller, kind, from }, Reply::next_one) }
    /// As [`Table::join`](crate::Table::join), with its errors.
    pub fn join(&mut self, caller: u32, number: u32) -> Result<(), Error> { self.made(Call::Join { caller, number }, Reply::nothing) }
    /// As [`Table::subreaper`](crate::Table::subreaper), with its errors.
    pub fn subreaper(&mut self, caller: u32, on: bool) -> Result<(), Error> { self.made(Call::Subreaper { caller, on }, Reply::nothing) }
    // The end of methods.
}

/// An answer of RESP.
#[derive(Debug, PartialEq)]
enum Answer {
    Text(String),
    Number(u64),
    Parts(Vec<Answer>),
    Nil,
    /// An error.
    Said(String),
}

impl Answer {
    /// A number of a process.
    fn pid(&self) -> Option<u32> {
        match self {
            Answer::Number(number) => u32::try_from(*number).ok(),
            _ => None,
        }
    }

    fn ended(&self) -> Option<Ended> {
        match self {
            Answer::Number(status) => u8::try_from(*status).ok().map(Ended::Exited),
            Answer::Text(word) if word == "killed" => Some(Ended::Killed),
            _ => None,
        }
    }
}

/// The reply that an answer to the call is; none: no service answers so.
fn reply_of(call: Call, answer: Answer) -> Option<Reply> {
    match (call, answer) {
        (Call::Fork { .. }, Answer::Parts(parts)) => match &parts[..] {
            [number, root] => Some(Reply::Forked(Child {
                number: number.pid()?,
                root: root.pid()?,
            })),
            _ => None,
        },
        (Call::Wait { .. }, Answer::Parts(parts)) => match &parts[..] {
            [child, ended] => Some(Reply::Reaped(Reaped {
                child: child.pid()?,
                ended: ended.ended()?,
            })),
            _ => None,
        },
        (Call::Wait { .. }, Answer::Nil) => Some(Reply::NoneYet),
        (Call::Next { .. }, Answer::Nil) => Some(Reply::End),
        (Call::Nspid { .. }, Answer::Parts(parts)) => {
            let numbers: Option<Vec<_>> = parts.iter().map(Answer::pid).collect();
            numbers.map(Reply::Levels)
        }
        (Call::Mk { .. }, Answer::Number(id)) => Some(Reply::Control(id)),
        (Call::Count { .. }, Answer::Number(count)) => Some(Reply::Counted(count)),
        (call, answer @ Answer::Number(_)) if tells_a_number(call) => {
            answer.pid().map(Reply::Number)
        }
        (call, Answer::Text(word)) if word == "OK" && tells_nothing(call) => Some(Reply::Done),
        _ => None,
    }
}

fn tells_a_number(call: Call) -> bool {
    use Call::*;
    matches!(
        call,
        Getpid { .. }
            | Getppid { .. }
            | Setsid { .. }
            | Getpgid { .. }
            | Getsid { .. }
            | Next { .. }
    )
}

fn tells_nothing(call: Call) -> bool {
    use Call::*;
    matches!(
        call,
        Exec { .. }
            | Exit { .. }
            | Setpgid { .. }
            | Rm { .. }
            | Limit { .. }
            | Move { .. }
            | Join { .. }
            | Subreaper { .. }
    )
}

/// `EAGAIN pids-limit 7`; none: it is no refusal of the table.
fn read_refusal(said: &str) -> Option<(i32, Refusal)> {
    let words: Vec<_> = said.split(' ').collect();
    let id = words.get(2).map_or(Some(0), |it| it.parse().ok())?;
    let found = refusal_by(words[0], words.get(1)?, id)?;
    let has_id = found.1.to_string().contains(' ');
    (words.len() == 2 + usize::from(has_id)).then_some(found)
}

// Written by tools/interface: refusals by words.
/// The errno and the refusal that an answer names, of whatever has the id.
fn refusal_by(errno: &str, word: &str, id: u64) -> Option<(i32, Refusal)> {
    Some(match (errno, word) {
        ("ESRCH", "no-caller") => (3, Refusal::NoCaller),
        ("ESRCH", "no-task") => (3, Refusal::NoTask),
        ("ECHILD", "no-child") => (10, Refusal::NoChild),
        ("EAGAIN", "no-number") => (11, Refusal::NoNumber(id)),
        ("EAGAIN", "pids-limit") => (11, Refusal::PidsLimit(id)),
        ("ENOMEM", "space-fallen") => (12, Refusal::SpaceFallen),
        ("ENOSPC", "too-deep") => (28, Refusal::TooDeep),
        ("EINVAL", "elsewhere") => (22, Refusal::Elsewhere),
        ("EINVAL", "bad-group") => (22, Refusal::BadGroup),
        ("EPERM", "other-session") => (1, Refusal::OtherSession),
        ("EPERM", "is-leader") => (1, Refusal::IsLeader),
        ("EPERM", "no-group") => (1, Refusal::NoGroup),
        ("EACCES", "executed") => (13, Refusal::Executed),
        ("EBUSY", "root-init") => (16, Refusal::RootInit),
        ("ENOENT", "no-control") => (2, Refusal::NoControl),
        ("EBUSY", "control-busy") => (16, Refusal::ControlBusy),
        ("EINVAL", "root-control") => (22, Refusal::RootControl),
        ("EINVAL", "bad-limit") => (22, Refusal::BadLimit),
        ("EAGAIN", "control-depth") => (11, Refusal::ControlDepth),
        _ => return None,
    })
}
// The end of refusals by words.

fn exchange(stream: &mut BufReader<UnixStream>, words: &[&str]) -> io::Result<Answer> {
    let mut request = format!("*{}\r\n", words.len());
    for word in words {
        request += &format!("${}\r\n{word}\r\n", word.len());
    }
    let Err(fault) = stream.get_mut().write_all(request.as_bytes()) else {
        return read_answer(stream, 0);
    };
    // Who is turned away is told why before.
    match read_answer(stream, 0) {
        Ok(said @ Answer::Said(_)) => Ok(said),
        _ => Err(fault),
    }
}

/// The next answer, which stands so deep in others. It takes no more room than has come.
fn read_answer(reader: &mut impl BufRead, depth: u32) -> io::Result<Answer> {
    let line = read_line(reader)?;
    let (kind, rest) = line.split_at(line.chars().next().map_or(0, char::len_utf8));
    let no_service = || {
        let said: String = line.chars().take(200).collect();
        io::Error::new(
            io::ErrorKind::InvalidData,
            format!("{NO_SERVICE}: {said:?}"),
        )
    };
    match (kind, rest) {
        ("+", _) => Ok(Answer::Text(rest.to_owned())),
        ("-", _) => Ok(Answer::Said(rest.to_owned())),
        ("$" | "*", "-1") => Ok(Answer::Nil),
        _ => {
            let number = rest.parse().map_err(|_| no_service())?;
            match kind {
                ":" => Ok(Answer::Number(number)),
                "$" => read_text(reader, number),
                "*" if depth < DEEPEST => (0..number)
                    .map(|_| read_answer(reader, depth + 1))
                    .collect::<io::Result<_>>()
                    .map(Answer::Parts),
                _ => Err(no_service()),
            }
        }
    }
}

fn read_line(reader: &mut impl BufRead) -> io::Result<String> {
    let mut line = Vec::new();
    reader.take(LONGEST_LINE).read_until(b'\n', &mut line)?;
    match line.strip_suffix(b"\r\n") {
        Some(line) => Ok(String::from_utf8_lossy(line).into_owned()),
        None if line.len() as u64 == LONGEST_LINE || line.ends_with(b"\n") => {
            Err(io::Error::new(io::ErrorKind::InvalidData, NO_SERVICE))
        }
        None => Err(ended()),
    }
}

fn read_text(reader: &mut impl BufRead, size: u64) -> io::Result<Answer> {
    let (mut text, mut end) = (Vec::new(), [0; 2]);
    if reader.take(size).read_to_end(&mut text)? as u64 != size {
        return Err(ended());
    }
    reader.read_exact(&mut end).map_err(|_| ended())?;
    Ok(Answer::Text(String::from_utf8_lossy(&text).into_owned()))
}

fn ended() -> io::Error {
    io::Error::new(io::ErrorKind::UnexpectedEof, "the service has ended")
}

#[cfg(test)]
mod tests {
    use super::*;

    /// A connection whose peer sends the bytes and ends.
    fn sent(bytes: &[u8]) -> Connected {
        let (here, mut there) = UnixStream::pair().expect("two sockets");
        there.write_all(bytes).expect("room");
        Connected::over(here)
    }

    #[test]
    fn refusals_are_read() {
        let read = |said| read_refusal(said);
        assert_eq!(read("ESRCH no-caller"), Some((3, Refusal::NoCaller)));
        assert_eq!(
            read("EAGAIN pids-limit 7"),
            Some((11, Refusal::PidsLimit(7)))
        );
        for wrong in [
            "",
            "ESRCH",
            "ESRCH no-caller 7",
            "EAGAIN pids-limit",
            "EAGAIN pids-limit x",
            "EPERM no-caller",
            "ERR spent",
        ] {
            assert_eq!(read(wrong), None, "{wrong}");
        }
    }

    #[test]
    fn a_peer_that_is_no_service() {
        let deep = "*1\r\n".repeat(1000);
        let wrong: [&[u8]; 16] = [
            b"",
            b"HTTP/1.1 400 Bad Request\r\n",
            deep.as_bytes(),
            b"$-5\r\n",
            b":x\r\n",
            b":-1\r\n",
            b"*99999999999999999999\r\n",
            b"*9999999999999\r\n:1\r\n",
            b"$9999999999999\r\nx",
            &[b'x'; 100_000],
            b"*2\r\n",
            b"\r\n",
            b"+OK",
            b"+\xff\r\n",
            b"*1\r\n:1\r\n",
            b":4294967296\r\n",
        ];
        for bytes in wrong {
            let mut table = sent(bytes);
            assert_eq!(table.getpid(1), Err(Error::Disconnected), "{bytes:?}");
            assert!(!table.why().is_empty());
            assert_eq!(table.position(), Err(Error::Disconnected));
        }
        let mut table = sent(b"$2\r\nOK\r\n");
        assert_eq!(table.fork(1), Err(Error::Disconnected));
    }

    /// Arrays in arrays end after eight.
    #[test]
    fn how_deep_answers_are() {
        for (depth, is_read) in [(1, true), (8, true), (9, false)] {
            let text = "*1\r\n".repeat(depth) + ":1\r\n";
            let read = read_answer(&mut text.as_bytes(), 0);
            assert_eq!(read.is_ok(), is_read, "{depth}");
        }
    }

    /// What a service has said before it closed the connection is what the next request is told.
    #[test]
    fn who_is_turned_away_is_told_why() {
        let mut table = sent(b"-ERR max number of clients reached\r\n");
        assert_eq!(table.fork(1), Err(Error::NotServed));
        assert_eq!(table.why(), "ERR max number of clients reached");
        assert_eq!(table.fork(1), Err(Error::Disconnected));
        assert!(table.set_timeout(None).is_err());
    }

    #[test]
    fn a_forked_child() {
        let mut table = sent(b":1\r\n");
        table.process += 1;
        assert_eq!(table.getpid(1), Err(Error::Disconnected));
        assert_eq!(table.why(), "the connection is that of the parent process");
    }
}
