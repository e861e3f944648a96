//! Why a call has no other answer.
use crate::{raw, Argument, Call};
use std::{fmt, io};

// Written by tools/interface: refusals.
/// Why the table refuses a call. Nothing has changed then, but that the call is counted. More refusals may come.
#[derive(Clone, Copy, Debug, PartialEq, Eq, Hash)]
#[non_exhaustive]
pub enum Refusal {
    /// No live task has the caller's root number.
    NoCaller,
    /// No task is there, or none that the call may be made on.
    NoTask,
    /// No child matches.
    NoChild,
    /// The namespace with the id has no free number.
    NoNumber(u64),
    /// The control group with the id has as many tasks as its limit allows.
    PidsLimit(u64),
    /// The namespace for the caller's children has fallen.
    SpaceFallen,
    /// A namespace below one of level 32, the deepest.
    TooDeep,
    /// A new namespace from a caller whose children go into another namespace.
    Elsewhere,
    /// A negative process group.
    BadGroup,
    /// A child in another session.
    OtherSession,
    /// A session leader, or a process group leader.
    IsLeader,
    /// No such process group in the caller's session.
    NoGroup,
    /// A child that has executed.
    Executed,
    /// The exit of the root namespace's init.
    RootInit,
    /// No control group has the id.
    NoControl,
    /// A control group with live tasks or children.
    ControlBusy,
    /// The root control group, which has no limit and stays.
    RootControl,
    /// A limit above 4194304.
    BadLimit,
    /// A control group below one of level 64, the deepest.
    ControlDepth,
}

impl Refusal {
    /// The refusal with the number, of whatever has the id.
    pub(crate) fn of(number: u32, id: u64) -> Refusal {
        match number {
            1 => Refusal::NoCaller,
            2 => Refusal::NoTask,
            3 => Refusal::NoChild,
            4 => Refusal::NoNumber(id),
            5 => Refusal::PidsLimit(id),
            6 => Refusal::SpaceFallen,
            7 => Refusal::TooDeep,
            8 => Refusal::Elsewhere,
            9 => Refusal::BadGroup,
            10 => Refusal::OtherSession,
            11 => Refusal::IsLeader,
            12 => Refusal::NoGroup,
            13 => Refusal::Executed,
            14 => Refusal::RootInit,
            15 => Refusal::NoControl,
            16 => Refusal::ControlBusy,
            17 => Refusal::RootControl,
            18 => Refusal::BadLimit,
            19 => Refusal::ControlDepth,
            _ => unreachable!("no refusal has the number {number}"),
        }
    }

    /// The number and the word.
    fn row(self) -> (u32, &'static str) {
        match self {
            Refusal::NoCaller => (1, "no-caller"),
            Refusal::NoTask => (2, "no-task"),
            Refusal::NoChild => (3, "no-child"),
            Refusal::NoNumber(_) => (4, "no-number"),
            Refusal::PidsLimit(_) => (5, "pids-limit"),
            Refusal::SpaceFallen => (6, "space-fallen"),
            Refusal::TooDeep => (7, "too-deep"),
            Refusal::Elsewhere => (8, "elsewhere"),
            Refusal::BadGroup => (9, "bad-group"),
            Refusal::OtherSession => (10, "other-session"),
            Refusal::IsLeader => (11, "is-leader"),
            Refusal::NoGroup => (12, "no-group"),
            Refusal::Executed => (13, "executed"),
            Refusal::RootInit => (14, "root-init"),
            Refusal::NoControl => (15, "no-control"),
            Refusal::ControlBusy => (16, "control-busy"),
            Refusal::RootControl => (17, "root-control"),
            Refusal::BadLimit => (18, "bad-limit"),
            Refusal::ControlDepth => (19, "control-depth"),
        }
    }

    /// The id of what refuses, where it has one.
    fn id_behind(self) -> Option<u64> {
        match self {
            Refusal::NoNumber(id) | Refusal::PidsLimit(id) => Some(id),
            _ => None,
        }
    }
}
// The end of refusals.

impl Refusal {
    /// Its number, which stays the same from release to release.
    pub fn number(self) -> u32 {
        self.row().0
    }

    /// Its word in the answers of the script language, as `no-caller`.
    pub fn name(self) -> &'static str {
        self.row().1
    }

    /// The id of what refuses, 0 where it has none.
    pub(crate) fn id(self) -> u64 {
        self.id_behind().unwrap_or(0)
    }
}

impl fmt::Display for Refusal {
    fn fmt(&self, to: &mut fmt::Formatter<'_>) -> fmt::Result {
        match self.id_behind() {
            Some(id) => write!(to, "{} {id}", self.name()),
            None => to.write_str(self.name()),
        }
    }
}

/// Why a function has no answer. The table and its history are as they were. More reasons may come.
///
/// As an [`io::Error`] it has the kind that the kernel's error has, and holds this one:
///
/// ```
/// use pidtab::Table;
/// use std::io;
///
/// fn remove(table: &Table) -> io::Result<()> {
///     table.rm(7)?;
///     Ok(())
/// }
///
/// let fault = remove(&Table::open(32768)?).unwrap_err();
/// assert_eq!(fault.kind(), io::ErrorKind::NotFound);
/// assert_eq!(fault.to_string(), "rm 7: no-control (errno 2)");
/// # Ok::<(), io::Error>(())
/// ```
#[derive(Clone, Copy, Debug, PartialEq, Eq, Hash)]
#[non_exhaustive]
pub enum Error {
    /// The table refuses the call.
    Refused {
        /// The error that the kernel would give, as a number of Linux's errno.
        errno: i32,
        /// Why.
        refusal: Refusal,
        /// The call; none for a read that is no call, as `stat`, and for one that was made by another.
        call: Option<Call>,
    },
    /// There was no memory: for a table, a fork, a new control group or a list; where a history is kept for any call, as its entry takes
    /// memory; for entries that are read, and for a cut.
    NoMemory,
    /// The table has made 2^64 - 2 calls.
    Spent,
    /// The argument is outside its range.
    Argument(Argument),
    /// What was asked is no query.
    NoQuery,
    /// Each seat is given.
    NoSeat,
    /// What a saved history has is outside its range, or what is written there.
    OutOfRange,
    /// A function that another thread began is under way, of a table that was opened without `threads`; or this thread has the lock by
    /// [`Table::lock`](crate::Table::lock), and what waits for another thread would wait for ever.
    Busy,
    /// No entry with the ordinal is kept: it was cut away, or is not reached yet.
    NotKept,
    /// Another number of calls was recorded by now.
    Again,
    /// The table keeps no history: [`Options::keep`](crate::Options::keep) has it keep one.
    NoHistory,
    /// The table is one thread's: [`Options::threads`](crate::Options::threads) gives it a lock.
    NoThreads,
    /// A reply is not the saved one.
    Differs,
    /// As many calls are recorded and not saved as the bound lets there be, and the saver has failed or ended:
    /// [`Table::wait_saved`](crate::Table::wait_saved) says why.
    Unsaved,
    /// The waits for calls were ended, and the call is not recorded.
    Ended,
    /// A label is printable text of one line, and this one is not.
    BadLabel,
    /// The service does not do that for this connection: [`Connected::why`](crate::Connected::why) has its words. No call was made.
    NotServed,
    /// The connection to the service is closed: [`Connected::why`](crate::Connected::why) says why. The last call was made or was not.
    Disconnected,
}

impl Error {
    /// What a status says other than that it was done. No other status comes from a table that is open.
    pub(crate) fn of(status: u32) -> Error {
        match status {
            // Written by tools/interface: errors.
            raw::NO_MEMORY => Error::NoMemory,
            raw::BUSY => Error::Busy,
            raw::OUT_OF_RANGE => Error::OutOfRange,
            raw::SPENT => Error::Spent,
            raw::DIFFERS => Error::Differs,
            raw::NOT_KEPT => Error::NotKept,
            raw::AGAIN => Error::Again,
            raw::NO_HISTORY => Error::NoHistory,
            // The end of errors.
            _ => unreachable!("the library answers the status {status}"),
        }
    }

    /// The same, and of what is out of range which argument it is.
    pub(crate) fn of_argument(status: u32, outside: impl FnOnce() -> Option<Argument>) -> Error {
        match status {
            raw::OUT_OF_RANGE => outside().map_or(Error::OutOfRange, Error::Argument),
            _ => Error::of(status),
        }
    }

    /// Nothing where a query is answered; else why not.
    pub(crate) fn unless_asked(status: u32) -> Result<(), Error> {
        match status {
            raw::OUT_OF_RANGE => Err(Error::NoQuery),
            _ => Error::unless_done(status),
        }
    }

    /// The number of Linux's errno, as [`io::Error::raw_os_error`] would have it: of a refusal the one that the kernel would give. `NotServed` has none.
    ///
    /// ```
    /// use pidtab::Table;
    ///
    /// let fault = Table::open(32768)?.getpid(99).unwrap_err();
    /// assert_eq!(fault.raw_os_error(), Some(3)); // ESRCH
    /// # Ok::<(), pidtab::Error>(())
    /// ```
    ///
    /// An [`io::Error`] that holds this error has none itself: `error.downcast_ref::<pidtab::Error>()` of its `get_ref` has it.
    pub fn raw_os_error(&self) -> Option<i32> {
        let status = match self {
            Error::Refused { errno, .. } => return Some(*errno),
            Error::NoMemory => raw::NO_MEMORY,
            Error::Spent => raw::SPENT,
            Error::Argument(_) | Error::NoQuery | Error::NoSeat => raw::OUT_OF_RANGE,
            Error::OutOfRange | Error::BadLabel => raw::OUT_OF_RANGE,
            Error::Busy => raw::BUSY,
            Error::NotKept => raw::NOT_KEPT,
            Error::Again => raw::AGAIN,
            Error::NoHistory => raw::NO_HISTORY,
            Error::NoThreads => raw::NO_THREADS,
            Error::Differs => raw::DIFFERS,
            Error::Unsaved | Error::Ended | Error::Disconnected => raw::ENDED,
            Error::NotServed => return None,
        };
        Some(status as i32)
    }

    /// Why the table refuses a call; none for an error that is no refusal.
    ///
    /// ```
    /// use pidtab::{Refusal, Table};
    ///
    /// let fault = Table::open(32768)?.getpid(99).unwrap_err();
    /// assert_eq!(fault.refusal(), Some(Refusal::NoCaller));
    /// assert_eq!(fault.to_string(), "getpid 99: no-caller (errno 3)");
    /// # Ok::<(), pidtab::Error>(())
    /// ```
    pub fn refusal(&self) -> Option<Refusal> {
        match self {
            Error::Refused { refusal, .. } => Some(*refusal),
            _ => None,
        }
    }

    /// Nothing where the status is `DONE`; else what it says.
    pub(crate) fn unless_done(status: u32) -> Result<(), Error> {
        raw::done(status, ()).map_err(Error::of)
    }
}

impl fmt::Display for Error {
    fn fmt(&self, to: &mut fmt::Formatter<'_>) -> fmt::Result {
        match self {
            Error::Refused {
                errno,
                refusal,
                call,
            } => {
                if let Some(call) = call {
                    write!(to, "{}: ", call.line())?;
                }
                write!(to, "{refusal} (errno {errno})")
            }
            Error::NoMemory => to.write_str("no memory"),
            Error::Spent => to.write_str("spent"),
            Error::Argument(outside) => outside.fmt(to),
            Error::NoQuery => to.write_str("the call is no query"),
            Error::NoSeat => to.write_str("each seat is given: there are as many as workers"),
            Error::OutOfRange => to.write_str("out of range"),
            Error::Busy => to.write_str("busy"),
            Error::NotKept => to.write_str("no entry with the ordinal is kept"),
            Error::Again => to.write_str("another number of calls was recorded by now"),
            Error::NoHistory => to.write_str("this table keeps no history: open it with keep"),
            Error::NoThreads => to.write_str("this table is one thread's: open it with threads"),
            Error::Differs => to.write_str("a reply is not the saved one"),
            Error::Unsaved => {
                to.write_str("too many calls are not saved, and the saver has failed or ended")
            }
            Error::Ended => to.write_str("the waits were ended"),
            Error::BadLabel => to.write_str("a label is printable text of one line"),
            Error::NotServed => to.write_str("the service does not do that for this connection"),
            Error::Disconnected => to.write_str("the connection to the service is closed"),
        }
    }
}

impl std::error::Error for Error {}

impl From<Error> for io::Error {
    /// With the kind that the kernel's error has; the error itself is within.
    fn from(error: Error) -> io::Error {
        let kind_of = |errno| io::Error::from_raw_os_error(errno).kind();
        let kind = match error {
            Error::Refused { errno, .. } => kind_of(errno),
            Error::NoMemory => io::ErrorKind::OutOfMemory,
            Error::Argument(_) | Error::NoQuery | Error::NoSeat => io::ErrorKind::InvalidInput,
            Error::OutOfRange | Error::BadLabel => io::ErrorKind::InvalidInput,
            Error::Busy => kind_of(raw::BUSY as i32),
            Error::NotKept => kind_of(raw::NOT_KEPT as i32),
            Error::Again => kind_of(raw::AGAIN as i32),
            Error::NoHistory | Error::NoThreads => io::ErrorKind::Unsupported,
            Error::Differs => io::ErrorKind::InvalidData,
            Error::Unsaved | Error::Ended => io::ErrorKind::BrokenPipe,
            Error::Disconnected => io::ErrorKind::NotConnected,
            Error::Spent | Error::NotServed => io::ErrorKind::Other,
        };
        io::Error::new(kind, error)
    }
}

/// Why a replay stopped: the entries before the place were made again, and none after it.
///
/// As an [`Error`] it is the error alone, so that `?` takes it there.
#[derive(Clone, Copy, Debug, PartialEq, Eq, Hash)]
pub struct ReplayError {
    /// The entry's place among the saved ones, from 0 on.
    pub place: usize,
    /// `Differs`: its call was made and recorded, and has another reply. Any other says that it was not made: `Argument` where no worker
    /// has its number; `NoMemory`, `Spent`, `Busy`.
    pub error: Error,
}

impl fmt::Display for ReplayError {
    fn fmt(&self, to: &mut fmt::Formatter<'_>) -> fmt::Result {
        write!(to, "saved entry {}: {}", self.place, self.error)
    }
}

impl std::error::Error for ReplayError {
    fn source(&self) -> Option<&(dyn std::error::Error + 'static)> {
        Some(&self.error)
    }
}

impl From<ReplayError> for Error {
    fn from(stopped: ReplayError) -> Error {
        stopped.error
    }
}

/// Why a line has no answer. The table is as it was. More reasons may come.
#[derive(Clone, Copy, Debug, PartialEq, Eq, Hash)]
#[non_exhaustive]
pub enum LineError {
    /// The line has no bytes, and so no answer.
    Empty,
    /// It is no line of the script language.
    Bad,
    /// There was no memory for a `fork` or a `mk`; where a history is kept, for any call.
    NoMemory,
    /// The table has made 2^64 - 2 calls.
    Spent,
    /// As [`Error::Busy`].
    Busy,
    /// As [`Error::Unsaved`].
    Unsaved,
}

impl LineError {
    /// What a status says other than that it was done.
    pub(crate) fn of(status: u32) -> LineError {
        match status {
            // Written by tools/interface: errors of lines.
            raw::NO_MEMORY => LineError::NoMemory,
            raw::BUSY => LineError::Busy,
            raw::EMPTY_LINE => LineError::Empty,
            raw::BAD_LINE => LineError::Bad,
            raw::SPENT => LineError::Spent,
            // The end of errors of lines.
            _ => unreachable!("the library answers the status {status}"),
        }
    }
}

impl LineError {
    /// Why a call is not made, before its line is read.
    pub(crate) fn of_change(error: Error) -> LineError {
        match error {
            Error::Unsaved => LineError::Unsaved,
            _ => LineError::Busy,
        }
    }
}

impl fmt::Display for LineError {
    fn fmt(&self, to: &mut fmt::Formatter<'_>) -> fmt::Result {
        to.write_str(match self {
            LineError::Empty => "empty line",
            LineError::Bad => "bad line",
            LineError::NoMemory => "no memory",
            LineError::Spent => "spent",
            LineError::Busy => "busy",
            LineError::Unsaved => "too many calls are not saved, and the saver has failed or ended",
        })
    }
}

impl std::error::Error for LineError {}

impl From<LineError> for io::Error {
    /// With the kind of the error within.
    fn from(error: LineError) -> io::Error {
        let kind = match error {
            LineError::Empty | LineError::Bad => io::ErrorKind::InvalidInput,
            LineError::NoMemory => io::ErrorKind::OutOfMemory,
            LineError::Spent => io::ErrorKind::Other,
            LineError::Busy => io::Error::from(Error::Busy).kind(),
            LineError::Unsaved => io::ErrorKind::BrokenPipe,
        };
        io::Error::new(kind, error)
    }
}

// Written by tools/interface: faults.
/// What is wrong with a text, or with its line: the text is that of no table. More may come.
#[derive(Clone, Copy, Debug, PartialEq, Eq, Hash)]
#[non_exhaustive]
pub enum TextFault {
    /// The line is none of those that the form has there.
    BadLine,
    /// The last line is not that of the text before it.
    WrongDigest,
    /// `pid_max` is out of range, or some id is not below the stamp.
    BadSettings,
    /// The number or id is not above that of the line before.
    OutOfOrder,
    /// No line has the task's parent, or the namespace around the namespace.
    UnknownParent,
    /// No line has the namespace.
    UnknownNamespace,
    /// No line has the control group.
    UnknownControl,
    /// A name has too few numbers, too many, or one out of range.
    BadName,
    /// Two names have one number.
    TakenNumber,
    /// No task is the init of a namespace that has not fallen.
    NoInit,
    /// Comes no more.
    NoNumber,
    /// In no sound state is this line beside the others.
    Impossible,
}

impl TextFault {
    /// The fault with the number.
    pub(crate) fn of(number: u32) -> TextFault {
        match number {
            1 => TextFault::BadLine,
            2 => TextFault::WrongDigest,
            3 => TextFault::BadSettings,
            4 => TextFault::OutOfOrder,
            5 => TextFault::UnknownParent,
            6 => TextFault::UnknownNamespace,
            7 => TextFault::UnknownControl,
            8 => TextFault::BadName,
            9 => TextFault::TakenNumber,
            10 => TextFault::NoInit,
            11 => TextFault::NoNumber,
            12 => TextFault::Impossible,
            _ => unreachable!("no fault of a text has the number {number}"),
        }
    }
}

impl fmt::Display for TextFault {
    fn fmt(&self, to: &mut fmt::Formatter<'_>) -> fmt::Result {
        to.write_str(match self {
            TextFault::BadLine => "bad line",
            TextFault::WrongDigest => "wrong digest",
            TextFault::BadSettings => "bad settings",
            TextFault::OutOfOrder => "out of order",
            TextFault::UnknownParent => "unknown parent",
            TextFault::UnknownNamespace => "unknown namespace",
            TextFault::UnknownControl => "unknown control group",
            TextFault::BadName => "bad name",
            TextFault::TakenNumber => "number in use twice",
            TextFault::NoInit => "namespace without an init",
            TextFault::NoNumber => "no number left",
            TextFault::Impossible => "impossible line",
        })
    }
}
// The end of faults.

/// Why no table is made of a text. More reasons may come.
#[derive(Clone, Copy, Debug, PartialEq, Eq, Hash)]
#[non_exhaustive]
pub enum TextError {
    /// The text is that of no table.
    Bad {
        /// The line at fault, from 1 on.
        line: u64,
        /// What is wrong with it.
        fault: TextFault,
    },
    /// There are not 1 to 16 workers, or the calls before add up to the stamp of the text or more.
    Argument(Argument),
    /// Comes no more.
    OutOfRange,
    /// There was no memory for the table.
    NoMemory,
}

impl TextError {
    /// What a status says other than that it was done.
    pub(crate) fn of(status: u32, fault: raw::Fault) -> TextError {
        match status {
            raw::BAD_TEXT => TextError::Bad {
                line: fault.line,
                fault: TextFault::of(fault.kind),
            },
            raw::OUT_OF_RANGE => TextError::OutOfRange,
            raw::NO_MEMORY => TextError::NoMemory,
            _ => unreachable!("the library answers the status {status}"),
        }
    }
}

impl fmt::Display for TextError {
    fn fmt(&self, to: &mut fmt::Formatter<'_>) -> fmt::Result {
        match self {
            TextError::Bad { line, fault } => write!(to, "line {line}: {fault}"),
            TextError::Argument(outside) => outside.fmt(to),
            TextError::OutOfRange => to.write_str("out of range"),
            TextError::NoMemory => to.write_str("no memory"),
        }
    }
}

impl std::error::Error for TextError {}

impl From<TextError> for io::Error {
    /// `InvalidData` for a bad text; the error itself is within.
    fn from(error: TextError) -> io::Error {
        let kind = match error {
            TextError::Bad { .. } => io::ErrorKind::InvalidData,
            TextError::Argument(_) | TextError::OutOfRange => io::ErrorKind::InvalidInput,
            TextError::NoMemory => io::ErrorKind::OutOfMemory,
        };
        io::Error::new(kind, error)
    }
}

#[cfg(test)]
mod tests {
    use super::*;

    /// Each other status comes about in `cases.rs`.
    #[test]
    fn want_of_memory() {
        assert_eq!(Error::of(12), Error::NoMemory);
        assert_eq!(LineError::of(12), LineError::NoMemory);
    }

    /// The kind that the kernel's error has, and the error within.
    fn as_io(error: Error, errno: i32) {
        let fault = io::Error::from(error);
        assert_eq!(fault.kind(), io::Error::from_raw_os_error(errno).kind());
        let within = fault.get_ref().expect("an error within");
        assert_eq!(within.downcast_ref(), Some(&error));
    }

    /// The numbers are those of errno(3).
    #[test]
    fn each_error_has_an_errno() {
        let refused = |errno, refusal| Error::Refused {
            errno,
            refusal,
            call: None,
        };
        for (error, errno) in [
            (refused(3, Refusal::NoTask), 3),
            (refused(11, Refusal::PidsLimit(4)), 11),
            (Error::NoMemory, 12),
            (Error::Spent, 75),
            (Error::NoQuery, 22),
            (Error::NoSeat, 22),
            (Error::Busy, 16),
            (Error::NotKept, 2),
            (Error::Again, 11),
            (Error::NoHistory, 95),
            (Error::NoThreads, 37),
            (Error::Differs, 74),
            (Error::Unsaved, 32),
            (Error::Ended, 32),
            (Error::BadLabel, 22),
            (Error::Disconnected, 32),
        ] {
            assert_eq!(error.raw_os_error(), Some(errno), "{error:?}");
        }
    }

    #[test]
    fn a_refusal_says_which_call() {
        let (errno, refusal) = (11, Refusal::PidsLimit(4));
        let fork = Call::Fork {
            caller: 7,
            new_space: true,
        };
        let said = |call| {
            Error::Refused {
                errno,
                refusal,
                call,
            }
            .to_string()
        };
        assert_eq!(said(Some(fork)), "fork 7 new: pids-limit 4 (errno 11)");
        assert_eq!(said(None), "pids-limit 4 (errno 11)");
        assert_eq!(Error::Busy.refusal(), None);
    }

    #[test]
    fn each_error_is_one_of_io() {
        let refused = |errno, refusal| Error::Refused {
            errno,
            refusal,
            call: None,
        };
        as_io(refused(2, Refusal::NoControl), 2);
        as_io(refused(13, Refusal::Executed), 13);
        as_io(refused(11, Refusal::PidsLimit(4)), 11);
        as_io(Error::NoMemory, 12);
        as_io(Error::OutOfRange, 22);
        as_io(Error::NoQuery, 22);
        as_io(Error::NoSeat, 22);
        as_io(
            Error::Argument(Argument::pid_max(300).expect("no pid_max")),
            22,
        );
        as_io(Error::Busy, 16);
        as_io(Error::NotKept, 2);
        as_io(Error::Again, 11);
        let differs = io::Error::from(Error::Differs);
        assert_eq!(differs.kind(), io::ErrorKind::InvalidData);
        let kind = |error: LineError| io::Error::from(error).kind();
        assert_eq!(kind(LineError::Bad), io::ErrorKind::InvalidInput);
        assert_eq!(kind(LineError::NoMemory), io::ErrorKind::OutOfMemory);
        assert_eq!(kind(LineError::Spent), io::ErrorKind::Other);
        let told = io::Error::from(Error::Spent);
        assert_eq!(
            (told.kind(), told.to_string()),
            (io::ErrorKind::Other, "spent".to_owned())
        );
    }
}
