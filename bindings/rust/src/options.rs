//! With what a table is opened.
use crate::{raw, Argument, Error, Table, TextError};

/// How much of its history a table keeps, for [`Options::keep`], which takes a number too: 0 is none of it.
#[derive(Clone, Copy, Debug, PartialEq, Eq, Hash)]
pub enum Keep {
    /// None of it: the table does not grow with its calls.
    Nothing,
    /// At most so many entries: a call after which there are more cuts the first, which costs that call once more.
    AtMost(u64),
    /// All of it, until a checkpoint cuts it.
    All,
}

impl Keep {
    /// So many entries are kept at most, as the library has it.
    pub(crate) fn entries(self) -> u64 {
        match self {
            Keep::Nothing => 0,
            Keep::AtMost(entries) => entries,
            Keep::All => u64::MAX,
        }
    }
}

impl From<u64> for Keep {
    fn from(entries: u64) -> Keep {
        Keep::AtMost(entries)
    }
}

/// With what a table is opened, as [`Table::options`] begins it. Nothing is tested until then.
///
/// ```
/// use pidtab::{Keep, Table};
///
/// let bare = Table::options().pid_max(4194304).open()?;
/// let recorded = Table::options().keep(4096).workers(16).threads().open()?;
/// let whole = Table::options().keep(Keep::All).open()?;
/// let fault = Table::options().workers(4).open().unwrap_err();
/// assert_eq!(fault.to_string(), "workers count the calls of a history: open it with keep");
/// # Ok::<(), pidtab::Error>(())
/// ```
#[derive(Clone, Copy, Debug)]
#[must_use]
pub struct Options {
    pub(crate) head: raw::SavedHead,
    pub(crate) keep: Keep,
    pub(crate) threads: bool,
}

impl Default for Options {
    fn default() -> Options {
        let head = raw::SavedHead {
            pid_max: 32768,
            workers: 1,
            first_stamp: 1,
        };
        Options {
            head,
            keep: Keep::Nothing,
            threads: false,
        }
    }
}

impl Options {
    /// Below which all numbers of processes are: 301 to 4194304; 32768 without this.
    pub fn pid_max(mut self, pid_max: u32) -> Options {
        self.head.pid_max = pid_max;
        self
    }

    /// How much of its history the table keeps; nothing without this. An entry has 64 bytes.
    pub fn keep(mut self, keep: impl Into<Keep>) -> Options {
        self.keep = keep.into();
        self
    }

    /// How many workers count their calls apart, each by a [`Seat`](crate::Seat): 1 to 16; 1 without this, or without a history.
    pub fn workers(mut self, workers: u32) -> Options {
        self.head.workers = workers;
        self
    }

    /// The stamp of the first call, from 1 on; 1 without this. The id of a new namespace or control group is the stamp of its call.
    pub fn first_stamp(mut self, first_stamp: u64) -> Options {
        self.head.first_stamp = first_stamp;
        self
    }

    /// Any number of threads use the table at once: one waits for another. Without this a second thread's function is `Busy`, where not both are
    /// queries.
    pub fn threads(mut self) -> Options {
        self.threads = true;
        self
    }

    /// Opens it, with the root init alone.
    ///
    /// # Errors
    /// `Argument` for a `pid_max`, workers or a first stamp outside their ranges, and for workers of a table without a history; `NoMemory`.
    ///
    /// # Panics
    /// Where the library that was linked has another interface than this crate is written for.
    pub fn open(self) -> Result<Table, Error> {
        if let Some(outside) = self.outside() {
            return Err(Error::Argument(outside));
        }
        let raw = raw::Table::open_with(&self.numbers()).map_err(Error::of)?;
        Ok(Table::over(raw, self.head, self.threads))
    }

    /// Opens it as a text of [`Table::dump`] says: each later call has the answer, and the stamp, that it would have had there. Any bytes may be given. The
    /// `pid_max` and the stamps are those of the text. Where a history is kept it begins there, and no seat is given yet.
    ///
    /// `counts` has how many calls of each worker were recorded before, and so says how many workers there are; their sum is the ordinal of the next call.
    /// Without any, each of the workers of these options begins with 0. The text has no workers: who dumps a table asks [`Table::worker`] of each, under one
    /// [`Table::lock`].
    ///
    /// ```
    /// use pidtab::{Keep, Table};
    ///
    /// let table = Table::options().keep(Keep::All).workers(2).open()?;
    /// table.fork_new(1)?;
    /// let again = Table::options().keep(Keep::All).open_dump(table.dump()?, &[1, 0])?;
    /// let mut seat = again.seat()?;
    /// assert_eq!((seat.mk(0)?, seat.ordinal()), (2, Some(1)));
    /// # Ok::<(), std::io::Error>(())
    /// ```
    ///
    /// Its calls are saved to no writer, as those before them are not there: [`Table::save`] is `Table(NotKept)`.
    ///
    /// # Errors
    /// `Bad` with the line; `Argument` for workers outside 1 to 16 or of a table without a history, and where the counts add up to the stamp of the text or
    /// more; `NoMemory`.
    ///
    /// # Panics
    /// As [`Options::open`].
    pub fn open_dump(self, text: impl AsRef<[u8]>, counts: &[u64]) -> Result<Table, TextError> {
        if let Some(outside) = self.outside_of_counts(counts.len()) {
            return Err(TextError::Argument(outside));
        }
        let zeroes = [0; raw::MOST_WORKERS as usize];
        let counts = match counts {
            [] => &zeroes[..self.head.workers as usize],
            given => given,
        };
        self.workers(counts.len() as u32)
            .open_counted(text.as_ref(), counts)
    }

    /// The same with a count for each worker.
    fn open_counted(self, text: &[u8], counts: &[u64]) -> Result<Table, TextError> {
        let mut fault = raw::Fault::BLANK;
        let loaded = raw::Table::load_with(text, &self.numbers(), counts, &mut fault);
        let raw = loaded.map_err(|status| match status {
            raw::OUT_OF_RANGE => TextError::Argument(Argument::counts(counts, head_of(text).1)),
            _ => TextError::of(status, fault),
        })?;
        let (pid_max, stamp) = head_of(text);
        let before: u64 = counts.iter().sum();
        let options = self.pid_max(pid_max).first_stamp(stamp - before);
        let mut table = Table::over(raw, options.head, self.threads);
        table.goes_on = true;
        Ok(table)
    }

    /// What of these settings no table has.
    fn outside(&self) -> Option<Argument> {
        Argument::settings(&self.head).or_else(|| self.outside_of_history(self.head.workers, 1))
    }

    /// The same of a text, with so many counts: none are as many as the workers.
    fn outside_of_counts(&self, counts: usize) -> Option<Argument> {
        let (workers, most) = match counts {
            0 => (self.head.workers, 1),
            _ => (u32::try_from(counts).unwrap_or(u32::MAX), 0),
        };
        Argument::workers(workers).or_else(|| self.outside_of_history(workers, most))
    }

    /// The workers, where no history is kept for so many.
    fn outside_of_history(&self, workers: u32, most: u32) -> Option<Argument> {
        let keeps = self.keep.entries() != 0;
        (!keeps && workers > most).then(|| Argument::workers_of_no_history(workers))
    }

    fn numbers(&self) -> raw::Settings {
        raw::Settings {
            pid_max: self.head.pid_max,
            workers: self.head.workers,
            first_stamp: self.head.first_stamp,
            keep: self.keep.entries(),
            // The lock is that of this crate.
            threads: false,
        }
    }
}

/// `pid_max` and the stamp of the next call, of a text that was loaded: `pidtab table 1 pid-max N stamp S`.
fn head_of(text: &[u8]) -> (u32, u64) {
    let line = text.split(|byte| *byte == b'\n').next().unwrap_or(text);
    let line = String::from_utf8_lossy(line);
    let mut words = line.split(' ').skip(4).step_by(2);
    let mut number = || words.next().and_then(|word| word.parse::<u64>().ok());
    match (number(), number()) {
        (Some(pid_max), Some(stamp)) => (pid_max as u32, stamp),
        _ => unreachable!("a text that was loaded has a head"),
    }
}
