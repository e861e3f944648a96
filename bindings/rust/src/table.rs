//! The table: what opens it, what it is, and its calls.
use crate::labels::{self, Labels};
use crate::options::Options;
use crate::threads::Lock;
use crate::{effects, raw, texts, Call, Child, Error, LineError, Listing, Reply, TextError, Told};
use std::fmt;
use std::sync::atomic::{AtomicU64, Ordering};
use std::sync::{Mutex, MutexGuard, PoisonError};

/// Each table of this process has a number of its own, from 1 on, by which a [`Saved`](crate::Saved) knows it.
static NEXT_NUMBER: AtomicU64 = AtomicU64::new(1);

/// A table of processes. It is closed when it is dropped.
///
/// Its settings, by [`Table::options`], say whether it keeps its history, how much of it, for how many workers, and whether many threads use it:
///
/// ```
/// use pidtab::{Call, Error, Table};
/// use std::thread;
///
/// let table = Table::options().keep(4096).workers(2).threads().open()?;
/// thread::scope(|scope| {
///     for _ in 0..2 {
///         scope.spawn(|| table.seat()?.fork(1));
///     }
/// });
/// assert_eq!(table.count(0)?, 3);
/// assert_eq!(table.entries(0, 10)?[1].call, Call::Fork { caller: 1, new_space: false });
/// # Ok::<(), Error>(())
/// ```
///
/// # Calls
///
/// Each call is a method by its name in the script language; `move` is `move_task`. It is made for worker 0; a [`Seat`](crate::Seat) makes those of another.
/// A caller is a root number; each other number of a process is the caller's own. Beside the errors that a method names, each may be `Spent`, `Busy` and
/// `Unsaved`; where a history is kept, also `NoMemory`, as the entry of a call takes memory. An error other than `Refused` says that the call
/// was not made, and is not counted.
///
/// A call costs a search on each level of the namespaces that it names, and a step for each control group around the task. An exit may cost a
/// step for each child, and that of an init one for each member of its namespace.
///
/// # Threads
///
/// With `threads` one lock guards the table: queries, and what else changes nothing, share it, and each other function has it alone. So each thread has
/// the answer that one sequential table would give, and the ordinal of a call is its place in that sequence. The lock is trusted: it is std's. A thread
/// that panics gives it back, and harms no other. In the forked child of a process with threads the table is not used.
///
/// Without, the table may go to another thread, and any number of threads may ask it at once. A call beside another function is `Busy`, and so is a
/// query beside a call.
///
/// # History
///
/// The kept history replays, reply for reply, as one thread's, from its opening to the present state, and the calls of all workers add up to
/// [`Counts::recorded`](crate::Counts::recorded): that is proved of the library. An entry has 64 bytes. It is cut by [`Options::keep`],
/// [`Table::checkpoint`] or [`Table::checkpoint_at`]. What is about the history is `NoHistory` of a table that keeps none.
///
/// # Owners
///
/// There is no second owner, so nothing can close it twice:
///
/// ```compile_fail,E0382
/// let table = pidtab::Table::open(32768).unwrap();
/// drop(table);
/// drop(table);
/// ```
///
/// ```compile_fail,E0599
/// let table = pidtab::Table::open(32768).unwrap();
/// let other = table.clone();
/// ```
pub struct Table {
    pub(crate) raw: raw::Table,
    pub(crate) lock: Option<Lock>,
    labels: Mutex<Labels>,
    pub(crate) head: raw::SavedHead,
    /// Whether it was made of the text of another table, so that its history does not begin with the root init alone.
    pub(crate) goes_on: bool,
    pub(crate) number: u64,
}

impl Table {
    /// A table for one thread and without a history, with the root init alone, whose numbers are below `pid_max`. [`Table::options`] has other ways.
    ///
    /// # Errors
    /// `Argument` for a `pid_max` outside 301 to 4194304, `NoMemory`.
    ///
    /// # Panics
    /// Where the library that was linked has another interface than this crate is written for.
    pub fn open(pid_max: u32) -> Result<Table, Error> {
        Table::options().pid_max(pid_max).open()
    }

    /// The settings of a table, to be opened.
    pub fn options() -> Options {
        Options::default()
    }

    /// A table as a text of [`Table::dump`] says, as [`Options::open_dump`] has it, for one thread and without a history.
    ///
    /// ```
    /// use pidtab::{Table, TextError, TextFault};
    ///
    /// let table = Table::open(32768)?;
    /// table.fork_new(1)?;
    /// let text = table.dump()?;
    /// let again = Table::from_dump(&text)?;
    /// assert_eq!(again.dump()?, text);
    /// assert_eq!(again.fork(2)?, table.fork(2)?);
    /// let (line, fault) = (1, TextFault::BadLine);
    /// assert_eq!(Table::from_dump("fork 1").unwrap_err(), TextError::Bad { line, fault });
    /// # Ok::<(), std::io::Error>(())
    /// ```
    ///
    /// It costs some ten times what the forks cost that made the tasks.
    ///
    /// # Errors
    /// `Bad` with the line, `NoMemory`.
    ///
    /// # Panics
    /// As [`Table::open`].
    pub fn from_dump(text: impl AsRef<[u8]>) -> Result<Table, TextError> {
        Table::options().open_dump(text, &[])
    }

    /// A table of which no task has a name.
    pub(crate) fn over(raw: raw::Table, head: raw::SavedHead, threads: bool) -> Table {
        Table {
            raw,
            lock: threads.then(Lock::default),
            labels: Mutex::default(),
            head,
            goes_on: false,
            number: NEXT_NUMBER.fetch_add(1, Ordering::Relaxed),
        }
    }

    /// Below which all its numbers are.
    pub fn pid_max(&self) -> u32 {
        self.head.pid_max
    }

    /// How many workers it has.
    pub fn workers(&self) -> u32 {
        self.head.workers
    }

    /// The stamp of its first call.
    pub fn first_stamp(&self) -> u64 {
        self.head.first_stamp
    }

    /// Makes the call that the value says. What the table refuses is a reply here, [`Reply::Refused`], and an error of each method of a call.
    ///
    /// # Errors
    /// `NoMemory`, `Spent`, `Busy`, `Unsaved`.
    pub fn call(&self, call: Call) -> Result<Reply, Error> {
        let _change = self.for_calls(1)?;
        let mut reply = raw::Reply::BLANK;
        Error::unless_done(self.raw.call(&call.numbers(), &mut reply))?;
        Ok(self.replied(&reply))
    }

    /// Makes the call on a line of the script language, without its newline: a text or bytes. A refusal is an answer, as `ESRCH no-caller`.
    ///
    /// # Errors
    /// `Empty`, `Bad`; `NoMemory` for `fork` and `mk`, and where a history is kept for any call; `Spent`, `Busy`, `Unsaved`.
    pub fn line(&self, line: impl AsRef<[u8]>) -> Result<String, LineError> {
        self.line_by(0, line.as_ref(), &mut 0)
    }

    /// Makes the calls in their order, and none of another worker comes between them. Their replies are added to `replies`, refusals too.
    ///
    /// ```
    /// use pidtab::{Call, Keep, Reply, Table};
    ///
    /// let table = Table::options().keep(Keep::All).open()?;
    /// let mut replies = Vec::new();
    /// table.calls(&[Call::Mk { parent: 0 }, Call::Getpid { caller: 1 }], &mut replies)?;
    /// assert_eq!(replies, [Reply::Control(1), Reply::Number(1)]);
    /// # Ok::<(), pidtab::Error>(())
    /// ```
    ///
    /// With a bound of [`Table::bound_unsaved`] it waits until there is room for all of them, or all that was recorded is saved.
    ///
    /// # Errors
    /// `NoMemory` and `Spent`: the calls before that one were made, and their replies are added. `NoHistory`, `Busy` and `Unsaved`: none was made.
    pub fn calls(&self, calls: &[Call], replies: &mut Vec<Reply>) -> Result<(), Error> {
        self.calls_by(0, calls, replies, &mut 0)
    }

    /// Makes a fork, if its child gets exactly these numbers, as [`Table::would`] has told them. Else nothing changes or is recorded, and it is `false`. So
    /// who prepares for a child before it is there has the one that he has prepared for, or none.
    ///
    /// ```
    /// use pidtab::{Call, Child, Reply, Table};
    ///
    /// let table = Table::open(32768)?;
    /// let child = Child { number: 2, root: 2 };
    /// assert_eq!(table.would(Call::Fork { caller: 1, new_space: false })?, Reply::Forked(child));
    /// assert!(table.fork_at(1, child)?);
    /// assert!(!table.fork_at(1, child)?);
    /// # Ok::<(), pidtab::Error>(())
    /// ```
    ///
    /// # Errors
    /// `NoMemory`, `Spent`, `Busy`, `Unsaved`.
    pub fn fork_at(&self, caller: u32, child: Child) -> Result<bool, Error> {
        self.fork_at_by(0, caller, false, child, &mut 0)
    }

    /// The same of [`Table::fork_new`].
    ///
    /// # Errors
    /// As [`Table::fork_at`].
    pub fn fork_new_at(&self, caller: u32, child: Child) -> Result<bool, Error> {
        self.fork_at_by(0, caller, true, child, &mut 0)
    }

    /// Makes the call, and tells what it did besides: who ended, who has another parent, and who is gone; which process groups and sessions have no member
    /// any more; and which namespaces have fallen, or are gone. So the exit of a namespace's init tells whom the kernel would kill, and each other exit who
    /// takes the children. A wait takes its child away, and a setpgid and a setsid may leave a group without members. Other calls have no effects.
    ///
    /// ```
    /// use pidtab::{Call, Effect, Ended, Table};
    ///
    /// // 2 is the init of a namespace, in which is its child 3.
    /// let table = Table::open(32768)?;
    /// table.fork_new(1)?;
    /// table.fork(2)?;
    /// let mut said = Vec::new();
    /// for effect in table.told(Call::Exit { caller: 2, status: 7 })?.effects {
    ///     said.push(match effect {
    ///         Effect::Ended { number, ended: Ended::Exited(status) } => format!("{number} ends with {status}"),
    ///         Effect::Ended { number, ended: Ended::Killed } => format!("{number} is killed"),
    ///         Effect::Adopted { number, parent } => format!("{number} is a child of {parent} now"),
    ///         Effect::Gone { number } => format!("{number} is gone"),
    ///         Effect::SpaceFell { id } => format!("the namespace {id} has fallen"),
    ///         other => format!("{other:?}"),
    ///     });
    /// }
    /// assert_eq!(said, ["2 ends with 7", "3 is killed", "3 is gone", "the namespace 1 has fallen"]);
    /// # Ok::<(), pidtab::Error>(())
    /// ```
    ///
    /// It costs what the call costs, and some searches for each task that it may touch. It takes memory for a list, and has it before the call is made.
    ///
    /// # Errors
    /// `NoMemory`, `Spent`, `Busy`, `Unsaved`.
    pub fn told(&self, call: Call) -> Result<Told, Error> {
        self.told_by(0, call, &mut 0)
    }

    /// The list of the table, as `pidtab list` writes it. It costs the text, and twice that where it is longer than 4,096 bytes.
    ///
    /// # Errors
    /// `NoMemory`, `Busy`.
    pub fn list(&self) -> Result<String, Error> {
        let _query = self.for_read();
        texts::whole(|room, size| self.raw.list(room, size))
    }

    /// The same list, read: the tasks with their labels, the namespaces and the control groups.
    ///
    /// # Errors
    /// `NoMemory`, `Busy`.
    pub fn listing(&self) -> Result<Listing, Error> {
        let _query = self.for_read();
        let list = texts::whole(|room, size| self.raw.list(room, size))?;
        Ok(Listing::of(&list).with_labels(self.labels().iter()))
    }

    /// All that there is to know of the table, as text, without its history: `docs/SCRIPT.md` has the form. One table has one text, on every machine. It
    /// costs a copy of the whole table, and two where it is longer than 4,096 bytes.
    ///
    /// # Errors
    /// `NoMemory`, `Busy`.
    pub fn dump(&self) -> Result<String, Error> {
        let _query = self.for_read();
        texts::whole(|room, size| self.raw.dump(room, size))
    }
}

/// The calls of a worker. Where a history is kept, each leaves the place of the call in `ordinal` if it is made, and else nothing.
impl Table {
    pub(crate) fn call_by(
        &self,
        worker: u32,
        call: Call,
        ordinal: &mut u64,
    ) -> Result<Reply, Error> {
        let _change = self.for_calls(1)?;
        let (numbers, mut reply) = (call.numbers(), raw::Reply::BLANK);
        Error::unless_done(self.raw.call_by(worker, &numbers, &mut reply, ordinal))?;
        Ok(self.replied(&reply))
    }

    pub(crate) fn line_by(
        &self,
        worker: u32,
        line: &[u8],
        ordinal: &mut u64,
    ) -> Result<String, LineError> {
        let _change = self.for_calls(1).map_err(LineError::of_change)?;
        let answer =
            texts::answer(|room, size| self.raw.line_by(worker, line, room, size, ordinal))?;
        self.forget_label(labels::new_task_of(&answer));
        Ok(answer)
    }

    pub(crate) fn fork_at_by(
        &self,
        worker: u32,
        caller: u32,
        new_space: bool,
        child: Child,
        ordinal: &mut u64,
    ) -> Result<bool, Error> {
        let _change = self.for_calls(1)?;
        let (Child { number, root }, new) = (child, new_space.into());
        let mut reply = raw::Reply::BLANK;
        let status = self
            .raw
            .fork_at_by(worker, caller, new, number, root, &mut reply, ordinal);
        if status == raw::DIFFERS {
            return Ok(false);
        }
        Error::unless_done(status)?;
        self.replied(&reply);
        Ok(true)
    }

    pub(crate) fn told_by(
        &self,
        worker: u32,
        call: Call,
        ordinal: &mut u64,
    ) -> Result<Told, Error> {
        let _change = self.for_calls(1)?;
        let numbers = call.numbers();
        let told = effects::told(|reply, room, count| {
            self.raw
                .call_told_by(worker, &numbers, reply, ordinal, room, count)
        })?;
        self.forget_label(labels::new_task(&told.reply));
        Ok(told)
    }

    pub(crate) fn calls_by(
        &self,
        worker: u32,
        calls: &[Call],
        replies: &mut Vec<Reply>,
        ordinal: &mut u64,
    ) -> Result<(), Error> {
        let _change = self.for_calls(calls.len())?;
        replies
            .try_reserve(calls.len())
            .map_err(|_| Error::NoMemory)?;
        for batch in calls.chunks(BATCH) {
            self.batch_by(worker, batch, replies, ordinal)?;
        }
        Ok(())
    }

    /// So many calls as go to the library at a time. Those that were made before one that was not are told too.
    fn batch_by(
        &self,
        worker: u32,
        calls: &[Call],
        replies: &mut Vec<Reply>,
        ordinal: &mut u64,
    ) -> Result<(), Error> {
        let (mut numbers, mut told) = ([raw::Call::BLANK; BATCH], [raw::Reply::BLANK; BATCH]);
        for (numbers, call) in numbers.iter_mut().zip(calls) {
            *numbers = call.numbers();
        }
        let (numbers, mut made) = (&numbers[..calls.len()], 0);
        let status = self
            .raw
            .calls(worker, numbers, &mut told, &mut made, ordinal);
        replies.extend(told[..made].iter().map(|it| self.replied(it)));
        Error::unless_done(status)
    }

    /// The reply that the library's numbers say. A label goes with the number of a new task.
    fn replied(&self, reply: &raw::Reply) -> Reply {
        let reply = Reply::of(reply);
        self.forget_label(labels::new_task(&reply));
        reply
    }

    #[inline]
    fn forget_label(&self, new_task: Option<u32>) {
        if let Some(root) = new_task {
            self.labels().forget(root);
        }
    }

    pub(crate) fn labels(&self) -> MutexGuard<'_, Labels> {
        self.labels.lock().unwrap_or_else(PoisonError::into_inner)
    }
}

/// How many calls or entries go to the library, or come from it, at a time.
pub(crate) const BATCH: usize = 64;

impl fmt::Debug for Table {
    fn fmt(&self, to: &mut fmt::Formatter<'_>) -> fmt::Result {
        to.debug_struct("Table").finish_non_exhaustive()
    }
}
