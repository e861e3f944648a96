//! The calls: as values, and each as a method of a table.
use crate::{raw, texts, Child, Error, Reaped, Refusal, Table};

/// The children that a wait selects. More ways may come.
#[derive(Clone, Copy, Debug, PartialEq, Eq, Hash)]
#[non_exhaustive]
pub enum Which {
    /// Any child.
    Any,
    /// The child with the number in the caller's namespace.
    Pid(u32),
    /// The children in the caller's process group.
    OwnGroup,
    /// The children in the process group with the number in the caller's namespace.
    Group(u32),
}

/// What a number is in use as. More kinds may come.
#[derive(Clone, Copy, Debug, PartialEq, Eq, Hash)]
#[non_exhaustive]
pub enum Kind {
    /// As a task, live or ended.
    Task,
    /// As a process group.
    Group,
    /// As a session.
    Session,
}

/// A call as a value. Each says which method of a [`Table`] makes it; its fields are the arguments of that method. More calls may come.
///
/// A `caller` and a `task` are root numbers, an `id` and a `parent` are ids of control groups, of which 0 is the root's, and each other number
/// of a process is the caller's own. A query is one that `ask` answers too.
#[derive(Clone, Copy, Debug, PartialEq, Eq, Hash)]
#[non_exhaustive]
#[allow(missing_docs)] // A field has its words at its call.
pub enum Call {
    // Written by tools/interface: values.
    /// [`Table::fork`], [`Table::fork_new`].
    Fork { caller: u32, new_space: bool },
    /// [`Table::getpid`]; a query.
    Getpid { caller: u32 },
    /// [`Table::nspid`]; a query.
    Nspid { caller: u32, number: u32 },
    /// [`Table::exec`].
    Exec { caller: u32 },
    /// [`Table::exit`].
    Exit { caller: u32, status: u8 },
    /// [`Table::wait`].
    Wait { caller: u32, which: Which },
    /// [`Table::getppid`]; a query.
    Getppid { caller: u32 },
    /// [`Table::setpgid`].
    Setpgid { caller: u32, pid: i32, pgid: i32 },
    /// [`Table::setsid`].
    Setsid { caller: u32 },
    /// [`Table::mk`].
    Mk { parent: u64 },
    /// [`Table::rm`].
    Rm { id: u64 },
    /// [`Table::limit`].
    Limit { id: u64, limit: Option<u32> },
    /// [`Table::move_task`].
    Move { task: u32, id: u64 },
    /// [`Table::count`]; a query.
    Count { id: u64 },
    /// [`Table::getpgid`]; a query.
    Getpgid { caller: u32, pid: u32 },
    /// [`Table::getsid`]; a query.
    Getsid { caller: u32, pid: u32 },
    /// [`Table::next`]; a query.
    Next { caller: u32, kind: Kind, from: u32 },
    /// [`Table::join`].
    Join { caller: u32, number: u32 },
    /// [`Table::subreaper`].
    Subreaper { caller: u32, on: bool },
    // The end of values.
}

impl Call {
    /// The call as a line of the script language, without a newline: `line` of a table makes the same call of it. It needs no table.
    ///
    /// ```
    /// use pidtab::{Call, Table};
    ///
    /// let call = Call::Fork { caller: 1, new_space: true };
    /// assert_eq!(call.line(), "fork 1 new");
    /// let table = Table::open(32768)?;
    /// assert_eq!(table.line(call.line())?, "child 2 root 2");
    /// # Ok::<(), std::io::Error>(())
    /// ```
    pub fn line(self) -> String {
        texts::call_line(|room, size| raw::call_line(&self.numbers(), room, size))
    }
}

/// A reply as a value. More replies may come.
#[derive(Clone, Debug, PartialEq, Eq, Hash)]
#[non_exhaustive]
pub enum Reply {
    /// To a fork: the numbers of the child.
    Forked(Child),
    /// To a call that tells nothing.
    Done,
    /// A number of a process, a group or a session, 0 where there is none that the caller sees.
    Number(u32),
    /// To `nspid`: the numbers, outermost first, 1 to 33 of them.
    Levels(Vec<u32>),
    /// To a wait: the child that it took away.
    Reaped(Reaped),
    /// To a wait: children match, and none of them has ended.
    NoneYet,
    /// To `count`: how many tasks.
    Counted(u64),
    /// To `mk`: the id of the new control group.
    Control(u64),
    /// To `next`: none follows.
    End,
    /// The table refuses the call. Nothing has changed, but that the call is counted.
    Refused {
        /// The error that the kernel would give, as a number of Linux's errno.
        errno: i32,
        /// Why.
        refusal: Refusal,
    },
}

impl Reply {
    /// The reply as the answer of the script language, without a newline, as `line` of a table answers. It needs no table. None for one that no table
    /// gives: of more than 33 levels, say.
    ///
    /// ```
    /// use pidtab::{Child, Reply};
    ///
    /// let reply = Reply::Forked(Child { number: 1, root: 2 });
    /// assert_eq!(reply.line().as_deref(), Some("child 1 root 2"));
    /// ```
    pub fn line(&self) -> Option<String> {
        let numbers = self.numbers();
        texts::reply_line(|room, size| raw::reply_line(&numbers, room, size))
    }
}

impl Reply {
    /// The error of a reply that is none of the call's others, so a refusal; of a read there is no call.
    pub(crate) fn refused<T>(self, call: Option<Call>) -> Result<T, Error> {
        match self {
            Reply::Refused { errno, refusal } => Err(Error::Refused {
                errno,
                refusal,
                call,
            }),
            other => unreachable!("the library replies {other:?}"),
        }
    }
}

/// What a reply of each kind tells. One of another kind is given back.
impl Reply {
    pub(crate) fn child(self) -> Result<Child, Reply> {
        match self {
            Reply::Forked(child) => Ok(child),
            other => Err(other),
        }
    }

    pub(crate) fn nothing(self) -> Result<(), Reply> {
        match self {
            Reply::Done => Ok(()),
            other => Err(other),
        }
    }

    pub(crate) fn number(self) -> Result<u32, Reply> {
        match self {
            Reply::Number(number) => Ok(number),
            other => Err(other),
        }
    }

    pub(crate) fn next_one(self) -> Result<Option<u32>, Reply> {
        match self {
            Reply::End => Ok(None),
            other => other.number().map(Some),
        }
    }

    pub(crate) fn levels(self) -> Result<Vec<u32>, Reply> {
        match self {
            Reply::Levels(numbers) => Ok(numbers),
            other => Err(other),
        }
    }

    pub(crate) fn reaped(self) -> Result<Option<Reaped>, Reply> {
        match self {
            Reply::Reaped(reaped) => Ok(Some(reaped)),
            Reply::NoneYet => Ok(None),
            other => Err(other),
        }
    }

    pub(crate) fn counted(self) -> Result<u64, Reply> {
        match self {
            Reply::Counted(count) => Ok(count),
            other => Err(other),
        }
    }

    pub(crate) fn control(self) -> Result<u64, Reply> {
        match self {
            Reply::Control(id) => Ok(id),
            other => Err(other),
        }
    }
}

impl Call {
    /// What the call is told by its reply, or why it was refused.
    pub(crate) fn told<T>(
        self,
        reply: Reply,
        read: impl FnOnce(Reply) -> Result<T, Reply>,
    ) -> Result<T, Error> {
        read(reply).or_else(|other| other.refused(Some(self)))
    }
}

impl Table {
    fn made<T>(
        &self,
        call: Call,
        read: impl FnOnce(Reply) -> Result<T, Reply>,
    ) -> Result<T, Error> {
        call.told(self.call(call)?, read)
    }
}

/// The calls, which are made for worker 0.
#[rustfmt::skip]
impl Table {
    // Written by tools/interface: methods.
    /// `fork(2)`: a child in the namespace for the caller's children.
    ///
    /// # Errors
    /// `Refused` as `NoCaller`, `TooDeep`, `Elsewhere`, `SpaceFallen`, `NoNumber`, `PidsLimit`; `NoMemory`.
    pub fn fork(&self, caller: u32) -> Result<Child, Error> {
        self.made(Call::Fork { caller, new_space: false }, Reply::child)
    }

    /// `clone(2)` with `CLONE_NEWPID`: as [`Table::fork`], and the child is the init of a new namespace.
    ///
    /// # Errors
    /// `Refused` as `NoCaller`, `TooDeep`, `Elsewhere`, `SpaceFallen`, `NoNumber`, `PidsLimit`; `NoMemory`.
    pub fn fork_new(&self, caller: u32) -> Result<Child, Error> {
        self.made(Call::Fork { caller, new_space: true }, Reply::child)
    }

    /// `getpid(2)`: the caller's number in its own namespace.
    ///
    /// # Errors
    /// `Refused` as `NoCaller`.
    pub fn getpid(&self, caller: u32) -> Result<u32, Error> {
        self.made(Call::Getpid { caller }, Reply::number)
    }

    /// NSpid of `proc(5)`: the numbers of the task `number` from the caller's namespace inwards, outermost first: 1 to 33 of them.
    ///
    /// # Errors
    /// `Refused` as `NoCaller`, `NoTask`.
    pub fn nspid(&self, caller: u32, number: u32) -> Result<Vec<u32>, Error> {
        self.made(Call::Nspid { caller, number }, Reply::levels)
    }

    /// `execve(2)`: the caller executes a program.
    ///
    /// # Errors
    /// `Refused` as `NoCaller`.
    pub fn exec(&self, caller: u32) -> Result<(), Error> {
        self.made(Call::Exec { caller }, Reply::nothing)
    }

    /// `_exit(2)`: the caller ends, and its namespace falls if it is the init there; `status` is 0 to 255.
    ///
    /// # Errors
    /// `Refused` as `NoCaller`, `RootInit`.
    pub fn exit(&self, caller: u32, status: u8) -> Result<(), Error> {
        self.made(Call::Exit { caller, status }, Reply::nothing)
    }

    /// `waitpid(2)` with `WNOHANG`: takes an ended child away; none where children match and none of them has ended.
    ///
    /// # Errors
    /// `Refused` as `NoCaller`, `NoChild`.
    pub fn wait(&self, caller: u32, which: Which) -> Result<Option<Reaped>, Error> {
        self.made(Call::Wait { caller, which }, Reply::reaped)
    }

    /// `getppid(2)`: the number of the caller's parent, 0 for one that it cannot see.
    ///
    /// # Errors
    /// `Refused` as `NoCaller`.
    pub fn getppid(&self, caller: u32) -> Result<u32, Error> {
        self.made(Call::Getppid { caller }, Reply::number)
    }

    /// `setpgid(2)`: the task `pid` goes into the group `pgid`; 0 is the caller, and the task.
    ///
    /// # Errors
    /// `Refused` as `NoCaller`, `BadGroup`, `NoTask`, `OtherSession`, `Executed`, `IsLeader`, `NoGroup`.
    pub fn setpgid(&self, caller: u32, pid: i32, pgid: i32) -> Result<(), Error> {
        self.made(Call::Setpgid { caller, pid, pgid }, Reply::nothing)
    }

    /// `setsid(2)`: the caller leads a new session and a new group; its number.
    ///
    /// # Errors
    /// `Refused` as `NoCaller`, `IsLeader`.
    pub fn setsid(&self, caller: u32) -> Result<u32, Error> {
        self.made(Call::Setsid { caller }, Reply::number)
    }

    /// A new control group below the one with the id `parent`, of which 0 is the root: its id.
    ///
    /// # Errors
    /// `Refused` as `NoControl`, `ControlDepth`; `NoMemory`.
    pub fn mk(&self, parent: u64) -> Result<u64, Error> {
        self.made(Call::Mk { parent }, Reply::control)
    }

    /// Removes a control group without live tasks and children.
    ///
    /// # Errors
    /// `Refused` as `NoControl`, `RootControl`, `ControlBusy`.
    pub fn rm(&self, id: u64) -> Result<(), Error> {
        self.made(Call::Rm { id }, Reply::nothing)
    }

    /// How many tasks the control group may have, 0 to 4194304, or none for no limit.
    ///
    /// # Errors
    /// `Refused` as `NoControl`, `RootControl`, `BadLimit`.
    pub fn limit(&self, id: u64, limit: Option<u32>) -> Result<(), Error> {
        self.made(Call::Limit { id, limit }, Reply::nothing)
    }

    /// The task, by its root number, goes into the control group.
    ///
    /// # Errors
    /// `Refused` as `NoTask`, `NoControl`.
    pub fn move_task(&self, task: u32, id: u64) -> Result<(), Error> {
        self.made(Call::Move { task, id }, Reply::nothing)
    }

    /// How many tasks the control group and those below it have.
    ///
    /// # Errors
    /// `Refused` as `NoControl`.
    pub fn count(&self, id: u64) -> Result<u64, Error> {
        self.made(Call::Count { id }, Reply::counted)
    }

    /// `getpgid(2)`: the process group of the task `pid`, where 0 is the caller; 0 where it cannot be seen.
    ///
    /// # Errors
    /// `Refused` as `NoCaller`, `NoTask`.
    pub fn getpgid(&self, caller: u32, pid: u32) -> Result<u32, Error> {
        self.made(Call::Getpgid { caller, pid }, Reply::number)
    }

    /// `getsid(2)`: the session of the task `pid`, where 0 is the caller; 0 where it cannot be seen.
    ///
    /// # Errors
    /// `Refused` as `NoCaller`, `NoTask`.
    pub fn getsid(&self, caller: u32, pid: u32) -> Result<u32, Error> {
        self.made(Call::Getsid { caller, pid }, Reply::number)
    }

    /// The least number from `from` on that is in use as that kind in the caller's namespace.
    ///
    /// # Errors
    /// `Refused` as `NoCaller`.
    pub fn next(&self, caller: u32, kind: Kind, from: u32) -> Result<Option<u32>, Error> {
        self.made(Call::Next { caller, kind, from }, Reply::next_one)
    }

    /// `setns(2)` with `CLONE_NEWPID`: the caller's later children go into the namespace of the task `number`.
    ///
    /// # Errors
    /// `Refused` as `NoCaller`, `NoTask`.
    pub fn join(&self, caller: u32, number: u32) -> Result<(), Error> {
        self.made(Call::Join { caller, number }, Reply::nothing)
    }

    /// `PR_SET_CHILD_SUBREAPER` of `prctl(2)`: the caller takes orphans of its namespace, or no more.
    ///
    /// # Errors
    /// `Refused` as `NoCaller`.
    pub fn subreaper(&self, caller: u32, on: bool) -> Result<(), Error> {
        self.made(Call::Subreaper { caller, on }, Reply::nothing)
    }
    // The end of methods.
}
