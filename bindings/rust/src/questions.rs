//! What may be asked of a table and changes nothing. None of it is a call: it uses no stamp, and is not recorded.
use crate::{page, raw, space, Call, Error, Reply, SpaceStat, Stat, Table};

impl Table {
    // Written by tools/interface: questions.
    /// Answers a query as its call would be answered, refusals too. Nothing changes, and it is not counted. It takes no memory.
    ///
    /// [`Call`] says which are queries.
    ///
    /// # Errors
    /// `NoQuery` for each other call, `Busy`.
    pub fn ask(&self, query: Call) -> Result<Reply, Error> {
        let _query = self.for_query();
        let mut reply = raw::Reply::BLANK;
        Error::unless_asked(self.raw.ask(&query.numbers(), &mut reply))?;
        Ok(Reply::of(&reply))
    }

    /// Reads the task `pid` of the caller's namespace, where 0 is the caller, and a zombie too, as getpgid finds it. It costs what a
    /// getpgid costs.
    ///
    /// It is no call, as [`Table::ask`] makes none.
    ///
    /// ```
    /// use pidtab::Table;
    ///
    /// let table = Table::open(32768)?;
    /// table.fork_new(1)?;
    /// let task = table.stat(1, 2)?;
    /// assert_eq!((task.numbers(), task.parent(), task.ended()), (&[2, 1][..], 1, None));
    /// # Ok::<(), pidtab::Error>(())
    /// ```
    ///
    /// # Errors
    /// `Refused` as `NoCaller`, `NoTask`; `Busy`.
    pub fn stat(&self, caller: u32, pid: u32) -> Result<Stat, Error> {
        let _query = self.for_query();
        let mut task = raw::Task::BLANK;
        Stat::of(self.raw.stat(caller, pid, &mut task), task)
    }

    /// The children of the task `pid`, where 0 is the caller, zombies too: their numbers in the caller's namespace, in rising order and not
    /// below `from`. Who is not visible there is left out, and a number that is nobody's has none. It costs what is read of each of them.
    /// It takes memory for a list.
    ///
    /// It is no call, as [`Table::ask`] makes none.
    ///
    /// ```
    /// use pidtab::{Error, Table};
    ///
    /// /// Ends tasks, and first the children of each. The root init sees all by their root numbers.
    /// fn end_all(table: &Table, tasks: Vec<u32>) -> Result<(), Error> {
    ///     for task in tasks {
    ///         let children = table.children(1, task, 0)?;
    ///         end_all(table, children)?;
    ///         if table.stat(1, task)?.ended().is_none() {
    ///             table.exit(task, 0)?;
    ///         }
    ///     }
    ///     Ok(())
    /// }
    ///
    /// let table = Table::open(32768)?;
    /// table.fork(1)?;
    /// table.setpgid(1, 2, 2)?;
    /// table.fork(2)?;
    /// table.setsid(3)?;
    /// let members = table.group_members(1, 2, 0)?;
    /// end_all(&table, members)?;
    /// assert_eq!(table.children(1, 0, 0)?, [2, 3]);
    /// assert!(table.stat(1, 3)?.ended().is_some());
    /// # Ok::<(), Error>(())
    /// ```
    ///
    /// # Errors
    /// `Refused` as `NoCaller`; `NoMemory`, `Busy`.
    pub fn children(&self, caller: u32, pid: u32, from: u32) -> Result<Vec<u32>, Error> {
        let _query = self.for_query();
        page::all(|numbers, reply| {
            self.raw
                .page(caller, raw::CHILDREN, pid, from, numbers, reply)
        })
    }

    /// The members of the process group with the number `group`, where 0 is the caller's own, as [`Table::children`] has those of a task.
    /// It takes memory for a list.
    ///
    /// It is no call, as [`Table::ask`] makes none.
    ///
    /// # Errors
    /// `Refused` as `NoCaller`; `NoMemory`, `Busy`.
    pub fn group_members(&self, caller: u32, group: u32, from: u32) -> Result<Vec<u32>, Error> {
        let _query = self.for_query();
        page::all(|numbers, reply| {
            self.raw
                .page(caller, raw::GROUP_MEMBERS, group, from, numbers, reply)
        })
    }

    /// The members of the session with the number `session`, where 0 is the caller's own, as [`Table::children`] has those of a task. It
    /// takes memory for a list.
    ///
    /// It is no call, as [`Table::ask`] makes none.
    ///
    /// ```
    /// use pidtab::Table;
    ///
    /// // 2 leads a session. Its child 3 is in the foreground, in a group of its own, and 5, a child of its child 4, leads another session.
    /// let table = Table::open(32768)?;
    /// table.fork(1)?;
    /// table.setsid(2)?;
    /// table.fork(2)?;
    /// table.fork(2)?;
    /// table.setpgid(2, 3, 3)?;
    /// table.fork(4)?;
    /// table.setsid(5)?;
    /// assert_eq!(table.group_members(2, 3, 0)?, [3]);
    /// assert_eq!(table.session_members(2, 0, 0)?, [2, 3, 4]);
    /// # Ok::<(), pidtab::Error>(())
    /// ```
    ///
    /// # Errors
    /// `Refused` as `NoCaller`; `NoMemory`, `Busy`.
    pub fn session_members(&self, caller: u32, session: u32, from: u32) -> Result<Vec<u32>, Error> {
        let _query = self.for_query();
        page::all(|numbers, reply| {
            self.raw
                .page(caller, raw::SESSION_MEMBERS, session, from, numbers, reply)
        })
    }

    /// The tasks of the namespace that the task `pid` is in, where 0 is the caller, those in namespaces inside it too, as
    /// [`Table::children`] has those of a task. Of the caller's own namespace these are all that it sees, whom kill(2) of -1 reaches, and
    /// only what is told of them is read. It takes memory for a list.
    ///
    /// It is no call, as [`Table::ask`] makes none.
    ///
    /// ```
    /// use pidtab::{Error, Table};
    ///
    /// /// Whom a kill of -1 reaches, by their root numbers: not the init, which is 1 there, and not the caller. To a zombie it does nothing.
    /// fn reached(table: &Table, caller: u32) -> Result<Vec<u32>, Error> {
    ///     let mut tasks = Vec::new();
    ///     for number in table.namespace_members(caller, 0, 2)? {
    ///         let task = table.stat(caller, number)?;
    ///         if task.ended().is_none() && task.root() != caller {
    ///             tasks.push(task.root());
    ///         }
    ///     }
    ///     Ok(tasks)
    /// }
    ///
    /// // 2 is the init of a namespace, and 3, 4 and 5 are its children. 4 is a zombie, and 5 is the init of a namespace within it.
    /// let table = Table::open(32768)?;
    /// table.fork_new(1)?;
    /// table.fork(2)?;
    /// table.fork(2)?;
    /// table.fork_new(2)?;
    /// table.exit(4, 0)?;
    /// assert_eq!(reached(&table, 1)?, [2, 3, 5]);
    /// assert_eq!(reached(&table, 3)?, [5]);
    /// assert_eq!(reached(&table, 5)?, []);
    /// assert!(reached(&table, 4).is_err());
    /// # Ok::<(), Error>(())
    /// ```
    ///
    /// # Errors
    /// `Refused` as `NoCaller`; `NoMemory`, `Busy`.
    pub fn namespace_members(&self, caller: u32, pid: u32, from: u32) -> Result<Vec<u32>, Error> {
        let _query = self.for_query();
        page::all(|numbers, reply| {
            self.raw
                .page(caller, raw::NAMESPACE_MEMBERS, pid, from, numbers, reply)
        })
    }

    /// Of [`Table::namespace_members`] those that are in no namespace inside it. It takes memory for a list.
    ///
    /// It is no call, as [`Table::ask`] makes none.
    ///
    /// ```
    /// use pidtab::Table;
    ///
    /// // 2 is the init of a namespace, in which is its child 3, and 4 that of one within it.
    /// let table = Table::open(32768)?;
    /// table.fork_new(1)?;
    /// table.fork(2)?;
    /// table.fork_new(3)?;
    /// // Each namespace with its own tasks, from the root inwards. Where the init was reaped, nobody is left but zombies.
    /// let (mut told, mut spaces) = (Vec::new(), vec![0]);
    /// while let Some(id) = spaces.pop() {
    ///     if let Some(init) = table.space(id)?.and_then(|it| it.init) {
    ///         told.push((id, table.namespace_own(1, init, 0)?));
    ///     }
    ///     spaces.extend(table.spaces_inside(id, 0)?.unwrap_or_default());
    /// }
    /// assert_eq!(told, [(0, vec![1]), (1, vec![2, 3]), (3, vec![4])]);
    /// # Ok::<(), pidtab::Error>(())
    /// ```
    ///
    /// # Errors
    /// `Refused` as `NoCaller`; `NoMemory`, `Busy`.
    pub fn namespace_own(&self, caller: u32, pid: u32, from: u32) -> Result<Vec<u32>, Error> {
        let _query = self.for_query();
        page::all(|numbers, reply| {
            self.raw
                .page(caller, raw::NAMESPACE_OWN, pid, from, numbers, reply)
        })
    }

    /// Reads the namespace `id`, where 0 is the root namespace. It takes no memory, and costs two searches and a few reads.
    ///
    /// None where no namespace has the id, or it is gone.
    ///
    /// It is no call, as [`Table::ask`] makes none.
    ///
    /// ```
    /// use pidtab::Table;
    ///
    /// // 2 is the init of a namespace, and 3 that of one within it, which ends.
    /// let table = Table::open(32768)?;
    /// table.fork_new(1)?;
    /// table.fork_new(2)?;
    /// table.exit(3, 0)?;
    /// // The namespaces that it was in, from its own outwards.
    /// let (mut id, mut told) = (table.stat(1, 3)?.space(), Vec::new());
    /// while let Some(space) = table.space(id)? {
    ///     told.push((space.level, space.init, space.fallen));
    ///     let Some(parent) = space.parent else { break };
    ///     id = parent;
    /// }
    /// assert_eq!(told, [(2, Some(3), true), (1, Some(2), false), (0, Some(1), false)]);
    /// assert_eq!(table.space(9)?, None);
    /// # Ok::<(), pidtab::Error>(())
    /// ```
    ///
    /// # Errors
    /// `Busy`.
    pub fn space(&self, id: u64) -> Result<Option<SpaceStat>, Error> {
        let _query = self.for_query();
        let mut space = raw::Space::BLANK;
        SpaceStat::of(self.raw.space(id, &mut space), space)
    }

    /// The ids of the namespaces directly in the namespace `id`, where 0 is the root, in rising order and not below `from`. One that has
    /// fallen is among them as long as [`Table::space`] reads it. It costs what is read of each of them. It takes memory for a list.
    ///
    /// None where no namespace has the id, or it is gone.
    ///
    /// It is no call, as [`Table::ask`] makes none.
    ///
    /// ```
    /// use pidtab::Table;
    ///
    /// let table = Table::open(32768)?;
    /// table.fork_new(1)?;
    /// table.fork_new(2)?;
    /// table.mk(0)?;
    /// assert_eq!(table.spaces_inside(0, 0)?, Some(vec![1]));
    /// assert_eq!(table.spaces_inside(1, 0)?, Some(vec![2]));
    /// assert_eq!(table.spaces_inside(3, 0)?, None);
    /// assert_eq!(table.controls_inside(0, 0)?, Some(vec![3]));
    /// # Ok::<(), pidtab::Error>(())
    /// ```
    ///
    /// # Errors
    /// `NoMemory`, `Busy`.
    pub fn spaces_inside(&self, id: u64, from: u64) -> Result<Option<Vec<u64>>, Error> {
        let _query = self.for_query();
        space::inside(|ids, count| self.raw.inside(raw::SPACES, id, from, ids, count))
    }

    /// The ids of the control groups directly in the control group `id`, where 0 is the root, as [`Table::spaces_inside`] has those of a
    /// namespace. It takes memory for a list.
    ///
    /// None where no control group has the id, or it is gone.
    ///
    /// It is no call, as [`Table::ask`] makes none.
    ///
    /// # Errors
    /// `NoMemory`, `Busy`.
    pub fn controls_inside(&self, id: u64, from: u64) -> Result<Option<Vec<u64>>, Error> {
        let _query = self.for_query();
        space::inside(|ids, count| self.raw.inside(raw::CONTROLS, id, from, ids, count))
    }

    /// The live tasks directly in the control group with the id `control`, where 0 is the root, as [`Table::children`] has those of a task:
    /// cgroup.procs, in which no zombie appears. It takes memory for a list.
    ///
    /// It is no call, as [`Table::ask`] makes none.
    ///
    /// ```
    /// use pidtab::{Error, Table};
    ///
    /// /// The control group, and then each directly inside it, with their live tasks, as `systemd-cgls` has them.
    /// fn tree(table: &Table, id: u64, depth: usize) -> Result<String, Error> {
    ///     let mut said = format!("{:depth$}{id}: {:?}\n", "", table.control_tasks(1, id, 0)?);
    ///     for inner in table.controls_inside(id, 0)?.unwrap_or_default() {
    ///         said += &tree(table, inner, depth + 1)?;
    ///     }
    ///     Ok(said)
    /// }
    ///
    /// let table = Table::open(32768)?;
    /// let service = table.mk(0)?;
    /// let worker = table.mk(service)?;
    /// table.fork(1)?;
    /// table.move_task(2, service)?;
    /// table.fork(2)?;
    /// table.fork(2)?;
    /// table.fork(2)?;
    /// table.move_task(4, worker)?;
    /// // A zombie counts, and is no live task.
    /// table.exit(5, 0)?;
    /// assert_eq!(tree(&table, 0, 0)?, "0: [1]\n 1: [2, 3]\n  2: [4]\n");
    /// # Ok::<(), Error>(())
    /// ```
    ///
    /// # Errors
    /// `Refused` as `NoCaller`, `NoControl`; `NoMemory`, `Busy`.
    pub fn control_tasks(&self, caller: u32, control: u64, from: u32) -> Result<Vec<u32>, Error> {
        let _query = self.for_query();
        page::all(|numbers, reply| {
            self.raw
                .control_tasks(caller, control, from, numbers, reply)
        })
    }

    /// The reply that the call would get now, refusals too: the numbers of a fork, and whom a wait would reap, as waitid(2) with WNOWAIT.
    /// Nothing changes, and it is not counted. It takes no memory, and does not tell whether the call would find some.
    ///
    /// It is no call, as [`Table::ask`] makes none.
    ///
    /// # Errors
    /// `Spent`, `Busy`.
    pub fn would(&self, call: Call) -> Result<Reply, Error> {
        let _query = self.for_query();
        let mut reply = raw::Reply::BLANK;
        Error::unless_done(self.raw.would(&call.numbers(), &mut reply))?;
        Ok(Reply::of(&reply))
    }
    // The end of questions.
}
