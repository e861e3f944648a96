//! A worker's place at a table.
use crate::{raw, Call, Child, Error, Kind, LineError, Reaped, Reply, Table, Told, Which};
use std::fmt;
use std::ops::Deref;
use std::sync::Arc;

/// No call has such an ordinal.
const NONE: u64 = u64::MAX;

/// A worker's place at a [`Table`], by which it makes calls: those of the table, for this worker. Where the table keeps a history, each is recorded, the
/// refused ones too, and the seat has its ordinal.
///
/// A seat is one worker's, so it cannot be cloned. One by [`Table::seat`] cannot outlive its table, and one by [`Table::owned_seat`] owns it with others:
///
/// ```compile_fail,E0599
/// let table = pidtab::Table::open(32768).unwrap();
/// let other = table.seat().unwrap().clone();
/// ```
///
/// ```compile_fail,E0505
/// let table = pidtab::Table::open(32768).unwrap();
/// let mut seat = table.seat().unwrap();
/// drop(table);
/// let _ = seat.getpid(1);
/// ```
pub struct Seat<T> {
    table: T,
    worker: u32,
    last: u64,
}

impl Table {
    /// A seat for the next worker. Each worker's number is given once, from 0 on; a seat that is dropped is not given again. A call of the table itself is
    /// one of worker 0.
    ///
    /// # Errors
    /// `NoSeat` where all are given, `Busy`.
    pub fn seat(&self) -> Result<Seat<&Table>, Error> {
        Ok(Seat::of(self, self.next_worker()?))
    }

    /// The same seat, which owns its table with others: for a thread without a scope, a task of a runtime, or a struct. The table is closed with its last
    /// owner.
    ///
    /// ```
    /// use pidtab::Table;
    /// use std::sync::Arc;
    /// use std::thread;
    ///
    /// let table = Arc::new(Table::options().threads().open()?);
    /// let mut seat = table.owned_seat()?;
    /// let forked = thread::spawn(move || seat.fork(1));
    /// assert_eq!(forked.join().unwrap()?.root, 2);
    /// # Ok::<(), pidtab::Error>(())
    /// ```
    ///
    /// # Errors
    /// As [`Table::seat`].
    pub fn owned_seat(self: &Arc<Table>) -> Result<Seat<Arc<Table>>, Error> {
        Ok(Seat::of(Arc::clone(self), self.next_worker()?))
    }

    /// The number of the next worker, if it has no seat yet.
    fn next_worker(&self) -> Result<u32, Error> {
        let _change = self.for_change();
        let mut worker = 0;
        match self.raw.seat(&mut worker) {
            raw::OUT_OF_RANGE => Err(Error::NoSeat),
            status => raw::done(status, worker).map_err(Error::of),
        }
    }
}

impl<T> Seat<T> {
    fn of(table: T, worker: u32) -> Seat<T> {
        Seat {
            table,
            worker,
            last: NONE,
        }
    }

    /// The worker's number, from 0 on.
    pub fn worker(&self) -> u32 {
        self.worker
    }

    /// The ordinal of the seat's last recorded call, which may be a refused one; none before the first, and of a table without a history. A call that was
    /// not made, as for want of memory, leaves it.
    pub fn ordinal(&self) -> Option<u64> {
        (self.last != NONE).then_some(self.last)
    }
}

impl<T: Deref<Target = Table>> Seat<T> {
    /// The table.
    pub fn table(&self) -> &T {
        &self.table
    }

    /// As [`Table::call`], with its errors.
    pub fn call(&mut self, call: Call) -> Result<Reply, Error> {
        self.table.call_by(self.worker, call, &mut self.last)
    }

    /// As [`Table::line`], with its errors.
    pub fn line(&mut self, line: impl AsRef<[u8]>) -> Result<String, LineError> {
        let line = line.as_ref();
        self.table.line_by(self.worker, line, &mut self.last)
    }

    /// As [`Table::calls`], with its errors. The ordinal is then that of the last one that was made.
    pub fn calls(&mut self, calls: &[Call], replies: &mut Vec<Reply>) -> Result<(), Error> {
        self.table
            .calls_by(self.worker, calls, replies, &mut self.last)
    }

    /// As [`Table::fork_at`], with its errors.
    pub fn fork_at(&mut self, caller: u32, child: Child) -> Result<bool, Error> {
        self.table
            .fork_at_by(self.worker, caller, false, child, &mut self.last)
    }

    /// As [`Table::fork_new_at`], with its errors.
    pub fn fork_new_at(&mut self, caller: u32, child: Child) -> Result<bool, Error> {
        self.table
            .fork_at_by(self.worker, caller, true, child, &mut self.last)
    }

    /// As [`Table::told`], with its errors.
    pub fn told(&mut self, call: Call) -> Result<Told, Error> {
        self.table.told_by(self.worker, call, &mut self.last)
    }

    fn made<R>(
        &mut self,
        call: Call,
        read: impl FnOnce(Reply) -> Result<R, Reply>,
    ) -> Result<R, Error> {
        call.told(self.call(call)?, read)
    }
}

/// The calls, which are made for the seat's worker.
#[rustfmt::skip]
impl<T: Deref<Target = Table>> Seat<T> {
    // Written by tools/interface: methods.
    /// As [`Table::fork`](crate::Table::fork), with its errors.
    pub fn fork(&mut self, caller: u32) -> Result<Child, Error> { self.made(Call::Fork { caller, new_space: false }, Reply::child) }
    /// As [`Table::fork_new`](crate::Table::fork_new), with its errors.
    pub fn fork_new(&mut self, caller: u32) -> Result<Child, Error> { self.made(Call::Fork { caller, new_space: true }, Reply::child) }
    /// As [`Table::getpid`](crate::Table::getpid), with its errors.
    pub fn getpid(&mut self, caller: u32) -> Result<u32, Error> { self.made(Call::Getpid { caller }, Reply::number) }
    /// As [`Table::nspid`](crate::Table::nspid), with its errors.
    pub fn nspid(&mut self, caller: u32, number: u32) -> Result<Vec<u32>, Error> { self.made(Call::Nspid { caller, number }, Reply::levels) }
    /// As [`Table::exec`](crate::Table::exec), with its errors.
    pub fn exec(&mut self, caller: u32) -> Result<(), Error> { self.made(Call::Exec { caller }, Reply::nothing) }
    /// As [`Table::exit`](crate::Table::exit), with its errors.
    pub fn exit(&mut self, caller: u32, status: u8) -> Result<(), Error> { self.made(Call::Exit { caller, status }, Reply::nothing) }
    /// As [`Table::wait`](crate::Table::wait), with its errors.
    pub fn wait(&mut self, caller: u32, which: Which) -> Result<Option<Reaped>, Error> { self.made(Call::Wait { caller, which }, Reply::reaped) }
    /// As [`Table::getppid`](crate::Table::getppid), with its errors.
    pub fn getppid(&mut self, caller: u32) -> Result<u32, Error> { self.made(Call::Getppid { caller }, Reply::number) }
    /// As [`Table::setpgid`](crate::Table::setpgid), with its errors.
    pub fn setpgid(&mut self, caller: u32, pid: i32, pgid: i32) -> Result<(), Error> { self.made(Call::Setpgid { caller, pid, pgid }, Reply::nothing) }
    /// As [`Table::setsid`](crate::Table::setsid), with its errors.
    pub fn setsid(&mut self, caller: u32) -> Result<u32, Error> { self.made(Call::Setsid { caller }, Reply::number) }
    /// As [`Table::mk`](crate::Table::mk), with its errors.
    pub fn mk(&mut self, parent: u64) -> Result<u64, Error> { self.made(Call::Mk { parent }, Reply::control) }
    /// As [`Table::rm`](crate::Table::rm), with its errors.
    pub fn rm(&mut self, id: u64) -> Result<(), Error> { self.made(Call::Rm { id }, Reply::nothing) }
    /// As [`Table::limit`](crate::Table::limit), with its errors.
    pub fn limit(&mut self, id: u64, limit: Option<u32>) -> Result<(), Error> { self.made(Call::Limit { id, limit }, Reply::nothing) }
    /// As [`Table::move_task`](crate::Table::move_task), with its errors.
    pub fn move_task(&mut self, task: u32, id: u64) -> Result<(), Error> { self.made(Call::Move { task, id }, Reply::nothing) }
    /// As [`Table::count`](crate::Table::count), with its errors.
    pub fn count(&mut self, id: u64) -> Result<u64, Error> { self.made(Call::Count { id }, Reply::counted) }
    /// As [`Table::getpgid`](crate::Table::getpgid), with its errors.
    pub fn getpgid(&mut self, caller: u32, pid: u32) -> Result<u32, Error> { self.made(Call::Getpgid { caller, pid }, Reply::number) }
    /// As [`Table::getsid`](crate::Table::getsid), with its errors.
    pub fn getsid(&mut self, caller: u32, pid: u32) -> Result<u32, Error> { self.made(Call::Getsid { caller, pid }, Reply::number) }
    /// As [`Table::next`](crate::Table::next), with its errors.
    pub fn next(&mut self, caller: u32, kind: Kind, from: u32) -> Result<Option<u32>, Error> { self.made(Call::Next { caller, kind, from }, Reply::next_one) }
    /// As [`Table::join`](crate::Table::join), with its errors.
    pub fn join(&mut self, caller: u32, number: u32) -> Result<(), Error> { self.made(Call::Join { caller, number }, Reply::nothing) }
    /// As [`Table::subreaper`](crate::Table::subreaper), with its errors.
    pub fn subreaper(&mut self, caller: u32, on: bool) -> Result<(), Error> { self.made(Call::Subreaper { caller, on }, Reply::nothing) }
    // The end of methods.
}

impl<T> fmt::Debug for Seat<T> {
    fn fmt(&self, to: &mut fmt::Formatter<'_>) -> fmt::Result {
        to.debug_struct("Seat")
            .field("worker", &self.worker)
            .field("ordinal", &self.ordinal())
            .finish_non_exhaustive()
    }
}
