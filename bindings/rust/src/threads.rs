//! The lock of a table that was opened with `threads`: any number of them use it, and one waits for another.
//!
//! It is std's, and not the one of the library: a pthread mutex that its own thread takes again has no defined behaviour. The mark of the library is
//! below it, so a table without a lock is `Busy` to a second thread, and never wrong.
use crate::{Error, SavedError, Table};
use std::ops::Deref;
use std::sync::atomic::{AtomicBool, AtomicUsize, Ordering};
use std::sync::{
    Condvar, LockResult, Mutex, MutexGuard, PoisonError, RwLock, RwLockReadGuard, RwLockWriteGuard,
    TryLockError,
};
use std::time::Duration;
use std::{fmt, mem, ptr};

/// How far the saver of a table is, as it has told.
#[derive(Default)]
pub(crate) struct Saving {
    /// So many calls are saved.
    pub(crate) saved: u64,
    /// As many may be recorded and not saved; 0: any number.
    pub(crate) most: u64,
    /// Why the saver's last turn failed, or that it has ended.
    pub(crate) fault: Option<SavedError>,
    pub(crate) has_ended: bool,
    /// Nobody waits for a call any more, except a saver.
    pub(crate) is_over: bool,
    /// A saver, or another, waits for a call.
    sleeps: bool,
}

/// What is locked. A panic cannot leave a table half written: its functions are the library's, and each ends before this crate goes on.
fn whole<T>(locked: LockResult<T>) -> T {
    locked.unwrap_or_else(PoisonError::into_inner)
}

/// A number that no other thread has while this one lives: the place of a variable of its own.
fn this_thread() -> usize {
    thread_local!(static PLACE: u8 = const { 0 });
    PLACE.with(|it| ptr::from_ref(it) as usize)
}

#[derive(Default)]
pub(crate) struct Lock {
    /// Queries share it, and a change has it alone. On Linux no query passes a change that waits: std's lock has it so.
    queries: RwLock<()>,
    /// Who changes the table has it: so one change at a time waits for the queries. Who sleeps has had it.
    changes: Mutex<Saving>,
    /// Who goes before the calls of other threads, and whether that waits for the mutex above: std's is for whoever comes first when it is free, which is
    /// a busy thread that has just given it back. So each thread makes one more call at most before it waits here too.
    gate: Mutex<()>,
    is_awaited: AtomicBool,
    /// The thread that has a [`Guard`]; 0: none.
    holder: AtomicUsize,
    /// A saver has told how far it is.
    told: Condvar,
    /// A call was recorded while somebody slept.
    recorded: Condvar,
}

impl Lock {
    /// Whether this thread has a [`Guard`].
    fn is_mine(&self) -> bool {
        let holder = self.holder.load(Ordering::Relaxed);
        holder != 0 && holder == this_thread()
    }

    fn let_others_go_first(&self) {
        if self.is_awaited.load(Ordering::Relaxed) {
            drop(whole(self.gate.lock()));
        }
    }

    fn before_calls<T>(&self, take: impl FnOnce() -> T) -> T {
        let _first = whole(self.gate.lock());
        self.is_awaited.store(true, Ordering::Relaxed);
        let taken = take();
        self.is_awaited.store(false, Ordering::Relaxed);
        taken
    }

    /// Keeps other changes out, for a call.
    fn changes_for_call(&self) -> MutexGuard<'_, Saving> {
        self.let_others_go_first();
        whole(self.changes.lock())
    }

    /// Keeps other changes out, before the calls of busy threads.
    pub(crate) fn changes(&self) -> MutexGuard<'_, Saving> {
        self.before_calls(|| whole(self.changes.lock()))
    }

    /// Who keeps other changes out waits for the queries, and then has the table alone.
    fn alone<'a>(&'a self, saving: MutexGuard<'a, Saving>) -> Change<'a> {
        Change {
            held: Some((whole(self.queries.write()), saving)),
            lock: self,
        }
    }

    /// Lets changes in until a call is recorded, or the time is over.
    pub(crate) fn sleep<'a>(
        &self,
        mut saving: MutexGuard<'a, Saving>,
        time: Option<Duration>,
    ) -> MutexGuard<'a, Saving> {
        saving.sleeps = true;
        match time {
            Some(time) => whole(self.recorded.wait_timeout(saving, time)).0,
            None => whole(self.recorded.wait(saving)),
        }
    }

    /// Lets changes in until a saver tells how far it is.
    pub(crate) fn wait_for_saver<'a>(
        &self,
        saving: MutexGuard<'a, Saving>,
    ) -> MutexGuard<'a, Saving> {
        whole(self.told.wait(saving))
    }

    /// Has those that wait for the saver look again at what is changed.
    pub(crate) fn tell(&self, change: impl FnOnce(&mut Saving)) {
        change(&mut self.changes());
        self.told.notify_all();
    }

    /// Wakes a saver that sleeps, and who waits for a call.
    pub(crate) fn wake(&self) {
        self.recorded.notify_all();
    }
}

/// The table is this thread's alone.
pub(crate) struct Change<'a> {
    // None only amid the drop. Queries that wait are let in before the next change.
    held: Option<(RwLockWriteGuard<'a, ()>, MutexGuard<'a, Saving>)>,
    lock: &'a Lock,
}

impl Drop for Change<'_> {
    fn drop(&mut self) {
        let Some((queries, mut saving)) = self.held.take() else {
            return;
        };
        let wakes = mem::take(&mut saving.sleeps);
        drop(queries);
        drop(saving);
        if wakes {
            self.lock.wake();
        }
    }
}

/// The lock of a table, by [`Table::lock`]. It derefs to the table, which is this thread's until this is dropped.
///
/// It stays in its thread:
///
/// ```compile_fail,E0277
/// fn sent<T: Send>() {}
/// sent::<pidtab::Guard<'static>>();
/// ```
pub struct Guard<'a> {
    table: &'a Table,
    change: Change<'a>,
}

impl Deref for Guard<'_> {
    type Target = Table;

    fn deref(&self) -> &Table {
        self.table
    }
}

impl Drop for Guard<'_> {
    fn drop(&mut self) {
        self.change.lock.holder.store(0, Ordering::Relaxed);
    }
}

impl fmt::Debug for Guard<'_> {
    fn fmt(&self, to: &mut fmt::Formatter<'_>) -> fmt::Result {
        to.debug_struct("Guard").finish_non_exhaustive()
    }
}

impl Table {
    /// The lock of a table that was opened with `threads`, for several functions in one go: a list and the counts that it belongs to, or calls with none of
    /// another thread between them. All others wait while the guard lives. This thread calls the guard's functions, the table's or those of its
    /// seats, which are the same now; its calls wait for no saver.
    ///
    /// ```
    /// use pidtab::Table;
    ///
    /// let table = Table::options().keep(4096).threads().open()?;
    /// let held = table.lock()?;
    /// let child = held.fork(1)?;
    /// held.exit(child.root, 0)?;
    /// assert_eq!(held.counts()?.recorded, 2);
    /// # Ok::<(), pidtab::Error>(())
    /// ```
    ///
    /// It goes before the calls of busy threads: each makes one more at most.
    ///
    /// # Errors
    /// `NoThreads`; `Busy` where this thread has the lock already.
    pub fn lock(&self) -> Result<Guard<'_>, Error> {
        let lock = self.threads()?;
        let change = lock.alone(lock.changes());
        lock.holder.store(this_thread(), Ordering::Relaxed);
        Ok(Guard {
            table: self,
            change,
        })
    }

    /// The lock, of which this thread has no guard: what waits with one would wait for ever.
    pub(crate) fn threads(&self) -> Result<&Lock, Error> {
        let lock = self.lock.as_ref().ok_or(Error::NoThreads)?;
        if lock.is_mine() {
            return Err(Error::Busy);
        }
        Ok(lock)
    }

    /// The lock that a function takes: none where there is none, or this thread has it.
    fn to_take(&self) -> Option<&Lock> {
        self.lock.as_ref().filter(|it| !it.is_mine())
    }

    /// A query's share, which lets those go before that are no calls.
    pub(crate) fn for_query(&self) -> Option<RwLockReadGuard<'_, ()>> {
        let lock = self.to_take()?;
        lock.let_others_go_first();
        Some(whole(lock.queries.read()))
    }

    /// The share of a function that goes before the calls and their like where it has to wait.
    pub(crate) fn for_read(&self) -> Option<RwLockReadGuard<'_, ()>> {
        let lock = self.to_take()?;
        Some(match lock.queries.try_read() {
            Ok(query) => query,
            Err(TryLockError::Poisoned(query)) => query.into_inner(),
            Err(TryLockError::WouldBlock) => lock.before_calls(|| whole(lock.queries.read())),
        })
    }

    /// What a change has that is no call.
    pub(crate) fn for_change(&self) -> Option<Change<'_>> {
        let lock = self.to_take()?;
        Some(lock.alone(lock.changes()))
    }

    /// What so many calls have that keep the bound: it waits until the saver is near enough.
    #[inline]
    pub(crate) fn for_calls(&self, calls: usize) -> Result<Option<Change<'_>>, Error> {
        match self.to_take() {
            None => Ok(None),
            Some(lock) => self.change_in_bound(lock, calls as u64).map(Some),
        }
    }

    // Not inline, so that a table without a lock pays for a comparison alone.
    #[inline(never)]
    fn change_in_bound<'a>(&self, lock: &'a Lock, calls: u64) -> Result<Change<'a>, Error> {
        let mut saving = lock.changes_for_call();
        while self.is_too_far(&saving, calls)? {
            if saving.fault.is_some() {
                return Err(Error::Unsaved);
            }
            saving = lock.wait_for_saver(saving);
        }
        Ok(lock.alone(saving))
    }

    /// Whether with so many calls more would be recorded and not saved than the bound lets there be. More than the bound follow where all are saved.
    fn is_too_far(&self, saving: &Saving, calls: u64) -> Result<bool, Error> {
        if saving.most == 0 {
            return Ok(false);
        }
        let ahead = self.recorded()?.saturating_sub(saving.saved);
        Ok(ahead != 0 && ahead.saturating_add(calls) > saving.most)
    }
}

#[cfg(test)]
mod tests {
    use super::*;
    use crate::{Call, Child, Keep, LineError, Reply, Saved, SavedFault};
    use std::thread;

    const FORK: Call = Call::Fork {
        caller: 1,
        new_space: false,
    };

    fn open() -> Table {
        let options = Table::options().keep(Keep::All).workers(4).threads();
        options.open().expect("a table")
    }

    /// Each thread forks with the numbers that it was told, or is told anew where another was faster.
    #[test]
    fn threads_fork_as_told() {
        const FORKS: usize = 200;
        let options = Table::options().keep(10).workers(4).threads();
        let table = options.open().expect("a table");
        thread::scope(|scope| {
            for _ in 0..4 {
                let mut seat = table.seat().expect("a seat");
                let table = &table;
                scope.spawn(move || {
                    let mut made = 0;
                    while made < FORKS {
                        let told = match table.would(FORK) {
                            Ok(Reply::Forked(child)) => child,
                            other => panic!("{other:?}"),
                        };
                        made += usize::from(seat.fork_at(1, told).expect("a fork"));
                    }
                });
            }
        });
        assert_eq!(table.counts().expect("counts").recorded, 4 * FORKS as u64);
        assert_eq!(
            table.ask(Call::Count { id: 0 }),
            Ok(Reply::Counted(4 * FORKS as u64 + 1))
        );
    }

    /// A fork with other numbers is none: it is not recorded, and has no ordinal.
    #[test]
    fn a_fork_with_other_numbers() {
        let table = open();
        let mut seat = table.seat().expect("a seat");
        let other = Child { number: 3, root: 2 };
        assert_eq!(seat.fork_at(1, other), Ok(false));
        assert_eq!(seat.fork_at(9, other), Ok(false));
        assert_eq!(
            (seat.ordinal(), table.counts().map(|it| it.recorded)),
            (None, Ok(0))
        );
        let child = Child { number: 2, root: 2 };
        assert_eq!(seat.fork_new_at(1, child), Ok(true));
        assert_eq!((seat.ordinal(), seat.getpid(2)), (Some(0), Ok(1)));
    }

    /// What asks is `Busy`, and so is what calls.
    fn is_busy(table: &Table) {
        assert_eq!(table.getpid(1), Err(Error::Busy));
        assert_eq!(table.line("getpid 1"), Err(LineError::Busy));
        assert_eq!(table.told(FORK), Err(Error::Busy));
        let child = Child { number: 2, root: 2 };
        assert_eq!(table.fork_at(1, child), Err(Error::Busy));
        assert_eq!(table.calls(&[FORK], &mut Vec::new()), Err(Error::Busy));
        assert_eq!(table.seat().err(), Some(Error::Busy));
        assert_eq!(table.ask(Call::Getpid { caller: 1 }), Err(Error::Busy));
        assert_eq!(table.would(FORK), Err(Error::Busy));
        assert_eq!(table.stat(1, 0), Err(Error::Busy));
        assert_eq!(table.children(1, 0, 0), Err(Error::Busy));
        assert_eq!(table.control_tasks(1, 0, 0), Err(Error::Busy));
        assert_eq!(table.space(0), Err(Error::Busy));
        assert_eq!(table.spaces_inside(0, 0), Err(Error::Busy));
        assert_eq!(table.list(), Err(Error::Busy));
        assert_eq!(table.dump(), Err(Error::Busy));
        assert_eq!(table.label(1, "init"), Err(Error::Busy));
    }

    /// As in a forked child, where the thread whose call was under way is not.
    #[test]
    fn a_call_that_does_not_end() {
        let (bare, recorded) = (Table::open(32768).expect("a table"), open());
        for table in [&bare, &recorded] {
            table.raw.mark(true);
            is_busy(table);
        }
        let mut seat = Err(Error::Busy);
        assert_eq!(recorded.counts(), Err(Error::Busy));
        assert_eq!(recorded.worker(0), Err(Error::Busy));
        assert_eq!(recorded.entry(0), Err(Error::Busy));
        assert_eq!(recorded.entries(0, 1), Err(Error::Busy));
        assert_eq!(recorded.checkpoint(), Err(Error::Busy));
        assert_eq!(recorded.checkpoint_at(0), Err(Error::Busy));
        assert_eq!(recorded.opening(), Err(Error::Busy));
        let (mut saved, mut bytes) = (Saved::new(), Vec::new());
        let busy = recorded.save(&mut saved, &mut bytes);
        let busy = busy.expect_err("busy").fault;
        assert!(matches!(busy, SavedFault::Table(Error::Busy)) && bytes.is_empty());
        for table in [&bare, &recorded] {
            table.raw.mark(false);
            seat = table.seat();
        }
        let mut seat = seat.expect("a seat");
        assert_eq!((seat.ordinal(), seat.getpid(1)), (None, Ok(1)));
    }

    /// While a query is under way another one is answered, and a call waits. Then a query waits after the call, and sees what it has done.
    #[test]
    fn queries_at_once() {
        let (table, all) = (open(), Call::Count { id: 0 });
        let is_made = AtomicBool::new(false);
        thread::scope(|scope| {
            let query = table.for_query();
            let other = scope.spawn(|| (table.ask(all), table.stat(1, 0).is_ok(), table.list()));
            let (counted, is_found, list) = other.join().expect("no panic");
            assert_eq!((counted, is_found), (Ok(Reply::Counted(1)), true));
            assert!(list.is_ok_and(|it| it.contains("count 1\n")));
            scope.spawn(|| {
                assert_eq!(table.fork(1).map(|it| it.number), Ok(2));
                is_made.store(true, Ordering::SeqCst);
            });
            let lock = table.lock.as_ref().expect("a lock");
            while lock.queries.try_read().is_ok() {
                thread::yield_now();
            }
            let after = scope.spawn(|| table.ask(all));
            thread::sleep(Duration::from_millis(50));
            assert!(!is_made.load(Ordering::SeqCst) && !after.is_finished());
            drop(query);
            assert_eq!(after.join().expect("no panic"), Ok(Reply::Counted(2)));
        });
    }

    /// What the thread that has the lock does works, except for what waits for another thread.
    #[test]
    fn who_has_the_lock() {
        let table = open();
        let mut seat = table.seat().expect("a seat");
        let held = table.lock().expect("the lock");
        assert_eq!(
            held.fork(1),
            table.fork(2).map(|it| Child {
                number: it.number - 1,
                root: it.root - 1
            })
        );
        assert_eq!((seat.fork(3).is_ok(), seat.ordinal()), (true, Some(2)));
        assert!(table.list() == held.list() && table.checkpoint_at(3).is_ok());
        assert_eq!(table.lock().err(), Some(Error::Busy));
        assert_eq!(table.wait_changed(0, None), Err(Error::Busy));
        assert_eq!(
            (table.end_waiting(), table.end_saving()),
            (Err(Error::Busy), Err(Error::Busy))
        );
        assert_eq!(table.bound_unsaved(1), Err(Error::Busy));
        let is_busy = |done: Result<(), SavedError>| {
            matches!(
                done,
                Err(SavedError {
                    fault: SavedFault::Table(Error::Busy),
                    ..
                })
            )
        };
        assert!(is_busy(table.wait_saved(0)));
        assert!(is_busy(table.save(&mut Saved::new(), &mut Vec::new())));
        assert!(is_busy(table.serve(
            &mut Saved::new(),
            &mut Vec::new(),
            0,
            || Ok(())
        )));
        thread::scope(|scope| {
            let other = scope.spawn(|| table.getpid(1));
            thread::sleep(Duration::from_millis(50));
            assert!(!other.is_finished());
            drop(held);
            assert_eq!(other.join().expect("no panic"), Ok(1));
        });
        assert!(table.lock().is_ok());
    }
}
