//! The history of a table: what it has, how it is cut, replayed and followed.
use crate::table::BATCH;
use crate::{raw, texts, Argument, Call, Error, ReplayError, Reply, Table};
use std::time::{Duration, Instant};

/// A recorded call with its reply.
#[derive(Clone, Debug, PartialEq, Eq, Hash)]
pub struct Entry {
    /// The call's place among all recorded calls, from 0 on.
    pub ordinal: u64,
    /// The number of the worker whose call it was, from 0 on.
    pub worker: u32,
    /// The call.
    pub call: Call,
    /// What it was answered.
    pub reply: Reply,
}

/// How far a history goes. The ordinals of the kept entries are those from `first_kept` on, below `recorded`.
#[derive(Clone, Copy, Debug, PartialEq, Eq, Hash)]
#[non_exhaustive]
pub struct Counts {
    /// The ordinal of the first kept entry, or of the next call where none is kept.
    pub first_kept: u64,
    /// How many calls were recorded, the cut ones too: the ordinal of the next call.
    pub recorded: u64,
}

impl Table {
    /// The ordinal of the first kept entry, and how many calls were recorded, the cut ones too.
    ///
    /// # Errors
    /// `NoHistory`, `Busy`.
    pub fn counts(&self) -> Result<Counts, Error> {
        let _query = self.for_read();
        let (mut first_kept, mut recorded) = (0, 0);
        Error::unless_done(self.raw.counts(&mut first_kept, &mut recorded))?;
        Ok(Counts {
            first_kept,
            recorded,
        })
    }

    /// How many calls were recorded, for who keeps changes out.
    pub(crate) fn recorded(&self) -> Result<u64, Error> {
        let mut recorded = 0;
        let status = self.raw.counts(&mut 0, &mut recorded);
        raw::done(status, recorded).map_err(Error::of)
    }

    /// How many calls of the worker were recorded, the cut ones too.
    ///
    /// # Errors
    /// `Argument` where there are not so many workers: they are numbered from 0 on. `NoHistory`, `Busy`.
    pub fn worker(&self, worker: u32) -> Result<u64, Error> {
        let _query = self.for_read();
        let mut calls = 0;
        let status = self.raw.worker(worker, &mut calls);
        raw::done(status, calls)
            .map_err(|status| Error::of_argument(status, || self.no_worker(worker)))
    }

    /// The number of a worker, if there are not so many.
    fn no_worker(&self, worker: u32) -> Option<Argument> {
        Argument::outside("worker", worker, 0u32, self.workers() - 1)
    }

    /// The kept entry with the ordinal.
    ///
    /// # Errors
    /// `NotKept` where it was cut away or is not reached yet; `NoHistory`, `Busy`.
    pub fn entry(&self, ordinal: u64) -> Result<Entry, Error> {
        let _query = self.for_read();
        let mut entry = raw::Entry::BLANK;
        let (worker, call, reply) = (&mut entry.worker, &mut entry.call, &mut entry.reply);
        Error::unless_done(self.raw.entry(ordinal, worker, call, reply))?;
        Ok(Entry::of(ordinal, &entry))
    }

    /// The kept entries from the ordinal on: as many as there are, and at most `most`. None where `from` is the ordinal of the next call.
    ///
    /// It costs a copy of each, and calls wait meanwhile. Whoever ships a long history takes some thousands at a time.
    ///
    /// # Errors
    /// `NotKept` where `from` is neither a kept entry nor the next call; `NoHistory`, `NoMemory`, `Busy`.
    pub fn entries(&self, from: u64, most: usize) -> Result<Vec<Entry>, Error> {
        let _query = self.for_read();
        let there = usize::try_from(self.recorded()?.saturating_sub(from)).unwrap_or(usize::MAX);
        let mut room = [raw::Entry::BLANK; BATCH];
        // Where `from` is not kept, that is known before there is memory for it.
        self.read(from, &mut room[..0])?;
        let mut entries = Vec::new();
        entries
            .try_reserve_exact(there.min(most))
            .map_err(|_| Error::NoMemory)?;
        loop {
            let wanted = BATCH.min(most - entries.len());
            let next = from + entries.len() as u64;
            let read = self.read(next, &mut room[..wanted])?;
            entries.extend((next..).zip(&room[..read]).map(|it| Entry::of(it.0, it.1)));
            if read < BATCH {
                return Ok(entries);
            }
        }
    }

    /// Reads the kept entries from the ordinal on, as numbers: how many. For who shares the table.
    fn read(&self, from: u64, room: &mut [raw::Entry]) -> Result<usize, Error> {
        let mut count = 0;
        let status = self.raw.read(from, room, &mut count);
        raw::done(status, count).map_err(Error::of)
    }

    /// The same, for who saves them.
    pub(crate) fn read_numbers(&self, from: u64, room: &mut [raw::Entry]) -> Result<usize, Error> {
        let _query = self.for_read();
        self.read(from, room)
    }

    /// Cuts the history: the present state is the opening from now on, and ordinals go on. It costs each kept call once more.
    ///
    /// # Errors
    /// `NoMemory`, and nothing has changed; `NoHistory`, `Busy`.
    pub fn checkpoint(&self) -> Result<(), Error> {
        let _change = self.for_change();
        Error::unless_done(self.raw.checkpoint())
    }

    /// The same where exactly `seen` calls were recorded, so that no call is cut that nobody has read.
    ///
    /// # Errors
    /// `Again` where it is another number; `NoMemory`, `NoHistory`, `Busy`. Nothing has changed then.
    pub fn checkpoint_at(&self, seen: u64) -> Result<(), Error> {
        let _change = self.for_change();
        Error::unless_done(self.raw.checkpoint_at(seen))
    }

    /// The list of the state that the kept history begins in: that of the first opening, or of the last cut. It costs as a list does.
    ///
    /// # Errors
    /// `NoHistory`, `NoMemory`, `Busy`.
    pub fn opening(&self) -> Result<String, Error> {
        let _query = self.for_read();
        texts::whole(|room, size| self.raw.opening(room, size))
    }

    /// Makes the calls of saved entries, in their order, each for the worker that it names, and compares their replies. Their ordinals are not
    /// looked at. With the same opening and the same settings, the history is then the saved one.
    ///
    /// It costs what the calls cost.
    ///
    /// # Errors
    /// It stops at the first entry that has another reply, `Differs`, or cannot be made: `Argument` for a worker that is not there;
    /// `NoHistory`, `NoMemory`, `Spent`, `Busy`. What was made before stays made.
    pub fn replay(&self, saved: &[Entry]) -> Result<(), ReplayError> {
        let _change = self.for_change();
        for (batch, entries) in saved.chunks(BATCH).enumerate() {
            let mut room = [raw::Entry::BLANK; BATCH];
            for (numbers, entry) in room.iter_mut().zip(entries) {
                *numbers = entry.numbers();
            }
            let made = self.make_again(&room[..entries.len()]);
            made.map_err(|stopped| {
                let place = batch * BATCH + stopped.place;
                let error = self.error_of(stopped.error, &saved[place]);
                ReplayError { place, error }
            })?;
        }
        Ok(())
    }

    /// Why an entry was not made again, by its worker where there is none such.
    fn error_of(&self, error: Error, entry: &Entry) -> Error {
        match (error, self.no_worker(entry.worker)) {
            (Error::OutOfRange, Some(worker)) => Error::Argument(worker),
            _ => error,
        }
    }

    /// The same of entries as numbers, for who has the table.
    pub(crate) fn make_again(&self, saved: &[raw::Entry]) -> Result<(), ReplayError> {
        let mut place = 0;
        let status = self.raw.replay(saved, &mut place);
        self.labels().made_again(saved, status == raw::DONE);
        Error::unless_done(status).map_err(|error| ReplayError { place, error })
    }

    /// Has a table that began as this one did make the calls from `next` on that are recorded by now, and moves `next` after them. So
    /// [`Table::dump`] of it is the text of the state in front of the call `next`, and no call waits for it.
    ///
    /// The replica is opened with the same `pid_max`, and `next` is 0, where the first stamp is 1; or it is made of a text of [`Table::dump`],
    /// and `next` is what was recorded then. Nobody else makes a call on it. The lock is held for each 64 entries that are copied, and not
    /// while their calls are made. It costs the calls once more.
    ///
    /// # Errors
    /// `NotKept` where a call that it lacks was cut away, or `next` is not reached yet: it begins anew. `Differs` where a reply is not the
    /// recorded one: it is no replica. `NoMemory`, `Spent` and `Busy` where the call `next` was not made. `NoHistory`.
    pub fn follow(&self, replica: &Table, next: &mut u64) -> Result<(), Error> {
        let end = self.counts()?.recorded;
        if *next > end {
            return Err(Error::NotKept);
        }
        while *next < end {
            let most = (end - *next).min(BATCH as u64) as usize;
            for entry in self.entries(*next, most)? {
                let reply = replica.call(entry.call)?;
                *next += 1;
                if reply != entry.reply {
                    return Err(Error::Differs);
                }
            }
        }
        Ok(())
    }

    /// Waits until the call with the ordinal is recorded, so until more than so many calls are: how many are. They are no more only where the
    /// timeout is over; none has no end.
    ///
    /// So a viewer, or a thread that ships the history, follows the table: it reads [`Table::entries`], or has a table [`Table::follow`], and
    /// waits for the next ordinal. It sleeps meanwhile, and the call wakes it. Any number of threads may wait, beside a saver.
    ///
    /// ```
    /// use pidtab::{Error, Keep, Table};
    /// use std::thread;
    ///
    /// let table = Table::options().keep(Keep::All).threads().open()?;
    /// let ship = || {
    ///     let mut shipped = Vec::new();
    ///     loop {
    ///         let next = shipped.len() as u64;
    ///         match table.wait_changed(next, None) {
    ///             Ok(_) => shipped.extend(table.entries(next, 1000)?),
    ///             Err(Error::Ended) => return Ok(shipped),
    ///             Err(fault) => return Err(fault),
    ///         }
    ///     }
    /// };
    /// let shipped = thread::scope(|scope| {
    ///     let shipper = scope.spawn(ship);
    ///     let child = table.fork(1)?;
    ///     table.exit(child.root, 7)?;
    ///     table.end_waiting()?;
    ///     shipper.join().expect("no panic")
    /// })?;
    /// assert_eq!(shipped, table.entries(0, 2)?);
    /// # Ok::<(), Error>(())
    /// ```
    ///
    /// # Errors
    /// `Ended` where no more are recorded, and [`Table::end_waiting`] has ended the waits; `NoThreads`, `NoHistory`; `Busy` where this thread has the lock
    /// by [`Table::lock`].
    pub fn wait_changed(&self, ordinal: u64, timeout: Option<Duration>) -> Result<u64, Error> {
        // A time that the clock does not reach has no end.
        let until = timeout.and_then(|it| Instant::now().checked_add(it));
        let lock = self.threads()?;
        let mut saving = lock.changes();
        loop {
            let recorded = self.recorded()?;
            if recorded > ordinal {
                return Ok(recorded);
            }
            if saving.is_over {
                return Err(Error::Ended);
            }
            let left = until.map(|it| it.saturating_duration_since(Instant::now()));
            if left == Some(Duration::ZERO) {
                return Ok(recorded);
            }
            saving = lock.sleep(saving, left);
        }
    }

    /// Ends the waits of [`Table::wait_changed`], for good: what waits, or comes to wait, for a call that is not recorded is `Ended`. A wait for
    /// one that is recorded is answered, so who follows the table has all calls first. All else goes on, a saver too.
    ///
    /// # Errors
    /// `NoThreads`; `Busy` where this thread has the lock by [`Table::lock`].
    pub fn end_waiting(&self) -> Result<(), Error> {
        let lock = self.threads()?;
        lock.changes().is_over = true;
        lock.wake();
        Ok(())
    }
}
