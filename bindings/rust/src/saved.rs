//! A saved history: the calls of a table with their replies, as bytes. `docs/SAVED.md` has their form, and the functions of
//! `pidtab_saved.h` that work in memory write and read it. No lock is held while a writer is waited for.
use crate::table::BATCH;
use crate::threads::Lock;
use crate::{raw, Error, Keep, Options, Table};
use std::fs::File;
use std::io::{self, Read, Seek, SeekFrom, Write};
use std::{fmt, slice};

/// How far a history is saved, for [`Table::save`]: what a writer was given, and the running checksum. Each writer has its own.
///
/// It begins as [`Saved::new`], or as what a load has found. It cannot be cloned, so no call is saved twice to one writer.
#[derive(Debug, Default)]
pub struct Saved {
    // The number of the table whose history it is; 0 before the first save.
    table: u64,
    calls: u64,
    bytes: u64,
    left_out: u64,
    sum: u64,
    // So many bytes a write that failed has left after the last whole call.
    part: usize,
    is_torn: bool,
}

impl Saved {
    /// A history of which nothing is saved.
    pub fn new() -> Saved {
        Saved::default()
    }

    /// How many calls are saved, each whole: the ordinal of the next one.
    pub fn calls(&self) -> u64 {
        self.calls
    }

    /// How many bytes they have, with the head. 0 where there is no head yet.
    pub fn bytes(&self) -> u64 {
        self.bytes
    }

    /// How many bytes of a torn end a load has left out after them.
    pub fn left_out(&self) -> u64 {
        self.left_out
    }

    /// Cuts off the file what is after the last whole call: a torn end that a load has left out, or what a write that failed has left. Then
    /// the file's position is its end, and a save goes on there. [`Options::resume`] does so.
    ///
    /// # Errors
    /// Those of the file, of which nothing is known then but that it was cut or was not.
    pub fn trim(&mut self, mut file: &File) -> io::Result<()> {
        if self.is_torn || self.part != 0 {
            file.set_len(self.bytes)?;
        }
        (self.is_torn, self.part) = (false, 0);
        file.seek(SeekFrom::End(0)).map(|_| ())
    }

    /// Writes what of the bytes is not written yet.
    fn write(&mut self, bytes: &[u8], to: &mut impl Write) -> io::Result<()> {
        while self.part < bytes.len() {
            match to.write(&bytes[self.part..]) {
                Ok(0) => return Err(io::ErrorKind::WriteZero.into()),
                Ok(count) => self.part += count,
                Err(fault) if fault.kind() == io::ErrorKind::Interrupted => {}
                Err(fault) => return Err(fault),
            }
        }
        Ok(())
    }

    /// So many bytes of the part are whole, and the checksum goes so far.
    fn count_whole(&mut self, size: usize, sum: u64) {
        self.part -= size;
        self.bytes += size as u64;
        self.sum = sum;
    }

    /// Writes the entries below an ordinal, which are read a turn at a time.
    fn write_up_to(
        &mut self,
        recorded: u64,
        to: &mut impl Write,
        mut read: impl FnMut(u64, &mut [raw::Entry]) -> Result<usize, Error>,
    ) -> Result<(), SavedFault> {
        let most = recorded.saturating_sub(self.calls).min(TURN as u64);
        let mut room = vec![raw::Entry::BLANK; most as usize];
        while self.calls < recorded {
            let count = read(self.calls, &mut room)?;
            let mut entries = room[..count].chunks(BATCH);
            entries.try_for_each(|it| self.write_entries(it, to))?;
        }
        Ok(to.flush()?)
    }

    fn write_head(&mut self, head: &raw::SavedHead, to: &mut impl Write) -> Result<(), SavedFault> {
        let (mut bytes, mut sum) = ([0; raw::SAVED_BLOCK], 0);
        let size = raw::put_head(head, &mut bytes, &mut sum).map_err(Error::of)?;
        self.write(&bytes[..size], to)?;
        self.count_whole(size, sum);
        Ok(())
    }

    /// Writes the next entries, at most a batch. After a write that failed, what is whole counts, and the rest is the part: so the next write is
    /// of the same entry, and perhaps more, and the same bytes come first.
    fn write_entries(
        &mut self,
        entries: &[raw::Entry],
        to: &mut impl Write,
    ) -> Result<(), SavedFault> {
        let mut bytes = [0; raw::SAVED_LONGEST * BATCH];
        let mut ends = [(0, self.sum); BATCH + 1];
        for (place, entry) in entries.iter().enumerate() {
            let (at, mut sum) = ends[place];
            let put = raw::put_entry(entry, &mut bytes[at..], &mut sum);
            ends[place + 1] = (at + put.map_err(Error::of)?, sum);
        }
        let written = self.write(&bytes[..ends[entries.len()].0], to);
        let ends = &ends[..=entries.len()];
        let whole = ends.partition_point(|it| it.0 <= self.part) - 1;
        self.count_whole(ends[whole].0, ends[whole].1);
        self.calls += whole as u64;
        Ok(written?)
    }

    /// What is after the last whole call is left out.
    fn leave_out(&mut self, count: u64) {
        self.left_out = count;
        self.is_torn = count != 0;
    }

    /// The fault at the next call.
    fn error(&self, fault: SavedFault) -> SavedError {
        SavedError {
            calls: self.calls,
            bytes: self.bytes,
            fault,
        }
    }
}

/// How many entries are read under the lock at a time: a thread that saves has to wait for it among all that make calls.
const TURN: usize = 512;

impl Table {
    /// Writes the calls that were recorded since, and perhaps some that are recorded meanwhile; to a new [`Saved`] the head comes first. So what
    /// is saved is always the history up to one moment. Other threads make calls meanwhile: the lock is held while up to 512 entries are copied,
    /// and for no write. At the end it flushes the writer, and wakes those in [`Table::wait_saved`].
    ///
    /// ```
    /// use pidtab::{Keep, Saved, Table};
    ///
    /// let table = Table::options().keep(Keep::All).open()?;
    /// let (mut saved, mut bytes) = (Saved::new(), Vec::new());
    /// table.fork_new(1)?;
    /// table.save(&mut saved, &mut bytes)?;
    /// let (again, loaded) = Table::options().keep(Keep::All).load(&bytes[..])?;
    /// assert_eq!((loaded.calls(), loaded.bytes()), (1, 96));
    /// assert_eq!(again.list()?, table.list()?);
    /// # Ok::<(), std::io::Error>(())
    /// ```
    ///
    /// What a `File` was given survives the process, and after `File::sync_data` the machine. A call that is saved may be cut, by
    /// [`Table::checkpoint_at`] with [`Saved::calls`].
    ///
    /// # Errors
    /// `Io`: after it, the next save to the same writer goes on with the byte that is missing, so nothing is lost or doubled. Short and
    /// interrupted writes are gone on with. `Table(NotKept)` where the next call to be saved was cut away, and of a
    /// table that [`Options::open_dump`] made. `OtherTable`; `Torn` where a load
    /// has left out a torn end that is not trimmed; `Table(NoHistory)`; `Table(Busy)`, also where this thread has the lock by [`Table::lock`].
    pub fn save<W: Write>(&self, saved: &mut Saved, mut to: W) -> Result<(), SavedError> {
        let lock = match self.threads() {
            Err(Error::NoThreads) => None,
            found => Some(found.map_err(|error| saved.error(error.into()))?),
        };
        let done = self.save_on(saved, &mut to);
        told_of(lock, saved, done)
    }

    /// The saver of a table that threads work on, in a thread of its own. It saves, sleeps until a call is recorded, and begins again, until
    /// [`Table::end_saving`]. Each turn ends with `sync`, as `File::sync_data`, so one sync serves all that wait: only after it a turn's calls
    /// count as saved. Where `keep` is not 0, it cuts the history whenever that has so many entries: all others wait while the last entries are
    /// written and the kept ones made once more.
    ///
    /// ```
    /// use pidtab::{Keep, Saved, Table};
    /// use std::thread;
    ///
    /// let table = Table::options().keep(Keep::All).threads().open()?;
    /// let (mut saved, mut bytes) = (Saved::new(), Vec::new());
    /// table.bound_unsaved(4096)?;
    /// thread::scope(|scope| {
    ///     let saver = scope.spawn(|| table.serve(&mut saved, &mut bytes, 0, || Ok(())));
    ///     let child = table.fork(1)?;
    ///     // Here it is saved.
    ///     table.wait_saved(0)?;
    ///     assert_eq!(child.number, 2);
    ///     table.end_saving()?;
    ///     saver.join().expect("no panic")?;
    ///     Ok::<(), std::io::Error>(())
    /// })?;
    /// assert_eq!(saved.calls(), 1);
    /// # Ok::<(), std::io::Error>(())
    /// ```
    ///
    /// # Errors
    /// Those of [`Table::save`], `Table(NoThreads)`, and `Io` of the sync. Who waits has them too. It may be called again; but after a sync of a `File`
    /// that failed, nobody knows what the disk has: load it.
    pub fn serve<W: Write>(
        &self,
        saved: &mut Saved,
        mut to: W,
        keep: u64,
        mut sync: impl FnMut() -> io::Result<()>,
    ) -> Result<(), SavedError> {
        let lock = self.threads();
        let lock = lock.map_err(|error| saved.error(error.into()))?;
        let (mut has_ended, mut is_last) = (false, false);
        // One turn more after the end, for what was recorded before it.
        while !is_last {
            is_last = has_ended;
            let mut done = self.save_on(saved, &mut to);
            done = done.and_then(|()| self.cut_saved(saved, &mut to, keep));
            done = done.and_then(|()| Ok(sync()?));
            told_of(Some(lock), saved, done)?;
            let ended = self.sleep_until_call(lock, saved.calls);
            has_ended = ended.map_err(|error| saved.error(error.into()))?;
        }
        Ok(())
    }

    /// Waits until the call with the ordinal is saved: after the [`Table::save`], the load or the turn of [`Table::serve`] that has it. Each of
    /// these wakes all that wait. It costs a lock, and a sleep where the call is not saved yet.
    ///
    /// # Errors
    /// Those of the saver's last turn, at once until a turn does better: whether the call is saved is not known. `Ended`; `Table(NoThreads)`; `Table(Busy)`
    /// where this thread has the lock by [`Table::lock`]. Before the first turn it waits.
    pub fn wait_saved(&self, ordinal: u64) -> Result<(), SavedError> {
        let lock = self.threads();
        let lock = lock.map_err(|error| Saved::new().error(error.into()))?;
        let mut saving = lock.changes();
        loop {
            if saving.saved > ordinal {
                return Ok(());
            }
            if let Some(fault) = &saving.fault {
                return Err(fault.again());
            }
            saving = lock.wait_for_saver(saving);
        }
    }

    /// From now on at most so many calls are recorded and not saved; 0, as at first, is any number. A call that would be one more waits for the saver, as
    /// [`Table::wait_saved`] does. Where the saver's last turn failed, or it has ended, it is not made, and is [`Error::Unsaved`]. The thread that
    /// saves makes no call then, and calls under [`Table::lock`] wait for nobody.
    ///
    /// # Errors
    /// `NoThreads`, `NoHistory`; `Busy` where this thread has the lock by [`Table::lock`].
    pub fn bound_unsaved(&self, most: u64) -> Result<(), Error> {
        let lock = self.threads()?;
        self.counts()?;
        lock.tell(|saving| saving.most = most);
        Ok(())
    }

    /// Ends the saver, for good: [`Table::serve`] saves what was recorded, and returns. What waits, or comes to wait, for a call that is not saved
    /// is `Ended`. So it is called when no thread waits any more.
    ///
    /// # Errors
    /// `NoThreads`; `Busy` where this thread has the lock by [`Table::lock`].
    pub fn end_saving(&self) -> Result<(), Error> {
        let lock = self.threads()?;
        lock.tell(|saving| {
            saving.has_ended = true;
            saving.fault = Some(Saved::new().error(SavedFault::Ended));
        });
        lock.wake();
        Ok(())
    }

    fn save_on(&self, saved: &mut Saved, to: &mut impl Write) -> Result<(), SavedFault> {
        if saved.table != 0 && saved.table != self.number {
            return Err(SavedFault::OtherTable);
        }
        if saved.is_torn {
            return Err(SavedFault::Torn);
        }
        let counts = self.counts()?;
        if self.goes_on || saved.calls < counts.first_kept {
            return Err(Error::NotKept.into());
        }
        saved.table = self.number;
        if saved.bytes == 0 {
            saved.write_head(&self.head, to)?;
        }
        let read = |from, room: &mut [raw::Entry]| self.read_numbers(from, room);
        saved.write_up_to(counts.recorded, to, read)
    }

    /// Cuts the history where it is long enough, after its last entries. Where there is no memory for that, it grows on.
    fn cut_saved(
        &self,
        saved: &mut Saved,
        to: &mut impl Write,
        keep: u64,
    ) -> Result<(), SavedFault> {
        if keep == 0 {
            return Ok(());
        }
        let held = self.lock()?;
        let counts = held.counts()?;
        if counts.recorded - counts.first_kept < keep {
            return Ok(());
        }
        let read = |from, room: &mut [raw::Entry]| held.read_numbers(from, room);
        saved.write_up_to(counts.recorded, to, read)?;
        let _ = held.checkpoint();
        Ok(())
    }

    /// Sleeps until a call is recorded that is not among so many. Whether the saver has ended.
    fn sleep_until_call(&self, lock: &Lock, calls: u64) -> Result<bool, Error> {
        let mut saving = lock.changes();
        while !saving.has_ended && self.recorded()? <= calls {
            saving = lock.sleep(saving, None);
        }
        Ok(saving.has_ended)
    }
}

/// Tells all that wait how far the saver is. What ended is not taken back.
fn told_of(
    lock: Option<&Lock>,
    saved: &Saved,
    done: Result<(), SavedFault>,
) -> Result<(), SavedError> {
    let done = done.map_err(|fault| saved.error(fault));
    let Some(lock) = lock else {
        return done;
    };
    lock.tell(|saving| {
        if done.is_ok() {
            saving.saved = saved.calls;
        }
        if !saving.has_ended {
            saving.fault = done.as_ref().err().map(SavedError::again);
        }
    });
    done
}

impl Options {
    /// Makes a table of a saved history, which is read to its end. It is opened with the settings of the head, no seat is given, and each call
    /// is made again, and its reply compared with the saved one. It costs what the calls cost.
    ///
    /// A torn end, which is that of a writer that was stopped, is left out: [`Saved::left_out`] has its length. With a bound of [`Options::keep`], the
    /// history keeps at most so many entries while it loads. Later it is not cut unasked, as the calls may not be saved.
    ///
    /// # Errors
    /// With the place of the call at fault: `Torn`, `NotSaved`, `OtherVersion`, `WrongByte`, `Settings`; `Table(Differs)` where its reply is
    /// another one, and `Table` with `OutOfRange`, `Spent` or `NoMemory` where it was not made; `Io` where a read failed. `Table(NoHistory)` where
    /// [`Options::keep`] keeps none.
    ///
    /// # Panics
    /// As [`Options::open`].
    pub fn load<R: Read>(self, from: R) -> Result<(Table, Saved), SavedError> {
        let mut saved = Saved::new();
        match self.load_into(&mut saved, from) {
            Ok(table) => Ok((table, saved)),
            Err(fault) => Err(saved.error(fault)),
        }
    }

    /// As [`Options::load`], from the beginning of a file, which then goes on: a torn end is cut off, and the file's position is its end.
    ///
    /// A file that is empty, or ends within its head, is begun, and the table has these options. Those of another file are its own.
    ///
    /// The file is opened to be read and to be written. One process at a time has it.
    ///
    /// ```no_run
    /// use pidtab::{Keep, Table};
    /// use std::fs::OpenOptions;
    ///
    /// let mut options = OpenOptions::new();
    /// let file = options.read(true).write(true).create(true).truncate(false).open("history")?;
    /// let (table, mut saved) = Table::options().keep(Keep::All).workers(4).resume(&file)?;
    /// table.fork_new(1)?;
    /// table.save(&mut saved, &file)?;
    /// # Ok::<(), std::io::Error>(())
    /// ```
    ///
    /// # Errors
    /// Those of a load except for `Torn`; `Table(Argument)` for options outside their ranges; `Io` where the file cannot be written or cut too.
    ///
    /// # Panics
    /// As [`Options::open`].
    pub fn resume(self, file: &File) -> Result<(Table, Saved), SavedError> {
        let mut saved = Saved::new();
        match self.resume_into(&mut saved, file) {
            Ok(table) => Ok((table, saved)),
            Err(fault) => Err(saved.error(fault)),
        }
    }

    fn resume_into(self, saved: &mut Saved, mut file: &File) -> Result<Table, SavedFault> {
        file.rewind()?;
        let table = match self.load_into(saved, file) {
            Err(SavedFault::Torn) => self.keep(Keep::All).open()?,
            loaded => loaded?,
        };
        saved.trim(file)?;
        table.save_on(saved, &mut file)?;
        Ok(table)
    }

    /// Opens a table by the head, and makes the calls after it.
    fn load_into(self, saved: &mut Saved, from: impl Read) -> Result<Table, SavedFault> {
        if self.keep.entries() == 0 {
            return Err(Error::NoHistory.into());
        }
        let mut input = Input::of(from);
        let head = input.take_head(saved)?;
        let keep = Keep::All;
        let table = Options { head, keep, ..self }.open()?;
        saved.table = table.number;
        while let Some((entry, size)) = input.take_entry(saved)? {
            let made = table.make_again(slice::from_ref(&entry));
            made.map_err(|stopped| stopped.error)?;
            // What keeps the history short is the load alone. More than one entry too many there is never.
            let _ = table.raw.keep(self.keep.entries());
            saved.calls += 1;
            saved.bytes += size as u64;
        }
        if let Some(lock) = &table.lock {
            lock.tell(|saving| saving.saved = saved.calls);
        }
        Ok(table)
    }
}

/// The bytes of a saved history that were read, of which so many are taken.
struct Input<R> {
    from: R,
    bytes: Vec<u8>,
    taken: usize,
    has_ended: bool,
    // So many bytes after the last whole entry are passed.
    left_out: u64,
}

/// How many bytes are in hand at most.
const ROOM: usize = 1 << 13;

impl<R: Read> Input<R> {
    fn of(from: R) -> Input<R> {
        Input {
            from,
            bytes: Vec::with_capacity(ROOM),
            taken: 0,
            has_ended: false,
            left_out: 0,
        }
    }

    fn rest(&self) -> &[u8] {
        &self.bytes[self.taken..]
    }

    /// Reads on where there may be less in hand than the longest entry. Interrupted reads are gone on with.
    fn fill(&mut self) -> io::Result<()> {
        if self.has_ended || self.rest().len() >= raw::SAVED_LONGEST {
            return Ok(());
        }
        self.bytes.drain(..self.taken);
        self.taken = 0;
        let room = (ROOM - self.bytes.len()) as u64;
        let read = self.from.by_ref().take(room).read_to_end(&mut self.bytes)?;
        self.has_ended = (read as u64) < room;
        Ok(())
    }

    fn take_head(&mut self, saved: &mut Saved) -> Result<raw::SavedHead, SavedFault> {
        self.fill()?;
        let mut size = 0;
        match raw::take_head(self.rest(), &mut size, &mut saved.sum) {
            Ok(head) => {
                self.taken += size;
                saved.bytes = size as u64;
                Ok(head)
            }
            Err(raw::TORN) => {
                saved.leave_out(self.rest().len() as u64);
                Err(SavedFault::Torn)
            }
            Err(status) => Err(SavedFault::of(status)),
        }
    }

    /// The next entry with its size; none at the end, of which what is torn is left out.
    fn take_entry(&mut self, saved: &mut Saved) -> Result<Option<(raw::Entry, usize)>, SavedFault> {
        loop {
            self.fill()?;
            let (rest, mut size) = (&self.bytes[self.taken..], 0);
            let next = raw::next_entry(
                rest,
                self.has_ended,
                &mut size,
                &mut saved.sum,
                &mut self.left_out,
            );
            self.taken += size;
            match next {
                Ok(entry) if size != 0 => return Ok(Some((entry, size))),
                Ok(_) => {
                    saved.leave_out(self.left_out);
                    return Ok(None);
                }
                Err(raw::TORN) => {}
                Err(status) => return Err(SavedFault::of(status)),
            }
        }
    }
}

/// Why a history was not saved or not loaded, and where.
///
/// As an [`io::Error`] it is that of the device, or else one that holds this, so that `?` takes it there.
#[derive(Debug)]
#[non_exhaustive]
pub struct SavedError {
    /// How many calls came before the fault, each whole: the ordinal of the call at fault.
    pub calls: u64,
    /// Where its entry begins in the bytes; 0 is the head. Where it is not 0, the first so many bytes alone load as what came before.
    pub bytes: u64,
    /// What is the matter.
    pub fault: SavedFault,
}

impl SavedError {
    /// The same for another thread.
    pub(crate) fn again(&self) -> SavedError {
        SavedError {
            fault: self.fault.again(),
            ..*self
        }
    }
}

/// What is the matter with a saved history. More faults may come.
#[derive(Debug)]
#[non_exhaustive]
pub enum SavedFault {
    /// A read or a write failed, or the cut of a torn end. `WriteZero` is a writer that takes no byte.
    Io(io::Error),
    /// The bytes end within the head: there is no history yet. Of a save: a torn end is after the last whole call yet.
    Torn,
    /// The bytes are no saved history.
    NotSaved,
    /// The saved history is of a version that this library does not know.
    OtherVersion,
    /// A byte is not the one that was written.
    WrongByte,
    /// No table has the settings of the head.
    Settings,
    /// The [`Saved`] is that of another table.
    OtherTable,
    /// The saver has ended, and whether the call is saved is not known.
    Ended,
    /// Of a load: `Differs` where the reply is not the saved one; `OutOfRange` where there is no such call or worker, `Spent`, `NoMemory`. Of
    /// a save: `NotKept` where the call was cut away before it was saved. `NoHistory`, `NoThreads`, `Busy`.
    Table(Error),
}

impl SavedFault {
    /// What a status says other than that it was done.
    pub(crate) fn of(status: u32) -> SavedFault {
        match status {
            raw::TORN => SavedFault::Torn,
            raw::NOT_SAVED => SavedFault::NotSaved,
            raw::OTHER_VERSION => SavedFault::OtherVersion,
            raw::WRONG_BYTE => SavedFault::WrongByte,
            raw::OUT_OF_RANGE => SavedFault::Settings,
            _ => unreachable!("the library answers the status {status}"),
        }
    }

    /// The same for another thread. An error of the device is one of its number, or else of its kind and its words.
    fn again(&self) -> SavedFault {
        match self {
            SavedFault::Io(error) => SavedFault::Io(match error.raw_os_error() {
                Some(errno) => io::Error::from_raw_os_error(errno),
                None => io::Error::new(error.kind(), error.to_string()),
            }),
            SavedFault::Torn => SavedFault::Torn,
            SavedFault::NotSaved => SavedFault::NotSaved,
            SavedFault::OtherVersion => SavedFault::OtherVersion,
            SavedFault::WrongByte => SavedFault::WrongByte,
            SavedFault::Settings => SavedFault::Settings,
            SavedFault::OtherTable => SavedFault::OtherTable,
            SavedFault::Ended => SavedFault::Ended,
            SavedFault::Table(error) => SavedFault::Table(*error),
        }
    }
}

impl From<io::Error> for SavedFault {
    fn from(error: io::Error) -> SavedFault {
        SavedFault::Io(error)
    }
}

impl From<Error> for SavedFault {
    fn from(error: Error) -> SavedFault {
        SavedFault::Table(error)
    }
}

impl fmt::Display for SavedFault {
    fn fmt(&self, to: &mut fmt::Formatter<'_>) -> fmt::Result {
        match self {
            SavedFault::Io(error) => error.fmt(to),
            SavedFault::Torn => to.write_str("the bytes end within the head or an entry"),
            SavedFault::NotSaved => to.write_str("the bytes are no saved history"),
            SavedFault::OtherVersion => to.write_str("the saved history is of another version"),
            SavedFault::WrongByte => to.write_str("a byte is not the one that was written"),
            SavedFault::Settings => to.write_str("no table has the settings of the head"),
            SavedFault::OtherTable => to.write_str("what is saved is of another table"),
            SavedFault::Ended => to.write_str("the saver has ended"),
            SavedFault::Table(error) => error.fmt(to),
        }
    }
}

impl std::error::Error for SavedFault {}

impl fmt::Display for SavedError {
    fn fmt(&self, to: &mut fmt::Formatter<'_>) -> fmt::Result {
        let SavedError {
            calls,
            bytes,
            fault,
        } = self;
        match bytes {
            0 => write!(to, "head: {fault}"),
            _ => write!(to, "call {calls}, saved at byte {bytes}: {fault}"),
        }
    }
}

impl std::error::Error for SavedError {
    fn source(&self) -> Option<&(dyn std::error::Error + 'static)> {
        match &self.fault {
            SavedFault::Io(error) => Some(error),
            SavedFault::Table(error) => Some(error),
            _ => None,
        }
    }
}

impl From<SavedError> for io::Error {
    fn from(error: SavedError) -> io::Error {
        let kind = match error.fault {
            SavedFault::Io(fault) => return fault,
            SavedFault::Torn => io::ErrorKind::UnexpectedEof,
            SavedFault::OtherTable => io::ErrorKind::InvalidInput,
            SavedFault::Ended => io::ErrorKind::BrokenPipe,
            SavedFault::Table(fault) => io::Error::from(fault).kind(),
            _ => io::ErrorKind::InvalidData,
        };
        io::Error::new(kind, error)
    }
}
