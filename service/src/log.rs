//! The log: one file that grows, and goes on in a new one when it is long enough. A syncer has it on the disk each second, where that is wanted.
//!
//! What is done next, and what becomes of it if it fails, says the machine of `crates/log_turns`, which is proved: [`Log::act`] does a step to the
//! files, and tells what came of it.
//!
//! Where each batch is synced, small ones are written over zeroes that are on the disk already: so a sync has their bytes to write, and neither a
//! new length of the file nor a new block. The machine has at most [`BATCH`] bytes written between two syncs then, by which the recovery knows a batch
//! that a loss of power has cut.
use crate::directory::{fault_at, Directory, Fault, SEATS};
use crate::recover::End;
use crate::snapshot::Place;
use crate::syncer::Syncer;
use log_turns::{Step, Turns};
use pidtab::{Blocks, Head};
use std::fs::{self, File, OpenOptions};
use std::io;
use std::os::unix::fs::{FileExt, OpenOptionsExt};
use std::sync::Arc;

/// So many bytes are written between two syncs, where each batch is synced: as many as the machine has written.
pub const BATCH: usize = 1 << 20;
/// A batch that is longer makes the file grow as it is written: its own bytes are what it waits for.
const SMALL: usize = 1 << 14;
/// So many zeroes are written ahead.
const AHEAD: u64 = 1 << 22;
/// So many bytes of the file are before the first call.
const HEAD: u64 = Blocks::HEAD as u64;

/// When what was written is brought to the disk.
#[derive(Clone, Copy, Debug, PartialEq)]
pub enum Sync {
    Never,
    EverySecond,
    Always,
}

impl Sync {
    pub fn word(self) -> &'static str {
        match self {
            Sync::Never => "no",
            Sync::EverySecond => "everysec",
            Sync::Always => "always",
        }
    }
}

/// What has come of what was to be written.
#[derive(Debug, PartialEq)]
pub enum Committed {
    Done,
    /// The disk does not take it now, and why.
    Waits(Fault),
}

/// How far the file is on its way to a new one: another thread syncs most of it before.
#[derive(Clone, Copy, PartialEq)]
enum Turn {
    Goes,
    Wanted,
    Syncs,
    Synced,
}

pub struct Log {
    directory: Directory,
    file: Arc<File>,
    sync: Sync,
    segment: u64,
    pid_max: u32,
    /// So many calls are recorded, with those that are not written yet.
    calls: u64,
    /// So many entries are in the files before.
    pub base: u64,
    /// How long the log is, with all that is answered and nothing else.
    pub bytes: u64,
    turns: Turns,
    /// How long the file is, with the zeroes that were written ahead.
    length: u64,
    turn: Turn,
    syncer: Syncer,
    /// So much was written when the other thread was told to sync.
    ordered: u64,
    /// Why a step has failed last.
    why: Fault,
    /// The log that was begun last, whole or not.
    beside: u64,
    begun: Option<(Closed, Blocks)>,
    /// Whether `current` is to name the log that was begun last, and nothing is known of that yet.
    is_naming: bool,
    pub commits: u64,
    pub largest: u64,
    pub retries: u64,
}

/// A file of the log that is closed.
pub struct Closed {
    pub base: u64,
    pub bytes: u64,
}

impl Log {
    /// Goes on where the recovery has ended; else begins a file at that place. It gives the checksum to go on with.
    pub fn open(
        directory: Directory,
        sync: Sync,
        segment: u64,
        end: Option<End>,
        place: Place,
        pid_max: u32,
        wake: impl Fn() + Send + 'static,
    ) -> Result<(Log, Blocks), Fault> {
        let base = end.as_ref().map_or(place.entries, |it| it.base);
        let opened = match &end {
            Some(end) => go_on(&directory, end),
            None => begin(&directory, place, pid_max).and_then(|begun| directory.set_current(base).map(|_| begun)),
        };
        let (file, blocks) = opened.map_err(fault_at(&directory.log(base)))?;
        let (length, is_named) = (end.map_or(HEAD, |it| it.bytes), directory.current()? == Some(base));
        let log = Log {
            directory,
            file: Arc::new(file),
            sync,
            segment,
            pid_max,
            calls: place.calls,
            base,
            bytes: length,
            turns: Turns::begin(place.entries, length - HEAD, sync == Sync::Always, is_named),
            length,
            turn: Turn::Goes,
            syncer: Syncer::start(wake),
            ordered: 0,
            why: Fault::new(),
            beside: base,
            begun: None,
            is_naming: false,
            commits: 0,
            largest: 0,
            retries: 0,
        };
        Ok((log, blocks))
    }

    /// An entry is behind the batch, and has so many bytes. None is, once the log ends.
    pub fn take(&mut self, size: usize) {
        assert!(self.turns.take(size as u64), "nothing is recorded once the log ends");
    }

    /// Whether all that was taken may be answered.
    pub fn has_answered(&self) -> bool {
        self.turns.has_answered()
    }

    /// Has the batch written, and synced where that is always done: all entries that were taken and not answered, with which there are so many calls. Where
    /// that has failed before, it goes on from what is written.
    pub fn commit(&mut self, batch: &[u8], calls: u64) -> Result<Committed, Fault> {
        self.calls = calls;
        self.turns.retry();
        if self.is_to_turn() {
            self.turn = Turn::Goes;
            self.turns.turn();
        }
        self.go_on(batch)
    }

    /// Does what is next, until nothing is, or nothing can be done.
    fn go_on(&mut self, batch: &[u8]) -> Result<Committed, Fault> {
        loop {
            let step = self.turns.next();
            match step {
                Step::Rest | Step::Ended => return Ok(Committed::Done),
                Step::Wait => return Ok(Committed::Waits(self.why.clone())),
                Step::Lost => return Err(self.why.clone()),
                _ => {}
            }
            match self.act(step, batch) {
                Ok(size) => self.turns.done(size as u64),
                Err(why) => {
                    self.why = why;
                    self.turns.failed();
                }
            }
        }
    }

    /// Does a step to the files: how many bytes it has written.
    fn act(&mut self, step: Step, batch: &[u8]) -> Result<usize, Fault> {
        match step {
            Step::Cut { to } => self.cut(HEAD + to).map_err(self.fault())?,
            Step::Write { at, size } => return self.write(batch, at, size),
            Step::Sync => self.sync_here()?,
            Step::Answer { .. } => self.count(batch.len()),
            Step::Close => {
                self.cut(self.bytes).map_err(self.fault())?;
                self.sync_here()?;
            }
            Step::Begin { first } => self.begin(first)?,
            Step::Undo => self.undo()?,
            Step::Rest | Step::Wait | Step::Lost | Step::Ended => {}
        }
        Ok(0)
    }

    fn fault<T: std::fmt::Display>(&self) -> impl Fn(T) -> Fault {
        fault_at(&self.directory.log(self.base))
    }

    /// Nothing is in the file from there on.
    fn cut(&mut self, end: u64) -> io::Result<()> {
        if self.length != end {
            self.file.set_len(end)?;
            self.length = end;
        }
        Ok(())
    }

    /// Writes what is left of the batch, or a part: how many bytes.
    fn write(&mut self, batch: &[u8], at: u64, size: u64) -> Result<usize, Fault> {
        if self.sync == Sync::Always && batch.len() <= SMALL {
            self.write_ahead(HEAD + at + size);
        }
        let from = batch.len() - self.turns.unwritten() as usize;
        let rest = &batch[from..from + size as usize];
        let done = loop {
            match self.file.write_at(rest, HEAD + at) {
                Err(error) if error.kind() == io::ErrorKind::Interrupted => {}
                Ok(0) => break Err(io::ErrorKind::WriteZero.into()),
                done => break done,
            }
        };
        // The file may be longer than that, whatever has failed.
        self.length = self.length.max(HEAD + at + size);
        self.retries += u64::from(done.is_err());
        if done.is_ok() && self.sync != Sync::Always {
            self.syncer.wrote();
        }
        done.map_err(self.fault())
    }

    /// Has zeroes in the file to that place at least. Without room for them the batch is written all the same, or has no room either.
    fn write_ahead(&mut self, end: u64) {
        if end <= self.length {
            return;
        }
        let zeroes = vec![0; (end - self.length + AHEAD) as usize];
        let _ = self.file.write_all_at(&zeroes, self.length);
        self.length = self.file.metadata().map_or(self.length, |it| it.len());
    }

    /// A batch is written, with all that it waits for.
    fn count(&mut self, size: usize) {
        self.bytes += size as u64;
        self.commits += 1;
        self.largest = self.largest.max(size as u64);
        if self.bytes >= self.segment {
            self.want_turn();
        }
    }

    /// What is not on the disk must not be answered, and nobody knows what a failed sync has left.
    fn sync_here(&self) -> Result<(), Fault> {
        self.file.sync_data().map_err(|error| self.lost(&error))
    }

    fn lost(&self, error: &io::Error) -> Fault {
        self.fault()(format!("fdatasync: {error}: ending, with unsaved calls unanswered"))
    }

    /// The file is turned over as soon as it can be.
    pub fn want_turn(&mut self) {
        if self.turn == Turn::Goes {
            self.turn = Turn::Wanted;
        }
    }

    /// Ten times a second, and when the other thread has synced: what it has done, and what is due. The file is synced by that thread before it
    /// is turned over, so that little is left to sync here.
    pub fn tick(&mut self) -> Result<(), Fault> {
        while self.take_synced()? {
            if self.turn == Turn::Syncs {
                self.turn = Turn::Synced;
            }
        }
        let is_due = self.sync == Sync::EverySecond && self.syncer.is_due();
        if self.syncer.is_idle() && (is_due || self.turn == Turn::Wanted) {
            self.syncer.order(&self.file);
            self.ordered = self.turns.written();
            if self.turn == Turn::Wanted {
                self.turn = Turn::Syncs;
            }
        }
        Ok(())
    }

    /// Whether the other thread has synced what was written when it was told to.
    fn take_synced(&mut self) -> Result<bool, Fault> {
        match self.syncer.take_done() {
            Ok(false) => return Ok(false),
            Ok(true) => self.turns.sync_to(self.ordered),
            Err(error) => {
                self.turns.lose();
                return Err(self.lost(&error));
            }
        }
        Ok(true)
    }

    /// All that is written is on the disk, whatever the rhythm is.
    pub fn sync_all(&mut self) -> Result<(), Fault> {
        self.sync_here().inspect_err(|_| self.turns.lose())?;
        self.turns.sync_to(self.turns.written());
        Ok(())
    }

    /// Whether the log is to go on in a new file now.
    pub fn is_to_turn(&self) -> bool {
        self.turn == Turn::Synced && !self.is_compacting()
    }

    /// Whether a snapshot is in work, or older files go away.
    pub fn is_compacting(&self) -> bool {
        self.turns.is_compacting()
    }

    /// Goes on in a new file, all of the old one being on the disk.
    fn begin(&mut self, first: u64) -> Result<(), Fault> {
        self.beside = first;
        let place = self.directory.log(first);
        let begins = Place { entries: first, calls: self.calls };
        let (file, blocks) = begin(&self.directory, begins, self.pid_max).map_err(|error| {
            eprintln!("pidtabd: {}: cannot be begun, and the log goes on in its file: {error}", place.display());
            fault_at(&place)(error)
        })?;
        let closed = Closed { base: self.base, bytes: self.bytes };
        self.begun = Some((closed, blocks));
        self.is_naming = true;
        (self.file, self.base, self.bytes, self.length) = (Arc::new(file), first, HEAD, HEAD);
        self.syncer.has_synced();
        Ok(())
    }

    /// The new file must be gone before the old one has a call more, or a start would find two logs with that call.
    fn undo(&self) -> Result<(), Fault> {
        let place = self.directory.log(self.beside);
        fs::remove_file(&place).or_else(unless_missing).map_err(fault_at(&place))?;
        self.directory.sync().map_err(fault_at(&place))
    }

    /// The log before, if this one was begun since this was asked, and the checksum to go on with.
    pub fn take_begun(&mut self) -> Option<(Closed, Blocks)> {
        self.begun.take()
    }

    /// Whether `current` is to name the log, and it has not been tried.
    pub fn is_naming(&self) -> bool {
        self.is_naming
    }

    /// `current` names that log, on the disk too, or it could not be written.
    pub fn note_name(&mut self, base: u64, is_done: bool) {
        if base != self.base {
            return;
        }
        self.is_naming = false;
        if is_done {
            self.turns.name();
        }
    }

    /// The snapshot of that many entries is whole, or none could be made. It gives the ordinal below which files are needed no more.
    pub fn is_compacted(&mut self, ordinal: Option<u64>) -> Option<u64> {
        if ordinal == Some(self.base) {
            self.turns.compact();
            if self.turns.may_drop() {
                return ordinal;
            }
        }
        self.turns.rest();
        None
    }

    /// Older files are gone, or stay until they go with others.
    pub fn has_dropped(&mut self) {
        self.turns.rest();
    }

    /// All is on the disk, and nothing behind it.
    pub fn close(&mut self) -> Result<(), Fault> {
        self.turns.stop();
        match self.go_on(&[])? {
            Committed::Done => Ok(()),
            Committed::Waits(why) => Err(why),
        }
    }
}

fn unless_missing(error: io::Error) -> io::Result<()> {
    if error.kind() == io::ErrorKind::NotFound {
        return Ok(());
    }
    Err(error)
}

/// A new file with its head. Its name is on the disk before an entry is, and before `current` names it.
fn begin(directory: &Directory, place: Place, pid_max: u32) -> io::Result<(File, Blocks)> {
    let head = Head { pid_max, workers: SEATS, first_stamp: place.calls + 1 };
    let mut bytes = Vec::new();
    let blocks = Blocks::begin(&head, &mut bytes)?;
    let mut options = OpenOptions::new();
    let file = options.write(true).create(true).truncate(true).mode(0o600).open(directory.log(place.entries))?;
    file.write_all_at(&bytes, 0)?;
    file.sync_all()?;
    directory.sync()?;
    Ok((file, blocks))
}

/// The last file, without its torn end.
fn go_on(directory: &Directory, end: &End) -> io::Result<(File, Blocks)> {
    let file = OpenOptions::new().write(true).open(directory.log(end.base))?;
    file.set_len(end.bytes)?;
    file.sync_all()?;
    Ok((file, end.blocks))
}
