//! Reads a directory: the newest snapshot, and the logs behind it, in parts.
use crate::directory::{fault_at, Directory, Fault, SEATS};
use crate::entry::{self, Entry, Wrong};
use crate::log::BATCH;
use crate::noted::Noted;
use crate::recall::{Recall, Watcher};
use crate::snapshot::{self, Place};
use pidtab::{Blocks, Head, Reply, SavedFault, Table};
use std::collections::HashMap;
use std::fs::{self, File};
use std::io::{self, Read, Seek, SeekFrom};
use std::path::Path;

/// How many bytes are read at a time.
const PART: usize = 1 << 16;
/// What a disk writes whole, or not at all.
const SECTOR: u64 = 512;

const MISSING: &str = "is missing, and `current` names it as the newest log: the directory was not copied whole";

/// A log as far as it was read.
struct Input {
    file: File,
    base: u64,
    blocks: Blocks,
    /// So many bytes of the file were taken.
    taken: u64,
    bytes: Vec<u8>,
    at: usize,
    /// No byte of the file is read from there on.
    end: u64,
}

impl Input {
    fn rest(&self) -> &[u8] {
        &self.bytes[self.at..]
    }

    /// Reads on where less than the longest entry is in hand.
    fn fill(&mut self) -> io::Result<()> {
        if self.rest().len() >= entry::LONGEST {
            return Ok(());
        }
        self.bytes.drain(..self.at);
        self.at = 0;
        let room = PART.min((self.end - self.taken) as usize - self.bytes.len());
        self.file.by_ref().take(room as u64).read_to_end(&mut self.bytes)?;
        Ok(())
    }

    fn count(&mut self, size: usize) {
        self.at += size;
        self.taken += size as u64;
    }

    /// Whether the wrong block is where a write was cut off. Either all is 0 from its checksum on: a file may have its length before its bytes. Or a
    /// loss of power has kept some sectors of one batch and not others: one with bytes of the block is all 0 from there, and no batch is longer than
    /// what comes behind.
    fn is_cut_off(&mut self, place: usize) -> io::Result<bool> {
        let block = self.taken + place as u64;
        let end = self.written_end(block)?;
        if end <= block + 40 {
            return Ok(true);
        }
        let next = (block / SECTOR + 1) * SECTOR;
        let is_lost = self.is_zero(block, next)? || next < block + 48 && self.is_zero(next, next + SECTOR)?;
        Ok(is_lost && end <= block + BATCH as u64)
    }

    /// Where the last byte of the file that is not 0 ends, from a place on.
    fn written_end(&mut self, from: u64) -> io::Result<u64> {
        self.file.seek(SeekFrom::Start(from))?;
        let (mut part, mut at, mut end) = (vec![0; PART], from, from);
        loop {
            let count = self.file.read(&mut part)?;
            if count == 0 {
                return Ok(end);
            }
            if let Some(last) = part[..count].iter().rposition(|it| *it != 0) {
                end = at + last as u64 + 1;
            }
            at += count as u64;
        }
    }

    fn is_zero(&mut self, from: u64, to: u64) -> io::Result<bool> {
        self.file.seek(SeekFrom::Start(from))?;
        let mut part = Vec::new();
        self.file.by_ref().take(to - from).read_to_end(&mut part)?;
        Ok(part.iter().all(|it| *it == 0))
    }
}

/// A table that is made of the files of a directory.
pub struct Recovery {
    directory: Directory,
    pub table: Table,
    pub noted: Noted,
    pub pid_max: u32,
    /// So far it goes.
    pub place: Place,
    /// The place of the snapshot, 0 for none.
    pub snapshot: Place,
    /// So many calls were replayed.
    pub replayed: u64,
    /// The ordinals of the forks that were replayed, by the children's root numbers: where the leases of a former release are to be compared with them.
    pub born: Option<HashMap<u32, u64>>,
    /// Who looks at each call.
    pub watcher: Option<Box<Watcher>>,
    input: Option<Input>,
}

/// Where the log goes on: a file, how long it is, and its checksum.
pub struct End {
    pub base: u64,
    pub bytes: u64,
    pub blocks: Blocks,
    /// So many bytes of a torn end are behind, without zeroes at the end of the file.
    pub left_out: u64,
}

impl Recovery {
    /// The newest snapshot, or else a table of the first log's settings; none where the directory has neither.
    pub fn begin(directory: Directory) -> Result<Option<Recovery>, Fault> {
        let files = directory.files()?;
        let Some(snapshot) = files.snapshots.last().copied() else {
            return Recovery::begin_with_log(directory, &files.logs);
        };
        let path = directory.snapshot(snapshot);
        let text = fs::read(&path).map_err(fault_at(&path))?;
        let damaged = |why: String| {
            fault_at(&path)(format!(
                "{why}: the snapshot is damaged, or was not copied whole; restore the directory from a copy"
            ))
        };
        let read = snapshot::read(&text).map_err(damaged)?;
        let table = Table::from_dump(read.table).map_err(|why| damaged(why.to_string()))?;
        let (place, pid_max) = (read.place, read.pid_max);
        if place.entries != snapshot {
            let entries = place.entries;
            return Err(fault_at(&path)(format!("is the text after {entries} entries, and its name says {snapshot}")));
        }
        let noted = Noted::of(&read.facts);
        Ok(Some(Recovery { noted, snapshot: place, place, ..Recovery::of(directory, table, pid_max) }))
    }

    fn begin_with_log(directory: Directory, logs: &[u64]) -> Result<Option<Recovery>, Fault> {
        let (current, path) = (directory.current()?, directory.log(0));
        match (logs.first(), current) {
            (None, None) => return Ok(None),
            (None, Some(current)) => return Err(fault_at(&directory.log(current))(MISSING)),
            (Some(0), _) => {}
            (Some(first), _) => {
                let path = directory.log(*first);
                return Err(fault_at(&path)(format!(
                    "begins at call {first}, and no snapshot or log comes before: the directory was not copied whole"
                )));
            }
        }
        let mut head = [0; Blocks::HEAD];
        let read = File::open(&path).and_then(|mut it| read_up_to(&mut it, &mut head)).map_err(fault_at(&path))?;
        let pid_max = match Blocks::read_head(&head[..read]) {
            Ok((head, _)) => head.pid_max,
            Err(SavedFault::Torn) if logs.len() == 1 && current.is_none() => return Ok(None),
            Err(fault) => return Err(fault_at(&path)(fault)),
        };
        let table = Table::open(pid_max).map_err(fault_at(&path))?;
        Ok(Some(Recovery::of(directory, table, pid_max)))
    }

    fn of(directory: Directory, table: Table, pid_max: u32) -> Recovery {
        let (noted, place, born) = (Noted::default(), Place::default(), None);
        Recovery {
            directory,
            table,
            noted,
            pid_max,
            place,
            snapshot: place,
            replayed: 0,
            born,
            watcher: None,
            input: None,
        }
    }

    /// Makes all calls to the end of the last log. None: there is no log to go on with.
    pub fn finish(&mut self) -> Result<Option<End>, Fault> {
        let snapshot = self.snapshot.entries;
        let logs: Vec<_> = self.directory.files()?.logs.into_iter().filter(|it| *it >= snapshot).collect();
        self.compare_current(logs.last().copied())?;
        let Some((last, closed)) = logs.split_last() else { return Ok(None) };
        for base in closed {
            self.open(*base)?;
            self.replay_all(false)?;
        }
        if !self.open_last(*last)? {
            return Ok(None);
        }
        self.replay_all(true)?;
        let Some(input) = self.input.as_mut() else { return Ok(None) };
        let (base, bytes, blocks) = (input.base, input.taken, input.blocks);
        let left_out = input.written_end(bytes).map_err(fault_at(&self.directory.log(base)))? - bytes;
        Ok(Some(End { base, bytes, blocks, left_out }))
    }

    /// A directory that was copied while it was in use may lack its newest log.
    fn compare_current(&self, last: Option<u64>) -> Result<(), Fault> {
        let Some(current) = self.directory.current()? else { return Ok(()) };
        if last.is_some_and(|it| it >= current) || current < self.snapshot.entries {
            return Ok(());
        }
        let path = self.directory.log(current);
        Err(fault_at(&path)(MISSING))
    }

    /// Goes on to a place of the log with that first ordinal, which is written meanwhile. The logs before it are closed.
    pub fn go_on(&mut self, base: u64, bytes: u64) -> Result<(), Fault> {
        if self.input.as_ref().is_none_or(|it| it.base != base) {
            self.finish_closed(base)?;
            self.open(base)?;
        }
        if let Some(input) = &mut self.input {
            input.end = bytes;
        }
        self.replay_all(false)
    }

    /// The log that is in hand, to its end, and all that are between it and that one.
    fn finish_closed(&mut self, below: u64) -> Result<(), Fault> {
        if let Some(input) = &mut self.input {
            let path = self.directory.log(input.base);
            input.end = input.file.metadata().map_err(fault_at(&path))?.len();
            self.replay_all(false)?;
        }
        let logs = self.directory.files()?.logs;
        for base in logs.into_iter().filter(|it| *it < below) {
            if base >= self.place.entries {
                self.open(base)?;
                self.replay_all(false)?;
            }
        }
        Ok(())
    }

    fn open(&mut self, base: u64) -> Result<(), Fault> {
        let path = self.directory.log(base);
        let Place { entries, calls } = self.place;
        if base != entries {
            return Err(fault_at(&path)(format!(
                "begins at entry {base}, and the log before ends at entry {entries}: a file is missing or was cut"
            )));
        }
        let mut file = File::open(&path).map_err(fault_at(&path))?;
        let mut block = [0; Blocks::HEAD];
        let read = read_up_to(&mut file, &mut block).map_err(fault_at(&path))?;
        let (head, blocks) = Blocks::read_head(&block[..read]).map_err(fault_at(&path))?;
        if head != (Head { pid_max: self.pid_max, workers: SEATS, first_stamp: calls + 1 }) {
            return Err(fault_at(&path)("has the head of another table"));
        }
        let (taken, end) = (read as u64, file.metadata().map_err(fault_at(&path))?.len());
        self.input = Some(Input { file, base, blocks, taken, bytes: Vec::with_capacity(PART), at: 0, end });
        Ok(())
    }

    /// The last log, which may end within its head until `current` names it: then it is begun anew.
    fn open_last(&mut self, base: u64) -> Result<bool, Fault> {
        let path = self.directory.log(base);
        let bytes = fs::metadata(&path).map(|it| it.len()).map_err(fault_at(&path));
        let is_begun = self.directory.current()?.is_none_or(|it| it < base);
        if base == self.place.entries && is_begun && bytes? < Blocks::HEAD as u64 {
            return Ok(false);
        }
        self.open(base).map(|_| true)
    }

    /// Makes the calls of the log again, and compares their replies. The last log may have a torn end.
    fn replay_all(&mut self, may_be_torn: bool) -> Result<(), Fault> {
        let Some(mut input) = self.input.take() else { return Ok(()) };
        let path = self.directory.log(input.base);
        loop {
            input.fill().map_err(fault_at(&path))?;
            if input.rest().is_empty() {
                break;
            }
            self.foresee(&input);
            let (blocks, bytes) = (&mut input.blocks, &input.bytes[input.at..]);
            let taken = entry::take(&self.table, blocks, bytes);
            let is_torn = match &taken {
                Err(Wrong { fault: SavedFault::Torn, .. }) => true,
                Err(Wrong { fault: SavedFault::WrongByte, place }) => {
                    input.is_cut_off(*place).map_err(fault_at(&path))?
                }
                _ => false,
            };
            if is_torn && may_be_torn {
                break;
            }
            let taken = taken.map_err(|wrong| self.damaged(&path, &input, wrong.fault))?;
            input.count(taken.size);
            self.count(&taken.entry);
        }
        self.input = Some(input);
        Ok(())
    }

    /// From here on each call is looked at.
    pub fn watch(&mut self, recall: Recall) -> Result<(), Fault> {
        self.watcher = Some(Box::new(Watcher::begin(&self.table, self.place.calls, recall)?));
        Ok(())
    }

    fn foresee(&mut self, input: &Input) {
        let Some(watcher) = &mut self.watcher else { return };
        if let Some(call) = entry::next_call(&input.blocks, input.rest()) {
            watcher.foresee(&self.table, call, self.place.calls);
        }
    }

    fn count(&mut self, entry: &Entry) {
        self.place.entries += 1;
        if let Some(watcher) = &mut self.watcher {
            watcher.note(&self.table, entry, self.place.calls);
        }
        let (made, lease) = match entry {
            Entry::Fact(fact) => return self.noted.apply(fact),
            Entry::Call { made, lease } => (made, lease),
        };
        self.noted.made(made.call, &made.reply, *lease);
        if let (Reply::Forked(child), Some(born)) = (&made.reply, &mut self.born) {
            born.insert(child.root, self.place.calls);
        }
        self.place.calls += 1;
        self.replayed += 1;
    }

    fn damaged(&self, path: &Path, input: &Input, fault: SavedFault) -> Fault {
        let (bytes, call) = (input.taken, self.place.calls);
        fault_at(path)(format!(
            "call {call}, at byte {bytes}: {fault}; restore the directory from a copy, or, to lose this call and all behind it, \
             move the later files away and cut this one with `truncate -s {bytes}`"
        ))
    }
}

/// Reads until the room is full, or the file ends: how many bytes.
fn read_up_to(file: &mut File, room: &mut [u8]) -> io::Result<usize> {
    let mut all = Vec::new();
    let count = file.by_ref().take(room.len() as u64).read_to_end(&mut all)?;
    room[..count].copy_from_slice(&all);
    Ok(count)
}
