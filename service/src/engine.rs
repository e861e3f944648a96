//! The table, its book, and the calls that are recorded and not written yet.
//!
//! What becomes of a call, in a turn of the loop:
//!
//! ```text
//! taken --make--> batched --write--> written --fdatasync, if always--> answered
//!                    |   ^              |
//!              no room   room           +--> read by followers and the second table
//!                    v   |
//!                    stuck: who was to be answered in this turn waits, other calls too; queries are answered by the second table
//! ```
//!
//! - Which of these is next, and when the log turns to a new file, says the machine that [`Log`] drives. What was written stays in `written` until
//!   followers have it.
//! - By `everysec` a thread syncs each second what was written.
//! - What is recorded of leases and of names is taken as a call is. A fork and its lease are one entry, so that a crash leaves both or neither.
//! - Turning: the log is synced beside, before the machine is asked to. The second table names the new log in `current` and makes the snapshot, and then the
//!   older files go.
//! - Adopting, of a follower: the leader's text is the snapshot, a new log and a new machine begin, and texts that were ordered are ordered anew.
//! - Stopping: what is batched is written, or waited for up to 5 s; then the machine ends the log.
use crate::asks::{Answered, Query};
use crate::book::Book;
use crate::directory::{new_identity, Directory, Fault, SEATS};
use crate::entry::{self, Entry};
use crate::facts::{forks, Fact};
use crate::former::{self, Known};
use crate::leases::Key;
use crate::log::{Closed, Committed, Log, Sync};
use crate::noted::Noted;
use crate::recall::Recall;
use crate::recover::{End, Recovery};
use crate::replica::{loose_blocks, Asker, Order, Replica, Report, Source, TextKind};
use crate::snapshot::{self, Place};
use pidtab::{Blocks, Call, Error, Head, Made, Reply, Table, Told};
use std::collections::HashMap;
use std::path::PathBuf;
use std::sync::Arc;
use std::time::{Duration, Instant};

/// So many bytes of calls are kept in memory, where nothing is kept on the disk, before the second table makes them.
const LOOSE: usize = 1 << 20;

/// So long the name of the last log is waited for at the end.
const LAST_NAME: Duration = Duration::from_secs(2);

const HAS_A_PLACE: &str = "each call that was made, and its reply, have a place in the form";

/// What is kept, and how.
#[derive(Clone, Debug)]
pub struct Keep {
    /// None: nothing is kept.
    pub path: Option<PathBuf>,
    pub sync: Sync,
    pub segment: u64,
    pub archive: bool,
    /// Of a new table.
    pub pid_max: u32,
    pub most_controls: usize,
}

/// What a call has in the place of a reply.
#[derive(Debug, PartialEq)]
pub enum Refused {
    TooManyControls,
    Table(Error),
}

pub struct Engine {
    /// What tells the table from all others. A follower has that of its leader.
    pub identity: String,
    pub table: Table,
    pub book: Book,
    /// What is recorded beside the calls.
    pub noted: Noted,
    pub pid_max: u32,
    /// So many calls are recorded: the ordinal of the next one.
    pub made: u64,
    /// So many of them are written.
    pub saved: u64,
    /// So many entries are recorded: the calls, and what is recorded beside them.
    pub entries: u64,
    pub counts: [u64; SEATS as usize],
    pub asked: u64,
    pub log: Option<Log>,
    pub replica: Replica,
    pub keep: Keep,
    /// So many calls are before the newest snapshot.
    pub snapshot: u64,
    pub replayed: u64,
    pub left_out: u64,
    directory: Option<Directory>,
    blocks: Blocks,
    batch: Vec<u8>,
    last: Made,
    /// What of it was written, for the followers.
    written: Vec<u8>,
    head: Vec<u8>,
    loose: Vec<u8>,
}

/// What the directory has, or a new table.
struct Opened {
    table: Table,
    noted: Noted,
    pid_max: u32,
    place: Place,
    /// So many calls are before the snapshot.
    snapshot: u64,
    replayed: u64,
    born: HashMap<u32, u64>,
    end: Option<End>,
}

fn read_directory(directory: &Directory, keep: &Keep) -> Result<Opened, Fault> {
    let Some(mut recovery) = Recovery::begin(directory.again()?)? else {
        return new_table(keep);
    };
    recovery.born = directory.former_leases().exists().then(HashMap::new);
    let end = recovery.finish()?;
    Ok(Opened {
        noted: recovery.noted,
        pid_max: recovery.pid_max,
        place: recovery.place,
        snapshot: recovery.snapshot.calls,
        replayed: recovery.replayed,
        born: recovery.born.unwrap_or_default(),
        table: recovery.table,
        end,
    })
}

fn new_table(keep: &Keep) -> Result<Opened, Fault> {
    let table = Table::open(keep.pid_max).map_err(|error| error.to_string())?;
    let (noted, place, born) = (Noted::default(), Place::default(), HashMap::new());
    Ok(Opened { table, noted, pid_max: keep.pid_max, place, snapshot: 0, replayed: 0, born, end: None })
}

/// The log, the checksum that it goes on from, and where the second table has its calls from.
fn begin_log(
    directory: Option<&Directory>,
    keep: &Keep,
    opened: &mut Opened,
    wake: impl Fn() + Send + 'static,
) -> Result<(Option<Log>, Blocks, Source), Fault> {
    let (place, pid_max) = (opened.place, opened.pid_max);
    let Some(directory) = directory else {
        let blocks = loose_blocks(pid_max).map_err(|error| error.to_string())?;
        return Ok((None, blocks, Source::Nothing { pid_max, text: None }));
    };
    let (again, end) = (directory.again()?, opened.end.take());
    let (log, blocks) = Log::open(again, keep.sync, keep.segment, end, place, pid_max, wake)?;
    let source = Source::Directory { directory: directory.again()?, archive: keep.archive };
    Ok((Some(log), blocks, source))
}

/// That of the directory, or a new one.
fn identity_of(directory: Option<&Directory>) -> Result<String, Fault> {
    let Some(directory) = directory else { return new_identity() };
    if let Some(identity) = directory.identity()? {
        return Ok(identity);
    }
    let identity = new_identity()?;
    directory.set_identity(&identity)?;
    Ok(identity)
}

impl Engine {
    /// Opens what is kept. `wake` wakes the loop from other threads.
    pub fn open(keep: Keep, wake: impl Fn() + Clone + Send + 'static) -> Result<Engine, Fault> {
        let directory = keep.path.as_deref().map(Directory::take).transpose()?;
        let mut opened = match &directory {
            Some(directory) => read_directory(directory, &keep)?,
            None => new_table(&keep)?,
        };
        let (Place { entries, calls: made }, pid_max) = (opened.place, opened.pid_max);
        let left_out = opened.end.as_ref().map_or(0, |it| it.left_out);
        let (log, blocks, source) = begin_log(directory.as_ref(), &keep, &mut opened, wake.clone())?;
        let mut engine = Engine {
            identity: identity_of(directory.as_ref())?,
            book: Book::default(),
            table: opened.table,
            noted: opened.noted,
            pid_max,
            made,
            saved: made,
            entries,
            counts: [0; SEATS as usize],
            asked: 0,
            log,
            replica: Replica::start(source, wake),
            keep,
            snapshot: opened.snapshot,
            replayed: opened.replayed,
            left_out,
            directory,
            blocks,
            batch: Vec::new(),
            last: Made::default(),
            written: Vec::new(),
            head: Vec::new(),
            loose: Vec::new(),
        };
        engine.read_book()?;
        engine.take_over_former(&opened.born)?;
        engine.snapshot_if_long();
        Ok(engine)
    }

    fn read_book(&mut self) -> Result<(), Fault> {
        let listing = self.table.listing().map_err(|error| error.to_string())?;
        let is_watched = self.book.is_watched;
        self.book = Book::of(&listing);
        (self.book.is_watched, self.book.tells_gone) = (is_watched, !self.noted.leases.is_empty());
        let book = &self.book;
        self.noted.leases.keep_those_that(|task| book.kin(task).is_some());
        Ok(())
    }

    /// The leases of a former release are in the log from now on, and on the disk, before their file goes. If the process ends between, a start records
    /// them once more, which changes nothing.
    fn take_over_former(&mut self, born: &HashMap<u32, u64>) -> Result<(), Fault> {
        let Some(directory) = self.directory.as_ref().map(Directory::again).transpose()? else { return Ok(()) };
        let (book, known) = (&self.book, Known { snapshot: self.snapshot, born });
        let Some(facts) = former::read_file(&directory, &known, |task| book.kin(task).is_some())? else {
            return Ok(());
        };
        facts.iter().for_each(|it| self.record(it));
        if let Committed::Waits(why) = self.commit()? {
            return Err(why);
        }
        self.log.as_mut().map_or(Ok(()), Log::sync_all)?;
        directory.remove_former_leases()
    }

    /// One that lives too briefly for a snapshot would start ever later.
    fn snapshot_if_long(&mut self) {
        let size = self.replayed * Blocks::HEAD as u64;
        if let Some(log) = self.log.as_mut().filter(|it| size >= self.keep.segment || it.bytes >= self.keep.segment) {
            log.want_turn();
        }
    }

    /// Makes a call, and records it. The child of a fork is the lease's.
    pub fn make(&mut self, seat: u32, call: Call, lease: Option<u64>) -> Result<Reply, Refused> {
        self.foresee(call)?;
        self.table.make(seat, call, &mut self.last).map_err(Refused::Table)?;
        let (reply, before) = (self.last.reply(), self.batch.len());
        self.put_lease(&reply, lease);
        let put = self.blocks.put_made(&self.last, &mut self.batch);
        put.expect(HAS_A_PLACE);
        self.take(before);
        self.note(seat, call, &reply, lease);
        Ok(reply)
    }

    /// The same, and tells what the call did.
    pub fn make_told(&mut self, seat: u32, call: Call, lease: Option<u64>) -> Result<Told, Refused> {
        self.foresee(call)?;
        let told = self.table.told(call).map_err(Refused::Table)?;
        self.put(seat, call, &told.reply, lease).expect(HAS_A_PLACE);
        Ok(told)
    }

    /// Records a call that was made.
    fn put(&mut self, seat: u32, call: Call, reply: &Reply, lease: Option<u64>) -> Result<(), Error> {
        let before = self.batch.len();
        self.put_lease(reply, lease);
        self.blocks.put(seat, call, reply, &mut self.batch)?;
        self.take(before);
        self.note(seat, call, reply, lease);
        Ok(())
    }

    /// What is before a fork under a lease, in one entry with it.
    fn put_lease(&mut self, reply: &Reply, lease: Option<u64>) {
        if let (Reply::Forked(_), Some(lease)) = (reply, lease) {
            self.blocks.put_note(&forks(lease), &mut self.batch).expect(HAS_A_PLACE);
        }
    }

    /// Records what comes of a lease, or a name.
    pub fn record(&mut self, fact: &Fact) {
        let before = self.batch.len();
        self.blocks.put_note(&fact.note(), &mut self.batch).expect(HAS_A_PLACE);
        self.take(before);
        self.noted.apply(fact);
        self.book.tells_gone |= !self.noted.leases.is_empty();
    }

    /// Why the cgroup cannot have the name, if it cannot.
    pub fn refusal_of_name(&self, id: u64, name: &str) -> Option<&'static str> {
        let Some(parent) = self.book.parent_of_control(id) else {
            return Some("-ERR there is no such cgroup, or it is the root's");
        };
        let taken = self.noted.names.below(parent, name, &self.book).filter(|it| *it != id);
        taken.map(|_| "-ERR a cgroup beside it has the name")
    }

    /// A connection takes the lease of that name, which is new if there is none: its number.
    pub fn hold(&mut self, key: &Key, ttl: u64) -> Option<u64> {
        self.record(&self.noted.leases.hold_of(key, ttl));
        let number = self.noted.leases.number(key)?;
        self.noted.leases.hold(number);
        Some(number)
    }

    /// What will not be known behind the call, if there is room for what it makes.
    fn foresee(&mut self, call: Call) -> Result<(), Refused> {
        if matches!(call, Call::Mk { .. }) && self.book.controls() >= self.keep.most_controls {
            return Err(Refused::TooManyControls);
        }
        self.book.foresee(&self.table, call);
        Ok(())
    }

    /// What the batch has from there on is an entry.
    fn take(&mut self, from: usize) {
        let size = self.batch.len() - from;
        self.entries += 1;
        self.log.iter_mut().for_each(|it| it.take(size));
    }

    /// A call that was made and is in the batch.
    fn note(&mut self, seat: u32, call: Call, reply: &Reply, lease: Option<u64>) {
        self.made += 1;
        self.counts[seat as usize % SEATS as usize] += 1;
        self.book.note(&self.table, call, reply, self.made);
        self.noted.made(call, reply, lease);
        for task in self.book.gone.drain(..) {
            self.noted.leases.gone(task);
        }
    }

    /// Answers a query, which is not recorded.
    pub fn ask(&mut self, call: Call) -> Result<Reply, Error> {
        self.asked += 1;
        self.table.ask(call)
    }

    pub fn answer(&mut self, query: Query) -> Answered {
        self.asked += 1;
        query.answer(&self.table)
    }

    /// Has written what was recorded. What is written stays in `written` until it is taken, however many turns that takes.
    pub fn commit(&mut self) -> Result<Committed, Fault> {
        let done = self.log.as_mut().map_or(Ok(Committed::Done), |it| it.commit(&self.batch, self.made))?;
        if !self.batch.is_empty() && self.log.as_ref().is_none_or(Log::has_answered) {
            self.move_batch();
        }
        if let Some((closed, blocks)) = self.log.as_mut().and_then(Log::take_begun) {
            self.compact(&closed, blocks);
        }
        Ok(done)
    }

    /// The batch is written.
    fn move_batch(&mut self) {
        self.saved = self.made;
        if self.log.is_none() {
            self.loose.extend_from_slice(&self.batch);
            self.order_loose();
        }
        if self.written.is_empty() {
            std::mem::swap(&mut self.batch, &mut self.written);
        } else {
            self.written.append(&mut self.batch);
        }
    }

    fn order_loose(&mut self) {
        if self.loose.len() >= LOOSE {
            self.replica.order(Order::Blocks(std::mem::take(&mut self.loose)));
        }
    }

    /// What a commit has written, and the head of the log that goes on behind it, if that is a new one. The first is given back.
    pub fn take_written(&mut self) -> (Vec<u8>, Vec<u8>) {
        (std::mem::take(&mut self.written), std::mem::take(&mut self.head))
    }

    /// The room for what is written next.
    pub fn give_back(&mut self, mut written: Vec<u8>) {
        written.clear();
        written.shrink_to(LOOSE);
        self.written = written;
    }

    /// Whether a snapshot is in work, or older files go away.
    pub fn is_compacting(&self) -> bool {
        self.log.as_ref().is_some_and(Log::is_compacting)
    }

    /// The log goes on in a new file, and the second table makes a snapshot of what is before.
    fn compact(&mut self, closed: &Closed, blocks: Blocks) {
        self.blocks = blocks;
        self.head = head_bytes(self.pid_max, self.made);
        self.replica.order(Order::Current { base: self.entries });
        self.replica.order(Order::File { base: closed.base, bytes: closed.bytes });
        self.replica.order(Order::Snapshot);
    }

    /// What is due by the clock.
    pub fn tick(&mut self) -> Result<(), Fault> {
        self.log.as_mut().map_or(Ok(()), Log::tick)
    }

    /// The second table goes on to here, and tells its text. All that was recorded is written.
    pub fn order_text(&mut self, kind: TextKind) {
        self.order_saved();
        self.replica.order(Order::Text { kind, ordinal: self.entries });
    }

    /// The same text by the table that serves.
    pub fn text(&self, kind: TextKind) -> Result<Vec<u8>, Fault> {
        kind.of(&self.table, &self.noted, Place { entries: self.entries, calls: self.made })
    }

    /// The second table goes on to the end of what was written, and answers.
    pub fn order_answer(&mut self, asker: Asker, query: Query) {
        self.asked += 1;
        self.order_saved();
        self.replica.order(Order::Ask { asker, query });
    }

    /// Events of calls that were made before. All that was recorded is written.
    pub fn order_recall(&mut self, recall: Recall) {
        let (base, bytes) = self.log.as_ref().map_or((0, 0), |it| (it.base, it.bytes));
        self.replica.order(Order::Recall { recall, base, bytes });
    }

    fn order_saved(&mut self) {
        match &self.log {
            Some(log) => self.replica.order(Order::File { base: log.base, bytes: log.bytes }),
            None => self.replica.order(Order::Blocks(std::mem::take(&mut self.loose))),
        }
    }

    /// What the second table has done; a text is given back.
    pub fn take_report(&mut self) -> Option<Report> {
        let report = self.replica.reports.try_recv().ok()?;
        self.note_report(&report);
        Some(report)
    }

    fn note_report(&mut self, report: &Report) {
        match report {
            Report::Named { base, is_done } => self.log.iter_mut().for_each(|it| it.note_name(*base, *is_done)),
            Report::Snapshot(done) => self.note_snapshot(done),
            Report::Dropped(done) => {
                self.log.iter_mut().for_each(Log::has_dropped);
                done.iter().for_each(|fault| eprintln!("pidtabd: older files stay: {fault}"));
            }
            Report::Text { .. } | Report::Told { .. } | Report::Recalled { .. } => {}
        }
    }

    /// What is before a snapshot goes away, if `current` names the log behind it.
    fn note_snapshot(&mut self, done: &Result<Place, Fault>) {
        match done {
            Ok(place) => self.snapshot = place.calls,
            Err(fault) => eprintln!("pidtabd: no snapshot was made, and the log goes on: {fault}"),
        }
        let ordinal = done.as_ref().ok().map(|it| it.entries);
        if let Some(below) = self.log.as_mut().and_then(|it| it.is_compacted(ordinal)) {
            self.replica.order(Order::Drop { below });
        }
    }

    /// All that was recorded is on the disk.
    pub fn close(&mut self) -> Result<(), Fault> {
        if let Committed::Waits(why) = self.commit()? {
            return Err(format!("{why}: ending, with unsaved calls unanswered"));
        }
        self.log.as_mut().map_or(Ok(()), Log::close)?;
        self.await_name();
        Ok(())
    }

    /// `current` names the last log, so that a start would miss it. It is waited for a while, as the second table may have much to do.
    fn await_name(&mut self) {
        let end = Instant::now() + LAST_NAME;
        while self.log.as_ref().is_some_and(Log::is_naming) {
            let rest = end.saturating_duration_since(Instant::now());
            let Ok(report) = self.replica.reports.recv_timeout(rest) else { return };
            self.note_report(&report);
        }
    }

    /// The checksum behind all that was recorded, which a follower goes on from.
    pub fn sum(&self) -> u64 {
        self.blocks.sum()
    }

    /// Makes the entry at the front of a leader's blocks again, and records it: how many bytes it has.
    pub fn follow(&mut self, blocks: &mut Blocks, bytes: &[u8]) -> Result<usize, Fault> {
        let taken = entry::take(&self.table, blocks, bytes).map_err(|wrong| wrong.fault.to_string())?;
        match taken.entry {
            Entry::Fact(fact) => self.record(&fact),
            Entry::Call { made, lease } => {
                let put = self.put(made.worker, made.call, &made.reply, lease);
                put.map_err(|error| error.to_string())?;
            }
        }
        Ok(taken.size)
    }

    /// The table is to be that of a leader. Its identity is on the disk before the table is.
    pub fn take_identity(&mut self, identity: &str) -> Result<(), Fault> {
        if self.identity != identity {
            self.directory.as_ref().map_or(Ok(()), |it| it.set_identity(identity))?;
            identity.clone_into(&mut self.identity);
        }
        Ok(())
    }

    /// The table is that of a text from now on, and what was kept before goes away. If the disk does not take it, nothing has changed here.
    pub fn adopt(&mut self, text: &[u8], wake: impl Fn() + Clone + Send + 'static) -> Result<(), Fault> {
        let read = snapshot::read(text)?;
        let (place, pid_max) = (read.place, read.pid_max);
        let table = Table::from_dump(read.table).map_err(|fault| fault.to_string())?;
        let (log, blocks, source) = self.keep_adopted(text, place, pid_max, wake.clone())?;
        (self.log, self.blocks, self.replica) = (log, blocks, Replica::start(source, wake));
        (self.table, self.noted, self.pid_max) = (table, Noted::of(&read.facts), pid_max);
        (self.entries, self.made, self.saved, self.snapshot) = (place.entries, place.calls, place.calls, place.calls);
        self.batch.clear();
        self.loose.clear();
        self.read_book()
    }

    /// The text as a snapshot, with a log behind it. Then the older files go; those that stay are looked at no more.
    fn keep_adopted(
        &self,
        text: &[u8],
        place: Place,
        pid_max: u32,
        wake: impl Fn() + Send + 'static,
    ) -> Result<(Option<Log>, Blocks, Source), Fault> {
        let Some(directory) = &self.directory else {
            let blocks = loose_blocks(pid_max).map_err(|error| error.to_string())?;
            return Ok((None, blocks, Source::Nothing { pid_max, text: Some(text.to_vec()) }));
        };
        let (entries, keep) = (place.entries, &self.keep);
        let path = directory.snapshot(entries);
        directory.write(&path, &[text]).map_err(crate::directory::fault_at(&path))?;
        let (mut log, blocks) = Log::open(directory.again()?, keep.sync, keep.segment, None, place, pid_max, wake)?;
        let dropped = log.is_compacted(Some(entries)).map_or(Ok(()), |below| directory.put_away(below, keep.archive));
        if let Err(error) = dropped {
            eprintln!("pidtabd: {}: older files stay: {error}", directory.path.display());
        }
        Ok((Some(log), blocks, Source::Directory { directory: directory.again()?, archive: keep.archive }))
    }
}

fn head_bytes(pid_max: u32, made: u64) -> Vec<u8> {
    let (head, mut bytes) = (Head { pid_max, workers: SEATS, first_stamp: made + 1 }, Vec::new());
    Blocks::begin(&head, &mut bytes).expect("the settings are those of a table");
    bytes
}

/// A text that is told to many.
pub type Text = Arc<Vec<u8>>;
