//! A second table in a thread of its own, which makes the calls again that the log has. Its text is a snapshot, or the answer to LIST or DUMP:
//! so the table that serves is never copied, and each log is seen to replay, reply for reply, before it is taken away.
use crate::asks::{Answered, Query};
use crate::directory::{fault_at, Directory, Fault, SEATS};
use crate::entry::{self, Entry};
use crate::noted::Noted;
use crate::recall::Recall;
use crate::recover::Recovery;
use crate::snapshot::{self, Place};
use pidtab::{Blocks, Head, Table};
use std::sync::mpsc::{channel, Receiver, Sender};
use std::sync::Arc;
use std::thread;

/// What the thread is told to do, in this order.
pub enum Order {
    /// That log is the newest.
    Current { base: u64 },
    /// Goes on to a place of the log.
    File { base: u64, bytes: u64 },
    /// Goes on with these blocks, where nothing is kept.
    Blocks(Vec<u8>),
    /// Writes the snapshot.
    Snapshot,
    /// Takes away what the snapshot of that many entries makes needless.
    Drop { below: u64 },
    /// Tells a text of it.
    Text { kind: TextKind, ordinal: u64 },
    /// Answers a query of that connection.
    Ask { asker: Asker, query: Query },
    /// Tells events of the calls up to a place of the log.
    Recall { recall: Recall, base: u64, bytes: u64 },
}

/// What a text has of a table.
#[derive(Clone, Copy, Debug, PartialEq)]
pub enum TextKind {
    List,
    Dump,
    /// The leases and the names of cgroups too: what a snapshot has, and a follower begins with.
    Whole,
}

impl TextKind {
    pub const ALL: [TextKind; 3] = [TextKind::List, TextKind::Dump, TextKind::Whole];

    pub fn of(self, table: &Table, noted: &Noted, place: Place) -> Result<Vec<u8>, Fault> {
        let text = if self == TextKind::List { table.list() } else { table.dump() };
        let text = text.map_err(|error| error.to_string())?.into_bytes();
        match self {
            TextKind::List | TextKind::Dump => Ok(text),
            TextKind::Whole => Ok([snapshot::front(noted, place, table), text].concat()),
        }
    }
}

/// A connection: its token, and its own number.
pub type Asker = (usize, u64);

/// What the thread has done.
pub enum Report {
    /// Whether `current` names that log.
    Named {
        base: u64,
        is_done: bool,
    },
    /// Older files are gone, or why not.
    Dropped(Option<Fault>),
    /// The place of the new snapshot.
    Snapshot(Result<Place, Fault>),
    Text {
        kind: TextKind,
        ordinal: u64,
        text: Result<Arc<Vec<u8>>, Fault>,
    },
    Told {
        asker: Asker,
        told: Result<Answered, Fault>,
    },
    /// The messages.
    Recalled {
        asker: Asker,
        user: u32,
        told: Result<Vec<u8>, Fault>,
    },
}

/// Where the calls come from.
pub enum Source {
    Directory {
        directory: Directory,
        archive: bool,
    },
    /// Calls behind a new table, or behind that of a text.
    Nothing {
        pid_max: u32,
        text: Option<Vec<u8>>,
    },
}

pub struct Replica {
    orders: Sender<Order>,
    pub reports: Receiver<Report>,
}

impl Replica {
    /// Starts the thread. `wake` is called behind each report.
    pub fn start(source: Source, wake: impl Fn() + Send + 'static) -> Replica {
        let (orders, taken) = channel();
        let (tell, reports) = channel();
        thread::spawn(move || {
            let mut copy = Copy { source, state: State::Unread };
            for order in taken {
                if let Some(report) = copy.follow(order) {
                    if tell.send(report).is_err() {
                        break;
                    }
                    wake();
                }
            }
        });
        Replica { orders, reports }
    }

    /// The thread lives as long as this does, so each order is taken.
    pub fn order(&self, order: Order) {
        let _ = self.orders.send(order);
    }
}

/// The second table.
enum State {
    Unread,
    Kept(Box<Recovery>),
    Loose(Box<Loose>),
    /// It cannot go on, and says why each time.
    Failed(Fault),
}

/// A table whose calls are in no file.
struct Loose {
    table: Table,
    noted: Noted,
    blocks: Blocks,
    place: Place,
}

impl Loose {
    fn replay(&mut self, bytes: &[u8]) -> Result<(), Fault> {
        let mut at = 0;
        while at < bytes.len() {
            let taken = entry::take(&self.table, &mut self.blocks, &bytes[at..]);
            let taken = taken.map_err(|wrong| wrong.fault.to_string())?;
            at += taken.size;
            self.count(&taken.entry);
        }
        Ok(())
    }

    fn count(&mut self, entry: &Entry) {
        self.place.entries += 1;
        match entry {
            Entry::Fact(fact) => self.noted.apply(fact),
            Entry::Call { made, lease } => {
                self.place.calls += 1;
                self.noted.made(made.call, &made.reply, *lease);
            }
        }
    }
}

struct Copy {
    source: Source,
    state: State,
}

impl Copy {
    fn follow(&mut self, order: Order) -> Option<Report> {
        match order {
            Order::Current { base } => Some(Report::Named { base, is_done: self.name_current(base) }),
            Order::Drop { below } => Some(Report::Dropped(self.put_away(below).err())),
            Order::File { base, bytes } => {
                self.go_on(|it| it.go_on(base, bytes));
                None
            }
            Order::Blocks(bytes) => {
                self.replay(&bytes);
                None
            }
            Order::Snapshot => {
                let done = self.snapshot();
                self.begin_anew();
                Some(Report::Snapshot(done))
            }
            Order::Text { kind, ordinal } => {
                let text = self.text(kind).map(Arc::new);
                self.begin_anew();
                Some(Report::Text { kind, ordinal, text })
            }
            Order::Ask { asker, query } => {
                let told = self.table().map(|it| query.answer(it.0));
                self.begin_anew();
                Some(Report::Told { asker, told })
            }
            Order::Recall { recall, base, bytes } => {
                let (asker, user) = (recall.asker, recall.user);
                Some(Report::Recalled { asker, user, told: self.recall(recall, base, bytes) })
            }
        }
    }

    /// Beside the second table, which is further than that.
    fn recall(&self, recall: Recall, base: u64, bytes: u64) -> Result<Vec<u8>, Fault> {
        let Source::Directory { directory, .. } = &self.source else { return Ok(Vec::new()) };
        let begun = Recovery::begin(directory.again()?)?;
        let mut recovery = begun.ok_or("there is nothing to replay")?;
        recovery.watch(recall)?;
        recovery.go_on(base, bytes)?;
        recovery.watcher.map_or(Ok(Vec::new()), |it| it.end())
    }

    /// Whether `current` names that log. If it cannot be written, it names the log before, or this one, and both stay there.
    fn name_current(&self, base: u64) -> bool {
        let Source::Directory { directory, .. } = &self.source else { return false };
        let named = directory.set_current(base);
        if let Err(error) = &named {
            let path = directory.path.display();
            eprintln!("pidtabd: {path}/current: cannot be written, and the log goes on: {error}");
        }
        named.is_ok()
    }

    fn put_away(&self, below: u64) -> Result<(), Fault> {
        let Source::Directory { directory, archive } = &self.source else { return Ok(()) };
        directory.put_away(below, *archive).map_err(fault_at(&directory.path))
    }

    /// A second table that has failed, and has said so, is made again of the files.
    fn begin_anew(&mut self) {
        if let (State::Failed(_), Source::Directory { .. }) = (&self.state, &self.source) {
            self.state = State::Unread;
        }
    }

    /// The table, which is first made of the newest snapshot.
    fn go_on(&mut self, work: impl FnOnce(&mut Recovery) -> Result<(), Fault>) {
        if let (State::Unread, Source::Directory { directory, .. }) = (&self.state, &self.source) {
            let begun = directory.again().and_then(Recovery::begin);
            self.state = match begun {
                Ok(Some(recovery)) => State::Kept(Box::new(recovery)),
                Ok(None) => State::Failed("there is nothing to replay".to_owned()),
                Err(fault) => State::Failed(fault),
            };
        }
        let State::Kept(recovery) = &mut self.state else { return };
        if let Err(fault) = work(recovery) {
            self.state = State::Failed(fault);
        }
    }

    fn replay(&mut self, bytes: &[u8]) {
        if let (State::Unread, Source::Nothing { pid_max, text }) = (&self.state, &mut self.source) {
            self.state = begin_loose(*pid_max, text.take());
        }
        let State::Loose(loose) = &mut self.state else { return };
        if let Err(fault) = loose.replay(bytes) {
            self.state = State::Failed(fault);
        }
    }

    fn table(&mut self) -> Result<(&Table, &Noted, Place), Fault> {
        if matches!(self.state, State::Unread) {
            self.replay(b"");
        }
        match &self.state {
            State::Kept(it) => Ok((&it.table, &it.noted, it.place)),
            State::Loose(it) => Ok((&it.table, &it.noted, it.place)),
            State::Failed(fault) => Err(fault.clone()),
            State::Unread => Err("there is no second table".to_owned()),
        }
    }

    fn text(&mut self, kind: TextKind) -> Result<Vec<u8>, Fault> {
        let (table, noted, place) = self.table()?;
        kind.of(table, noted, place)
    }

    fn snapshot(&mut self) -> Result<Place, Fault> {
        let text = self.text(TextKind::Whole);
        let (State::Kept(recovery), Source::Directory { directory, .. }) = (&self.state, &self.source) else {
            return text.and(Err("nothing is kept".to_owned()));
        };
        let path = directory.snapshot(recovery.place.entries);
        directory.write(&path, &[&text?]).map_err(fault_at(&path))?;
        Ok(recovery.place)
    }
}

/// The head of what is not kept, for its checksum alone.
pub fn loose_blocks(pid_max: u32) -> Result<Blocks, pidtab::Error> {
    let head = Head { pid_max, workers: SEATS, first_stamp: 1 };
    Blocks::begin(&head, &mut Vec::new())
}

fn begin_loose(pid_max: u32, text: Option<Vec<u8>>) -> State {
    let begun = match text {
        Some(text) => loose_of(&text),
        None => {
            Table::open(pid_max).map_err(|error| error.to_string()).map(|it| (it, Noted::default(), Place::default()))
        }
    };
    match (begun, loose_blocks(pid_max)) {
        (Ok((table, noted, place)), Ok(blocks)) => State::Loose(Box::new(Loose { table, noted, blocks, place })),
        (Err(fault), _) => State::Failed(fault),
        (_, Err(error)) => State::Failed(error.to_string()),
    }
}

fn loose_of(text: &[u8]) -> Result<(Table, Noted, Place), Fault> {
    let read = snapshot::read(text)?;
    let table = Table::from_dump(read.table).map_err(|fault| fault.to_string())?;
    Ok((table, Noted::of(&read.facts), read.place))
}
