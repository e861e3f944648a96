//! SUBSCRIBE .. FROM: the events of calls that were made before, which the second table's thread makes again of the newest snapshot and the log behind it.
use crate::book::Book;
use crate::conn::{Conn, Pause};
use crate::directory::Fault;
use crate::entry::Entry;
use crate::events::{self, Channel};
use crate::replica::Asker;
use crate::resp::Answer;
use crate::service::Service;
use pidtab::{Call, Table};

/// No answer has more bytes of messages.
const MOST_OUTPUT: usize = 32 << 20;

/// What a client wants to hear of.
#[derive(Clone)]
pub struct Recall {
    pub asker: Asker,
    pub user: u32,
    /// The ordinal of the first call, and of the first whose events come by themselves.
    pub from: u64,
    pub to: u64,
    pub channels: Vec<Channel>,
}

/// The channels are told when the events from before are there; what comes meanwhile is held.
pub struct Recalling {
    /// So many channels the client had before.
    pub had: usize,
    pub held: Vec<u8>,
}

/// Looks at calls that are made again.
pub struct Watcher {
    book: Book,
    recall: Recall,
    out: Vec<u8>,
}

impl Watcher {
    /// At a table as the snapshot has it, after so many calls.
    pub fn begin(table: &Table, calls: u64, recall: Recall) -> Result<Watcher, Fault> {
        if recall.from < calls {
            return Err(kept_from(calls));
        }
        let listing = table.listing().map_err(|error| error.to_string())?;
        Ok(Watcher { book: Book::of(&listing), recall, out: Vec::new() })
    }

    /// Before the call with the ordinal.
    pub fn foresee(&mut self, table: &Table, call: Call, ordinal: u64) {
        self.book.is_watched = (self.recall.from..self.recall.to).contains(&ordinal);
        self.book.foresee(table, call);
    }

    /// Behind it.
    pub fn note(&mut self, table: &Table, entry: &Entry, ordinal: u64) {
        let Entry::Call { made, .. } = entry else { return };
        self.book.note(table, made.call, &made.reply, ordinal + 1);
        self.book.stirred.clear();
        for event in self.book.events.drain(..) {
            if self.out.len() <= MOST_OUTPUT {
                events::tell(&mut self.out, &self.recall.channels, &event, &events::payload(&event));
            }
        }
    }

    /// All messages.
    pub fn end(self) -> Result<Vec<u8>, Fault> {
        if self.out.len() > MOST_OUTPUT {
            return Err("there are too many events: subscribe from a later call on, or to fewer channels".to_owned());
        }
        Ok(self.out)
    }
}

fn kept_from(calls: u64) -> Fault {
    format!("events are kept from call {calls} on")
}

impl Service {
    /// Why the events from that call on cannot be told.
    pub fn refusal_of_recall(&self, conn: &Conn, from: u64) -> Option<Fault> {
        let (made, kept) =
            (self.engine.made, if self.engine.log.is_some() { self.engine.snapshot } else { self.engine.made });
        if from > made {
            return Some(format!("-ERR there are {made} calls"));
        }
        if from < kept {
            return Some(format!("-ERR {}", kept_from(kept)));
        }
        let is_busy = conn.is_guest && self.recalls.contains(&conn.user);
        is_busy.then(|| "-BUSY events from before are being read for this user".to_owned())
    }

    /// The channels from that place on are of a client who has to be told what was before.
    pub fn begin_recall(&mut self, conn: &mut Conn, had: usize, from: u64) {
        let (asker, user, channels) = ((conn.token, conn.id), conn.user, conn.channels[had..].iter());
        let channels = channels.map(|it| it.clone().since(from)).collect();
        conn.recalling = Some(Recalling { had, held: Vec::new() });
        conn.pause = Pause::Recalls;
        self.recalls.push(user);
        self.wanted_recalls.push(Recall { asker, user, from, to: self.engine.made, channels });
    }

    /// All that was recorded is written: the log has the calls before.
    pub fn order_recalls(&mut self) {
        for recall in std::mem::take(&mut self.wanted_recalls) {
            self.engine.order_recall(recall);
        }
    }

    /// The messages are there, or a fault; who is gone has none.
    pub fn end_recall(&mut self, (token, id): Asker, user: u32, told: Result<Vec<u8>, Fault>) {
        let place = self.recalls.iter().position(|it| *it == user);
        if let Some(place) = place {
            self.recalls.swap_remove(place);
        }
        let Some(conn) = self.conn(token).filter(|it| it.id == id) else { return };
        let Some(recalling) = conn.recalling.take() else { return };
        conn.pause = Pause::None;
        let mut dropped = 0;
        match told {
            Ok(messages) => {
                events::say_subscribed(&mut conn.out, &conn.channels, recalling.had);
                conn.out.extend_from_slice(&messages);
                conn.out.extend_from_slice(&recalling.held);
            }
            Err(fault) => {
                dropped = conn.channels.len() - recalling.had;
                conn.channels.truncate(recalling.had);
                conn.out.line(&format!("-ERR {}", fault.replace(['\r', '\n'], " ")));
                conn.out.extend_from_slice(&recalling.held);
            }
        }
        self.accounts.gives_channels(user, dropped);
        self.touch(token);
        self.queue(token);
    }
}
