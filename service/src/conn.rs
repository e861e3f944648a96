//! A client: its socket, what it has sent and was not done yet, and what is to be sent to it.
use crate::connections::Roles;
use crate::engine::Text;
use crate::events::Channel;
use crate::options::Rights;
use crate::recall::Recalling;
use crate::replica::TextKind;
use crate::resp::Answer;
use mio::net::UnixStream;
use pidtab::Call;
use std::io::{self, Read, Write};

/// Who has so many bytes unsent is not read from.
pub const MUCH_OUTPUT: usize = 256 << 10;

/// So many bytes of a text are put into the output at a time.
const PIECE: usize = 64 << 10;

/// What a client waits for before its next request is looked at.
pub enum Pause {
    None,
    /// A child, by WAITCHILD.
    Sleeps,
    /// The second table's answer to a query.
    Asks,
    /// The events from before.
    Recalls,
    /// The answer to LIST, DUMP or FOLLOW, which has so many entries at least.
    Awaits {
        kind: TextKind,
        ordinal: u64,
    },
    /// That a text is sent, from that byte on.
    Sends {
        text: Text,
        at: usize,
    },
}

/// The calls of a MULTI, each with whether it is a query.
#[derive(Default)]
pub struct Multi {
    pub calls: Vec<(Call, bool)>,
    pub has_failed: bool,
}

/// A follower: what was recorded behind the text that it has not got yet, or behind what it was sent.
#[derive(Default)]
pub struct Follower {
    pub held: Vec<u8>,
    pub has_text: bool,
    /// What is recorded from now on is for it.
    pub is_begun: bool,
}

/// A lease that a connection has taken: there may be another of that name now.
pub struct Held {
    pub number: u64,
    pub name: Vec<u8>,
}

pub struct Conn {
    pub socket: UnixStream,
    pub token: usize,
    pub id: u64,
    pub seat: u32,
    pub user: u32,
    pub group: u32,
    pub rights: Rights,
    /// What CLIENT SETNAME has given it.
    pub name: Vec<u8>,
    /// Its last command, when it said it, and when it came, in ms.
    pub last: &'static str,
    pub asked: u64,
    pub born: u64,
    pub rest: Vec<u8>,
    pub out: Vec<u8>,
    sent: usize,
    pub pause: Pause,
    pub multi: Option<Multi>,
    pub channels: Vec<Channel>,
    pub recalling: Option<Recalling>,
    pub follower: Option<Follower>,
    pub lease: Option<Held>,
    /// Its next request waits until the disk takes what was recorded.
    pub is_delayed: bool,
    /// Of a user who does not have all of the service.
    pub is_guest: bool,
    /// What it has sent was not looked at to its end, as its user's time was over.
    pub is_cut: bool,
    /// There may be something to read.
    pub is_readable: bool,
    /// The peer says no more.
    pub is_half: bool,
    /// The peer takes no more.
    pub is_hung: bool,
    /// The socket takes no more for now.
    pub is_full: bool,
    /// It is closed at the end of the turn.
    pub is_gone: bool,
    /// It is closed when all was sent.
    pub ends: bool,
    pub is_queued: bool,
    pub is_touched: bool,
    /// Those that are known of it.
    pub roles: Roles,
    /// When output went out last, in ms.
    pub moved: u64,
}

impl Conn {
    pub fn new(socket: UnixStream, token: usize, id: u64, seat: u32, user: u32, rights: Rights, now: u64) -> Conn {
        Conn {
            socket,
            token,
            id,
            seat,
            user,
            group: 0,
            rights,
            name: Vec::new(),
            last: "NULL",
            asked: now,
            born: now,
            rest: Vec::new(),
            out: Vec::new(),
            sent: 0,
            pause: Pause::None,
            multi: None,
            channels: Vec::new(),
            recalling: None,
            follower: None,
            lease: None,
            is_delayed: false,
            is_guest: false,
            is_cut: false,
            is_readable: false,
            is_half: false,
            is_hung: false,
            is_full: false,
            is_gone: false,
            ends: false,
            is_queued: false,
            is_touched: false,
            roles: Roles::default(),
            moved: now,
        }
    }

    pub fn unsent(&self) -> usize {
        self.out.len() - self.sent
    }

    /// Whether its next request may be looked at.
    pub fn is_free(&self) -> bool {
        matches!(self.pause, Pause::None) && !self.is_delayed && !self.ends && self.unsent() < MUCH_OUTPUT
    }

    /// Reads once, up to the room: how many bytes. A short read has taken all that was there.
    pub fn read(&mut self, room: &mut [u8]) -> usize {
        match self.socket.read(room) {
            Ok(0) => {
                (self.is_readable, self.ends) = (false, true);
                0
            }
            Ok(count) => {
                self.is_readable = count == room.len() || self.is_half;
                count
            }
            Err(error) if error.kind() == io::ErrorKind::Interrupted => 0,
            Err(error) => {
                self.is_readable = false;
                self.is_gone |= error.kind() != io::ErrorKind::WouldBlock;
                0
            }
        }
    }

    /// Sends what there is. Whether the socket takes more, and there is more of a text.
    pub fn send(&mut self, now: u64) -> bool {
        while self.sent < self.out.len() && !self.is_gone {
            match self.socket.write(&self.out[self.sent..]) {
                Ok(count) if count > 0 => {
                    self.sent += count;
                    self.moved = now;
                }
                Err(error) if error.kind() == io::ErrorKind::Interrupted => {}
                Err(error) if error.kind() == io::ErrorKind::WouldBlock => return false,
                _ => self.is_gone = true,
            }
        }
        self.out.clear();
        self.out.shrink_to(PIECE);
        self.sent = 0;
        self.take_piece()
    }

    /// The next piece of the text that is being sent, if one is. Behind the last one the client goes on.
    fn take_piece(&mut self) -> bool {
        let Pause::Sends { text, at } = &mut self.pause else { return false };
        let end = text.len().min(*at + PIECE);
        self.out.extend_from_slice(&text[*at..end]);
        *at = end;
        if end == text.len() {
            self.out.extend_from_slice(b"\r\n");
            self.pause = Pause::None;
            self.end_text();
        }
        true
    }

    /// What a follower was not sent, as it had no text yet.
    fn end_text(&mut self) {
        if let Some(follower) = &mut self.follower {
            follower.has_text = true;
            self.out.append(&mut follower.held);
        }
    }

    /// Begins to send a text, in pieces.
    pub fn begin_text(&mut self, text: Text) {
        self.out.head(b'$', text.len() as u64);
        self.pause = Pause::Sends { text, at: 0 };
    }

    /// Blocks of the log, for a follower.
    pub fn stream(&mut self, blocks: &[u8]) {
        let Some(follower) = self.follower.as_mut().filter(|it| it.is_begun) else { return };
        let to = if follower.has_text { &mut self.out } else { &mut follower.held };
        to.bulk(blocks);
    }

    /// So many bytes wait for it.
    pub fn waiting(&self) -> usize {
        let held = self.recalling.as_ref().map_or(0, |it| it.held.len());
        self.unsent() + held + self.follower.as_ref().map_or(0, |it| it.held.len())
    }

    /// Where messages go: behind those from before, if these are waited for.
    pub fn messages(&mut self) -> (&mut Vec<u8>, &[Channel]) {
        let to = self.recalling.as_mut().map_or(&mut self.out, |it| &mut it.held);
        (to, &self.channels)
    }
}
