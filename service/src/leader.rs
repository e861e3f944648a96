//! A follower's side: it asks a leader for its table, and makes each call that the leader records.
use crate::directory::{is_identity, Fault};
use crate::service::{wake_by, Service, LEADER};
use crate::snapshot::{self, Place};
use mio::net::UnixStream;
use mio::Interest;
use pidtab::Blocks;
use std::io::{self, Read, Write};
use std::path::PathBuf;

/// So long behind a failure it is tried again, in ms.
const PAUSE: u64 = 500;

/// So many bytes are read in a turn at most.
const READ_AT_ONCE: usize = 4 << 20;

/// The first byte of a head, which no entry has: the number of an operation.
const FIRST_OF_HEAD: u8 = 0x89;

pub struct Leader {
    pub path: PathBuf,
    pub is_stirred: bool,
    pub has_text: bool,
    pub fault: Option<Fault>,
    socket: Option<UnixStream>,
    again_at: u64,
    input: Vec<u8>,
    state: State,
}

/// What comes next: the identity, the text, the checksum to go on from, or blocks.
enum State {
    Identity,
    Text(String),
    Sum,
    Blocks(Blocks),
}

impl Leader {
    pub fn of(path: PathBuf) -> Leader {
        Leader {
            path,
            is_stirred: true,
            has_text: false,
            fault: None,
            socket: None,
            again_at: 0,
            input: Vec::new(),
            state: State::Identity,
        }
    }

    /// Whether the leader is there.
    pub fn is_up(&self) -> bool {
        self.socket.is_some()
    }

    fn fail(&mut self, why: Fault, now: u64) {
        if self.fault.as_ref() != Some(&why) {
            eprintln!("pidtabd: {}: {why}", self.path.display());
        }
        (self.fault, self.socket, self.again_at) = (Some(why), None, now + PAUSE);
        self.input.clear();
        self.state = State::Identity;
    }

    fn connect(&mut self, registry: &mio::Registry) -> io::Result<()> {
        let mut socket = UnixStream::connect(&self.path)?;
        registry.register(&mut socket, LEADER, Interest::READABLE)?;
        socket.write_all(b"PIDTAB.FOLLOW IDENTITY\r\n")?;
        (self.socket, self.is_stirred) = (Some(socket), true);
        Ok(())
    }

    /// Reads what is there, up to a bound. An end is a fault.
    fn read(&mut self) -> io::Result<()> {
        let Some(socket) = &mut self.socket else { return Ok(()) };
        let mut room = [0; 1 << 16];
        let mut left = READ_AT_ONCE;
        while left > 0 {
            match socket.read(&mut room) {
                Ok(0) => return Err(io::ErrorKind::UnexpectedEof.into()),
                Ok(count) => {
                    self.input.extend_from_slice(&room[..count]);
                    left = left.saturating_sub(count);
                }
                Err(error) if error.kind() == io::ErrorKind::Interrupted => {}
                Err(error) if error.kind() == io::ErrorKind::WouldBlock => {
                    self.is_stirred = false;
                    return Ok(());
                }
                Err(error) => return Err(error),
            }
        }
        Ok(())
    }

    /// The next bulk string, if it is whole: where it begins and ends in the input.
    fn next_bulk(&self, at: usize) -> Result<Option<(usize, usize)>, Fault> {
        let rest = &self.input[at..];
        let Some(end) = rest.iter().take(64).position(|it| *it == b'\n') else {
            return if rest.len() < 64 { Ok(None) } else { Err("the leader speaks another language".to_owned()) };
        };
        let line = String::from_utf8_lossy(&rest[..end]);
        let line = line.trim_end();
        let Some(length) = line.strip_prefix('$').and_then(|it| it.parse::<usize>().ok()) else {
            return Err(format!("the leader says {line}"));
        };
        let from = at + end + 1;
        Ok((self.input.len() >= from + length + 2).then_some((from, from + length)))
    }
}

impl Service {
    /// What the leader has sent.
    pub fn follow_leader(&mut self) -> Result<(), Fault> {
        if self.is_stuck() {
            return Ok(());
        }
        let Some(mut leader) = self.leader.take() else { return Ok(()) };
        let now = self.now;
        if leader.socket.is_none() && now >= leader.again_at {
            if let Err(error) = leader.connect(self.registry()) {
                leader.fail(error.to_string(), now);
            }
        }
        if leader.is_stirred && leader.socket.is_some() {
            let read = leader.read();
            let done = self.take_bulks(&mut leader);
            if let Err(why) = done.and(read.map_err(|error| error.to_string())) {
                leader.fail(why, now);
            }
        }
        self.leader = Some(leader);
        Ok(())
    }

    fn take_bulks(&mut self, leader: &mut Leader) -> Result<(), Fault> {
        let mut at = 0;
        while let Some((from, to)) = leader.next_bulk(at)? {
            self.take_bulk(leader, from, to)?;
            at = to + 2;
        }
        leader.input.drain(..at);
        leader.input.shrink_to(READ_AT_ONCE);
        Ok(())
    }

    fn take_bulk(&mut self, leader: &mut Leader, from: usize, to: usize) -> Result<(), Fault> {
        let bytes = &leader.input[from..to];
        leader.state = match &mut leader.state {
            State::Identity => State::Text(self.compare_identity(bytes)?),
            State::Text(identity) => {
                // Until the table is there whole, a TAKEOVER would serve one whose files are those of another.
                leader.has_text = false;
                self.engine.take_identity(identity)?;
                self.adopt_text(bytes)?;
                State::Sum
            }
            State::Sum => {
                let sum = std::str::from_utf8(bytes).ok().and_then(|it| u64::from_str_radix(it, 16).ok());
                (leader.has_text, leader.fault) = (true, None);
                State::Blocks(Blocks::behind(sum.ok_or("the leader's checksum is none")?))
            }
            State::Blocks(blocks) => {
                let mut blocks = *blocks;
                self.follow_blocks(&mut blocks, bytes)?;
                State::Blocks(blocks)
            }
        };
        Ok(())
    }

    /// A table of its own is not overwritten by another one.
    fn compare_identity(&self, word: &[u8]) -> Result<String, Fault> {
        let identity =
            std::str::from_utf8(word).ok().filter(|it| is_identity(it)).ok_or("the leader has no identity")?;
        let (made, own) = (self.engine.made, &self.engine.identity);
        if made > 0 && own != identity {
            return Err(format!(
                "the leader has another table, {identity}, and this has {made} calls of {own}: it is not overwritten"
            ));
        }
        Ok(identity.to_owned())
    }

    /// A directory that is ahead of its leader, which has lost calls, is not overwritten.
    fn adopt_text(&mut self, text: &[u8]) -> Result<(), Fault> {
        let Place { entries, calls } = snapshot::read(text).map_err(|why| format!("the leader's text {why}"))?.place;
        let (own, made) = (self.engine.entries, self.engine.made);
        if entries < own || calls < made {
            let (theirs, own, what) = if calls < made { (calls, made, "calls") } else { (entries, own, "entries") };
            return Err(format!("the leader has {theirs} {what}, and this has {own}: it is not overwritten"));
        }
        let wake = wake_by(self.waker());
        self.engine.adopt(text, wake)?;
        self.renew();
        Ok(())
    }

    fn follow_blocks(&mut self, blocks: &mut Blocks, bytes: &[u8]) -> Result<(), Fault> {
        if bytes.first() == Some(&FIRST_OF_HEAD) {
            let (_, begun) = Blocks::read_head(bytes).map_err(|fault| fault.to_string())?;
            *blocks = begun;
            return Ok(());
        }
        let mut at = 0;
        while at < bytes.len() {
            at += self.engine.follow(blocks, &bytes[at..])?;
        }
        Ok(())
    }
}
