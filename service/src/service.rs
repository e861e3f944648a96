//! The sockets, in one thread. A turn: what has come is read and done, what was recorded is written in one go, and then the answers go out.
use crate::accounts::{Accounts, MOST_OUTPUT};
use crate::allowed::{group_of_user, Allowed};
use crate::commands::{find, Command};
use crate::conn::{Conn, Pause, MUCH_OUTPUT};
use crate::connections::Connections;
use crate::directory::Fault;
use crate::engine::{Engine, Text};
use crate::events;
use crate::facts::Fact;
use crate::haste::{Haste, LOOK};
use crate::leader::Leader;
use crate::log::Committed;
use crate::options::{Options, Rights};
use crate::recall::Recall;
use crate::replica::{Report, TextKind};
use crate::resp::{Answer, Reader, LONGEST_REQUEST};
use crate::sleepers::Sleepers;
use crate::slowlog::Slowlog;
use mio::event::Event;
use mio::net::{UnixListener, UnixStream};
use mio::{Events, Interest, Poll, Token, Waker};
use nix::sys::socket::{getsockopt, sockopt::PeerCredentials};
use std::fs::File;
use std::io::{self, Read, Write};
use std::os::fd::AsRawFd;
use std::sync::{Arc, Weak};
use std::time::{Duration, Instant};

/// So many bytes are read of a client in a turn.
const READ_AT_ONCE: usize = 16 << 10;

/// The first tokens are not those of clients.
const SIGNAL: Token = Token(0);
const WAKE: Token = Token(1);
pub const LEADER: Token = Token(2);
const RELOAD: Token = Token(3);
const LISTENERS: usize = 4;
const CLIENTS: usize = 16;

/// So often it is looked at the clock, in ms.
const TICK: u64 = 100;

/// A table with so few tasks is copied in the loop, some 0.2 ms, as no other client notices.
const FEW_TASKS: usize = 200;

/// So many bytes are sent to guests in a turn, and the rest of one that is begun.
const SENT_TO_GUESTS: usize = 256 << 10;

/// A follower that is so many bytes behind is closed.
const FAR_BEHIND: usize = 256 << 20;

/// So long a disk that is full is waited for at the end.
const LAST_WAIT: Duration = Duration::from_secs(5);

#[derive(Default)]
pub struct Figures {
    pub accepted: u64,
    pub turned_away: u64,
    pub calls: u64,
    pub refused: u64,
    pub faults: u64,
    pub stalled: u64,
    /// Closed, as their users had too much output together.
    pub heavy: u64,
    pub clients: usize,
    pub followers: usize,
    pub seated: [usize; crate::directory::SEATS as usize],
}

pub struct Service {
    pub options: Options,
    pub engine: Engine,
    pub figures: Figures,
    pub sleepers: Sleepers,
    pub accounts: Accounts,
    pub slowlog: Slowlog,
    pub leader: Option<Leader>,
    pub is_ending: bool,
    pub now: u64,
    started: Instant,
    haste: Haste,
    poll: Poll,
    waker: Arc<Waker>,
    signals: Signals,
    listeners: Vec<UnixListener>,
    is_calling: bool,
    clients: Connections,
    disk: Disk,
    ticked: u64,
    input: Vec<u8>,
    pub reader: Reader,
    spare: Option<File>,
    texts: Texts,
    /// The users whose connections wait for events from before, and what was not ordered yet.
    pub recalls: Vec<u32>,
    pub wanted_recalls: Vec<Recall>,
}

/// The last text of each kind, and all that are being sent.
#[derive(Default)]
struct Texts {
    last: [Option<(u64, Text)>; 3],
    alive: Vec<Weak<Vec<u8>>>,
    /// Whether one is wanted that was not ordered yet, and whether one is in work. Who comes meanwhile waits for the next: so all who wait for a text have
    /// one.
    wanted: [bool; 3],
    ordered: [bool; 3],
}

impl Texts {
    /// Those that are not of now.
    fn forget(&mut self, entries: u64) {
        for last in &mut self.last {
            last.take_if(|it| it.0 != entries);
        }
    }

    fn bytes(&mut self) -> usize {
        self.alive.retain(|it| it.strong_count() > 0);
        self.alive.iter().filter_map(|it| it.upgrade()).map(|it| it.len()).sum()
    }
}

/// What waits for the disk.
#[derive(Default)]
struct Disk {
    /// Why it does not take what was recorded, while it does not.
    stuck: Option<Fault>,
    /// Whose answers wait for that, and whose requests.
    held: Vec<usize>,
    delayed: Vec<usize>,
}

/// What comes of the signals that end the service, and of the one that has it read its rights again.
pub struct Signals {
    pub end: UnixStream,
    pub reload: UnixStream,
}

/// What wakes the loop from another thread.
pub fn wake_by(waker: &Arc<Waker>) -> impl Fn() + Clone + Send + 'static {
    let waker = Arc::clone(waker);
    move || drop(waker.wake())
}

impl Service {
    /// The signals come as bytes of a stream once the directory was read; until then they end the process.
    pub fn begin(
        options: Options,
        listeners: Vec<UnixListener>,
        signals: fn() -> Result<Signals, Fault>,
    ) -> Result<Service, Fault> {
        let fault = |error: io::Error| format!("the loop cannot begin: {error}");
        let poll = Poll::new().map_err(fault)?;
        let waker = Arc::new(Waker::new(poll.registry(), WAKE).map_err(fault)?);
        let engine = Engine::open(options.keep.clone(), wake_by(&waker))?;
        let mut service = Service {
            engine,
            figures: Figures::default(),
            sleepers: Sleepers::default(),
            accounts: Accounts::of(&options),
            slowlog: Slowlog::new(options.slower_than),
            leader: options.follow.clone().map(Leader::of),
            is_ending: false,
            now: 0,
            started: Instant::now(),
            haste: Haste::default(),
            poll,
            waker,
            signals: signals()?,
            listeners,
            is_calling: false,
            clients: Connections::default(),
            disk: Disk::default(),
            ticked: 0,
            input: vec![0; LONGEST_REQUEST + READ_AT_ONCE],
            reader: Reader::default(),
            spare: File::open("/dev/null").ok(),
            texts: Texts::default(),
            recalls: Vec::new(),
            wanted_recalls: Vec::new(),
            options,
        };
        service.watch().map_err(fault)?;
        service.refusal_of(&service.options.allowed).map_or(Ok(service), Err)
    }

    fn watch(&mut self) -> io::Result<()> {
        let registry = self.poll.registry();
        registry.register(&mut self.signals.end, SIGNAL, Interest::READABLE)?;
        registry.register(&mut self.signals.reload, RELOAD, Interest::READABLE)?;
        for (place, listener) in self.listeners.iter_mut().enumerate() {
            registry.register(listener, Token(LISTENERS + place), Interest::READABLE)?;
        }
        Ok(())
    }

    /// Serves until a signal or SHUTDOWN.
    pub fn run(&mut self) -> Result<(), Fault> {
        let mut events = Events::with_capacity(256);
        while !self.is_ending {
            self.turn(&mut events)?;
        }
        self.finish()
    }

    fn turn(&mut self, events: &mut Events) -> Result<(), Fault> {
        let is_busy = self.is_calling || !self.clients.ready.is_empty();
        let wait = if is_busy { 0 } else { self.wait() };
        self.await_events(events, wait)?;
        for event in events.iter() {
            self.take_event(event);
        }
        self.tick()?;
        self.work();
        self.settle()?;
        if self.is_calling {
            self.accept_some();
        }
        self.clients.end_turn();
        Ok(())
    }

    /// Waits for events, up to so many ms, and looks at the clock.
    fn await_events(&mut self, events: &mut Events, wait: u64) -> Result<(), Fault> {
        let began = self.started.elapsed();
        let mut now = began;
        let looks = wait > 0 && self.haste.is_worth();
        while looks && now - began < LOOK {
            self.poll_for(events, 0)?;
            now = self.started.elapsed();
            if !events.is_empty() {
                break;
            }
        }
        if looks {
            self.haste.looked(now - began, !events.is_empty());
        }
        if !looks || events.is_empty() {
            self.poll_for(events, wait)?;
            now = self.started.elapsed();
        }
        if wait > 0 && !looks {
            self.haste.slept(now - began);
        }
        self.now = now.as_millis() as u64;
        Ok(())
    }

    fn poll_for(&mut self, events: &mut Events, wait: u64) -> Result<(), Fault> {
        match self.poll.poll(events, Some(Duration::from_millis(wait))) {
            Err(error) if error.kind() != io::ErrorKind::Interrupted => Err(format!("the loop cannot wait: {error}")),
            _ => Ok(()),
        }
    }

    /// How long nothing is due, in ms.
    fn wait(&self) -> u64 {
        let next = self.sleepers.next_deadline().map_or(TICK, |it| it.saturating_sub(self.now));
        next.min(TICK)
    }

    fn take_event(&mut self, event: &Event) {
        match event.token() {
            SIGNAL => self.is_ending = true,
            RELOAD => self.read_rights_again(),
            WAKE => {}
            LEADER => {
                if let Some(leader) = &mut self.leader {
                    leader.is_stirred = true;
                }
            }
            Token(it) if it < CLIENTS => self.is_calling = true,
            Token(it) => self.take_client_event(it - CLIENTS, event),
        }
    }

    fn take_client_event(&mut self, token: usize, event: &Event) {
        let Some(conn) = self.clients.get(token) else { return };
        conn.is_readable |= event.is_readable() || event.is_read_closed();
        conn.is_half |= event.is_read_closed();
        conn.is_hung |= event.is_error() || event.is_write_closed();
        if event.is_writable() && conn.waiting() > 0 {
            self.touch(token);
        }
        self.queue(token);
    }

    /// The client is looked at in this turn, or the next.
    pub fn queue(&mut self, token: usize) {
        self.clients.queue(token);
    }

    /// It is sent what it has.
    pub fn touch(&mut self, token: usize) {
        self.clients.touch(token);
    }

    pub fn conn(&mut self, token: usize) -> Option<&mut Conn> {
        self.clients.get(token)
    }

    /// Each client that is ready is read from once, and its requests are done.
    fn work(&mut self) {
        let ready = std::mem::take(&mut self.clients.ready);
        let is_awaited = ready.iter().any(|it| self.clients.get(*it).is_some_and(|it| !it.is_cut));
        self.accounts.begin_turn(is_awaited);
        for token in ready {
            let Some(mut conn) = self.clients.take(token) else { continue };
            conn.is_queued = false;
            if conn.is_delayed {
                self.clients.put(conn);
                continue;
            }
            conn.is_cut = !self.accounts.begin(conn.user);
            if !conn.is_cut {
                self.serve(&mut conn);
                self.accounts.end(conn.user);
            }
            let goes_on = conn.is_free() && (conn.is_readable || conn.is_cut) && !conn.is_gone;
            let is_touched = conn.waiting() > 0 || conn.ends || conn.is_gone;
            self.disk.delayed.extend(conn.is_delayed.then_some(token));
            self.clients.put(conn);
            if goes_on {
                self.queue(token);
            }
            if is_touched {
                self.touch(token);
            }
        }
    }

    fn serve(&mut self, conn: &mut Conn) {
        // Who is gone gets no answer, and so makes no call by WAITCHILD; what he has sent before is done.
        conn.is_gone |= conn.is_hung && !matches!(conn.pause, Pause::None);
        if conn.is_gone || !conn.is_free() {
            return;
        }
        let mut input = std::mem::take(&mut self.input);
        let mut have = conn.rest.len();
        input[..have].copy_from_slice(&conn.rest);
        if conn.is_readable {
            let room = (have + READ_AT_ONCE).min(input.len());
            have += conn.read(&mut input[have..room]);
        }
        let had_ended = std::mem::replace(&mut conn.ends, false);
        let used = self.run_requests(conn, &input[..have]);
        conn.rest.clear();
        conn.rest.extend_from_slice(&input[used..have]);
        conn.rest.shrink_to(READ_AT_ONCE);
        // Who says no more still gets the answers to what he has said, also behind a pause.
        let is_done = conn.is_free() && !conn.is_cut;
        conn.is_readable |= had_ended && !is_done;
        conn.ends |= had_ended && is_done;
        self.input = input;
    }

    /// The requests of the bytes, while the client is free: how many bytes were taken.
    fn run_requests(&mut self, conn: &mut Conn, bytes: &[u8]) -> usize {
        let mut reader = std::mem::take(&mut self.reader);
        let mut at = 0;
        self.slowlog.begin();
        while at < bytes.len() && conn.is_free() && !conn.is_cut {
            match reader.take(&bytes[at..]) {
                Ok(None) => break,
                Ok(Some(size)) => {
                    let words = reader.words(&bytes[at..]);
                    if self.is_stuck() && find(words.at(0)).is_some_and(Command::waits_for_disk) {
                        conn.is_delayed = true;
                        break;
                    }
                    if words.len() > 0 {
                        self.run_command(conn, words);
                        self.slowlog.note(conn, words);
                    }
                    at += size;
                    self.accounts.count(1);
                    conn.is_cut = self.accounts.is_over();
                }
                Err(fault) => {
                    conn.out.line(&format!("-ERR Protocol error: {fault}"));
                    self.figures.faults += 1;
                    (conn.ends, conn.is_readable) = (true, false);
                    at = bytes.len();
                }
            }
        }
        self.reader = reader;
        if conn.ends {
            return bytes.len();
        }
        at
    }

    /// What was recorded is written, and the answers go out. Where the disk does not take it, nobody is told anything.
    fn settle(&mut self) -> Result<(), Fault> {
        self.wake_sleepers();
        self.publish();
        let was_stuck = self.is_stuck();
        self.commit()?;
        match (was_stuck, self.is_stuck()) {
            (false, true) => self.hold(),
            (true, false) => self.go_on(),
            _ => {}
        }
        if !self.is_stuck() {
            self.stream();
            self.order_texts();
            self.order_recalls();
        }
        let mut room = SENT_TO_GUESTS;
        for token in std::mem::take(&mut self.clients.touched) {
            match self.has_room_for(token, &mut room) {
                true => self.send_to(token),
                false => self.clients.postpone(token),
            }
        }
        Ok(())
    }

    /// Whether it is sent what it has in this turn. Guests have so much room together; who has none comes first in the next turn.
    fn has_room_for(&mut self, token: usize, room: &mut usize) -> bool {
        let Some(conn) = self.clients.get(token).filter(|it| it.is_guest) else { return true };
        let had = *room > 0;
        *room = room.saturating_sub(conn.unsent());
        had
    }

    /// The answers of this turn may be of what is not saved: they wait, and the clients with them. These stay touched, and so are not sent anything.
    fn hold(&mut self) {
        for token in std::mem::take(&mut self.clients.touched) {
            let Some(conn) = self.clients.get(token) else { continue };
            conn.is_delayed = true;
            self.disk.held.push(token);
            self.disk.delayed.push(token);
        }
    }

    /// What has waited for the disk goes on.
    fn go_on(&mut self) {
        self.clients.touched.append(&mut self.disk.held);
        for token in std::mem::take(&mut self.disk.delayed) {
            let Some(conn) = self.clients.get(token) else { continue };
            conn.is_delayed = false;
            self.queue(token);
        }
    }

    fn commit(&mut self) -> Result<(), Fault> {
        let done = self.engine.commit()?;
        match (&done, &self.disk.stuck) {
            (Committed::Waits(why), before) if before.as_ref() != Some(why) => {
                eprintln!("pidtabd: {why}: answers wait until it can be written");
            }
            (Committed::Done, Some(_)) => eprintln!("pidtabd: the disk takes what has waited, and answers go out"),
            _ => {}
        }
        self.disk.stuck = match done {
            Committed::Done => None,
            Committed::Waits(why) => Some(why),
        };
        Ok(())
    }

    fn send_to(&mut self, token: usize) {
        let now = self.now;
        let Some(conn) = self.clients.get(token) else { return };
        conn.is_touched = false;
        let goes_on = conn.send(now);
        let was_full = conn.is_full;
        watch_output(self.poll.registry(), conn);
        let (is_full, has_changed) = (conn.is_full, conn.is_full != was_full);
        if has_changed {
            conn.moved = now;
        }
        if conn.is_gone || (conn.ends && conn.unsent() == 0 && !goes_on) {
            return self.end(token);
        }
        let is_free = conn.is_free() && (conn.is_readable || !conn.rest.is_empty());
        if has_changed {
            self.clients.mark_full(token, is_full);
        }
        if goes_on {
            self.touch(token);
        }
        if goes_on || is_free {
            self.queue(token);
        }
    }

    /// Those that are not being served at the moment.
    pub fn connections(&self) -> impl Iterator<Item = &Conn> {
        self.clients.iter()
    }

    /// The client is gone: its place is free in the next turn, since events of it may be in hand.
    pub fn end(&mut self, token: usize) {
        let Some(mut conn) = self.clients.remove(token) else { return };
        let _ = self.poll.registry().deregister(&mut conn.socket);
        self.sleepers.forget(token);
        self.figures.clients -= 1;
        self.figures.seated[conn.seat as usize] -= 1;
        self.accounts.gone(conn.user, conn.channels.len());
        self.figures.followers -= usize::from(conn.follower.is_some());
        if let Some(held) = &conn.lease {
            self.engine.noted.leases.let_go(held.number, self.now);
        }
    }

    /// Some at a time. Where there is no descriptor left, the spare one takes a client and turns it away, or the loop would spin.
    fn accept_some(&mut self) {
        self.is_calling = false;
        for place in 0..self.listeners.len() {
            let was_last = (0..64).any(|_| !self.accept(place));
            self.is_calling |= !was_last;
        }
    }

    /// Whether there may be more.
    fn accept(&mut self, place: usize) -> bool {
        match self.listeners[place].accept() {
            Ok((socket, _)) => self.adopt(socket),
            Err(error) if is_no_descriptor(&error) => return self.turn_one_away(place),
            Err(error) => return error.kind() == io::ErrorKind::Interrupted,
        }
        true
    }

    /// Whether there was one: without a descriptor an accept fails also where nobody waits.
    fn turn_one_away(&mut self, place: usize) -> bool {
        self.spare = None;
        let caller = self.listeners[place].accept();
        if let Ok((socket, _)) = &caller {
            self.turn_away(socket, "-ERR max number of clients reached\r\n");
        }
        let was_there = caller.is_ok();
        drop(caller);
        self.spare = File::open("/dev/null").ok();
        was_there
    }

    fn turn_away(&mut self, mut socket: &UnixStream, why: &str) {
        self.figures.turned_away += 1;
        let _ = socket.write(why.as_bytes());
    }

    /// A new client, if there is room and he may come.
    fn adopt(&mut self, mut socket: UnixStream) {
        if self.figures.clients >= self.options.most_clients {
            return self.turn_away(&socket, "-ERR max number of clients reached\r\n");
        }
        let peer = getsockopt(socket.as_raw_fd(), PeerCredentials).map(|it| (it.uid(), it.gid()));
        let known = peer.ok().and_then(|it| Some((it, self.allowed_to(it.0, it.1)?)));
        let Some(((user, group), rights)) = known else {
            return self.turn_away(&socket, "-NOPERM this user may not connect\r\n");
        };
        if let Some(why) = self.accounts.refuses(user, self.figures.clients) {
            return self.turn_away(&socket, why);
        }
        let token = self.clients.next_token();
        if self.poll.registry().register(&mut socket, Token(CLIENTS + token), Interest::READABLE).is_err() {
            return self.clients.give_back(token);
        }
        let seat = self.emptiest_seat();
        let mut conn = Box::new(Conn::new(socket, token, self.figures.accepted + 1, seat, user, rights, self.now));
        conn.group = group;
        conn.is_guest = self.accounts.is_guest(user);
        self.accounts.connected(user);
        self.figures.seated[seat as usize] += 1;
        self.figures.clients += 1;
        self.figures.accepted += 1;
        self.clients.add(conn);
    }

    /// What a user may do who need not be connected.
    fn rights_of(&self, user: u32) -> Rights {
        if self.options.allowed.is_open() {
            return Rights::All;
        }
        let group = group_of_user(user).unwrap_or(u32::MAX);
        self.allowed_to(user, group).unwrap_or(Rights::Asks)
    }

    /// What a user of that group may do now; none: he may not connect.
    fn allowed_to(&self, user: u32, group: u32) -> Option<Rights> {
        let (names, book) = (&self.engine.noted.names, &self.engine.book);
        self.options.allowed.rights_of(user, group, |path| names.find(path, book))
    }

    /// An id that no cgroup has would be that of whoever makes the call with its number. A path means a cgroup once one has it, which is said.
    fn refusal_of(&self, allowed: &Allowed) -> Option<Fault> {
        let (names, book) = (&self.engine.noted.names, &self.engine.book);
        for path in allowed.paths().filter(|it| names.find(it.1, book).is_none()) {
            eprintln!("pidtabd: {}: there is no cgroup {} yet, and who is below it makes no call", path.0, path.1);
        }
        let (place, id) = allowed.controls().find(|it| !book.has_control(it.1))?;
        Some(format!("{place}: there is no cgroup {id}"))
    }

    /// SIGHUP: the rights as their file has them now, also of who is connected. One that is wrong changes nothing.
    fn read_rights_again(&mut self) {
        let mut room = [0; 64];
        while matches!(self.signals.reload.read(&mut room), Ok(count) if count > 0) {}
        let read = self.options.allowed.again();
        let read = read.and_then(|it| self.refusal_of(&it).map_or(Ok(it), Err));
        match read {
            Ok(allowed) => {
                let path = allowed.file().map_or(String::new(), |it| it.display().to_string());
                self.options.allowed = allowed;
                self.give_rights();
                eprintln!("pidtabd: {path}: the rights are those of the file again");
            }
            Err(why) => eprintln!("pidtabd: {why}: the rights stay as they were"),
        }
    }

    /// Those that they have now, to all who are connected.
    pub fn give_rights(&mut self) {
        for token in self.clients.tokens() {
            let Some((user, group)) = self.clients.get(token).map(|it| (it.user, it.group)) else { continue };
            let rights = self.allowed_to(user, group);
            let Some(conn) = self.clients.get(token) else { continue };
            match rights {
                Some(rights) => conn.rights = rights,
                None => self.end(token),
            }
        }
    }

    fn emptiest_seat(&self) -> u32 {
        let seats = self.figures.seated.iter().enumerate();
        seats.min_by_key(|it| it.1).map_or(0, |it| it.0 as u32)
    }

    /// What is due by the clock, and what other threads have done.
    fn tick(&mut self) -> Result<(), Fault> {
        while let Some(report) = self.engine.take_report() {
            match report {
                Report::Text { kind, ordinal, text } => {
                    self.texts.ordered[kind as usize] = false;
                    self.deliver(kind, ordinal, text);
                }
                Report::Told { asker, told } => self.tell(asker, told),
                Report::Recalled { asker, user, told } => self.end_recall(asker, user, told),
                Report::Named { .. } | Report::Snapshot(_) | Report::Dropped(_) => {}
            }
        }
        self.follow_leader()?;
        self.engine.tick()?;
        if self.now - self.ticked >= TICK {
            self.ticked = self.now;
            self.texts.forget(self.engine.entries);
            self.end_leases();
            self.close_stalled();
            self.close_heavy();
        }
        Ok(())
    }

    /// Who has not taken an answer for long is closed; who is silent is not.
    fn close_stalled(&mut self) {
        let (now, stall) = (self.now, self.options.stall * 1000);
        let mut stalled = Vec::new();
        for token in self.clients.full() {
            let Some(conn) = self.clients.get(token) else { continue };
            if conn.unsent() == 0 || self.disk.stuck.is_some() {
                conn.moved = now;
            } else if now - conn.moved > stall || conn.waiting() > FAR_BEHIND {
                stalled.push(conn.token);
            }
        }
        self.figures.stalled += stalled.len() as u64;
        stalled.into_iter().for_each(|it| self.end(it));
    }

    /// So much has been put into the output of guests: if it is much, it is looked at whose is too much, and not only by the clock.
    fn pour(&mut self, bytes: usize) {
        if self.accounts.pours(bytes) {
            self.close_heavy();
        }
    }

    /// Of guests whose output is too much together, those connections go that have most.
    fn close_heavy(&mut self) {
        let guests = self.clients.owed().filter(|it| it.is_guest && it.waiting() > 0);
        let mut heavy: Vec<_> = guests.map(|it| (it.user, it.waiting(), it.token)).collect();
        heavy.sort_unstable();
        let (mut user, mut sum) = (None, 0);
        heavy.retain(|it| {
            sum = if user.replace(it.0) == Some(it.0) { sum + it.1 } else { it.1 };
            sum > MOST_OUTPUT
        });
        self.figures.heavy += heavy.len() as u64;
        heavy.into_iter().for_each(|it| self.end(it.2));
    }

    /// The tasks of leases whose time is over end, as if killed, where their users may still end them. The end of a lease is recorded behind the exits: so a
    /// crash leaves no task that lives on without it.
    fn end_leases(&mut self) {
        if self.leader.is_some() || self.is_stuck() {
            return;
        }
        for (number, user, tasks) in self.engine.noted.leases.over(self.now) {
            let rights = self.rights_of(user);
            tasks.iter().for_each(|it| self.kill(rights, *it));
            if self.options.reaps {
                self.reap(&tasks);
            }
            self.engine.record(&Fact::End { number });
        }
    }

    /// Events go to those who have subscribed.
    fn publish(&mut self) {
        let happened = std::mem::take(&mut self.engine.book.events);
        if happened.is_empty() {
            return;
        }
        let those = self.clients.subscribers();
        // Events are kept while somebody wants them.
        self.engine.book.is_watched = !those.is_empty();
        let payloads: Vec<_> = happened.iter().map(|it| (it, events::payload(it))).collect();
        let mut poured = 0;
        for token in those {
            let Some(conn) = self.clients.get(token) else { continue };
            let (is_guest, (out, channels)) = (conn.is_guest, conn.messages());
            let before = out.len();
            payloads.iter().for_each(|(event, payload)| events::tell(out, channels, event, payload));
            if out.len() > before {
                poured += usize::from(is_guest) * (out.len() - before);
                self.touch(token);
            }
        }
        self.pour(poured);
    }

    /// Followers get what was written in this turn, and the head of a new log.
    fn stream(&mut self) {
        let (blocks, head) = self.engine.take_written();
        if self.figures.followers == 0 {
            return self.engine.give_back(blocks);
        }
        let mut poured = 0;
        for token in self.clients.followers() {
            let Some(conn) = self.clients.get(token) else { continue };
            let parts = [&blocks[..], &head[..]];
            parts.iter().filter(|it| !it.is_empty()).for_each(|it| conn.stream(it));
            poured += usize::from(conn.is_guest) * blocks.len();
            self.touch(token);
        }
        self.engine.give_back(blocks);
        self.pour(poured);
    }

    /// LIST, DUMP and FOLLOW: the text of now. A client waits for it, and nobody else does.
    pub fn want_text(&mut self, conn: &mut Conn, kind: TextKind) {
        if self.texts.bytes() > self.options.most_output {
            return conn.out.line("-BUSY too much output is waiting");
        }
        let ordinal = self.engine.entries;
        conn.pause = Pause::Awaits { kind, ordinal };
        self.texts.wanted[kind as usize] = true;
    }

    /// All that was recorded is written: the texts that are wanted are those of now.
    fn order_texts(&mut self) {
        for kind in TextKind::ALL {
            let place = kind as usize;
            if self.texts.ordered[place] || !std::mem::take(&mut self.texts.wanted[place]) {
                continue;
            }
            self.begin_followers(kind);
            let entries = self.engine.entries;
            let last = self.texts.last[place].take().filter(|it| it.0 == entries);
            if let Some((ordinal, text)) = last {
                self.deliver(kind, ordinal, Ok(text));
            } else if self.engine.book.tasks() <= FEW_TASKS {
                let text = self.engine.text(kind).map(Arc::new);
                self.deliver(kind, entries, text);
            } else {
                self.engine.order_text(kind);
                self.texts.ordered[place] = true;
            }
        }
    }

    /// A follower gets what is recorded behind its text.
    fn begin_followers(&mut self, kind: TextKind) {
        let (sum, ordinal) = (self.engine.sum(), self.engine.entries);
        for token in self.clients.followers() {
            let Some(conn) = self.clients.get(token) else { continue };
            let Pause::Awaits { kind: wanted, .. } = conn.pause else { continue };
            if let Some(follower) = conn.follower.as_mut().filter(|it| !it.is_begun && wanted == kind) {
                follower.is_begun = true;
                conn.pause = Pause::Awaits { kind, ordinal };
                follower.held.bulk(format!("{sum:016x}").as_bytes());
            }
        }
    }

    /// The text goes to those who wait for it. One that was asked for behind its ordinal waits for the next.
    fn deliver(&mut self, kind: TextKind, ordinal: u64, text: Result<Text, Fault>) {
        if let Ok(text) = &text {
            self.texts.alive.push(Arc::downgrade(text));
            self.texts.last[kind as usize] = Some((ordinal, Arc::clone(text)));
        }
        for token in self.clients.awaiting() {
            let Some(conn) = self.clients.get(token) else { continue };
            match conn.pause {
                Pause::Awaits { kind: it, ordinal: wanted } if it == kind && wanted <= ordinal => {}
                _ => continue,
            }
            if conn.follower.as_ref().is_some_and(|it| !it.is_begun) {
                continue;
            }
            match &text {
                Ok(text) => conn.begin_text(Arc::clone(text)),
                Err(fault) => {
                    conn.pause = Pause::None;
                    conn.out.line(&format!("-ERR no text: {}", fault.replace(['\r', '\n'], " ")));
                    conn.ends |= conn.follower.is_some();
                }
            }
            self.touch(token);
            self.queue(token);
        }
    }

    /// The table is another: the texts that were ordered of the one before never come, and who follows asks anew.
    pub fn renew(&mut self) {
        (self.texts.last, self.texts.ordered) = ([None, None, None], [false; 3]);
        self.recalls.clear();
        self.wanted_recalls.clear();
        for token in self.clients.tokens() {
            let Some(conn) = self.conn(token) else { continue };
            conn.is_gone |= conn.follower.is_some();
            match conn.pause {
                Pause::Awaits { kind, .. } => self.texts.wanted[kind as usize] = true,
                Pause::Recalls => {
                    let (asker, user) = ((token, conn.id), conn.user);
                    self.end_recall(asker, user, Err("the table is taken anew".to_owned()));
                }
                Pause::Asks => {
                    conn.pause = Pause::None;
                    conn.out.line("-BUSY the table is taken anew");
                    self.queue(token);
                }
                _ => {}
            }
            self.touch(token);
        }
    }

    pub fn waker(&self) -> &Arc<Waker> {
        &self.waker
    }

    pub fn registry(&self) -> &mio::Registry {
        self.poll.registry()
    }

    pub fn uptime(&self) -> u64 {
        self.started.elapsed().as_secs()
    }

    pub fn stuck_by(&self) -> Option<&str> {
        self.disk.stuck.as_deref()
    }

    /// How many bytes the follower that is the farthest behind was not sent.
    pub fn follower_lag(&self) -> usize {
        let followers = self.clients.owed().filter(|it| it.follower.is_some());
        followers.map(|it| it.waiting()).max().unwrap_or(0)
    }

    pub fn is_stuck(&self) -> bool {
        self.disk.stuck.is_some()
    }

    /// What was recorded is saved, and its clients are told, if they read. A disk that is full is waited for a while.
    fn finish(&mut self) -> Result<(), Fault> {
        let began = Instant::now();
        self.settle()?;
        while self.is_stuck() && began.elapsed() < LAST_WAIT {
            std::thread::sleep(Duration::from_millis(TICK));
            self.settle()?;
        }
        self.engine.close()
    }
}

/// Whether the socket takes more is asked while it has not taken all: else each answer that is read would wake the loop.
fn watch_output(registry: &mio::Registry, conn: &mut Conn) {
    let is_full = conn.unsent() > 0 && !conn.is_gone;
    if is_full == conn.is_full {
        return;
    }
    let interests = if is_full { Interest::READABLE | Interest::WRITABLE } else { Interest::READABLE };
    let token = Token(CLIENTS + conn.token);
    conn.is_gone |= registry.reregister(&mut conn.socket, token, interests).is_err();
    conn.is_full = is_full;
}

fn is_no_descriptor(error: &io::Error) -> bool {
    use nix::errno::Errno;
    let errnos = [Errno::EMFILE, Errno::ENFILE].map(|it| it as i32);
    error.raw_os_error().is_some_and(|it| errnos.contains(&it))
}

/// A client with more output than that is not read from, so few answers are lost with it.
const _: () = assert!(MUCH_OUTPUT > READ_AT_ONCE);
