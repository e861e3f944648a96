//! What each command does.
use crate::accounts::{MOST_LEASES, REQUESTS_AT_ONCE};
use crate::asks::{Answered, Query};
use crate::book::INIT;
use crate::clients::set_name;
use crate::commands::{find, without_prefix, Action, Command, Values, Verb, COMMANDS};
use crate::conn::{Conn, Follower, Held, Multi, Pause};
use crate::directory::{Fault, SEATS};
use crate::events::{self, Channel, MOST_CHANNELS};
use crate::facts::Fact;
use crate::leases::{is_name, read_ttl, Lease};
use crate::names;
use crate::options::Rights;
use crate::replica::{Asker, TextKind};
use crate::resp::{is_word, number, Answer, Words};
use crate::rights::may_make;
use crate::say;
use crate::service::Service;
use crate::sleepers::{must_sleep, no_permission, Sleeper};
use pidtab::{Call, Reply, Which};

/// No MULTI has more calls.
const MOST_QUEUED: usize = 1024;

/// What a task that a lease has ended leaves as its status: that of a shell for one that SIGKILL has ended.
const KILLED: u8 = 137;

const NO_PASSWORDS: &str =
    "-ERR AUTH called without any password configured: the socket's mode and --allow say who may connect";

const NO_CHANNEL: &str = "-ERR a channel is exit, fork or fall, alone or with :space:ID or :control:ID behind";

/// The longest sleep of WAITCHILD, in ms: a day.
const LONGEST_SLEEP: u64 = 86_400_000;

impl Service {
    pub fn run_command(&mut self, conn: &mut Conn, words: Words) {
        if conn.follower.is_some() {
            // An answer would stand among the blocks.
            conn.is_gone = true;
            return;
        }
        let Some(command) = find(words.at(0)) else {
            return self.run_unknown(conn, words.at(0));
        };
        let is_end =
            command.action == Action::Call(Verb::Exec) && words.len() == 1 && without_prefix(words.at(0)).is_none();
        if is_end {
            return self.end_multi(conn);
        }
        (conn.last, conn.asked) = (command.name, self.now);
        let Some(values) = command.read(words) else {
            return self.misused(conn, command);
        };
        if conn.multi.is_some() && !command.is_call() && !is_of_multi(command.action) {
            fail_multi(conn);
            return conn.out.line("-ERR only calls may come in a MULTI");
        }
        if !conn.channels.is_empty() && !is_of_subscriber(command.action) {
            return conn.out.line("-ERR only (P)SUBSCRIBE / (P)UNSUBSCRIBE / PING / QUIT are allowed in this context");
        }
        match command.action {
            Action::Call(verb) => self.run_call(conn, verb.call(&values), verb.asks()),
            Action::Line => self.run_line(conn, command, words.from(1)),
            Action::WaitChild => self.run_wait_child(conn, command, &values, words),
            Action::Would => self.run_would(conn, command, words.from(1)),
            Action::Told => self.run_told(conn, command, words.from(1)),
            Action::ForkAt => self.run_fork_at(conn, &values),
            action => match Query::of(action, &values) {
                Some(query) => self.run_query(conn, query),
                None => self.run_other(conn, command, words),
            },
        }
    }

    /// A browser that is sent here by a page ends.
    fn run_unknown(&mut self, conn: &mut Conn, word: &[u8]) {
        conn.ends = is_word(word, "POST") || is_word(word, "HOST:");
        self.figures.faults += 1;
        fail_multi(conn);
        say::unknown(&mut conn.out, word);
    }

    pub fn misused(&mut self, conn: &mut Conn, command: &Command) {
        self.figures.faults += 1;
        fail_multi(conn);
        say::syntax(&mut conn.out, command);
    }

    /// A call, or a query that is not recorded.
    fn run_call(&mut self, conn: &mut Conn, call: Call, asks: bool) {
        if conn.multi.is_some() {
            return queue_call(conn, call, asks);
        }
        if asks && self.is_stuck() {
            return self.ask_saved(conn, Query::Call(call));
        }
        if asks {
            return match self.engine.ask(call) {
                Ok(reply) => say::reply(&mut conn.out, &reply),
                Err(error) => say::error(&mut conn.out, &error),
            };
        }
        self.make(conn, call);
    }

    /// Makes the call, if the client may.
    fn make(&mut self, conn: &mut Conn, call: Call) {
        if let Some(why) = self.refusal_of_call(conn, call) {
            return conn.out.line(&why);
        }
        match self.engine.make(conn.seat, call, lease_of(conn)) {
            Ok(reply) => {
                self.note_made(&reply);
                say::reply(&mut conn.out, &reply);
            }
            Err(why) => say::refused(&mut conn.out, &why),
        }
    }

    /// The same, and tells what the call did.
    fn make_told(&mut self, conn: &mut Conn, call: Call) {
        if let Some(why) = self.refusal_of_call(conn, call) {
            return conn.out.line(&why);
        }
        match self.engine.make_told(conn.seat, call, lease_of(conn)) {
            Ok(told) => {
                self.note_made(&told.reply);
                say::told(&mut conn.out, &told);
            }
            Err(why) => say::refused(&mut conn.out, &why),
        }
    }

    /// Why the client may not make the call now. One that may take long is counted as such, also if it is refused: whether he may end an init is asked of
    /// each task that would fall with it.
    fn refusal_of_call(&mut self, conn: &Conn, call: Call) -> Option<String> {
        if matches!(call, Call::Exit { .. }) {
            self.accounts.count(REQUESTS_AT_ONCE);
        }
        let why = self.refusal(conn.rights, Some(call));
        if why.is_some() {
            return why;
        }
        let is_fork = matches!(call, Call::Fork { .. });
        if is_fork && conn.lease.as_ref().is_some_and(|it| !self.engine.noted.leases.is_there(it.number)) {
            let why = "-NOLEASE the lease of this connection was released: say LEASE, or RELEASE and its name";
            return Some(why.to_owned());
        }
        None
    }

    /// A call was made.
    fn note_made(&mut self, reply: &Reply) {
        self.figures.calls += 1;
        self.figures.refused += u64::from(matches!(reply, Reply::Refused { .. }));
    }

    /// Why the client may not make the call, or what changes the service, if he may not.
    fn refusal(&mut self, rights: Rights, call: Option<Call>) -> Option<String> {
        if let Some(leader) = &self.leader {
            return Some(format!("-READONLY this follows {}: call there, or say TAKEOVER", leader.path.display()));
        }
        let may = match call {
            Some(call) => may_make(&mut self.engine, rights, call),
            None => rights == Rights::All,
        };
        (!may).then(|| no_permission(rights).to_owned())
    }

    /// A line of the script language: each is recorded, the queries too.
    fn run_line(&mut self, conn: &mut Conn, line: &Command, words: Words) {
        if let Some(call) = self.read_line(conn, line, words) {
            self.run_call(conn, call, false);
        }
    }

    fn run_would(&mut self, conn: &mut Conn, line: &Command, words: Words) {
        if let Some(call) = self.read_line(conn, line, words) {
            self.run_query(conn, Query::Would(call));
        }
    }

    fn run_told(&mut self, conn: &mut Conn, line: &Command, words: Words) {
        if let Some(call) = self.read_line(conn, line, words) {
            self.make_told(conn, call);
        }
    }

    /// The call of a line of the script language. If it is none, the client is told so.
    fn read_line(&mut self, conn: &mut Conn, line: &Command, words: Words) -> Option<Call> {
        let named = find(words.at(0)).filter(|_| without_prefix(words.at(0)).is_none());
        let Some((command, verb)) = named.and_then(|it| Some((it, verb_of(it)?))) else {
            self.misused(conn, line);
            return None;
        };
        let call = command.read(words).map(|it| verb.call(&it));
        if call.is_none() {
            self.misused(conn, command);
        }
        call
    }

    /// A fork whose child has these numbers, or none. Nobody makes a call between the look and the fork.
    fn run_fork_at(&mut self, conn: &mut Conn, values: &Values) {
        let call = Verb::Fork.call(values);
        if let Some(why) = self.refusal_of_call(conn, call) {
            return conn.out.line(&why);
        }
        match self.engine.table.would(call) {
            Ok(Reply::Forked(child)) if child == values.child => self.make(conn, call),
            Ok(other) => conn.out.line(&format!("-DIFFERS {}", other.line().unwrap_or_default())),
            Err(error) => say::error(&mut conn.out, &error),
        }
    }

    fn run_wait_child(&mut self, conn: &mut Conn, command: &Command, values: &Values, words: Words) {
        let (caller, which) = (values.caller, values.which);
        let Ok(timeout) = read_timeout(words) else { return self.misused(conn, command) };
        let call = Call::Wait { caller, which };
        if self.leader.is_none()
            && may_make(&mut self.engine, conn.rights, call)
            && must_sleep(&self.engine, caller, which)
        {
            let (token, deadline) = (conn.token, timeout.map(|it| self.now + it));
            conn.pause = Pause::Sleeps;
            return self.sleepers.add(Sleeper { token, caller, which, deadline });
        }
        self.make(conn, call);
    }

    /// The table has calls that the disk has not taken: the second table, which has what is written, answers.
    fn ask_saved(&mut self, conn: &mut Conn, query: Query) {
        conn.pause = Pause::Asks;
        self.engine.order_answer((conn.token, conn.id), query);
    }

    /// The second table has answered.
    pub fn tell(&mut self, (token, id): Asker, told: Result<Answered, Fault>) {
        let Some(conn) = self.conn(token).filter(|it| it.id == id) else { return };
        conn.pause = Pause::None;
        match told {
            Ok(answered) => answered.say(&mut conn.out),
            Err(fault) => conn.out.line(&format!("-ERR no answer: {}", fault.replace(['\r', '\n'], " "))),
        }
        self.touch(token);
        self.queue(token);
    }

    fn run_query(&mut self, conn: &mut Conn, query: Query) {
        if matches!(query, Query::Page { .. } | Query::Inside { .. }) {
            self.accounts.count(REQUESTS_AT_ONCE);
        }
        if self.is_stuck() {
            return self.ask_saved(conn, query);
        }
        self.engine.answer(query).say(&mut conn.out);
    }

    /// What a service needs besides, and what is for the libraries of clients.
    fn run_other(&mut self, conn: &mut Conn, command: &Command, words: Words) {
        match command.action {
            Action::Multi if conn.multi.is_some() => conn.out.line("-ERR MULTI calls can not be nested"),
            Action::Multi => {
                conn.multi = Some(Multi::default());
                conn.out.ok();
            }
            Action::Discard => match conn.multi.take() {
                Some(_) => conn.out.ok(),
                None => conn.out.line("-ERR DISCARD without MULTI"),
            },
            Action::List => self.want_text(conn, TextKind::List),
            Action::Dump => self.want_text(conn, TextKind::Dump),
            Action::Position => conn.out.number(self.engine.made),
            Action::Ping => ping(conn, words),
            Action::Echo => conn.out.bulk(words.at(1)),
            Action::Info => {
                let text = crate::info::text(self, words.from(1));
                conn.out.bulk(text.as_bytes());
            }
            Action::Help => say::help(&mut conn.out),
            Action::Command => run_command_of_commands(conn, words),
            Action::Metrics => conn.out.bulk(crate::metrics::text(self).as_bytes()),
            Action::Select => conn.out.ok(),
            Action::Auth => conn.out.line(NO_PASSWORDS),
            Action::Quit => {
                conn.ends = true;
                conn.out.ok();
            }
            _ => self.run_on_service(conn, command, words),
        }
    }

    fn run_on_service(&mut self, conn: &mut Conn, command: &Command, words: Words) {
        match command.action {
            Action::Seat => self.run_seat(conn, command, words),
            Action::Client => self.run_client(conn, command, words),
            Action::Config if !is_word(words.at(1), "GET") => self.misused(conn, command),
            Action::Config => crate::config::tell(conn, &self.options, self.engine.pid_max, words.from(2)),
            Action::Slowlog => self.run_slowlog(conn, command, words),
            Action::Hello => self.run_hello(conn, command, words),
            Action::Subscribe => self.run_subscribe(conn, words.from(1)),
            Action::Unsubscribe => self.run_unsubscribe(conn, words.from(1)),
            Action::Lease => self.run_lease(conn, command, words),
            Action::Leases => self.run_leases(conn),
            Action::Release => self.run_release(conn, words.at(1)),
            Action::Name => self.run_name(conn, command, words),
            Action::Names => self.run_names(conn),
            Action::Save => self.run_save(conn, command, words),
            Action::Follow => self.run_follow(conn, command, words),
            Action::Takeover => self.run_takeover(conn, command, words),
            Action::Shutdown => self.run_shutdown(conn),
            _ => self.misused(conn, command),
        }
    }

    /// EXEC with no caller ends a MULTI; EXEC C is execve(2). The calls come together, and no other client's between.
    fn end_multi(&mut self, conn: &mut Conn) {
        let Some(multi) = conn.multi.take() else {
            return conn.out.line("-ERR EXEC without MULTI");
        };
        if multi.has_failed {
            return conn.out.line("-EXECABORT Transaction discarded because of previous errors.");
        }
        conn.out.array(multi.calls.len());
        for (call, asks) in multi.calls {
            self.run_queued(conn, call, asks);
        }
    }

    /// One of the calls that come together: the clock is not looked at between them, so an exit is asked whether it comes
    /// late. A single one is not: behind it the clock is looked at, and what comes next waits for another turn.
    fn run_queued(&mut self, conn: &mut Conn, call: Call, asks: bool) {
        if matches!(call, Call::Exit { .. }) && self.accounts.is_late() {
            return conn.out.line("-BUSY the calls of this MULTI take too long");
        }
        self.run_call(conn, call, asks);
    }

    fn run_seat(&mut self, conn: &mut Conn, command: &Command, words: Words) {
        if words.len() == 2 {
            let Some(seat) = number(words.at(1), u64::from(SEATS) - 1) else { return self.misused(conn, command) };
            self.figures.seated[conn.seat as usize] -= 1;
            conn.seat = seat as u32;
            self.figures.seated[conn.seat as usize] += 1;
        }
        conn.out.number(u64::from(conn.seat));
    }

    fn run_hello(&mut self, conn: &mut Conn, command: &Command, words: Words) {
        if words.len() > 1 && words.at(1) != b"2" {
            return conn.out.line("-NOPROTO unsupported protocol version");
        }
        let (options, count) = (words.from(2), words.len().saturating_sub(2));
        match count {
            0 => {}
            2 if is_word(options.at(0), "SETNAME") => {
                if !set_name(conn, options.at(1)) {
                    return;
                }
            }
            3 | 5 if is_word(options.at(0), "AUTH") => return conn.out.line(NO_PASSWORDS),
            _ => return self.misused(conn, command),
        }
        conn.out.array(8);
        for (name, value) in [("server", "pidtabd"), ("version", env!("CARGO_PKG_VERSION"))] {
            conn.out.bulk(name.as_bytes());
            conn.out.bulk(value.as_bytes());
        }
        for (name, value) in [("proto", 2), ("id", conn.id)] {
            conn.out.bulk(name.as_bytes());
            conn.out.number(value);
        }
    }

    fn run_subscribe(&mut self, conn: &mut Conn, words: Words) {
        let count = words.len();
        if count > 2 && is_word(words.at(count - 2), "FROM") {
            return self.subscribe_from(conn, words.to(count - 2), number(words.at(count - 1), u64::MAX));
        }
        for place in 0..count {
            match self.add_channel(conn, words.at(place)) {
                Ok(()) => {
                    events::say(&mut conn.out, "subscribe", Some(words.at(place)));
                    conn.out.number(conn.channels.len() as u64);
                }
                Err(why) => conn.out.line(why),
            }
        }
    }

    /// The client has the channel from now on, if he had it before or not.
    fn add_channel(&mut self, conn: &mut Conn, name: &[u8]) -> Result<(), &'static str> {
        let channel = Channel::read(name).ok_or(NO_CHANNEL)?.since(self.engine.made);
        if !conn.channels.iter().any(|it| it.name == channel.name) {
            if conn.channels.len() == MOST_CHANNELS || !self.accounts.takes_channel(conn.user) {
                return Err("-ERR too many channels");
            }
            conn.channels.push(channel);
        }
        self.engine.book.is_watched = true;
        Ok(())
    }

    /// All of the channels, with what was before; or none of them.
    fn subscribe_from(&mut self, conn: &mut Conn, names: Words, from: Option<u64>) {
        let had = conn.channels.len();
        let why = match from {
            None => Some("-ERR FROM takes the ordinal of a call".to_owned()),
            Some(from) => self.refusal_of_recall(conn, from),
        };
        let added = (0..names.len()).try_for_each(|it| self.add_channel(conn, names.at(it)));
        let new = conn.channels.len() - had;
        let had_one = (new < names.len()).then(|| "-ERR the connection has such a channel already".to_owned());
        match (why.or(added.err().map(str::to_owned)).or(had_one), from) {
            (None, Some(from)) => self.begin_recall(conn, had, from),
            (why, _) => {
                self.accounts.gives_channels(conn.user, new);
                conn.channels.truncate(had);
                conn.out.line(&why.unwrap_or_default());
            }
        }
    }

    fn run_unsubscribe(&mut self, conn: &mut Conn, names: Words) {
        let named: Vec<Vec<u8>> = (0..names.len()).map(|it| names.at(it).to_vec()).collect();
        let all = conn.channels.iter().map(|it| it.name.clone()).collect();
        let those: Vec<Vec<u8>> = if named.is_empty() { all } else { named };
        for name in &those {
            let before = conn.channels.len();
            conn.channels.retain(|it| it.name != *name);
            self.accounts.gives_channels(conn.user, before - conn.channels.len());
            events::say(&mut conn.out, "unsubscribe", Some(name));
            conn.out.number(conn.channels.len() as u64);
        }
        if those.is_empty() {
            events::say(&mut conn.out, "unsubscribe", None);
            conn.out.number(0);
        }
    }

    /// What this connection forks from now on is bound to the lease.
    fn run_lease(&mut self, conn: &mut Conn, command: &Command, words: Words) {
        let (name, ttl) = (words.at(1), read_ttl(words.at(2)));
        let Some(ttl) = ttl.filter(|_| is_name(name)) else { return self.misused(conn, command) };
        if let Some(why) = self.refusal_of_lease(conn.rights) {
            return conn.out.line(&why);
        }
        if let Some(before) = conn.lease.take() {
            self.engine.noted.leases.let_go(before.number, self.now);
        }
        let key = (conn.user, name.to_vec());
        let is_full = conn.is_guest && self.engine.noted.leases.count_of(conn.user) >= MOST_LEASES;
        if is_full && self.engine.noted.leases.number(&key).is_none() {
            return conn.out.line("-OOM too-many-leases");
        }
        conn.lease = self.engine.hold(&key, ttl).map(|number| Held { number, name: name.to_vec() });
        conn.out.ok();
    }

    /// Who may make calls may bind those that he makes.
    fn refusal_of_lease(&mut self, rights: Rights) -> Option<String> {
        let rights = if let Rights::Below(_) = rights { Rights::All } else { rights };
        self.refusal(rights, None)
    }

    fn run_leases(&mut self, conn: &mut Conn) {
        let is_seen = |it: &&Lease| it.key.0 == conn.user || conn.rights == Rights::All;
        let those: Vec<_> = self.engine.noted.leases.named().filter(is_seen).collect();
        conn.out.array(those.len());
        for lease in those {
            conn.out.array(4);
            conn.out.bulk(&lease.key.1);
            conn.out.number(lease.ttl);
            conn.out.number(lease.holders as u64);
            conn.out.array(lease.tasks.len());
            lease.tasks.iter().for_each(|it| conn.out.number(u64::from(*it)));
        }
    }

    fn run_release(&mut self, conn: &mut Conn, name: &[u8]) {
        if let Some(why) = self.refusal_of_lease(conn.rights) {
            return conn.out.line(&why);
        }
        let held = conn.lease.take_if(|it| it.name == name);
        let leases = &self.engine.noted.leases;
        let is_another_s = held.is_some_and(|it| !leases.is_there(it.number));
        let number = leases.number(&(conn.user, name.to_vec())).filter(|_| !is_another_s);
        number.into_iter().for_each(|number| self.engine.record(&Fact::Release { number }));
        conn.out.number(u64::from(number.is_some()));
    }

    /// Rights follow what a path means, so only who may do all says it.
    fn run_name(&mut self, conn: &mut Conn, command: &Command, words: Words) {
        let name = std::str::from_utf8(words.at(2)).ok().filter(|it| names::is_name(it.as_bytes()));
        let (Some(id), Some(name)) = (number(words.at(1), u64::MAX), name) else { return self.misused(conn, command) };
        let refused = self.refusal(conn.rights, None);
        if let Some(why) = refused.or_else(|| self.engine.refusal_of_name(id, name).map(str::to_owned)) {
            return conn.out.line(&why);
        }
        if self.engine.noted.names.name(id) != Some(name.as_bytes()) {
            self.engine.record(&Fact::Name { id, name: name.as_bytes().to_vec() });
            self.give_rights();
        }
        conn.out.ok();
    }

    fn run_names(&mut self, conn: &mut Conn) {
        let (names, book) = (&self.engine.noted.names, &self.engine.book);
        conn.out.array(names.ids().count());
        for id in names.ids() {
            conn.out.array(2);
            conn.out.bulk(&names.path(id, book));
            conn.out.number(id);
        }
    }

    fn run_save(&mut self, conn: &mut Conn, command: &Command, words: Words) {
        let waits = is_word(words.at(1), "SCHEDULE");
        if words.len() == 2 && !waits {
            return self.misused(conn, command);
        }
        if conn.rights != Rights::All {
            return conn.out.line(no_permission(conn.rights));
        }
        let is_compacting = self.engine.is_compacting();
        match &mut self.engine.log {
            None => conn.out.line("-ERR nothing is kept: there is no --dir"),
            Some(_) if is_compacting && !waits => conn.out.line("-BUSY a snapshot is in work"),
            Some(log) => {
                log.want_turn();
                let word = if is_compacting { "scheduled" } else { "started" };
                conn.out.line(&format!("+Background saving {word}"));
            }
        }
    }

    /// The identity and the leases, if asked, the text, the checksum to go on from, and then blocks. A follower may only listen: who says more is closed.
    fn run_follow(&mut self, conn: &mut Conn, command: &Command, words: Words) {
        let tells = is_word(words.at(1), "IDENTITY");
        if words.len() == 2 && !tells {
            return self.misused(conn, command);
        }
        if conn.rights != Rights::All && conn.rights != Rights::Asks {
            return conn.out.line(no_permission(conn.rights));
        }
        if tells {
            conn.out.bulk(self.engine.identity.as_bytes());
        }
        self.want_text(conn, if tells { TextKind::Whole } else { TextKind::Dump });
        if matches!(conn.pause, Pause::Awaits { .. }) {
            conn.follower = Some(Follower::default());
            self.figures.followers += 1;
        }
    }

    fn run_takeover(&mut self, conn: &mut Conn, command: &Command, words: Words) {
        let forced = is_word(words.at(1), "FORCE");
        if words.len() == 2 && !forced {
            return self.misused(conn, command);
        }
        if conn.rights != Rights::All {
            return conn.out.line(no_permission(conn.rights));
        }
        match &self.leader {
            None => conn.out.line("-ERR this follows nobody"),
            Some(it) if !it.has_text => conn.out.line("-ERR this has not got the leader's table yet"),
            Some(it) if it.is_up() && !forced => {
                conn.out.line("-ERR the leader still serves: end it first, or say TAKEOVER FORCE")
            }
            Some(_) => {
                self.leader = None;
                self.engine.noted.leases.begin(self.now);
                self.give_rights();
                conn.out.ok();
            }
        }
    }

    fn run_shutdown(&mut self, conn: &mut Conn) {
        if conn.rights != Rights::All {
            return conn.out.line(no_permission(conn.rights));
        }
        self.is_ending = true;
        conn.ends = true;
    }

    /// Of the tasks those that have ended and that task 1 has to wait for are reaped, as by an init.
    pub fn reap(&mut self, tasks: &[u32]) {
        for task in tasks {
            if self.engine.book.kin(*task).is_some_and(|it| it.is_zombie && it.parent == INIT) {
                let call = Call::Wait { caller: INIT, which: Which::Pid(*task) };
                self.figures.calls += u64::from(self.engine.make(0, call, None).is_ok());
            }
        }
    }

    /// Ends a task of a lease, if its user may.
    pub fn kill(&mut self, rights: Rights, task: u32) {
        if self.engine.book.kin(task).is_none_or(|it| it.is_zombie) {
            return;
        }
        let call = Call::Exit { caller: task, status: KILLED };
        if may_make(&mut self.engine, rights, call) && self.engine.make(0, call, None).is_ok() {
            self.figures.calls += 1;
        }
    }
}

fn lease_of(conn: &Conn) -> Option<u64> {
    conn.lease.as_ref().map(|it| it.number)
}

fn is_of_multi(action: Action) -> bool {
    matches!(action, Action::Multi | Action::Discard | Action::Quit)
}

fn is_of_subscriber(action: Action) -> bool {
    matches!(action, Action::Subscribe | Action::Unsubscribe | Action::Ping | Action::Quit)
}

fn verb_of(command: &Command) -> Option<Verb> {
    match command.action {
        Action::Call(verb) => Some(verb),
        _ => None,
    }
}

fn fail_multi(conn: &mut Conn) {
    if let Some(multi) = &mut conn.multi {
        multi.has_failed = true;
    }
}

fn queue_call(conn: &mut Conn, call: Call, asks: bool) {
    let Some(multi) = &mut conn.multi else { return };
    if multi.calls.len() == MOST_QUEUED {
        multi.has_failed = true;
        return conn.out.line("-OOM too-many-queued");
    }
    multi.calls.push((call, asks));
    conn.out.line("+QUEUED");
}

/// Of a subscriber the answer has another form, as Redis has it.
fn ping(conn: &mut Conn, words: Words) {
    if !conn.channels.is_empty() {
        conn.out.array(2);
        conn.out.bulk(b"pong");
        return conn.out.bulk(words.at(1));
    }
    match words.len() {
        1 => conn.out.line("+PONG"),
        _ => conn.out.bulk(words.at(1)),
    }
}

fn run_command_of_commands(conn: &mut Conn, words: Words) {
    match words.at(1).to_ascii_uppercase().as_slice() {
        b"COUNT" => conn.out.number(COMMANDS.len() as u64),
        b"DOCS" => say::command_docs(&mut conn.out),
        b"LIST" => {
            conn.out.array(COMMANDS.len());
            COMMANDS.iter().for_each(|it| conn.out.bulk(it.name.as_bytes()));
        }
        b"INFO" if words.len() > 2 => {
            conn.out.array(words.len() - 2);
            (2..words.len()).for_each(|it| say::command(&mut conn.out, find(words.at(it))));
        }
        b"INFO" | b"" => {
            conn.out.array(COMMANDS.len());
            COMMANDS.iter().for_each(|it| say::command(&mut conn.out, Some(it)));
        }
        _ => conn.out.array(0),
    }
}

/// `TIMEOUT MS` behind the rest; none: for ever.
fn read_timeout(words: Words) -> Result<Option<u64>, ()> {
    let count = words.len();
    let place = if is_word(words.at(2), "PID") || is_word(words.at(2), "GROUP") { 4 } else { 3 };
    if count == place {
        return Ok(None);
    }
    let is_timeout = count == place + 2 && is_word(words.at(place), "TIMEOUT");
    number(words.at(place + 1), LONGEST_SLEEP).filter(|_| is_timeout).map(Some).ok_or(())
}

/// The identifier of this process, for INFO.
pub fn own_pid() -> u32 {
    std::process::id()
}
