//! CLIENT: who is connected, by the fields that clients of Redis expect, and the end of connections.
use crate::commands::Command;
use crate::conn::{Conn, Pause};
use crate::options::Rights;
use crate::resp::{is_word, number, Answer, Words};
use crate::service::Service;
use crate::sleepers::no_permission;
use std::os::fd::AsRawFd;

#[derive(Clone, Copy, PartialEq)]
enum Kind {
    Normal,
    Replica,
    Pubsub,
    /// There is none of it.
    Master,
}

impl Kind {
    fn read(word: &[u8]) -> Option<Kind> {
        let kinds = [("NORMAL", Kind::Normal), ("REPLICA", Kind::Replica), ("SLAVE", Kind::Replica)];
        let others = [("PUBSUB", Kind::Pubsub), ("MASTER", Kind::Master)];
        kinds.iter().chain(&others).find(|it| is_word(word, it.0)).map(|it| it.1)
    }

    fn of(conn: &Conn) -> Kind {
        match conn.follower {
            Some(_) => Kind::Replica,
            None if conn.channels.is_empty() => Kind::Normal,
            None => Kind::Pubsub,
        }
    }
}

/// Which connections are meant: those that have all that is given.
#[derive(Default)]
struct Filter {
    ids: Vec<u64>,
    user: Option<u32>,
    kind: Option<Kind>,
    keeps_own: Option<bool>,
}

impl Filter {
    /// `ID 3 4 TYPE normal USER 1000 SKIPME no`; none: it is no such words.
    fn read(words: Words) -> Option<Filter> {
        let (mut filter, mut at) = (Filter::default(), 0);
        while at < words.len() {
            at += filter.take(words.from(at))?;
        }
        Some(filter)
    }

    /// How many words the one at the front has with its values.
    fn take(&mut self, words: Words) -> Option<usize> {
        let value = words.at(1);
        match words.at(0).to_ascii_uppercase().as_slice() {
            b"ID" => {
                let ids = (1..words.len()).map_while(|it| number(words.at(it), u64::MAX));
                let before = self.ids.len();
                self.ids.extend(ids);
                return Some(self.ids.len() - before + 1).filter(|it| *it > 1);
            }
            b"USER" => self.user = Some(number(value, u64::from(u32::MAX))? as u32),
            b"TYPE" => self.kind = Some(Kind::read(value)?),
            b"SKIPME" if is_word(value, "YES") => self.keeps_own = Some(true),
            b"SKIPME" if is_word(value, "NO") => self.keeps_own = Some(false),
            _ => return None,
        }
        Some(2)
    }

    fn has(&self, conn: &Conn) -> bool {
        (self.ids.is_empty() || self.ids.contains(&conn.id))
            && self.user.is_none_or(|it| it == conn.user)
            && self.kind.is_none_or(|it| it == Kind::of(conn))
    }
}

impl Service {
    pub fn run_client(&mut self, conn: &mut Conn, command: &Command, words: Words) {
        let (option, count) = (words.from(2), words.len() - 2);
        match words.at(1).to_ascii_uppercase().as_slice() {
            b"ID" if count == 0 => conn.out.number(conn.id),
            b"SETINFO" => conn.out.ok(),
            b"SETNAME" if count == 1 => {
                if set_name(conn, option.at(0)) {
                    conn.out.ok();
                }
            }
            b"GETNAME" if count == 0 && conn.name.is_empty() => conn.out.line("$-1"),
            b"GETNAME" if count == 0 => conn.out.bulk(&conn.name),
            b"INFO" if count == 0 => {
                let line = self.line_of(conn);
                conn.out.bulk(line.as_bytes());
            }
            b"LIST" => match Filter::read(option).filter(|it| it.keeps_own.is_none()) {
                Some(filter) => self.list_clients(conn, &filter),
                None => self.misused(conn, command),
            },
            b"KILL" if count > 0 => match Filter::read(option) {
                Some(filter) => self.kill_clients(conn, &filter),
                None => self.misused(conn, command),
            },
            _ => self.misused(conn, command),
        }
    }

    /// Who may not do all is told of his own connections alone.
    fn list_clients(&mut self, conn: &mut Conn, filter: &Filter) {
        let is_told = |it: &&Conn| (conn.rights == Rights::All || it.user == conn.user) && filter.has(it);
        // The one who asks has no place among the others meanwhile.
        let mut those: Vec<&Conn> = self.connections().chain([&*conn]).filter(is_told).collect();
        those.sort_unstable_by_key(|it| it.id);
        let text: String = those.into_iter().map(|it| self.line_of(it)).collect();
        conn.out.bulk(text.as_bytes());
    }

    /// How many connections end. The one who asks is among them only with `SKIPME no`, and has his answer first.
    fn kill_clients(&mut self, conn: &mut Conn, filter: &Filter) {
        if conn.rights != Rights::All {
            return conn.out.line(no_permission(conn.rights));
        }
        let those: Vec<_> = self.connections().filter(|it| filter.has(it)).map(|it| it.token).collect();
        let is_own = filter.keeps_own == Some(false) && filter.has(conn);
        conn.out.number((those.len() + usize::from(is_own)) as u64);
        conn.ends |= is_own;
        those.into_iter().for_each(|it| self.end(it));
    }

    /// By the fields of Redis 7, in its order.
    fn line_of(&self, conn: &Conn) -> String {
        let (place, name) = (self.place(), String::from_utf8_lossy(&conn.name));
        let (id, descriptor, user) = (conn.id, conn.socket.as_raw_fd(), conn.user);
        let seconds = |since: u64| self.now.saturating_sub(since) / 1000;
        let (age, idle) = (seconds(conn.born), seconds(conn.asked));
        let queued = conn.multi.as_ref().map_or(-1, |it| it.calls.len() as i64);
        let (flags, subscribed, input, output) = (flags_of(conn), conn.channels.len(), conn.rest.len(), conn.waiting());
        let events = if conn.is_full { "rw" } else { "r" };
        let last = conn.last.to_ascii_lowercase();
        format!(
            "id={id} addr={place} laddr={place} fd={descriptor} name={name} age={age} idle={idle} flags={flags} db=0 \
             sub={subscribed} psub=0 ssub=0 multi={queued} qbuf={input} qbuf-free=0 obl={output} oll=0 omem={output} \
             events={events} cmd={last} user={user} redir=-1 resp=2\n"
        )
    }

    /// The address of each client, as Redis has that of a Unix socket.
    pub fn place(&self) -> String {
        let path = self.options.socket.as_ref().map_or("socket".into(), |it| it.to_string_lossy());
        format!("{}:0", path.replace(|it: char| it.is_whitespace() || it.is_control(), "_"))
    }
}

fn flags_of(conn: &Conn) -> String {
    let flags = [
        ('S', conn.follower.is_some()),
        ('P', !conn.channels.is_empty()),
        ('x', conn.multi.is_some()),
        ('b', matches!(conn.pause, Pause::Sleeps)),
        ('U', true),
    ];
    flags.iter().filter(|it| it.1).map(|it| it.0).collect()
}

/// Whether the connection has the name now, or is told why not: in LIST it stands among other words. An empty name is none.
pub fn set_name(conn: &mut Conn, name: &[u8]) -> bool {
    let is_good = name.iter().all(u8::is_ascii_graphic);
    if is_good {
        name.clone_into(&mut conn.name);
    } else {
        conn.out.line("-ERR Client names cannot contain spaces, newlines or special characters.");
    }
    is_good
}
