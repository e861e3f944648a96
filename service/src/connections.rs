//! All connections by their tokens, and which of them are to be looked at for what: so that nobody has to walk over those that are idle.
use crate::conn::{Conn, Pause};
use std::collections::BTreeSet;

/// For what a connection is looked at, besides its requests.
#[derive(Clone, Copy, Debug, Default, PartialEq)]
pub struct Roles {
    follows: bool,
    subscribes: bool,
    awaits: bool,
}

impl Roles {
    fn of(conn: &Conn) -> Roles {
        Roles {
            follows: conn.follower.is_some(),
            subscribes: !conn.channels.is_empty(),
            awaits: matches!(conn.pause, Pause::Awaits { .. } | Pause::Recalls),
        }
    }
}

#[derive(Default)]
pub struct Connections {
    all: Vec<Option<Box<Conn>>>,
    /// Tokens that may be given again, and those that may in the next turn.
    free: Vec<usize>,
    freed: Vec<usize>,
    /// Whose requests are looked at, and who is sent what he has.
    pub ready: Vec<usize>,
    pub touched: Vec<usize>,
    followers: BTreeSet<usize>,
    subscribers: BTreeSet<usize>,
    /// Who waits for a text, or for events from before; some of them have it already.
    awaiting: BTreeSet<usize>,
    /// Whose socket has not taken all.
    full: BTreeSet<usize>,
}

fn mark(set: &mut BTreeSet<usize>, token: usize, is_in: bool) {
    if is_in {
        set.insert(token);
    } else {
        set.remove(&token);
    }
}

impl Connections {
    /// The token of the next one.
    pub fn next_token(&mut self) -> usize {
        self.free.pop().unwrap_or(self.all.len())
    }

    /// Nobody has the token any more, from the next turn on: events of it may be in hand.
    pub fn give_back(&mut self, token: usize) {
        self.freed.push(token);
    }

    /// A turn ends.
    pub fn end_turn(&mut self) {
        self.free.append(&mut self.freed);
    }

    pub fn add(&mut self, conn: Box<Conn>) {
        let token = conn.token;
        match self.all.get_mut(token) {
            Some(place) => *place = Some(conn),
            None => self.all.push(Some(conn)),
        }
    }

    pub fn get(&mut self, token: usize) -> Option<&mut Conn> {
        self.all.get_mut(token)?.as_deref_mut()
    }

    /// Takes one to work for it. It comes back by [`Connections::put`], or has ended.
    pub fn take(&mut self, token: usize) -> Option<Box<Conn>> {
        self.all.get_mut(token)?.take()
    }

    pub fn put(&mut self, mut conn: Box<Conn>) {
        let (token, roles) = (conn.token, Roles::of(&conn));
        if roles != conn.roles {
            conn.roles = roles;
            mark(&mut self.followers, token, roles.follows);
            mark(&mut self.subscribers, token, roles.subscribes);
            mark(&mut self.awaiting, token, roles.awaits);
        }
        self.all[token] = Some(conn);
    }

    /// It has ended.
    pub fn remove(&mut self, token: usize) -> Option<Box<Conn>> {
        let conn = self.take(token)?;
        for set in [&mut self.followers, &mut self.subscribers, &mut self.awaiting, &mut self.full] {
            set.remove(&token);
        }
        self.give_back(token);
        Some(conn)
    }

    /// Whether the socket has taken all is another now.
    pub fn mark_full(&mut self, token: usize, is_full: bool) {
        mark(&mut self.full, token, is_full);
    }

    /// The client is looked at in this turn, or the next.
    pub fn queue(&mut self, token: usize) {
        if let Some(conn) = self.all[token].as_mut().filter(|it| !it.is_queued) {
            conn.is_queued = true;
            self.ready.push(token);
        }
    }

    /// It is sent what it has in the next turn, before those that come then. It was touched.
    pub fn postpone(&mut self, token: usize) {
        self.touched.push(token);
        self.queue(token);
    }

    /// It is sent what it has.
    pub fn touch(&mut self, token: usize) {
        if let Some(conn) = self.all[token].as_mut().filter(|it| !it.is_touched) {
            conn.is_touched = true;
            self.touched.push(token);
        }
    }

    /// Those that are not being served at the moment.
    pub fn iter(&self) -> impl Iterator<Item = &Conn> {
        self.all.iter().flatten().map(|it| &**it)
    }

    pub fn tokens(&self) -> std::ops::Range<usize> {
        0..self.all.len()
    }

    pub fn followers(&self) -> Vec<usize> {
        self.followers.iter().copied().collect()
    }

    pub fn subscribers(&self) -> Vec<usize> {
        self.subscribers.iter().copied().collect()
    }

    pub fn awaiting(&self) -> Vec<usize> {
        self.awaiting.iter().copied().collect()
    }

    pub fn full(&self) -> Vec<usize> {
        self.full.iter().copied().collect()
    }

    /// Who may have output that was not taken.
    pub fn owed(&self) -> impl Iterator<Item = &Conn> {
        let others = self.full.difference(&self.followers);
        let recalling = self.awaiting.iter().filter(|it| !self.followers.contains(it) && !self.full.contains(it));
        self.followers.iter().chain(others).chain(recalling).filter_map(|it| self.all[*it].as_deref())
    }
}

#[cfg(test)]
mod tests {
    use super::*;
    use crate::events::Channel;
    use crate::options::Rights;
    use mio::net::UnixStream;

    fn conn(token: usize) -> Box<Conn> {
        let (socket, _) = UnixStream::pair().expect("a socket");
        Box::new(Conn::new(socket, token, 1, 0, 0, Rights::All, 0))
    }

    #[test]
    fn who_is_looked_at_for_what() {
        let mut all = Connections::default();
        for token in 0..3 {
            assert_eq!(all.next_token(), token);
            all.add(conn(token));
        }
        let mut one = all.take(1).expect("a connection");
        assert!(all.get(1).is_none());
        one.channels.extend(Channel::read(b"exit"));
        one.follower = Some(Default::default());
        all.put(one);
        all.mark_full(2, true);
        assert_eq!(
            (all.followers(), all.subscribers(), all.awaiting(), all.full()),
            (vec![1], vec![1], vec![], vec![2])
        );
        assert_eq!(all.owed().map(|it| it.token).collect::<Vec<_>>(), [1, 2]);
        let mut one = all.take(1).expect("a connection");
        one.channels.clear();
        all.put(one);
        assert_eq!((all.followers(), all.subscribers()), (vec![1], vec![]));
        assert!(all.remove(1).is_some() && all.remove(1).is_none() && all.followers().is_empty());
        assert_eq!((all.next_token(), all.iter().count()), (3, 2));
        all.end_turn();
        assert_eq!(all.next_token(), 1);
    }

    #[test]
    fn each_is_queued_once() {
        let mut all = Connections::default();
        all.add(conn(0));
        [0, 0].into_iter().for_each(|it| all.queue(it));
        [0, 0].into_iter().for_each(|it| all.touch(it));
        assert_eq!((all.ready, all.touched), (vec![0], vec![0]));
    }
}
