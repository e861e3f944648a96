//! What each user has of the service, so that nobody has all of it. Root, and the user that the daemon runs as, may have all; others are guests.
use crate::options::Options;
use nix::unistd::geteuid;
use std::collections::HashMap;
use std::time::{Duration, Instant};

/// No guest has more leases.
pub const MOST_LEASES: usize = 1000;

/// No guest has more channels, in all his connections.
const MOST_CHANNELS: usize = 64;

/// So many bytes may wait to be sent to a guest, in all his connections.
pub const MOST_OUTPUT: usize = 32 << 20;

/// Behind so many bytes of output to guests it is looked at whose is too much.
const MUCH_POURED: usize = 8 << 20;

/// So long a guest's requests are done in a turn. Then the others come, and his in the next turn, or, if others have come meanwhile, in the one after.
const BUDGET: Duration = Duration::from_micros(200);

/// The calls of a MULTI come together, whatever time they take. Of them a guest's exits are not made that come so long
/// after his time was over.
const GRACE: Duration = Duration::from_millis(10);

/// So many requests are done between two looks at the clock. One that may take long counts as all of them.
pub const REQUESTS_AT_ONCE: u32 = 8;

#[derive(Default)]
struct Account {
    connections: usize,
    channels: usize,
    /// In that turn.
    spent: Duration,
    turn: u64,
    /// He has no time in that turn, as he had all of his in the one before.
    rests: bool,
}

pub struct Accounts {
    guests: HashMap<u32, Account>,
    own: u32,
    turn: u64,
    /// Whether there are requests in this turn of others than those whose time was over.
    is_awaited: bool,
    most_connections: usize,
    /// What guests may have of all connections.
    most_of_guests: usize,
    /// When the requests that are being done are to stop, those of a guest.
    until: Option<Instant>,
    requests: u32,
    poured: usize,
}

impl Accounts {
    pub fn of(options: &Options) -> Accounts {
        let most = options.most_clients;
        Accounts {
            guests: HashMap::new(),
            own: geteuid().as_raw(),
            turn: 0,
            is_awaited: false,
            most_connections: options.most_user_clients.unwrap_or(most.div_ceil(2)),
            most_of_guests: most - most.div_ceil(16).min(most - 1),
            until: None,
            requests: 0,
            poured: 0,
        }
    }

    pub fn is_guest(&self, user: u32) -> bool {
        user != 0 && user != self.own
    }

    /// Why the user gets no connection beside so many.
    pub fn refuses(&self, user: u32, connections: usize) -> Option<&'static str> {
        if !self.is_guest(user) {
            return None;
        }
        let own = self.guests.get(&user).map_or(0, |it| it.connections);
        if own >= self.most_connections {
            return Some("-ERR max number of clients of this user reached\r\n");
        }
        (connections >= self.most_of_guests).then_some("-ERR max number of clients reached\r\n")
    }

    pub fn connected(&mut self, user: u32) {
        if self.is_guest(user) {
            self.guests.entry(user).or_default().connections += 1;
        }
    }

    /// A connection of the user with so many channels is gone.
    pub fn gone(&mut self, user: u32, channels: usize) {
        let Some(account) = self.guests.get_mut(&user) else { return };
        account.connections -= 1;
        account.channels -= channels;
        if account.connections == 0 {
            self.guests.remove(&user);
        }
    }

    /// Whether the user may have one channel more, which he has then.
    pub fn takes_channel(&mut self, user: u32) -> bool {
        let Some(account) = self.guests.get_mut(&user) else { return true };
        let has_room = account.channels < MOST_CHANNELS;
        account.channels += usize::from(has_room);
        has_room
    }

    pub fn gives_channels(&mut self, user: u32, count: usize) {
        if let Some(account) = self.guests.get_mut(&user) {
            account.channels -= count;
        }
    }

    /// So many bytes more are in the output of guests: whether that is much since it was much last.
    pub fn pours(&mut self, bytes: usize) -> bool {
        self.poured += bytes;
        let is_much = self.poured >= MUCH_POURED;
        self.poured *= usize::from(!is_much);
        is_much
    }

    /// A turn begins: each guest has his whole time, or rests for this turn, if others wait.
    pub fn begin_turn(&mut self, is_awaited: bool) {
        self.turn += 1;
        self.is_awaited = is_awaited;
    }

    /// The requests of a connection of the user are done from now on, if he has time left in this turn.
    pub fn begin(&mut self, user: u32) -> bool {
        (self.until, self.requests) = (None, 0);
        let Some(account) = self.guests.get_mut(&user) else { return true };
        if account.turn != self.turn {
            let had_all = account.turn + 1 == self.turn && account.spent >= BUDGET && !account.rests;
            account.rests = had_all && self.is_awaited;
            account.spent = if account.rests { BUDGET } else { Duration::ZERO };
            account.turn = self.turn;
        }
        self.until = Some(Instant::now() + BUDGET.saturating_sub(account.spent));
        account.spent < BUDGET
    }

    /// A request that may take long, or one that does not.
    pub fn count(&mut self, requests: u32) {
        self.requests += requests;
    }

    /// Whether the guest's time is over. The clock is looked at now and then.
    pub fn is_over(&mut self) -> bool {
        let Some(until) = self.until.filter(|_| self.requests >= REQUESTS_AT_ONCE) else { return false };
        self.requests = 0;
        Instant::now() >= until
    }

    /// Whether the guest's time has been over for long.
    pub fn is_late(&self) -> bool {
        self.until.is_some_and(|it| Instant::now() >= it + GRACE)
    }

    pub fn end(&mut self, user: u32) {
        let Some(until) = self.until.take() else { return };
        if let Some(account) = self.guests.get_mut(&user) {
            account.spent = (Instant::now() + BUDGET).saturating_duration_since(until);
        }
    }
}

#[cfg(test)]
mod tests {
    use super::*;

    fn accounts(most_clients: usize) -> Accounts {
        let options = Options { most_clients, ..Options::default() };
        Accounts { own: 7, ..Accounts::of(&options) }
    }

    /// A guest has half of the connections, guests have all but a sixteenth, and root and the own user have all.
    #[test]
    fn connections() {
        let mut accounts = accounts(32);
        for _ in 0..16 {
            assert_eq!(accounts.refuses(1000, 0), None);
            accounts.connected(1000);
        }
        assert!(accounts.refuses(1000, 16).is_some() && accounts.refuses(1001, 29).is_none());
        assert!(
            accounts.refuses(1001, 30).is_some()
                && accounts.refuses(0, 31).is_none()
                && accounts.refuses(7, 31).is_none()
        );
        accounts.gone(1000, 0);
        assert_eq!(accounts.refuses(1000, 15), None);
        assert_eq!(self::accounts(1).refuses(1000, 0), None);
    }

    #[test]
    fn channels() {
        let mut accounts = accounts(32);
        accounts.connected(1000);
        accounts.connected(1000);
        assert!((0..MOST_CHANNELS).all(|_| accounts.takes_channel(1000)) && !accounts.takes_channel(1000));
        assert!((0..2 * MOST_CHANNELS).all(|_| accounts.takes_channel(7)));
        accounts.gives_channels(1000, 1);
        assert!(accounts.takes_channel(1000) && !accounts.takes_channel(1000));
        accounts.gone(1000, 10);
        assert!((0..10).all(|_| accounts.takes_channel(1000)) && !accounts.takes_channel(1000));
    }

    /// What a guest has spent in a turn, in all his connections, is not his any more in this turn.
    #[test]
    fn time() {
        let mut accounts = accounts(32);
        accounts.connected(1000);
        accounts.begin_turn(true);
        assert!(accounts.begin(1000));
        accounts.count(REQUESTS_AT_ONCE - 1);
        std::thread::sleep(BUDGET);
        assert!(!accounts.is_over());
        accounts.count(1);
        assert!(accounts.is_over() && !accounts.is_late());
        std::thread::sleep(GRACE);
        assert!(accounts.is_late());
        accounts.end(1000);
        assert!(!accounts.begin(1000) && accounts.begin(7));
        accounts.count(REQUESTS_AT_ONCE);
        assert!(!accounts.is_over());
        accounts.begin_turn(false);
        assert!(accounts.begin(1000));
    }

    /// Who had all of his time rests for a turn, if others wait, and for no more than one.
    #[test]
    fn rests() {
        let mut accounts = accounts(32);
        accounts.connected(1000);
        let mut told = Vec::new();
        for is_awaited in [true, true, true, true, false, false, true] {
            accounts.begin_turn(is_awaited);
            told.push(accounts.begin(1000));
            std::thread::sleep(BUDGET);
            accounts.end(1000);
        }
        assert_eq!(told, [true, false, true, false, true, true, false]);
        for _ in 0..3 {
            accounts.begin_turn(true);
            assert!(accounts.begin(7));
        }
    }
}
