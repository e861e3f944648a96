//! Clients that wait for a child by WAITCHILD. A wait is made when its answer is there, so it is one call, and a client that goes away before
//! made none.
use crate::conn::Pause;
use crate::directory::SEATS;
use crate::engine::Engine;
use crate::options::Rights;
use crate::resp::Answer;
use crate::rights::may_make;
use crate::say;
use crate::service::Service;
use pidtab::{Call, Reply, Which};
use std::collections::{BTreeSet, HashMap};

#[derive(Clone)]
pub struct Sleeper {
    pub token: usize,
    pub caller: u32,
    pub which: Which,
    /// In ms.
    pub deadline: Option<u64>,
}

/// Those who sleep, each by its token. A turn looks at those alone whose callers were stirred, or whose time is over.
#[derive(Default)]
pub struct Sleepers {
    /// Of each caller the one who has slept longest comes first.
    by_caller: HashMap<u32, Vec<Sleeper>>,
    callers: HashMap<usize, u32>,
    due: BTreeSet<(u64, usize)>,
}

impl Sleepers {
    pub fn add(&mut self, sleeper: Sleeper) {
        self.callers.insert(sleeper.token, sleeper.caller);
        self.due.extend(sleeper.deadline.map(|it| (it, sleeper.token)));
        self.by_caller.entry(sleeper.caller).or_default().push(sleeper);
    }

    pub fn forget(&mut self, token: usize) {
        let Some(caller) = self.callers.remove(&token) else { return };
        let Some(all) = self.by_caller.get_mut(&caller) else { return };
        let place = all.iter().position(|it| it.token == token);
        let deadline = place.and_then(|it| all.remove(it).deadline);
        if let Some(deadline) = deadline {
            self.due.remove(&(deadline, token));
        }
        if all.is_empty() {
            self.by_caller.remove(&caller);
        }
    }

    pub fn next_deadline(&self) -> Option<u64> {
        self.due.first().map(|it| it.0)
    }

    /// One whose time is over, who sleeps no more.
    fn take_due(&mut self, now: u64) -> Option<usize> {
        let token = self.due.first().filter(|it| it.0 <= now)?.1;
        self.forget(token);
        Some(token)
    }

    /// Those who wait for a child of that caller, in their order.
    fn of(&self, caller: u32) -> Vec<Sleeper> {
        self.by_caller.get(&caller).cloned().unwrap_or_default()
    }

    pub fn count(&self) -> usize {
        self.callers.len()
    }
}

/// Whether a wait would find nobody now, and may find somebody later.
pub fn must_sleep(engine: &Engine, caller: u32, which: Which) -> bool {
    engine.table.would(Call::Wait { caller, which }) == Ok(Reply::NoneYet)
}

impl Service {
    /// Those whose time is over, and those for whom there is an answer now. A wait takes a child away, so others may be stirred by it.
    pub fn wake_sleepers(&mut self) {
        self.end_naps();
        while !self.engine.book.stirred.is_empty() {
            let mut stirred = std::mem::take(&mut self.engine.book.stirred);
            if self.sleepers.count() == 0 {
                stirred.clear();
                self.engine.book.stirred = stirred;
                return;
            }
            stirred.sort_unstable();
            stirred.dedup();
            stirred.into_iter().for_each(|it| self.wake_those_of(it));
        }
    }

    fn end_naps(&mut self) {
        while let Some(token) = self.sleepers.take_due(self.now) {
            self.answer(token, |out| out.line("*-1"));
        }
    }

    fn wake_those_of(&mut self, caller: u32) {
        for sleeper in self.sleepers.of(caller) {
            if !must_sleep(&self.engine, caller, sleeper.which) && self.wait_for(&sleeper) {
                self.sleepers.forget(sleeper.token);
            }
        }
    }

    /// Makes the wait: whether the client was answered.
    fn wait_for(&mut self, sleeper: &Sleeper) -> bool {
        let call = Call::Wait { caller: sleeper.caller, which: sleeper.which };
        let Some((seat, rights)) = self.conn(sleeper.token).filter(|it| !it.is_hung).map(|it| (it.seat, it.rights))
        else {
            return false;
        };
        if !may_make(&mut self.engine, rights, call) {
            self.answer(sleeper.token, |out| out.line(no_permission(rights)));
            return true;
        }
        let made = self.engine.make(seat % SEATS, call, None);
        if matches!(made, Ok(Reply::NoneYet)) {
            return false;
        }
        self.figures.calls += 1;
        self.answer(sleeper.token, |out| match &made {
            Ok(reply) => say::reply(out, reply),
            Err(why) => say::refused(out, why),
        });
        true
    }

    /// Answers a client that has slept, and goes on with what it has sent behind.
    fn answer(&mut self, token: usize, say: impl FnOnce(&mut Vec<u8>)) {
        let Some(conn) = self.conn(token) else { return };
        conn.pause = Pause::None;
        say(&mut conn.out);
        self.touch(token);
        self.queue(token);
    }
}

pub fn no_permission(rights: Rights) -> &'static str {
    match rights {
        Rights::Below(_) => "-NOPERM this user may call by tasks below his cgroup alone",
        Rights::BelowNone => "-NOPERM this user may call by tasks below his cgroup alone, which is not there",
        _ => "-NOPERM this user may only ask",
    }
}
