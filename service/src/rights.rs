//! What a user may do to tasks: all, nothing but ask, or calls by tasks below one cgroup alone.
use crate::engine::Engine;
use crate::options::Rights;
use pidtab::{Call, Reply};

/// Whether the call may be made.
pub fn may_make(engine: &mut Engine, rights: Rights, call: Call) -> bool {
    match rights {
        Rights::All => true,
        Rights::Asks | Rights::BelowNone => false,
        Rights::Below(top) => Below { engine, top }.may_make(call),
    }
}

/// Whether each user has a number of his own here: in a user namespace all those that it does not have are one.
pub fn sees_all_users() -> bool {
    std::fs::read_to_string("/proc/self/uid_map").is_ok_and(|it| has_all_users(&it))
}

/// The number of users is the third of each line of such a map. The last number of 32 bits is that of no user.
fn has_all_users(map: &str) -> bool {
    let counts = map.lines().filter_map(|it| it.split_ascii_whitespace().nth(2)?.parse::<u64>().ok());
    counts.sum::<u64>() >= u64::from(u32::MAX)
}

struct Below<'a> {
    engine: &'a mut Engine,
    top: u64,
}

impl Below<'_> {
    fn may_make(&mut self, call: Call) -> bool {
        match call {
            Call::Exit { caller, .. } => self.has(caller) && self.has_all_that_fall_with(caller),
            Call::Setpgid { caller, pid, .. } => self.has(caller) && self.sees(caller, pid as u32),
            Call::Join { caller, number } => self.has(caller) && self.sees(caller, number),
            Call::Move { task, id } => self.has(task) && self.is_within(id),
            Call::Mk { parent } => self.is_within(parent),
            Call::Count { id } => self.is_within(id),
            // The limit of his own cgroup is not his to change.
            Call::Rm { id } | Call::Limit { id, .. } => id != self.top && self.is_within(id),
            Call::Wait { caller, .. } => self.has(caller) && self.has_whom_it_reaps(caller, call),
            Call::Fork { caller, .. } | Call::Exec { caller } | Call::Setsid { caller } => self.has(caller),
            Call::Subreaper { caller, .. } | Call::Getpid { caller } | Call::Getppid { caller } => self.has(caller),
            Call::Nspid { caller, .. }
            | Call::Getpgid { caller, .. }
            | Call::Getsid { caller, .. }
            | Call::Next { caller, .. } => self.has(caller),
            // A call that is not known here.
            _ => false,
        }
    }

    fn is_within(&self, control: u64) -> bool {
        self.engine.book.is_within(control, self.top)
    }

    /// Whether the task with the root number is in the cgroup, or below it.
    fn has(&mut self, task: u32) -> bool {
        self.sees(1, task)
    }

    /// The same of a task by its number in the caller's namespace, where 0 is the caller.
    fn sees(&mut self, caller: u32, number: u32) -> bool {
        let task = self.engine.table.stat(caller, number);
        task.is_ok_and(|it| self.is_within(it.control()))
    }

    /// A child that has gone outside is another's to wait for.
    fn has_whom_it_reaps(&mut self, caller: u32, call: Call) -> bool {
        match self.engine.table.would(call) {
            Ok(Reply::Reaped(it)) => self.sees(caller, it.child),
            _ => true,
        }
    }

    /// An init takes all of its namespace with it, who may be another's.
    fn has_all_that_fall_with(&mut self, task: u32) -> bool {
        let those = self.engine.book.falls_with(task);
        those.into_iter().all(|it| self.has(it))
    }
}

#[cfg(test)]
mod tests {
    use super::*;

    /// By user_namespaces(7).
    #[test]
    fn maps_of_users() {
        assert!(has_all_users("         0          0 4294967295\n"));
        assert!(has_all_users("0 0 1000\n1000 2000 4294966295\n"));
        assert!(!has_all_users("0 0 1\n990 990 1\n") && !has_all_users("0 100000 65536\n") && !has_all_users(""));
    }
}
