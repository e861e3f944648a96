//! Calls, replies and entries as the library's numbers, and back. The library answers with numbers of its header alone.
use crate::{raw, Call, Child, Ended, Entry, Kind, Reaped, Refusal, Reply, Which};

// Written by tools/interface: choices.
fn which_choice(which: Which) -> u32 {
    match which {
        Which::Any => raw::ANY,
        Which::Pid(_) => raw::CHILD,
        Which::OwnGroup => raw::OWN_GROUP,
        Which::Group(_) => raw::GROUP,
    }
}

fn which_number(which: Which) -> u32 {
    match which {
        Which::Pid(number) | Which::Group(number) => number,
        Which::Any | Which::OwnGroup => 0,
    }
}

fn which_of(choice: u32, number: u32) -> Which {
    match choice {
        raw::ANY => Which::Any,
        raw::CHILD => Which::Pid(number),
        raw::OWN_GROUP => Which::OwnGroup,
        raw::GROUP => Which::Group(number),
        other => unreachable!("no choice has the number {other}"),
    }
}

fn choice_of(kind: Kind) -> u32 {
    match kind {
        Kind::Task => raw::TASKS,
        Kind::Group => raw::GROUPS,
        Kind::Session => raw::SESSIONS,
    }
}

fn kind_of(choice: u32) -> Kind {
    match choice {
        raw::TASKS => Kind::Task,
        raw::GROUPS => Kind::Group,
        raw::SESSIONS => Kind::Session,
        other => unreachable!("no choice has the number {other}"),
    }
}
// The end of choices.

impl Call {
    // Written by tools/interface: calls.
    /// The call as numbers.
    pub(crate) fn numbers(self) -> raw::Call {
        match self {
            Call::Fork { caller, new_space } => raw::Call {
                operation: raw::FORK,
                caller,
                choice: u32::from(new_space),
                ..raw::Call::BLANK
            },
            Call::Getpid { caller } => raw::Call {
                operation: raw::GETPID,
                caller,
                ..raw::Call::BLANK
            },
            Call::Nspid { caller, number } => raw::Call {
                operation: raw::NSPID,
                caller,
                number,
                ..raw::Call::BLANK
            },
            Call::Exec { caller } => raw::Call {
                operation: raw::EXEC,
                caller,
                ..raw::Call::BLANK
            },
            Call::Exit { caller, status } => raw::Call {
                operation: raw::EXIT,
                caller,
                number: u32::from(status),
                ..raw::Call::BLANK
            },
            Call::Wait { caller, which } => raw::Call {
                operation: raw::WAIT,
                caller,
                choice: which_choice(which),
                number: which_number(which),
                ..raw::Call::BLANK
            },
            Call::Getppid { caller } => raw::Call {
                operation: raw::GETPPID,
                caller,
                ..raw::Call::BLANK
            },
            Call::Setpgid { caller, pid, pgid } => raw::Call {
                operation: raw::SETPGID,
                caller,
                pid,
                pgid,
                ..raw::Call::BLANK
            },
            Call::Setsid { caller } => raw::Call {
                operation: raw::SETSID,
                caller,
                ..raw::Call::BLANK
            },
            Call::Mk { parent } => raw::Call {
                operation: raw::MK,
                id: parent,
                ..raw::Call::BLANK
            },
            Call::Rm { id } => raw::Call {
                operation: raw::RM,
                id,
                ..raw::Call::BLANK
            },
            Call::Limit { id, limit } => raw::Call {
                operation: raw::LIMIT,
                id,
                number: limit.unwrap_or(0),
                choice: u32::from(limit.is_some()),
                ..raw::Call::BLANK
            },
            Call::Move { task, id } => raw::Call {
                operation: raw::MOVE,
                caller: task,
                id,
                ..raw::Call::BLANK
            },
            Call::Count { id } => raw::Call {
                operation: raw::COUNT,
                id,
                ..raw::Call::BLANK
            },
            Call::Getpgid { caller, pid } => raw::Call {
                operation: raw::GETPGID,
                caller,
                number: pid,
                ..raw::Call::BLANK
            },
            Call::Getsid { caller, pid } => raw::Call {
                operation: raw::GETSID,
                caller,
                number: pid,
                ..raw::Call::BLANK
            },
            Call::Next { caller, kind, from } => raw::Call {
                operation: raw::NEXT,
                caller,
                choice: choice_of(kind),
                number: from,
                ..raw::Call::BLANK
            },
            Call::Join { caller, number } => raw::Call {
                operation: raw::JOIN,
                caller,
                number,
                ..raw::Call::BLANK
            },
            Call::Subreaper { caller, on } => raw::Call {
                operation: raw::SUBREAPER,
                caller,
                choice: u32::from(on),
                ..raw::Call::BLANK
            },
        }
    }

    /// The call that the numbers of an entry say.
    pub(crate) fn of(it: &raw::Call) -> Call {
        match it.operation {
            raw::FORK => Call::Fork {
                caller: it.caller,
                new_space: it.choice == 1,
            },
            raw::GETPID => Call::Getpid { caller: it.caller },
            raw::NSPID => Call::Nspid {
                caller: it.caller,
                number: it.number,
            },
            raw::EXEC => Call::Exec { caller: it.caller },
            raw::EXIT => Call::Exit {
                caller: it.caller,
                status: it.number as u8,
            },
            raw::WAIT => Call::Wait {
                caller: it.caller,
                which: which_of(it.choice, it.number),
            },
            raw::GETPPID => Call::Getppid { caller: it.caller },
            raw::SETPGID => Call::Setpgid {
                caller: it.caller,
                pid: it.pid,
                pgid: it.pgid,
            },
            raw::SETSID => Call::Setsid { caller: it.caller },
            raw::MK => Call::Mk { parent: it.id },
            raw::RM => Call::Rm { id: it.id },
            raw::LIMIT => Call::Limit {
                id: it.id,
                limit: (it.choice == 1).then_some(it.number),
            },
            raw::MOVE => Call::Move {
                task: it.caller,
                id: it.id,
            },
            raw::COUNT => Call::Count { id: it.id },
            raw::GETPGID => Call::Getpgid {
                caller: it.caller,
                pid: it.number,
            },
            raw::GETSID => Call::Getsid {
                caller: it.caller,
                pid: it.number,
            },
            raw::NEXT => Call::Next {
                caller: it.caller,
                kind: kind_of(it.choice),
                from: it.number,
            },
            raw::JOIN => Call::Join {
                caller: it.caller,
                number: it.number,
            },
            raw::SUBREAPER => Call::Subreaper {
                caller: it.caller,
                on: it.choice == 1,
            },
            other => unreachable!("no call has the number {other}"),
        }
    }
    // The end of calls.
}

/// A reply that tells one value or two.
fn told(kind: u32, first: u64, second: u64) -> raw::Reply {
    raw::Reply {
        kind,
        first,
        second,
        ..raw::Reply::BLANK
    }
}

/// The reply with a task's numbers. Where there are more than any task has, their count says so.
fn levels_told(numbers: &[u32]) -> raw::Reply {
    let mut reply = told(raw::LEVELS, 0, 0);
    reply.count = u32::try_from(numbers.len()).unwrap_or(u32::MAX);
    for (level, number) in reply.levels.iter_mut().zip(numbers) {
        *level = *number;
    }
    reply
}

fn refusal_told(errno: i32, refusal: Refusal) -> raw::Reply {
    raw::Reply {
        error: errno as u32,
        refusal: refusal.number(),
        ..told(raw::REFUSED, refusal.id(), 0)
    }
}

/// How a child ended, as a number.
fn status_of(ended: Ended) -> u64 {
    match ended {
        Ended::Exited(status) => u64::from(status),
        Ended::Killed => raw::KILLED,
    }
}

pub(crate) fn ended_of(status: u64) -> Ended {
    match status {
        raw::KILLED => Ended::Killed,
        status => Ended::Exited(status as u8),
    }
}

impl Reply {
    /// The reply as numbers.
    pub(crate) fn numbers(&self) -> raw::Reply {
        match self {
            Reply::Forked(child) => {
                told(raw::FORKED, u64::from(child.number), u64::from(child.root))
            }
            Reply::Done => told(raw::OK, 0, 0),
            Reply::Number(number) => told(raw::NUMBER, u64::from(*number), 0),
            Reply::Levels(numbers) => levels_told(numbers),
            Reply::Reaped(it) => told(raw::REAPED, u64::from(it.child), status_of(it.ended)),
            Reply::NoneYet => told(raw::NONE_YET, 0, 0),
            Reply::Counted(count) => told(raw::COUNTED, *count, 0),
            Reply::Control(id) => told(raw::CONTROL, *id, 0),
            Reply::End => told(raw::END, 0, 0),
            Reply::Refused { errno, refusal } => refusal_told(*errno, *refusal),
        }
    }

    /// The reply that the library's numbers say.
    pub(crate) fn of(numbers: &raw::Reply) -> Reply {
        let first = numbers.first;
        match numbers.kind {
            raw::FORKED => Reply::Forked(Child {
                number: first as u32,
                root: numbers.second as u32,
            }),
            raw::OK => Reply::Done,
            raw::NUMBER => Reply::Number(first as u32),
            raw::LEVELS => Reply::Levels(numbers.levels[..numbers.count as usize].to_vec()),
            raw::REAPED => Reply::Reaped(Reaped {
                child: first as u32,
                ended: ended_of(numbers.second),
            }),
            raw::NONE_YET => Reply::NoneYet,
            raw::COUNTED => Reply::Counted(first),
            raw::CONTROL => Reply::Control(first),
            raw::END => Reply::End,
            raw::REFUSED => Reply::Refused {
                errno: numbers.error as i32,
                refusal: Refusal::of(numbers.refusal, first),
            },
            other => unreachable!("no reply has the number {other}"),
        }
    }
}

impl Entry {
    /// The entry as numbers; its ordinal is none of them.
    pub(crate) fn numbers(&self) -> raw::Entry {
        raw::Entry {
            worker: u64::from(self.worker),
            call: self.call.numbers(),
            reply: self.reply.numbers(),
        }
    }

    /// The entry with the ordinal that the library's numbers say.
    pub(crate) fn of(ordinal: u64, numbers: &raw::Entry) -> Entry {
        Entry {
            ordinal,
            worker: numbers.worker as u32,
            call: Call::of(&numbers.call),
            reply: Reply::of(&numbers.reply),
        }
    }
}

/// Each call and each reply comes back in `cases.rs`.
#[cfg(test)]
mod tests {
    use super::*;

    #[test]
    fn more_numbers_than_a_task_has() {
        let told = Reply::Levels(vec![5; 40]).numbers();
        assert_eq!((told.count, told.levels), (40, [5; 33]));
    }
}
