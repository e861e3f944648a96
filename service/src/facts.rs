//! What is recorded beside the calls, each in its place among them: a note of the log, or a line of a snapshot.
use crate::resp::number;
use pidtab::Note;

/// What the log says of leases, and of the names of cgroups.
#[derive(Clone, Debug, PartialEq)]
pub enum Fact {
    /// A user has a lease of that name, which has the number.
    Lease { number: u64, user: u32, name: Vec<u8>, ttl: u64 },
    /// A connection more has it, by which its time is that.
    Hold { number: u64, ttl: u64 },
    /// A task that is there is the lease's.
    Bind { number: u64, task: u32 },
    /// It is forgotten, and its tasks stay.
    Release { number: u64 },
    /// Its time is over, and its tasks have ended before this.
    End { number: u64 },
    /// A cgroup that is there has that name among those beside it.
    Name { id: u64, name: Vec<u8> },
}

/// The note before a fork, at one place of the log with it: the child is the lease's.
pub const FORKS: u8 = 200;
const LEASE: u8 = 201;
const HOLD: u8 = 202;
const BIND: u8 = 203;
const RELEASE: u8 = 204;
const END: u8 = 205;
const NAME: u8 = 206;

/// The note before a fork under the lease.
pub fn forks(lease: u64) -> Note {
    note(FORKS, lease, 0)
}

fn note(kind: u8, id: u64, value: u32) -> Note {
    Note { kind, id, numbers: [value, 0], text: Vec::new() }
}

impl Fact {
    pub fn note(&self) -> Note {
        match self {
            // No time to live is longer than a day, in ms.
            Fact::Lease { number, user, name, ttl } => {
                Note { kind: LEASE, id: *number, numbers: [*user, *ttl as u32], text: name.clone() }
            }
            Fact::Hold { number, ttl } => note(HOLD, *number, *ttl as u32),
            Fact::Bind { number, task } => note(BIND, *number, *task),
            Fact::Release { number } => note(RELEASE, *number, 0),
            Fact::End { number } => note(END, *number, 0),
            Fact::Name { id, name } => Note { text: name.clone(), ..note(NAME, *id, 0) },
        }
    }

    /// None: this release has no such note.
    pub fn of(note: Note) -> Option<Fact> {
        let Note { kind, id: number, numbers: [value, more], text: name } = note;
        Some(match kind {
            LEASE => Fact::Lease { number, user: value, name, ttl: u64::from(more) },
            HOLD => Fact::Hold { number, ttl: u64::from(value) },
            BIND => Fact::Bind { number, task: value },
            RELEASE => Fact::Release { number },
            END => Fact::End { number },
            NAME => Fact::Name { id: number, name },
            _ => return None,
        })
    }

    /// The line of a snapshot, which has only what lasts.
    pub fn line(&self) -> Option<String> {
        match self {
            Fact::Lease { number, user, name, ttl } => {
                Some(format!("lease {number} {user} {} {ttl}", String::from_utf8_lossy(name)))
            }
            Fact::Bind { number, task } => Some(format!("bind {number} {task}")),
            Fact::Name { id, name } => Some(format!("name {id} {}", String::from_utf8_lossy(name))),
            Fact::Hold { .. } | Fact::Release { .. } | Fact::End { .. } => None,
        }
    }

    pub fn read(line: &[u8]) -> Option<Fact> {
        let words: Vec<_> = line.split(|it| *it == b' ').collect();
        match &words[..] {
            [b"lease", number, user, name, ttl] => {
                let (number, user, ttl) = (long(number)?, short(user)?, u64::from(short(ttl)?));
                Some(Fact::Lease { number, user, name: name.to_vec(), ttl })
            }
            [b"bind", number, task] => Some(Fact::Bind { number: long(number)?, task: short(task)? }),
            [b"name", id, name] => Some(Fact::Name { id: long(id)?, name: name.to_vec() }),
            _ => None,
        }
    }
}

pub fn long(word: &[u8]) -> Option<u64> {
    number(word, u64::MAX)
}

pub fn short(word: &[u8]) -> Option<u32> {
    number(word, u64::from(u32::MAX)).map(|it| it as u32)
}

#[cfg(test)]
mod tests {
    use super::*;

    fn facts() -> Vec<Fact> {
        let (number, ttl) = (u64::MAX, 86_400_000);
        vec![
            Fact::Lease { number, user: u32::MAX, name: vec![b'x'; 64], ttl },
            Fact::Lease { number: 1, user: 0, name: b"a".to_vec(), ttl: 0 },
            Fact::Hold { number, ttl },
            Fact::Bind { number, task: 4_194_303 },
            Fact::Release { number },
            Fact::End { number },
            Fact::Name { id: u64::MAX, name: vec![b'x'; 64] },
        ]
    }

    #[test]
    fn each_is_read_as_it_was_written() {
        for fact in facts() {
            assert_eq!(Fact::of(fact.note()), Some(fact.clone()));
            if let Some(line) = fact.line() {
                assert_eq!(Fact::read(line.as_bytes()), Some(fact));
            }
        }
        assert_eq!(Fact::of(note(199, 1, 1)), None);
        assert_eq!(Fact::of(forks(1)), None);
    }

    #[test]
    fn what_is_no_line() {
        let wrong = [
            "",
            "lease 1 2 x",
            "lease 1 2 x 3 4",
            "lease 01 2 x 3",
            "bind 1",
            "bind 1 4294967296",
            "hold 1 2",
            "name x y",
            "name 1",
            "name 1 x y",
        ];
        assert_eq!(wrong.iter().find(|it| Fact::read(it.as_bytes()).is_some()), None);
    }
}
