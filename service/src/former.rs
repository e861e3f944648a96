//! The file `leases` of a former release, which had the leases beside the log: a line a fact, each with the checksum of all lines up to it. A start takes
//! it over into the log, and then it goes.
use crate::checksum::checksum;
use crate::directory::{fault_at, Directory, Fault};
use crate::facts::{long, short, Fact};
use std::collections::{BTreeMap, HashMap};
use std::fs;
use std::io;

/// The first line, of which the number is that of the form.
const HEAD: &[u8] = b"pidtab leases 1\n";

/// What is known of the table that the file is beside.
pub struct Known<'a> {
    /// So many calls were made before the snapshot that it was read from.
    pub snapshot: u64,
    /// The ordinals of the forks behind that, by the children's root numbers.
    pub born: &'a HashMap<u32, u64>,
}

/// A lease, with its tasks and the stamps of their forks.
struct Lease {
    fact: Fact,
    tasks: BTreeMap<u32, u64>,
}

/// What the file says: the leases by their numbers, and the ordinal of the call that it was brought up to.
#[derive(Default)]
struct Said {
    leases: BTreeMap<u64, Lease>,
    at: u64,
}

impl Said {
    /// Takes a line; none: it is none, or one of a lease that is not there.
    fn take(&mut self, line: &[u8]) -> Option<()> {
        let words: Vec<_> = line.split(|it| *it == b' ').collect();
        match &words[..] {
            [b"at", ordinal] => self.at = long(ordinal)?,
            [b"lease", user, name, number, ttl] => {
                let (number, user, ttl) = (long(number)?, short(user)?, u64::from(short(ttl)?));
                let fact = Fact::Lease { number, user, name: name.to_vec(), ttl };
                let tasks = self.leases.remove(&number).map_or_else(BTreeMap::new, |it| it.tasks);
                self.leases.insert(number, Lease { fact, tasks });
            }
            [b"bind", number, task, born] => {
                self.leases.get_mut(&long(number)?)?.tasks.insert(short(task)?, long(born)?);
            }
            [b"free", number, task] => drop(self.leases.get_mut(&long(number)?)?.tasks.remove(&short(task)?)),
            [b"release", number] => drop(self.leases.remove(&long(number)?)?),
            _ => return None,
        }
        Some(())
    }

    /// Those tasks are bound that are the ones that were forked then. A task of the snapshot was forked before that, and the file is not older.
    fn facts(self, known: &Known, is_there: impl Fn(u32) -> bool) -> Vec<Fact> {
        let is_bound = |task: u32, born: u64| match known.born.get(&task) {
            Some(ordinal) => born == ordinal + 1,
            None => born <= known.snapshot,
        };
        let mut facts = Vec::new();
        for (number, lease) in self.leases {
            facts.push(lease.fact);
            let bound = lease.tasks.into_iter().filter(|it| is_there(it.0) && is_bound(it.0, it.1));
            facts.extend(bound.map(|(task, _)| Fact::Bind { number, task }));
        }
        facts
    }
}

/// The line without its checksum, and the checksum behind it.
fn take_line(line: &[u8], before: u64) -> Option<(&[u8], u64)> {
    let (line, digits) = line.split_at_checked(line.len().checked_sub(17)?)?;
    let sum = checksum(before, line);
    (digits == format!(" {sum:016x}").as_bytes()).then_some((line, sum))
}

/// What the bytes say. What a crash has torn has no end or, where the power was lost, zeroes, and is left out.
fn read(bytes: &[u8]) -> Result<Said, String> {
    let Some(mut rest) = bytes.strip_prefix(HEAD) else { return Err("line 1: is not that of leases".to_owned()) };
    let (mut said, mut sum, mut count) = (Said::default(), checksum(0, HEAD), 1);
    while let Some(end) = rest.iter().position(|it| *it == b'\n') {
        count += 1;
        match take_line(&rest[..end], sum) {
            Some((line, behind)) => {
                said.take(line).ok_or_else(|| format!("line {count}: is no fact of a lease that is there"))?;
                sum = behind;
            }
            None if rest.contains(&0) => break,
            None => return Err(format!("line {count}: a byte is not the one that was written")),
        }
        rest = &rest[end + 1..];
    }
    Ok(said)
}

/// The leases of the file and their tasks, if there is one.
pub fn read_file(
    directory: &Directory,
    known: &Known,
    is_there: impl Fn(u32) -> bool,
) -> Result<Option<Vec<Fact>>, Fault> {
    let path = directory.former_leases();
    let bytes = match fs::read(&path) {
        Err(error) if error.kind() == io::ErrorKind::NotFound => return Ok(None),
        read => read.map_err(fault_at(&path))?,
    };
    let said = read(&bytes).map_err(fault_at(&path))?;
    if said.at < known.snapshot {
        let (at, snapshot) = (said.at, known.snapshot);
        let why = format!("is that of call {at}, and the snapshot that of call {snapshot}: restore both from one copy");
        return Err(fault_at(&path)(why));
    }
    Ok(Some(said.facts(known, is_there)))
}

#[cfg(test)]
mod tests {
    use super::*;

    fn text(lines: &[&str]) -> Vec<u8> {
        let (mut text, mut sum) = (HEAD.to_vec(), checksum(0, HEAD));
        for line in lines {
            sum = checksum(sum, line.as_bytes());
            text.extend(format!("{line} {sum:016x}\n").bytes());
        }
        text
    }

    const LINES: [&str; 8] = [
        "at 8",
        "lease 7 web 1 500",
        "bind 1 2 9",
        "bind 1 3 2",
        "bind 1 4 5",
        "free 1 3",
        "lease 8 old 2 9",
        "release 2",
    ];

    /// Task 2 was forked behind another fork of its number, 4 before the snapshot, and 3 is there no more.
    #[test]
    fn those_are_bound_that_were_forked_then() {
        let lease = Fact::Lease { number: 1, user: 7, name: b"web".to_vec(), ttl: 500 };
        let bound = |born: &[(u32, u64)], snapshot| {
            let born: HashMap<_, _> = born.iter().copied().collect();
            let facts = read(&text(&LINES)).expect("facts").facts(&Known { snapshot, born: &born }, |it| it != 3);
            assert_eq!(facts[0], lease);
            facts.iter().filter_map(|it| if let Fact::Bind { task, .. } = it { Some(*task) } else { None }).collect()
        };
        let none: Vec<u32> = vec![];
        assert_eq!((bound(&[(2, 8)], 8), bound(&[(2, 13)], 8), bound(&[], 4)), (vec![2, 4], vec![4], none));
    }

    /// A torn end is left out; each changed byte, and each line that is missing, is found.
    #[test]
    fn what_is_damaged_is_found() {
        let text = text(&LINES);
        for size in HEAD.len()..text.len() {
            let zeroes = [&text[..size], &vec![0; text.len() - size], b"x\n"].concat();
            assert!(read(&text[..size]).is_ok() && read(&zeroes).is_ok(), "{size}");
        }
        for place in 0..text.len() - 1 {
            let mut other = text.clone();
            other[place] ^= 4;
            assert!(read(&other).is_err(), "byte {place}");
        }
        let lines: Vec<_> = text.split_inclusive(|it| *it == b'\n').collect();
        for place in 0..lines.len() - 1 {
            let others: Vec<_> =
                lines.iter().enumerate().filter(|it| it.0 != place).flat_map(|it| it.1.to_vec()).collect();
            assert!(read(&others).is_err(), "line {place}");
        }
        assert!(read(&self::text(&["bind 9 2 3"])).is_err() && read(&self::text(&["lease 7"])).is_err());
    }
}
