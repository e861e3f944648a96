//! The text of a snapshot: the table's, and before it, where leases or names of cgroups were recorded, lines of these:
//!
//! ```text
//! pidtabd snapshot 1 entries 7
//! lease 1 1000 rig 5000
//! bind 1 3
//! name 5 build
//! end 995dc9bbdf1939fa
//! pidtab table 1 pid-max 32768 stamp 6
//! ```
//!
//! Behind `end` is the CRC-64/XZ of the lines before it.
use crate::checksum::checksum;
use crate::facts::{long, Fact};
use crate::noted::Noted;
use pidtab::Table;

const HEAD: &[u8] = b"pidtabd snapshot 1 entries ";

/// How far a history goes.
#[derive(Clone, Copy, Debug, Default, PartialEq)]
pub struct Place {
    /// So many entries: calls, and what is recorded beside them.
    pub entries: u64,
    pub calls: u64,
}

/// What a text has.
pub struct Snapshot<'a> {
    pub place: Place,
    pub pid_max: u32,
    pub facts: Vec<Fact>,
    /// The table's text.
    pub table: &'a [u8],
}

/// The lines before the table's text.
pub fn front(noted: &Noted, place: Place, table: &Table) -> Vec<u8> {
    let mut text = Vec::new();
    let facts = noted.facts(table);
    if facts.is_empty() && place.entries == place.calls {
        return text;
    }
    text.extend_from_slice(HEAD);
    text.extend(format!("{}\n", place.entries).bytes());
    for line in facts.iter().filter_map(Fact::line) {
        text.extend_from_slice(line.as_bytes());
        text.push(b'\n');
    }
    let sum = checksum(0, &text);
    text.extend(format!("end {sum:016x}\n").bytes());
    text
}

/// Reads a text; what is wrong with its front is a sentence.
pub fn read(text: &[u8]) -> Result<Snapshot<'_>, String> {
    let (entries, facts, table) = match text.starts_with(HEAD) {
        true => read_front(text)?,
        false => (None, Vec::new(), text),
    };
    let (pid_max, stamp) = settings_of(table).ok_or("has no settings")?;
    let calls = stamp.checked_sub(1).ok_or("has no settings")?;
    let place = Place { entries: entries.unwrap_or(calls), calls };
    if place.entries < calls {
        return Err(format!("has {} entries, and is the text after {calls} calls", place.entries));
    }
    Ok(Snapshot { place, pid_max, facts, table })
}

type Front<'a> = (Option<u64>, Vec<Fact>, &'a [u8]);

fn read_front(text: &[u8]) -> Result<Front<'_>, String> {
    let (mut at, mut count, mut entries, mut facts) = (0, 0, None, Vec::new());
    while let Some(size) = text[at..].iter().position(|it| *it == b'\n') {
        let line = &text[at..at + size];
        count += 1;
        if let Some(digits) = line.strip_prefix(b"end ") {
            let is_whole = digits == format!("{:016x}", checksum(0, &text[..at])).as_bytes();
            let rest = &text[at + size + 1..];
            return if is_whole { Ok((entries, facts, rest)) } else { Err("has another checksum".to_owned()) };
        }
        match entries {
            None => entries = Some(line.strip_prefix(HEAD).and_then(long).ok_or("has no entries")?),
            Some(_) => facts.push(Fact::read(line).ok_or_else(|| format!("line {count}: is no fact"))?),
        }
        at += size + 1;
    }
    Err("ends before its table".to_owned())
}

/// The pid_max and the stamp of the first line of a table's text.
fn settings_of(text: &[u8]) -> Option<(u32, u64)> {
    let line = text.split(|it| *it == b'\n').next()?;
    let words: Vec<_> = std::str::from_utf8(line).ok()?.split(' ').collect();
    match words[..] {
        ["pidtab", "table", "1", "pid-max", pid_max, "stamp", stamp] => {
            Some((pid_max.parse().ok()?, stamp.parse().ok()?))
        }
        _ => None,
    }
}

#[cfg(test)]
mod tests {
    use super::*;

    /// Two tasks, of which one is leased.
    fn text() -> (Vec<u8>, usize) {
        let table = Table::open(400).expect("a table");
        let (mut noted, key) = (Noted::default(), (1000, b"rig".to_vec()));
        noted.apply(&noted.leases.hold_of(&key, 5000));
        for lease in [Some(1), None] {
            let child = table.fork(1).expect("a child");
            noted.leases.forked(child.root, lease);
        }
        let id = table.mk(0).expect("a cgroup");
        noted.apply(&Fact::Name { id, name: b"build".to_vec() });
        let dump = table.dump().expect("a text");
        let front = front(&noted, Place { entries: 5, calls: 3 }, &table);
        let size = front.len();
        ([front, dump.into_bytes()].concat(), size)
    }

    #[test]
    fn what_is_written_is_read() {
        let (text, size) = text();
        let sum = checksum(0, b"pidtabd snapshot 1 entries 5\nlease 1 1000 rig 5000\nbind 1 2\nname 3 build\n");
        let wanted =
            format!("pidtabd snapshot 1 entries 5\nlease 1 1000 rig 5000\nbind 1 2\nname 3 build\nend {sum:016x}\n");
        assert_eq!(String::from_utf8_lossy(&text[..size]), wanted);
        let read = read(&text).expect("a snapshot");
        assert_eq!((read.place, read.pid_max), (Place { entries: 5, calls: 3 }, 400));
        assert_eq!((read.facts.len(), read.table), (3, &text[size..]));
        let alone = super::read(&text[size..]).expect("a snapshot");
        assert_eq!((alone.place, alone.facts.len()), (Place { entries: 3, calls: 3 }, 0));
    }

    /// Each changed byte of the front, and each front that is cut, is refused.
    #[test]
    fn what_is_damaged_is_refused() {
        let (text, size) = text();
        for place in 0..size {
            let mut other = text.clone();
            other[place] ^= 1;
            assert!(read(&other).is_err(), "byte {place}");
            assert!(read(&text[..place]).is_err(), "{place}");
        }
    }
}
