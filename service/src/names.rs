//! Names of cgroups. A cgroup has a name among those that stand beside it, as a folder has, and a path has the names from the root's on: `/build/jobs`. One
//! without a name is `/5/jobs`, by its id. Names are in the log, so a path means the same cgroup after a start, and rights may name it.
use crate::book::Book;
use crate::facts::Fact;
use crate::resp::number;
use std::collections::{BTreeMap, BTreeSet};

/// No name is longer, in bytes.
const LONGEST_NAME: usize = 64;

/// The root's cgroup, which needs no name.
const ROOT: u64 = 0;

/// By the ids of cgroups. An id is given once, so that of one that is gone is none of another.
#[derive(Default)]
pub struct Names {
    of: BTreeMap<u64, Vec<u8>>,
    /// The same the other way, as some have one name in different places.
    having: BTreeSet<(Vec<u8>, u64)>,
}

/// A name that may stand in a path, and is no id.
pub fn is_name(name: &[u8]) -> bool {
    let is_letter = |it: &u8| it.is_ascii_alphanumeric() || b"._@+-".contains(it);
    (1..=LONGEST_NAME).contains(&name.len())
        && name.iter().all(is_letter)
        && name[0] != b'.'
        && !name.iter().all(u8::is_ascii_digit)
}

/// A path from the root's cgroup on, which has a name or an id at least.
pub fn is_path(path: &str) -> bool {
    let is_part = |it: &str| is_name(it.as_bytes()) || number(it.as_bytes(), u64::MAX).is_some();
    path.strip_prefix('/').is_some_and(|it| it.split('/').all(is_part))
}

impl Names {
    /// The cgroup has the name from now on, and no other.
    pub fn give(&mut self, id: u64, name: &[u8]) {
        self.forget(id);
        self.of.insert(id, name.to_vec());
        self.having.insert((name.to_vec(), id));
    }

    /// The cgroup is there no more.
    pub fn forget(&mut self, id: u64) {
        if let Some(name) = self.of.remove(&id) {
            self.having.remove(&(name, id));
        }
    }

    /// What a snapshot has of them.
    pub fn facts(&self) -> impl Iterator<Item = Fact> + '_ {
        self.of.iter().map(|(id, name)| Fact::Name { id: *id, name: name.clone() })
    }

    pub fn ids(&self) -> impl Iterator<Item = u64> + '_ {
        self.of.keys().copied()
    }

    pub fn name(&self, id: u64) -> Option<&[u8]> {
        self.of.get(&id).map(Vec::as_slice)
    }

    /// The cgroup with the path, if there is one.
    pub fn find(&self, path: &str, book: &Book) -> Option<u64> {
        path.strip_prefix('/')?.split('/').try_fold(ROOT, |at, part| self.below(at, part, book))
    }

    /// The cgroup directly below that one which has the name, or the id.
    pub fn below(&self, parent: u64, part: &str, book: &Book) -> Option<u64> {
        let is_there = |id: &u64| book.parent_of_control(*id) == Some(parent);
        if let Some(id) = number(part.as_bytes(), u64::MAX) {
            return Some(id).filter(is_there);
        }
        let name = part.as_bytes().to_vec();
        let those = self.having.range((name.clone(), 0)..).take_while(|it| it.0 == name);
        those.map(|it| it.1).find(is_there)
    }

    /// The path of a cgroup that is there.
    pub fn path(&self, id: u64, book: &Book) -> Vec<u8> {
        let above = std::iter::successors(Some(id), |it| book.parent_of_control(*it));
        let mut parts: Vec<_> = above.take_while(|it| *it != ROOT).collect();
        parts.reverse();
        let said = |it: &u64| self.name(*it).map_or_else(|| it.to_string().into_bytes(), <[u8]>::to_vec);
        parts.iter().flat_map(|it| [vec![b'/'], said(it)].concat()).collect()
    }
}

#[cfg(test)]
mod tests {
    use super::*;
    use pidtab::{Call, Table};

    /// The cgroups 1 and 2 are below the root's, 3 is below 1, and 4 below 2.
    fn book() -> Book {
        let table = Table::open(400).expect("a table");
        for parent in [0, 0, 1, 2] {
            table.call(Call::Mk { parent }).expect("a cgroup");
        }
        Book::of(&table.listing().expect("a list"))
    }

    #[test]
    fn paths() {
        let (book, mut names) = (book(), Names::default());
        for (id, name) in [(1, "build"), (3, "jobs"), (4, "jobs"), (9, "gone")] {
            names.give(id, name.as_bytes());
        }
        let find = |path| names.find(path, &book);
        assert_eq!(
            (find("/build"), find("/build/jobs"), find("/2/jobs"), find("/1/3")),
            (Some(1), Some(3), Some(4), Some(3))
        );
        for none in ["/jobs", "/build/4", "/build/build", "/gone", "/5", "/0", "build", "/"] {
            assert_eq!(find(none), None, "{none}");
        }
        let path = |id| String::from_utf8(names.path(id, &book)).expect("a path");
        assert_eq!((path(3), path(4), path(2)), ("/build/jobs".to_owned(), "/2/jobs".to_owned(), "/2".to_owned()));
    }

    #[test]
    fn another_name_takes_the_first() {
        let (book, mut names) = (book(), Names::default());
        names.give(1, b"one");
        names.give(1, b"other");
        assert_eq!(
            (names.find("/one", &book), names.find("/other", &book), names.name(1)),
            (None, Some(1), Some(&b"other"[..]))
        );
        names.forget(1);
        assert_eq!((names.find("/other", &book), names.facts().count(), names.ids().count()), (None, 0, 0));
    }

    #[test]
    fn what_is_a_name() {
        for name in ["build", "user@1000.service", "-.slice", "a", "5a", "x".repeat(64).as_str()] {
            assert!(is_name(name.as_bytes()), "{name}");
        }
        for name in ["", "5", "007", ".", "..", "a/b", "a b", "a:b", "a,b", "a#b", "\n", "x".repeat(65).as_str()] {
            assert!(!is_name(name.as_bytes()), "{name}");
        }
        assert!(is_path("/a") && is_path("/a/5/b-1") && is_path("/5"));
        assert!(
            !is_path("")
                && !is_path("/")
                && !is_path("a")
                && !is_path("/a/")
                && !is_path("//a")
                && !is_path("/a/../b")
                && !is_path("/05")
        );
    }
}
