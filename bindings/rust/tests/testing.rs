//! The test kit: a planted bug, none where there is none, and what proptest would find and shorten, by a plain search.
use pidtab::testing::{compare, Different};
use pidtab::Table;

/// A table of forks, exits and parents alone, by `getppid(2)` and `_exit(2)`. With a bug, the parent of who has ended takes orphans.
struct Family {
    parents: Vec<usize>,
    ended: Vec<bool>,
    bug: bool,
}

const CALLS: [&str; 3] = ["fork", "exit", "getppid"];

impl Family {
    fn new(bug: bool) -> Family {
        let (parents, ended) = (vec![0, 0], vec![true, false]);
        Family {
            parents,
            ended,
            bug,
        }
    }

    fn answer(&mut self, line: &str) -> String {
        let words: Vec<_> = line.split(' ').collect();
        let caller: usize = words[1].parse().expect("a number");
        if self.ended.get(caller) != Some(&false) {
            return "ESRCH no-caller".into();
        }
        match words[0] {
            "fork" => self.fork(caller),
            "exit" => self.exit(caller),
            _ => self.parents[caller].to_string(),
        }
    }

    fn fork(&mut self, caller: usize) -> String {
        self.parents.push(caller);
        self.ended.push(false);
        format!("child {}", self.parents.len() - 1)
    }

    fn exit(&mut self, caller: usize) -> String {
        if caller == 1 {
            return "EBUSY".into();
        }
        let heir = if self.bug { self.parents[caller] } else { 1 };
        for parent in &mut self.parents {
            if *parent == caller {
                *parent = heir;
            }
        }
        self.ended[caller] = true;
        "ok".into()
    }
}

/// Bytes that look random: a linear congruential generator, of which the high bits are taken.
fn bytes(count: usize, state: &mut u64) -> Vec<u8> {
    let next = |_| {
        *state = state
            .wrapping_mul(6_364_136_223_846_793_005)
            .wrapping_add(1_442_695_040_888_963_407);
        (*state >> 56) as u8
    };
    (0..count).map(next).collect()
}

fn search(bug: bool, cases: usize) -> Option<Different> {
    let mut state = 1;
    (0..cases).find_map(|_| {
        let mut family = Family::new(bug);
        compare(
            &bytes(48, &mut state),
            &mut |line| family.answer(line),
            &CALLS,
        )
    })
}

#[test]
fn a_bug_is_found() {
    let found = search(true, 2000).expect("a difference");
    let mut again = Family::new(true);
    let answers: Vec<_> = found.script.iter().map(|it| again.answer(it)).collect();
    assert_eq!(answers.last(), Some(&found.yours));
    let table = Table::open(32768).expect("a table");
    let answers: Vec<_> = found.script.iter().map(|it| table.line(it)).collect();
    assert_eq!(answers.last(), Some(&Ok(found.pidtab)));
}

#[test]
fn none_where_there_is_none() {
    assert_eq!(search(false, 500), None);
}

#[test]
fn pidtab_itself_does_not_differ() {
    let mut state = 2;
    for length in 0..120 {
        let table = Table::open(32768).expect("a table");
        let mut answer = |line: &str| table.line(line).expect("an answer");
        assert_eq!(
            compare(&bytes(100 + length, &mut state), &mut answer, &[]),
            None
        );
    }
}

#[test]
fn the_shortest_case_of_the_bug() {
    // Each task forks, the one before the newest ends, and the newest is asked for its parent: the picks are 0, 0, 0, 1 and 0.
    let data = [0, 0, 0, 0, 0, 0, 0, 0, 0, 0, 0, 0, 1, 1, 0, 0, 2, 0, 0, 0];
    let mut family = Family::new(true);
    let found = compare(&data, &mut |line| family.answer(line), &CALLS).expect("a difference");
    let wanted = "getppid 4\n  yours  2\n  pidtab 1\nthe script:\n  fork 1\n  fork 2\n  fork 3\n  exit 3 0\n  getppid 4";
    assert_eq!(found.to_string(), wanted);
}

#[test]
#[should_panic(expected = "no call has one of these names")]
fn names_of_no_call() {
    compare(&[], &mut |_| String::new(), &["frok"]);
}
