//! A table that is made of a text, beside the one that was never saved. What is written and loaded is in interface/cases.
use pidtab::{Error, Keep, Saved, SavedFault, Table};

const TEXT: &str = "pidtab table 1 pid-max 32768 stamp 7
task 1@0 parent - group 1@0 session 1@0 control 0 children 0 live
task 2@0 parent 1@0 group 3,1@2 session 1@0 control 0 children 0 live
space 0 parent - cursor 4
space 2 parent 0 cursor 2 fallen
control 0 parent - limit max
end sha256 43e4b011666adfc0327747421276975e151ed4aaf6d8c75e33dcc6843cccb951\n";

/// Numbers that look random, the same on each run.
struct Chance(u64);

impl Chance {
    fn below(&mut self, bound: u64) -> u64 {
        self.0 = self
            .0
            .wrapping_mul(6_364_136_223_846_793_005)
            .wrapping_add(1);
        (self.0 >> 33) % bound
    }

    /// A line with small numbers, so that most calls name what is there.
    fn line(&mut self) -> String {
        let (a, b, c) = (self.below(12), self.below(12), self.below(12));
        match self.below(12) {
            0..=2 => format!("fork {a}"),
            3 => format!("fork {a} new"),
            4 => format!("exit {a} {b}"),
            5 => format!("wait {a} any"),
            6 => format!("setpgid {a} {b} {c}"),
            7 => format!("setsid {a}"),
            8 => format!("mk {a}"),
            9 => format!("move {a} {b}"),
            10 => format!("limit {a} {b}"),
            _ => format!("getpgid {a} {b}"),
        }
    }
}

#[test]
fn calls_after_it() {
    let mut chance = Chance(40);
    for _ in 0..10 {
        let table = Table::open(301).expect("a table");
        for _ in 0..300 {
            table.line(chance.line()).expect("an answer");
        }
        let again = Table::from_dump(table.dump().expect("a text")).expect("a table");
        for _ in 0..300 {
            let line = chance.line();
            assert_eq!(again.line(&line), table.line(&line), "{line}");
        }
        assert_eq!(again.dump(), table.dump());
        assert_eq!(again.list(), table.list());
    }
}

#[test]
fn it_is_saved_to_no_writer() {
    for counts in [[0], [6]] {
        let options = Table::options().keep(Keep::All);
        let table = options.open_dump(TEXT, &counts).expect("a table");
        let (mut saved, mut bytes) = (Saved::new(), Vec::new());
        let refused = table.save(&mut saved, &mut bytes).expect_err("no save");
        assert!(matches!(refused.fault, SavedFault::Table(Error::NotKept)));
        assert!(bytes.is_empty());
    }
}

#[test]
fn it_cuts_what_it_has() {
    let options = Table::options().keep(2);
    let table = options.open_dump(TEXT, &[0]).expect("a table");
    let mut seat = table.seat().expect("a seat");
    for _ in 0..5 {
        assert_eq!(seat.getpid(1), Ok(1));
    }
    let counts = table.counts().expect("counts");
    assert_eq!((counts.first_kept, counts.recorded), (3, 5));
}
