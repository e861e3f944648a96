//! Names of tasks, which are outside of the table.
use crate::{raw, Call, Error, Reply, Table};
use std::collections::HashMap;

/// The root init, which sees all tasks by their root numbers.
const INIT: u32 = 1;

/// Labels by root numbers. One goes when its number is another task's.
#[derive(Default)]
pub(crate) struct Labels {
    by_root: HashMap<u32, String>,
}

impl Labels {
    /// The labels, in no order.
    pub(crate) fn iter(&self) -> impl Iterator<Item = (u32, &str)> {
        self.by_root
            .iter()
            .map(|(root, label)| (*root, label.as_str()))
    }

    /// Takes the label away of who had the number before.
    pub(crate) fn forget(&mut self, root: u32) {
        self.by_root.remove(&root);
    }

    /// Notes calls that were made again. Where they stopped, nobody is told which number a fork with another reply has drawn.
    pub(crate) fn made_again(&mut self, entries: &[raw::Entry], is_done: bool) {
        if !is_done {
            self.by_root.clear();
        }
        if !self.by_root.is_empty() {
            let new = entries
                .iter()
                .filter_map(|it| new_task(&Reply::of(&it.reply)));
            new.for_each(|root| self.forget(root));
        }
    }

    /// Puts a label, or takes the one away that there is.
    fn put(&mut self, root: u32, label: &str) {
        if label.is_empty() {
            self.by_root.remove(&root);
        } else {
            self.by_root.insert(root, label.into());
        }
    }
}

/// The root number of the new task that a reply may tell.
pub(crate) fn new_task(reply: &Reply) -> Option<u32> {
    match reply {
        Reply::Forked(child) => Some(child.root),
        _ => None,
    }
}

/// The same of an answer, as `child 2 root 3`.
pub(crate) fn new_task_of(answer: &str) -> Option<u32> {
    let numbers = answer.strip_prefix("child ")?;
    numbers.rsplit(' ').next()?.parse().ok()
}

impl Table {
    /// Names a task, by its root number, in [`Table::listing`] and in its JSON; an empty label takes the name away. It is no call: the table, its
    /// text and its history know nothing of it. The name goes when the number is another task's; a replay that stops takes all names away.
    ///
    /// ```
    /// use pidtab::Table;
    ///
    /// let table = Table::open(32768)?;
    /// let child = table.fork_new(1)?;
    /// table.label(child.root, "nginx")?;
    /// assert_eq!(table.listing()?.tasks[1].label.as_deref(), Some("nginx"));
    /// # Ok::<(), pidtab::Error>(())
    /// ```
    ///
    /// # Errors
    /// `Refused` as `NoTask`; `BadLabel`, `Busy`.
    pub fn label(&self, task: u32, label: &str) -> Result<(), Error> {
        check(label)?;
        // No fork takes the number meanwhile.
        let _query = self.for_read();
        let mut found = raw::Reply::BLANK;
        Error::unless_done(self.raw.ask(&find(task).numbers(), &mut found))?;
        let root = root_of(task, &Reply::of(&found))?;
        self.labels().put(root, label);
        Ok(())
    }
}

/// What finds a task, a zombie too.
fn find(task: u32) -> Call {
    Call::Getpgid {
        caller: INIT,
        pid: task,
    }
}

/// The root number of a task that was found, where 0 is the root init.
fn root_of(task: u32, found: &Reply) -> Result<u32, Error> {
    match *found {
        Reply::Refused { errno, refusal } => Err(Error::Refused {
            errno,
            refusal,
            call: None,
        }),
        _ => Ok(task.max(INIT)),
    }
}

fn check(label: &str) -> Result<(), Error> {
    if label.contains(is_unprintable) {
        return Err(Error::BadLabel);
    }
    Ok(())
}

/// Whether a letter has no place in a label: it controls a terminal, or ends a line.
fn is_unprintable(letter: char) -> bool {
    letter.is_control() || matches!(letter, '\u{2028}' | '\u{2029}')
}

#[cfg(test)]
mod tests {
    use super::*;
    use crate::{Child, Keep, Listing, Refusal, Which};

    /// The last number below the least `pid_max`: the search for a number begins there again.
    const LAST: u32 = 300;

    fn labels_of(listing: Result<Listing, Error>) -> Vec<(u32, String)> {
        let tasks = listing.expect("a list").tasks;
        let labelled = tasks.into_iter().map(|it| (it.root(), it.label));
        labelled
            .filter_map(|(root, label)| Some((root, label?)))
            .collect()
    }

    const FORK: Call = Call::Fork {
        caller: 1,
        new_space: false,
    };

    /// Forks children of the root init that end, up to the last number, which then comes again and again.
    fn go_up(table: &Table) {
        loop {
            let child = table.fork(1).expect("a child").root;
            if child == LAST {
                return;
            }
            table.exit(child, 0).expect("an end");
            table.wait(1, Which::Any).expect("a wait");
        }
    }

    #[test]
    fn a_label_is_no_part_of_the_table() {
        let table = Table::open(32768).expect("a table");
        table.fork(1).expect("a child");
        let text = table.dump();
        table.label(2, "x").expect("a label");
        table.label(2, "web \"1\"").expect("a label");
        assert_eq!(labels_of(table.listing()), [(2, "web \"1\"".into())]);
        let json = table.listing().expect("a list").to_json();
        assert!(json.contains(r#""label":"web \"1\""}"#), "{json}");
        assert_eq!(table.dump(), text);
        table.label(2, "").expect("no label");
        assert_eq!(labels_of(table.listing()), []);
    }

    #[test]
    fn a_label_goes_with_its_task() {
        let table = Table::open(301).expect("a table");
        go_up(&table);
        let forks: [fn(&Table); 3] = [
            |it| drop(it.call(FORK)),
            |it| drop(it.told(FORK)),
            |it| drop(it.line("fork 1")),
        ];
        for fork in forks {
            table.label(LAST, "short").expect("a label");
            table.exit(LAST, 0).expect("an end");
            assert_eq!(labels_of(table.listing()), [(LAST, "short".into())]);
            table.wait(1, Which::Any).expect("a wait");
            fork(&table);
            assert!(table.getpid(LAST).is_ok());
            assert_eq!(labels_of(table.listing()), []);
        }
    }

    #[test]
    fn a_label_of_a_table_with_a_history() {
        let options = Table::options().pid_max(301).keep(Keep::All).workers(2);
        let table = options.threads().open().expect("a table");
        let mut seat = table.seat().expect("a seat");
        go_up(&table);
        let last = table.counts().expect("counts").recorded - 1;
        let saved = table.entries(last, 1).expect("the fork");
        for way in ["call", "told", "line", "calls", "fork_at", "replay"] {
            table.label(LAST, "short").expect("a label");
            seat.exit(LAST, 0).expect("an end");
            assert_eq!(labels_of(table.listing()), [(LAST, "short".into())]);
            seat.wait(1, Which::Any).expect("a wait");
            let (number, root) = (LAST, LAST);
            match way {
                "call" => drop(seat.fork(1)),
                "told" => drop(seat.told(FORK)),
                "line" => drop(seat.line("fork 1")),
                "calls" => drop(seat.calls(&[FORK], &mut Vec::new())),
                "fork_at" => drop(seat.fork_at(1, Child { number, root })),
                _ => table.replay(&saved).expect("the same fork"),
            }
            assert!(seat.getpid(LAST).is_ok(), "{way}");
            assert_eq!(labels_of(table.listing()), [], "{way}");
        }
        let held = table.lock().expect("the lock");
        held.label(1, "init").expect("a label");
        assert_eq!(labels_of(held.listing()), [(1, "init".into())]);
        assert!(held.replay(&saved).is_err());
        assert_eq!(labels_of(held.listing()), []);
    }

    #[test]
    fn what_is_no_label_and_who_is_nobody() {
        let table = Table::open(32768).expect("a table");
        for label in ["a\nb", "\u{7}", "\u{2028}", "\u{9b}1m"] {
            assert_eq!(table.label(1, label), Err(Error::BadLabel), "{label:?}");
        }
        let (errno, refusal) = (3, Refusal::NoTask);
        assert_eq!(
            table.label(9, "x"),
            Err(Error::Refused {
                errno,
                refusal,
                call: None
            })
        );
    }
}
