//! A task as the caller's namespace sees it.
use crate::{raw, Ended, Error, Refusal};
use std::fmt;

/// A task as the caller's namespace sees it. The numbers of processes but the root number are those there, 0 where there is none.
#[derive(Clone, Copy, PartialEq)]
pub struct Stat {
    raw: raw::Task,
}

impl Stat {
    /// The task that the library has read, with that status.
    pub(crate) fn of(status: u32, task: raw::Task) -> Result<Stat, Error> {
        Error::unless_done(status)?;
        match task.error {
            0 => Ok(Stat { raw: task }),
            errno => Err(Error::Refused {
                errno: errno as i32,
                refusal: Refusal::of(task.refusal, 0),
                call: None,
            }),
        }
    }

    /// Its numbers from the caller's namespace inwards, 1 to 33 of them.
    pub fn numbers(&self) -> &[u32] {
        &self.raw.levels[..self.raw.count as usize]
    }

    /// Its number in the root namespace, which names it in calls.
    pub fn root(&self) -> u32 {
        self.raw.root
    }

    /// The number of its parent.
    pub fn parent(&self) -> u32 {
        self.raw.parent
    }

    /// The number of its process group.
    pub fn group(&self) -> u32 {
        self.raw.group
    }

    /// The number of its session.
    pub fn session(&self) -> u32 {
        self.raw.session
    }

    /// How it ended; none for a live task.
    pub fn ended(&self) -> Option<Ended> {
        let ended = match u64::from(self.raw.status) {
            raw::KILLED => Ended::Killed,
            status => Ended::Exited(status as u8),
        };
        (self.raw.ended == 1).then_some(ended)
    }

    /// Whether it has executed.
    pub fn executed(&self) -> bool {
        self.raw.executed == 1
    }

    /// Whether it takes orphans of its namespace.
    pub fn subreaper(&self) -> bool {
        self.raw.subreaper == 1
    }

    /// The id of its own namespace.
    pub fn space(&self) -> u64 {
        self.raw.space
    }

    /// The id of its control group.
    pub fn control(&self) -> u64 {
        self.raw.control
    }
}

impl fmt::Debug for Stat {
    fn fmt(&self, to: &mut fmt::Formatter<'_>) -> fmt::Result {
        to.debug_struct("Stat")
            .field("numbers", &self.numbers())
            .field("root", &self.root())
            .field("parent", &self.parent())
            .field("group", &self.group())
            .field("session", &self.session())
            .field("ended", &self.ended())
            .field("executed", &self.executed())
            .field("subreaper", &self.subreaper())
            .field("space", &self.space())
            .field("control", &self.control())
            .finish()
    }
}

#[cfg(test)]
mod tests {
    use super::*;
    use crate::Table;

    /// The task 3,2 of the worked list of docs/SCRIPT.md, and a zombie.
    #[test]
    fn a_task_and_a_zombie() {
        let table = Table::open(32768).expect("a table");
        table.fork_new(1).expect("a child");
        table.fork(2).expect("a child");
        let task = table.stat(1, 3).expect("a task");
        assert_eq!((task.numbers(), task.space()), (&[3, 2][..], 1));
        assert_eq!((task.parent(), task.group(), task.session()), (2, 1, 1));
        assert_eq!((task.ended(), task.control()), (None, 0));
        assert_eq!((task.executed(), task.subreaper()), (false, false));
        let inside = table.stat(2, 2).expect("a task");
        assert_eq!((inside.numbers(), inside.parent()), (&[2][..], 1));
        assert_eq!((task.root(), inside.root()), (3, 3));
        assert_eq!((inside.group(), inside.session()), (0, 0));
        table.exec(3).expect("a program");
        table.subreaper(3, true).expect("a subreaper");
        let task = table.stat(1, 3).expect("a task");
        assert_eq!((task.executed(), task.subreaper()), (true, true));
        table.exit(3, 7).expect("an end");
        let ended = table.stat(1, 3).expect("a zombie").ended();
        assert_eq!(ended, Some(Ended::Exited(7)));
        table.exit(2, 0).expect("an end");
        assert!(table.stat(1, 3).is_err());
        let (errno, refusal) = (3, Refusal::NoCaller);
        assert_eq!(
            table.stat(9, 0),
            Err(Error::Refused {
                errno,
                refusal,
                call: None
            })
        );
        let refusal = Refusal::NoTask;
        assert_eq!(
            table.stat(1, 9),
            Err(Error::Refused {
                errno,
                refusal,
                call: None
            })
        );
    }
}
