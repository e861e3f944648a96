//! Whom a page lists: the children of a task, the members of a process group or of a session, the tasks of a namespace, and those of a control group.
use crate::{raw, Error, Reply};

/// The room for a first try, in numbers.
const SHORT: usize = 64;

/// How many times as long the next room is: so all tries of a list together cost little more than the last one.
pub(crate) const GROWTH: usize = 4;

/// All numbers of a function of the library that writes as many as there is room for, and whose reply counts one more where there are more. Between two
/// tries nothing changes.
pub(crate) fn all(
    mut page: impl FnMut(&mut [u32], &mut raw::Reply) -> u32,
) -> Result<Vec<u32>, Error> {
    let (mut numbers, mut reply, mut there) = (Vec::new(), raw::Reply::BLANK, SHORT);
    loop {
        numbers
            .try_reserve_exact(there - numbers.len())
            .map_err(|_| Error::NoMemory)?;
        numbers.resize(there, 0);
        Error::unless_done(page(&mut numbers, &mut reply))?;
        let count = match Reply::of(&reply) {
            Reply::Counted(count) => count as usize,
            other => return other.refused(None),
        };
        if count <= there {
            numbers.truncate(count);
            return Ok(numbers);
        }
        there *= GROWTH;
    }
}

#[cfg(test)]
mod tests {
    use super::*;
    use crate::{Refusal, Table};

    fn open() -> Table {
        Table::open(32768).expect("a table")
    }

    /// 3 is 1 of a new namespace, and its child 4 is 2 there. 2 leads a session, of which is its child 5, a zombie.
    #[test]
    fn each_kind() {
        let table = open();
        table.fork(1).expect("a child");
        table.fork_new(1).expect("a child");
        table.fork(3).expect("a child");
        table.setsid(2).expect("a session");
        table.fork(2).expect("a child");
        table.exit(5, 0).expect("an end");
        for (caller, number, children) in [
            (1, 0, &[2, 3][..]),
            (1, 1, &[2, 3]),
            (2, 0, &[5]),
            (1, 3, &[4]),
            (3, 0, &[2]),
            (4, 1, &[2]),
            (1, 9, &[]),
        ] {
            assert_eq!(table.children(caller, number, 0).as_deref(), Ok(children));
        }
        // The namespace of 4 sees no number of the group and the session of 1.
        for (caller, number, members) in [
            (1, 0, &[1, 3, 4][..]),
            (2, 2, &[2, 5]),
            (4, 0, &[1, 2]),
            (4, 1, &[]),
        ] {
            let found = table.group_members(caller, number, 0);
            assert_eq!(found.as_deref(), Ok(members));
            assert_eq!(table.session_members(caller, number, 0), found);
        }
        // 3 and 4 are 1 and 2 of their own namespace.
        for (caller, number, all, own) in [
            (1, 0, &[1, 2, 3, 4, 5][..], &[1, 2, 5][..]),
            (1, 4, &[3, 4], &[3, 4]),
            (4, 0, &[1, 2], &[1, 2]),
            (4, 3, &[], &[]),
        ] {
            let found = table.namespace_members(caller, number, 0);
            assert_eq!(found.as_deref(), Ok(all));
            assert_eq!(table.namespace_own(caller, number, 0).as_deref(), Ok(own));
        }
        assert_eq!(table.children(1, 0, 3), Ok(vec![3]));
        assert_eq!(table.group_members(1, 0, u32::MAX), Ok(vec![]));
        let (errno, refusal) = (3, Refusal::NoCaller);
        for refused in [table.children(5, 0, 0), table.session_members(9, 1, 0)] {
            assert_eq!(
                refused,
                Err(Error::Refused {
                    errno,
                    refusal,
                    call: None
                })
            );
        }
        assert_eq!(table.mk(0), Ok(7));
    }

    /// The control group 2 is in 1. 3 is the init of a namespace, and its child 4 is 2 there. 2 and 4 are in 1, 5 in 2, and 6 is a zombie there.
    #[test]
    fn of_control_groups() {
        let table = open();
        assert_eq!((table.mk(0), table.mk(1)), (Ok(1), Ok(2)));
        let lines = "fork 1,fork 1 new,fork 3,move 2 1,move 4 1,fork 1,move 5 2,fork 5,exit 6 0";
        for line in lines.split(',') {
            table.line(line).expect("a call");
        }
        for (caller, control, from, tasks) in [
            (1, 0, 0, &[1, 3][..]),
            (1, 1, 0, &[2, 4]),
            (1, 1, 3, &[4]),
            (1, 1, u32::MAX, &[]),
            (1, 2, 0, &[5]),
            (3, 0, 0, &[1]),
            (4, 1, 0, &[2]),
            (3, 2, 0, &[]),
        ] {
            let found = table.control_tasks(caller, control, from);
            assert_eq!(found.as_deref(), Ok(tasks));
        }
        let refused = |errno, refusal| {
            Err(Error::Refused {
                errno,
                refusal,
                call: None,
            })
        };
        assert_eq!(table.control_tasks(6, 9, 0), refused(3, Refusal::NoCaller));
        assert_eq!(table.control_tasks(1, 9, 0), refused(2, Refusal::NoControl));
        // 4 is the id of a namespace.
        assert_eq!(table.control_tasks(1, 4, 0), refused(2, Refusal::NoControl));
        assert_eq!(table.mk(0), Ok(12));
    }

    #[test]
    fn more_than_there_is_room_for_at_first() {
        let table = open();
        for count in 0..3 * SHORT as u32 {
            let children: Vec<_> = (2..count + 2).collect();
            assert_eq!(table.control_tasks(1, 0, 2).as_ref(), Ok(&children));
            assert_eq!(table.children(1, 0, 0), Ok(children));
            table.fork(1).expect("a child");
        }
    }

    #[test]
    fn no_memory() {
        let mut numbers = 0;
        let told = all(|room, _| {
            numbers = room.len();
            raw::NO_MEMORY
        });
        assert_eq!((told, numbers), (Err(Error::NoMemory), SHORT));
    }
}
