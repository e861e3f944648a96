//! A namespace in one read.
use crate::page::GROWTH;
use crate::{raw, Error};

/// A namespace, as a read of its id tells it.
#[derive(Clone, Copy, Debug, PartialEq, Eq, Hash)]
pub struct SpaceStat {
    /// Its id.
    pub id: u64,
    /// The id of the namespace that it is in; none of the root namespace.
    pub parent: Option<u64>,
    /// How many namespaces are around it: 0 for the root namespace, 32 for the deepest.
    pub level: u32,
    /// The root number of its init, ended or not; none where that was reaped.
    pub init: Option<u32>,
    /// Whether its init has ended: it takes no task any more, and is gone with the last number in it.
    pub fallen: bool,
}

impl SpaceStat {
    /// The namespace that the library has read, with that status.
    pub(crate) fn of(status: u32, space: raw::Space) -> Result<Option<SpaceStat>, Error> {
        if status == raw::OUT_OF_RANGE {
            return Ok(None);
        }
        Error::unless_done(status)?;
        Ok(Some(SpaceStat {
            id: space.id,
            parent: (space.level != 0).then_some(space.parent),
            level: space.level,
            init: (space.init != 0).then_some(space.init),
            fallen: space.fallen == 1,
        }))
    }
}

/// The room for a first try, in ids.
const SHORT: usize = 64;

/// All ids of a function of the library that writes as many as there is room for, and counts one more where there are more; none where it has no such id.
/// Between two tries nothing changes.
pub(crate) fn inside(
    mut page: impl FnMut(&mut [u64], &mut u64) -> u32,
) -> Result<Option<Vec<u64>>, Error> {
    let (mut ids, mut count, mut there) = (Vec::new(), 0, SHORT);
    loop {
        ids.try_reserve_exact(there - ids.len())
            .map_err(|_| Error::NoMemory)?;
        ids.resize(there, 0);
        let status = page(&mut ids, &mut count);
        if status == raw::OUT_OF_RANGE {
            return Ok(None);
        }
        Error::unless_done(status)?;
        if count <= there as u64 {
            ids.truncate(count as usize);
            return Ok(Some(ids));
        }
        there *= GROWTH;
    }
}

#[cfg(test)]
mod tests {
    use super::*;
    use crate::{Table, Which};

    fn told(id: u64, parent: Option<u64>, level: u32, init: u32, fallen: bool) -> SpaceStat {
        SpaceStat {
            id,
            parent,
            level,
            init: (init != 0).then_some(init),
            fallen,
        }
    }

    /// The ids are the numbers of calls. 2 is the init of 1, and 3 that of 2 within it. 4 is that of 3, in which is 5, a child of the root init.
    #[test]
    fn each_field_and_each_end() {
        let table = Table::open(32768).expect("a table");
        assert_eq!(table.space(1), Ok(None));
        table.fork_new(1).expect("a child");
        table.fork_new(2).expect("a child");
        table.fork_new(1).expect("a child");
        table.join(1, 4).expect("a namespace");
        table.fork(1).expect("a child");
        let all = [
            told(0, None, 0, 1, false),
            told(1, Some(0), 1, 2, false),
            told(2, Some(1), 2, 3, false),
            told(3, Some(0), 1, 4, false),
        ];
        for (id, wanted) in (0..).zip(all) {
            assert_eq!(table.space(id), Ok(Some(wanted)));
        }
        for none in [4, 6, 1 << 32, u64::MAX] {
            assert_eq!(table.space(none), Ok(None));
        }
        table.exit(4, 0).expect("an end");
        assert_eq!(table.space(3), Ok(Some(told(3, Some(0), 1, 4, true))));
        table.wait(1, Which::Pid(4)).expect("a zombie");
        assert_eq!(table.space(3), Ok(Some(told(3, Some(0), 1, 0, true))));
        table.wait(1, Which::Pid(5)).expect("a zombie");
        assert_eq!(table.space(3), Ok(None));
        // What is within a namespace goes at once with its init.
        table.exit(2, 0).expect("an end");
        assert_eq!(table.space(1), Ok(Some(told(1, Some(0), 1, 2, true))));
        assert_eq!(table.space(2), Ok(None));
        // No read was a call.
        assert_eq!(table.mk(0), Ok(10));
    }

    /// The namespaces 1 and 3 are in the root, and 2 in 1. The control group 5 is in 4.
    #[test]
    fn each_tree() {
        let table = Table::open(32768).expect("a table");
        assert_eq!(table.spaces_inside(0, 0), Ok(Some(vec![])));
        table.fork_new(1).expect("a child");
        table.fork_new(2).expect("a child");
        table.fork_new(1).expect("a child");
        assert_eq!([table.mk(0), table.mk(4)], [Ok(4), Ok(5)]);
        for (id, from, wanted) in [(0, 0, &[1, 3][..]), (0, 2, &[3]), (1, 0, &[2]), (3, 0, &[])] {
            assert_eq!(table.spaces_inside(id, from), Ok(Some(wanted.to_vec())));
        }
        for (id, from, wanted) in [
            (0, 0, &[4][..]),
            (4, 0, &[5]),
            (4, u64::MAX, &[]),
            (5, 0, &[]),
        ] {
            assert_eq!(table.controls_inside(id, from), Ok(Some(wanted.to_vec())));
        }
        assert_eq!(table.spaces_inside(4, 0), Ok(None));
        assert_eq!(table.controls_inside(1, 0), Ok(None));
        // No read was a call.
        assert_eq!(table.mk(0), Ok(6));
    }

    #[test]
    fn more_than_there_is_room_for_at_first() {
        let table = Table::open(32768).expect("a table");
        for count in 0..3 * SHORT as u64 {
            let made: Vec<_> = (1..=count).collect();
            assert_eq!(table.controls_inside(0, 0), Ok(Some(made)));
            table.mk(0).expect("a control group");
        }
    }

    #[test]
    fn statuses_of_what_is_inside() {
        let mut room = 0;
        let told = inside(|ids, _| {
            room = ids.len();
            raw::NO_MEMORY
        });
        assert_eq!((told, room), (Err(Error::NoMemory), SHORT));
        assert_eq!(inside(|_, _| raw::BUSY), Err(Error::Busy));
        assert_eq!(inside(|_, _| raw::OUT_OF_RANGE), Ok(None));
    }

    /// Threads read beside a writer: the namespaces in the root are 1, 2 and so on, never fewer than before.
    #[test]
    fn beside_a_writer() {
        const FORKS: usize = 300;
        let table = Table::options().threads().open().expect("a table");
        std::thread::scope(|scope| {
            for _ in 0..3 {
                scope.spawn(|| {
                    let mut before = 0;
                    while before < FORKS {
                        let ids = table.spaces_inside(0, 0).expect("a read");
                        let ids = ids.expect("the root");
                        assert!(ids.len() >= before);
                        assert!((1..).zip(&ids).all(|(wanted, id)| wanted == *id));
                        before = ids.len();
                    }
                });
            }
            for _ in 0..FORKS {
                table.fork_new(1).expect("a child");
            }
        });
    }

    #[test]
    fn statuses() {
        let space = raw::Space::BLANK;
        assert_eq!(SpaceStat::of(raw::BUSY, space), Err(Error::Busy));
        assert_eq!(SpaceStat::of(raw::OUT_OF_RANGE, space), Ok(None));
    }
}
