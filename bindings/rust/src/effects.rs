//! What calls do, which is told beside their replies: to tasks, process groups, sessions and namespaces.
use crate::numbers::ended_of;
use crate::{raw, Ended, Error, Reply};

/// What a call did to a task, or what is there no more after it. All numbers are root numbers. More may come.
#[derive(Clone, Copy, Debug, PartialEq, Eq, Hash)]
#[non_exhaustive]
pub enum Effect {
    /// The task lives no more.
    Ended {
        /// Its number.
        number: u32,
        /// How it ended.
        ended: Ended,
    },
    /// The task has another parent.
    Adopted {
        /// Its number.
        number: u32,
        /// The parent's number.
        parent: u32,
    },
    /// The task is there no more: it was reaped, or went with its namespace.
    Gone {
        /// Its number.
        number: u32,
    },
    /// The process group has no member any more, no zombie either.
    GroupGone {
        /// Its number.
        number: u32,
    },
    /// The session has no member any more, no zombie either.
    SessionGone {
        /// Its number.
        number: u32,
    },
    /// The namespace has fallen: its init has ended, and it takes no task any more.
    SpaceFell {
        /// Its id.
        id: u64,
    },
    /// The namespace is there no more, as nothing has a number in it.
    SpaceGone {
        /// Its id.
        id: u64,
    },
}

impl Effect {
    /// The effect that the library's numbers say.
    fn of(numbers: &raw::Effect) -> Effect {
        let (number, id) = (numbers.number, numbers.value);
        match numbers.what {
            raw::TASK_ENDED => Effect::Ended {
                number,
                ended: ended_of(numbers.value),
            },
            raw::TASK_ADOPTED => Effect::Adopted {
                number,
                parent: numbers.value as u32,
            },
            raw::TASK_GONE => Effect::Gone { number },
            raw::GROUP_GONE => Effect::GroupGone { number },
            raw::SESSION_GONE => Effect::SessionGone { number },
            raw::SPACE_FELL => Effect::SpaceFell { id },
            raw::SPACE_GONE => Effect::SpaceGone { id },
            other => unreachable!("no effect has the number {other}"),
        }
    }
}

/// What a call was replied, and what it did.
#[derive(Clone, Debug, PartialEq, Eq, Hash)]
pub struct Told {
    /// The reply, which may be a refusal.
    pub reply: Reply,
    /// What it did: first to tasks by root numbers in rising order, then to process groups and to sessions likewise, and then to namespaces by rising ids. Of a
    /// task that ended and is gone, and of a namespace that fell and is gone, there are both, in this order.
    pub effects: Vec<Effect>,
}

/// The room for a first try, in effects.
const SHORT: usize = 64;

/// What a function of the library tells that makes a call and counts its effects, or counts the room that it takes. Between two tries nothing changes.
pub(crate) fn told(
    mut make: impl FnMut(&mut raw::Reply, &mut [raw::Effect], &mut u64) -> u32,
) -> Result<Told, Error> {
    let (mut reply, mut room, mut count) = (raw::Reply::BLANK, Vec::new(), SHORT as u64);
    let mut effects = Vec::new();
    let status = loop {
        // All memory is there before the call is made.
        let there = count as usize;
        room.try_reserve_exact(there - room.len())
            .and(effects.try_reserve_exact(there))
            .map_err(|_| Error::NoMemory)?;
        room.resize(there, raw::Effect::BLANK);
        let status = make(&mut reply, &mut room, &mut count);
        if status != raw::NO_ROOM {
            break status;
        }
    };
    Error::unless_done(status)?;
    effects.extend(room[..count as usize].iter().map(Effect::of));
    Ok(Told {
        reply: Reply::of(&reply),
        effects,
    })
}

#[cfg(test)]
mod tests {
    use super::*;
    use crate::{Call, Keep, Reaped, Refusal, Table, Which};

    fn exit(caller: u32, status: u8) -> Call {
        Call::Exit { caller, status }
    }

    fn ended(number: u32, status: u8) -> Effect {
        Effect::Ended {
            number,
            ended: Ended::Exited(status),
        }
    }

    fn killed(number: u32) -> Effect {
        Effect::Ended {
            number,
            ended: Ended::Killed,
        }
    }

    fn adopted(number: u32, parent: u32) -> Effect {
        Effect::Adopted { number, parent }
    }

    fn gone(number: u32) -> Effect {
        Effect::Gone { number }
    }

    fn group_gone(number: u32) -> Effect {
        Effect::GroupGone { number }
    }

    fn session_gone(number: u32) -> Effect {
        Effect::SessionGone { number }
    }

    fn fell(id: u64) -> Effect {
        Effect::SpaceFell { id }
    }

    fn space_gone(id: u64) -> Effect {
        Effect::SpaceGone { id }
    }

    fn wait(caller: u32) -> Call {
        let which = Which::Any;
        Call::Wait { caller, which }
    }

    fn setpgid(caller: u32, pid: i32, pgid: i32) -> Call {
        Call::Setpgid { caller, pid, pgid }
    }

    fn reaped(child: u32, status: u8) -> Reply {
        let ended = Ended::Exited(status);
        Reply::Reaped(Reaped { child, ended })
    }

    /// That each of these calls is told so, of a table and of a seat.
    fn are_told(lines: &[&str], calls: &[(Call, Reply, &[Effect])]) {
        let table = Table::open(32768).expect("a table");
        let recorded = Table::options().keep(Keep::All).open().expect("a table");
        let mut seat = recorded.seat().expect("a seat");
        for line in lines {
            table.line(line).expect("a call");
            seat.line(line).expect("a call");
        }
        for (call, reply, effects) in calls {
            let told = Told {
                reply: reply.clone(),
                effects: effects.to_vec(),
            };
            assert_eq!(table.told(*call).as_ref(), Ok(&told), "{}", call.line());
            assert_eq!(seat.told(*call), Ok(told), "{}", call.line());
        }
        let made = (lines.len() + calls.len()) as u64;
        assert_eq!(seat.ordinal(), Some(made - 1));
        assert_eq!(recorded.list(), table.list());
    }

    /// 2 is the init of the namespace 1, in which are its child 3 and the children 4 and 5 of that. 5 is the init of the namespace 4 within.
    #[test]
    fn a_fall() {
        let refused = Reply::Refused {
            errno: 16,
            refusal: Refusal::RootInit,
        };
        are_told(
            &["fork 1 new", "fork 2", "fork 3", "fork 3 new"],
            &[
                (exit(4, 255), Reply::Done, &[ended(4, 255)]),
                (
                    exit(3, 1),
                    Reply::Done,
                    &[ended(3, 1), adopted(4, 2), adopted(5, 2)],
                ),
                (
                    exit(2, 9),
                    Reply::Done,
                    &[
                        ended(2, 9),
                        gone(3),
                        gone(4),
                        killed(5),
                        gone(5),
                        fell(1),
                        fell(4),
                        space_gone(4),
                    ],
                ),
                (wait(1), reaped(2, 9), &[gone(2), space_gone(1)]),
                (exit(1, 0), refused, &[]),
            ],
        );
    }

    /// 2 leads a session, of which are its children 3 and 4, and 4 leads a group. A zombie is a member until it is reaped.
    #[test]
    fn groups_and_sessions() {
        are_told(
            &["fork 1", "setsid 2", "fork 2", "fork 2"],
            &[
                (setpgid(2, 3, 0), Reply::Done, &[]),
                (setpgid(2, 4, 4), Reply::Done, &[]),
                (setpgid(2, 3, 2), Reply::Done, &[group_gone(3)]),
                (
                    exit(2, 1),
                    Reply::Done,
                    &[ended(2, 1), adopted(3, 1), adopted(4, 1)],
                ),
                (wait(1), reaped(2, 1), &[gone(2)]),
                (
                    Call::Setsid { caller: 3 },
                    Reply::Number(3),
                    &[group_gone(2)],
                ),
                (exit(4, 2), Reply::Done, &[ended(4, 2)]),
                (
                    wait(1),
                    reaped(4, 2),
                    &[gone(4), group_gone(4), session_gone(2)],
                ),
            ],
        );
    }

    /// 3 is the init of the namespace 2, and 2 is in its group, whose number keeps the namespace.
    #[test]
    fn a_group_keeps_a_namespace() {
        are_told(
            &["fork 1", "fork 2 new", "setpgid 2 3 0"],
            &[
                (setpgid(2, 0, 3), Reply::Done, &[]),
                (exit(3, 0), Reply::Done, &[ended(3, 0), fell(2)]),
                (wait(2), reaped(3, 0), &[gone(3)]),
                (
                    setpgid(2, 0, 1),
                    Reply::Done,
                    &[group_gone(3), space_gone(2)],
                ),
            ],
        );
    }

    #[test]
    fn more_than_there_is_room_for_at_first() {
        // Of each task there may be two effects, and one of their group and of their session.
        for count in [SHORT / 2 - 3, SHORT / 2 - 2, SHORT / 2 - 1, 5 * SHORT] {
            let table = Table::open(32768).expect("a table");
            table.fork(1).expect("a child");
            let mut wanted = vec![ended(2, 7)];
            for _ in 0..count {
                let child = table.fork(2).expect("a child");
                wanted.push(adopted(child.root, 1));
            }
            assert_eq!(table.told(exit(2, 7)).map(|it| it.effects), Ok(wanted));
        }
    }

    #[test]
    fn rooms_and_statuses() {
        let mut rooms = Vec::new();
        let short = told(|_, room, count| {
            rooms.push(room.len());
            *count = 1000 * rooms.len() as u64;
            if rooms.len() == 3 {
                raw::NO_MEMORY
            } else {
                raw::NO_ROOM
            }
        });
        assert_eq!(
            (short, rooms),
            (Err(Error::NoMemory), vec![SHORT, 1000, 2000])
        );
        assert_eq!(told(|_, _, _| raw::BUSY), Err(Error::Busy));
        assert_eq!(told(|_, _, _| raw::SPENT), Err(Error::Spent));
        // So much memory there is not.
        let vast = told(|_, _, count| {
            *count = u64::MAX;
            raw::NO_ROOM
        });
        assert_eq!(vast, Err(Error::NoMemory));
    }

    /// Threads fork children of a task that ends: each child that was made has another parent after it.
    #[test]
    fn beside_threads_that_fork() {
        const FORKS: usize = 100;
        let options = Table::options().pid_max(5000).keep(Keep::All).workers(4);
        let table = options.threads().open().expect("a table");
        let mut seat = table.seat().expect("a seat");
        let parent = seat.fork(1).expect("a child").root;
        let (told, mut children) = std::thread::scope(|scope| {
            let forks: Vec<_> = (0..3)
                .map(|_| {
                    scope.spawn(|| {
                        let mut seat = table.seat().expect("a seat");
                        let forked = std::iter::repeat_with(|| seat.fork(parent));
                        let made = forked.map_while(Result::ok).map(|it| it.root);
                        made.collect::<Vec<_>>()
                    })
                })
                .collect();
            while table.counts().expect("counts").recorded < FORKS as u64 {
                std::thread::yield_now();
            }
            let told = seat.told(exit(parent, 3));
            let made = forks
                .into_iter()
                .flat_map(|it| it.join().expect("no panic"));
            (told, made.collect::<Vec<_>>())
        });
        let mut wanted = vec![ended(parent, 3)];
        children.sort();
        wanted.extend(children.iter().map(|child| adopted(*child, 1)));
        assert_eq!(told.map(|it| it.effects), Ok(wanted));
    }
}
