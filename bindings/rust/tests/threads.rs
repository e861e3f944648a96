//! A table of many threads, and its history: sixteen threads, whose receipts are compared with the history; bounds, replays and locks. What
//! each function answers is in interface/cases.
use pidtab::{
    Call, Child, Counts, Ended, Entry, Error, Keep, Options, Reaped, ReplayError, Reply, Seat,
    Table, Which,
};
use std::sync::atomic::{AtomicBool, Ordering};
use std::sync::Arc;
use std::thread;
use std::time::Duration;

const WORKERS: u32 = 16;
const EACH: usize = 20_000;
const ALL: u64 = WORKERS as u64 * EACH as u64;

fn options(workers: u32) -> Options {
    Table::options().keep(Keep::All).workers(workers).threads()
}

fn open(workers: u32) -> Table {
    options(workers).open().expect("a table")
}

/// How far the history goes: the first kept entry, and the recorded calls.
fn counts(table: &Table) -> (u64, u64) {
    let Counts {
        first_kept,
        recorded,
        ..
    } = table.counts().expect("counts");
    (first_kept, recorded)
}

/// Makes the call, and keeps what its worker knows of it.
fn make(seat: &mut Seat<&Table>, receipts: &mut Vec<Entry>, call: Call) -> Reply {
    let reply = seat.call(call).expect("a reply");
    receipts.push(Entry {
        ordinal: seat.ordinal().expect("an ordinal"),
        worker: seat.worker(),
        call,
        reply: reply.clone(),
    });
    reply
}

fn forked(reply: Reply) -> Child {
    match reply {
        Reply::Forked(child) => child,
        other => panic!("{other:?}"),
    }
}

/// A namespace of the worker's own, and in it one child after the other, which ends with the worker's number. The receipts.
fn serve(mut seat: Seat<&Table>) -> Vec<Entry> {
    let (mut receipts, status) = (Vec::new(), seat.worker() as u8);
    let (caller, new_space) = (1, true);
    let own = forked(make(
        &mut seat,
        &mut receipts,
        Call::Fork { caller, new_space },
    ))
    .root;
    while receipts.len() + 4 < EACH {
        let (caller, new_space) = (own, false);
        let child = forked(make(
            &mut seat,
            &mut receipts,
            Call::Fork { caller, new_space },
        ));
        let caller = child.root;
        let pid = make(&mut seat, &mut receipts, Call::Getpid { caller });
        assert_eq!(pid, Reply::Number(child.number));
        make(&mut seat, &mut receipts, Call::Exit { caller, status });
        let (caller, which) = (own, Which::Pid(child.number));
        let reaped = make(&mut seat, &mut receipts, Call::Wait { caller, which });
        let (child, ended) = (child.number, Ended::Exited(status));
        assert_eq!(reaped, Reply::Reaped(Reaped { child, ended }));
    }
    while receipts.len() < EACH {
        let pid = make(&mut seat, &mut receipts, Call::Getpid { caller: own });
        assert_eq!(pid, Reply::Number(1));
    }
    receipts
}

/// The receipts of sixteen threads at once.
fn sixteen_at_once(table: &Table) -> Vec<Vec<Entry>> {
    thread::scope(|scope| {
        let works: Vec<_> = (0..WORKERS)
            .map(|_| scope.spawn(|| serve(table.seat().expect("a seat"))))
            .collect();
        let ends = works.into_iter().map(|it| it.join().expect("no panic"));
        ends.collect()
    })
}

fn the_counts_add_up(table: &Table) {
    assert_eq!(counts(table), (0, ALL));
    for worker in 0..WORKERS {
        assert_eq!(table.worker(worker), Ok(EACH as u64));
    }
    assert_eq!(table.seat().err(), Some(Error::NoSeat));
}

/// Each worker's receipts are its entries, in their order.
fn the_receipts_are_the_entries(history: &[Entry], mut receipts: Vec<Vec<Entry>>) {
    receipts.sort_by_key(|it| it[0].worker);
    let mut next = vec![0; WORKERS as usize];
    for (ordinal, entry) in (0..).zip(history) {
        let worker = entry.worker as usize;
        assert_eq!(entry.ordinal, ordinal);
        assert_eq!(*entry, receipts[worker][next[worker]]);
        next[worker] += 1;
    }
    assert_eq!(next, vec![EACH; WORKERS as usize]);
}

/// On a second table, and by the calls of one thread on a table without a history: the same replies, and the same list.
fn the_history_replays(history: &[Entry], list: &str) {
    let again = open(WORKERS);
    assert_eq!(again.replay(history), Ok(()));
    assert_eq!(counts(&again), (0, ALL));
    assert_eq!(again.list().as_deref(), Ok(list));
    let table = Table::open(32768).expect("a table");
    for entry in history {
        assert_eq!(table.call(entry.call).as_ref(), Ok(&entry.reply));
    }
    assert_eq!(table.list().as_deref(), Ok(list));
}

#[test]
fn sixteen_threads() {
    let table = open(WORKERS);
    let receipts = sixteen_at_once(&table);
    the_counts_add_up(&table);
    let history = table.entries(0, usize::MAX).expect("entries");
    assert_eq!(history.len() as u64, ALL);
    the_receipts_are_the_entries(&history, receipts);
    let list = table.list().expect("a list");
    assert!(list.contains("count 17\n"), "{list}");
    the_history_replays(&history, &list);
    assert_eq!(table.checkpoint_at(ALL - 1), Err(Error::Again));
    assert_eq!(
        (table.checkpoint_at(ALL), counts(&table)),
        (Ok(()), (ALL, ALL))
    );
    assert_eq!(table.worker(3), Ok(EACH as u64));
}

/// With a bound the history is not longer after a replay either.
#[test]
fn a_bound_after_a_replay() {
    let table = open(1);
    let mut seat = table.seat().expect("a seat");
    for _ in 0..26 {
        seat.fork(1).expect("a child");
    }
    let saved = table.entries(20, usize::MAX).expect("entries");
    let again = options(1).keep(5).open().expect("a table");
    let stopped = again.replay(&saved).expect_err("other numbers");
    assert_eq!((stopped.place, stopped.error), (0, Error::Differs));
    for _ in 0..19 {
        again.replay(&next_fork(&again)).expect("the same");
    }
    assert_eq!(again.replay(&saved), Ok(()));
    assert_eq!((counts(&again), again.list()), ((21, 26), table.list()));
}

/// A replica's text is that of the state at its ordinal; none that lacks a call that was cut away, or has another, follows on.
#[test]
fn a_table_that_follows() {
    let table = options(1).keep(80).open().expect("a table");
    let mut seat = table.seat().expect("a seat");
    let replica = Table::open(32768).expect("a table");
    let mut next = 0;
    for _ in 0..70 {
        assert!(seat.fork(1).is_ok());
    }
    assert_eq!((table.follow(&replica, &mut next), next), (Ok(()), 70));
    let before = table.dump().expect("a text");
    assert_eq!(replica.dump(), Ok(before.clone()));
    assert!(seat.fork_new(1).is_ok());
    assert_eq!(replica.dump(), Ok(before));
    assert_eq!((table.follow(&replica, &mut next), next), (Ok(()), 71));
    assert_eq!(replica.dump(), table.dump());
    assert!(replica.fork(1).is_ok());
    for _ in 0..20 {
        assert!(seat.fork(1).is_ok());
    }
    let differs = Err(Error::Differs);
    assert_eq!((table.follow(&replica, &mut next), next), (differs, 72));
    for mut lacking in [0, 92] {
        assert_eq!(table.follow(&replica, &mut lacking), Err(Error::NotKept));
    }
}

/// The entry of the next fork of process 1, where all before were such forks.
fn next_fork(table: &Table) -> [Entry; 1] {
    let number = counts(table).1 as u32 + 2;
    let reply = Reply::Forked(Child {
        number,
        root: number,
    });
    let call = Call::Fork {
        caller: 1,
        new_space: false,
    };
    let (ordinal, worker) = (0, 0);
    [Entry {
        ordinal,
        worker,
        call,
        reply,
    }]
}

#[test]
fn what_a_replay_that_stops_says() {
    let stopped = ReplayError {
        place: 70,
        error: Error::OutOfRange,
    };
    assert_eq!(stopped.to_string(), "saved entry 70: out of range");
    assert_eq!(Error::from(stopped), Error::OutOfRange);
    assert_eq!(open(1).replay(&[]), Ok(()));
}

#[test]
fn a_reply_with_too_many_numbers_differs() {
    let table = open(1);
    let call = Call::Nspid {
        caller: 1,
        number: 1,
    };
    let saved = |reply| {
        [Entry {
            ordinal: 0,
            worker: 0,
            call,
            reply,
        }]
    };
    assert_eq!(table.replay(&saved(Reply::Levels(vec![1]))), Ok(()));
    for numbers in [vec![], vec![1; 2], vec![1; 40]] {
        let stopped = ReplayError {
            place: 0,
            error: Error::Differs,
        };
        assert_eq!(table.replay(&saved(Reply::Levels(numbers))), Err(stopped));
    }
}

#[test]
fn what_a_seat_shows_of_itself() {
    let table = open(1);
    let mut seat = table.seat().expect("a seat");
    assert_eq!(seat.ordinal(), None);
    assert_eq!(seat.getpid(1), Ok(1));
    assert_eq!(
        format!("{seat:?}"),
        "Seat { worker: 0, ordinal: Some(0), .. }"
    );
}

/// No call of another seat comes between those that are made under one lock.
#[test]
fn several_calls_in_one_go() {
    let table = open(4);
    thread::scope(|scope| {
        for _ in 0..4 {
            scope.spawn(|| {
                let mut seat = table.seat().expect("a seat");
                for _ in 0..500 {
                    fork_and_reap(&mut seat);
                }
            });
        }
    });
    assert_eq!(counts(&table), (0, 4 * 500 * 3));
    assert_eq!(table.ask(Call::Count { id: 0 }), Ok(Reply::Counted(1)));
}

fn fork_and_reap(seat: &mut Seat<&Table>) {
    let held = seat.table().lock().expect("the lock");
    let before = held.counts().expect("counts").recorded;
    let child = seat.fork(1).expect("a child");
    assert_eq!(
        seat.line(format!("exit {} 3", child.root)),
        Ok("ok".to_owned())
    );
    let (child, ended) = (child.number, Ended::Exited(3));
    assert_eq!(held.wait(1, Which::Any), Ok(Some(Reaped { child, ended })));
    assert_eq!(seat.ordinal(), Some(before + 1));
}

#[test]
fn a_list_and_the_counts_that_it_belongs_to() {
    let table = open(1);
    let mut seat = table.seat().expect("a seat");
    for _ in 0..200 {
        seat.fork(1).expect("a child");
    }
    let held = table.lock().expect("the lock");
    let (listing, recorded) = (held.listing().expect("a list"), held.counts());
    assert_eq!(
        listing.tasks.len() as u64,
        recorded.expect("counts").recorded + 1
    );
    assert_eq!((held.worker(0), held.checkpoint()), (Ok(200), Ok(())));
    drop(held);
    assert_eq!((counts(&table), table.listing()), ((200, 200), Ok(listing)));
}

#[test]
fn a_thread_that_panics_gives_the_lock_back() {
    let table = Arc::new(open(2));
    let other = Arc::clone(&table);
    let panicked = thread::spawn(move || {
        let held = other.lock().expect("the lock");
        held.fork(1).expect("a child");
        panic!("on purpose, with the lock");
    });
    assert!(panicked.join().is_err());
    assert_eq!(counts(&table), (0, 1));
    assert_eq!(table.seat().expect("a seat").getpid(2), Ok(2));
}

/// Readers beside a writer, whose child ends and is waited for: each sees one task or two, and histories that only grow. The writer comes to its end.
#[test]
fn readers_beside_a_writer() {
    let (table, is_over) = (open(1), AtomicBool::new(false));
    let read = || {
        let mut before = 0;
        while !is_over.load(Ordering::SeqCst) {
            let counted = table.ask(Call::Count { id: 0 }).expect("a reply");
            assert!(matches!(counted, Reply::Counted(1 | 2)), "{counted:?}");
            assert_eq!(table.stat(1, 0).expect("a task").numbers(), [1]);
            let children = table.children(1, 0, 0).expect("a list");
            assert!(children.len() < 2, "{children:?}");
            let live = table.control_tasks(1, 0, 0).expect("a list");
            assert!(live.len() == 1 || live.len() == 2, "{live:?}");
            let root = table.space(0).expect("a read");
            assert_eq!(root.and_then(|it| it.init), Some(1));
            let (_, recorded) = counts(&table);
            assert!(recorded >= before);
            before = recorded;
            let listed = table.listing().expect("a list").tasks.len();
            assert!(listed == 1 || listed == 2, "{listed}");
            thread::sleep(Duration::from_millis(1));
        }
    };
    thread::scope(|scope| {
        for _ in 0..WORKERS {
            scope.spawn(read);
        }
        let mut seat = table.seat().expect("a seat");
        for _ in 0..200 {
            let child = seat.fork(1).expect("a child");
            seat.exit(child.root, 7).expect("an exit");
            seat.wait(1, Which::Any).expect("a child that ended");
        }
        is_over.store(true, Ordering::SeqCst);
    });
    assert_eq!(counts(&table), (0, 600));
}

/// Calls of which some are refused.
fn mixed(count: usize) -> Vec<Call> {
    let calls = [
        Call::Mk { parent: 0 },
        Call::Fork {
            caller: 1,
            new_space: true,
        },
        Call::Getpid { caller: 2 },
        Call::Nspid {
            caller: 1,
            number: 2,
        },
        Call::Getpid { caller: 999 },
        Call::Count { id: 0 },
    ];
    calls.into_iter().cycle().take(count).collect()
}

/// Many calls in one go, also more than go to the library at a time, beside as many single calls.
#[test]
fn calls_in_one_go_as_single_calls() {
    let (table, other) = (open(2), open(2));
    let (mut seat, mut alone) = (table.seat().expect("a seat"), other.seat().expect("a seat"));
    let mut wanted = Vec::new();
    for length in [0, 1, 64, 65, 200] {
        let (calls, mut replies) = (mixed(length), vec![Reply::Done]);
        assert_eq!(seat.calls(&calls, &mut replies), Ok(()));
        wanted = vec![Reply::Done];
        wanted.extend(calls.iter().map(|it| alone.call(*it).expect("a reply")));
        assert_eq!(replies, wanted);
        assert_eq!(seat.ordinal(), alone.ordinal());
    }
    assert!(matches!(wanted[5], Reply::Refused { .. }));
    assert_eq!(table.entries(0, 999), other.entries(0, 999));
    assert_eq!(table.dump(), other.dump());
}

/// Where the stamps are used up, the calls before are made and told.
#[test]
fn calls_after_the_last_stamp() {
    let table = options(1).first_stamp(u64::MAX - 70);
    let table = table.open().expect("a table");
    let (mut seat, mut replies) = (table.seat().expect("a seat"), Vec::new());
    assert_eq!(seat.calls(&mixed(99), &mut replies), Err(Error::Spent));
    assert_eq!((replies.len(), seat.ordinal()), (70, Some(69)));
    assert_eq!(seat.calls(&mixed(3), &mut replies), Err(Error::Spent));
    assert_eq!(seat.calls(&[], &mut replies), Ok(()));
    assert_eq!((replies.len(), counts(&table)), (70, (0, 70)));
}

/// No call of another worker comes between those in one go, and the history keeps its bound.
#[test]
fn calls_in_one_go_of_threads() {
    let table = options(4).keep(1000).open();
    let table = table.expect("a table");
    thread::scope(|scope| {
        for _ in 0..4 {
            scope.spawn(|| {
                let (mut seat, calls) = (table.seat().expect("a seat"), mixed(10));
                for time in 0..300 {
                    let mut replies = Vec::new();
                    assert_eq!(seat.calls(&calls, &mut replies), Ok(()));
                    assert_eq!(
                        (replies.len(), seat.ordinal().expect("one") % 10),
                        (10, 9),
                        "{time}"
                    );
                }
            });
        }
    });
    assert_eq!(counts(&table), (11_000, 12_000));
    let entries = table.entries(11_000, 1000).expect("entries");
    for calls in entries.chunks(10) {
        assert!(calls.iter().all(|it| it.worker == calls[0].worker));
    }
}
