//! Who waits until a call is recorded: one or many, beside a saver, with a timeout, and until the waits end.
use pidtab::{Call, Error, Keep, Saved, Seat, Table, Which};
use std::io;
use std::sync::atomic::{AtomicU64, Ordering};
use std::thread;
use std::time::{Duration, Instant};

const THREADS: u64 = 4;
const EACH: u64 = 2000;
const LONG: Duration = Duration::from_secs(60);

fn open() -> Table {
    let options = Table::options().keep(Keep::All).workers(THREADS as u32);
    options.threads().open().expect("a table")
}

fn ask(seat: &mut Seat<&Table>) {
    assert_eq!(seat.getpid(1), Ok(1));
}

/// Gives the waits time to sleep.
fn let_sleep() {
    thread::sleep(Duration::from_millis(30));
}

#[test]
fn what_is_recorded_already() {
    let table = open();
    let mut seat = table.seat().expect("a seat");
    ask(&mut seat);
    ask(&mut seat);
    for timeout in [None, Some(Duration::ZERO), Some(Duration::MAX)] {
        assert_eq!(table.wait_changed(0, timeout), Ok(2));
        assert_eq!(table.wait_changed(1, timeout), Ok(2));
    }
    table.checkpoint().expect("a cut");
    assert_eq!(table.wait_changed(0, None), Ok(2));
}

/// A call wakes each that waits for it, and no query or cut does. One that waits for more goes on.
#[test]
fn each_is_woken() {
    let table = open();
    let woken = AtomicU64::new(0);
    let wait = |ordinal, timeout| {
        let told = table.wait_changed(ordinal, timeout);
        woken.fetch_add(1, Ordering::SeqCst);
        told
    };
    thread::scope(|scope| {
        let wait = &wait;
        let timeouts = [None, Some(LONG), Some(Duration::MAX)];
        let waiters = timeouts.map(|it| scope.spawn(move || wait(0, it)));
        let last = scope.spawn(move || wait(2, None));
        let_sleep();
        table.ask(Call::Getpid { caller: 1 }).expect("a reply");
        table.checkpoint().expect("a cut");
        drop(table.lock().expect("the lock"));
        let_sleep();
        assert_eq!(woken.load(Ordering::SeqCst), 0);
        let mut seat = table.seat().expect("a seat");
        ask(&mut seat);
        for it in waiters {
            assert_eq!(it.join().expect("no panic"), Ok(1));
        }
        seat.line("getpid 1").expect("an answer");
        let_sleep();
        assert_eq!(woken.load(Ordering::SeqCst), 3);
        seat.told(Call::Getpid { caller: 1 }).expect("a reply");
        assert_eq!(last.join().expect("no panic"), Ok(3));
    });
}

/// Calls under the lock are told of when it is given back, and those of a replay are.
#[test]
fn calls_under_the_lock() {
    let (table, other) = (open(), open());
    let mut seat = table.seat().expect("a seat");
    thread::scope(|scope| {
        let waiter = scope.spawn(|| table.wait_changed(0, None));
        let_sleep();
        let held = table.lock().expect("the lock");
        held.getpid(1).expect("a reply");
        seat.told(Call::Getpid { caller: 1 }).expect("a reply");
        assert_eq!(seat.ordinal(), Some(1));
        drop(held);
        assert_eq!(waiter.join().expect("no panic"), Ok(2));
        let waiter = scope.spawn(|| other.wait_changed(0, None));
        let_sleep();
        let entries = table.entries(0, 2).expect("entries");
        other.replay(&entries).expect("the same replies");
        assert_eq!(waiter.join().expect("no panic"), Ok(2));
    });
}

/// A time that is over is told by the number, and it is never too early.
#[test]
fn timeouts() {
    let table = open();
    assert_eq!(table.wait_changed(0, Some(Duration::ZERO)), Ok(0));
    let (begun, short) = (Instant::now(), Duration::from_millis(30));
    assert_eq!(table.wait_changed(7, Some(short)), Ok(0));
    assert!(begun.elapsed() >= short);
    ask(&mut table.seat().expect("a seat"));
    assert_eq!(table.wait_changed(1, Some(Duration::ZERO)), Ok(1));
}

/// The end is for all waits, those that come later too; what was recorded is told still.
#[test]
fn ended() {
    let table = open();
    let mut seat = table.seat().expect("a seat");
    ask(&mut seat);
    thread::scope(|scope| {
        let table = &table;
        let waits = [(1, None), (u64::MAX, Some(LONG))];
        let waiters = waits.map(|(it, time)| scope.spawn(move || table.wait_changed(it, time)));
        let_sleep();
        table.end_waiting().expect("a lock");
        for it in waiters {
            assert_eq!(it.join().expect("no panic"), Err(Error::Ended));
        }
    });
    ask(&mut seat);
    assert_eq!(table.wait_changed(1, None), Ok(2));
    for timeout in [None, Some(Duration::ZERO), Some(LONG)] {
        assert_eq!(table.wait_changed(2, timeout), Err(Error::Ended));
    }
    assert_eq!(Error::Ended.to_string(), "the waits were ended");
    assert_eq!(
        io::Error::from(Error::Ended).kind(),
        io::ErrorKind::BrokenPipe
    );
}

/// Each call wakes the saver and who waits, and the end of one is not that of the other.
#[test]
fn beside_a_saver() {
    let (table, mut saved, mut bytes) = (open(), Saved::new(), Vec::new());
    let mut seat = table.seat().expect("a seat");
    thread::scope(|scope| {
        let saver = scope.spawn(|| table.serve(&mut saved, &mut bytes, 0, || Ok(())));
        for ordinal in 0..200 {
            let table = &table;
            let waiter = scope.spawn(move || table.wait_changed(ordinal, None));
            ask(&mut seat);
            assert_eq!(waiter.join().expect("no panic"), Ok(ordinal + 1));
            table.wait_saved(ordinal).expect("saved");
        }
        let waiter = scope.spawn(|| table.wait_changed(200, None));
        let_sleep();
        table.end_waiting().expect("a lock");
        assert_eq!(waiter.join().expect("no panic"), Err(Error::Ended));
        ask(&mut seat);
        table.wait_saved(200).expect("saved");
        table.end_saving().expect("a lock");
        saver.join().expect("no panic").expect("saved");
    });
    assert_eq!(saved.calls(), 201);
}

#[test]
fn the_end_of_the_saver_ends_no_wait() {
    let table = open();
    thread::scope(|scope| {
        let waiter = scope.spawn(|| table.wait_changed(0, None));
        let_sleep();
        table.end_saving().expect("a lock");
        let_sleep();
        assert!(!waiter.is_finished());
        ask(&mut table.seat().expect("a seat"));
        assert_eq!(waiter.join().expect("no panic"), Ok(1));
    });
}

/// Children that end. One of three is left a zombie.
fn work(mut seat: Seat<&Table>) {
    for number in 0..EACH {
        let child = seat.fork(1).expect("a child");
        seat.exit(child.root, 7).expect("its end");
        if number % 3 != 0 {
            let reaped = seat.call(Call::Wait {
                caller: 1,
                which: Which::Pid(child.number),
            });
            assert!(reaped.is_ok());
        }
    }
}

/// Follows to the end of the waits: the replica's text, and how many calls it has made.
fn follow(table: &Table) -> (String, u64) {
    let replica = Table::open(32768).expect("a table");
    let mut next = 0;
    loop {
        match table.wait_changed(next, None) {
            Err(fault) => {
                assert_eq!(fault, Error::Ended);
                return (replica.dump().expect("a text"), next);
            }
            Ok(recorded) => {
                assert!(recorded > next);
                table.follow(&replica, &mut next).expect("a replica");
                assert!(next >= recorded);
            }
        }
    }
}

/// The calls of four threads, to the last one.
#[test]
fn who_follows_to_the_end() {
    let table = open();
    let (text, calls) = thread::scope(|scope| {
        let follower = scope.spawn(|| follow(&table));
        let seats = (0..THREADS).map(|_| table.seat().expect("a seat"));
        let works: Vec<_> = seats.map(|it| scope.spawn(|| work(it))).collect();
        works
            .into_iter()
            .for_each(|it| it.join().expect("no panic"));
        table.end_waiting().expect("a lock");
        follower.join().expect("no panic")
    });
    assert_eq!(calls, THREADS * (3 * EACH - EACH.div_ceil(3)));
    assert_eq!(table.dump(), Ok(text));
}
