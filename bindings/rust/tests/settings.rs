//! Settings: what each says that is outside its range, and what a table lacks that was opened without one of them.
use pidtab::{
    Call, Child, Error, Keep, Options, Reply, Saved, SavedError, SavedFault, Table, TextError,
};
use std::io;
use std::sync::atomic::{AtomicBool, AtomicU64, Ordering};
use std::sync::Barrier;
use std::thread;
use std::time::{Duration, Instant};

const NO_HISTORY: &str = "this table keeps no history: open it with keep";
const NO_THREADS: &str = "this table is one thread's: open it with threads";
const WORKERS: &str = "workers count the calls of a history: open it with keep";

fn recorded() -> Options {
    Table::options().keep(Keep::All)
}

/// What an error says.
fn said<T>(answer: Result<T, Error>) -> String {
    answer.map(drop).expect_err("an error").to_string()
}

#[test]
fn an_argument_at_fault_is_named() {
    for (options, words) in [
        (
            Table::options().pid_max(0),
            "pid_max is 0, and not 301 to 4194304",
        ),
        (
            Table::options().pid_max(300),
            "pid_max is 300, and not 301 to 4194304",
        ),
        (
            recorded().pid_max(4194305),
            "pid_max is 4194305, and not 301 to 4194304",
        ),
        (recorded().workers(0), "workers is 0, and not 1 to 16"),
        (recorded().workers(17), "workers is 17, and not 1 to 16"),
        (
            Table::options().workers(17),
            "workers is 17, and not 1 to 16",
        ),
        (Table::options().workers(2), WORKERS),
        (Table::options().keep(0).workers(16).threads(), WORKERS),
        (
            recorded().first_stamp(0),
            "first_stamp is 0, and not 1 to 18446744073709551615",
        ),
        (
            Table::options().first_stamp(0),
            "first_stamp is 0, and not 1 to 18446744073709551615",
        ),
    ] {
        let fault = options.open().expect_err(words);
        assert_eq!(fault.to_string(), words);
        assert_eq!(
            (fault.raw_os_error(), io::Error::from(fault).kind()),
            (Some(22), io::ErrorKind::InvalidInput)
        );
    }
    assert_eq!(
        said(Table::open(300)),
        "pid_max is 300, and not 301 to 4194304"
    );
    let table = recorded().workers(2).open().expect("a table");
    assert_eq!(said(table.worker(2)), "worker is 2, and not 0 to 1");
    assert_eq!(table.ask(Call::Exec { caller: 1 }), Err(Error::NoQuery));
}

#[test]
fn counts_at_fault_are_named() {
    let text = Table::open(301).and_then(|it| it.dump()).expect("a text");
    let refused = |options: Options, counts: &[u64]| match options.open_dump(&text, counts) {
        Err(TextError::Argument(it)) => it.to_string(),
        other => panic!("{other:?}"),
    };
    assert_eq!(
        refused(recorded().workers(17), &[]),
        "workers is 17, and not 1 to 16"
    );
    assert_eq!(
        refused(recorded().workers(0), &[]),
        "workers is 0, and not 1 to 16"
    );
    assert_eq!(
        refused(recorded(), &[0; 17]),
        "workers is 17, and not 1 to 16"
    );
    assert_eq!(
        refused(recorded(), &[1, 0]),
        "the sum of counts is 1, and not 0 to 0"
    );
    let most = "the sum of counts is 18446744073709551615, and not 0 to 0";
    assert_eq!(refused(recorded(), &[u64::MAX, 7]), most);
    assert_eq!(refused(Table::options(), &[0]), WORKERS);
    assert_eq!(refused(Table::options().workers(2), &[]), WORKERS);
    let again = recorded()
        .workers(3)
        .open_dump(&text, &[])
        .expect("a table");
    assert_eq!(
        (again.workers(), again.pid_max(), again.first_stamp()),
        (3, 301, 1)
    );
    let again = recorded().open_dump(&text, &[0, 0]).expect("a table");
    assert_eq!((again.workers(), again.worker(1)), (2, Ok(0)));
}

/// What each of the settings is that was not given.
#[test]
fn defaults() {
    for table in [
        Table::options().open(),
        Table::open(32768),
        recorded().threads().open(),
    ] {
        let table = table.expect("a table");
        assert_eq!(
            (table.pid_max(), table.workers(), table.first_stamp()),
            (32768, 1, 1)
        );
        assert_eq!(table.mk(0), Ok(1));
    }
    let late = Table::options().first_stamp(77).open().expect("a table");
    assert_eq!(late.mk(0), Ok(77));
    let last = Table::options()
        .first_stamp(u64::MAX)
        .open()
        .expect("a table");
    assert_eq!(last.getpid(1), Err(Error::Spent));
}

/// The kept entries of a table by what its options say.
#[test]
fn how_much_is_kept() {
    for (keep, kept) in [
        (Keep::All, 100),
        (Keep::AtMost(7), 7),
        (3.into(), 3),
        (Keep::AtMost(u64::MAX), 100),
    ] {
        let table = Table::options().keep(keep).open().expect("a table");
        for number in 0..100 {
            match number % 4 {
                0 => drop(table.fork(1)),
                1 => drop(table.line("getpid 1")),
                2 => drop(table.told(Call::Getpid { caller: 1 })),
                _ => drop(table.calls(&[Call::Getpid { caller: 1 }], &mut Vec::new())),
            }
        }
        let counts = table.counts().expect("counts");
        assert_eq!(
            (counts.recorded - counts.first_kept, counts.recorded),
            (kept, 100),
            "{keep:?}"
        );
    }
    for none in [Keep::Nothing, Keep::AtMost(0), 0.into()] {
        let table = Table::options().keep(none).open().expect("a table");
        assert_eq!(table.counts(), Err(Error::NoHistory), "{none:?}");
    }
}

#[test]
fn without_a_history() {
    for table in [Table::open(32768), Table::options().threads().open()] {
        let table = table.expect("a table");
        assert_eq!(said(table.counts()), NO_HISTORY);
        assert_eq!(said(table.worker(0)), NO_HISTORY);
        assert_eq!(said(table.entry(0)), NO_HISTORY);
        assert_eq!(said(table.entries(0, 1)), NO_HISTORY);
        assert_eq!(said(table.opening()), NO_HISTORY);
        assert_eq!(said(table.checkpoint()), NO_HISTORY);
        assert_eq!(said(table.checkpoint_at(0)), NO_HISTORY);
        assert_eq!(
            said(table.calls(&[Call::Getpid { caller: 1 }], &mut Vec::new())),
            NO_HISTORY
        );
        let other = Table::open(32768).expect("a table");
        assert_eq!(said(table.follow(&other, &mut 0)), NO_HISTORY);
        let entries = recorded().open().and_then(|it| {
            it.fork(1)?;
            it.entries(0, 1)
        });
        let stopped = table
            .replay(&entries.expect("an entry"))
            .expect_err("an error");
        assert_eq!(stopped.to_string(), format!("saved entry 0: {NO_HISTORY}"));
        let mut bytes = Vec::new();
        let refused = table
            .save(&mut Saved::new(), &mut bytes)
            .expect_err("an error");
        assert_eq!(
            (refused.fault.to_string(), bytes.len()),
            (NO_HISTORY.to_owned(), 0)
        );
        // It is as it was, and makes calls.
        assert_eq!(table.fork(1), Ok(Child { number: 2, root: 2 }));
    }
    let refused =
        |done: Result<(Table, Saved), SavedError>| done.expect_err("an error").fault.to_string();
    assert_eq!(refused(Table::options().load(&b""[..])), NO_HISTORY);
    let file = std::fs::File::open("/dev/null").expect("a device");
    assert_eq!(refused(Table::options().resume(&file)), NO_HISTORY);
    assert_eq!(
        (
            Error::NoHistory.raw_os_error(),
            io::Error::from(Error::NoHistory).kind()
        ),
        (Some(95), io::ErrorKind::Unsupported)
    );
}

/// A seat of it is worker 0's, and tells no ordinal.
#[test]
fn a_seat_without_a_history() {
    let table = Table::open(32768).expect("a table");
    let mut seat = table.seat().expect("a seat");
    assert_eq!(table.seat().err(), Some(Error::NoSeat));
    assert_eq!((seat.worker(), seat.fork(1).map(|it| it.root)), (0, Ok(2)));
    assert_eq!(seat.line("fork 2").as_deref(), Ok("child 3 root 3"));
    assert_eq!(
        seat.told(Call::Getpid { caller: 1 }).map(|it| it.reply),
        Ok(Reply::Number(1))
    );
    assert_eq!((seat.ordinal(), table.count(0)), (None, Ok(3)));
}

#[test]
fn without_threads() {
    let table = recorded().open().expect("a table");
    assert_eq!(said(table.lock()), NO_THREADS);
    assert_eq!(
        said(table.wait_changed(0, Some(Duration::ZERO))),
        NO_THREADS
    );
    assert_eq!(said(table.end_waiting()), NO_THREADS);
    assert_eq!(said(table.bound_unsaved(1)), NO_THREADS);
    assert_eq!(said(table.end_saving()), NO_THREADS);
    let refused = |done: Result<(), SavedError>| done.expect_err("an error").fault.to_string();
    assert_eq!(refused(table.wait_saved(0)), NO_THREADS);
    let mut saved = Saved::new();
    assert_eq!(
        refused(table.serve(&mut saved, Vec::new(), 0, || Ok(()))),
        NO_THREADS
    );
    assert_eq!(
        (
            Error::NoThreads.raw_os_error(),
            io::Error::from(Error::NoThreads).kind()
        ),
        (Some(37), io::ErrorKind::Unsupported)
    );
    // A save needs no lock.
    assert_eq!(table.fork(1).map(|it| it.root), Ok(2));
    table.save(&mut saved, Vec::new()).expect("a save");
    assert_eq!(saved.calls(), 1);
    // What waits is only of a history.
    let bare = Table::options().threads().open().expect("a table");
    assert_eq!(said(bare.wait_changed(0, None)), NO_HISTORY);
    assert_eq!(said(bare.bound_unsaved(1)), NO_HISTORY);
    let refused = bare.serve(&mut Saved::new(), Vec::new(), 0, || Ok(()));
    assert!(matches!(
        refused.expect_err("an error").fault,
        SavedFault::Table(Error::NoHistory)
    ));
}

/// Two threads make calls on a table that has no lock. Each call is made, or is `Busy` and not made.
#[test]
fn a_second_thread_is_busy() {
    let options = Table::options().keep(16);
    let (table, begin) = (options.open().expect("a table"), Barrier::new(2));
    let (made, busy) = (AtomicU64::new(0), AtomicU64::new(0));
    let end = Instant::now() + Duration::from_secs(60);
    let ask = || {
        begin.wait();
        while busy.load(Ordering::SeqCst) < 10 && Instant::now() < end {
            let count = match table.getpid(1) {
                Ok(_) => &made,
                Err(fault) => {
                    assert_eq!(fault, Error::Busy);
                    &busy
                }
            };
            count.fetch_add(1, Ordering::SeqCst);
        }
    };
    thread::scope(|scope| {
        scope.spawn(ask);
        scope.spawn(ask);
    });
    assert!(busy.load(Ordering::SeqCst) >= 10);
    let recorded = table.counts().expect("counts").recorded;
    assert_eq!(recorded, made.load(Ordering::SeqCst));
}

/// Of the C library.
mod c {
    extern "C" {
        pub fn fork() -> i32;
        pub fn waitpid(child: i32, status: *mut i32, options: i32) -> i32;
        pub fn _exit(status: i32) -> !;
    }
}

/// The status of a forked child that does this, -1 where a signal ends it.
fn status_of_child(does: impl FnOnce() -> i32) -> i32 {
    let mut status = -1;
    // Safety: the child ends before it returns.
    let child = unsafe { c::fork() };
    if child == 0 {
        let done = does();
        unsafe { c::_exit(done) }
    }
    assert_eq!(unsafe { c::waitpid(child, &mut status, 0) }, child);
    match status & 0x7f {
        0 => status >> 8,
        _ => -1,
    }
}

/// A forked child has a copy of the table, and goes on with it by threads of its own.
#[test]
fn a_forked_child() {
    let options = recorded().workers(4).threads();
    let table = options.open().expect("a table");
    let work = || {
        thread::scope(|scope| {
            for _ in 0..4 {
                scope.spawn(|| (0..100).all(|_| table.fork(1).is_ok()));
            }
        });
        let recorded = table.counts().map(|it| it.recorded);
        i32::from(recorded != Ok(400) || table.lock().is_err())
    };
    assert_eq!(status_of_child(work), 0);
    assert_eq!(table.counts().map(|it| it.recorded), Ok(0));
}

/// A call of another thread at the fork never ends in the child: there the table is `Busy`, and nobody waits for it. Else it goes on.
#[test]
fn a_child_that_is_forked_amid_a_call() {
    const CHILDREN: usize = 1000;
    let table = Table::open(32768).expect("a table");
    let is_over = AtomicBool::new(false);
    let ask = || match table.getpid(1) {
        Ok(1) => 0,
        Err(Error::Busy) => 1,
        _ => 2,
    };
    let found = thread::scope(|scope| {
        scope.spawn(|| {
            while !is_over.load(Ordering::SeqCst) {
                assert_eq!(ask(), 0);
            }
        });
        let mut children = (0..CHILDREN).map(|_| status_of_child(ask));
        let found = children.find(|it| *it != 0);
        is_over.store(true, Ordering::SeqCst);
        found
    });
    assert_eq!(found, Some(1));
}
