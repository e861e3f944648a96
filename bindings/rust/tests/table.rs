//! What errors say, what is a line, and threads. What each call answers is in interface/cases.
use pidtab::{Call, Child, Error, LineError, Refusal, Reply, Table};
use std::sync::Mutex;
use std::thread;

fn open() -> Table {
    Table::open(32768).expect("a table")
}

fn child(number: u32, root: u32) -> Result<Child, Error> {
    Ok(Child { number, root })
}

#[test]
fn what_errors_say() {
    let table = open();
    let fault = table.getpid(9).expect_err("nobody");
    assert_eq!(fault.to_string(), "getpid 9: no-caller (errno 3)");
    assert_eq!(Refusal::NoNumber(0).to_string(), "no-number 0");
    assert_eq!(Error::NoMemory.to_string(), "no memory");
    assert_eq!(
        Error::NotKept.to_string(),
        "no entry with the ordinal is kept"
    );
    assert_eq!(LineError::Bad.to_string(), "bad line");
    assert_eq!(format!("{table:?}"), "Table { .. }");
}

/// A line is text or bytes, and may have any of them.
#[test]
fn lines() {
    let table = open();
    let line = format!("getpid {}", 9);
    assert_eq!(table.line(b"getpid 9"), Ok("ESRCH no-caller".to_owned()));
    assert_eq!(table.line(&line), table.line(line.into_bytes()));
    assert_eq!(table.line(b"fork 1\n"), Err(LineError::Bad));
    assert_eq!(table.line(b"\xff"), Err(LineError::Bad));
}

#[test]
fn a_table_goes_to_another_thread() {
    let table = open();
    assert_eq!(table.fork(1), child(2, 2));
    let other = thread::spawn(move || {
        assert_eq!(table.fork(2), child(3, 3));
        table
    });
    let table = other.join().expect("no panic");
    assert_eq!(table.getppid(3), Ok(2));
    thread::spawn(move || drop(table)).join().expect("no panic");
}

#[test]
fn eight_threads_take_turns() {
    let table = Mutex::new(open());
    let given = Mutex::new(Vec::new());
    thread::scope(|scope| {
        for _ in 0..8 {
            scope.spawn(|| {
                for _ in 0..200 {
                    let made = table.lock().expect("the table").fork(1);
                    let number = made.expect("a child").number;
                    given.lock().expect("the list").push(number);
                }
            });
        }
    });
    let mut given = given.into_inner().expect("the list");
    given.sort_unstable();
    assert_eq!(given, (2..=1601).collect::<Vec<_>>());
    let table = table.into_inner().expect("the table");
    assert_eq!(table.count(0), Ok(1601));
}

/// Threads ask one table that none of them owns.
#[test]
fn threads_that_ask() {
    let table = open();
    table.fork(1).expect("a child");
    let (table, list) = (&table, table.list());
    thread::scope(|scope| {
        for _ in 0..8 {
            scope.spawn(|| {
                for _ in 0..1000 {
                    assert_eq!(table.ask(Call::Count { id: 0 }), Ok(Reply::Counted(2)));
                    assert_eq!(table.stat(1, 2).expect("a task").numbers(), [2]);
                    assert_eq!(table.children(1, 0, 0), Ok(vec![2]));
                    assert_eq!(table.control_tasks(1, 0, 0), Ok(vec![1, 2]));
                    assert_eq!(table.space(1), Ok(None));
                }
                assert_eq!(table.list(), list);
            });
        }
    });
}
