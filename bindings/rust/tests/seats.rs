//! A seat that owns its table.
use pidtab::{Call, Child, Error, Keep, Reply, Seat, Table};
use std::panic::{RefUnwindSafe, UnwindSafe};
use std::sync::Arc;
use std::thread;

const WORKERS: u32 = 8;
const FORKS: u32 = 500;

fn open(workers: u32) -> Arc<Table> {
    let options = Table::options().keep(Keep::All).workers(workers);
    Arc::new(options.threads().open().expect("a table"))
}

/// A table goes to any thread, and any number of threads have it; a panic leaves it whole.
const _: fn() = || {
    fn is_shared<T: Send + Sync + UnwindSafe + RefUnwindSafe>() {}
    is_shared::<Table>();
    is_shared::<Seat<&Table>>();
    is_shared::<Seat<Arc<Table>>>();
};

fn is_send<T: Send + 'static>(it: T) -> T {
    it
}

/// Each thread has its seat for itself, and nobody waits for it in a scope.
#[test]
fn threads_own_their_seats() {
    let table = open(WORKERS);
    let threads: Vec<_> = (0..WORKERS)
        .map(|worker| {
            let mut seat = is_send(table.owned_seat().expect("a seat"));
            assert_eq!((seat.worker(), seat.ordinal()), (worker, None));
            thread::spawn(move || {
                for _ in 0..FORKS {
                    seat.fork(1).expect("a fork");
                }
                seat
            })
        })
        .collect();
    assert_eq!(table.owned_seat().err(), Some(Error::NoSeat));
    let seats: Vec<Seat<Arc<Table>>> = threads
        .into_iter()
        .map(|it| it.join().expect("a seat"))
        .collect();
    let mut last: Vec<_> = seats
        .iter()
        .map(|it| it.ordinal().expect("an ordinal"))
        .collect();
    last.sort_unstable();
    assert_eq!(last.last(), Some(&u64::from(WORKERS * FORKS - 1)));
    assert_eq!(table.worker(3), Ok(u64::from(FORKS)));
    let count = u64::from(WORKERS * FORKS) + 1;
    assert_eq!(table.ask(Call::Count { id: 0 }), Ok(Reply::Counted(count)));
}

/// The table lives as long as one of its owners.
#[test]
fn the_last_owner_closes_the_table() {
    let table = open(1);
    let weak = Arc::downgrade(&table);
    let mut seat = table.owned_seat().expect("a seat");
    drop(table);
    assert_eq!(seat.getpid(1), Ok(1));
    assert_eq!(seat.table().counts().expect("counts").recorded, 1);
    drop(seat);
    assert!(weak.upgrade().is_none());
}

/// Its functions are those of a seat, and each keeps the ordinal.
#[test]
fn the_functions_of_a_seat() {
    let table = open(1);
    let mut seat = table.owned_seat().expect("a seat");
    assert_eq!(seat.line("fork 1 new").as_deref(), Ok("child 2 root 2"));
    let mut replies = Vec::new();
    let calls = [Call::Getpid { caller: 2 }, Call::Getpid { caller: 9 }];
    assert_eq!(seat.calls(&calls, &mut replies), Ok(()));
    assert_eq!((replies.len(), seat.ordinal()), (2, Some(2)));
    let (stranger, next) = (Child { number: 7, root: 7 }, Child { number: 3, root: 3 });
    assert_eq!(seat.fork_at(1, stranger), Ok(false));
    assert_eq!(seat.ordinal(), Some(2));
    assert_eq!(seat.fork_at(1, next), Ok(true));
    let exit = Call::Exit {
        caller: 2,
        status: 7,
    };
    assert_eq!(seat.told(exit).expect("told").effects.len(), 2);
    let held = table.lock().expect("the lock");
    assert_eq!((seat.getpid(1), held.getpid(1)), (Ok(1), Ok(1)));
    drop(held);
    assert_eq!(seat.ordinal(), Some(5));
    assert!(format!("{seat:?}").starts_with("Seat { worker: 0, ordinal: Some(5)"));
}
