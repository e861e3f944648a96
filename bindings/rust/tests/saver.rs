//! The saver of a table that threads work on: who waits for it, whom it holds up, and that busy threads let it have the lock.
use pidtab::{Call, Error, Keep, LineError, Saved, SavedFault, Seat, Table};
use std::fs;
use std::io::{self, Write};
use std::sync::atomic::{AtomicBool, AtomicU32, AtomicU64, Ordering};
use std::thread;

const THREADS: u32 = 8;
const EACH: u64 = 300;
const KEEP: u64 = 256;
const BOUND: u64 = 16;
const BLOCK: u64 = 48;

/// A disk that counts what it was given, and what of that was there at the last sync.
#[derive(Default)]
struct Disk {
    given: AtomicU64,
    synced: AtomicU64,
}

impl Disk {
    fn sync(&self) -> io::Result<()> {
        let given = self.given.load(Ordering::SeqCst);
        self.synced.store(given, Ordering::SeqCst);
        Ok(())
    }

    /// How many calls survive: each of them is one block.
    fn calls(&self) -> u64 {
        (self.synced.load(Ordering::SeqCst) / BLOCK).saturating_sub(1)
    }
}

impl Write for &Disk {
    fn write(&mut self, bytes: &[u8]) -> io::Result<usize> {
        self.given.fetch_add(bytes.len() as u64, Ordering::SeqCst);
        Ok(bytes.len())
    }

    fn flush(&mut self) -> io::Result<()> {
        Ok(())
    }
}

/// A writer, or a sync, that fails.
struct Broken;

impl Write for Broken {
    fn write(&mut self, _: &[u8]) -> io::Result<usize> {
        Err(io::Error::from_raw_os_error(28))
    }

    fn flush(&mut self) -> io::Result<()> {
        Ok(())
    }
}

fn open() -> Table {
    let options = Table::options().keep(Keep::All).workers(THREADS);
    options.threads().open().expect("a table")
}

/// Makes a call that is one block: its ordinal.
fn ask(seat: &mut Seat<&Table>) -> u64 {
    assert_eq!(seat.getpid(1), Ok(1));
    seat.ordinal().expect("an ordinal")
}

/// The threads do it at once beside the saver, which ends after them: how many calls are saved.
fn beside_the_saver(table: &Table, disk: &Disk, keep: u64, does: impl Fn() + Sync) -> u64 {
    let mut saved = Saved::new();
    thread::scope(|scope| {
        let saver = scope.spawn(|| table.serve(&mut saved, disk, keep, || disk.sync()));
        let works: Vec<_> = (0..THREADS).map(|_| scope.spawn(&does)).collect();
        works
            .into_iter()
            .for_each(|it| it.join().expect("no panic"));
        table.end_saving().expect("a lock");
        saver.join().expect("no panic").expect("saved");
    });
    saved.calls()
}

/// Each call is after a sync when it is answered. No thread has more than one that is not, so a cut leaves as many as there are threads.
#[test]
fn each_answer_is_on_the_disk() {
    let (table, disk) = (open(), Disk::default());
    let calls = beside_the_saver(&table, &disk, KEEP, || {
        let mut seat = table.seat().expect("a seat");
        for _ in 0..EACH {
            let ordinal = ask(&mut seat);
            table.wait_saved(ordinal).expect("saved");
            assert!(disk.calls() > ordinal);
        }
    });
    let counts = table.counts().expect("counts");
    assert_eq!((calls, counts.recorded), (u64::from(THREADS) * EACH, calls));
    assert!(counts.recorded - counts.first_kept < KEEP + u64::from(THREADS));
}

/// A call was made when at most so many were not saved; by now more may be.
#[test]
fn never_too_far() {
    let (table, disk) = (open(), Disk::default());
    table.bound_unsaved(BOUND).expect("a lock");
    let calls = beside_the_saver(&table, &disk, 0, || {
        let mut seat = table.seat().expect("a seat");
        for _ in 0..EACH {
            assert!(ask(&mut seat) < disk.calls() + BOUND);
        }
    });
    assert_eq!(calls, u64::from(THREADS) * EACH);
}

/// The same of many calls in one go. More than the bound are made where all is saved.
#[test]
fn many_in_one_go_never_too_far() {
    let (table, disk) = (open(), Disk::default());
    table.bound_unsaved(BOUND).expect("a lock");
    let calls = beside_the_saver(&table, &disk, 0, || {
        let (mut seat, mut replies) = (table.seat().expect("a seat"), Vec::new());
        for length in [1, 7, 2 * BOUND, 3].repeat(EACH as usize / 40) {
            let calls = vec![Call::Getpid { caller: 1 }; length as usize];
            assert_eq!(seat.calls(&calls, &mut replies), Ok(()));
            let ordinal = seat.ordinal().expect("an ordinal");
            assert!(ordinal < disk.calls() + length.max(BOUND));
        }
    });
    assert_eq!(calls, u64::from(THREADS) * (11 + 2 * BOUND) * (EACH / 40));
}

/// What was loaded is saved.
#[test]
fn what_was_loaded() {
    let (table, mut bytes) = (open(), Vec::new());
    ask(&mut table.seat().expect("a seat"));
    table.save(&mut Saved::new(), &mut bytes).expect("saved");
    let options = Table::options().keep(Keep::All).threads();
    let (again, _) = options.load(&bytes[..]).expect("a table");
    again.wait_saved(0).expect("saved");
}

/// Who waits has the fault of the saver, at once, until a save does better; and what is too far is not made.
#[test]
fn a_saver_that_fails() {
    let (table, mut saved) = (open(), Saved::new());
    let mut seat = table.seat().expect("a seat");
    table.bound_unsaved(1).expect("a lock");
    ask(&mut seat);
    let is_full =
        |fault: &SavedFault| matches!(fault, SavedFault::Io(it) if it.raw_os_error() == Some(28));
    thread::scope(|scope| {
        let waiter = scope.spawn(|| table.wait_saved(0));
        let failed = table.serve(&mut saved, Broken, 0, || Ok(()));
        assert!(is_full(&failed.expect_err("a fault").fault));
        assert!(is_full(
            &waiter.join().expect("no panic").expect_err("a fault").fault
        ));
    });
    assert!(is_full(&table.wait_saved(0).expect_err("a fault").fault));
    assert_eq!(seat.getpid(1), Err(Error::Unsaved));
    assert_eq!(seat.line("getpid 1"), Err(LineError::Unsaved));
    let told = seat.told(Call::Getpid { caller: 1 });
    assert_eq!(told, Err(Error::Unsaved));
    assert_eq!(
        io::Error::from(Error::Unsaved).kind(),
        io::ErrorKind::BrokenPipe
    );
    assert_eq!(table.counts().expect("counts").recorded, 1);
    // A sync that fails: the call is given to the disk, and counts as not saved.
    let lost = || Err(io::Error::from_raw_os_error(5));
    let disk = Disk::default();
    assert!(table.serve(&mut saved, &disk, 0, lost).is_err() && saved.calls() == 1);
    assert!(table.wait_saved(0).is_err() && disk.calls() == 0);
    table.save(&mut saved, &disk).expect("saved");
    table.wait_saved(0).expect("saved");
    assert_eq!(ask(&mut seat), 1);
}

/// A saver that has ended has a turn yet, and then nobody waits for it.
#[test]
fn a_saver_that_has_ended() {
    let (table, mut saved, mut bytes) = (open(), Saved::new(), Vec::new());
    let mut seat = table.seat().expect("a seat");
    table.bound_unsaved(1).expect("a lock");
    ask(&mut seat);
    thread::scope(|scope| {
        let waiter = scope.spawn(|| table.wait_saved(0));
        table.end_saving().expect("a lock");
        let ended = waiter.join().expect("no panic").expect_err("a fault");
        assert!(matches!(ended.fault, SavedFault::Ended));
        assert_eq!(io::Error::from(ended).kind(), io::ErrorKind::BrokenPipe);
    });
    assert_eq!(seat.getpid(1), Err(Error::Unsaved));
    table
        .serve(&mut saved, &mut bytes, 0, || Ok(()))
        .expect("saved");
    assert_eq!((saved.calls(), bytes.len() as u64), (1, 2 * BLOCK));
    table.wait_saved(0).expect("saved");
    assert!(matches!(
        table.wait_saved(1).expect_err("a fault").fault,
        SavedFault::Ended
    ));
}

/// Whether a thread sleeps, as /proc says; 0 is that of none yet.
fn is_asleep(task: &AtomicU32) -> bool {
    let path = format!("/proc/self/task/{}/stat", task.load(Ordering::SeqCst));
    let state = |stat: String| stat.rsplit(") ").next().map(|it| it.starts_with('S'));
    task.load(Ordering::SeqCst) != 0 && fs::read_to_string(path).ok().and_then(state) == Some(true)
}

/// Tells the number of this thread.
fn tell_task(task: &AtomicU32) {
    let stat = fs::read_to_string("/proc/thread-self/stat").expect("a thread");
    let number = stat.split(' ').next().and_then(|it| it.parse().ok());
    task.store(number.expect("a number"), Ordering::SeqCst);
}

fn wait_until(holds: impl Fn() -> bool) {
    while !holds() {
        thread::yield_now();
    }
}

/// All busy threads wait for the lock, and after them one that counts: how many calls come before it.
fn calls_before_the_count(table: &Table, busy: &[AtomicU32]) -> u64 {
    let counting = AtomicU32::new(0);
    thread::scope(|scope| {
        let held = table.lock().expect("the lock");
        wait_until(|| busy.iter().all(is_asleep));
        let before = held.counts().expect("counts").recorded;
        let counter = scope.spawn(|| {
            tell_task(&counting);
            table.counts().expect("counts").recorded
        });
        wait_until(|| is_asleep(&counting));
        drop(held);
        counter.join().expect("no panic") - before
    })
}

/// Each of the busy threads makes one call at most, and then waits until the other has counted.
#[test]
fn goes_before_busy_threads() {
    let (table, is_over) = (open(), AtomicBool::new(false));
    let busy: Vec<_> = (0..THREADS).map(|_| AtomicU32::new(0)).collect();
    let most = thread::scope(|scope| {
        for task in &busy {
            let mut seat = table.seat().expect("a seat");
            let is_over = &is_over;
            scope.spawn(move || {
                tell_task(task);
                while !is_over.load(Ordering::SeqCst) {
                    ask(&mut seat);
                }
            });
        }
        wait_until(|| busy.iter().all(|it| it.load(Ordering::SeqCst) != 0));
        let found = (0..50).map(|_| calls_before_the_count(&table, &busy)).max();
        is_over.store(true, Ordering::SeqCst);
        found
    });
    assert!(most <= Some(u64::from(THREADS)), "{most:?}");
}
