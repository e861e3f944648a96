//! A table for many threads, with its history: `cargo run --offline --example threads` prints what is said at the end.
use pidtab::{Error, Keep, Table, Which};
use std::thread;

/// A container of the worker's own, and in it one process after the other.
fn serve(table: &Table) -> Result<(), Error> {
    let mut seat = table.seat()?;
    let container = seat.fork_new(1)?;
    for status in 0..100 {
        let process = seat.fork(container.root)?;
        seat.exit(process.root, status)?;
        seat.wait(container.root, Which::Pid(process.number))?;
    }
    Ok(())
}

fn main() -> Result<(), Error> {
    let options = Table::options().keep(Keep::All).workers(5).threads();
    let table = options.open()?;
    let mut seat = table.seat()?;
    println!("{} {:?}", seat.getpid(1)?, seat.ordinal());
    thread::scope(|scope| {
        let works: Vec<_> = (1..5).map(|_| scope.spawn(|| serve(&table))).collect();
        let mut ends = works.into_iter().map(|it| it.join().expect("no panic"));
        ends.try_for_each(|it| it)
    })?;
    println!("{:?}", table.counts()?);
    println!("{} {}", table.worker(0)?, table.worker(4)?);
    let held = table.lock()?;
    let (tasks, calls) = (held.listing()?.tasks, held.counts()?.recorded);
    println!("{} tasks after {calls} calls", tasks.len());
    drop(held);
    println!("{:?}", table.entry(0)?);
    let history = table.entries(0, usize::MAX)?;
    let again = options.open()?;
    again.replay(&history)?;
    println!("the same list: {}", again.list()? == table.list()?);
    println!("{:?}", table.checkpoint_at(7));
    table.checkpoint_at(history.len() as u64)?;
    println!("{:?}", table.counts()?);
    println!("{:?}", table.entry(0));
    Ok(())
}

// It prints
//
//     1 Some(0)
//     Counts { first_kept: 0, recorded: 1205 }
//     1 301
//     5 tasks after 1205 calls
//     Entry { ordinal: 0, worker: 0, call: Getpid { caller: 1 }, reply: Number(1) }
//     the same list: true
//     Err(Again)
//     Counts { first_kept: 1205, recorded: 1205 }
//     Err(NotKept)
