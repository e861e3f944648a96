//! The example of README.md.
use pidtab::{Error, Table, Which};

fn main() -> Result<(), Error> {
    let table = Table::open(32768)?;
    let container = table.fork_new(1)?;
    println!("{container:?}");
    let worker = table.fork(container.root)?;
    println!("{worker:?}");
    println!("{:?}", table.nspid(1, worker.root)?);
    match table.getpid(99) {
        Err(Error::Refused { errno, refusal, .. }) => println!("errno {errno}: {refusal}"),
        other => println!("{other:?}"),
    }
    table.exit(container.root, 7)?;
    println!("{:?}", table.wait(1, Which::Any)?);
    print!("{}", table.list()?);
    Ok(())
}
