//! A saved history, by a supervisor that lives twice: `cargo run --offline --example saved` prints what is said at the end.
use pidtab::{Keep, Table};
use std::fs::{self, File};
use std::io;

/// A supervisor's life: it goes on where the file ends, forks, and saves that.
fn live(path: &str) -> io::Result<()> {
    let mut options = File::options();
    let file = options
        .read(true)
        .write(true)
        .create(true)
        .truncate(false)
        .open(path)?;
    let (table, mut saved) = Table::options().keep(Keep::All).resume(&file)?;
    println!(
        "calls: {}, bytes left out: {}",
        saved.calls(),
        saved.left_out()
    );
    let child = table.fork(1)?;
    table.save(&mut saved, &file)?;
    file.sync_data()?;
    println!("child {}", child.number);
    Ok(())
}

fn main() -> io::Result<()> {
    let path = "history";
    live(path)?;
    let mut bytes = fs::read(path)?;
    bytes.extend(b"torn"); // as a writer leaves it that was stopped
    fs::write(path, &bytes)?;
    live(path)?;
    bytes[60] ^= 1;
    if let Err(fault) = Table::options().keep(Keep::All).load(&bytes[..]) {
        println!("{fault}");
    }
    fs::remove_file(path)
}

// It prints
//
//     calls: 0, bytes left out: 0
//     child 2
//     calls: 1, bytes left out: 4
//     child 3
//     call 0, saved at byte 48: a byte is not the one that was written
