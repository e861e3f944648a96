//! A table as text, and a table of that text: `cargo run --offline --example dump` prints what is said at the end.
use pidtab::{Keep, Table};

fn main() -> Result<(), Box<dyn std::error::Error>> {
    let table = Table::open(32768)?;
    let init = table.fork_new(1)?.root;
    let text = table.dump()?;

    let again = Table::from_dump(&text)?;
    println!("{:?}", again.fork(init)?);
    println!("{:?}", table.fork(init)?);

    // With a history that begins there: one worker, which has made one call before.
    let recorded = Table::options().keep(Keep::All).open_dump(&text, &[1])?;
    let mut seat = recorded.seat()?;
    seat.fork(init)?;
    println!("{:?}", seat.ordinal());

    if let Err(refused) = Table::from_dump(text.replace("live", "dead")) {
        println!("{refused}");
    }
    Ok(())
}

// It prints
//
//     Child { number: 2, root: 3 }
//     Child { number: 2, root: 3 }
//     Some(1)
//     line 2: bad line
