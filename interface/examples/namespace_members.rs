use pidtab::{Error, Table};

/// Whom a kill of -1 reaches, by their root numbers: not the init, which is 1 there, and not the caller. To a zombie it does nothing.
fn reached(table: &Table, caller: u32) -> Result<Vec<u32>, Error> {
    let mut tasks = Vec::new();
    for number in table.namespace_members(caller, 0, 2)? {
        let task = table.stat(caller, number)?;
        if task.ended().is_none() && task.root() != caller {
            tasks.push(task.root());
        }
    }
    Ok(tasks)
}

// 2 is the init of a namespace, and 3, 4 and 5 are its children. 4 is a zombie, and 5 is the init of a namespace within it.
let table = Table::open(32768)?;
table.fork_new(1)?;
table.fork(2)?;
table.fork(2)?;
table.fork_new(2)?;
table.exit(4, 0)?;
assert_eq!(reached(&table, 1)?, [2, 3, 5]);
assert_eq!(reached(&table, 3)?, [5]);
assert_eq!(reached(&table, 5)?, []);
assert!(reached(&table, 4).is_err());
# Ok::<(), Error>(())
