use pidtab::{Error, Table};

/// Ends tasks, and first the children of each. The root init sees all by their root numbers.
fn end_all(table: &Table, tasks: Vec<u32>) -> Result<(), Error> {
    for task in tasks {
        let children = table.children(1, task, 0)?;
        end_all(table, children)?;
        if table.stat(1, task)?.ended().is_none() {
            table.exit(task, 0)?;
        }
    }
    Ok(())
}

let table = Table::open(32768)?;
table.fork(1)?;
table.setpgid(1, 2, 2)?;
table.fork(2)?;
table.setsid(3)?;
let members = table.group_members(1, 2, 0)?;
end_all(&table, members)?;
assert_eq!(table.children(1, 0, 0)?, [2, 3]);
assert!(table.stat(1, 3)?.ended().is_some());
# Ok::<(), Error>(())
