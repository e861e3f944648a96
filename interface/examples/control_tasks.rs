use pidtab::{Error, Table};

/// The control group, and then each directly inside it, with their live tasks, as `systemd-cgls` has them.
fn tree(table: &Table, id: u64, depth: usize) -> Result<String, Error> {
    let mut said = format!("{:depth$}{id}: {:?}\n", "", table.control_tasks(1, id, 0)?);
    for inner in table.controls_inside(id, 0)?.unwrap_or_default() {
        said += &tree(table, inner, depth + 1)?;
    }
    Ok(said)
}

let table = Table::open(32768)?;
let service = table.mk(0)?;
let worker = table.mk(service)?;
table.fork(1)?;
table.move_task(2, service)?;
table.fork(2)?;
table.fork(2)?;
table.fork(2)?;
table.move_task(4, worker)?;
// A zombie counts, and is no live task.
table.exit(5, 0)?;
assert_eq!(tree(&table, 0, 0)?, "0: [1]\n 1: [2, 3]\n  2: [4]\n");
# Ok::<(), Error>(())
