use pidtab::Table;

let table = Table::open(32768)?;
table.fork_new(1)?;
let task = table.stat(1, 2)?;
assert_eq!((task.numbers(), task.parent(), task.ended()), (&[2, 1][..], 1, None));
# Ok::<(), pidtab::Error>(())
