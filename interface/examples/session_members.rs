use pidtab::Table;

// 2 leads a session. Its child 3 is in the foreground, in a group of its own, and 5, a child of its child 4, leads another session.
let table = Table::open(32768)?;
table.fork(1)?;
table.setsid(2)?;
table.fork(2)?;
table.fork(2)?;
table.setpgid(2, 3, 3)?;
table.fork(4)?;
table.setsid(5)?;
assert_eq!(table.group_members(2, 3, 0)?, [3]);
assert_eq!(table.session_members(2, 0, 0)?, [2, 3, 4]);
# Ok::<(), pidtab::Error>(())
