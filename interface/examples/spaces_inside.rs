use pidtab::Table;

let table = Table::open(32768)?;
table.fork_new(1)?;
table.fork_new(2)?;
table.mk(0)?;
assert_eq!(table.spaces_inside(0, 0)?, Some(vec![1]));
assert_eq!(table.spaces_inside(1, 0)?, Some(vec![2]));
assert_eq!(table.spaces_inside(3, 0)?, None);
assert_eq!(table.controls_inside(0, 0)?, Some(vec![3]));
# Ok::<(), pidtab::Error>(())
