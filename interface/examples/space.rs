use pidtab::Table;

// 2 is the init of a namespace, and 3 that of one within it, which ends.
let table = Table::open(32768)?;
table.fork_new(1)?;
table.fork_new(2)?;
table.exit(3, 0)?;
// The namespaces that it was in, from its own outwards.
let (mut id, mut told) = (table.stat(1, 3)?.space(), Vec::new());
while let Some(space) = table.space(id)? {
    told.push((space.level, space.init, space.fallen));
    let Some(parent) = space.parent else { break };
    id = parent;
}
assert_eq!(told, [(2, Some(3), true), (1, Some(2), false), (0, Some(1), false)]);
assert_eq!(table.space(9)?, None);
# Ok::<(), pidtab::Error>(())
