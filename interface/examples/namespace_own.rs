use pidtab::Table;

// 2 is the init of a namespace, in which is its child 3, and 4 that of one within it.
let table = Table::open(32768)?;
table.fork_new(1)?;
table.fork(2)?;
table.fork_new(3)?;
// Each namespace with its own tasks, from the root inwards. Where the init was reaped, nobody is left but zombies.
let (mut told, mut spaces) = (Vec::new(), vec![0]);
while let Some(id) = spaces.pop() {
    if let Some(init) = table.space(id)?.and_then(|it| it.init) {
        told.push((id, table.namespace_own(1, init, 0)?));
    }
    spaces.extend(table.spaces_inside(id, 0)?.unwrap_or_default());
}
assert_eq!(told, [(0, vec![1]), (1, vec![2, 3]), (3, vec![4])]);
# Ok::<(), pidtab::Error>(())
