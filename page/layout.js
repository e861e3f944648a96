// Where things stand in the drawing: namespaces as nested boxes, tasks below their parents, control groups as a tree.

/** The values by their keys, in the order in which they come. */
function groupBy(values, keyOf) {
  const groups = new Map();
  for (const value of values) {
    const key = keyOf(value);
    if (!groups.has(key)) groups.set(key, []);
    groups.get(key).push(value);
  }
  return groups;
}

/** The nodes in the order of a tree, each with its depth: every node after its parent, before that one's next child. */
function inTreeOrder(roots, childrenOf) {
  const waiting = roots.map((node) => ({ node, depth: 0 })).reverse();
  const order = [];
  // A list of what is still to come and no recursion, as a chain of parents may be long.
  while (waiting.length > 0) {
    const { node, depth } = waiting.pop();
    order.push({ node, depth });
    const below = childrenOf(node).map((child) => ({ node: child, depth: depth + 1 }));
    waiting.push(...below.reverse());
  }
  return order;
}

/** For each namespace but the root the task of the outer one below which its box stands: its init's parent, or null. */
function anchorsOf(listing) {
  const byRoot = new Map(listing.tasks.map((task) => [task.root, task]));
  const inits = new Map(listing.tasks.filter((task) => task.own === 1).map((task) => [task.space, task]));
  const anchorOf = (space) => {
    const parent = byRoot.get(inits.get(space.id)?.parent);
    return parent && parent.space === space.parent ? parent.root : null;
  };
  return new Map(listing.spaces.map((space) => [space.id, anchorOf(space)]));
}

/** The items of one namespace's box: its tasks as a tree, and the boxes of the namespaces in it. */
function itemsOf(space, parts) {
  const tasks = parts.tasks.get(space.id) ?? [];
  const here = new Set(tasks.map((task) => task.root));
  const children = groupBy(tasks, (task) => (here.has(task.parent) ? task.parent : 0));
  const boxes = groupBy(parts.spaces.get(space.id) ?? [], (inner) => parts.anchors.get(inner.id));
  const boxAt = (inner, depth) => ({ ...boxOf(inner, parts), depth });
  const order = inTreeOrder(children.get(0) ?? [], (task) => children.get(task.root) ?? []);
  const items = order.flatMap(({ node: task, depth }) => [
    { task, depth },
    ...(boxes.get(task.root) ?? []).map((inner) => boxAt(inner, depth + 1)),
  ]);
  return [...items, ...(boxes.get(null) ?? []).map((inner) => boxAt(inner, 0))];
}

// Namespaces are nested 33 deep at most, so this recursion ends soon.
function boxOf(space, parts) {
  return { space, items: itemsOf(space, parts) };
}

/** The box of the root namespace, with all others in it. An item is a task or a box, with its depth in its box. */
export function boxesOf(listing) {
  const parts = {
    tasks: groupBy(listing.tasks, (task) => task.space),
    spaces: groupBy(listing.spaces, (space) => space.parent),
    anchors: anchorsOf(listing),
  };
  return boxOf(listing.spaces[0], parts);
}

/** The control groups in the order of their tree, each with its depth and the tasks whose home it is. */
export function controlTree(listing) {
  const children = groupBy(listing.controls, (control) => control.parent);
  const homes = groupBy(listing.tasks, (task) => task.control);
  const order = inTreeOrder(children.get(null) ?? [], (control) => children.get(control.id) ?? []);
  return order.map(({ node: control, depth }) => ({ control, depth, tasks: homes.get(control.id) ?? [] }));
}
