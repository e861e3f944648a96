"""Draws the list of a table as trees: its processes, namespaces and control groups."""

import re
import sys
from collections import Counter
from collections.abc import Mapping, Sequence
from dataclasses import dataclass, field

from pidtab.listing import BadList, Control, Listing, Space, Task, read_list

# A line of a tree, in text alone, as a table may have many: a number, the further numbers of a task, its namespace, the number of what it
# stands below, and what else is said. A plain tuple, as a pattern finds it.
Node = tuple[str, str, str, str, str]

# What stands below nothing, as a list has it.
TASK_TOP, OTHER_TOP = "0", "-"

N = "(?:0|[1-9][0-9]*)"
TASKS = re.compile(
    rf"^task ({N})((?:,{N})*) space ({N}) parent ({N}) (group {N} session {N} control {N} (?:live|killed|exit {N})"
    rf"(?: executed)?(?: children {N})?(?: subreaper)?)$",
    re.MULTILINE,
)
SPACES = re.compile(rf"^space ({N})()() parent (-|{N}) (cursor {N}(?: fallen)?)$", re.MULTILINE)
CONTROLS = re.compile(rf"^control ({N})()() parent (-|{N}) limit (max count {N}|{N} count {N})$", re.MULTILINE)


@dataclass(frozen=True)
class Style:
    """What stands before the lines of a tree: before one that others follow and before the last, and for either before what is below it."""

    branch: str
    last: str
    beside: str
    behind: str


INDENTED = Style("  ", "  ", "  ", "  ")
ASCII = Style("|-", "`-", "| ", "  ")


@dataclass(frozen=True)
class Wishes:
    """What of a table is drawn, and how."""

    style: Style = INDENTED
    depth: int | None = None
    root: int | None = None
    counts: bool = False
    labels: Mapping[str, str] = field(default_factory=dict)


@dataclass(frozen=True)
class Trees:
    """The lines of the three trees."""

    tasks: Sequence[Node]
    spaces: Sequence[Node]
    controls: Sequence[Node]


def task_node(task: Task) -> Node:
    """A task with its numbers, group, session, control group, end and marks."""
    more = "".join(f",{number}" for number in task.numbers[1:])
    more += "" if task.key is None else f" #{task.key}"
    more += "" if task.label is None else f" ({task.label})"
    life = "live" if task.live else "killed" if task.killed else f"exit {task.status}"
    marks = " executed" if task.executed else ""
    marks += "" if task.children is None else f" children {task.children}"
    marks += " subreaper" if task.subreaper else ""
    text = f"group {task.group} session {task.session} control {task.control} {life}{marks}"
    return str(task.root), more, str(task.space), str(task.parent), text


def space_node(space: Space) -> Node:
    """A namespace with its cursor."""
    parent = OTHER_TOP if space.parent is None else str(space.parent)
    return str(space.id), "", "", parent, f"cursor {space.cursor}{' fallen' if space.fallen else ''}"


def control_node(control: Control) -> Node:
    """A control group with the count of its subtree and its limit."""
    parent = OTHER_TOP if control.parent is None else str(control.parent)
    limit = "max" if control.limit is None else control.limit
    return str(control.id), "", "", parent, f"count {control.count} limit {limit}"


def turn(node: Node) -> Node:
    """A control group of a list: there the count stands after the limit."""
    limit, _, count = node[4].split(" ")
    return *node[:4], f"count {count} limit {limit}"


def trees_of(listing: Listing) -> Trees:
    """The trees of a list that was read."""
    return Trees(
        [task_node(task) for task in listing.tasks],
        [space_node(space) for space in listing.spaces],
        [control_node(control) for control in listing.controls],
    )


def read_trees(text: str) -> Trees:
    """The trees of the text of a list: many lines at once, as long as they are in the program's order and none is bad."""
    spaces = text.find("\nspace ") + 1
    controls = text.find("\ncontrol ", spaces) + 1
    parts = (text[:spaces], text[spaces:controls], text[controls:])
    found = [pattern.findall(part) for pattern, part in zip((TASKS, SPACES, CONTROLS), parts)]
    if any(len(nodes) != part.count("\n") for nodes, part in zip(found, parts)) or not text.endswith("\n"):
        return trees_of(read_list(text))
    return Trees(found[0], found[1], [turn(node) for node in found[2]])


def count_all(nodes: Sequence[Node], below: Mapping[str, Sequence[Node]]) -> int:
    """How many these are, with all that stand below them."""
    found = list(nodes)
    for node in found:
        found += below.get(node[0], ())
    return len(found)


class Forest:
    """Nodes of one kind by what they stand below."""

    def __init__(self, nodes: Sequence[Node], top: str) -> None:
        # With an id given twice, a walk might have no end.
        if len({node[0] for node in nodes}) != len(nodes):
            raise BadList("one id is given twice")
        below: dict[str, list[Node]] = {}
        for node in nodes:
            siblings = below.get(node[3])
            if siblings is None:
                below[node[3]] = [node]
            else:
                siblings.append(node)
        self.nodes = nodes
        # Taken out, so that nothing stands below a task 0, which no list should have.
        self.tops = below.pop(top, [])
        self.below = below

    def check(self, reached: int) -> None:
        """Sees to it that so many are all, as one that is in a ring, or below none, is not reached from the tops."""
        if reached != len(self.nodes):
            raise BadList("a parent is missing")

    def draw_all(self, wishes: Wishes) -> list[str]:
        """The lines of all nodes."""
        lines, reached = self.draw(self.tops, wishes)
        self.check(reached)
        return lines

    def draw_root(self, wishes: Wishes) -> list[str]:
        """The lines of the node that is wished for and of what is below it."""
        self.check(count_all(self.tops, self.below))
        tops = [node for node in self.nodes if node[0] == str(wishes.root)]
        if not tops:
            raise BadList(f"no task has the root number {wishes.root}")
        return self.draw(tops, wishes)[0]

    def draw(self, tops: Sequence[Node], wishes: Wishes) -> tuple[list[str], int]:
        """Each node below its parent, and below a line of its namespace where that is not its parent's; and how many there are."""
        below, style, deepest = self.below, wishes.style, wishes.depth or sys.maxsize
        lines: list[str] = []
        reached = len(tops)
        # Siblings that are still to be drawn, the outermost first, and no recursion, as a chain of parents may be long.
        open_ones = [(iter(tops), tops[-1:], "", "")]
        while open_ones:
            siblings, last, prefix, outer = open_ones[-1]
            for node in siblings:
                id, more, space, _, text = node
                branch, inner = (style.last, style.behind) if node is last[0] else (style.branch, style.beside)
                before = prefix
                if space != outer:
                    lines.append(f"{before}{branch}space {space}\n")
                    before, branch, inner = before + inner, style.last, style.behind
                lines.append(f"{before}{branch}{id}{more} {text}\n")
                children = below.get(id)
                if children is None:
                    continue
                if len(open_ones) == deepest:
                    hidden = count_all(children, below)
                    reached += hidden
                    lines[-1] = f"{lines[-1][:-1]} [{hidden} below]\n"
                    continue
                reached += len(children)
                open_ones.append((iter(children), children[-1:], before + inner, space))
                break
            else:
                open_ones.pop()
        return lines, reached


def is_live(task: Node) -> bool:
    """Whether a task has not ended."""
    return " live" in task[4]


def count_spaces(trees: Trees) -> list[Node]:
    """The namespaces with their tasks, and how many of these have ended."""
    tasks = Counter(node[2] for node in trees.tasks)
    ended = Counter(node[2] for node in trees.tasks if not is_live(node))
    return [(*it[:4], f"{it[4]} tasks {tasks[it[0]]} zombies {ended[it[0]]}") for it in trees.spaces]


def label_tasks(nodes: Sequence[Node], labels: Mapping[str, str]) -> Sequence[Node]:
    """Tasks with their labels after their numbers."""
    if not labels:
        return nodes
    return [(it[0], f"{it[1]} ({labels[it[0]]})", *it[2:]) if it[0] in labels else it for it in nodes]


def draw_tasks(nodes: Sequence[Node], wishes: Wishes) -> list[str]:
    """The lines of the processes, or of the one that is wished for with what is below it."""
    forest = Forest(label_tasks(nodes, wishes.labels), TASK_TOP)
    return forest.draw_all(wishes) if wishes.root is None else forest.draw_root(wishes)


def draw_trees(trees: Trees, wishes: Wishes) -> list[str]:
    """The lines of the trees that are wished for."""
    lines = ["processes\n", *draw_tasks(trees.tasks, wishes)]
    if wishes.root is not None:
        return lines
    spaces = count_spaces(trees) if wishes.counts else trees.spaces
    lines += ["namespaces\n", *Forest(spaces, OTHER_TOP).draw_all(wishes)]
    return [*lines, "control groups\n", *Forest(trees.controls, OTHER_TOP).draw_all(wishes)]


def draw_list(listing: Listing) -> str:
    """The three trees of a table."""
    return "".join(draw_trees(trees_of(listing), Wishes()))
