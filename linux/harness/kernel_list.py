"""The list of docs/SCRIPT.md, as the kernel shows it. What no kernel interface shows is `?`."""

from harness.proc import NOT_EXECUTED, Stat
from harness.world import Refused, Task, World

UNSEEN = "?"

# The lines, with a place for each field.
# Written by tools/interface: lines.
TASK = (
    "task {numbers} space {space} parent {parent} group {group} session {session} control {control} "
    "{state}{executed}{children}{subreaper}"
)
SPACE = "space {id} parent {parent} cursor {cursor}{fallen}"
CONTROL = "control {id} parent {parent} limit {limit} count {count}"
# The end of lines.


def home_of(world: World, task: Task, stat: Stat) -> str:
    """The id of a live task's control group."""
    if world.groups is None or stat.is_zombie or world.proc is None:
        return UNSEEN
    home = world.groups.home(world.proc.read(f"{task.number}/cgroup") or "")
    return UNSEEN if home is None else str(home)


def children_of(world: World, task: Task, stat: Stat) -> str:
    """` children J` where a task's children go elsewhere: of a live one, what the kernel's link names."""
    space = task.children_space
    if not stat.is_zombie and world.proc is not None:
        link = world.proc.namespace(task.number, "pid_for_children")
        spaces = [id for id, each in world.spaces.items() if each.link == link and link is not None]
        space = spaces[-1] if spaces else space
    return "" if space == task.space else f" children {space}"


def subreaper_of(world: World, task: Task, stat: Stat) -> str:
    """` subreaper` for a task that is one: a live one is asked."""
    is_one = task.is_subreaper if stat.is_zombie else world.command(task.number, "is_subreaper") == "1"
    return " subreaper" if is_one else ""


def task_line(world: World, stat: Stat) -> str:
    """The line of a task."""
    task = world.tasks[stat.number]
    assert world.proc
    return TASK.format(
        numbers=",".join(str(number) for number in world.proc.numbers(stat.number)),
        space=task.space,
        parent=stat.parent,
        group=stat.group,
        session=stat.session,
        control=home_of(world, task, stat),
        state=stat.how_ended if stat.is_zombie else "live",
        executed="" if stat.flags & NOT_EXECUTED else " executed",
        children=children_of(world, task, stat),
        subreaper=subreaper_of(world, task, stat),
    )


def cursor_of(world: World, init: int) -> str:
    """One above the number that a namespace gave last, as its init reads it."""
    try:
        return str(int(world.command(init, "last")) + 1)
    except Refused:
        return UNSEEN


def space_lines(world: World) -> list[str]:
    """The lines of the namespaces whose init lives."""
    lines = []
    for id, space in world.spaces.items():
        if world.has_live_init(id):
            parent = "-" if space.parent is None else space.parent
            lines.append(SPACE.format(id=id, parent=parent, cursor=cursor_of(world, space.init), fallen=""))
    return lines


def control_lines(world: World) -> list[str]:
    """The lines of the control groups."""
    if world.groups is None:
        return []
    groups, lines = world.groups, []
    for id in sorted(groups.folders):
        parent = "-" if groups.parents[id] is None else groups.parents[id]
        lines.append(CONTROL.format(id=id, parent=parent, limit=groups.limit(id), count=groups.count(id)))
    return lines


def kernel_list(world: World) -> list[str]:
    """All lines."""
    tasks = [task_line(world, stat) for stat in world.proc_all().values()]
    return tasks + space_lines(world) + control_lines(world)


def is_same(kernel: str, table: str) -> bool:
    """Whether two lines are the same where the kernel shows anything."""
    left, right = kernel.split(" "), table.split(" ")
    return len(left) == len(right) and all(a in (UNSEEN, b) for a, b in zip(left, right))


def differing_lines(kernel: list[str], table: list[str]) -> list[tuple[str, str]]:
    """The pairs of lines that differ. Fallen namespaces stand in the table's list alone; so do control groups where the world
    has none."""
    has_controls = any(line.startswith("control") for line in kernel)
    wanted = [
        line for line in table if not line.endswith(" fallen") and (has_controls or not line.startswith("control"))
    ]
    longest = max(len(kernel), len(wanted))
    left = kernel + ["(no line)"] * (longest - len(kernel))
    right = wanted + ["(no line)"] * (longest - len(wanted))
    return [(a, b) for a, b in zip(left, right) if not is_same(a, b)]
