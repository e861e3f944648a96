"""The list of a table, as `pidtab list` writes it."""

import json
import re
from collections.abc import Callable, Iterator, Mapping
from dataclasses import dataclass, field, replace
from functools import cached_property
from typing import Any

# The fields of each line in their order, each with its type. The first stands after the word of its line, and others after their names.
# Written by tools/interface: fields.
FIELDS: dict[str, dict[str, str]] = {
    "task": {
        "numbers": "numbers",
        "space": "id",
        "parent": "number",
        "group": "number",
        "session": "number",
        "control": "id",
        "live": "state",
        "status": "status",
        "executed": "mark",
        "children": "apart",
        "subreaper": "mark",
    },
    "space": {
        "id": "id",
        "parent": "root",
        "cursor": "number",
        "fallen": "mark",
    },
    "control": {
        "id": "id",
        "parent": "root",
        "limit": "limit",
        "count": "count",
    },
}
# The end of fields.

# How a field of each type is written after its word.
WRITTEN = {
    "numbers": r"{word} (?P<{name}>\d+(?:,\d+)*)",
    "number": r"{word} (?P<{name}>\d+)",
    "id": r"{word} (?P<{name}>\d+)",
    "count": r"{word} (?P<{name}>\d+)",
    "root": r"{word} (?P<{name}>-|\d+)",
    "limit": r"{word} (?P<{name}>max|\d+)",
    "state": r" (?:(?P<{name}>live)|killed|",
    "status": r"exit (?P<{name}>\d+))",
    "mark": r"(?P<{name}>{word})?",
    "apart": r"(?:{word} (?P<{name}>\d+))?",
}

# What is there or not; how many bits a number has; and the words that stand for none.
MARKS = ("mark", "state")
BITS = {"number": 32, "limit": 32, "status": 8} | dict.fromkeys(("id", "count", "root", "apart"), 64)
NONE = {"root": "-", "limit": "max"}

# The fields of a task in JSON, in their order.
TASK_FIELDS = ("numbers", "space", "parent", "group", "session", "control", "state", "status", "executed", "children", "subreaper", "label", "key")

# Those that a task may lack.
OUTSIDE = ("label", "key")


# Of a drawing in a notebook.
MOST_LINES = 1000


class BadList(ValueError):
    """A text that `pidtab list` does not write."""


@dataclass(frozen=True)
class Task:
    """A task: its numbers, the root's first; root numbers of parent (0 for none), group and session; its end and marks.

    Its label and its key are from outside of the table, None where it has none, and are not compared.
    """

    numbers: tuple[int, ...]
    space: int
    parent: int
    group: int
    session: int
    control: int
    live: bool
    status: int | None
    executed: bool
    children: int | None
    subreaper: bool
    label: str | None = field(default=None, compare=False)
    key: int | None = field(default=None, compare=False)

    @property
    def root(self) -> int:
        """Its number in the root namespace."""
        return self.numbers[0]

    @property
    def killed(self) -> bool:
        """Whether the fall of its namespace ended it."""
        return not self.live and self.status is None

    @property
    def state(self) -> str:
        """`live`, `exited` or `killed`."""
        return "live" if self.live else "killed" if self.killed else "exited"

    def to_object(self) -> dict[str, Any]:
        """Its fields, as docs/list.schema.json has them."""
        fields = vars(self) | {"numbers": list(self.numbers), "state": self.state}
        return {name: fields[name] for name in TASK_FIELDS if name not in OUTSIDE or fields[name] is not None}


@dataclass(frozen=True)
class Space:
    """A namespace; the root has no parent."""

    id: int
    parent: int | None
    cursor: int
    fallen: bool


@dataclass(frozen=True)
class Control:
    """A control group with the count of its subtree; a limit of None is `max`."""

    id: int
    parent: int | None
    limit: int | None
    count: int


Item = Task | Space | Control
KINDS: dict[str, Callable[..., Item]] = {"task": Task, "space": Space, "control": Control}


@dataclass(frozen=True)
class Listing:
    """All that stands in a table. `for task in listing` goes over its tasks, and `listing[2]` is the one with the root number 2, else a KeyError."""

    tasks: tuple[Task, ...]
    spaces: tuple[Space, ...]
    controls: tuple[Control, ...]

    def __len__(self) -> int:
        """How many tasks it has."""
        return len(self.tasks)

    def __iter__(self) -> Iterator[Task]:
        return iter(self.tasks)

    def __getitem__(self, root: int) -> Task:
        return self._by_root[root]

    def __contains__(self, item: object) -> bool:
        """Whether it has a task, or one with this root number."""
        return item in self.tasks if isinstance(item, Task) else item in self._by_root

    @cached_property
    def _by_root(self) -> dict[int, Task]:
        return {task.root: task for task in self.tasks}

    def _repr_html_(self) -> str:
        """The drawing of `pidtab-tree`, as a notebook shows it: its first thousand lines."""
        # Here, as that module loads this one, and few lists are shown so.
        from html import escape

        from pidtab.tree import draw_list

        lines = draw_list(self).splitlines()
        more = [f".. and {len(lines) - MOST_LINES} more lines"] if len(lines) > MOST_LINES else []
        return f"<pre>{escape(chr(10).join([*lines[:MOST_LINES], *more]))}</pre>"

    def __sub__(self, before: "Listing") -> "Changes":
        """What has changed since another list of the table. Tasks are known by their root numbers, and the rest by their ids."""
        return Changes(before, self) if isinstance(before, Listing) else NotImplemented

    def items(self) -> dict[tuple[str, int], Item]:
        """All that stands here, by its kind and its number."""
        found: dict[tuple[str, int], Item] = {("task", task.root): task for task in self.tasks}
        found |= {("space", space.id): space for space in self.spaces}
        return found | {("control", control.id): control for control in self.controls}

    def with_names(self, labels: Mapping[int, str], keys: Mapping[int, int] | None = None) -> "Listing":
        """The same list, whose tasks have labels, and perhaps keys, by their root numbers."""
        known = keys or {}
        named = [it for it in self.tasks if it.root in labels or it.root in known]
        if not named:
            return self
        tasks = [replace(it, label=labels.get(it.root, it.label), key=known.get(it.root, it.key)) for it in self.tasks]
        return replace(self, tasks=tuple(tasks))

    def to_object(self) -> dict[str, Any]:
        """All of it, as docs/list.schema.json has it, for `json`."""
        parts = {"tasks": [task.to_object() for task in self.tasks], "spaces": [vars(space) for space in self.spaces]}
        return parts | {"controls": [vars(control) for control in self.controls]}

    def to_json(self) -> str:
        """The same as JSON, in one line."""
        return json.dumps(self.to_object(), separators=(",", ":"))


@dataclass(frozen=True)
class Changes:
    """What is otherwise in one list than in another one before it."""

    before: Listing
    now: Listing

    @property
    def came(self) -> tuple[Item, ...]:
        """What stands only in the later list."""
        earlier = self.before.items()
        return tuple(item for name, item in self.now.items().items() if name not in earlier)

    @property
    def went(self) -> tuple[Item, ...]:
        """What stands only in the earlier list."""
        later = self.now.items()
        return tuple(item for name, item in self.before.items().items() if name not in later)

    @property
    def changed(self) -> tuple[tuple[Item, Item], ...]:
        """What stands in both and differs, as it was and as it is."""
        earlier = self.before.items()
        return tuple((earlier[name], item) for name, item in self.now.items().items() if earlier.get(name, item) != item)

    def __bool__(self) -> bool:
        """Whether there is any."""
        return self.before != self.now

    def __str__(self) -> str:
        """A line for each: `+` and what came, `-` and what went, `~` and what has changed."""
        lines = [f"+ {say_item(item)}\n" for item in self.came] + [f"- {say_item(item)}\n" for item in self.went]
        return "".join(lines + [f"~ {say_change(before, now)}\n" for before, now in self.changed])

    def to_object(self) -> dict[str, Any]:
        """All of it, as docs/list.schema.json has it, for `json`."""
        changed = [{"before": item_object(before), "now": item_object(now)} for before, now in self.changed]
        return {"came": [item_object(it) for it in self.came], "went": [item_object(it) for it in self.went], "changed": changed}

    def to_json(self) -> str:
        """The same as JSON, in one line."""
        return json.dumps(self.to_object(), separators=(",", ":"))


def pattern(kind: str) -> re.Pattern[str]:
    """The lines of a kind."""
    fields = enumerate(FIELDS[kind].items())
    return re.compile("".join(WRITTEN[form].format(word=f" {name}" if place else kind, name=name) for place, (name, form) in fields), re.ASCII)


LINES = {kind: pattern(kind) for kind in FIELDS}


def value_of(form: str, word: str | None) -> Any:
    """What a word says of a field; OverflowError where it is too great."""
    if form in MARKS:
        return word is not None
    if word is None or word == NONE.get(form):
        return None
    if form == "numbers":
        return tuple(value_of("number", it) for it in word.split(","))
    number = int(word)
    if number >> BITS[form]:
        raise OverflowError
    return number


def read_item(line: str) -> Item | None:
    """What a line says; None where it is none of a list."""
    kind = line.partition(" ")[0]
    found = LINES[kind].fullmatch(line) if kind in LINES else None
    if found is None:
        return None
    try:
        return KINDS[kind](**{name: value_of(form, found[name]) for name, form in FIELDS[kind].items()})
    except OverflowError:
        return None


def read_list(text: str) -> Listing:
    """What the text of a list says; BadList names the first line that is none of a list."""
    lines = text.split("\n")
    if not text:
        raise BadList("line 1: no list")
    if lines.pop():
        raise BadList(f"line {len(lines) + 1}: cut off, without a newline")
    read: list[Item] = []
    for place, line in enumerate(lines, start=1):
        item = read_item(line)
        if item is None:
            raise BadList(f"line {place}: not a line of `pidtab list`")
        read.append(item)
    return Listing(
        tuple(it for it in read if isinstance(it, Task)),
        tuple(it for it in read if isinstance(it, Space)),
        tuple(it for it in read if isinstance(it, Control)),
    )


def say_field(item: Item, word: str, name: str, form: str) -> str:
    """A field as its line has it, with its word."""
    value = getattr(item, name)
    if form == "mark":
        return word if value else ""
    if form == "state":
        return "" if not isinstance(item, Task) or item.state == "exited" else f" {item.state}"
    if value is None and form not in NONE:
        return ""
    said = NONE[form] if value is None else ",".join(map(str, value)) if form == "numbers" else value
    return f"{' exit' if form == 'status' else word} {said}"


def say_item(item: Item) -> str:
    """The line of what stands in a list."""
    kind = type(item).__name__.lower()
    fields = enumerate(FIELDS[kind].items())
    return "".join(say_field(item, f" {name}" if place else kind, name, form) for place, (name, form) in fields)


def write_list(listing: Listing) -> str:
    """The text of a list, as `pidtab list` writes it."""
    return "".join(f"{say_item(item)}\n" for item in listing.items().values())


def item_object(item: Item) -> dict[str, Any]:
    """What stands in a list with its kind, as docs/list.schema.json has it."""
    kind = type(item).__name__.lower()
    return {"kind": kind, **(item.to_object() if isinstance(item, Task) else vars(item))}


def say_change(before: Item, now: Item) -> str:
    """The number of what has changed, and each field as it was and as it is."""
    earlier, later = item_object(before), item_object(now)
    number = later["numbers"][0] if isinstance(now, Task) else now.id
    fields = [f"{name} {say_value(earlier[name])} -> {say_value(value)}" for name, value in later.items() if earlier[name] != value]
    return f"{later['kind']} {number}: {', '.join(fields)}"


def say_value(value: Any) -> str:
    """A field, as in JSON, but without quotation marks."""
    return json.dumps(value).strip('"')
