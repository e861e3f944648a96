"""The differences that docs/LINUX.md lists, as tests of one line's two answers. Each is named as its file in differences/.

A test names what may differ, and compares the rest: with the other answer, or with what the world showed before the line."""

import re
from collections.abc import Callable
from dataclasses import dataclass, field

from harness.falls import NEVER, WAITS_FOR_CHILD, WAITS_FOR_GROUP
from harness.script import Call
from harness.sight import Child, Draw, Sight

GREATEST_KERNEL_NUMBER = 2**31 - 1
DEEPEST_SPACE = 32
DEEPEST_CONTROL = 64
CHILD = re.compile("child ([0-9]+) root ([0-9]+)")


@dataclass(frozen=True)
class Meeting:
    """A line with both answers, and what the world showed before it."""

    call: Call
    kernel: str
    table: str
    sight: Sight = field(default_factory=Sight)

    def is_form(self, name: str, form: str | None = None) -> bool:
        """Whether the line is of a command, and of one of its forms."""
        return self.call.name == name and form in (None, self.call.form)

    def says(self, kernel: str, table: str) -> bool:
        """Whether these are the two answers."""
        return (self.kernel, self.table) == (kernel, table)


@dataclass(frozen=True)
class Known:
    """A listed difference: its name, whether the two states part by it (then the rest of a script is not compared), and what
    tells it."""

    name: str
    parts: bool
    explains: Callable[[Meeting], bool]


def is_large(meeting: Meeting, at: int) -> bool:
    """Whether a number of the line is one that the kernel reads as negative."""
    return len(meeting.call.numbers) > at and meeting.call.numbers[at] > GREATEST_KERNEL_NUMBER


def by_number(meeting: Meeting, number: bool) -> bool:
    """A look for a process that the kernel refuses for the number alone: 0, or too large a one."""
    is_look = meeting.call.name in ("nspid", "join") and meeting.says("EINVAL", "ESRCH no-task")
    return is_look and (is_large(meeting, 1) if number else meeting.call.numbers[1] == 0)


# Waits.


def reaped(child: Child) -> str:
    """The answer of a wait that reaps a child."""
    return f"reaped {child.number} {child.end}"


def kernel_may_reap(meeting: Meeting) -> set[str]:
    """What the kernel may answer to a wait: any of the ended children, each with its own end."""
    return {reaped(child) for child in meeting.sight.children if child.end and not child.held}


def table_reaps(meeting: Meeting) -> Child | None:
    """The child that the table reaps: of those that have ended, waiting inits among them, the one with the least number."""
    ended = [child for child in meeting.sight.children if child.end]
    return min(ended, key=lambda child: child.number, default=None)


def is_group_0(meeting: Meeting) -> bool:
    """Whether the line waits for the group 0."""
    return meeting.is_form("wait", "group") and meeting.call.numbers[1] == 0


def is_wait_order(meeting: Meeting) -> bool:
    """Two different children that have ended, where the table's has the least number."""
    least = table_reaps(meeting)
    if least is None or least.held or meeting.call.form == "pid" or is_group_0(meeting):
        return False
    return meeting.table == reaped(least) and meeting.kernel in kernel_may_reap(meeting) - {reaped(least)}


def is_wait_for_own_group(meeting: Meeting) -> bool:
    """What a wait for the caller's own group gives, which the world showed for the group 0."""
    if not is_group_0(meeting) or meeting.table != "ECHILD no-child" or not meeting.sight.children:
        return False
    return meeting.kernel in (kernel_may_reap(meeting) or {"none"})


# Forks.


def is_drawn(meeting: Meeting) -> bool:
    """Whether the table's child has the numbers that come next."""
    birth = meeting.sight.birth
    return birth is not None and meeting.table == "child {} root {}".format(*(draw.number for draw in birth.shown))


def other_draws(meeting: Meeting) -> list[Draw]:
    """The draws whose numbers the kernel's child has not, where the table's has those that come next; else none."""
    kernel, birth = CHILD.fullmatch(meeting.kernel), meeting.sight.birth
    if kernel is None or birth is None or not is_drawn(meeting):
        return []
    return [draw for draw, number in zip(birth.shown, kernel.groups()) if draw.number != int(number)]


def forked_after(cause: str) -> Callable[[Meeting], bool]:
    """Other numbers of a child, in namespaces whose cursors have moved, and not for want of the table's numbers."""

    def explains(meeting: Meeting) -> bool:
        draws, moved = other_draws(meeting), meeting.sight.moved
        anyhow = {space for spaces in moved.values() for space in spaces}
        has_cause = any(draw.space in moved.get(cause, ()) for draw in draws)
        return has_cause and all(draw.space in anyhow and not draw.held for draw in draws)

    return explains


def is_want_before_fallen(meeting: Meeting) -> bool:
    """A fork into a fallen namespace, where one around it has no free number."""
    birth = meeting.sight.birth
    if birth is None or not meeting.says("EAGAIN", "ENOMEM space-fallen"):
        return False
    return birth.has_fallen and any(draw.number is None for draw in birth.draws)


def is_elsewhere_too_deep(meeting: Meeting) -> bool:
    """A new namespace that would be both elsewhere and too deep."""
    birth = meeting.sight.birth
    if birth is None or not meeting.says("EINVAL", "ENOSPC too-deep"):
        return False
    return meeting.call.form == "new" and birth.is_elsewhere and birth.level > DEEPEST_SPACE


def is_too_deep_for_machine(meeting: Meeting) -> bool:
    """A new namespace that is not too deep below the world's root, with the child's numbers."""
    birth = meeting.sight.birth
    if birth is None or meeting.kernel != "ENOSPC" or meeting.call.form != "new":
        return False
    return is_drawn(meeting) and not birth.is_elsewhere and not birth.has_fallen and birth.level <= DEEPEST_SPACE


# The rest.


def is_first_process(meeting: Meeting) -> bool:
    """The root init, which leads no group and no session yet in the kernel: what it asks for itself, and what is asked of it."""
    caller, *numbers = meeting.call.numbers
    if meeting.sight.has_session:
        return False
    if meeting.call.name in ("getpgid", "getsid"):
        return meeting.says("0", "1")
    if meeting.is_form("setpgid"):
        return caller == 1 and set(numbers) <= {0, 1} and meeting.says("ok", "EPERM is-leader")
    return meeting.is_form("setsid") and caller == 1 and meeting.says("1", "EPERM is-leader")


def is_deep_control(meeting: Meeting) -> bool:
    """A control group below one of the deepest of the table."""
    is_made = re.fullmatch("control [0-9]+", meeting.kernel) is not None and meeting.table == "EAGAIN control-depth"
    return meeting.is_form("mk") and is_made and meeting.sight.control_level == DEEPEST_CONTROL


def is_root_control(meeting: Meeting) -> bool:
    """A limit of the root group, or its end, which is not asked."""
    if meeting.call.name not in ("limit", "rm") or meeting.call.numbers[0] != 0 or meeting.table != "EINVAL root-control":
        return False
    return meeting.kernel == "n/a root-control" or meeting.says("ENOENT", "EINVAL root-control") and meeting.is_form("limit")


def is_move_without_both(meeting: Meeting) -> bool:
    """A move of no live task into no group."""
    is_lost = meeting.sight.control_level is None and not meeting.sight.is_live
    return meeting.is_form("move") and is_lost and meeting.says("ENOENT", "ESRCH no-task")


# Falls that have not come to their end: an init waits, and keeps its numbers in use. A test for each command that can show it.


def held_wait(meeting: Meeting, cause: str) -> bool:
    """The table reaps the init, which has the least number; the kernel another, or none yet."""
    least = table_reaps(meeting)
    if least is None or least.held != cause or is_group_0(meeting):
        return False
    return meeting.table == reaped(least) and meeting.kernel in (kernel_may_reap(meeting) or {"none"})


def held_fork(meeting: Meeting, cause: str) -> bool:
    """The kernel has the table's numbers in use yet, or no room for one more."""
    if meeting.kernel == "EAGAIN":
        return cause in meeting.sight.gone and is_drawn(meeting)
    draws = other_draws(meeting)
    return any(draw.held == cause for draw in draws) and all(draw.held for draw in draws)


def held_question(meeting: Meeting, cause: str) -> bool:
    """The kernel has an answer for the init, which is gone to the table."""
    is_answer = re.fullmatch("[0-9]+( [0-9]+)*", meeting.kernel) is not None
    return meeting.sight.held == cause and is_answer and meeting.table == "ESRCH no-task"


def held_next(meeting: Meeting, cause: str) -> bool:
    """The table tells what is in use without the init."""
    return cause in meeting.sight.gone and meeting.table == meeting.sight.next_number and meeting.kernel.isdigit()


def held_setpgid(meeting: Meeting, cause: str) -> bool:
    """The kernel is not asked for a waiting init, or has the init in a group that is empty to the table."""
    if meeting.kernel == "n/a waiting-init":
        return meeting.sight.held == cause and meeting.table not in ("bad line", "ESRCH no-caller")
    return meeting.sight.held_group == cause and meeting.says("ok", "EPERM no-group")


def held_setsid(meeting: Meeting, cause: str) -> bool:
    """The kernel has the init in a group of the caller's number, which is empty to the table."""
    return meeting.sight.held_group == cause and meeting.kernel == "EPERM" and meeting.table.isdigit()


def held_move(meeting: Meeting, cause: str) -> bool:
    """The kernel takes the write for the init, and moves nothing."""
    return meeting.sight.held == cause and meeting.says("ok", "ESRCH no-task")


def held_count(meeting: Meeting, cause: str) -> bool:
    """The kernel counts inits that are gone to the table."""
    if cause not in meeting.sight.gone or not (meeting.kernel.isdigit() and meeting.table.isdigit()):
        return False
    return 0 < int(meeting.kernel) - int(meeting.table) <= len(meeting.sight.gone)


HELD: dict[str, Callable[[Meeting, str], bool]] = {
    "wait": held_wait,
    "fork": held_fork,
    "getpgid": held_question,
    "getsid": held_question,
    "nspid": held_question,
    "next": held_next,
    "setpgid": held_setpgid,
    "setsid": held_setsid,
    "move": held_move,
    "count": held_count,
}


def after(cause: str) -> Callable[[Meeting], bool]:
    """What a fall that has not come to its end may change."""
    return lambda meeting: meeting.call.name in HELD and HELD[meeting.call.name](meeting, cause)


def is_endless(meeting: Meeting) -> bool:
    """An exit that the kernel is not asked, or what one changes that was."""
    return meeting.is_form("exit") and meeting.says("n/a endless-fall", "ok") or after(NEVER)(meeting)


DIFFERENCES = [
    Known("cursor-after-limit", True, forked_after("cursor-after-limit")),
    Known("cursor-after-outer-want", True, forked_after("cursor-after-outer-want")),
    Known("cursor-after-fallen", True, forked_after("cursor-after-fallen")),
    Known("want-before-fallen", False, is_want_before_fallen),
    Known("elsewhere-before-depth", False, is_elsewhere_too_deep),
    Known("depth-of-the-machine", True, is_too_deep_for_machine),
    Known("root-exit", False, lambda m: m.call.numbers[0] == 1 and m.is_form("exit") and m.says("n/a root-exit", "EBUSY root-init")),
    Known("wait-order", True, is_wait_order),
    Known("wait-pid-0", False, lambda m: m.is_form("wait", "pid") and m.call.numbers[1] == 0 and m.says("EINVAL", "ECHILD no-child")),
    Known("wait-group-0", True, is_wait_for_own_group),
    Known("wait-large", False, lambda m: m.is_form("wait") and is_large(m, 1) and m.says("EINVAL", "ECHILD no-child")),
    Known(
        "setpgid-negative",
        False,
        lambda m: m.is_form("setpgid") and m.call.numbers[1] < 0 == m.call.numbers[2] and m.says("EINVAL", "ESRCH no-task"),
    ),
    Known("move-zombie", False, lambda m: m.is_form("move") and m.sight.is_zombie and m.says("ok", "ESRCH no-task")),
    Known("move-group-first", False, is_move_without_both),
    Known("move-0", True, lambda m: m.is_form("move") and m.call.numbers[0] == 0 and m.says("ok", "ESRCH no-task")),
    Known("move-large", False, lambda m: m.is_form("move") and is_large(m, 0) and m.says("EINVAL", "ESRCH no-task")),
    Known("control-depth", True, is_deep_control),
    Known("root-control", False, is_root_control),
    Known("root-leads", True, is_first_process),
    Known("nspid-0", False, lambda m: m.is_form("nspid") and by_number(m, False)),
    Known("join-0", False, lambda m: m.is_form("join") and by_number(m, False)),
    Known("nspid-large", False, lambda m: m.is_form("nspid") and by_number(m, True)),
    Known("join-large", False, lambda m: m.is_form("join") and by_number(m, True)),
    Known("endless-fall", True, is_endless),
    Known("fall-waits-for-child", True, after(WAITS_FOR_CHILD)),
    Known("fall-waits-for-group", True, after(WAITS_FOR_GROUP)),
]


def explain(meeting: Meeting) -> Known | None:
    """The listed difference that a line with two answers shows, or None where it is a new one."""
    return next((known for known in DIFFERENCES if known.explains(meeting)), None)


def agree(kernel: str, table: str) -> bool:
    """Whether two answers are the same, where the kernel's refusal is the errno alone."""
    if kernel == table:
        return True
    errno_alone = kernel.startswith("E") and " " not in kernel
    return errno_alone and table.split(" ")[0] == kernel and table != "ESRCH no-caller"
