"""Each listed difference: answers that it explains, and wrong ones that it must not. The right ones are those of its row, or what
the man pages say."""

import unittest
from dataclasses import dataclass, replace

from harness.falls import NEVER, WAITS_FOR_CHILD, WAITS_FOR_GROUP
from harness.known import DIFFERENCES, Meeting, explain
from harness.script import parse_line
from harness.sight import Birth, Child, Draw, Sight


@dataclass(frozen=True)
class Case:
    """A line and what was seen before it; a right pair of answers, the kernel's and the table's, or NONE; and wrong ones. `unseen`
    are other sights, by which the right pair is wrong."""

    line: str
    right: tuple[str, str]
    wrong: tuple[tuple[str, str], ...] = ()
    sight: Sight = Sight()
    unseen: tuple[Sight, ...] = ()


NONE = ("", "")
ENDED = Sight(children=(Child(2, "exit 2"), Child(3, "exit 3"), Child(4, "killed"), Child(5)))
LIVE = Sight(children=(Child(5),))

# A caller in the root namespace; one in the namespace 2, in the root; and one in the root whose children go into the namespace 2.
ROOT = Birth(0, (Draw(0, 4),), 0)
INNER = Birth(2, (Draw(2, 2), Draw(0, 300)), 1)
JOINED = Birth(0, (Draw(2, 2), Draw(0, 4)), 1)
LAST = Birth(0, (Draw(0, 33),), 32)
ELSEWHERE = Birth(0, (Draw(2, 2), Draw(0, 33)), 32)
DEEP = Sight(birth=replace(JOINED, level=33))
FULL = Birth(0, (Draw(2, 2), Draw(0, None)), 1, has_fallen=True)


def waits_for(cause: str) -> list[Case]:
    """What a fall that waits may change, command by command. The init is the child 2, or one in its namespace that is gone to the
    table."""
    init = Child(2, "exit 5", cause)
    alone, among = Sight(children=(init, Child(3))), Sight(children=(init, Child(3, "exit 3")))
    gone, held, grouped = Sight(gone=(cause,)), Sight(held=cause), Sight(held_group=cause)
    drawn, in_use = replace(gone, birth=ROOT), replace(gone, birth=Birth(0, (Draw(0, 4, cause),), 0))
    wrong_waits = (
        ("none", "reaped 2 exit 6"), ("none", "reaped 2 killed"), ("none", "reaped 3 exit 5"), ("ECHILD", "reaped 2 exit 5"),
    )
    wrong_orders = (
        ("none", "reaped 2 exit 5"), ("reaped 3 exit 4", "reaped 2 exit 5"), ("none", "reaped 3 exit 3"),
    )
    wrong_forks = ("child 5 root 5", "child 6 root 6"), ("child 5 root 5", "child 4 root 5")
    return [
        Case("wait 1 any", ("none", "reaped 2 exit 5"), wrong_waits, alone, (LIVE, ENDED)),
        Case("wait 1 any", ("reaped 3 exit 3", "reaped 2 exit 5"), wrong_orders, among),
        Case("wait 1 group 0", NONE, (("none", "reaped 2 exit 5"),), alone),
        Case("fork 1", ("child 5 root 5", "child 4 root 4"), wrong_forks, in_use, (drawn, Sight(birth=ROOT))),
        Case("fork 1", ("EAGAIN", "child 4 root 4"), (("EAGAIN", "child 5 root 5"), ("ENOMEM", "child 4 root 4")), drawn, (Sight(birth=ROOT),)),
        # Of two other numbers, one is not in use.
        Case("fork 2", NONE, (("child 3 root 301", "child 2 root 300"),), replace(gone, birth=Birth(2, (Draw(2, 2, cause), Draw(0, 300)), 1))),
        Case("getpgid 1 3", ("1", "ESRCH no-task"), (("1", "2"), ("ESRCH", "1"), ("1", "ESRCH no-caller")), held, (gone, Sight())),
        Case("getsid 1 3", ("1", "ESRCH no-task"), (("1", "2"),), held, (gone,)),
        Case("nspid 1 3", ("3 2 1", "ESRCH no-task"), (("3 2 1", "3 2"), ("EINVAL", "ESRCH no-task")), held, (gone,)),
        Case("next 1 task 3", ("3", "4"), (("3", "5"), ("3", "end"), ("end", "4")), replace(gone, next_number="4"), (Sight(next_number="4"),)),
        Case("setpgid 1 2 3", ("n/a waiting-init", "ok"), (("n/a waiting-init", "ESRCH no-caller"), ("ok", "EPERM no-group")), held, (grouped,)),
        Case("setpgid 1 0 3", ("ok", "EPERM no-group"), (("ok", "EPERM is-leader"), ("EPERM", "ok")), grouped, (gone, held)),
        Case("setsid 4", ("EPERM", "4"), (("4", "EPERM is-leader"), ("EINVAL", "4"), ("EPERM", "ok")), grouped, (gone, held)),
        Case("move 3 1", ("ok", "ESRCH no-task"), (("ok", "ENOENT no-control"), ("EBUSY", "ESRCH no-task")), held, (gone, Sight(is_live=True))),
        Case("count 1", ("3", "2"), (("3", "1"), ("2", "3"), ("3", "ENOENT no-control"), ("ENOENT", "2")), gone, (held, Sight())),
        # Lines that no waiting init can touch.
        *(Case(line, NONE, (pair,), replace(in_use, held=cause, held_group=cause, next_number="2")) for line, pair in UNTOUCHED.items()),
    ]


UNTOUCHED = {
    "getpid 1": ("1", "2"),
    "getppid 4": ("0", "1"),
    "exec 1": ("ok", "EACCES executed"),
    "exit 4 0": ("ok", "ESRCH no-task"),
    "subreaper 1 on": ("ok", "EPERM is-leader"),
    "join 1 3": ("ok", "ESRCH no-task"),
    "mk 0": ("control 9", "control 8"),
    "rm 1": ("EBUSY", "ok"),
    "limit 1 4": ("ok", "EINVAL bad-limit"),
}


def moved_by(cause: str, *spaces: int) -> dict[str, frozenset[int]]:
    """Cursors that refused forks have moved."""
    return {cause: frozenset(spaces)}


def cursors(cause: str) -> list[Case]:
    """What a moved cursor may change: the root's own; both of a caller's; the inner alone; the root's of a caller whose children go
    elsewhere."""
    root, both, inner = moved_by(cause, 0), moved_by(cause, 2, 0), moved_by(cause, 2)
    here = Sight(moved=root, birth=ROOT)
    unmoved = (Sight(birth=ROOT), replace(here, moved=inner), replace(here, moved=moved_by("another", 0)))
    held = replace(here, birth=Birth(0, (Draw(0, 4, WAITS_FOR_CHILD),), 0))
    wrong = ("child 5 root 5", "child 3 root 3"), ("child 5 root 5", "child 4 root 5"), ("EAGAIN", "child 4 root 4")
    wrong_inner = ("child 3 root 301", "child 2 root 301"), ("child 3 root 301", "child 4 root 300")
    unmoved_inner = Sight(moved=inner, birth=INNER), Sight(moved=root, birth=INNER)
    return [
        Case("fork 1", ("child 5 root 5", "child 4 root 4"), wrong, here, (*unmoved, held)),
        Case("fork 2", ("child 3 root 301", "child 2 root 300"), wrong_inner, Sight(moved=both, birth=INNER), unmoved_inner),
        Case("fork 2", ("child 3 root 300", "child 2 root 300"), (("child 3 root 300", "child 1 root 300"),), *unmoved_inner[:1], unmoved_inner[1:]),
        Case("fork 1", ("child 5 root 5", "child 4 root 4"), (), Sight(moved=both, birth=JOINED), (Sight(moved=inner, birth=JOINED),)),
    ]


NO_TASK = ("EINVAL", "ESRCH no-task")
NO_CHILD = ("EINVAL", "ECHILD no-child")
LOST = ("ok", "ESRCH no-task")
ROOT_GROUP = Sight(control_level=0)
WRONG_ORDERS = (
    # Another end, one child by both, and one that is not the least.
    ("reaped 3 exit 3", "reaped 3 exit 4"), ("reaped 3 exit 3", "reaped 3 killed"), ("reaped 4 killed", "reaped 2 exit 3"),
    ("reaped 2 exit 2", "reaped 4 killed"), ("reaped 3 exit 3", "reaped 4 killed"),
    # Children that live, or are none.
    ("reaped 4 killed", "reaped 5 exit 0"), ("reaped 4 exit 0", "reaped 2 exit 2"), ("reaped 9 exit 0", "reaped 2 exit 2"),
    ("none", "reaped 2 exit 2"), ("reaped 4 killed", "none"),
)  # fmt: skip
WRONG_OWN = (
    ("reaped 3 exit 4", "ECHILD no-child"), ("none", "ECHILD no-child"), ("EINVAL", "ECHILD no-child"),
    ("reaped 3 exit 3", "reaped 2 exit 2"), ("reaped 3 exit 3", "none"),
)  # fmt: skip

# Lines of others than the root init.
LEADING = {
    "setsid 2": ("1", "EPERM is-leader"), "getpid 1": ("1", "EPERM is-leader"), "getppid 2": ("0", "1"),
    "setpgid 2 0 0": ("ok", "EPERM is-leader"), "setpgid 1 2 0": ("ok", "EPERM is-leader"),
}  # fmt: skip

CASES: dict[str, list[Case]] = {
    "endless-fall": [
        Case("exit 2 5", ("n/a endless-fall", "ok"), (("n/a endless-fall", "ESRCH no-caller"), ("n/a endless-fall", "EBUSY root-init"))),
        *waits_for(NEVER),
    ],
    "fall-waits-for-child": waits_for(WAITS_FOR_CHILD),
    "fall-waits-for-group": waits_for(WAITS_FOR_GROUP),
    "cursor-after-limit": cursors("cursor-after-limit"),
    "cursor-after-outer-want": cursors("cursor-after-outer-want"),
    "cursor-after-fallen": cursors("cursor-after-fallen"),
    "want-before-fallen": [
        Case("fork 2", ("EAGAIN", "ENOMEM space-fallen"), (("ENOMEM", "EAGAIN no-number 0"), ("EAGAIN", "child 2 root 2")), Sight(birth=FULL),
             (Sight(birth=replace(FULL, has_fallen=False)), Sight(birth=replace(JOINED, has_fallen=True)))),
    ],
    "elsewhere-before-depth": [
        Case("fork 1 new", ("EINVAL", "ENOSPC too-deep"), (("ENOSPC", "EINVAL elsewhere"), ("EINVAL", "child 2 root 34")), DEEP,
             (Sight(birth=JOINED), Sight(birth=replace(LAST, level=33)))),
        Case("fork 1", NONE, (("EINVAL", "ENOSPC too-deep"),), DEEP),
    ],
    "depth-of-the-machine": [
        Case("fork 1 new", ("ENOSPC", "child 33 root 33"), (("ENOSPC", "child 34 root 34"), ("EINVAL", "child 33 root 33")), Sight(birth=LAST),
             tuple(Sight(birth=birth) for birth in (replace(LAST, level=33), replace(LAST, has_fallen=True), ELSEWHERE))),
        Case("fork 1", NONE, (("ENOSPC", "child 33 root 33"),), Sight(birth=LAST)),
    ],
    "root-exit": [
        Case("exit 1 0", ("n/a root-exit", "EBUSY root-init"), (("n/a root-exit", "ok"),)),
        Case("exit 2 0", NONE, (("n/a root-exit", "EBUSY root-init"),)),
    ],
    "wait-order": [
        Case("wait 1 any", ("reaped 4 killed", "reaped 2 exit 2"), WRONG_ORDERS, ENDED, (Sight(), LIVE)),
        Case("wait 1 own", ("reaped 3 exit 3", "reaped 2 exit 2"), WRONG_ORDERS, ENDED),
        Case("wait 1 group 7", ("reaped 3 exit 3", "reaped 2 exit 2"), WRONG_ORDERS, ENDED),
        Case("wait 1 pid 2", NONE, (("reaped 3 exit 3", "reaped 2 exit 2"),), ENDED),
        # An init that waits has ended for the table, and has the least number.
        Case("wait 1 any", NONE, (("reaped 4 killed", "reaped 3 exit 3"),), Sight(children=(Child(2, "exit 2", NEVER), *ENDED.children[1:]))),
    ],
    "wait-pid-0": [
        Case("wait 1 pid 0", NO_CHILD, (("EINVAL", "none"), ("ECHILD", "EINVAL"))),
        Case("wait 1 pid 3", NONE, (NO_CHILD,)),
        Case("wait 1 group 0", NONE, (NO_CHILD,)),
    ],
    "wait-group-0": [
        Case("wait 1 group 0", ("reaped 3 exit 3", "ECHILD no-child"), WRONG_OWN, ENDED, (Sight(), LIVE)),
        Case("wait 1 group 0", ("none", "ECHILD no-child"), (("reaped 5 exit 0", "ECHILD no-child"),), LIVE, (Sight(), ENDED)),
        Case("wait 1 group 1", NONE, (("reaped 3 exit 3", "ECHILD no-child"),), ENDED),
    ],
    "wait-large": [
        Case("wait 1 pid 2147483648", NO_CHILD, (("EINVAL", "none"),)),
        Case("wait 1 group 4294967295", NO_CHILD, (("none", "ECHILD no-child"),)),
        Case("wait 1 pid 2147483647", NONE, (NO_CHILD,)),
    ],
    "setpgid-negative": [
        Case("setpgid 1 -5 0", NO_TASK, (("EINVAL", "ok"), ("ESRCH", "EINVAL bad-group"))),
        Case("setpgid 1 -5 5", NONE, (NO_TASK,)),
        Case("setpgid 1 5 0", NONE, (NO_TASK,)),
    ],
    "move-zombie": [
        Case("move 2 0", LOST, (("ok", "ENOENT no-control"), ("ENOENT", "ok")), replace(ROOT_GROUP, is_zombie=True),
             (replace(ROOT_GROUP, is_live=True), Sight())),
    ],
    "move-group-first": [
        Case("move 9 9", ("ENOENT", "ESRCH no-task"), (("ENOENT", "ok"),), Sight(), (Sight(is_live=True), ROOT_GROUP)),
        Case("limit 9 9", NONE, (("ENOENT", "ESRCH no-task"),)),
    ],
    "move-0": [Case("move 0 0", LOST, (("ok", "ENOENT no-control"),), ROOT_GROUP), Case("move 3 0", NONE, (LOST,), ROOT_GROUP)],
    "move-large": [Case("move 2147483648 0", NO_TASK, (("EINVAL", "ok"),), ROOT_GROUP), Case("move 2147483647 0", NONE, (NO_TASK,), ROOT_GROUP)],
    "control-depth": [
        Case("mk 64", ("control 65", "EAGAIN control-depth"), (("control 65", "ENOENT no-control"), ("ENOENT", "EAGAIN control-depth")),
             Sight(control_level=64), (Sight(control_level=63), Sight())),
    ],
    "root-control": [
        Case("limit 0 5", ("ENOENT", "EINVAL root-control"), (("ENOENT", "EINVAL bad-limit"), ("EINVAL", "ok"))),
        Case("limit 0 max", ("n/a root-control", "EINVAL root-control"), (("n/a root-control", "ok"),)),
        Case("rm 0", ("n/a root-control", "EINVAL root-control"), (("ENOENT", "EINVAL root-control"), ("n/a root-control", "EBUSY control-busy"))),
        Case("limit 4 5", NONE, (("ENOENT", "EINVAL root-control"),)),
        Case("count 0", NONE, (("ENOENT", "EINVAL root-control"),)),
    ],
    "root-leads": [
        Case("setsid 1", ("1", "EPERM is-leader"), (("1", "EPERM no-group"), ("2", "EPERM is-leader")), Sight(has_session=False), (Sight(),)),
        Case("setpgid 1 0 1", ("ok", "EPERM is-leader"), (("ok", "EPERM no-group"), ("EPERM", "ok")), Sight(has_session=False), (Sight(),)),
        Case("getsid 1 0", ("0", "1"), (("0", "2"), ("1", "0")), Sight(has_session=False), (Sight(),)),
        Case("getpgid 1 2", ("0", "1"), (("0", "0 1"),), Sight(has_session=False), (Sight(),)),
        *(Case(line, NONE, (pair,), Sight(has_session=False)) for line, pair in LEADING.items()),
    ],
    "nspid-0": [Case("nspid 1 0", NO_TASK, (("EINVAL", "1"),)), Case("nspid 1 7", NONE, (NO_TASK,))],
    "join-0": [Case("join 1 0", NO_TASK, (("EINVAL", "ok"),)), Case("join 1 7", NONE, (NO_TASK,))],
    "nspid-large": [Case("nspid 1 2147483648", NO_TASK, (("EINVAL", "1"),)), Case("nspid 1 2147483647", NONE, (NO_TASK,))],
    "join-large": [Case("join 1 2147483648", NO_TASK, (("EINVAL", "ok"),)), Case("join 1 2147483647", NONE, (NO_TASK,))],
}


def explained(case: Case, sight: Sight, answers: tuple[str, str]) -> str | None:
    """The name by which a pair of answers is explained."""
    call = parse_line(case.line.encode())
    assert call is not None
    known = explain(Meeting(call, *answers, sight))
    return known.name if known else None


class Explanations(unittest.TestCase):
    def test_each_difference_has_its_cases_and_each_of_these_a_wrong_answer(self) -> None:
        self.assertEqual([known.name for known in DIFFERENCES], list(dict.fromkeys(known.name for known in DIFFERENCES)))
        self.assertEqual({known.name for known in DIFFERENCES}, set(CASES))
        for name, cases in CASES.items():
            self.assertTrue(any(case.right != NONE for case in cases), name)
            self.assertTrue(all(case.wrong or case.unseen for case in cases), name)

    def test_right_answers_are_explained(self) -> None:
        for name, cases in CASES.items():
            for case in cases:
                if case.right != NONE:
                    self.assertEqual(explained(case, case.sight, case.right), name, case)

    def test_wrong_answers_are_not(self) -> None:
        for name, cases in CASES.items():
            for case in cases:
                for answers in case.wrong:
                    self.assertIsNone(explained(case, case.sight, answers), (name, case.line, answers))

    def test_right_answers_to_what_was_not_there_are_not(self) -> None:
        for name, cases in CASES.items():
            for case in cases:
                for sight in case.unseen:
                    self.assertNotEqual(explained(case, sight, case.right), name, (case.line, sight))
