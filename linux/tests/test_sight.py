"""What is seen of a real world before a line, and that listed differences are told by it. Skipped where the machine makes none."""

import unittest

from harness.comparison import Comparison, moved_spaces
from harness.falls import NEVER, WAITS_FOR_CHILD, WAITS_FOR_GROUP
from harness.machine import Unable, look
from harness.script import DEFAULT_PID_MAX, parse_line
from harness.sight import Birth, Child, Draw, Sight, first_free, look_before
from harness.world import Settings, World
from pidtab.faults import ProgramMissing
from pidtab.program import find_program

# Two ended children of 1, and one that lives in a group of its own.
ENDED = ["fork 1", "fork 1", "fork 1", "exit 2 7", "exit 4 0", "setpgid 1 3 0"]
# The init 3 has ended, and waits for 2 to reap the child 4 in its namespace.
CHILD = ["fork 1", "fork 2 new", "join 2 3", "fork 2", "exit 3 5"]
# The init 2 and the init 3 of a namespace in its own wait for 5 to leave the group of 4, which was a process of that.
GROUP = ["fork 1 new", "fork 2 new", "fork 3", "setpgid 4 0 0", "fork 1", "setpgid 5 0 4", "exit 2 9"]
# The same in a control group.
CONTROL = ["mk 0", "fork 1 new", "move 2 1", *GROUP[1:]]
# Such an init 4, which is alone in the group 2, after its leader 2 has left that.
LED = ["fork 1", "setpgid 2 0 0", "fork 2 new", "fork 3 new", "setpgid 3 0 0", "setpgid 2 0 1", "fork 4", "setpgid 5 0 0", "fork 1", "setpgid 6 0 5", "exit 3 9"]


def walk(last: int) -> list[str]:
    """Lines by which the root's last number comes to be one, with none except the init's in use."""
    return [line for number in range(2, last + 1) for line in ("fork 1", f"exit {number} 0", f"wait 1 pid {number}")]


class Sights(unittest.TestCase):
    def setUp(self) -> None:
        try:
            self.machine = look()
        except Unable as reason:
            raise unittest.SkipTest(str(reason)) from reason

    def need(self, pid_max: int, lines: list[str], run: str = "") -> Settings:
        """How a world for lines is made; skips where the machine makes none that would do."""
        try:
            return self.machine.settings(pid_max, "\n".join(lines).encode(), run)
        except Unable as reason:
            raise unittest.SkipTest(str(reason)) from reason

    def seen(self, before: list[str], *lines: str, pid_max: int = DEFAULT_PID_MAX) -> list[Sight]:
        """What is seen before each of the lines, after others."""
        with World(self.need(pid_max, before)) as world:
            for line in before:
                world.answer(parse_line(line.encode()))
            return [look_before(world, parse_line(line.encode()), {}) for line in lines]

    def names(self, *lines: str, pid_max: int = DEFAULT_PID_MAX, run: str = "") -> list[str | None]:
        """The names of the differences between the real program and real processes."""
        try:
            program = find_program()
        except ProgramMissing as reason:
            raise unittest.SkipTest(str(reason)) from reason
        with Comparison(program, self.need(pid_max, [*lines], run), False) as comparison:
            report = comparison.run(line.encode() for line in lines)
        self.assertEqual(report.broke, "")
        return [difference.known.name if difference.known else None for difference in report.differences]

    def test_children_that_a_wait_names(self) -> None:
        words = ("any", "own", "group 0", "group 3", "group 2", "pid 4", "pid 5")
        seen = self.seen(ENDED, *(f"wait 1 {word}" for word in words))
        two, three, four = Child(2, "exit 7"), Child(3), Child(4, "exit 0")
        wanted = [(two, three, four), (two, four), (two, four), (three,), (), (four,), ()]
        self.assertEqual([sight.children for sight in seen], wanted)

    def test_an_init_that_waits(self) -> None:
        any_child, own, target, moved = self.seen(CHILD, "wait 2 any", "wait 2 pid 4", "setpgid 2 3 4", "nspid 2 3")
        self.assertEqual(any_child.children, (Child(3, "exit 5", WAITS_FOR_CHILD), Child(4, "killed")))
        self.assertEqual(own.children, (Child(4, "killed"),))
        self.assertEqual((target.held, moved.held, moved.gone), (WAITS_FOR_CHILD, "", ()))

    def test_a_group_that_only_such_an_init_is_in(self) -> None:
        leader, member, other = self.seen(LED, "setsid 2", "setpgid 6 0 2", "setpgid 6 0 1")
        self.assertEqual([sight.held_group for sight in (leader, member, other)], [WAITS_FOR_GROUP, WAITS_FOR_GROUP, ""])

    def test_an_init_that_is_gone_to_the_table(self) -> None:
        of_gone, of_zombie, following = self.seen(GROUP, "getpgid 1 3", "getpgid 1 2", "next 1 task 3")
        self.assertEqual((of_gone.held, of_zombie.held), (WAITS_FOR_GROUP, ""))
        self.assertEqual((of_gone.gone, following.next_number), ((WAITS_FOR_GROUP,), "5"))

    def test_numbers_that_come_next(self) -> None:
        root, inner, new = self.seen(["fork 1 new", "fork 1", "fork 2"], "fork 1", "fork 2", "fork 4 new")
        self.assertEqual(root.birth, Birth(0, (Draw(0, 5),), 0))
        self.assertEqual(inner.birth, Birth(1, (Draw(1, 3), Draw(0, 5)), 1))
        self.assertEqual(new.birth, Birth(1, (Draw(1, 3), Draw(0, 5)), 2))
        (joined,) = self.seen(["fork 1 new", "fork 1", "join 3 2", "exit 2 0"], "fork 3")
        self.assertEqual(joined.birth, Birth(0, (Draw(1, 2), Draw(0, 4)), 1, has_fallen=True))
        assert joined.birth
        self.assertTrue(joined.birth.is_elsewhere)

    def test_numbers_that_come_next_where_few_are_left(self) -> None:
        full = ["fork 1 new", *["fork 1"] * 298]
        for lines, number in ((full, None), ([*full, "exit 300 0"], None), ([*full, "exit 300 0", "wait 1 pid 300"], 300)):
            (sight,) = self.seen(lines, "fork 2", pid_max=301)
            self.assertEqual(sight.birth, Birth(1, (Draw(1, 2), Draw(0, number)), 1))

    def test_cursors_that_a_refused_fork_moves(self) -> None:
        # Each namespace gives its number before the one around it is asked, and all before the limits are.
        nested = ["fork 1 new", "fork 2 new"]
        with World(self.need(DEFAULT_PID_MAX, nested)) as world:
            for line in nested:
                world.answer(parse_line(line.encode()))
            for table, wanted in (
                ("EAGAIN no-number 0", [2, 1]), ("EAGAIN no-number 1", [2]), ("EAGAIN no-number 2", []),
                ("EAGAIN pids-limit 0", [2, 1, 0]), ("ENOMEM space-fallen", [2, 1, 0]),
            ):
                self.assertEqual(moved_spaces(world, 3, table), wanted, table)

    def test_the_first_free_number(self) -> None:
        for last, taken, wanted in ((1, {1}, 2), (4, {5, 6}, 7), (309, {300}, 301), (309, {*range(300, 310)}, None), (200, {*range(201, 310)}, 1), (300, {1}, 301)):
            self.assertEqual(first_free(last, taken, 310), wanted, (last, wanted))

    def test_what_a_fall_changes_is_told(self) -> None:
        for cause, before, lines in (
            (WAITS_FOR_CHILD, CHILD, ("wait 2 any", "wait 2 pid 3", "setpgid 2 3 4")),
            (WAITS_FOR_GROUP, GROUP, ("wait 1 any", "getpgid 1 3", "getsid 1 3", "nspid 1 3", "next 1 task 3", "setpgid 1 2 4")),
            (WAITS_FOR_GROUP, LED, ("next 1 group 2", "setsid 2", "setpgid 6 0 2")),
        ):
            for line in lines:
                self.assertEqual(self.names(*before, line), [cause], line)

    def test_an_init_that_is_freed_is_waited_for(self) -> None:
        # The groups of 4 and of 5, in either namespace; 7 leaves the inner one, and 6 stays in the outer.
        held = ["fork 1 new", "fork 2 new", "fork 2", "setpgid 4 0 0", "fork 3", "setpgid 5 0 0", "fork 1", "setpgid 6 0 4", "fork 1", "setpgid 7 0 5"]
        self.assertEqual(self.names(*held, "exit 2 9", "setpgid 7 0 0", "getpgid 1 3", "next 1 task 3", "nspid 1 3"), [])

    def test_what_a_fall_changes_in_control_groups_is_told(self) -> None:
        for line in ("count 1", "move 3 0", "move 2 0"):
            self.assertEqual(self.names(*CONTROL, line), [WAITS_FOR_GROUP], line)

    def test_a_number_that_a_gone_init_has_is_told(self) -> None:
        # The numbers 300 to 302 of the root are those of the init that is gone, of the group and of its member.
        few = [*walk(297), "fork 1 new", "fork 1", "fork 298 new", "fork 300", "setpgid 301 0 0", "setpgid 299 0 301", "exit 298 9"]
        self.assertEqual(self.names(*few, "fork 1", pid_max=302), [WAITS_FOR_GROUP])

    def test_an_endless_fall_is_told(self) -> None:
        endless = ["fork 1 new", "fork 2", "setpgid 3 0 0", "setpgid 2 0 2", "exit 2 5", "wait 1 any"]
        self.assertEqual(self.names(*endless), [NEVER])
        self.assertEqual(self.names(*endless, run="endless"), [NEVER])


if __name__ == "__main__":
    unittest.main()
