"""Forecasts of falls, for situations whose outcome was seen in the kernel (the rows of docs/LINUX.md)."""

import unittest

from harness.falls import ENDS, NEVER, WAITS_FOR_CHILD, WAITS_FOR_GROUP, Forecast, Member


def forecast(
    members: list[tuple[int, int, int, int]], parents: dict[int, int | None], zombies: set[int], init: int, exiting: frozenset[int] = frozenset()
) -> str:
    """The outcome of an init's exit. A member is (number, namespace, parent, group); namespace 0 is the root's."""

    def is_within(space: int, other: int) -> bool:
        at: int | None = space
        while at is not None and at != other:
            at = parents[at]
        return at is not None

    rows = [Member(number, space, parent, group, number in zombies, number in zombies | exiting) for number, space, parent, group in members]
    inits: dict[int, int] = {}
    for number, space, _, _ in members:
        inits.setdefault(space, number)
    spaces = {number: space for number, space, _, _ in members}
    return Forecast(rows, spaces, is_within, inits).outcome(init)


TWO = {0: None, 1: 0, 2: 0}
NESTED = {0: None, 1: 0, 2: 1}


class Falls(unittest.TestCase):
    def test_an_init_alone(self) -> None:
        self.assertEqual(forecast([(1, 0, 0, 1), (2, 1, 1, 1)], TWO, set(), 2), ENDS)

    def test_a_child_inside_goes(self) -> None:
        self.assertEqual(forecast([(1, 0, 0, 1), (2, 1, 1, 1), (3, 1, 2, 3)], TWO, set(), 2), ENDS)

    def test_an_init_in_an_inner_group(self) -> None:
        self.assertEqual(forecast([(1, 0, 0, 1), (2, 1, 1, 3), (3, 1, 2, 3)], TWO, set(), 2), NEVER)

    def test_a_nested_init_in_an_inner_group(self) -> None:
        members = [(1, 0, 0, 1), (2, 1, 1, 1), (3, 2, 2, 4), (4, 2, 3, 4)]
        self.assertEqual(forecast(members, NESTED, set(), 2), NEVER)

    def test_two_inits_in_each_others_groups(self) -> None:
        members = [(1, 0, 0, 1), (2, 1, 1, 5), (3, 2, 1, 4), (4, 1, 2, 4), (5, 2, 3, 5)]
        self.assertEqual(forecast(members, TWO, set(), 2), WAITS_FOR_GROUP)

    def test_a_child_of_a_parent_outside(self) -> None:
        members = [(1, 0, 0, 1), (2, 1, 1, 1), (3, 0, 1, 1), (4, 1, 3, 1)]
        self.assertEqual(forecast(members, TWO, set(), 2), WAITS_FOR_CHILD)
        self.assertEqual(forecast(members, TWO, {4}, 2), WAITS_FOR_CHILD)

    def test_a_group_of_a_process_outside(self) -> None:
        members = [(1, 0, 0, 1), (2, 1, 1, 1), (3, 1, 2, 3), (4, 0, 1, 3)]
        self.assertEqual(forecast(members, TWO, set(), 2), WAITS_FOR_GROUP)

    def test_an_init_is_not_held_by_what_the_one_around_it_waits_for(self) -> None:
        members = [(1, 0, 0, 1), (2, 1, 1, 1), (3, 2, 2, 1), (4, 1, 2, 4), (6, 0, 1, 4)]
        self.assertEqual(forecast(members, NESTED, set(), 2, frozenset({2, 3})), WAITS_FOR_GROUP)
        self.assertEqual(forecast(members, NESTED, set(), 3, frozenset({2, 3})), ENDS)

    def test_an_init_is_held_by_what_one_inside_waits_for(self) -> None:
        members = [(1, 0, 0, 1), (2, 1, 1, 1), (3, 2, 2, 1), (5, 2, 3, 5), (7, 0, 1, 5)]
        self.assertEqual({forecast(members, NESTED, set(), init, frozenset({2, 3})) for init in (2, 3)}, {WAITS_FOR_GROUP})

    def test_a_group_of_the_init_does_not_hold(self) -> None:
        members = [(1, 0, 0, 1), (2, 1, 1, 2), (4, 0, 1, 2)]
        self.assertEqual(forecast(members, TWO, set(), 2), ENDS)
