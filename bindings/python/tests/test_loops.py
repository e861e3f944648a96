"""Waits in loops of asyncio: for a call of a table, and for the end of a child."""

import _thread
import asyncio
import random
import threading
import time
import unittest
from collections.abc import Awaitable, Callable, Coroutine
from contextlib import nullcontext
from types import FrameType
from typing import Any
from unittest import mock

from pidtab import Counts, Reaped, Refusal, TableClosed, WaitingEnded
from tests.alarms import alarms
from tests.ways import TwoSeats

# Seconds: longer than any wait here takes, and long enough that one that waits has begun.
LONG, SHORT = 20.0, 0.05
MANY = 300


def tell_hang(number: int, frame: FrameType | None) -> None:
    """The handler of a signal that ends a test."""
    raise AssertionError(f"no end within {LONG} seconds")


def play(main: Coroutine[Any, Any, object]) -> None:
    """Runs a coroutine in a loop of its own, and ends it where it hangs."""

    async def bounded() -> None:
        await asyncio.wait_for(main, LONG)

    # A loop that has no turn any more is woken by a signal alone.
    bound = alarms(tell_hang, LONG) if threading.current_thread() is threading.main_thread() else nullcontext()
    with bound:
        asyncio.run(bounded())


async def begin(waits: Awaitable[Any]) -> "asyncio.Task[Any]":
    """A task that has come to its wait."""
    task = asyncio.ensure_future(waits)
    await asyncio.sleep(SHORT)
    return task


class Tables(TwoSeats):
    """A table with a seat for the loop, and one for others."""

    def waiting(self) -> int:
        """How many wait in loops."""
        return len(self.table.__dict__["_loops"]._waiters)

    def wait_until(self, holds: Callable[[], object]) -> None:
        end = time.monotonic() + LONG
        while not holds():
            self.assertLess(time.monotonic(), end)
            time.sleep(0.001)


class Changed(Tables):
    def test_what_is_recorded_already(self) -> None:
        async def main() -> None:
            self.seat.answers(["getpid 1"] * 3)
            with mock.patch("_thread.start_new_thread") as started:
                self.assertEqual([await self.table.changed(it) for it in range(3)], [3] * 3)
            self.assertEqual((started.call_count, self.waiting()), (0, 0))

        play(main())

    def test_many_wait_by_one_thread(self) -> None:
        async def main() -> None:
            with mock.patch("_thread.start_new_thread", wraps=_thread.start_new_thread) as started:
                tasks = [asyncio.ensure_future(self.table.changed(it // 100)) for it in range(MANY)]
                await asyncio.sleep(SHORT)
                for recorded in range(1, 4):
                    self.other.getpid(1)
                    told = await asyncio.gather(*tasks[:100])
                    self.assertEqual(told, [recorded] * 100)
                    del tasks[:100]
                    await asyncio.sleep(SHORT)
                    self.assertEqual((self.waiting(), [it.done() for it in tasks]), (len(tasks), [False] * len(tasks)))
                self.assertEqual(started.call_count, 1)

        play(main())

    def test_a_later_wait_for_an_earlier_call(self) -> None:
        async def main() -> None:
            far = await begin(self.table.changed(1))
            near = await begin(self.table.changed(0))
            self.other.getpid(1)
            self.assertEqual((await near, far.done()), (1, False))
            self.other.getpid(1)
            self.assertEqual(await far, 2)

        play(main())

    def test_beside_a_thread_that_makes_calls(self) -> None:
        async def main() -> None:
            chance = random.Random(1)
            caller = threading.Thread(target=lambda: [self.other.getpid(1) for _ in range(MANY)])
            tasks = []
            caller.start()
            for _ in range(MANY):
                tasks.append(asyncio.ensure_future(self.table.changed(chance.randrange(MANY))))
                await asyncio.sleep(0)
            for recorded in await asyncio.gather(*tasks):
                self.assertLessEqual(recorded, MANY)
            caller.join()

        play(main())

    def test_a_time_that_is_over_and_a_cancel(self) -> None:
        async def main() -> None:
            with self.assertRaises(asyncio.TimeoutError):
                await asyncio.wait_for(self.table.changed(0), SHORT)
            task = await begin(self.table.changed(0))
            task.cancel()
            with self.assertRaises(asyncio.CancelledError):
                await task
            self.assertEqual(self.waiting(), 0)
            task = await begin(self.table.changed(0))
            self.other.getpid(1)
            self.assertEqual(await task, 1)

        play(main())

    def test_the_end_of_the_waits(self) -> None:
        async def main() -> None:
            self.seat.getpid(1)
            task = await begin(self.table.changed(1))
            self.table.end_waiting()
            with self.assertRaisesRegex(WaitingEnded, "^the waits were ended, and call 1 is not recorded$"):
                await task
            with self.assertRaises(WaitingEnded):
                await self.table.changed(1)
            self.assertEqual(await self.table.changed(0), 1)

        play(main())

    def test_a_close_lets_nobody_wait(self) -> None:
        async def main() -> None:
            task = await begin(self.table.changed(0))
            self.table.close()
            with self.assertRaises(TableClosed):
                await task
            with self.assertRaises(TableClosed):
                await self.table.changed(0)

        play(main())

    def test_loops_of_two_threads(self) -> None:
        told: list[int] = []

        async def main() -> None:
            told.append(await self.table.changed(0))

        threads = [threading.Thread(target=lambda: play(main())) for _ in range(2)]
        for it in threads:
            it.start()
        self.wait_until(lambda: "_loops" in self.table.__dict__ and self.waiting() == 2)
        self.other.getpid(1)
        for it in threads:
            it.join()
        self.assertEqual(told, [1, 1])

    def test_a_loop_that_has_ended_meanwhile(self) -> None:
        loop = asyncio.new_event_loop()
        task = loop.create_task(self.table.changed(0))
        loop.run_until_complete(asyncio.sleep(SHORT))
        loops = self.table.__dict__["_loops"]
        loop.close()
        with mock.patch("threading.excepthook") as raised, mock.patch("sys.unraisablehook") as unraised:
            self.other.getpid(1)
            self.wait_until(lambda: not loops._has_thread)
        self.assertEqual((raised.call_count, unraised.call_count, task.done()), (0, 0, False))
        # A task of a loop that is closed complains of itself.
        task._log_destroy_pending = False  # type: ignore[attr-defined]
        task.get_coro().close()  # type: ignore[union-attr]

    def test_misuse(self) -> None:
        async def main() -> None:
            with self.assertRaisesRegex(ValueError, "^ordinal is 0 to 18446744073709551615, not -1$"):
                await self.table.changed(-1)
            with self.assertRaises(TypeError):
                await self.table.changed("1")  # type: ignore[arg-type]

        play(main())


class Ends(Tables):
    """A child's end, as waitpid(2) waits for it."""

    def made(self) -> int:
        return self.table.counts().recorded

    def test_a_child_that_ends_later(self) -> None:
        async def main() -> None:
            child = self.seat.fork(1).child
            task = await begin(self.seat.reap(1, child))
            self.other.getpid(1)
            self.other.fork(1)
            self.other.exit(child, 7)
            self.assertEqual(await task, Reaped(child, 7))
            # The fork, the three calls of the other, and one wait.
            self.assertEqual(self.made(), 5)

        play(main())

    def test_which_child(self) -> None:
        async def main() -> None:
            first, second = self.seat.fork(1).child, self.seat.fork(1).child
            self.seat.setpgid(1, second, second)
            tasks = [await begin(it) for it in (self.seat.reap(1, own=True), self.seat.reap(1, group=second))]
            self.other.exit(second, 2)
            self.assertEqual((await tasks[1], tasks[0].done()), (Reaped(second, 2), False))
            self.other.exit(first, 1)
            self.assertEqual(await tasks[0], Reaped(first, 1))
            self.assertEqual(self.made(), 7)

        play(main())

    def test_many_children_at_once(self) -> None:
        async def main() -> None:
            children = [self.seat.fork(1).child for _ in range(30)]
            with mock.patch("_thread.start_new_thread", wraps=_thread.start_new_thread) as started:
                tasks = [asyncio.ensure_future(self.seat.reap(1, it)) for it in children]
                await asyncio.sleep(SHORT)
                for it in reversed(children):
                    self.other.exit(it, it)
                self.assertEqual(await asyncio.gather(*tasks), [Reaped(it, it) for it in children])
                self.assertEqual((started.call_count, self.made()), (1, 90))

        play(main())

    def test_a_busy_table_leaves_other_tasks_their_turns(self) -> None:
        async def main() -> None:
            child = self.seat.fork(1).child
            # As if a call were recorded after each look.
            with mock.patch.object(self.table, "counts", return_value=Counts(0, 0)):
                waits = asyncio.ensure_future(self.seat.reap(1, child))
                for _ in range(MANY):
                    await asyncio.sleep(0)
                self.seat.exit(child, 7)
                self.assertEqual(await waits, Reaped(child, 7))

        play(main())

    def test_two_that_wait_for_one_child(self) -> None:
        async def main() -> None:
            child = self.seat.fork(1).child
            tasks = [await begin(it.reap(1, child)) for it in (self.seat, self.other)]
            self.seat.exit(child)
            told = await asyncio.gather(*tasks, return_exceptions=True)
            self.assertEqual([it for it in told if not isinstance(it, Refusal)], [Reaped(child, 0)])
            self.assertEqual([it.why for it in told if isinstance(it, Refusal)], ["no-child"])

        play(main())

    def test_no_child(self) -> None:
        async def main() -> None:
            with self.assertRaisesRegex(ChildProcessError, "no-child"):
                await self.seat.reap(1)
            self.assertEqual(self.made(), 0)
            child = self.seat.fork(1).child
            with self.assertRaises(ValueError):
                await self.seat.reap(1, child, own=True)
            task = await begin(self.seat.reap(1))
            self.table.end_waiting()
            with self.assertRaises(WaitingEnded):
                await task

        play(main())


if __name__ == "__main__":
    unittest.main()
