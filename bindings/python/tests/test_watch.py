"""Waits until a call of a table is recorded: by which thread, how long, what interrupts them, and what ends them."""

import _thread
import ctypes
import gc
import math
import os
import signal
import subprocess
import sys
import threading
import time
import unittest
import weakref
from collections.abc import Callable
from pathlib import Path
from types import FrameType
from unittest import mock

from pidtab import Table, TableClosed, WaitingEnded
from pidtab.watch import Watch
from tests.alarms import Awaiting, alarms
from tests.test_arguments import NO_INTEGERS
from tests.test_ends import in_child
from tests.test_saved import Files
from tests.test_saver import Later
from tests.ways import for_threads

PACKAGE = Path(__file__).resolve().parents[1]
THREADS = 4
EACH = 300

# Seconds: longer than any thread needs to be woken, and long enough that one that waits sleeps.
LONG = 30.0
SHORT = 0.05


def wait_until(holds: Callable[[], object]) -> None:
    """Waits until something holds that no thread tells."""
    end = time.monotonic() + LONG
    while not holds():
        if time.monotonic() > end:
            raise AssertionError("it does not come to hold")
        time.sleep(0.001)


class Tables(Files):
    """A table with two seats."""

    def setUp(self) -> None:
        super().setUp()
        self.table, (self.seat, self.other) = self.open(2)
        # What would wait for ever is woken.
        watch = threading.Timer(LONG, self.table.end_waiting)
        watch.start()
        self.addCleanup(watch.join)
        self.addCleanup(watch.cancel)

    def soon(self, do: Callable[[], object]) -> Later:
        """Does it in a thread, once this one sleeps."""

        def later() -> object:
            time.sleep(SHORT)
            return do()

        return Later(later)

    @property
    def awaited(self) -> set[int]:
        """For which ordinals a thread waits in the library for another."""
        return self.table._watch._awaited


class Waits(Tables):
    def test_what_is_recorded_already(self) -> None:
        self.seat.answers(["getpid 1"] * 3)
        for timeout in (None, 0, LONG):
            self.assertEqual([self.table.wait_changed(it, timeout) for it in range(3)], [3] * 3)
        self.table.checkpoint()
        self.assertEqual(self.table.wait_changed(0), 3)
        self.assertEqual(self.awaited, set())

    def test_the_main_thread_waits_for_another(self) -> None:
        for recorded, timeout in ((1, None), (2, LONG), (3, math.inf), (4, 10**400)):
            call = self.soon(lambda: self.seat.getpid(1))
            self.assertEqual(self.table.wait_changed(recorded - 1, timeout), recorded)
            self.assertEqual(call.told(), 1)

    def test_another_waits_for_the_main_thread(self) -> None:
        for recorded, timeout in ((1, None), (2, LONG)):
            waiter = Later(lambda: self.table.wait_changed(recorded - 1, timeout))
            time.sleep(SHORT)
            wait_until(lambda timeout=timeout, recorded=recorded: self.awaited == (set() if timeout is None else {recorded - 1}))
            self.seat.getpid(1)
            self.assertEqual(waiter.told(), recorded)

    def test_a_query_or_a_cut_wakes_nobody(self) -> None:
        waiters = [Later(lambda: self.table.wait_changed(0)), Later(lambda: self.table.wait_changed(0, LONG))]
        time.sleep(SHORT)
        self.table.ask.getpid(1)
        self.table.checkpoint()
        self.table.list_text()
        time.sleep(SHORT)
        self.assertEqual([it._told for it in waiters], [[], []])
        self.seat.line("getpid 1")
        self.assertEqual([it.told() for it in waiters], [1, 1])

    def test_many_wait_for_one_and_one_for_many(self) -> None:
        waiters = [Later(lambda timeout=timeout: self.table.wait_changed(0, timeout)) for timeout in (None, LONG) * 4]
        last = Later(lambda: self.table.wait_changed(2, LONG))
        time.sleep(SHORT)
        self.seat.getpid(1)
        self.assertEqual([it.told() for it in waiters], [1] * 8)
        self.seat.told.getpid(1)
        time.sleep(SHORT)
        self.assertEqual(last._told, [])
        self.other.told.getpid(1)
        self.assertEqual(last.told(), 3)
        wait_until(lambda: not self.awaited)

    def test_a_time_that_is_over(self) -> None:
        self.seat.getpid(1)
        with mock.patch("_thread.start_new_thread", wraps=_thread.start_new_thread) as started:
            self.time_over()
            wait_until(lambda: self.awaited)
            self.assertIsNone(Later(self.time_over).told())
        # The thread of the first wait is that of the second.
        self.assertEqual((started.call_count, self.awaited), (1, {1}))
        for timeout in (0, -1, -math.inf):
            with self.assertRaisesRegex(TimeoutError, "^call 1 was not recorded in 0 seconds$"):
                self.table.wait_changed(1, timeout)
        self.seat.getpid(1)
        self.assertEqual(self.table.wait_changed(1, 0), 2)
        wait_until(lambda: not self.awaited)

    def time_over(self) -> None:
        begun = time.monotonic()
        with self.assertRaisesRegex(TimeoutError, "^call 1 was not recorded in 0.05 seconds$"):
            self.table.wait_changed(1, SHORT)
        self.assertGreaterEqual(time.monotonic() - begun, SHORT)

    def test_what_is_no_ordinal_and_no_time(self) -> None:
        for ordinal in NO_INTEGERS:
            with self.assertRaises(TypeError):
                self.table.wait_changed(ordinal)
        for ordinal in (-1, 2**64):
            with self.assertRaisesRegex(ValueError, f"^ordinal is 0 to {2**64 - 1}, not {ordinal}$"):
                self.table.wait_changed(ordinal)
        for timeout in ("1", True, [1]):
            with self.assertRaisesRegex(TypeError, "^timeout is a number of seconds or None, not "):
                self.table.wait_changed(0, timeout)  # type: ignore[arg-type]
        with self.assertRaisesRegex(ValueError, "^timeout is a number of seconds or None, not nan$"):
            self.table.wait_changed(0, math.nan)

    def test_the_end_of_the_waits(self) -> None:
        self.seat.getpid(1)
        waiters = [Later(lambda timeout=timeout: self.table.wait_changed(1, timeout)) for timeout in (None, LONG)]
        ended = self.soon(self.table.end_waiting)
        with self.assertRaisesRegex(WaitingEnded, "^the waits were ended, and call 2 is not recorded$"):
            self.table.wait_changed(2)
        self.assertIsNone(ended.told())
        for it in waiters:
            self.assertIsInstance(it.told(), WaitingEnded)
        # What is recorded is answered still, and the table goes on.
        self.seat.getpid(1)
        self.assertEqual((self.table.wait_changed(0), self.table.wait_changed(1, LONG)), (2, 2))
        for timeout in (None, 0, LONG):
            with self.assertRaises(WaitingEnded):
                self.table.wait_changed(2, timeout)
        wait_until(lambda: not self.awaited)

    def test_a_close_lets_nobody_wait(self) -> None:
        waiters = [Later(lambda timeout=timeout: self.table.wait_changed(0, timeout)) for timeout in (None, LONG)]
        closed = self.soon(self.table.close)
        with self.assertRaisesRegex(TableClosed, "^the table was closed$"):
            self.table.wait_changed(5)
        self.assertIsNone(closed.told())
        for it in waiters:
            self.assertIsInstance(it.told(), TableClosed)
        for call in (lambda: self.table.wait_changed(0), lambda: self.table.wait_changed(0, 0), self.table.end_waiting):
            with self.assertRaisesRegex(TableClosed, "^the table was closed$"):
                call()
        wait_until(lambda: not self.awaited)

    def test_in_a_forked_child(self) -> None:
        with self.assertRaises(TimeoutError):
            self.table.wait_changed(0, SHORT)
        for ask in (lambda: self.table.wait_changed(0), lambda: self.table.wait_changed(0, 1), self.table.end_waiting):
            self.assertIn("this table is that of the parent process", in_child(ask))
        self.seat.getpid(1)
        self.assertEqual(self.table.wait_changed(0), 1)

    def test_beside_a_saver(self) -> None:
        saver = Later(lambda: self.table.serve(self.path))
        for recorded in range(1, 50):
            waiters = [Later(lambda: self.table.wait_changed(recorded - 1)), Later(lambda: self.table.wait_changed(recorded - 1, LONG))]
            self.seat.getpid(1)
            self.table.wait_saved(recorded - 1)
            self.assertEqual([it.told() for it in waiters], [recorded] * 2)
        # The end of one is not that of the other.
        self.table.end_waiting()
        self.seat.getpid(1)
        self.assertIsNone(Later(lambda: self.table.wait_saved(49)).told())
        self.table.end_saving()
        self.assertEqual(getattr(saver.told(), "calls"), 50)

    def test_the_end_of_the_saver_ends_no_wait(self) -> None:
        waiter = Later(lambda: self.table.wait_changed(0))
        time.sleep(SHORT)
        self.table.end_saving()
        time.sleep(SHORT)
        self.assertEqual(waiter._told, [])
        self.seat.getpid(1)
        self.assertEqual(waiter.told(), 1)

    def test_one_that_nobody_has_any_more(self) -> None:
        for closes in (True, False):
            table = for_threads(1)
            with self.assertRaises(TimeoutError):
                table.wait_changed(0, SHORT)
            assert table._hold is not None
            hold = weakref.ref(table._hold)
            if closes:
                table.close()
            del table
            gc.collect()
            wait_until(lambda hold=hold: hold() is None)

    def test_nobody_looks_again_and_again(self) -> None:
        looks: list[object] = []
        recorded_now = threading.Event()

        def asks(until: object, recorded: ctypes.c_uint64) -> int:
            looks.append(until)
            if until is None:
                recorded_now.wait(LONG)
            recorded.value = int(recorded_now.is_set())
            return 0

        waiter = Later(lambda: Watch().wait(0, asks, LONG))
        # Before a thread waits in the library, and before this one sleeps.
        wait_until(lambda: len(looks) == 3)
        time.sleep(4 * SHORT)
        self.assertEqual((len(looks), looks.count(None)), (3, 1))
        recorded_now.set()
        self.assertEqual((waiter.told(), len(looks)), ((0, 1), 4))

    def test_who_follows_to_the_end(self) -> None:
        table = self.closed_behind(for_threads(THREADS))

        def serve() -> None:
            seat = table.seat()
            for number in range(EACH):
                child = seat.fork(1).child
                seat.exit(child, 7)
                if number % 3:
                    seat.wait(1, child)

        def follow() -> tuple[int, str]:
            with Table() as replica:
                following = 0
                try:
                    while True:
                        recorded = table.wait_changed(following)
                        self.assertGreater(recorded, following)
                        following = table.follow(replica, following)
                        self.assertGreaterEqual(following, recorded)
                except WaitingEnded:
                    return following, replica.dump()

        follower, threads = Later(follow), [Later(serve) for _ in range(THREADS)]
        self.assertEqual([it.told() for it in threads], [None] * THREADS)
        table.end_waiting()
        self.assertEqual(follower.told(), (THREADS * (3 * EACH - EACH // 3), table.dump()))


class Signals(Tables):
    """What a handler does while the main thread waits."""

    def test_an_interrupt_is_raised_soon(self) -> None:
        def interrupt(number: int, frame: FrameType | None) -> None:
            raise KeyboardInterrupt

        for timeout in (None, LONG, None):
            begun = time.monotonic()
            with alarms(interrupt, SHORT), self.assertRaises(KeyboardInterrupt):
                self.table.wait_changed(0, timeout)
            self.assertLess(time.monotonic() - begun, LONG / 2)
        wait_until(lambda: self.awaited == {0})
        call = self.soon(lambda: self.seat.getpid(1))
        self.assertEqual((self.table.wait_changed(0), call.told()), (1, 1))
        wait_until(lambda: not self.awaited)

    def test_many_interrupts_lose_no_call(self) -> None:
        awaiting, interrupted, recorded = Awaiting(), 0, 0
        caller = self.soon(lambda: [time.sleep(0.002) or self.seat.getpid(1) for _ in range(EACH)])
        with alarms(awaiting.interrupt, 0.003, 0.003):
            while recorded < EACH:
                try:
                    awaiting.awaited = True
                    recorded = self.table.wait_changed(recorded)
                    awaiting.awaited = False
                except KeyboardInterrupt:
                    interrupted += 1
        self.assertEqual((caller.told(), recorded), ([1] * EACH, EACH))
        self.assertGreater(interrupted, 5)

    def test_a_handler_that_goes_on(self) -> None:
        calls = 0

        def call(number: int, frame: FrameType | None) -> None:
            nonlocal calls
            calls += 1
            if calls == 3:
                self.seat.getpid(1)

        with alarms(call, SHORT, SHORT):
            self.assertEqual(self.table.wait_changed(0), 1)

    def test_a_handler_that_waits_too(self) -> None:
        told = []

        def call(number: int, frame: FrameType | None) -> None:
            self.seat.getpid(1)
            told.append(self.table.wait_changed(0))
            self.seat.getpid(1)

        with alarms(call, SHORT):
            self.assertEqual((self.table.wait_changed(1), told), (2, [1]))

    def test_a_handler_that_closes(self) -> None:
        with alarms(lambda number, frame: self.table.close(), SHORT), self.assertRaises(TableClosed):
            self.table.wait_changed(0)

    def test_ctrl_c_ends_a_program(self) -> None:
        program = "import pidtab; print('waits', flush=True); pidtab.Table(keep=pidtab.ALL, threads=True, workers=1).wait_changed(0)"
        words = {**os.environ, "PYTHONPATH": str(PACKAGE)}
        with subprocess.Popen([sys.executable, "-B", "-c", program], env=words, stdout=subprocess.PIPE, stderr=subprocess.PIPE, text=True) as child:
            assert child.stdout is not None
            try:
                self.assertEqual(child.stdout.readline(), "waits\n")
                time.sleep(4 * SHORT)
                child.send_signal(signal.SIGINT)
                _, said = child.communicate(timeout=LONG)
            finally:
                # One that has ended gets no signal. Without this the end of a failure would wait for it.
                child.kill()
        self.assertEqual((child.returncode, said.splitlines()[-1]), (-signal.SIGINT, "KeyboardInterrupt"))


if __name__ == "__main__":
    unittest.main()
