"""A lock with a wait for changes: who waits is woken, and leaves nothing after."""

import threading
import time
import unittest

from pidtab.changed import Changed

# Longer than any thread needs to be woken, in seconds.
LONG = 20.0


class Waits(unittest.TestCase):
    def setUp(self) -> None:
        self.changed = Changed()
        self.value = 0

    def test_what_holds_already(self) -> None:
        self.assertTrue(self.changed.wait_for(lambda: True, 0))
        self.assertTrue(self.changed.wait_for(lambda: True))

    def test_a_time_that_is_over(self) -> None:
        begun = time.monotonic()
        self.assertFalse(self.changed.wait_for(lambda: False, 0.05))
        self.assertGreaterEqual(time.monotonic() - begun, 0.05)
        for timeout in (0, -1):
            self.assertFalse(self.changed.wait_for(lambda: False, timeout))

    def test_each_change_wakes_all(self) -> None:
        seen: list[int] = []

        def wait(bound: int) -> None:
            self.assertTrue(self.changed.wait_for(lambda: self.value >= bound, LONG))
            with self.changed:
                seen.append(bound)
                self.changed.notify_all()

        threads = [threading.Thread(target=wait, args=(bound,)) for bound in (3, 1, 2)]
        for it in threads:
            it.start()
        for bound in (1, 2, 3):
            with self.changed:
                self.value = bound
                self.changed.notify_all()
            self.assertTrue(self.changed.wait_for(lambda bound=bound: bound in seen, LONG))
        for it in threads:
            it.join()
        self.assertEqual(seen, [1, 2, 3])

    def test_who_waits_leaves_nothing(self) -> None:
        def fail() -> bool:
            raise ZeroDivisionError

        self.changed.wait_for(lambda: False, 0)
        with self.assertRaises(ZeroDivisionError):
            self.changed.wait_for(fail)
        self.assertEqual(self.changed._gates, [])

    def test_who_waits_does_not_have_the_lock(self) -> None:
        # A thread that does not get the lock would wake nobody.
        def change() -> None:
            with self.changed:
                self.value = 1
                self.changed.notify_all()

        threading.Timer(0.05, change).start()
        self.assertTrue(self.changed.wait_for(lambda: self.value == 1, LONG))


if __name__ == "__main__":
    unittest.main()
