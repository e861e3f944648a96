"""What only a process has: a pipe, and the transcript of its calls."""

import threading
import unittest

from pidtab import Process
from tests.ways import need_program


class Transcripts(unittest.TestCase):
    """What is kept of the lines."""

    @classmethod
    def setUpClass(cls) -> None:
        need_program()

    def setUp(self) -> None:
        self.process = Process()
        self.addCleanup(self.process.close)

    def test_calls_are_kept_and_bad_lines_are_not(self) -> None:
        self.process.fork(1)
        self.process.answers(["getpid 9", "FORK", "mk 0"])
        with self.assertRaises(ValueError):
            self.process.line("fork 1\r")
        self.assertEqual(self.process.transcript, "fork 1\ngetpid 9\nmk 0\n")

    def test_what_is_not_sent_is_not_kept(self) -> None:
        for text in ("", "fork 1\nfork 1"):
            with self.assertRaises(ValueError):
                self.process.line(text)
        with self.assertRaises(ValueError):
            self.process.wait(1, pid=2, own=True)
        self.assertEqual(self.process.transcript, "")

    def test_pid_max_is_replayed(self) -> None:
        with Process(pid_max=301) as process:
            process.answers(["fork 1"] * 300)
            listing = process.list()
        self.assertEqual(len(listing.tasks), 300)
        self.assertEqual(listing.spaces[0].cursor, 301)

    def test_long_answers_to_many_lines(self) -> None:
        # Without a bound on the lines ahead, both ends would wait for each other here.
        for caller in range(1, 33):
            self.process.fork(caller, new=True)
        numbers = " ".join(str(number) for number in range(33, 0, -1))
        watch = threading.Timer(60, self.process._child.kill)
        watch.start()
        answers = self.process.answers(["nspid 1 33", "x" * 200] * 1500)
        watch.cancel()
        self.assertEqual(answers, (numbers, "bad line") * 1500)


if __name__ == "__main__":
    unittest.main()
