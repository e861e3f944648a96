"""A table that follows another one, and is dumped while calls go on."""

import threading
import unittest

from pidtab import ALL, NotKept, Table, TableClosed
from tests.ways import for_threads, need_library


class ATableThatFollows(unittest.TestCase):
    @classmethod
    def setUpClass(cls) -> None:
        need_library()

    def test_its_text_is_that_of_the_state_at_its_ordinal(self) -> None:
        with for_threads(1) as table, Table() as replica:
            seat = table.seat()
            for _ in range(70):
                seat.fork(1)
            self.assertEqual(table.follow(replica, 0), 70)
            before = table.dump()
            self.assertEqual(replica.dump(), before)
            seat.fork(1, new=True)
            self.assertEqual(replica.dump(), before)
            self.assertEqual(table.follow(replica, 70), 71)
            self.assertEqual(replica.dump(), table.dump())

    def test_beside_threads_that_make_calls(self) -> None:
        with for_threads(3) as table, Table() as replica:
            ended = threading.Event()

            def serve() -> None:
                seat = table.seat()
                while not ended.is_set():
                    child = seat.fork(1).child
                    seat.exit(child, 7)
                    seat.wait(1, child)

            threads = [threading.Thread(target=serve) for _ in range(3)]
            for it in threads:
                it.start()
            following, texts = 0, {}
            while len(texts) < 5:
                following = table.follow(replica, following)
                texts[following] = replica.dump()
            ended.set()
            for it in threads:
                it.join()
            for ordinal, text in texts.items():
                with table.at(ordinal) as alone:
                    self.assertEqual(alone.dump(), text)

    def test_it_goes_on_from_a_text(self) -> None:
        with for_threads(1) as table, Table.from_dump(table.dump(), keep=ALL) as loaded, Table.from_dump(table.dump()) as replica:
            seat = loaded.seat()
            seat.fork(1)
            self.assertEqual(loaded.follow(replica, 0), 1)
            self.assertEqual(replica.dump(), loaded.dump())

    def test_what_is_no_replica(self) -> None:
        with for_threads(1, keep=3) as table, Table() as replica:
            seat = table.seat()
            seat.fork(1)
            replica.fork(1, new=True)
            with self.assertRaisesRegex(ValueError, "^call 0: its reply is not the recorded one"):
                table.follow(replica, 0)
            for _ in range(4):
                seat.fork(1)
            for lacking in (0, 6):
                with self.assertRaises(NotKept):
                    table.follow(replica, lacking)
            with self.assertRaises(ValueError):
                table.follow(replica, -1)
            with self.assertRaises(TypeError):
                table.follow(replica, "0")  # type: ignore[arg-type]
            with self.assertRaisesRegex(ValueError, "^a table does not follow itself$"):
                table.follow(table, 0)
            replica.close()
            with self.assertRaises(TableClosed):
                table.follow(replica, 4)
        with self.assertRaises(TableClosed):
            table.follow(replica, 0)
