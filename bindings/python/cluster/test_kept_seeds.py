"""Replicas and keepers of a log with troubles, by seeds: the log is cut again and again, and no answer is lost, wrong or doubled."""

import tempfile
import threading
import unittest
from pathlib import Path
from unittest import mock

from cluster.load import Load, User, run_users
from cluster.test_seeds import BATCH, USERS
from pidtab import MemoryLog, NotKnown, Replicated, Table
from pidtab.commands.replay import Comparison, Replay, join, read_archive, read_row
from pidtab.hosts.archive import Archive
from pidtab.hosts.keeper import Keeper, Wishes
from tests.ways import need_library

SEEDS = range(12)
CALLS = 200
HOSTS = 2

# A snapshot for each so many bytes of entries.
WISHES = Wishes(bytes=4000, times=0.1)


class Patient(User):
    """A user that goes on where it is not known what became of its calls, as behind a log that was cut before its host had read it."""

    def _ask(self) -> None:
        try:
            super()._ask()
        except NotKnown:
            self._left -= self._batch


class KeptRound:
    """Some replicas of a log, with users, and two keepers that check each other."""

    def __init__(self, seed: int, folder: Path) -> None:
        self.seed = seed
        self.folder = folder
        self.log = MemoryLog(seed)
        self.rows: list[str] = []
        self.said: list[str] = []
        self.faults: list[BaseException] = []

    def run(self) -> "set[tuple[str, str]]":
        """Has all users make their calls: how the hosts end."""
        hosts = [Replicated(self.log, patience=30) for _ in range(HOSTS)]
        keepers = [Keeper(self.log, lambda pid_max: Table(pid_max), WISHES, Archive(self.folder, "log"), self.said.append) for _ in range(2)]
        threads = [threading.Thread(target=self.keep, args=(it,)) for it in keepers]
        try:
            for it in threads:
                it.start()
            run_users([self.user(host, (place, user)) for place, host in enumerate(hosts) for user in range(USERS)])
            hosts.append(Replicated(self.log, patience=30))
            run_users([self.user(hosts[-1], "late")])
            for host in hosts:
                host.catch_up()
            return {(it.digest, it.list_text()) for it in hosts}
        finally:
            for keeper in keepers:
                keeper.end()
            for it in threads:
                it.join()
            for host in hosts:
                host.close()

    def keep(self, keeper: Keeper) -> None:
        """Keeps the log, in a thread."""
        try:
            keeper.run()
        except BaseException as fault:
            self.faults.append(fault)

    def user(self, host: Replicated, name: object) -> User:
        return Patient(host, Load((self.seed, name)), BATCH, CALLS, 60, self.rows.extend)


class KeptSeeds(unittest.TestCase):
    """Each answer is that of one thread, and all tables are equal."""

    def test_each_seed(self) -> None:
        need_library()
        cuts = 0
        for seed in SEEDS:
            with self.subTest(f"seed {seed}"), tempfile.TemporaryDirectory() as folder, mock.patch("pidtab.hosts.keeper.HESITATION", 0.02):
                it = KeptRound(seed, Path(folder))
                ends = it.run()
                self.assertEqual(it.faults, [])
                replay = Replay(join([*it.log.entries, *read_archive(folder)]))
                with Table(replay.pid_max) as table:
                    replay.play(table)
                    listed = table.list_text()
                comparison = Comparison(replay.made)
                for row in it.rows:
                    comparison.take(read_row(row))
                self.assertTrue(comparison.is_well, comparison.say())
                self.assertEqual(replay.differing, [])
                self.assertEqual(ends, {(replay.digest.hex(), listed)})
                cuts += sum("are cut" in said for said in it.said)
        # The log was cut.
        self.assertGreater(cuts, len(SEEDS))


if __name__ == "__main__":
    unittest.main()
