"""Members of etcd that are restored from a backup, or of which one that is behind goes on alone: hosts notice it, and none of them does harm."""

import unittest
from collections.abc import Callable

from cluster.etcds import Etcds, text64
from cluster.test_etcd import Cluster
from pidtab import LogFault, NotKnown, Replicated

NOTICED = "etcd was set back to an earlier state, or the entry was deleted; nothing was put"

# Before the backup, and behind it.
CALLS = 5


class SetBack(Cluster):
    """Two hosts have had answers that etcd does not have any more."""

    def begin(self, count: int) -> tuple[Etcds, Replicated, Replicated]:
        """Members, a host that has made calls, and one that only reads."""
        etcds = self.start(count=count)
        writer, reader = (self.open(etcds.members, timeout=2) for _ in range(2))
        for _ in range(CALLS):
            writer.fork(1)
        return etcds, writer, reader

    def go_on(self, writer: Replicated, reader: Replicated) -> None:
        """More calls, which both have."""
        for _ in range(CALLS):
            writer.fork(1)
        reader.catch_up()

    def entries(self, etcds: Etcds, place: int = 0) -> list[str]:
        """The keys of the log with their revisions."""
        wanted = {"key": text64("web:"), "range_end": text64("web;"), "keys_only": True}
        return sorted(f"{it['mod_revision']} {it['key']}" for it in etcds.ask("/v3/kv/range", wanted, place)["kvs"])

    def check_noticed(self, step: Callable[[], object]) -> None:
        """A host stops, or has, for this reason."""
        with self.assertRaisesRegex((NotKnown, LogFault), NOTICED):
            step()

    def check_new_host(self, etcds: Etcds) -> None:
        """The log is as it was, and goes on."""
        table = self.open(etcds.members)
        self.assertEqual([table.fork(1).root for _ in range(3)], [CALLS + it for it in (2, 3, 4)])
        self.assertEqual(len(self.open(etcds.members).list().tasks), CALLS + 4)

    def restore(self, count: int, others: int) -> tuple[Etcds, Replicated, Replicated]:
        """Members that are restored from a backup, behind which others write so often."""
        etcds, writer, reader = self.begin(count)
        etcds.save(self.folder / "backup")
        self.go_on(writer, reader)
        etcds.restore(self.folder / "backup")
        etcds.put_others(others)
        return etcds, writer, reader

    def test_a_backup(self) -> None:
        etcds, writer, reader = self.restore(1, 0)
        before = self.entries(etcds)
        self.check_noticed(lambda: writer.fork(1))
        self.check_noticed(reader.catch_up)
        self.assertEqual(self.entries(etcds), before)
        self.check_new_host(etcds)

    def test_a_backup_and_others_write(self) -> None:
        etcds, writer, reader = self.restore(3, 500)
        before = self.entries(etcds)
        self.check_noticed(reader.catch_up)
        self.check_noticed(lambda: writer.fork(1))
        self.assertEqual(self.entries(etcds), before)
        self.check_new_host(etcds)

    def test_a_new_host_is_first(self) -> None:
        etcds, writer, reader = self.restore(1, 500)
        places = [it.position for it in (writer, reader)]
        self.check_new_host(etcds)
        self.check_noticed(reader.catch_up)
        self.check_noticed(lambda: writer.fork(1))
        self.assertEqual([it.position for it in (writer, reader)], places)
        self.assertEqual(len(self.open(etcds.members).list().tasks), CALLS + 4)

    def test_one_member_goes_on_alone(self) -> None:
        self.check_one_alone(0)

    def test_one_member_goes_on_alone_and_others_write(self) -> None:
        self.check_one_alone(30)

    def check_one_alone(self, others: int) -> None:
        """Two of three members are lost for good, and the third has not what they answered last."""
        etcds, writer, reader = self.begin(3)
        last = next(it for it in (2, 1, 0) if it != etcds.leader())
        # So it has written down that it has what there was up to here.
        etcds.put_others(2)
        self.assertEqual(self.entries(etcds, last), self.entries(etcds, etcds.leader()))
        etcds.freeze(last)
        self.go_on(writer, reader)
        for place in (0, 1, 2):
            etcds.kill(place)
        etcds.start(last, "--force-new-cluster")
        etcds.wait_until_ready()
        etcds.put_others(others, last)
        before = self.entries(etcds, last)
        self.check_noticed(reader.catch_up)
        self.check_noticed(lambda: writer.fork(1))
        self.assertEqual(self.entries(etcds, last), before)
        self.check_new_host(etcds)


if __name__ == "__main__":
    unittest.main()
