"""What a checker of types says of code that uses the package, by mypy where it is installed."""

import re
import subprocess
import sys
import tempfile
import unittest
from importlib.util import find_spec
from pathlib import Path

from tests.programs import need_tool

PACKAGE = Path(__file__).resolve().parents[1]

# Of the lines that end with this word, and of no others, a checker has to complain.
WRONG = "# wrong"

USER = """\
import pidtab


def parent(table: pidtab.Askable, task: int) -> int:
    return table.ask.stat(task).parent + table.ask.getppid(task)


def child(table: pidtab.AskableCalls) -> int:
    return parent(table, table.fork(1).root)


def count(queries: pidtab.Queries) -> int:
    return queries.count() + len(queries.control_tasks(1, 0, 2)) if isinstance(queries, pidtab.Ask) else queries.count()


def use(table: pidtab.Table, seat: pidtab.Seat, many: pidtab.Replicated) -> int:
    asked = parent(table, 1) + parent(seat, 1) + parent(many, 1) + count(table.ask) + count(seat) + table.counts().recorded + (seat.ordinal or 0)
    return asked + child(table) + child(seat) + child(many)


def use_many(cluster: pidtab.Cluster) -> int:
    with cluster.open("web", pid_max=400) as table:
        return child(table) + table.position


def fall(table: pidtab.Table, seat: pidtab.Seat) -> int:
    answer, effects = table.told.exit(2, 9)
    for effect in [*effects, *seat.told.wait(1, own=True).effects]:
        match effect:
            case pidtab.Ended(number, status):
                answer = None if status is None else number + status
            case pidtab.Adopted():
                return effect.parent
            case pidtab.Gone(number) | pidtab.GroupGone(number) | pidtab.SessionGone(number):
                return number
            case space:
                return space.id
    reaped: pidtab.Told[pidtab.Reaped | None] = seat.told.wait(1)
    return table.told.fork(1).answer.root + (reaped.answer.child if reaped.answer else 0)


def keep(text: str) -> pidtab.Table:
    with pidtab.Table(400, keep=pidtab.ALL, workers=2, threads=True) as table, table.lock() as held:
        assert held.keep and held.threads and held.workers
    return pidtab.Table.from_dump(text, keep=4096, recorded=[1, 2])


async def wait(table: pidtab.Table, seat: pidtab.Seat) -> int:
    return await table.changed(0) + (await seat.reap(1)).child


def misuse(process: pidtab.Process, calls: pidtab.Calls, table: pidtab.AskableCalls) -> None:
    parent(process, 1)  # wrong
    child(process)  # wrong
    calls.ask  # wrong
    table.ask.fork(1)  # wrong
    table.ask.control_tasks("1")  # wrong
    table.fork("1")  # wrong


def misuse_settings(table: pidtab.Table, seat: pidtab.Seat) -> None:
    pidtab.Table(400, None, 4096)  # wrong
    pidtab.Table(keep="all")  # wrong
    pidtab.Table(threads=4)  # wrong
    pidtab.Table(worker=4)  # wrong
    table.follow(seat, 0)  # wrong
    table.ordinal  # wrong
    seat.counts()  # wrong
    seat.lock()  # wrong


def misuse_told(table: pidtab.Table, process: pidtab.Process) -> None:
    table.told.exit("2")  # wrong
    table.told.exit(2, own=True)  # wrong
    table.told.wait(1).answer.child  # wrong
    table.told.line("exit 2 0")  # wrong
    table.told.exit(2).effects.number  # wrong
    process.told.exit(2)  # wrong
"""


class Types(unittest.TestCase):
    def test_a_table_and_what_is_asked_of_it(self) -> None:
        mypy = need_tool("mypy")
        # By this file a checker sees that an installed package has types.
        self.assertTrue((PACKAGE / "pidtab" / "py.typed").is_file())
        with tempfile.TemporaryDirectory() as folder:
            (Path(folder) / "user.py").write_text(USER)
            # Of the package itself nothing is said: a user's mypy says nothing of what is installed either.
            words = ["--strict", "--no-incremental", "--cache-dir=/dev/null", "--follow-imports=silent", "user.py"]
            done = subprocess.run([mypy, *words], cwd=folder, env={"MYPYPATH": str(PACKAGE)}, capture_output=True, text=True, check=False)
        told = [int(it) for it in re.findall(r"(?m)^user\.py:(\d+): error", done.stdout)]
        wrong = [number for number, line in enumerate(USER.splitlines(), start=1) if line.endswith(WRONG)]
        self.assertEqual((told, done.stderr), (wrong, ""), done.stdout)

    def test_the_package_itself_by_its_settings(self) -> None:
        mypy = need_tool("mypy")
        # pidtab.testing has types of it.
        if find_spec("hypothesis") is None:
            self.skipTest("no Hypothesis")
        words = ["--python-executable", sys.executable, "--cache-dir=/dev/null"]
        done = subprocess.run([mypy, *words], cwd=PACKAGE, capture_output=True, text=True, check=False)
        self.assertEqual((done.returncode, done.stderr), (0, ""), done.stdout)


if __name__ == "__main__":
    unittest.main()
