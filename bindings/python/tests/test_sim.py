"""Containers on a table in simulated time, and what a table takes of a `config.json`."""

import json
import tempfile
import unittest
from pathlib import Path

from pidtab import Table
from pidtab.sim import DOCKER, KUBERNETES, NoContainer, Restart, Simulation, World
from pidtab.sim.oci import BadConfig, Description, read_config
from tests.ways import need_library

# As `runc spec` writes it, with fewer of its lists' items.
CONFIG = {
    "ociVersion": "1.0.2-dev",
    "process": {"terminal": True, "user": {"uid": 0, "gid": 0}, "args": ["/bin/sh", "-c", "true"], "env": ["TERM=xterm"], "cwd": "/"},
    "root": {"path": "rootfs", "readonly": True},
    "hostname": "runc",
    "mounts": [{"destination": "/proc", "type": "proc", "source": "proc"}],
    "linux": {
        "resources": {"devices": [{"allow": False, "access": "rwm"}], "pids": {"limit": 32}},
        "namespaces": [{"type": "pid"}, {"type": "network"}, {"type": "mount"}],
        "maskedPaths": ["/proc/kcore"],
    },
}
LEFT_OUT = {"process.terminal", "process.user", "process.env", "process.cwd", "root", "hostname", "mounts", "linux.resources.devices",
            "linux.maskedPaths", "linux.namespaces.network", "linux.namespaces.mount"}  # fmt: skip


class Configurations(unittest.TestCase):
    def test_what_is_taken_and_what_is_left_out(self) -> None:
        for given in (CONFIG, json.loads(json.dumps(CONFIG))):
            found = read_config(given)
            self.assertEqual((found.limit, found.own_namespace, found.word), (32, True, "sh"))
            self.assertEqual((set(found.left_out), len(found.left_out)), (LEFT_OUT, len(LEFT_OUT)))

    def test_a_file(self) -> None:
        with tempfile.TemporaryDirectory() as folder:
            path = Path(folder, "config.json")
            path.write_text(json.dumps(CONFIG))
            self.assertEqual(read_config(path), read_config(CONFIG))
            path.write_text("{")
            with self.assertRaisesRegex(BadConfig, "config.json: "):
                read_config(path)

    def test_what_is_not_given(self) -> None:
        self.assertEqual(read_config({}), Description(None, False, "", ()))

    def test_limits(self) -> None:
        for limit, read in ((1, 1), (4194304, 4194304), (4194305, None), (0, None), (-1, None)):
            with self.subTest(limit):
                self.assertEqual(read_config({"linux": {"resources": {"pids": {"limit": limit}}}}).limit, read)

    def test_the_namespace_of_another(self) -> None:
        found = read_config({"linux": {"namespaces": [{"type": "pid", "path": "/proc/7/ns/pid"}]}})
        self.assertEqual((found.own_namespace, found.left_out), (False, ("linux.namespaces.pid.path",)))

    def test_bad_ones(self) -> None:
        for config, said in [
            ([], "a configuration is an object"),
            ({"linux": 5}, "linux.namespaces: what is around it is no object"),
            ({"linux": {"resources": {"pids": {"limit": "5"}}}}, "linux.resources.pids.limit is no int"),
            ({"linux": {"resources": {"pids": {"limit": True}}}}, "linux.resources.pids.limit is no int"),
            ({"linux": {"namespaces": {}}}, "linux.namespaces is no list"),
            ({"linux": {"namespaces": [{}]}}, "linux.namespaces.0 has no type"),
            ({"process": {"args": "sh"}}, "process.args is no list"),
        ]:
            with self.subTest(config), self.assertRaises(BadConfig) as fault:
                read_config(config)  # type: ignore[arg-type]
            self.assertEqual(str(fault.exception), said)


class Tables(unittest.TestCase):
    """What has a table."""

    def setUp(self) -> None:
        need_library()
        self.table = Table()
        self.addCleanup(self.table.close)

    def tasks(self) -> list[tuple[int, ...]]:
        """The numbers of all tasks."""
        return [task.numbers for task in self.table.list().tasks]


class Worlds(Tables):
    def test_a_start(self) -> None:
        world = World(self.table)
        self.assertTrue(world.start("web", Description(limit=3)))
        init = self.table.list().tasks[1]
        self.assertEqual((init.numbers, init.executed, init.control), ((2, 1), True, world.containers["web"].control))
        control = self.table.list().controls[1]
        self.assertEqual((control.limit, control.count), (3, 1))

    def test_forks_up_to_the_limit(self) -> None:
        world = World(self.table)
        world.start("web", Description(limit=3))
        self.assertEqual((world.fork("web", 5), world.fork("web")), (2, 0))
        self.assertEqual((world.refused, world.containers["web"].peak, world.forks), ({"pids-limit": 2}, 3, 2))
        self.assertEqual(self.tasks(), [(1,), (2, 1), (3, 2), (4, 3)])

    def test_a_bomb(self) -> None:
        world = World(self.table)
        world.start("web", Description(limit=10))
        # One, two, four, eight, and then the limit.
        self.assertEqual([world.bomb("web") for _ in range(5)], [1, 2, 4, 2, 0])
        self.assertEqual(world.refused, {"pids-limit": 6 + 10})

    def test_an_end_is_waited_for(self) -> None:
        world = World(self.table)
        world.start("web", Description())
        world.fork("web", 2)
        self.assertTrue(world.end("web"))
        self.assertEqual(self.tasks(), [(1,), (2, 1), (3, 2)])
        # Without a name of its own, the init is never meant.
        self.assertEqual([world.end("web"), world.end("web"), world.end("web", 2)], [True, False, True])
        self.assertEqual(self.tasks(), [(1,)])

    def test_an_orphan_is_waited_for_by_the_init(self) -> None:
        for own in (True, False):
            with self.subTest(own=own), Table() as self.table:
                world = World(self.table)
                world.start("web", Description(own_namespace=own))
                world.fork("web")
                world.fork("web", 1, 3)
                world.end("web", 3)
                self.assertEqual(self.table.list().tasks[-1].parent, 2 if own else 1)
                world.end("web", 4)
                self.assertEqual(len(self.tasks()), 2)

    def test_a_stop_ends_all(self) -> None:
        for own in (True, False):
            with self.subTest(own=own), Table() as self.table:
                world = World(self.table)
                world.start("web", Description(own_namespace=own))
                world.fork("web", 3)
                world.bomb("web")
                self.assertTrue(world.stop("web"))
                self.assertFalse(world.stop("web"))
                self.assertEqual((self.tasks(), self.table.count(world.containers["web"].control)), ([(1,)], 0))
                self.assertEqual((world.fork("web"), world.end("web")), (0, False))

    def test_a_start_behind_a_stop(self) -> None:
        world = World(self.table)
        world.start("web", Description(limit=5))
        world.stop("web")
        self.assertTrue(world.start("web"))
        self.assertEqual((world.containers["web"].starts, len(self.table.list().controls)), (2, 2))

    def test_no_number_for_an_init(self) -> None:
        with Table(301) as self.table:
            world = World(self.table)
            self.assertEqual([world.start(str(place), Description()) for place in range(300)], [True] * 299 + [False])
            self.assertEqual(world.refused, {"no-number": 1})

    def test_misuse(self) -> None:
        world = World(self.table)
        with self.assertRaisesRegex(ValueError, "^nobody has described the container web$"):
            world.start("web")
        world.start("web", Description())
        with self.assertRaisesRegex(ValueError, "^the container web is up$"):
            world.start("web")

    def test_a_name_that_no_container_has(self) -> None:
        world = World(self.table)
        with self.assertRaises(NoContainer) as fault:
            world.fork("web")
        self.assertEqual(str(fault.exception), "no container 'web': it was never started")
        self.assertIsInstance(fault.exception, KeyError)
        world.start("web-1", Description())
        for action in (world.fork, world.bomb, world.end, world.stop):
            with self.subTest(action.__name__), self.assertRaises(NoContainer) as fault:
                action("web1")
            self.assertEqual(str(fault.exception), "no container 'web1': is 'web-1' meant?")
        self.assertEqual(self.tasks(), [(1,), (2, 1)])


class Timelines(Tables):
    def test_the_order_is_that_of_the_times(self) -> None:
        simulation, called = Simulation(self.table), []
        for time in (2.0, 1.0, 1.0):
            simulation.at(time, lambda place: called.append((simulation.now, place)), len(called) + time)
        simulation.at(1.0, called.append, "last")
        simulation.run()
        self.assertEqual(called, [(1.0, 1.0), (1.0, 1.0), "last", (2.0, 2.0)])
        self.assertEqual((simulation.now, simulation.events), (2.0, 4))

    def test_counts_over_time(self) -> None:
        simulation = Simulation(self.table, watch=["web", "db"])
        simulation.at(1, simulation.start, "web", Description(limit=3))
        simulation.at(2, simulation.fork, "web", 5)
        simulation.at(3, simulation.stop, "web")
        simulation.every(1, 3, simulation.sample)
        simulation.at(1.5, simulation.picture)
        simulation.run()
        head = "time,tasks,zombies,up,forks,refused,starts,web,db\n"
        # What was put there first comes first, so a sample is after what happens at its time.
        self.assertEqual(simulation.csv(), head + "0,1,0,0,0,0,0,0,0\n1,2,0,1,0,0,1,1,0\n2,4,0,1,2,1,1,3,0\n3,1,0,0,2,1,1,0,0\n")
        ((time, listing),) = simulation.moments
        self.assertEqual((time, len(listing.tasks)), (1.5, 2))

    def test_zombies(self) -> None:
        simulation = Simulation(self.table)
        child = self.table.fork(1)
        self.table.exit(child.root)
        simulation.sample()
        self.assertEqual((simulation.samples[0].tasks, simulation.samples[0].zombies), (1, 1))

    def test_restarts(self) -> None:
        starts: list[float] = []

        class Noted(Simulation):
            """Notes when a container is started."""

            def start(self, name: str, description: Description | None = None) -> bool:
                starts.append(self.now)
                return super().start(name, description)

        simulation = Noted(self.table)
        simulation.keep_up("web", Restart(first=1, factor=2, most=3, reset=100))
        simulation.at(0, simulation.start, "web", Description())
        for time in (1, 3, 6, 10, 200):
            simulation.at(time, simulation.stop, "web")
        simulation.run()
        # Pauses of 1, 2, 3 and 3 seconds, as 3 is the most; then it has run for long.
        self.assertEqual(starts, [0, 2, 5, 9, 13, 201])
        self.assertEqual(simulation.containers["web"].starts, 6)

    def test_the_pauses_of_others(self) -> None:
        pauses = [0.0]
        for _ in range(12):
            pauses.append(DOCKER.pause(pauses[-1], 1))
        self.assertEqual([round(it, 1) for it in pauses[1:4]] + pauses[-1:], [0.1, 0.2, 0.4, 60])
        self.assertEqual([KUBERNETES.pause(before, 0) for before in (0, 10, 160)], [10, 20, 300])
        self.assertEqual((DOCKER.pause(60, 10), KUBERNETES.pause(300, 600)), (0.1, 10))

    def test_misuse(self) -> None:
        simulation = Simulation(self.table)
        simulation.at(1, simulation.sample)
        simulation.run()
        for time in (0.5, float("nan")):
            with self.assertRaisesRegex(ValueError, f"^the time {time} has passed: it is 1$"):
                simulation.at(time, simulation.sample)
        with self.assertRaisesRegex(ValueError, "^a pause is above 0, not 0$"):
            simulation.every(0, 5, simulation.sample)

    def test_a_fault_leaves_the_rest(self) -> None:
        simulation = Simulation(self.table)
        simulation.at(1, simulation.start, "nobody")
        simulation.at(2, simulation.sample)
        with self.assertRaises(ValueError):
            simulation.run()
        simulation.run()
        self.assertEqual([it.time for it in simulation.samples], [2])


if __name__ == "__main__":
    unittest.main()
