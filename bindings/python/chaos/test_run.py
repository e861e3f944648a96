"""What a run needs and says where that is missing; and that each trouble heals what it does."""

import argparse
import os
import random
import signal
import subprocess
import sys
import unittest
from pathlib import Path
from typing import Any
from unittest import mock

from chaos.network import CUT, WELL, Rule
from chaos.run import what_is_missing
from chaos.set_back import WAYS
from chaos.troubles import World, all_troubles
from chaos.wrong import EDITS, WRONG, kinds_of

PACKAGE = Path(__file__).resolve().parents[1]


class Missing(unittest.TestCase):
    """A machine that lacks something."""

    def setUp(self) -> None:
        variables = mock.patch.dict(os.environ, {"PIDTAB": sys.executable, "PIDTAB_LIBRARY": sys.executable})
        for it in (variables, mock.patch("os.geteuid", lambda: 0), mock.patch("shutil.which", lambda tool: f"/bin/{tool}")):
            it.start()
            self.addCleanup(it.stop)

    def missing(self, switch: str = sys.executable) -> str:
        """What is said."""
        return what_is_missing(argparse.Namespace(switch=switch))

    def test_nothing(self) -> None:
        with mock.patch("os.path.exists", lambda path: True):
            self.assertEqual(self.missing(), "")

    def test_no_program_and_no_library(self) -> None:
        for name in ("PIDTAB", "PIDTAB_LIBRARY"):
            with mock.patch.dict(os.environ, {name: "/no/such"}):
                self.assertEqual(self.missing(), "no /no/such: build it with `make build` and `make lib`")

    def test_no_root(self) -> None:
        with mock.patch("os.geteuid", lambda: 1000):
            self.assertEqual(self.missing(), "it needs root, for namespaces, devices and mounts")

    def test_no_etcd(self) -> None:
        with mock.patch("shutil.which", lambda tool: None if tool == "etcd" else tool):
            self.assertEqual(self.missing(), "no etcd on PATH (Debian: etcd-server)")

    def test_no_device(self) -> None:
        with mock.patch("os.path.exists", lambda path: path != "/dev/net/tun"):
            self.assertEqual(self.missing(), "no /dev/net/tun: this kernel has no TAP devices")

    def test_no_switch(self) -> None:
        with mock.patch("os.path.exists", lambda path: path != "/no/switch"):
            self.assertEqual(self.missing("/no/switch"), "no /no/switch: `make chaos` builds it with a C compiler")

    def test_the_program_says_it(self) -> None:
        command = [sys.executable, "-B", "-m", "chaos.run", "--switch", "/no/switch", "--troubles", "compact"]
        done = subprocess.run(command, cwd=PACKAGE, env={**os.environ, "PIDTAB": "/no/program"}, capture_output=True, text=True, check=False)
        self.assertEqual((done.returncode, done.stdout, done.stderr), (2, "", "chaos: no /no/program: build it with `make build` and `make lib`\n"))
        done = subprocess.run([*command[:-1], "compact,none"], cwd=PACKAGE, capture_output=True, text=True, check=False)
        self.assertEqual((done.returncode, done.stderr.splitlines()[-1]), (2, "chaos: error: no trouble is called none"))


class Fake:
    """A process that is started and killed in words only; also a member, of which the place is the first argument."""

    def __init__(self, name: str) -> None:
        self.life = name
        self.pid = None
        self.said: list[tuple[Any, ...]] = []

    def __getattr__(self, name: str) -> Any:
        return lambda *words: self.said.append((name, *words))

    def leader(self) -> int:
        """The first member."""
        return 0


class Network:
    """Only what is set."""

    def __init__(self) -> None:
        self.rules: dict[tuple[int, int], Rule] = {}

    def set(self, one: int, other: int, rule: Rule) -> None:
        """Sets what happens from one place to another."""
        self.rules[one, other] = rule

    def set_all(self, rule: Rule) -> None:
        """Sets what happens between all places."""
        self.rules = {(one, other): rule for one in range(8) for other in range(8)}


class Troubles(unittest.TestCase):
    """Each trouble on a world that is none."""

    def world(self, seed: int) -> tuple[World, Network]:
        """A world, and its network."""
        network = Network()
        some: list[Any] = [Fake(it) for it in ("h0", "h1", "h2", "k0", "k1")]
        made: Any = (random.Random(seed), network, Fake("members"), some[:3], some[3:], Fake("recorder"))
        return World(*made), network

    def words(self, world: World) -> list[tuple[Any, ...]]:
        """All that processes were told."""
        children: list[Any] = [world.members, *world.hosts, *world.keepers]
        return [said for it in children for said in it.said]

    def test_what_is_cut_is_joined_again(self) -> None:
        for name in ("one_way", "unheard", "deaf", "cut_off", "leader_from_host", "leader_from_member", "slow"):
            for seed in range(20):
                world, network = self.world(seed)
                trouble = all_troubles()[name](world)
                harmed = {pair for pair, rule in network.rules.items() if rule != WELL}
                with self.subTest(name, seed=seed, harmed=harmed):
                    self.assertGreater(len(harmed), 0)
                    self.assertTrue(name == "slow" or all(network.rules[pair] == CUT and pair[0] != pair[1] for pair in harmed))
                    trouble.heal()
                    self.assertEqual(set(network.rules.values()), {WELL})

    def test_what_is_ended_begins_again(self) -> None:
        for name in ("kill_member", "kill_members", "kill_host", "kill_keeper", "kill_all", "power_member", "power_members", "lost_member"):
            world, _ = self.world(1)
            trouble = all_troubles()[name](world)
            ended = [it[0] for it in self.words(world) if it[0] in ("kill", "lose_power")]
            trouble.heal()
            begun = [it[0] for it in self.words(world) if it[0].startswith("start")]
            with self.subTest(name):
                self.assertGreater(len(ended), 0)
                self.assertEqual(len(begun), {"kill_members": 1, "power_members": 1, "kill_all": 6}.get(name, 1))

    def test_what_hangs_goes_on(self) -> None:
        for name in ("stop_member", "stop_host", "stop_keeper"):
            world, _ = self.world(1)
            all_troubles()[name](world).heal()
            self.assertEqual([it[-1] for it in self.words(world)], [signal.SIGSTOP, signal.SIGCONT])

    def test_all_are_in_the_page(self) -> None:
        page = (Path(__file__).parent / "README.md").read_text()
        for name in (*all_troubles(), *WAYS):
            self.assertIn(f"`{name}`", page)


class Versions(unittest.TestCase):
    """The wrong versions that a run has to find."""

    def test_each_is_there_with_its_troubles(self) -> None:
        self.assertEqual([it for it in WRONG if not (EDITS / f"{it}.edit").exists()], ["members_that_do_not_sync"])
        for name, wrong in WRONG.items():
            with self.subTest(name):
                self.assertLessEqual({wrong.way} if wrong.way else set(wrong.troubles.split(",")), {*all_troubles(), *WAYS})

    def test_what_is_found(self) -> None:
        self.assertEqual(kinds_of("chaos, 1 s, seed 1: well: 3 calls"), set())
        self.assertEqual(kinds_of("chaos, 1 s: NOT WELL: no end 2 (h0.1), lost 1 (batch h0.1 (7)); 3 calls (x)"), {"no end", "lost"})
        self.assertEqual(kinds_of("chaos, 1 s: NOT WELL: fault 1 (the harness: TimeoutError('a, b'))"), set())


if __name__ == "__main__":
    unittest.main()
