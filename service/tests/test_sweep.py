"""Each operation on the disk fails once, in turn, or is the one that the process is killed before: the n-th write, sync, rename, truncation, removal or
creation of a file, from the start on. Then the daemon is killed, and starts again: no directory is refused, no answered call and no lease is lost, and what
was forked under a lease is bound to it."""
import collections
import concurrent.futures
import errno
import mmap
import struct
import time
import unittest

from harness import BUILT, Case, Refused, need
from test_disk import former_file, told_by

# So many are enough to look at.
MANY = 20

KINDS = ["nothing", "sync", "write", "rename", "truncate", "unlink", "create"]


class Plan:
    """The numbers that flaky.so reads: which operation fails, and how; and how many there were, and which kind has failed."""

    def __init__(self, folder, number, error):
        path = folder / "plan"
        path.write_bytes(struct.pack("4i", number, error, 0, 0))
        with open(path, "r+b") as file:
            self.numbers = mmap.mmap(file.fileno(), 16)
        self.variables = {"LD_PRELOAD": str(BUILT / "flaky.so"), "FLAKY": str(path)}

    def failed(self):
        return KINDS[struct.unpack("4i", self.numbers[:])[3]]

    def end(self):
        self.numbers[:4] = bytes(4)


class Told:
    """What a daemon was asked, and has answered."""

    def __init__(self):
        self.calls, self.leased, self.leases, self.released, self.names = 0, set(), set(), set(), []

    def say(self, client, words):
        verb = words.split()[0]
        if verb == "RELEASE":
            self.leases.discard(words.split()[1])
        answer = client.say(words)
        self.calls += verb in ("FORK", "EXIT", "WAIT", "MK")
        if verb == "LEASE":
            self.leases.add(words.split()[1])
        if verb == "RELEASE":
            self.released.add(words.split()[1])
        if verb == "FORK":
            self.leased.add(answer[1])
        if verb == "EXIT":
            self.leased.discard(int(words.split()[1]))
        return answer

    def play(self, one):
        """A lease, calls, two snapshots, a named cgroup, and another client whose lease ends."""
        client, other = one.client(), one.client()
        client.socket.settimeout(5)
        for words in ("LEASE alone 60000", "LEASE spare 60000", "LEASE rig 60000", "FORK 1", "FORK 1", "FORK 1", "EXIT 2 1", "WAIT 1 ANY", "BGSAVE",
                      "RELEASE spare"):
            self.say(client, words)
        for words in ("FORK 1", "FORK 1", "FORK 1", "FORK 1"):
            time.sleep(0.03)
            self.say(client, words)
        other.say("LEASE brief 0")
        made = other.say("MK 0")
        self.calls += 1
        other.say(f"NAME {made} build")
        self.names.append(["/build", made])
        other.say("FORK 1")
        self.calls += 1
        other.close()
        time.sleep(0.25)
        end = time.monotonic() + 5
        while "compacting:1" in client.say("INFO") and time.monotonic() < end:
            time.sleep(0.02)
        self.say(client, "BGSAVE")
        time.sleep(0.2)
        self.say(client, "FORK 1")


class Sweep(Case):
    def serve(self, number, error, *options):
        """The kind that has failed, and what is wrong then."""
        one = self.daemon(*options, name=f"{options[1]}{number}")
        plan, told = Plan(one.folder, number, error), Told()
        one.variables = plan.variables
        wrong = ""
        try:
            told.play(one.start())
        except TimeoutError:
            wrong = "no answer"
        except (AssertionError, OSError, EOFError, Refused):
            pass
        one.kill()
        try:
            one.start()
        except AssertionError:
            plan.end()
        one.kill()
        failed = plan.failed()
        plan.end()
        try:
            wrong = wrong or self.what_is_lost(one.start().client(), told)
        except (AssertionError, OSError, EOFError):
            wrong = "refused: " + one.said().splitlines()[-1].replace(str(self.folder), "")
        one.kill()
        return failed, wrong

    def what_is_lost(self, client, told):
        position = client.say("POSITION")
        if position < told.calls:
            return f"{told.calls - position} of {told.calls} answered calls are lost"
        rows, live = told_by(client)
        leases = {row[0]: set(row[3]) for row in rows}
        bound = set().union(*leases.values())
        wrong = {"leases are lost": told.leases - set(leases), "leases come again": told.released & set(leases),
                 "names are lost": [it for it in told.names if it not in client.say("NAMES")],
                 "tasks are leased no more": told.leased - leases.get("rig", set()), "tasks live on without a lease": live - bound}
        return "; ".join(f"{what}: {those}" for what, those in wrong.items() if those)

    def sweep(self, error, *options, play=None, misses=()):
        need(BUILT / "flaky.so")
        play = play or self.serve
        tried, wrong, number = collections.Counter(), [], 1
        with concurrent.futures.ThreadPoolExecutor(3) as pool:
            while not tried["nothing"] and len(wrong) < MANY:
                some = range(number, number + 12)
                for place, (failed, why) in zip(some, pool.map(lambda it: play(it, error, *options), some)):
                    tried[failed] += 1
                    wrong += [f"operation {place}, {failed}: {why}"] if why else []
                number += 12
        print(f"{options[-1] if options else play.__name__}, {errno.errorcode.get(error, 'killed')}: {dict(tried)}; {len(wrong)} wrong")
        self.assertEqual(wrong, [])
        self.assertGreater(min(tried[kind] for kind in KINDS[1:] if kind not in ("truncate", *misses)), 0)

    def test_everysec(self):
        self.sweep(errno.EIO, "--fsync", "everysec")

    def test_always(self):
        self.sweep(errno.ENOSPC, "--fsync", "always")

    def test_killed_before_each(self):
        self.sweep(0, "--fsync", "everysec")

    def take_over(self, number, error):
        """The kind that has failed in a start that takes over the leases of a former release, and what is wrong behind the next one."""
        one = self.daemon(name=f"former{number}").start()
        client = one.client()
        for words in ("FORK 1", "FORK 1", "BGSAVE"):
            client.say(words)
        while "snapshot:2\r" not in client.say("INFO"):
            time.sleep(0.02)
        client.say("FORK 1")
        one.kill()
        (one.kept / "leases").write_bytes(former_file("at 3", "lease 0 rig 1 60000", "bind 1 2 1", "bind 1 4 3", "lease 0 web 2 70000", "bind 2 3 2"))
        plan = Plan(one.folder, number, error)
        one.variables = plan.variables
        try:
            one.start().client().say("LEASES")
        except (AssertionError, OSError, EOFError):
            pass
        one.kill()
        failed = plan.failed()
        plan.end()
        try:
            leases = one.start().client().say("LEASES")
            wrong = "" if leases == [["rig", 60000, 0, [2, 4]], ["web", 70000, 0, [3]]] else f"leases are {leases}"
        except (AssertionError, OSError, EOFError):
            wrong = "refused: " + one.said().splitlines()[-1].replace(str(self.folder), "")
        one.kill()
        return failed, wrong

    def test_a_former_directory(self):
        self.sweep(errno.EIO, play=self.take_over, misses=("rename", "create"))

    def test_a_former_directory_is_killed_before_each(self):
        self.sweep(0, play=self.take_over, misses=("rename", "create"))

    def follow(self, number, error):
        """The kind that has failed in a follower, and what is wrong then: it takes the table twice, and takes over."""
        one = self.daemon(name=f"leader{number}").start()
        two = self.daemon("--follow", str(one.socket), name=f"follower{number}")
        plan, made, kept = Plan(two.folder, number, error), 0, 0
        two.variables = plan.variables
        try:
            for _ in range(2):
                client = one.client()
                for words in ("LEASE rig 60000", "FORK 1 NEW", "EXEC 1"):
                    client.say(words)
                made += 2
                if not two.process:
                    two.start()
                kept = self.wait_for(two, made)
                one.kill()
                one.start()
            made += one.client().say("EXEC 1") == "OK"
            kept = self.wait_for(two, made)
            other = two.client()
            one.kill()
            if other.say("TAKEOVER FORCE") == "OK":
                kept += isinstance(other.say("FORK 1"), list)
        except (AssertionError, OSError, EOFError, Refused):
            pass
        failed = plan.failed()
        plan.end()
        for each in (one, two):
            each.kill()
        two.options = two.options[:2]
        try:
            client = two.start().client()
            position, leases = client.say("POSITION"), client.say("LEASES")
            wrong = f"{kept - position} of {kept} calls are lost" if position < kept else ""
            wrong = wrong or ("its leader's lease is lost" if kept and leases[0][:2] != ["rig", 60000] else "")
        except (AssertionError, OSError, EOFError, IndexError):
            wrong = "refused: " + two.said().splitlines()[-1].replace(str(self.folder), "")
        two.kill()
        return failed, wrong

    def wait_for(self, daemon, position):
        client, end = daemon.client(), time.monotonic() + 3
        while client.say("POSITION") < position:
            self.assertLess(time.monotonic(), end)
            time.sleep(0.02)
        return position

    def test_a_follower(self):
        self.sweep(errno.EIO, play=self.follow)


if __name__ == "__main__":
    unittest.main()
