"""A follower has the leader's table, serves what is asked, and takes over; the viewer draws it."""
import json
import random
import shutil
import signal
import socket
import subprocess
import time
import unittest

from harness import Case, Refused, TOP


def wait_for(client, position, wait=20):
    """Until the service has recorded so many calls."""
    end = time.monotonic() + wait
    while client.say("POSITION") < position:
        if time.monotonic() > end:
            raise AssertionError(f"{client.say('POSITION')} of {position} calls: {client.say('INFO')}")
        time.sleep(0.005)


class Follows(Case):
    def two(self, *options):
        one = self.daemon("--segment", "20000", *options).start()
        client = one.client()
        client.say("FORK 1 NEW")
        two = self.daemon("--follow", str(one.socket), "--segment", "20000", name="two").start()
        return one, client, two, two.client()

    def test_the_same_table(self):
        """Random calls over many logs: the follower has the same text, behind a few milliseconds, and records the same log."""
        one, client, two, other = self.two()
        # It follows before the calls come: one that comes after them takes the table anew.
        wait_for(other, 1)
        dice = random.Random(4)
        for _ in range(60):
            lines = [dice.choice(["FORK 1", "FORK 2", f"EXIT {dice.randrange(2, 300)} 1", "WAIT 1 ANY", "MK 0", "EXEC 1", "FORK 1 NEW"]) for _ in range(50)]
            client.socket.sendall("".join(f"{line}\r\n" for line in lines).encode())
            for _ in lines:
                client.answer()
        began = time.monotonic()
        wait_for(other, client.say("POSITION"))
        self.assertLess(time.monotonic() - began, 1)
        self.assertEqual(other.say("DUMP"), client.say("DUMP"))
        self.assertEqual(two.end(), 0)
        two.options = two.options[:2]
        again = two.start().client()
        self.assertEqual(again.say("DUMP"), client.say("DUMP"))

    def test_it_makes_no_calls_of_its_own(self):
        _, client, _, other = self.two()
        wait_for(other, 1)
        self.refused(other, "FORK 1", "READONLY this follows")
        self.refused(other, "CALL getpid 1", "READONLY")
        self.refused(other, "LEASE x 1", "READONLY")
        self.assertEqual(other.say("GETPID 2"), 1)
        self.refused(client, "TAKEOVER", "ERR this follows nobody")

    def test_takeover(self):
        one, client, _, other = self.two()
        for _ in range(100):
            client.say("FORK 1")
        wait_for(other, 101)
        self.refused(other, "TAKEOVER", "ERR the leader still serves")
        listed = client.say("LIST")
        one.kill()
        end = time.monotonic() + 5
        while "leader_link:down" not in other.say("INFO") and time.monotonic() < end:
            time.sleep(0.01)
        self.assertEqual(other.say("TAKEOVER"), "OK")
        self.assertEqual(other.say("LIST"), listed)
        self.assertEqual(other.say("FORK 1"), [103, 103])

    def test_names(self):
        """A follower has its leader's, those from before it came too, and those that are gone are gone."""
        one, client, two, other = self.two()
        self.assertEqual([client.say(line) for line in ("MK 0", "MK 2", "MK 2", "NAME 2 build", "NAME 3 jobs", "NAME 4 old")], [2, 3, 4, "OK", "OK", "OK"])
        two.kill()
        other = two.start().client()
        client.say("RM 4")
        wait_for(other, 5)
        self.assertEqual(other.say("NAMES"), [["/build", 2], ["/build/jobs", 3]])
        self.refused(other, "NAME 3 x", "READONLY this follows")
        client.say("NAME 3 x")
        client.say("EXEC 1")
        wait_for(other, 6)
        self.assertEqual(other.say("NAMES"), [["/build", 2], ["/build/x", 3]])
        one.kill()
        self.assertEqual((other.say("TAKEOVER FORCE"), other.say("NAME 3 y")), ("OK", "OK"))
        two.kill()
        two.options = two.options[:2]
        self.assertEqual(two.start().client().say("NAMES"), [["/build", 2], ["/build/y", 3]])

    def test_leases(self):
        """A follower has its leader's, those from before it came too, and ends none. When it takes over each has its whole time."""
        one, client, two, other = self.two()
        holder = one.client()
        for line in ("LEASE early 60000", "FORK 1", "LEASE rig 300", "FORK 1"):
            holder.say(line)
        two.kill()
        other = two.start().client()
        wait_for(other, 3)
        holder.say("FORK 1")
        wait_for(other, 4)
        rows = [["early", 60000, 0, [3]], ["rig", 300, 0, [4, 5]]]
        self.assertEqual(other.say("LEASES"), rows)
        time.sleep(0.6)
        self.assertEqual((other.say("LEASES"), other.say("GETPID 4")), (rows, 4))
        client.say("EXIT 5 0")
        client.say("WAIT 1 PID 5")
        wait_for(other, 6)
        self.assertEqual(other.say("LEASES")[1], ["rig", 300, 0, [4]])
        one.kill()
        self.assertEqual((other.say("TAKEOVER FORCE"), other.say("LEASES")[1]), ("OK", ["rig", 300, 0, [4]]))
        self.assertEqual(other.say("WAITCHILD 1 ANY TIMEOUT 5000"), [4, 137])
        self.assertEqual(other.say("LEASES"), rows[:1])
        two.kill()
        two.options = two.options[:2]
        self.assertEqual(two.start().client().say("LEASES"), rows[:1])

    def test_the_leader_comes_again(self):
        one, client, _, other = self.two()
        client.say("FORK 1")
        wait_for(other, 2)
        one.end()
        one.start()
        client = one.client()
        for _ in range(10):
            client.say("FORK 1")
        wait_for(other, 12)
        self.assertEqual(other.say("DUMP"), client.say("DUMP"))

    def follow_in_vain(self, one, two, calls, why):
        """The second daemon is started as a follower of the first, has so many calls, and keeps them."""
        two.options += ["--follow", str(one.socket)]
        client = two.start().client()
        end = time.monotonic() + 5
        while "it is not overwritten" not in client.say("INFO") and time.monotonic() < end:
            time.sleep(0.02)
        self.assertRegex(client.say("INFO"), f"leader_fault:{why}.*: it is not overwritten")
        self.assertEqual(client.say("POSITION"), calls)

    def test_a_leader_that_is_behind(self):
        """A leader that has lost calls, as it has an old copy of the directory, does not overwrite its follower."""
        one, two = self.daemon(), self.daemon(name="two").start()
        client = two.client()
        client.say("FORK 1")
        two.end()
        shutil.copytree(two.kept, one.kept, dirs_exist_ok=True)
        for _ in range(5):
            two.start().client().say("FORK 1")
            two.end()
        self.follow_in_vain(one.start(), two, 6, "the leader has 1 calls, and this has 6")

    def test_another_table_is_not_overwritten(self):
        """The leader has more calls, and another table."""
        one, two = self.daemon().start(), self.daemon(name="two").start()
        for _ in range(9):
            one.client().say("FORK 1")
        two.client().say("FORK 1 NEW")
        listed = two.client().say("LIST")
        two.end()
        self.follow_in_vain(one, two, 1, "the leader has another table, [0-9a-f]{32}, and this has 1 calls of [0-9a-f]{32}")
        self.assertEqual(two.client().say("LIST"), listed)

    def test_a_follower_has_the_leader_s_identity(self):
        one, client, two, other = self.two()
        wait_for(other, 1)
        identity = (one.kept / "identity").read_text(encoding="ascii")
        self.assertEqual((two.kept / "identity").read_text(encoding="ascii"), identity)
        self.assertIn(f"identity:{identity.strip()}\r", other.say("INFO"))
        two.kill()
        client.say("FORK 1")
        wait_for(two.start().client(), 2)

    def test_what_a_follower_says(self):
        """Who follows may only listen: a request behind is no answer among the blocks, and the connection is closed."""
        one = self.daemon().start()
        client, other = one.client(), one.client()
        client.say("FORK 1")
        other.send("FOLLOW")
        self.assertIn("\ntask 2@0 ", other.answer())
        self.assertRegex(other.answer(), "[0-9a-f]{16}")
        other.send("LIST")
        with self.assertRaises((EOFError, ConnectionResetError)):
            other.answer()
        self.assertEqual(client.say("PING"), "PONG")

    def test_a_list_while_a_table_is_taken_anew(self):
        """LIST of a follower is answered, also where its leader comes again before the text is made. The leader is the test."""
        client = self.daemon("--pid-max", "100000", name="source").start().client()
        client.socket.sendall(b"FORK 1\r\n" * 3000)
        [client.answer() for _ in range(3000)]
        texts = [client.say("DUMP")]
        client.say("FORK 1")
        texts.append(client.say("DUMP"))
        served = socket.socket(socket.AF_UNIX)
        served.bind(str(self.folder / "leader"))
        served.listen()
        two = self.daemon("--follow", str(self.folder / "leader"), name="two").start()
        for turn, text in enumerate(texts):
            with served.accept()[0] as leader:
                asked = leader.recv(100)
                other = two.client()
                if turn:
                    other.send("LIST")
                    time.sleep(0.005)
                identity = ["a" * 32] if b"IDENTITY" in asked else []
                leader.sendall(b"".join(f"${len(word)}\r\n{word}\r\n".encode() for word in [*identity, text, "0" * 16]))
                wait_for(other if not turn else two.client(), 3000 + turn)
        other.socket.settimeout(10)
        self.assertEqual(other.answer().count("task "), 3002)

    def test_many_tasks_and_two_followers(self):
        one = self.daemon("--pid-max", "100000").start()
        client = one.client()
        client.socket.sendall(b"FORK 1\r\n" * 20000)
        followers = [self.daemon("--follow", str(one.socket), name=name, kept=name == "two").start().client() for name in ("two", "three")]
        for _ in range(20000):
            client.answer()
        client.say("EXIT 77 1")
        for follower in followers:
            wait_for(follower, 20001)
            self.assertEqual(follower.say("DUMP"), client.say("DUMP"))


class Drawn(Case):
    def test_the_tree_of_a_socket(self):
        one = self.daemon(kept=False).start()
        client = one.client()
        client.say("FORK 1 NEW")
        tree = [TOP / "bindings/python/bin/pidtab-tree"]
        by_list = subprocess.run(tree, input=client.say("LIST"), capture_output=True, text=True, check=True).stdout
        by_socket = subprocess.run([*tree, "--socket", one.socket], capture_output=True, text=True, check=True).stdout
        self.assertEqual(by_socket, by_list)
        words = [*tree, "--socket", one.socket, "--follow", "--every", "0.02", "--json"]
        with subprocess.Popen(words, stdout=subprocess.PIPE, text=True) as follows:
            for tasks in (2, 3, 4):
                self.assertEqual(len(json.loads(follows.stdout.readline())["tasks"]), tasks)
                client.say("FORK 1")
            follows.send_signal(signal.SIGINT)
            self.assertEqual(follows.wait(10), 0)
        none = subprocess.run([*tree, "--socket", self.folder / "none"], capture_output=True, text=True, check=False)
        self.assertEqual((none.returncode, len(none.stderr.splitlines())), (1, 1))


if __name__ == "__main__":
    unittest.main()
