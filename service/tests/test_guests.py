"""Users who do their worst: others are served meanwhile, and the daemon stays small. It needs root, to be other users."""
import os
import pathlib
import threading
import time
import unittest

from harness import BUILT, Case, Client, LONG, Refused, first_of_all, need
from test_manners import times

GUEST, OTHER = 65534, 65533

NOT_HIS = "NOPERM this user may call by tasks below his cgroup alone"
LATE = "BUSY the calls of this MULTI take too long"


class Slowest(threading.Thread):
    """The same request, one after another, until it is asked how long the slowest took, in ms."""

    def __init__(self, client, words="PING"):
        super().__init__()
        self.client, self.words, self.worst, self.goes = client, words, 0.0, True
        self.start()

    def run(self):
        while self.goes:
            began = time.monotonic()
            self.client.say(self.words)
            self.worst = max(self.worst, (time.monotonic() - began) * 1000)

    def ms(self):
        self.goes = False
        self.join()
        return self.worst


def forks(client, parent, count):
    """So many children of a task, by pipelines: their root numbers."""
    told = []
    for at in range(0, count, 1000):
        some = min(1000, count - at)
        client.socket.sendall(f"FORK {parent}\r\n".encode() * some)
        told += [client.answer()[1] for _ in range(some)]
    return told


class Guests(Case):
    def setUp(self):
        super().setUp()
        if os.geteuid() != 0 or "4294967295" not in pathlib.Path("/proc/self/uid_map").read_text(encoding="ascii"):
            self.skipTest("not root, or not of all users")

    def serve(self, *options, kept=False, variables=None):
        """A daemon where the guest has the cgroup 1 and the task 2, and another may ask; root's client, and the guest's."""
        one = self.with_rights(f"{GUEST}:below=1", f"{OTHER}:ro", options=options, kept=kept, variables=variables)
        client = one.client()
        for line in ("FORK 1", "MOVE 2 1"):
            client.say(line)
        return one, client, Client.of(GUEST, one.socket)

    def test_connections(self):
        """A guest has half of them, guests together all but a sixteenth, and root comes always."""
        one, _, first = self.serve("--max-clients", "32")
        guests = [first, *[Client.of(GUEST, one.socket) for _ in range(20)], *[Client.of(OTHER, one.socket) for _ in range(20)]]
        time.sleep(0.1)
        told = [self.first_answer(guest) for guest in guests]
        self.assertEqual(told[:21], ["PONG"] * 16 + ["ERR max number of clients of this user reached"] * 5)
        self.assertEqual(told[21:], ["PONG"] * 13 + ["ERR max number of clients reached"] * 7)
        self.assertEqual([one.client().say("PING") for _ in range(1)], ["PONG"])
        for guest in guests[:16]:
            guest.close()
        time.sleep(0.1)
        self.assertEqual(Client.of(GUEST, one.socket).say("PING"), "PONG")

    def first_answer(self, client):
        try:
            return str(client.say("PING"))
        except Refused as why:
            return str(why)
        except OSError:
            return str(client.answer())

    # 99 of 100 PINGs of others may take so many times what they take without him, or so many µs where that is more; and so many kB the daemon may have.
    TIMES, ENOUGH, MEMORY = 10, 1000, 256_000

    def test_six_at_their_worst(self):
        """A user who does his worst, in one of six ways."""
        for way in (self.asks_for_a_group, self.follows, self.asks_for_lists, self.takes_leases, self.connects, self.subscribes):
            with first_of_all(), self.subTest(way.__name__):
                self.compare(way)
            self.end_all()
            self.doCleanups()
            self.setUp()

    def compare(self, way):
        one, client, begin = way()
        alone = min(times(client, 1000 * LONG)[1] for _ in range(3))
        begin()
        time.sleep(0.3)
        beside = min(times(client, 1000 * LONG)[1] for _ in range(3))
        print(f"{way.__name__}: 99 of 100 PINGs in {alone:.0f} us without him, in {beside:.0f} us beside him; {one.memory()} kB")
        self.assertLess(beside, max(self.TIMES * alone, self.ENOUGH))
        self.assertLess(one.memory(), self.MEMORY)

    def asks_for_a_group(self):
        one, client, guest = self.serve()
        forks(guest, 2, 30000)
        return one, client, lambda: self.again_and_again(guest, b"WAITCHILD 2 GROUP 7\r\n" * 1000)

    def follows(self):
        """40 that never read, while others write."""
        one, client, _ = self.serve()
        self.again_and_again(one.client(), b"EXEC 1\r\n" * 50, waits=True)
        guests = [Client.of(OTHER, one.socket) for _ in range(40)]
        return one, client, lambda: [guest.send("FOLLOW") for guest in guests]

    def asks_for_lists(self):
        one, client, _ = self.serve("--pid-max", "200000")
        forks(client, 1, 50000)
        self.again_and_again(one.client(), b"EXEC 1\r\n", waits=True)
        return one, client, lambda: [self.again_and_again(Client.of(OTHER, one.socket), b"LIST\r\n" * 10) for _ in range(20)]

    def takes_leases(self):
        one, client, guest = self.serve(kept=True)
        return one, client, lambda: self.again_and_again(guest, b"".join(b"LEASE x%d 86400000\r\n" % number for number in range(2000)))

    def connects(self):
        one, client, _ = self.serve()
        return one, client, lambda: [Client.of(OTHER, one.socket) for _ in range(600)]

    def subscribes(self):
        """100 that never read, while others fork, exit and wait."""
        one, client, _ = self.serve()
        self.again_and_again(one.client(), b"EXIT 3 0\r\nWAIT 1 ANY\r\nFORK 1\r\n" * 10, waits=True)
        guests = [Client.of(OTHER, one.socket) for _ in range(100)]
        return one, client, lambda: [guest.send("SUBSCRIBE", "exit", "fork", "fall", "exit:space:0", "fork:space:0", "exit:control:0") for guest in guests]

    def test_waits_for_a_group(self):
        """Among 20,000 children none is of that group, which is not looked for in each."""
        one, _, guest = self.serve()
        forks(guest, 2, 20000)
        slowest = Slowest(one.client())
        guest.socket.sendall(b"WAITCHILD 2 GROUP 7\r\n" * 300)
        self.assertEqual({str(guest.answer()) for _ in range(300)}, {"ECHILD no-child"})
        self.assertLess(slowest.ms(), 400)

    def with_a_large_init(self):
        """A guest's init, an exit of which looks at 20,000 tasks: the last of them is not the guest's."""
        one, client, guest = self.serve("--pid-max", "100000")
        init = guest.say("FORK 2 NEW")[1]
        self.assertEqual(client.say(f"MOVE {forks(guest, init, 20000)[-1]} 0"), "OK")
        return one, guest, init

    def test_requests_that_take_long(self):
        """The guest's time in a turn is over after one such exit, and others come between: so calls of theirs are made between two exits."""
        with first_of_all():
            one, guest, init = self.with_a_large_init()
            slowest, began = Slowest(one.client(), "EXEC 1"), time.monotonic()
            guest.socket.sendall(f"EXIT {init} 0\r\nPOSITION\r\n".encode() * 200)
            told = [guest.answer() for _ in range(400)]
            took, worst = (time.monotonic() - began) * 1000, slowest.ms()
        turns = len(set(told[1::2]))
        print(f"200 exits that look at 20,000 tasks took {took:.0f} ms in {turns} turns, and the slowest call beside {worst:.1f} ms")
        self.assertEqual({str(it) for it in told[::2]}, {NOT_HIS})
        self.assertGreater(turns, 100)
        self.assertGreater(took, 300)
        self.assertLess(worst, max(took / 10, 100))

    def test_a_multi_that_takes_long(self):
        """Its calls come together, so its exits end after a while: those that are left are not made, and others are served."""
        with first_of_all():
            one, guest, init = self.with_a_large_init()
            slowest = Slowest(one.client())
            guest.socket.sendall(b"MULTI\r\n" + f"EXIT {init} 0\r\nEXEC 2\r\n".encode() * 500 + b"EXEC\r\n")
            self.assertEqual([guest.answer() for _ in range(1001)], ["OK"] + ["QUEUED"] * 1000)
            told, worst = [str(it) for it in guest.answer()], slowest.ms()
        self.assertEqual((set(told[1::2]), told[-2]), ({"OK"}, LATE))
        self.assertEqual(told[0], NOT_HIS)
        print(f"the slowest PING beside a MULTI of 500 such exits {worst:.1f} ms")
        self.assertLess(worst, 500)

    def test_a_clock_that_leaps(self):
        """The daemon loses its processor for long between any two looks at the clock: no exit is late by that outside of a MULTI."""
        need(BUILT / "leap.so")
        _, _, guest = self.serve(variables={"LD_PRELOAD": str(BUILT / "leap.so")})
        guest.socket.sendall(b"EXIT 99999 0\r\nCALL EXIT 99999 0\r\nTOLD EXIT 99999 0\r\n" * 10)
        self.assertEqual([str(guest.answer()) for _ in range(30)], [NOT_HIS] * 30)
        guest.socket.sendall(b"MULTI\r\nEXIT 99999 0\r\nCALL EXIT 99999 0\r\nEXEC 2\r\nEXEC\r\nEXIT 99999 0\r\n")
        self.assertEqual([guest.answer() for _ in range(4)], ["OK"] + ["QUEUED"] * 3)
        self.assertEqual([str(it) for it in guest.answer()], [LATE, LATE, "OK"])
        self.assertEqual(str(guest.answer()), NOT_HIS)

    def test_who_is_cut_and_says_no_more(self):
        """A guest that has closed its half is answered all that it has sent."""
        _, _, guest = self.serve()
        guest.socket.sendall(b"EXIT 99999 0\r\n" * 5000)
        guest.socket.shutdown(1)
        self.assertEqual({str(guest.answer()) for _ in range(5000)}, {NOT_HIS})
        self.assertRaises(EOFError, guest.answer)

    def test_followers_that_never_read(self):
        """40 of them, while others write 14 MB for each: memory is bounded, and those that read go on."""
        one, client, _ = self.serve()
        guests = [Client.of(OTHER, one.socket) for _ in range(40)]
        for guest in guests:
            guest.send("FOLLOW")
        reads = Client.of(OTHER, one.socket)
        most = 0
        for _ in range(100):
            client.socket.sendall(b"EXEC 1\r\n" * 3000)
            [client.answer() for _ in range(3000)]
            self.assertEqual(reads.say("PING"), "PONG")
            most = max(most, one.memory())
        self.assertLess(most, 150_000)
        self.assertRegex(client.say("INFO clients"), "closed_with_too_much_output:[1-9]")
        print(f"40 followers that never read: at most {most} kB")

    def test_channels(self):
        one, _, first = self.serve()
        second = Client.of(GUEST, one.socket)
        first.send("SUBSCRIBE", *[f"exit:space:{number}" for number in range(40)])
        second.send("SUBSCRIBE", *[f"exit:space:{number}" for number in range(40)])
        self.assertEqual([first.answer()[2] for _ in range(40)], list(range(1, 41)))
        told = [second.answer() for _ in range(40)]
        self.assertEqual(([row[2] for row in told[:24]], {str(row) for row in told[24:]}), (list(range(1, 25)), {"ERR too many channels"}))
        first.close()
        time.sleep(0.1)
        self.assertEqual(second.say("SUBSCRIBE exit:space:99"), ["subscribe", "exit:space:99", 25])

    def test_leases(self):
        _, client, guest = self.serve(kept=True)
        guest.socket.sendall(b"".join(f"LEASE x{number} 86400000\r\n".encode() for number in range(1002)))
        told = [guest.answer() for _ in range(1002)]
        self.assertEqual((told[:1000], [str(it) for it in told[1000:]]), (["OK"] * 1000, ["OOM too-many-leases"] * 2))
        self.assertEqual((guest.say("LEASE x5 1000"), guest.say("RELEASE x7"), guest.say("LEASE y 1"), client.say("LEASE z 1")), ("OK", 1, "OK", "OK"))
        self.assertIn("leases:1001\r", client.say("INFO"))

    def test_lists(self):
        """30 guests want the list of 60,000 tasks at 30 states: they have a few texts together, and root's DUMP does not wait for 30."""
        with first_of_all():
            one, client, _ = self.serve("--pid-max", "100000")
            forks(client, 1, 60000)
            began = time.monotonic()
            client.say("LIST")
            alone = time.monotonic() - began
            guests = [Client.of(OTHER, one.socket) for _ in range(30)]
            for guest in guests:
                guest.send("LIST")
                client.say("EXEC 1")
            began = time.monotonic()
            self.assertIn("\ntask 60000@", client.say("DUMP"))
            took = time.monotonic() - began
        print(f"LIST alone {alone:.2f} s, DUMP behind 30 of them {took:.2f} s")
        self.assertLess(took, 6 * alone + 0.2)
        self.assertTrue(all(guest.answer().count("task ") > 60000 for guest in guests))


if __name__ == "__main__":
    unittest.main()
