"""The table of a service by `pidtab.connect` of Python, beside one in this process."""
import copy
import gc
import os
import pathlib
import pickle
import random
import signal
import socket
import sys
import threading
import time
import unittest
from contextlib import suppress

from harness import Case, Client, LONG, TOP
from test_calls import random_line

sys.path.insert(0, str(TOP / "bindings/python"))
import pidtab  # noqa: E402
from pidtab.forms import ALL_FORMS, method_of  # noqa: E402

LIBRARY = TOP / "out/libpidtab.so.1"


class Typed(Case):
    def setUp(self):
        super().setUp()
        if not LIBRARY.exists():
            self.skipTest("no library")
        self.one = self.daemon("--pid-max", "400", "--mode", "666").start()
        self.table = pidtab.connect(f"unix:{self.one.socket}")
        self.addCleanup(self.table.close)
        self.beside = pidtab.Table(400, library=LIBRARY)
        self.addCleanup(self.beside.close)

    def test_random_lines(self):
        """Each answer is that of the table in this process, and the list: good lines, refusals and bad lines."""
        dice = random.Random(7)
        for _ in range(10 * LONG):
            lines = [random_line(dice, number) for number in range(300)] + ["FORK 1", "end 1 0", "fork 1  ", "x" * 600, "fork " + "1 " * 90]
            self.assertEqual(self.table.answers(lines), self.beside.answers(lines))
        self.assertEqual((self.table.list_text(), self.table.pid_max), (self.beside.list_text(), 400))
        self.assertEqual(self.table.list(), self.beside.list())

    def test_each_method(self):
        """With random arguments, of each form of each call: the value is the same, or what is raised, and its word."""
        dice, seen = random.Random(8), set()
        self.assertEqual([self.table.mk() for _ in range(7)], [self.beside.mk() for _ in range(7)])
        for _ in range(4000 * LONG):
            form = dice.choice(list(ALL_FORMS.values()))
            if form.command == "exit" and dice.random() < 0.7:
                form = ALL_FORMS["fork"]
            line = form.line([dice.randrange(8) for _ in form.kinds])
            told = [self.told_by(table, line) for table in (self.table, self.beside)]
            self.assertEqual(told[0], told[1], line)
            seen.add((form.name, isinstance(told[0], tuple) and told[0][:1] == ("raised",)))
        self.assertEqual({name for name, was_raised in seen if not was_raised}, set(ALL_FORMS))

    def told_by(self, table, line):
        try:
            return method_of(line).call(table)
        except (OSError, ValueError) as fault:
            return ("raised", type(fault), str(fault), getattr(fault, "why", None), getattr(fault, "id", None))

    def test_leases_and_position(self):
        self.assertEqual(self.table.fork(1), pidtab.Forked(2, 2))
        with pidtab.connect(str(self.one.socket), timeout=5) as other:
            other.lease("rig", 0)
            self.assertEqual((other.fork(2), other.position()), ((3, 3), 2))
            self.assertEqual((other.release("rig"), other.release("rig")), (True, False))
        self.assertRaises(pidtab.TableClosed, other.position)
        self.assertEqual(self.table.getpid(3), 3)

    def test_a_killed_child(self):
        """The namespace of a child falls, whose parent is outside of it."""
        for table in (self.table, self.beside):
            self.assertEqual((table.fork(1), table.fork(1, new=True), table.join(2, 3), table.fork(2)), ((2, 2), (3, 3), None, (4, 4)))
            self.assertEqual((table.wait(2), table.exit(3), table.wait(2)), (None, None, pidtab.Reaped(4, None)))

    def test_what_is_not_served(self):
        if os.geteuid() != 0:
            self.skipTest("not root")
        with self.assertRaisesRegex(FileNotFoundError, "none"):
            pidtab.connect(f"unix:{self.folder}/none")
        two = self.daemon("--follow", str(self.one.socket), name="two").start()
        with pidtab.connect(str(two.socket)) as other:
            with self.assertRaisesRegex(pidtab.NotServed, "READONLY this follows") as caught:
                other.fork(1)
            self.assertEqual((caught.exception.word, other.getpgid.__name__), ("READONLY", "getpgid"))
            two.kill()
            self.assertRaises(OSError, other.position)
            self.assertRaises(pidtab.TableClosed, other.position)
        Client(self.one.socket).close()


class Misused(Case):
    """What a program may do wrong with a connection, and what may come between."""

    def setUp(self):
        super().setUp()
        self.one = self.daemon("--pid-max", "4000", kept=False).start()
        self.table = pidtab.connect(self.one.socket)
        self.addCleanup(self.table.close)

    def said(self, kind, call, *words, **named):
        with self.assertRaises(kind) as caught:
            call(*words, **named)
        return str(caught.exception)

    def test_an_address_that_is_none(self):
        wanted = "connect takes the path of a socket, as 'unix:/run/pidtab.sock', not "
        for address, kind in ((5, "int"), (None, "NoneType"), (b"/run/x", "bytes"), (["x"], "list")):
            self.assertEqual(self.said(TypeError, pidtab.connect, address), wanted + kind)
        for address, path in (("", "''"), ("unix:", "''"), ("/run/x\0y", "'/run/x\\x00y'")):
            self.assertEqual(self.said(ValueError, pidtab.connect, address), wanted + path)
        self.assertIn("File name too long: '/xxx", self.said(OSError, pidtab.connect, "/" + "x" * 200))
        self.assertIn(f"'{self.folder}/none'", self.said(FileNotFoundError, pidtab.connect, f"unix:{self.folder}/none"))
        self.assertIn("refused", self.said(ConnectionRefusedError, pidtab.connect, self.nobody_listens()))

    def nobody_listens(self):
        """The path of a socket that nobody listens at."""
        path = str(self.folder / "nobody")
        with socket.socket(socket.AF_UNIX) as left:
            left.bind(path)
        return path

    def test_a_timeout_that_is_none(self):
        self.assertEqual(self.said(TypeError, pidtab.connect, self.one.socket, "5"), "timeout is a number of seconds, not str")
        self.assertEqual(self.said(TypeError, pidtab.connect, self.one.socket, timeout=True), "timeout is a number of seconds, not bool")
        for timeout in (0, -1, float("nan"), float("inf")):
            self.assertEqual(self.said(ValueError, pidtab.connect, self.one.socket, timeout), f"timeout is a number of seconds above 0, not {timeout}")

    def test_a_lease_that_is_none(self):
        for name in (5, None, b"rig"):
            kind = type(name).__name__
            self.assertEqual(self.said(TypeError, self.table.lease, name, 5), f"the name of a lease is a str, not {kind}")
            self.assertEqual(self.said(TypeError, self.table.release, name), f"the name of a lease is a str, not {kind}")
        for name in ("", "a b", "r\u00efg", "a\r\nSHUTDOWN", "x" * 65):
            self.assertIn("the name of a lease has 1 to 64 visible characters of ASCII, and not", self.said(ValueError, self.table.lease, name, 5))
        for ttl in ("5", 1.5, None):
            self.assertIn("cannot be interpreted as an integer", self.said(TypeError, self.table.lease, "rig", ttl))
        for ttl in (-1, 86_400_001):
            self.assertEqual(self.said(ValueError, self.table.lease, "rig", ttl), f"ttl is 0 to 86400000, not {ttl}")
        self.table.lease("x" * 64, 86_400_000)
        self.assertEqual(self.one.client().say("LEASES"), [["x" * 64, 86_400_000, 1, []]])

    def test_a_call_that_is_none(self):
        self.assertRaises(TypeError, self.table.fork, "1")
        self.assertRaises(TypeError, self.table.line, 5)
        self.assertRaises(ValueError, self.table.getpid, -1)
        self.assertRaises(ValueError, self.table.line, "fork 1\nfork 1")
        self.assertEqual(self.table.answers(["fork 1 \rSHUTDOWN", "fork 1"]), ("bad line", "child 2 root 2"))
        self.assertEqual(self.table.position(), 1)

    def test_closed_twice_and_used_after(self):
        with self.table as table:
            self.assertIn("open", repr(table))
        table.close()
        table.close()
        self.assertIn("closed", repr(table))
        for use in (lambda: table.fork(1), lambda: table.line("fork 1"), table.list_text, table.position, lambda: table.lease("x", 1)):
            self.assertEqual(self.said(pidtab.TableClosed, use), "the connection was closed")
        self.assertRaises(TypeError, copy.copy, table)
        self.assertRaises(TypeError, pickle.dumps, table)

    def test_one_that_nobody_has_is_closed(self):
        client, other = self.one.client(), pidtab.connect(self.one.socket)
        self.assertEqual(client.say("CLIENT LIST").count("\n"), 3)
        del other
        gc.collect()
        self.wait_for(lambda: client.say("CLIENT LIST").count("\n") == 2)

    def wait_for(self, is_so):
        end = time.monotonic() + 10
        while not is_so():
            self.assertLess(time.monotonic(), end)
            time.sleep(0.01)

    def test_a_forked_child(self):
        """It has no part in the connection of its parent, and may have its own."""
        self.assertEqual(self.in_child(self.asks_in_child), 0)
        self.assertEqual(self.table.fork(1), (2, 2))

    def asks_in_child(self):
        self.assertIn("forked child opens its own", self.said(pidtab.TableClosed, self.table.getpid, 1))
        self.table.close()
        with pidtab.connect(self.one.socket) as own:
            self.assertEqual(own.getpid(1), 1)

    def in_child(self, work):
        """The status of a forked child that does the work; it has ten seconds."""
        child = os.fork()
        if not child:
            try:
                signal.alarm(10)
                work()
                os._exit(0)
            finally:
                os._exit(1)
        return os.waitstatus_to_exitcode(os.waitpid(child, 0)[1])

    def asking(self, *calls):
        """A thread that makes the calls, and the list of what it was told. The daemon is stopped, so it waits."""
        told = []
        os.kill(self.one.process.pid, signal.SIGSTOP)
        self.addCleanup(os.kill, self.one.process.pid, signal.SIGCONT)

        def ask():
            for call in calls:
                try:
                    told.append(call())
                except Exception as fault:
                    told.append(fault)

        thread = threading.Thread(target=ask, daemon=True)
        thread.start()
        time.sleep(0.2)
        self.assertEqual(told, [])
        return thread, told

    def test_a_child_that_is_forked_amid_a_call(self):
        thread, told = self.asking(lambda: self.table.fork(1))
        self.assertEqual(self.in_child(lambda: self.assertRaises(pidtab.TableClosed, self.table.getpid, 1)), 0)
        os.kill(self.one.process.pid, signal.SIGCONT)
        thread.join(10)
        self.assertEqual(told, [(2, 2)])

    def test_closed_amid_a_call_of_another_thread(self):
        thread, told = self.asking(lambda: self.table.fork(1), lambda: self.table.fork(1))
        began = time.monotonic()
        self.table.close()
        thread.join(10)
        self.assertLess(time.monotonic() - began, 5)
        wanted = [pidtab.TableClosed("the connection was closed amid a call, which was made or was not"), pidtab.TableClosed("the connection was closed")]
        self.assertEqual([repr(it) for it in told], [repr(it) for it in wanted])

    def test_threads_that_share_one(self):
        """Each has the answers to its own calls."""
        told = []

        def ask():
            for _ in range(100):
                child = self.table.fork(1)
                told.append((child.root, self.table.getpid(child.root), self.table.answers([f"getpid {child.root}"] * 3)))

        threads = [threading.Thread(target=ask) for _ in range(8)]
        for thread in threads:
            thread.start()
        for thread in threads:
            thread.join()
        self.assertEqual(sorted(told), [(it, it, (str(it),) * 3) for it in range(2, 802)])

    def test_interrupts(self):
        """One amid an answer closes the connection. No answer is that of another request."""
        self.table.answers(["fork 1"] * 300)
        dice, closed = random.Random(3), 0
        before = signal.signal(signal.SIGALRM, self.interrupt)
        self.addCleanup(signal.signal, signal.SIGALRM, before)
        for _ in range(400 * LONG):
            try:
                signal.setitimer(signal.ITIMER_REAL, dice.uniform(0.00005, 0.002))
                while True:
                    numbers = [dice.randrange(2, 300) for _ in range(5)]
                    self.assertEqual([self.table.getpid(numbers[0]), *self.table.answers([f"getpid {it}" for it in numbers])], [numbers[0], *map(str, numbers)])
            except KeyboardInterrupt:
                signal.setitimer(signal.ITIMER_REAL, 0)
            if not self.table._is_open():
                closed += 1
                self.assertRaises(pidtab.TableClosed, self.table.getpid, 1)
                self.table = pidtab.connect(self.one.socket)
        self.assertGreater(closed, 10)
        self.table.close()

    def interrupt(self, *_):
        raise KeyboardInterrupt

    def test_an_interrupt_amid_an_interrupt(self):
        """A second one comes before the first has closed the connection: no answer is misread after that either."""
        self.table.answers(["fork 1"] * 30)
        self.table.close = lambda: self.interrupt()
        before = signal.signal(signal.SIGALRM, self.interrupt)
        self.addCleanup(signal.signal, signal.SIGALRM, before)
        os.kill(self.one.process.pid, signal.SIGSTOP)
        signal.setitimer(signal.ITIMER_REAL, 0.2)
        self.assertRaises(KeyboardInterrupt, self.table.getpid, 7)
        os.kill(self.one.process.pid, signal.SIGCONT)
        del self.table.close
        self.assertRaises(RuntimeError, self.table.getpid, 8)
        self.assertRaises(pidtab.TableClosed, self.table.getpid, 9)

    def test_a_handler_that_asks_amid_a_call(self):
        """It is told so, and the connection is closed; it may close it too."""
        self.assertEqual(self.with_handler(lambda: self.table.getpid(1)), RuntimeError("a handler of a signal asks amid a call of its thread, or such a call was interrupted: the connection is closed").args)
        self.assertRaises(pidtab.TableClosed, self.table.getpid, 1)
        self.table = pidtab.connect(self.one.socket)
        self.assertEqual(self.with_handler(self.table.close), ("the connection was closed amid a call, which was made or was not",))

    def with_handler(self, work):
        """What a call raises whose thread has a signal meanwhile."""
        before = signal.signal(signal.SIGALRM, lambda *_: work())
        self.addCleanup(signal.signal, signal.SIGALRM, before)
        os.kill(self.one.process.pid, signal.SIGSTOP)
        self.addCleanup(os.kill, self.one.process.pid, signal.SIGCONT)
        signal.setitimer(signal.ITIMER_REAL, 0.2)
        with self.assertRaises(RuntimeError) as caught:
            self.table.getpid(1)
        os.kill(self.one.process.pid, signal.SIGCONT)
        return caught.exception.args

    def test_a_peer_that_is_silent(self):
        """A late answer is never that of the next request."""
        with pidtab.connect(self.one.socket, timeout=0.2) as other:
            os.kill(self.one.process.pid, signal.SIGSTOP)
            self.assertRaises(TimeoutError, other.fork, 1)
            os.kill(self.one.process.pid, signal.SIGCONT)
            self.assertRaises(pidtab.TableClosed, other.getpid, 1)
        self.wait_for(lambda: self.table.position() == 1)

    def test_a_peer_that_is_dead(self):
        thread, told = self.asking(lambda: self.table.fork(1), lambda: self.table.fork(1))
        self.one.kill()
        thread.join(10)
        self.assertEqual([type(it) for it in told], [ConnectionResetError, pidtab.TableClosed])
        self.assertRaises(ConnectionRefusedError, pidtab.connect, self.one.socket)
        # The process is gone, and nobody is to be woken.
        self._cleanups = [it for it in self._cleanups if it[0] is not os.kill]

    def test_who_is_turned_away_is_told_why(self):
        one = self.daemon("--max-clients", "1", name="full", kept=False).start()
        self.wait_for(lambda: self.is_first(one.socket))
        for _ in range(50):
            self.assertEqual(self.said(pidtab.NotServed, pidtab.connect, one.socket), "ERR max number of clients reached")

    def test_who_is_closed_is_told_why(self):
        """What the service has said before it closed the connection is what the next request is told."""
        with pidtab.connect(self.peer(b"*2\r\n$7\r\npid-max\r\n$3\r\n400\r\n-ERR closed for a reason\r\n")) as other:
            time.sleep(0.2)
            self.assertEqual(self.said(pidtab.NotServed, other.fork, 1), "ERR closed for a reason")
            self.assertRaises(pidtab.TableClosed, other.fork, 1)

    def is_first(self, path):
        """Whether it is the only connection, which it stays."""
        with suppress(pidtab.NotServed):
            self.addCleanup(pidtab.connect(path).close)
            return True
        return False

    def test_a_peer_that_is_no_service(self):
        """What is no answer is an error of the connection, which is closed, and takes no memory."""
        dice = random.Random(4)
        given = [b"HTTP/1.1 400 Bad Request\r\n", b"*1\r\n" * 1000, b"$-5\r\n", b":x\r\n", b"*99999999999999999999\r\n", b"$9999999999999\r\nx",
                 b"x" * 100_000, b"*2\r\n", b"", b"-", b"+OK", b"*1\r\n:1\r\n", b":5\r\n", b"$1\r\nxy"]
        given += [dice.randbytes(dice.randrange(1, 40)) + b"\r\n" for _ in range(100)]
        for data in given:
            path = self.peer(data)
            with self.assertRaises(OSError, msg=data) as caught:
                with pidtab.connect(path, timeout=5) as other:
                    other.position()
            self.assertIsInstance(caught.exception, (ConnectionError, pidtab.NotServed), data)

    def peer(self, data):
        """The path of a socket where one that connects is sent the data."""
        path = str(self.folder / "peer")
        pathlib.Path(path).unlink(missing_ok=True)
        listener = socket.socket(socket.AF_UNIX)
        listener.bind(path)
        listener.listen()

        def answer():
            with listener, listener.accept()[0] as connection:
                connection.recv(1000)
                connection.sendall(data)

        threading.Thread(target=answer, daemon=True).start()
        return path


if __name__ == "__main__":
    unittest.main()
