"""A daemon in a folder of its own, and a client of RESP2 that shares no code with it."""
import contextlib
import os
import pathlib
import resource
import shutil
import signal
import socket
import subprocess
import tempfile
import threading
import time
import unittest

HERE = pathlib.Path(__file__).resolve().parent
TOP = HERE.parent.parent
DAEMON = os.environ.get("PIDTABD", str(HERE.parent / "target/release/pidtabd"))
PIDTAB = os.environ.get("PIDTAB", str(TOP / "crates/pidtab/out/pidtab"))
BUILT = pathlib.Path(os.environ.get("SERVICE_TOOLS", str(TOP / "out/service")))

# How much longer than usual the tests take: 1 is some minutes.
LONG = int(os.environ.get("LONG", "1"))


class Refused(Exception):
    """An answer that begins with a minus."""


class Client:
    """One connection."""

    def __init__(self, path, wait=10.0):
        self.bytes = b""
        end = time.monotonic() + wait
        while True:
            self.socket = socket.socket(socket.AF_UNIX)
            try:
                self.socket.connect(str(path))
                break
            except OSError:
                self.socket.close()
                if time.monotonic() > end:
                    raise
                time.sleep(0.01)
        self.socket.settimeout(60)

    @classmethod
    def of(cls, user, path):
        """A connection of another user: a child that is his makes it, and hands it over."""
        here, there = socket.socketpair()
        child = os.fork()
        if not child:
            try:
                os.setgroups([])
                os.setresgid(user, user, user)
                os.setresuid(user, user, user)
                made = cls(path, wait=0)
                socket.send_fds(there, [b"x"], [made.socket.fileno()])
            finally:
                os._exit(0)
        there.close()
        _, files, _, _ = socket.recv_fds(here, 1, 1)
        here.close()
        os.waitpid(child, 0)
        client = cls.__new__(cls)
        client.socket, client.bytes = socket.socket(fileno=files[0]), b""
        client.socket.settimeout(60)
        return client

    def close(self):
        self.socket.close()

    def send(self, *words):
        """A request as an array of bulk strings."""
        self.socket.sendall(request(words))

    def line(self):
        while b"\r\n" not in self.bytes:
            self._more()
        line, self.bytes = self.bytes.split(b"\r\n", 1)
        return line.decode()

    def _more(self):
        more = self.socket.recv(1 << 20)
        if not more:
            raise EOFError
        self.bytes += more

    def answer(self):
        """The next answer: a number, a text, a list, nothing for nil, or a Refused."""
        line = self.line()
        kind, rest = line[0], line[1:]
        if kind == "*":
            return None if rest == "-1" else [self.answer() for _ in range(int(rest))]
        if kind == "$":
            return None if rest == "-1" else self._bulk(int(rest))
        if kind == ":":
            return int(rest)
        if kind not in "+-":
            raise AssertionError(f"no answer: {line!r}")
        return Refused(rest) if kind == "-" else rest

    def _bulk(self, size):
        parts, have = [self.bytes], len(self.bytes)
        while have < size + 2:
            parts.append(self.socket.recv(1 << 20))
            have += len(parts[-1])
            if not parts[-1]:
                raise EOFError
        whole = b"".join(parts)
        self.bytes = whole[size + 2:]
        return whole[:size].decode()

    def say(self, words):
        """The answer to one request, of which the words have spaces between; a refusal is raised."""
        self.send(*words.split())
        answer = self.answer()
        if isinstance(answer, Refused):
            raise answer
        return answer


def request(words):
    """The bytes of a request."""
    parts = [word if isinstance(word, bytes) else str(word).encode() for word in words]
    return b"*%d\r\n" % len(parts) + b"".join(b"$%d\r\n%s\r\n" % (len(part), part) for part in parts)


def by_itself(*words):
    """What the program does that serves nobody: its status, its output, and its fault without its name."""
    done = subprocess.run([DAEMON, *map(str, words)], capture_output=True, text=True, check=False, timeout=60)
    return done.returncode, done.stdout, done.stderr.removeprefix("pidtabd: ").rstrip("\n")


class Daemon:
    """A process of the daemon in a folder, which may be killed and started again."""

    def __init__(self, folder, *options, kept=True, variables=None):
        self.folder = pathlib.Path(folder)
        self.socket, self.kept = self.folder / "socket", self.folder / "kept"
        self.options = [*(["--dir", str(self.kept)] if kept else []), *options]
        self.variables = variables or {}
        self.kept.mkdir(mode=0o700, exist_ok=True)
        self.process, self.command = None, []

    def start(self, is_up=True):
        words = [*self.command, DAEMON, "--socket", str(self.socket), *self.options]
        errors = open(self.folder / "errors", "ab")
        self.process = subprocess.Popen(words, stderr=errors, env={**os.environ, **self.variables})
        errors.close()
        if is_up:
            self.client().close()
        return self

    def client(self):
        end = time.monotonic() + 30
        while True:
            try:
                return Client(self.socket, wait=0)
            except OSError:
                if self.process.poll() is not None or time.monotonic() > end:
                    raise AssertionError(f"the daemon does not serve: {self.said()}") from None
                time.sleep(0.01)

    def reload(self):
        """Has it read its rights again: what it says of them."""
        before = self.said()
        self.process.send_signal(signal.SIGHUP)
        end = time.monotonic() + 10
        while "the rights " not in (said := self.said()[len(before):]):
            if time.monotonic() > end:
                raise AssertionError("nothing is said of the rights")
            time.sleep(0.005)
        return said

    def kill(self):
        self.process.send_signal(signal.SIGKILL)
        self.process.wait()

    def end(self):
        """Ends it by SIGTERM: its status."""
        if self.process and self.process.poll() is None:
            self.process.terminate()
        return self.process.wait(timeout=30) if self.process else 0

    def said(self):
        return (self.folder / "errors").read_text(encoding="utf-8", errors="replace")

    def memory(self):
        """Resident memory in kB."""
        status = pathlib.Path(f"/proc/{self.process.pid}/status").read_text(encoding="ascii")
        return int(status.split("VmRSS:")[1].split()[0])

    def time(self):
        """Processor seconds."""
        fields = pathlib.Path(f"/proc/{self.process.pid}/stat").read_text(encoding="ascii").rsplit(")", 1)[1].split()
        return (int(fields[11]) + int(fields[12])) / os.sysconf("SC_CLK_TCK")


def read_all(client):
    """Reads to the end, and keeps nothing."""
    with contextlib.suppress(OSError):
        while client.socket.recv(1 << 20):
            pass


class Case(unittest.TestCase):
    """A test with a folder of its own."""

    def setUp(self):
        self.folder = pathlib.Path(tempfile.mkdtemp(prefix="pidtabd-"))
        os.chmod(self.folder, 0o755)
        self.addCleanup(shutil.rmtree, self.folder, ignore_errors=True)
        self.daemons = []
        self.addCleanup(self.end_all)

    def end_all(self):
        for daemon in self.daemons:
            if daemon.process and daemon.process.poll() is None:
                daemon.kill()

    def daemon(self, *options, name="one", **others):
        """A daemon that is not started yet."""
        folder = self.folder / name
        folder.mkdir(exist_ok=True)
        os.chmod(folder, 0o755)
        self.daemons.append(Daemon(folder, *options, **others))
        return self.daemons[-1]

    def again_and_again(self, client, data, waits=False):
        """A process that sends the same, and reads what comes; if it waits, each time all answers come first."""
        child = os.fork()
        if not child:
            with contextlib.suppress(OSError, EOFError):
                client.socket.settimeout(None)
                if not waits:
                    threading.Thread(target=read_all, args=(client,), daemon=True).start()
                while True:
                    client.socket.sendall(data)
                    [client.answer() for _ in range(data.count(b"\n") * waits)]
            os._exit(0)
        self.addCleanup(os.waitpid, child, 0)
        self.addCleanup(os.kill, child, signal.SIGKILL)

    def with_rights(self, *words, options=(), name="one", **others):
        """A daemon with the cgroup 1, where root may all, and others may what the words say."""
        file = self.folder / f"allowed-{name}"
        file.write_text("0\n", encoding="ascii")
        one = self.daemon("--mode", "666", "--allow-file", str(file), *options, name=name, **others).start()
        self.assertEqual(one.client().say("MK 0"), 1)
        file.write_text("\n".join(["0", *words, ""]), encoding="ascii")
        self.assertIn("the rights are those of the file again", one.reload())
        return one

    def refused(self, client, words, front):
        """The request is refused with an answer that begins so."""
        with self.assertRaises(Refused) as caught:
            client.say(words)
        self.assertTrue(str(caught.exception).startswith(front), f"{words}: {caught.exception}")


@contextlib.contextmanager
def first_of_all():
    """What is begun within goes before all other work of the machine, if it may: so a time has no wait for a processor that others use."""
    before = os.sched_getscheduler(0)
    with contextlib.suppress(PermissionError):
        os.sched_setscheduler(0, os.SCHED_RR, os.sched_param(10))
    try:
        yield
    finally:
        os.sched_setscheduler(0, before, os.sched_param(0))


def need(*commands):
    """Skips what needs a command that is not there."""
    for command in commands:
        if not shutil.which(command):
            raise unittest.SkipTest(f"no {command}")


def files_limit(count):
    """What a child may have open."""
    return lambda: resource.setrlimit(resource.RLIMIT_NOFILE, (count, count))
