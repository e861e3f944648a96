"""Clients that are slow, vanish, are too many, or send what is no request: nobody else notices."""
import os
import random
import re
import shutil
import socket
import subprocess
import time
import unittest

from harness import Case, Client, DAEMON, LONG, Refused, files_limit, first_of_all, need, request


def all_times(client, count):
    """How long PINGs take, in µs."""
    told = []
    for _ in range(count):
        began = time.perf_counter()
        client.say("PING")
        told.append((time.perf_counter() - began) * 1e6)
    return told


def times(client, count):
    """Half of them, and 99 of 100."""
    told = sorted(all_times(client, count))
    return told[len(told) // 2], told[len(told) * 99 // 100]


class Slow(Case):
    def test_fifty_that_never_read(self):
        one = self.daemon("--stall", "3").start()
        client = one.client()
        client.socket.sendall(b"FORK 1\r\n" * 2000)
        [client.answer() for _ in range(2000)]
        before, memory = times(client, 2000), one.memory()
        slow = [one.client() for _ in range(50)]
        for each in slow:
            each.socket.sendall(b"LIST\r\n" * 100)
        time.sleep(0.5)
        beside = times(client, 2000)
        grown = one.memory() - memory
        self.assertLess(grown, 100_000)
        end = time.monotonic() + 15
        while "connected_clients:1\r" not in client.say("INFO") and time.monotonic() < end:
            time.sleep(0.1)
        self.assertIn("closed_as_stalled:50", client.say("INFO"))
        print("slow clients: p50 {:.0f} p99 {:.0f} us before, p50 {:.0f} p99 {:.0f} us beside; {} kB more".format(*before, *beside, grown))

    def test_three_thousand_that_leave(self):
        one = self.daemon().start()
        client = one.client()
        memory = one.memory()
        dice = random.Random(3)
        for _ in range(3000 * LONG):
            other = one.client()
            other.socket.sendall(request(["FORK", "1"])[:dice.randrange(1, 24)] if dice.random() < 0.8 else b"FORK 1\r\nLIST\r\nWAITCHILD 1 ANY\r\n")
            other.close()
        # One has looked whether it is up, and this one asks; those that have not been accepted yet are not connected either.
        accepted, end = f"accepted:{3000 * LONG + 2}\r", time.monotonic() + 10
        while not ("connected_clients:1\r" in (told := client.say("INFO")) and accepted in told) and time.monotonic() < end:
            time.sleep(0.05)
        self.assertIn("connected_clients:1\r", told)
        self.assertIn(accepted, told)
        self.assertLess(one.memory() - memory, 20_000)

    def test_a_client_that_calls_and_leaves(self):
        """What was sent whole is done, also if the client has gone before it was read."""
        one = self.daemon().start()
        other = one.client()
        other.socket.sendall(b"FORK 1\r\n" * 100)
        other.close()
        client, end = one.client(), time.monotonic() + 5
        while client.say("POSITION") < 100 and time.monotonic() < end:
            time.sleep(0.01)
        self.assertEqual(client.say("POSITION"), 100)

    def test_byte_by_byte(self):
        one = self.daemon(kept=False).start()
        client = one.client()
        data = request(["PING"] + [])[:0] + request(["ECHO", "x" * 500]) * 6
        for place in range(len(data)):
            client.socket.sendall(data[place:place + 1])
        self.assertEqual([client.answer() for _ in range(6)], ["x" * 500] * 6)

    def test_too_many(self):
        one = self.daemon("--max-clients", "20", kept=False).start()
        time.sleep(0.1)
        some = [one.client() for _ in range(20)]
        for each in some:
            self.assertEqual(each.say("PING"), "PONG")
        more = [one.client() for _ in range(10)]
        self.assertEqual([str(each.answer()) for each in more], ["ERR max number of clients reached"] * 10)
        some[0].close()
        time.sleep(0.1)
        self.assertEqual(one.client().say("PING"), "PONG")

    def test_no_descriptors(self):
        one = self.daemon(kept=False)
        one.command = ["prlimit", "--nofile=40:40"]
        need("prlimit")
        one.start()
        some = [one.client() for _ in range(60)]
        told = 0
        for each in some:
            try:
                each.socket.settimeout(2)
                told += each.say("PING") == "PONG"
            except (Refused, OSError, EOFError):
                pass
        self.assertGreater(told, 20)
        before = one.time()
        time.sleep(1)
        self.assertLess(one.time() - before, 0.2)

    def test_others_while_one_dumps(self):
        """100,000 tasks: p99 of the others is at most 5 ms while one client dumps all the time."""
        with first_of_all():
            one = self.daemon("--pid-max", "200000").start()
            client = one.client()
            for _ in range(100):
                client.socket.sendall(b"FORK 1\r\n" * 1000)
                [client.answer() for _ in range(1000)]
            alone, (before, at_first) = times(client, 3000), (client.say("POSITION"), time.monotonic())
            self.again_and_again(one.client(), b"DUMP\r\nEXEC 1\r\n")
            told, dumps = [], 0
            while dumps < 20 and time.monotonic() - at_first < 60:
                told += all_times(client, 100)
                dumps = client.say("POSITION") - before
        told.sort()
        half, most, slow = told[len(told) // 2], told[len(told) * 99 // 100], sum(it > 20_000 for it in told)
        print("beside {} DUMPs of 100,000 tasks: p50 {:.0f} p99 {:.0f} us; alone p50 {:.0f} p99 {:.0f} us".format(dumps, half, most, *alone))
        self.assertLess(most, 5000)
        self.assertLess(slow, dumps / 2)


class Fuzzed(Case):
    def test_inputs(self):
        """100,000 random and mutated inputs in random pieces: each answer is well-formed, another client is served, and memory stays."""
        one = self.daemon(kept=False).start()
        watcher, dice = one.client(), random.Random(7)
        memory = 0
        words = [b"FORK", b"1", b"NEW", b"WAIT", b"ANY", b"PID", b"CALL", b"MULTI", b"EXEC", b"2", b"LIST", b"WAITCHILD", b"TIMEOUT", b"0", b"STAT",
                 b"SUBSCRIBE", b"exit", b"LEASE", b"x", b"COMMAND", b"DOCS", b"\xff\x00", b"18446744073709551616", b"-1", b"PIDTAB.MK", b"HELLO", b"EXIT"]
        texts = ["FORK 1", "FORK 2 NEW", "EXIT 3 1", "EXIT 2 0", "WAIT 1 ANY", "WAITCHILD 1 ANY TIMEOUT 1", "MK 0", "MOVE 4 1", "LIMIT 1 5", "RM 1"]
        texts += ["SETSID 5", "SETPGID 4 0 0", "JOIN 1 2", "CALL getpid 1", "MULTI", "EXEC", "LIST", "DUMP", "STAT 1 2", "LEASE x 1", "SUBSCRIBE exit"]
        lines = [text.split() for text in texts]
        client = one.client()
        for number in range(100_000 * LONG):
            line = dice.choice(lines) if dice.random() < 0.5 else dice.choices(words, k=dice.randrange(1, 6))
            data = bytearray(request(line))
            for _ in range(dice.choice([0, 0, 1, 2])):
                place = dice.randrange(len(data))
                data[place:place + dice.randrange(3)] = dice.randbytes(dice.randrange(3))
            client = self.try_input(one, client, bytes(data), dice)
            if number % 10 == 0:
                self.assertEqual(watcher.say("PING"), "PONG")
            if number == 20_000:
                memory = one.memory()
        self.assertIsNone(one.process.poll())
        print(f"fuzzed: memory {memory} kB after 20,000 inputs, {one.memory()} at the end, {watcher.say('POSITION')} calls")
        self.assertLess(one.memory(), memory + 30_000)

    def try_input(self, one, client, data, dice):
        """Sends it in pieces, and reads what there is; a client that is closed, or was given enough, is followed by another."""
        client.socket.settimeout(0)
        try:
            at = 0
            while at < len(data):
                size = dice.randrange(1, len(data) + 1)
                client.socket.sendall(data[at:at + size])
                at += size
            if dice.random() < 0.2:
                raise EOFError
            while True:
                more = client.socket.recv(1 << 16)
                if not more:
                    raise EOFError
                client.bytes += more
        except BlockingIOError:
            return self.take_answers(client)
        except (EOFError, OSError):
            client.close()
            return one.client()

    def take_answers(self, client):
        """Takes all whole answers; each is one of the protocol."""
        at = 0
        while (end := end_of_answer(client.bytes, at)) is not None:
            at = end
        client.bytes = client.bytes[at:]
        return client


def end_of_answer(data, at):
    """Where the answer that begins there ends; nothing where it is not whole."""
    end = data.find(b"\r\n", at)
    if end < 0:
        return None
    kind, rest = data[at:at + 1], data[at + 1:end]
    assert kind in (b"+", b"-", b":", b"$", b"*"), data[at:at + 60]
    if kind in (b"+", b"-"):
        return end + 2
    number = int(rest)
    if kind == b":" or number < 0:
        return end + 2
    if kind == b"$":
        whole = end + 2 + number + 2
        assert len(data) < whole or data[whole - 2:whole] == b"\r\n", data[at:at + 60]
        return whole if len(data) >= whole else None
    at = end + 2
    for _ in range(number):
        at = end_of_answer(data, at)
        if at is None:
            return None
    return at


class Clients(Case):
    """Clients of Redis of other people, as they are. Those that are not there are skipped."""

    def setUp(self):
        super().setUp()
        self.one = self.daemon().start()

    def script(self, *words, given=None):
        done = subprocess.run(words, input=given, capture_output=True, text=True, check=False, timeout=60)
        self.assertEqual(done.returncode, 0, done.stderr)
        return done.stdout

    def test_redis_py(self):
        python = "/usr/bin/python3"
        if subprocess.run([python, "-c", "import redis"], check=False, capture_output=True).returncode:
            self.skipTest("no redis-py")
        code = """
import redis, sys
it = redis.Redis(unix_socket_path=sys.argv[1])
print(it.execute_command("PIDTAB.FORK", 1, "NEW"), it.execute_command("PIDTAB.GETPID", 2), it.ping())
try:
    it.execute_command("GETPID", 99)
except redis.ResponseError as fault:
    print(fault)
with it.pipeline() as pipe:
    pipe.execute_command("PIDTAB.FORK", 1)
    pipe.execute_command("PIDTAB.GETPPID", 3)
    print(pipe.execute())
print(it.execute_command("PIDTAB.NEXT", 1, "TASK", 9), it.info()["server"])
listener = it.pubsub()
listener.subscribe("exit")
print(listener.get_message(timeout=5)["type"])
it.execute_command("PIDTAB.EXIT", 3, 7)
print(listener.get_message(timeout=5)["data"])
"""
        wanted = "[2, 2] 1 True\nESRCH no-caller\n[[3, 3], 1]\nNone pidtabd\nsubscribe\nb'3 7 space 0 control 0 at 2'\n"
        self.assertEqual(self.script(python, "-c", code, self.one.socket), wanted)

    def test_redis_cli(self):
        need("redis-cli")
        self.assertEqual(self.script("redis-cli", "-s", self.one.socket, given="FORK 1\nEND 2 3\nWAIT 1 ANY\nGETPID 9\n"), "2\n2\nOK\n2\n3\nESRCH no-caller\n\n")

    def test_redis_benchmark(self):
        need("redis-benchmark")
        told = self.script("redis-benchmark", "-s", self.one.socket, "-n", "2000", "-P", "16", "-q", "PIDTAB.FORK", "1")
        self.assertIn("requests per second", told)
        self.assertEqual(self.one.client().say("POSITION"), 2000)

    def test_hiredis(self):
        need("cc")
        if not os.path.exists("/usr/include/hiredis/hiredis.h"):
            self.skipTest("no hiredis")
        code = self.folder / "client.c"
        code.write_text("""#include <hiredis/hiredis.h>
#include <stdio.h>
int main(int count, char **words)
{
	redisContext *it = redisConnectUnix(words[count - 1]);
	redisReply *forked = redisCommand(it, "PIDTAB.FORK %d NEW", 1), *refused = redisCommand(it, "PIDTAB.FORK %d", 9);
	printf("%lld %lld %s\\n", forked->element[0]->integer, forked->element[1]->integer, refused->str);
}
""")
        self.script("cc", "-o", self.folder / "client", code, "-lhiredis")
        self.assertEqual(self.script(self.folder / "client", self.one.socket), "2 2 ESRCH no-caller\n")

    def test_redigo(self):
        need("go")
        source = "/usr/share/gocode/src/github.com/gomodule/redigo"
        if not os.path.isdir(source):
            self.skipTest("no redigo")
        folder = self.folder / "src/example"
        folder.mkdir(parents=True)
        shutil.copytree(source, self.folder / "src/github.com/gomodule/redigo")
        (folder / "main.go").write_text("""package main

import (
	"fmt"
	"github.com/gomodule/redigo/redis"
	"os"
)

func main() {
	it, _ := redis.Dial("unix", os.Args[1])
	fmt.Println(redis.Ints(it.Do("PIDTAB.FORK", 1, "NEW")))
	_, fault := it.Do("PIDTAB.GETPID", 9)
	fmt.Println(fault)
}
""")
        environment = {**os.environ, "GOPATH": str(self.folder), "GO111MODULE": "off", "GOFLAGS": ""}
        done = subprocess.run(["go", "run", "main.go", str(self.one.socket)], cwd=folder, env=environment, capture_output=True, text=True, check=False)
        if "cannot find package" in done.stderr:
            self.skipTest(done.stderr.splitlines()[0])
        self.assertEqual(done.stdout, "[2 2] <nil>\nESRCH no-caller\n", done.stderr)

    def test_ruby(self):
        need("ruby")
        code = 'require "redis"; it = Redis.new(path: ARGV[0]); p it.call("PIDTAB.FORK", 1, "NEW"); begin; it.call("GETPID", 9); rescue => e; puts e.message; end'
        if subprocess.run(["ruby", "-e", 'require "redis"'], check=False, capture_output=True).returncode:
            self.skipTest("no redis for Ruby")
        self.assertEqual(self.script("ruby", "-e", code, self.one.socket), "[2, 2]\nESRCH no-caller\n")

    def test_perl(self):
        need("perl")
        if subprocess.run(["perl", "-MRedis", "-e", "1"], check=False, capture_output=True).returncode:
            self.skipTest("no Redis for Perl")
        code = 'use Redis; my $it = Redis->new(sock => $ARGV[0]); print "@{$it->stat(1, 0)}[4..5]\\n"; print join(",", @{$it->fork(1)}), "\\n"'
        self.assertEqual(self.script("perl", "-e", code, self.one.socket).splitlines()[-1], "2,2")

    def test_php(self):
        need("php")
        if "redis" not in subprocess.run(["php", "-m"], capture_output=True, text=True, check=False).stdout:
            self.skipTest("no redis for PHP")
        code = '$it = new Redis(); $it->connect($argv[1]); echo json_encode($it->rawCommand("PIDTAB.FORK", 1)), "\\n";'
        self.assertEqual(self.script("php", "-r", code, self.one.socket), "[2,2]\n")


class Activated(Case):
    def test_a_socket_that_is_passed(self):
        need("systemd-socket-activate")
        path = self.folder / "passed"
        process = subprocess.Popen(["systemd-socket-activate", "-l", str(path), DAEMON], stderr=subprocess.DEVNULL)
        self.addCleanup(process.kill)
        self.assertEqual(Client(path).say("FORK 1"), [2, 2])

    def test_ready_is_told(self):
        path = str(self.folder / "notify")
        heard = socket.socket(socket.AF_UNIX, socket.SOCK_DGRAM)
        heard.bind(path)
        heard.settimeout(10)
        one = self.daemon(kept=False, variables={"NOTIFY_SOCKET": path}).start()
        self.assertIn(b"READY=1", heard.recv(100))
        one.end()
        self.assertIn(b"STOPPING=1", heard.recv(100))
        heard.close()

    def test_no_socket(self):
        done = subprocess.run([DAEMON], capture_output=True, text=True, check=False)
        self.assertEqual((done.returncode, done.stderr.splitlines()[0]), (1, "pidtabd: no socket: name one by --socket"))
        done = subprocess.run([DAEMON, "--often"], capture_output=True, text=True, check=False)
        self.assertEqual(done.returncode, 2)

    def test_the_units_are_tight(self):
        need("systemd-analyze")
        unit = os.path.join(os.path.dirname(DAEMON), "../../../packaging/pidtabd/pidtabd.service")
        done = subprocess.run(["systemd-analyze", "security", "--offline=true", "--threshold=10", unit], capture_output=True, text=True, check=False)
        found = re.search(r"Overall exposure level for .*: ([0-9.]+)", done.stdout)
        if not found:
            self.skipTest((done.stderr or done.stdout).strip()[:100])
        print(found.group(0))
        self.assertLess(float(found.group(1)), 1)


if __name__ == "__main__":
    unittest.main()
