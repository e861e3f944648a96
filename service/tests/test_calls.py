"""What each command answers: by docs/SCRIPT.md, by Redis's own words, and by what the service promises besides."""
import errno
import os
import pathlib
import random
import re
import signal
import subprocess
import sys
import textwrap
import threading
import time
import unittest

from harness import Case, Client, DAEMON, LONG, PIDTAB, Refused, TOP, need


def shown(line, answer):
    """An answer as `pidtab run` writes it."""
    verb = line.split(" ")[0]
    if isinstance(answer, Refused):
        return "bad line" if str(answer).startswith("ERR syntax") else str(answer)
    if verb == "fork":
        return "child {} root {}".format(*answer)
    if verb == "wait":
        return "none" if answer is None else "reaped {} {}".format(answer[0], "killed" if answer[1] == "killed" else f"exit {answer[1]}")
    if verb == "mk":
        return f"control {answer}"
    if answer is None:
        return "end"
    return " ".join(map(str, answer)) if isinstance(answer, list) else str(answer).lower()


def random_line(dice, number):
    """A line of any of the calls, good or bad. `exit` is rarer, so that there are tasks."""
    caller = dice.randrange(max(3, min(400, number // 10))) if dice.random() < 0.7 else 1
    process, group = dice.randrange(12), dice.randrange(-1, 8)
    control = dice.choice([0, 0, dice.randrange(60), dice.randrange(max(1, number))])
    limit = dice.choice([0, 5, 30, 4194304, 4194305])
    lines = [f"fork {caller}"] * 5 + [f"fork {caller} new", f"fork {dice.randrange(6)} new", f"exec {caller}"]
    lines += [f"wait {caller} any", f"wait {caller} pid {process}", f"wait {caller} own", f"wait {caller} group {process}"]
    lines += [f"setpgid {caller} {process} {group}", f"setsid {caller}", f"getpid {caller}", f"getppid {caller}"]
    lines += [f"{verb} {caller} {process}" for verb in ("getpgid", "getsid", "nspid", "join")]
    lines += [f"next {caller} {kind} {process}" for kind in ("task", "group", "session")]
    lines += [f"subreaper {caller} on", f"subreaper {caller} off", f"mk {control}", "mk 0", f"rm {control}"]
    lines += [f"limit {control} {limit}", f"limit {control} max", f"move {caller} {control}", f"count {control}"]
    lines += [f"fork 0{caller}", f"wait {caller} pid", f"next {caller} tasks 1", f"setpgid {caller} {process} -0", f"limit {control} 4294967296"]
    if number % 3 == 0:
        lines += [f"exit {caller} {dice.randrange(256)}", f"exit {caller} 256"]
    return dice.choice(lines)


class Conformance(Case):
    def test_random_lines(self):
        """20,000 lines three times, by CALL and by the proved program: each answer the same, and the list."""
        need(PIDTAB)
        for seed in range(1, 3 * LONG + 1):
            dice = random.Random(seed)
            lines = [random_line(dice, number) for number in range(20000)]
            script = "\n".join(lines) + "\n"
            wanted = subprocess.run([PIDTAB, "run"], input=script, capture_output=True, text=True, check=True).stdout.splitlines()
            listed = subprocess.run([PIDTAB, "list"], input=script, capture_output=True, text=True, check=True).stdout
            client = self.daemon(name=f"seed{seed}", kept=seed % 2 == 0).start().client()
            for at in range(0, len(lines), 50):
                some = lines[at:at + 50]
                client.socket.sendall("".join(f"CALL {line}\r\n" for line in some).encode())
                told = [shown(line, client.answer()) for line in some]
                self.assertEqual(told, wanted[at:at + 50])
            self.assertEqual(client.say("LIST"), listed)
            self.assertEqual(client.say("POSITION"), sum(line != "bad line" for line in wanted))


class Commands(Case):
    def setUp(self):
        super().setUp()
        self.client = self.daemon(kept=False).start().client()

    def test_the_table_of_the_manual_page(self):
        """HELP is the table of the manual page, and `--commands` writes it."""
        lines = self.client.say("HELP")
        written = subprocess.run([DAEMON, "--commands"], capture_output=True, text=True, check=True).stdout
        self.assertEqual(written.splitlines(), lines)
        manual = (TOP / "man/pidtabd.8").read_text(encoding="utf-8")
        self.assertGreater(len(lines), 40)
        for line in lines:
            syntax, summary = line.split(" - ", 1)
            self.assertIn(f".It Li \"{syntax}\"\n{textwrap.fill(summary, 78)}\n", manual)

    def test_arity(self):
        """Each command, with or without its prefix, refuses one word too few and one too many, and COMMAND tells how many it has."""
        told = {row[0]: row[1] for row in self.client.say("COMMAND")}
        self.assertEqual(len(told), self.client.say("COMMAND COUNT"))
        for line in self.client.say("HELP"):
            words = line.split(" - ")[0].split()
            name, count = words[0], told[words[0]]
            for prefix in ("", "PIDTAB."):
                if abs(count) > 1 and not (name == "EXEC" and not prefix):
                    self.refused(self.client, " ".join([prefix + name] + ["1"] * (abs(count) - 2)), "ERR syntax: " + name)
                if count > 0 or name in ("FORK", "WAIT"):
                    self.refused(self.client, " ".join([prefix + name] + ["1"] * (max(count, 4) + (count < 0))), "ERR syntax: " + name)

    def test_answers(self):
        say = self.client.say
        self.assertEqual(say("FORK 1 NEW"), [2, 2])
        self.assertEqual(say("PIDTAB.FORK 2"), [2, 3])
        self.assertEqual((say("GETPID 2"), say("GETPPID 3"), say("getpgid 3 0")), (1, 1, 0))
        self.assertEqual((say("NSPID 1 3"), say("NEXT 1 TASK 3"), say("NEXT 1 TASK 4")), ([3, 2], 3, None))
        self.assertEqual((say("MK 0"), say("MOVE 3 3"), say("COUNT 3"), say("LIMIT 3 1")), (3, "OK", 1, "OK"))
        self.refused(self.client, "FORK 3", "EAGAIN pids-limit 3")
        self.refused(self.client, "GETPID 99", "ESRCH no-caller")
        self.refused(self.client, "EXIT 1 0", "EBUSY root-init")
        self.assertEqual((say("END 3 7"), say("WAIT 2 PID 2"), say("EXEC 2"), say("EXIT 2 0")), ("OK", [2, 7], "OK", "OK"))
        self.assertEqual((say("WAIT 1 ANY"), say("POSITION")), ([2, 0], 12))
        self.refused(self.client, "WAIT 1 ANY", "ECHILD no-child")

    def test_stat(self):
        self.client.say("FORK 1 NEW")
        told = self.client.say("STAT 1 2")
        wanted = {"numbers": [2, 1], "state": "live", "root": 2, "parent": 1, "group": 1, "session": 1, "space": 1, "control": 0, "executed": 0, "subreaper": 0}
        self.assertEqual(dict(zip(told[::2], told[1::2])), wanted)
        self.refused(self.client, "STAT 1 9", "ESRCH no-task")

    def test_multi(self):
        say = self.client.say
        self.refused(self.client, "EXEC", "ERR EXEC without MULTI")
        self.assertEqual([say("MULTI"), say("FORK 1"), say("GETPID 2"), say("CALL getpid 9")], ["OK"] + ["QUEUED"] * 3)
        self.client.send("EXEC")
        forked, pid, refused = self.client.answer()
        self.assertEqual((forked, pid, str(refused)), ([2, 2], 2, "ESRCH no-caller"))
        say("MULTI")
        self.refused(self.client, "FORK", "ERR syntax")
        self.refused(self.client, "EXEC", "EXECABORT")
        self.assertEqual([say("MULTI"), say("FORK 1"), say("DISCARD"), say("POSITION")], ["OK", "QUEUED", "OK", 2])
        say("MULTI")
        self.refused(self.client, "LIST", "ERR only calls")
        self.refused(self.client, "MULTI", "ERR MULTI calls can not be nested")
        self.assertEqual(say("DISCARD"), "OK")
        self.refused(self.client, "PIDTAB.EXEC", "ERR syntax: EXEC C")

    def test_what_is_no_command(self):
        self.refused(self.client, "NOTHING", "ERR unknown command 'NOTHING'")
        self.refused(self.client, "AUTH x", "ERR AUTH")
        self.refused(self.client, "HELLO 3", "NOPROTO")
        self.refused(self.client, "HELLO 2 AUTH user password", "ERR AUTH called without any password")
        self.refused(self.client, "HELLO 2 SETNAME", "ERR syntax: HELLO")
        self.assertEqual((self.client.say("HELLO 2")[0], self.client.say("HELLO 2 SETNAME x")[0]), ("server", "server"))
        self.assertEqual(self.client.say("PING x"), "x")
        self.client.socket.sendall(b"*1\r\n$x\r\n")
        self.assertTrue(str(self.client.answer()).startswith("ERR Protocol error"))
        self.assertRaises(EOFError, self.client.answer)

    def test_as_clients_of_redis_ask(self):
        """Sections of INFO, some commands of COMMAND, a save that may wait, and quotes in a line."""
        told = self.client.say("INFO clients TABLE")
        self.assertEqual(re.findall("^# (.*)\r$", told, re.MULTILINE), ["Clients", "Table"])
        self.assertEqual(self.client.say("INFO everything"), re.sub("asked:.*", "asked:0\r", self.client.say("INFO")))
        self.assertEqual([row and row[0] for row in self.client.say("COMMAND INFO fork NOTHING ping")], ["FORK", None, "PING"])
        self.refused(self.client, "BGSAVE NOW", "ERR syntax: BGSAVE [SCHEDULE]")
        self.client.socket.sendall(b"ECHO \"a b\"\r\nECHO \"a\r\n")
        self.assertEqual((self.client.answer(), str(self.client.answer())), ("a b", "ERR Protocol error: unbalanced quotes in request"))
        client = self.daemon(name="two").start().client()
        client.say("FORK 1")
        self.assertRegex(client.say("BGSAVE SCHEDULE"), "^Background saving (started|scheduled)$")

    def test_seats(self):
        self.assertEqual([self.client.say("SEAT 5"), self.client.say("SEAT")], [5, 5])
        self.refused(self.client, "SEAT 16", "ERR syntax")

    def test_list_of_many(self):
        """LIST and DUMP of more tasks than are copied in the loop, and of none that changed since."""
        self.client.socket.sendall(b"FORK 1\r\n" * 5000)
        self.assertEqual([self.client.answer() for _ in range(5000)][-1], [5001, 5001])
        self.client.socket.sendall(b"LIST\r\nFORK 1\r\nDUMP\r\nPOSITION\r\n")
        listed, forked, dumped, position = [self.client.answer() for _ in range(4)]
        self.assertEqual((listed.count("task "), forked, dumped.count("\ntask "), position), (5001, [5002, 5002], 5002, 5001))
        script = "fork 1\n" * 5000
        if os.access(PIDTAB, os.X_OK):
            self.assertEqual(listed, subprocess.run([PIDTAB, "list"], input=script, capture_output=True, text=True, check=True).stdout)


class Asked(Case):
    """Pages, namespaces, what a call would answer, and what it did: by the words of pidtab.h, and by the functions of C."""

    def setUp(self):
        super().setUp()
        self.one = self.daemon("--fsync", "always").start()
        self.client = self.one.client()
        # 3 is 1 of the namespace 2, and its child 4 is 2 there. 2 leads a session, of which is its child 5, a zombie. 4 is in the cgroup 7.
        for line in ("FORK 1", "FORK 1 NEW", "FORK 3", "SETSID 2", "FORK 2", "EXIT 5 0", "MK 0", "MOVE 4 7"):
            self.client.say(line)

    def each(self, wanted):
        self.assertEqual({line: self.client.say(line) for line in wanted}, wanted)

    def test_pages(self):
        self.each({"PAGE 1 CHILDREN 0 0": [2, [2, 3]], "PAGE 1 CHILDREN 1 3": [1, [3]], "PAGE 1 CHILDREN 0 0 1": [2, [2]],
                   "PAGE 1 CHILDREN 0 0 0": [2, []], "PAGE 3 CHILDREN 0 0": [1, [2]], "PAGE 1 CHILDREN 9 0": [0, []],
                   "page 1 session 2 0": [2, [2, 5]], "PAGE 2 GROUP 0 3": [1, [5]], "PAGE 1 NAMESPACE 3 0": [2, [3, 4]],
                   "PAGE 1 NAMESPACE 0 0": [5, [1, 2, 3, 4, 5]], "PAGE 1 OWN 0 0": [3, [1, 2, 5]], "PAGE 1 CONTROL 7 0": [1, [4]],
                   "PIDTAB.PAGE 1 CONTROL 0 0": [3, [1, 2, 3]], "PAGE 3 CONTROL 7 0": [1, [2]], "POSITION": 8})
        self.refused(self.client, "PAGE 9 CHILDREN 0 0", "ESRCH no-caller")
        self.refused(self.client, "PAGE 1 CONTROL 9 0", "ENOENT no-control")
        for words in ("CHILDREN 0", "PARENTS 0 0", "CHILDREN 4294967296 0", "CHILDREN 0 4294967296", "CHILDREN 0 0 1001", "CHILDREN 0 0 x", "CONTROL 7"):
            self.refused(self.client, f"PAGE 1 {words}", "ERR syntax: PAGE C CHILDREN P|GROUP P|")
        self.client.socket.sendall(b"FORK 1\r\n" * 1100)
        self.assertEqual([self.client.answer() for _ in range(1100)][-1], [1105, 1105])
        self.assertEqual(self.client.say("PAGE 1 CHILDREN 0 4"), [1100, list(range(6, 1006))])

    def test_namespaces(self):
        root, other = ["id", 0, "parent", None, "level", 0, "init", 1, "fallen", 0], ["id", 2, "parent", 0, "level", 1, "init", 3, "fallen", 0]
        self.each({"SPACE 0": root, "SPACE 2": other, "SPACE 7": None, "INSIDE SPACES 0 0": [1, [2]], "INSIDE SPACES 0 3": [0, []],
                   "INSIDE SPACES 2 0": [0, []], "INSIDE SPACES 7 0": None, "INSIDE CONTROLS 0 0": [1, [7]], "inside controls 0 7 0": [1, []],
                   "INSIDE CONTROLS 2 0": None, "POSITION": 8})
        self.client.say("EXIT 3 0")
        self.each({"SPACE 2": [*other[:-1], 1], "WAIT 1 PID 3": [3, 0], "SPACE 2 ": None, "INSIDE SPACES 0 0": [0, []]})
        for line in ("SPACE x", "SPACE 18446744073709551616", "INSIDE TASKS 0 0", "INSIDE SPACES 0", "INSIDE SPACES 0 0 1001"):
            self.refused(self.client, line, "ERR syntax: " + line.split(" ", maxsplit=1)[0])

    def test_what_a_call_would_answer(self):
        self.each({"WOULD fork 1": [6, 6], "WOULD FORK 3 NEW": [3, 6], "WOULD wait 2 any": [5, 0], "WOULD mk 7": 9, "WOULD getpid 4": 2, "POSITION": 8})
        self.refused(self.client, "WOULD fork 9", "ESRCH no-caller")
        self.refused(self.client, "WOULD list", "ERR syntax: WOULD VERB ..")
        self.refused(self.client, "WOULD fork", "ERR syntax: FORK C [NEW]")
        self.assertEqual([self.client.say("CALL wait 2 any"), self.client.say("WOULD mk 0")], [[5, 0], 10])

    def test_a_fork_with_given_numbers(self):
        for words, why in (("1 7 7", "child 6 root 6"), ("1 6 7", "child 6 root 6"), ("3 6 6", "child 3 root 6"), ("9 6 6", "ESRCH no-caller")):
            self.refused(self.client, f"FORKAT {words}", f"DIFFERS {why}")
        self.each({"POSITION": 8, "FORKAT 1 6 6": [6, 6], "FORKAT 3 3 7 NEW": [3, 7], "SPACE 10": ["id", 10, "parent", 2, "level", 2, "init", 7, "fallen", 0]})
        for words in ("1 8", "1 8 x", "1 8 8 OLD", "1 8 8 NEW NEW"):
            self.refused(self.client, f"FORKAT {words}", "ERR syntax: FORKAT C N R [NEW]")

    def test_what_a_call_did(self):
        self.each({"TOLD exit 2 7": ["OK", [["ended", 2, 7], ["adopted", 5, 1]]], "TOLD wait 1 pid 5": [[5, 0], [["gone", 5]]],
                   "TOLD wait 1 pid 2": [[2, 7], [["gone", 2], ["group-gone", 2], ["session-gone", 2]]],
                   "TOLD exit 3 9": ["OK", [["ended", 3, 9], ["ended", 4, "killed"], ["gone", 4], ["space-fell", 2]]],
                   "TOLD wait 1 pid 3": [[3, 9], [["gone", 3], ["space-gone", 2]]], "TOLD getpid 1": [1, []], "TOLD fork 1": [[6, 6], []], "POSITION": 15})
        refusal, effects = self.client.say("TOLD fork 99")
        self.assertEqual((str(refusal), effects, self.client.say("POSITION")), ("ESRCH no-caller", [], 16))
        self.refused(self.client, "TOLD list", "ERR syntax: TOLD VERB ..")

    def test_they_are_saved_and_leased(self):
        """What is made by these is in the log as by FORK, and bound to the lease of its connection."""
        self.each({"LEASE rig 60000": "OK", "FORKAT 1 6 6": [6, 6], "TOLD fork 1": [[7, 7], []], "LEASES": [["rig", 60000, 1, [6, 7]]]})
        self.client.say("TOLD exit 3 9")
        self.client.say("TOLD exit 99 0")
        listed = self.client.say("LIST")
        self.one.kill()
        again = self.one.start().client()
        self.assertEqual((again.say("LIST"), again.say("POSITION"), again.say("LEASES")), (listed, 12, [["rig", 60000, 0, [6, 7]]]))

    def test_not_in_a_multi(self):
        for line in ("WOULD fork 1", "TOLD fork 1", "FORKAT 1 6 6", "PAGE 1 CHILDREN 0 0"):
            self.client.say("MULTI")
            self.refused(self.client, line, "ERR only calls")
            self.client.say("DISCARD")

    def test_by_the_functions_of_c(self):
        """Behind each of 600 random calls, on a table of the library for C too, some pages, a namespace, what is inside."""
        if not (TOP / "out/libpidtab.so").exists():
            self.skipTest("no library")
        sys.path.insert(0, str(TOP / "bindings/python"))
        import pidtab
        dice, client = random.Random(7), self.daemon(name="two", kept=False).start().client()
        with pidtab.Table() as table:
            whose = {"CHILDREN": table.ask.children, "GROUP": table.ask.group_members, "SESSION": table.ask.session_members,
                     "NAMESPACE": table.ask.namespace_members, "OWN": table.ask.namespace_own, "CONTROL": table.ask.control_tasks}
            trees = {"SPACES": table.ask.spaces_inside, "CONTROLS": table.ask.controls_inside}
            for number in range(600):
                line = random_line(dice, number)
                self.assertEqual(shown(line, self.answer(client, f"TOLD {line}", 0)), table.answers([line])[0])
                caller, of, first, at = dice.randrange(1, 12), dice.randrange(10), dice.randrange(6), dice.randrange(number + 1)
                for name, page in whose.items():
                    told = self.answer(client, f"PAGE {caller} {name} {of} {first} 4", None)
                    self.assertEqual(told, read(lambda: page(caller, of, first), lambda it: [len(it), list(it[:4])]), f"{number}: {caller} {name} {of} {first}")
                for name, page in trees.items():
                    self.assertEqual(self.answer(client, f"INSIDE {name} {at} {first}", None), read(lambda: page(at, first), lambda it: [len(it), list(it)]))
                self.assertEqual(self.answer(client, f"SPACE {at}", None), read(lambda: table.ask.space(at), fields_of))

    def answer(self, client, line, place):
        """The answer, or what is at that place of it; of a refusal its words."""
        client.send(*line.split())
        told = client.answer()
        if isinstance(told, Refused):
            return told if place is not None else str(told)
        return told if place is None else told[place]


def fields_of(space):
    """A namespace of Python, as the service tells it."""
    return ["id", space.id, "parent", space.parent, "level", space.level, "init", space.init, "fallen", int(space.fallen)]


def read(ask, form):
    """What a function of the package for Python reads; of a refusal its words, and nothing where there is no such id."""
    try:
        return form(ask())
    except LookupError:
        return None
    except OSError as error:
        return f"{errno.errorcode[error.errno]} {str(error).rsplit(' ', 1)[1]}"


class Looked(Case):
    """What an operator asks: by Redis's own words, and by what the test has done."""

    def setUp(self):
        super().setUp()
        self.one = self.daemon("--slowlog-log-slower-than", "0", "--fsync", "always", "--pid-max", "400").start()
        self.client, self.other = self.one.client(), self.one.client()

    def listed(self, client, words=""):
        """The connections that CLIENT LIST tells, each by the names of its fields."""
        lines = client.say(f"CLIENT LIST{words}").splitlines()
        return [dict(field.split("=", 1) for field in line.split(" ")) for line in lines]

    def test_clients(self):
        say, own, its = self.client.say, self.client.say("CLIENT ID"), self.other.say("CLIENT ID")
        self.assertEqual((say("CLIENT GETNAME"), say("CLIENT SETNAME me"), say("CLIENT GETNAME"), say("CLIENT SETINFO LIB-NAME x")), (None, "OK", "me", "OK"))
        self.other.say("HELLO 2 SETNAME it")
        self.other.say("SUBSCRIBE exit")
        me, it = self.listed(self.client)
        # By the fields of Redis 7.0's CLIENT LIST, which its clients read.
        wanted = {"id", "addr", "laddr", "fd", "name", "age", "idle", "flags", "db", "sub", "psub", "ssub", "multi", "qbuf", "qbuf-free", "obl", "oll", "omem"}
        self.assertEqual(set(me), wanted | {"events", "cmd", "user", "redir", "resp"})
        told = [(row["id"], row["name"], row["flags"], row["sub"], row["cmd"], row["user"], row["addr"]) for row in (me, it)]
        place, user = f"{self.one.socket}:0", str(os.geteuid())
        self.assertEqual(told, [(str(own), "me", "U", "0", "client", user, place), (str(its), "it", "PU", "1", "subscribe", user, place)])
        self.assertEqual([row["id"] for row in self.listed(self.client, " TYPE pubsub")], [str(its)])
        self.assertEqual([row["id"] for row in self.listed(self.client, f" ID {own} 999")], [str(own)])
        self.assertEqual((self.listed(self.client, " TYPE replica"), say("CLIENT INFO").split(" ")[0]), ([], f"id={own}"))
        self.client.send("CLIENT", "SETNAME", "a\nid=7")
        self.assertTrue(str(self.client.answer()).startswith("ERR Client names cannot contain spaces"))
        self.client.send("HELLO", "2", "SETNAME", "a b")
        self.assertTrue(str(self.client.answer()).startswith("ERR Client names cannot contain spaces"))
        for words in ("LIST ID", "LIST ID x", "LIST TYPE friends", "LIST SKIPME no", "KILL", "KILL x:0", "KILL SKIPME maybe", "NOTHING", "ID 3", "SETNAME"):
            self.refused(self.client, f"CLIENT {words}", "ERR syntax: CLIENT")

    def test_kill(self):
        """Who is killed is gone, with his wait and his lease; who kills stays, until he says otherwise."""
        third = self.one.client()
        self.client.say("FORK 1")
        self.assertEqual((third.say("LEASE rig 100"), third.say("FORK 1")), ("OK", [3, 3]))
        third.send(*"WAITCHILD 1 ANY".split())
        its, own = self.other.say("CLIENT ID"), self.client.say("CLIENT ID")
        self.assertEqual((self.client.say(f"CLIENT KILL ID {its}"), self.client.say(f"CLIENT KILL ID {its}")), (1, 0))
        self.assertRaises((EOFError, ConnectionError), self.other.say, "PING")
        self.assertEqual((self.client.say("CLIENT KILL TYPE pubsub"), self.client.say(f"CLIENT KILL ID {own}"), self.client.say("CLIENT KILL USER 77")), (0, 0, 0))
        self.assertEqual(self.client.say(f"CLIENT KILL TYPE normal USER {os.geteuid()}"), 1)
        self.assertRaises((EOFError, ConnectionError), third.answer)
        self.assertEqual(self.client.say("WAITCHILD 1 ANY TIMEOUT 5000"), [3, 137])
        self.assertEqual(self.client.say(f"CLIENT KILL ID {own} SKIPME no"), 1)
        self.assertRaises((EOFError, ConnectionError), self.client.say, "PING")
        self.assertEqual(self.one.client().say("PING"), "PONG")

    def test_slowlog(self):
        """All is slow that takes 0 us; by default what takes 10 ms, so nothing of this."""
        self.client.say("CLIENT SETNAME me")
        self.client.say("SLOWLOG RESET")
        before = int(time.time())
        self.client.send("ECHO", "x" * 200)
        self.client.answer()
        self.refused(self.client, "AUTH secret", "ERR AUTH")
        self.client.send("COMMAND", "INFO", *["PING"] * 40)
        self.client.answer()
        entries = self.client.say("SLOWLOG GET 3")
        words = [["COMMAND", "INFO"] + ["PING"] * 29 + ["... (11 more arguments)"], ["AUTH", "(redacted)"], ["ECHO", "x" * 128 + "... (72 more bytes)"]]
        self.assertEqual([it[3] for it in entries], words)
        for number, at, took, _, place, name in entries:
            self.assertTrue(before <= at <= time.time() and took < 10**6, entries)
            self.assertEqual((place, name), (f"{self.one.socket}:0", "me"))
        self.assertEqual([it[0] for it in entries], [entries[2][0] + 2, entries[2][0] + 1, entries[2][0]])
        self.assertEqual(self.client.say("SLOWLOG LEN"), 5)
        for _ in range(140):
            self.client.say("PING")
        self.assertEqual((self.client.say("SLOWLOG LEN"), len(self.client.say("SLOWLOG GET")), len(self.client.say("SLOWLOG GET -1"))), (128, 10, 128))
        self.assertEqual((self.client.say("SLOWLOG RESET"), self.client.say("SLOWLOG LEN")), ("OK", 1))
        usual = self.daemon(name="two", kept=False).start().client()
        usual.say("PING")
        self.assertEqual((usual.say("SLOWLOG LEN"), usual.say("SLOWLOG GET")), (0, []))
        for words in ("GET x", "LEN 1", "RESET 1", "NOTHING"):
            self.refused(self.client, f"SLOWLOG {words}", "ERR syntax: SLOWLOG")

    def test_what_takes_long_is_slow(self):
        """The exit of an init with 25,000 tasks, which is one call."""
        client = self.daemon("--slowlog-log-slower-than", "2000", name="two", kept=False).start().client()
        client.say("FORK 1 NEW")
        client.socket.sendall(b"FORK 2\r\n" * 25000)
        self.assertEqual([client.answer() for _ in range(25000)][-1], [25001, 25002])
        client.say("SLOWLOG RESET")
        began = time.monotonic()
        self.assertEqual(client.say("EXIT 2 0"), "OK")
        most = (time.monotonic() - began) * 10**6
        entry = client.say("SLOWLOG GET")[0]
        self.assertEqual(entry[3], ["EXIT", "2", "0"])
        self.assertTrue(2000 <= entry[2] <= most, (entry, most))

    def test_settings(self):
        def read(words):
            told = self.client.say(f"CONFIG GET {words}")
            return dict(zip(told[::2], told[1::2]))

        self.assertEqual(read("maxclients"), {"maxclients": "1000"})
        self.assertEqual(read("append* DIR"), {"appendfsync": "always", "appendonly": "yes", "dir": str(self.one.kept)})
        self.assertEqual(read("slowlog-???-* save nothing"), {"slowlog-log-slower-than": "0", "slowlog-max-len": "128", "save": ""})
        self.assertEqual(read("unixsocket* pid-max pid-max"), {"unixsocket": str(self.one.socket), "unixsocketperm": "600", "pid-max": "400"})
        self.assertGreater(len(read("*")), 15)
        for words in ("SET maxclients 3", "GET", "RESETSTAT"):
            self.refused(self.client, f"CONFIG {words}", "ERR syntax: CONFIG")

    def test_metrics(self):
        """By the text format of Prometheus, version 0.0.4, and by what the test has done."""
        for line in ("FORK 1", "FORK 99", "MK 0", "GETPID 1", "LEASE rig 1000"):
            self.client.send(*line.split())
            self.client.answer()
        told = subprocess.run([DAEMON, "--metrics", str(self.one.socket)], capture_output=True, text=True, check=True).stdout
        self.assertEqual(self.client.say("METRICS").count("\n"), told.count("\n"))
        kinds, values = {}, {}
        for line in told.splitlines():
            if line.startswith("# TYPE "):
                _, _, name, kind = line.split(" ")
                self.assertNotIn(name, kinds)
                kinds[name] = kind
            elif not line.startswith("# HELP "):
                name, labels, value = re.fullmatch(r'([a-z_:]+)(\{(?:[a-z_]+="[^"\\]*",?)*\})? ([0-9]+)', line).groups()
                self.assertIn(name, kinds)
                self.assertNotIn(name, values)
                values[name] = int(value)
                self.assertEqual(name.endswith("_total"), kinds[name] == "counter", name)
                self.assertEqual(bool(labels), name == "pidtabd_info")
        self.assertEqual(set(kinds), set(values))
        wanted = {"position": 3, "waiting_calls": 0, "tasks": 2, "controls": 1, "calls_total": 3, "refusals_total": 1, "queries_total": 1, "clients": 3,
                  "clients_accepted_total": 4, "clients_max": 1000, "leases": 1, "followers": 0, "follower_lag_bytes": 0, "stuck": 0, "pid_max": 400, "faults_total": 0,
                  "snapshot_position": 0, "info": 1, "leader_link": 0}
        self.assertEqual({name: values[f"pidtabd_{name}"] for name in wanted}, wanted)
        self.assertTrue(1 <= values["pidtabd_commits_total"] <= 4 and values["pidtabd_log_bytes"] > 0 and values["pidtabd_slow_requests_total"] == 5, values)
        self.one.end()
        done = subprocess.run([DAEMON, "--metrics", str(self.one.socket)], capture_output=True, text=True, check=False)
        self.assertEqual((done.returncode, done.stdout), (1, ""))
        self.assertRegex(done.stderr, f"^pidtabd: {self.one.socket}: No such file")


class Waits(Case):
    def setUp(self):
        super().setUp()
        self.one = self.daemon().start()
        self.client, self.other = self.one.client(), self.one.client()

    def test_sleeps_until_a_child_ends(self):
        self.client.say("FORK 1")
        position = self.client.say("POSITION")
        self.other.send(*"WAITCHILD 1 ANY".split())
        time.sleep(0.1)
        self.assertEqual(self.client.say("POSITION"), position)
        self.client.say("EXIT 2 9")
        self.assertEqual(self.other.answer(), [2, 9])
        self.assertEqual(self.client.say("POSITION"), position + 2)

    def test_at_once_or_refused(self):
        self.refused(self.other, "WAITCHILD 1 ANY", "ECHILD no-child")
        self.refused(self.other, "WAITCHILD 7 ANY", "ESRCH no-caller")
        self.client.say("FORK 1")
        self.client.say("END 2 0")
        self.assertEqual(self.other.say("WAITCHILD 1 PID 2"), [2, 0])

    def test_a_timeout_makes_no_call(self):
        self.client.say("FORK 1")
        began = time.monotonic()
        self.assertIsNone(self.other.say("WAITCHILD 1 ANY TIMEOUT 150"))
        self.assertGreater(time.monotonic() - began, 0.14)
        self.assertEqual(self.client.say("POSITION"), 1)

    def test_a_client_that_goes_away_makes_no_call(self):
        self.client.say("FORK 1")
        self.other.send(*"WAITCHILD 1 ANY".split())
        time.sleep(0.1)
        self.other.close()
        time.sleep(0.1)
        self.client.say("EXIT 2 0")
        self.assertEqual(self.client.say("POSITION"), 2)
        self.assertEqual(self.client.say("WAIT 1 ANY"), [2, 0])

    def test_two_wait_for_one(self):
        """Each child goes to one of them, the longest sleeper first; the last is told that there is none."""
        self.client.say("FORK 1")
        third = self.one.client()
        self.other.send(*"WAITCHILD 1 ANY".split())
        time.sleep(0.1)
        third.send(*"WAITCHILD 1 ANY".split())
        time.sleep(0.1)
        self.client.say("EXIT 2 4")
        self.assertEqual(self.other.answer(), [2, 4])
        self.assertEqual(str(third.answer()), "ECHILD no-child")

    def test_whose_caller_ends(self):
        self.client.say("FORK 1")
        self.client.say("FORK 2")
        self.other.send(*"WAITCHILD 2 ANY".split())
        time.sleep(0.1)
        self.client.say("EXIT 2 0")
        self.assertEqual(str(self.other.answer()), "ESRCH no-caller")

    def test_an_orphan_comes(self):
        """The child of a child comes to the init, as a zombie."""
        self.client.say("FORK 1")
        self.client.say("FORK 2")
        self.other.send(*"WAITCHILD 1 PID 3".split())
        self.assertEqual(str(self.other.answer()), "ECHILD no-child")
        self.client.say("FORK 1")
        self.client.say("EXIT 3 5")
        self.other.send(*"WAITCHILD 1 ANY".split())
        time.sleep(0.1)
        self.client.say("EXIT 2 0")
        self.assertEqual(sorted([self.other.answer(), self.other.say("WAITCHILD 1 ANY")]), [[2, 0], [3, 5]])

    def test_groups(self):
        self.client.say("FORK 1")
        self.client.say("FORK 1")
        self.client.say("SETPGID 2 0 0")
        self.other.send(*"WAITCHILD 1 GROUP 2".split())
        time.sleep(0.05)
        self.client.say("EXIT 3 1")
        time.sleep(0.05)
        self.client.say("EXIT 2 2")
        self.assertEqual(self.other.answer(), [2, 2])

    def test_what_comes_behind(self):
        """A pipeline waits behind a wait that sleeps."""
        self.client.say("FORK 1")
        self.other.socket.sendall(b"WAITCHILD 1 ANY\r\nPING\r\n")
        time.sleep(0.1)
        self.client.say("EXIT 2 0")
        self.assertEqual([self.other.answer(), self.other.answer()], [[2, 0], "PONG"])

    def test_not_in_a_multi(self):
        self.client.say("MULTI")
        self.refused(self.client, "WAITCHILD 1 ANY", "ERR only calls")

    def test_a_hundred_sleepers(self):
        children = [self.client.say("FORK 1")[1] for _ in range(100)]
        told = []

        def wait():
            client = self.one.client()
            told.append(client.say("WAITCHILD 1 ANY")[0])
            client.close()

        threads = [threading.Thread(target=wait) for _ in children]
        for thread in threads:
            thread.start()
        time.sleep(0.3)
        for child in children:
            self.client.say(f"EXIT {child} 0")
        for thread in threads:
            thread.join()
        self.assertEqual(sorted(told), sorted(children))


class Events(Case):
    def setUp(self):
        super().setUp()
        self.one = self.daemon(kept=False).start()
        self.client, self.other = self.one.client(), self.one.client()

    def test_messages(self):
        control = self.client.say("MK 0")
        self.client.say("FORK 1")
        self.client.say(f"MOVE 2 {control}")
        names = ["fork", "exit", "fall", f"exit:control:{control}", "exit:space:999"]
        self.other.send("SUBSCRIBE", *names)
        self.assertEqual([self.other.answer() for _ in names], [["subscribe", name, place + 1] for place, name in enumerate(names)])
        for line in ("FORK 2 NEW", "FORK 3", "EXIT 3 9"):
            self.client.say(line)
        tail = f"space 4 control {control}"
        wanted = [["fork", f"2 3 {tail} at 3"], ["fork", f"3 4 {tail} at 4"], ["exit", f"4 killed {tail} at 5"]]
        wanted += [[f"exit:control:{control}", f"4 killed {tail} at 5"], ["exit", f"3 9 {tail} at 5"], [f"exit:control:{control}", f"3 9 {tail} at 5"]]
        wanted += [["fall", "4 at 5"]]
        self.assertEqual([self.other.answer() for _ in wanted], [["message", *it] for it in wanted])
        self.assertEqual(self.other.say("PING"), ["pong", ""])
        self.refused(self.other, "FORK 1", "ERR only (P)SUBSCRIBE")
        self.other.send("UNSUBSCRIBE")
        self.assertEqual([self.other.answer()[0] for _ in names], ["unsubscribe"] * len(names))
        self.assertEqual(self.other.say("FORK 1"), [5, 5])

    def test_what_is_no_channel(self):
        self.refused(self.other, "SUBSCRIBE nothing", "ERR a channel is")
        self.refused(self.other, "SUBSCRIBE exit nothing FROM 0", "ERR a channel is")
        self.refused(self.other, "SUBSCRIBE exit FROM x", "ERR FROM takes the ordinal of a call")
        self.refused(self.other, "SUBSCRIBE exit FROM 1", "ERR there are 0 calls")
        self.client.say("FORK 1")
        self.refused(self.other, "SUBSCRIBE exit FROM 0", "ERR events are kept from call 1 on")
        self.assertEqual((self.other.say("SUBSCRIBE exit FROM 1"), self.other.say("PING")), (["subscribe", "exit", 1], ["pong", ""]))
        self.refused(self.other, "SUBSCRIBE exit fork FROM 1", "ERR the connection has such a channel already")

    def messages(self, client, count):
        return [client.answer()[1:] for _ in range(count)]

    def kept_from(self, client):
        """The call from which on events are kept, once no snapshot is in work, nor will be by itself."""
        quiet = 0
        while quiet < 10:
            told = client.say("INFO")
            quiet = quiet + 1 if "compacting:0" in told else 0
            time.sleep(0.03)
        return int(re.search("snapshot:([0-9]+)", told)[1])

    def test_from_an_ordinal(self):
        """Who subscribes from a call on is told the same messages that one has had who was there, over snapshots, starts and a log that goes on."""
        dice, names = random.Random(3), ("exit", "fork", "fall", "exit:space:5", "fork:control:1")
        one = self.daemon("--segment", "40000", name="two").start()
        client, listener = one.client(), one.client()
        listener.send("SUBSCRIBE", *names)
        self.messages(listener, len(names))
        client.say("LEASE rig 60000")
        lines = ["MK 0", "FORK 1 NEW", "MOVE 2 1", "FORK 1 NEW", "FORK 3 NEW", "MOVE 3 1"]
        for number in range(1500):
            task = dice.randrange(2, 12 + number // 5)
            lines += [dice.choice([f"FORK {task}", f"FORK {task} NEW", "FORK 1", f"EXIT {task} {number % 256}", "WAIT 1 ANY", f"WAIT {task} ANY"])]
        for some in (lines[:900], lines[900:]):
            client.socket.sendall("".join(f"{line}\r\n" for line in some).encode())
            for _ in some:
                client.answer()
            self.kept_from(client)
        listener.send("PING", "end")
        heard = []
        while (message := listener.answer()) != ["pong", "end"]:
            heard.append(message[1:])
        ordinals = [int(payload.rsplit(" ", 1)[1]) for _, payload in heard]
        self.assertTrue(len(heard) > 500 and ordinals == sorted(ordinals) and 3 < ordinals[0] + 3 < ordinals[-1] <= len(lines))
        for turn in range(3):
            kept = self.kept_from(client)
            self.assertTrue(0 < kept < ordinals[-1], kept)
            for start in (kept, kept + 1, (kept + len(lines)) // 2, ordinals[-1], len(lines)):
                other = one.client()
                other.send("SUBSCRIBE", *names, "FROM", str(start))
                self.assertEqual(self.messages(other, len(names)), [[name, place + 1] for place, name in enumerate(names)])
                wanted = [message for message, ordinal in zip(heard, ordinals) if ordinal >= start]
                self.assertEqual(self.messages(other, len(wanted)), wanted, f"from {start}")
                self.assertEqual(other.say("PING x"), ["pong", "x"])
                other.close()
            if turn == 0:
                one.kill()
                client = one.start().client()
            if turn == 1:
                self.assertEqual((client.say("LEASE late 9"), client.say("RELEASE late")), ("OK", 1))
        client.say("BGSAVE")
        while f"snapshot:{len(lines)}\r" not in client.say("INFO"):
            time.sleep(0.02)
        self.refused(one.client(), f"SUBSCRIBE exit FROM {len(lines) - 1}", f"ERR events are kept from call {len(lines)} on")
        self.assertEqual(one.client().say(f"SUBSCRIBE exit FROM {len(lines)}"), ["subscribe", "exit", 1])

    def test_what_comes_meanwhile(self):
        """While another client forks, each fork is told once, and in order, whatever was before and whatever comes by itself."""
        one = self.daemon("--pid-max", "100000", name="two").start()
        client, others, ends = one.client(), [], threading.Event()

        def fork():
            while not ends.is_set():
                client.socket.sendall(b"FORK 1\r\n" * 40)
                [client.answer() for _ in range(40)]

        thread = threading.Thread(target=fork)
        thread.start()
        for _ in range(8):
            others.append(one.client())
            others[-1].send("SUBSCRIBE", "fork", "FROM", "0")
            time.sleep(0.03)
        ends.set()
        thread.join()
        made = one.client().say("POSITION")
        for other in others:
            self.assertEqual(other.answer(), ["subscribe", "fork", 1])
            self.assertEqual([int(other.answer()[2].rsplit(" ", 1)[1]) for _ in range(made)], list(range(made)))

    def test_what_comes_in_the_same_turn(self):
        """Calls before and behind the SUBSCRIBE, all of which the daemon finds at once: each is told once."""
        one = self.daemon(name="two").start()
        before, other, behind = [one.client() for _ in range(3)]
        for client in (before, other, behind):
            self.assertEqual(client.say("PING"), "PONG")
        one.client().say("SUBSCRIBE exit")
        one.process.send_signal(signal.SIGSTOP)
        before.socket.sendall(b"FORK 1\r\n" * 5)
        other.send("SUBSCRIBE", "fork", "FROM", "2")
        behind.socket.sendall(b"FORK 1\r\n" * 5)
        one.process.send_signal(signal.SIGCONT)
        self.assertEqual(other.answer(), ["subscribe", "fork", 1])
        self.assertEqual([int(other.answer()[2].rsplit(" ", 1)[1]) for _ in range(8)], list(range(2, 10)))
        self.assertEqual(other.say("PING"), ["pong", ""])

    def test_one_that_never_reads(self):
        """A subscriber that does not read is closed, and nobody else is held up."""
        self.one.end()
        one = self.daemon("--stall", "1", name="two", kept=False).start()
        client, other = one.client(), one.client()
        other.say("SUBSCRIBE fork")
        for _ in range(400):
            client.socket.sendall(b"FORK 1\r\nEXIT 2 0\r\nWAIT 1 ANY\r\n" * 30)
            for _ in range(90):
                client.answer()
        end = time.monotonic() + 15
        while "closed_as_stalled:1" not in client.say("INFO") and time.monotonic() < end:
            time.sleep(0.1)
        self.assertIn("closed_as_stalled:1", client.say("INFO"))


class Leases(Case):
    def test_tasks_end_when_the_client_is_gone(self):
        one = self.daemon().start()
        client, other = one.client(), one.client()
        client.say("LEASE rig 300")
        self.assertEqual(client.say("FORK 1"), [2, 2])
        self.assertEqual(client.say("FORK 2"), [3, 3])
        other.say("FORK 1")
        self.assertEqual(other.say("LEASES"), [["rig", 300, 1, [2, 3]]])
        client.close()
        time.sleep(0.15)
        self.assertEqual(other.say("LEASES"), [["rig", 300, 0, [2, 3]]])
        self.assertEqual(other.say("WAITCHILD 1 ANY TIMEOUT 5000"), [2, 137])
        self.assertEqual(other.say("WAITCHILD 1 ANY TIMEOUT 5000"), [3, 137])
        self.assertEqual((other.say("LEASES"), other.say("GETPID 4")), ([], 4))

    def test_another_client_keeps_it(self):
        one = self.daemon().start()
        client, other = one.client(), one.client()
        client.say("LEASE rig 200")
        client.say("FORK 1")
        other.say("LEASE rig 200")
        client.close()
        time.sleep(0.5)
        self.assertEqual(other.say("GETPID 2"), 2)
        self.assertEqual(other.say("RELEASE rig"), 1)
        other.close()
        time.sleep(0.4)
        self.assertEqual(one.client().say("GETPID 2"), 2)

    def test_a_number_that_is_another_task_s(self):
        """What was waited for is bound no more, so another task with its number stays."""
        one = self.daemon("--pid-max", "301").start()
        client, other = one.client(), one.client()
        # Of 301 numbers, 300 alone is given again (docs/MODEL.md): so the leased task is to have it.
        for number in range(2, 300):
            other.say("FORK 1")
        client.say("LEASE rig 100")
        self.assertEqual(client.say("FORK 1"), [300, 300])
        other.say("EXIT 300 0")
        other.say("WAIT 1 ANY")
        self.assertEqual(other.say("LEASES"), [["rig", 100, 1, []]])
        self.assertEqual(other.say("FORK 1"), [300, 300])
        client.close()
        time.sleep(0.4)
        self.assertEqual((other.say("LEASES"), other.say("GETPID 300")), ([], 300))

    def test_what_a_lease_ends_is_reaped(self):
        """With --reap its tasks leave no zombies to task 1, which would fill the table; with another parent they stay his."""
        one = self.daemon("--pid-max", "400", "--reap").start()
        other = one.client()
        self.assertEqual(other.say("FORK 1"), [2, 2])
        for number in range(440):
            client = one.client()
            client.socket.sendall(b"LEASE rig%d 0\r\nFORK 1\r\nFORK 1 NEW\r\n" % number)
            self.assertEqual(client.answer(), "OK")
            child = client.answer()
            self.assertIsInstance(child, list, f"{child} in round {number}")
            client.answer()
            client.close()
            if number % 40 == 39:
                self.wait_for_none(other)
        client = one.client()
        for line in ("LEASE rig 0", "FORK 2"):
            client.say(line)
        client.close()
        self.wait_for_none(other)
        self.assertEqual(other.say("LIST").count(" exit 137"), 1)
        self.assertEqual(other.say("WAIT 2 ANY")[1], 137)

    def wait_for_none(self, client):
        """All leases are over."""
        end = time.monotonic() + 5
        while client.say("LEASES"):
            self.assertLess(time.monotonic(), end)
            time.sleep(0.02)
        time.sleep(0.1)

    def test_released_by_another_who_takes_it_again(self):
        """A connection that held a lease of that name, which was released, does not end the one that has the name now."""
        one = self.daemon().start()
        first, second, third = [one.client() for _ in range(3)]
        first.say("LEASE rig 100")
        second.say("LEASE rig 100")
        self.assertEqual(first.say("RELEASE rig"), 1)
        third.say("LEASE rig 100")
        self.assertEqual(third.say("FORK 1"), [2, 2])
        self.assertEqual(second.say("RELEASE rig"), 0)
        second.close()
        time.sleep(0.5)
        self.assertEqual((third.say("LEASES"), third.say("GETPID 2")), ([["rig", 100, 1, [2]]], 2))

    def test_released_under_a_holder(self):
        """Who holds a lease that was released is told so before he forks what nothing would end."""
        one = self.daemon().start()
        client, other = one.client(), one.client()
        client.say("LEASE rig 100")
        other.say("LEASE rig 100")
        client.say("RELEASE rig")
        self.refused(other, "FORK 1", "NOLEASE")
        self.refused(other, "CALL fork 1", "NOLEASE")
        self.assertEqual((other.say("POSITION"), other.say("GETPID 1"), other.say("MK 0")), (0, 1, 1))
        self.assertEqual((other.say("LEASE rig 100"), other.say("FORK 1"), other.say("LEASES")), ("OK", [2, 2], [["rig", 100, 1, [2]]]))
        self.assertEqual((client.say("FORK 1"), other.say("RELEASE rig"), other.say("FORK 1")), ([3, 3], 1, [4, 4]))

    def test_they_outlive_the_daemon(self):
        one = self.daemon("--fsync", "always").start()
        client = one.client()
        client.say("LEASE rig 400")
        client.say("FORK 1")
        one.kill()
        other = one.start().client()
        self.assertEqual(other.say("LEASES"), [["rig", 400, 0, [2]]])
        self.assertEqual(other.say("WAITCHILD 1 ANY TIMEOUT 5000"), [2, 137])


class Users(Case):
    """An enemy who is another user: what he may not do, he does not do. It needs root, to be another user."""

    ENEMY = 65534

    def setUp(self):
        super().setUp()
        if os.geteuid() != 0 or "4294967295" not in pathlib.Path("/proc/self/uid_map").read_text(encoding="ascii"):
            self.skipTest("not root, or not of all users")

    def as_enemy(self, one, lines):
        """The answers to the lines, by a process of the other user."""
        code = ("import socket, sys; it = socket.socket(socket.AF_UNIX); it.connect(sys.argv[1]); given = sys.stdin.buffer.read();"
                "given and it.sendall(given);"
                "sys.stdout.buffer.write(b''.join(iter(lambda: it.recv(65536), b'')))")
        given = "".join(f"{line}\r\n" for line in [*lines, *["QUIT"] * bool(lines)]).encode()
        done = subprocess.run(["python3", "-c", code, str(one.socket)], input=given, capture_output=True, user=self.ENEMY, group=self.ENEMY, check=True)
        return done.stdout.decode().removesuffix("+OK\r\n" if lines else "")

    def test_below_a_cgroup(self):
        one = self.with_rights(f"{self.ENEMY}:below=1")
        client = one.client()
        for line in ("FORK 1", "FORK 1", "MOVE 2 1", "MK 1", "MK 0", "FORK 1 NEW"):
            client.say(line)
        # 1 is his, 5 below it, 6 beside it; task 2 is his, 3 and 4 are not.
        listed = client.say("LIST")
        forbidden = ["FORK 1", "FORK 3", "EXIT 3 0", "EXIT 4 0", "EXEC 3", "WAIT 1 ANY", "WAITCHILD 1 ANY", "SETSID 3", "SUBREAPER 3 ON"]
        forbidden += ["SETPGID 2 3 2", "SETPGID 3 0 0", "JOIN 2 4", "JOIN 3 2", "MOVE 3 1", "MOVE 2 0", "MOVE 2 6", "MK 0", "MK 6", "RM 1", "RM 6"]
        forbidden += ["LIMIT 1 MAX", "LIMIT 6 3", "LIMIT 0 3", "CALL fork 1", "CALL getpid 1", "CALL count 0", "FORK 99", "PIDTAB.EXIT 3 0", "TOLD exit 3 0", "FORKAT 3 5 5"]
        forbidden += ["BGSAVE", "SHUTDOWN", "FOLLOW", "TAKEOVER"]
        told = self.as_enemy(one, forbidden)
        self.assertEqual(re.findall("^-NOPERM", told, re.MULTILINE), ["-NOPERM"] * len(forbidden), told)
        self.assertEqual(client.say("LIST"), listed)
        queued = self.as_enemy(one, ["MULTI", "EXIT 3 0", "FORK 2", "EXEC"])
        self.assertEqual(queued, "+OK\r\n+QUEUED\r\n+QUEUED\r\n*2\r\n-NOPERM this user may call by tasks below his cgroup alone\r\n*2\r\n:5\r\n:5\r\n")
        told = self.as_enemy(one, ["GETPID 3", "MK 1", "LIMIT 5 7", "MOVE 5 5", "EXEC 5", "EXIT 5 3", "WAIT 2 ANY", "RM 5"])
        self.assertEqual(told, ":3\r\n:9\r\n+OK\r\n+OK\r\n+OK\r\n+OK\r\n*2\r\n:5\r\n:3\r\n+OK\r\n")

    def test_an_init_takes_nobody_else_with_it(self):
        one = self.with_rights(f"{self.ENEMY}:below=1")
        client = one.client()
        for line in ("FORK 1", "MOVE 2 1"):
            client.say(line)
        self.as_enemy(one, ["FORK 2 NEW", "FORK 3"])
        self.assertEqual(client.say("MOVE 4 0"), "OK")
        self.assertIn("-NOPERM", self.as_enemy(one, ["EXIT 3 0"]))
        self.assertEqual(client.say("GETPID 4"), 2)
        client.say("EXIT 4 0")
        client.say("WAIT 3 ANY")
        self.assertEqual(self.as_enemy(one, ["EXIT 3 0"]), "+OK\r\n")

    def test_a_child_that_has_gone_outside(self):
        """Who is below a cgroup does not reap one that ended outside."""
        one = self.with_rights(f"{self.ENEMY}:below=1")
        client = one.client()
        for line in ("FORK 1", "MOVE 2 1", "FORK 2", "FORK 2", "MOVE 3 0", "EXIT 3 5", "EXIT 4 6"):
            client.say(line)
        self.assertEqual(self.as_enemy(one, ["WAIT 2 PID 3", "WAIT 2 PID 4"]), "-NOPERM this user may call by tasks below his cgroup alone\r\n*2\r\n:4\r\n:6\r\n")
        self.assertEqual(client.say("WAIT 2 ANY"), [3, 5])

    def test_a_lease_ends_what_its_user_may(self):
        """The init of a namespace where another user's task is stays, as by EXIT."""
        one = self.with_rights(f"{self.ENEMY}:below=1")
        client = one.client()
        for line in ("FORK 1", "MOVE 2 1"):
            client.say(line)
        other = self.keep_as_enemy(one, ["LEASE rig 100", "FORK 2 NEW", "FORK 2"])
        for line in ("FORK 1", "JOIN 5 3", "FORK 5"):
            client.say(line)
        self.assertEqual(client.say("LEASES"), [["rig", 100, 1, [3, 4]]])
        other.kill()
        self.assertEqual(client.say("WAITCHILD 2 PID 4 TIMEOUT 5000"), [4, 137])
        time.sleep(0.3)
        self.assertEqual((client.say("GETPID 3"), client.say("GETPID 6"), client.say("LEASES")), (1, 2, []))

    def keep_as_enemy(self, one, lines):
        """A process of the other user that has said the lines, and stays connected."""
        code = ("import socket, sys, time; it = socket.socket(socket.AF_UNIX); it.connect(sys.argv[1]); it.sendall(sys.stdin.buffer.read());"
                "it.recv(9); print(flush=True); time.sleep(60)")
        done = subprocess.Popen(["python3", "-c", code, str(one.socket)], stdin=subprocess.PIPE, stdout=subprocess.PIPE, user=self.ENEMY, group=self.ENEMY)
        self.addCleanup(done.kill)
        done.stdin.write("".join(f"{line}\r\n" for line in lines).encode())
        done.stdin.close()
        done.stdout.readline()
        time.sleep(0.1)
        return done

    def test_who_may_only_ask(self):
        one = self.daemon("--mode", "666", "--allow", f"0,{self.ENEMY}:ro").start()
        told = self.as_enemy(one, ["GETPID 1", "FORK 1", "CALL getpid 1", "LEASE x 1", "SHUTDOWN", "BGSAVE", "WAITCHILD 1 ANY", "FORKAT 1 2 2", "TOLD fork 1"])
        self.assertEqual(told, ":1\r\n" + "-NOPERM this user may only ask\r\n" * 8)
        self.assertEqual(self.as_enemy(one, ["WOULD fork 1", "PAGE 1 CHILDREN 0 0"]), "*2\r\n:2\r\n:2\r\n*2\r\n:0\r\n*0\r\n")
        self.assertEqual(one.client().say("POSITION"), 0)

    def test_who_may_only_ask_kills_nobody(self):
        """He is told of his own connections and requests alone, and ends and forgets none, his own neither."""
        one = self.daemon("--mode", "666", "--slowlog-log-slower-than", "0", "--allow", f"0,{self.ENEMY}:ro").start()
        client = one.client()
        client.say("ECHO mine")
        told = self.as_enemy(one, ["CLIENT KILL ID 1", "CLIENT KILL TYPE normal SKIPME no", "SLOWLOG RESET"])
        self.assertEqual(told, "-NOPERM this user may only ask\r\n" * 3)
        listed, logged = self.as_enemy(one, ["CLIENT LIST"]), self.as_enemy(one, ["PING", "SLOWLOG GET 99"])
        self.assertEqual(re.findall(r"\buser=([0-9]+)\b", listed), [str(self.ENEMY)])
        self.assertTrue("PING" in logged and "KILL" in logged and "mine" not in logged, logged)
        own = client.say("CLIENT LIST").count("\n")
        words = [it[3] for it in client.say("SLOWLOG GET 99")]
        self.assertTrue(own == 1 and ["ECHO", "mine"] in words and ["PING"] in words, words)
        below = self.with_rights(f"{self.ENEMY}:below=1", name="two")
        self.assertIn("-NOPERM", self.as_enemy(below, ["CLIENT KILL TYPE normal"]))

    def test_where_users_cannot_be_told_apart(self):
        """In a user namespace that has only some users, all others have one number: --allow is refused there."""
        need("unshare")
        one = self.daemon("--allow", f"0,{self.ENEMY}:ro")
        one.command = ["unshare", "--user", "--map-root-user"]
        one.start(is_up=False)
        self.assertEqual(one.process.wait(timeout=10), 2)
        self.assertIn("they cannot be told apart", one.said())
        two = self.daemon(name="two")
        two.command = one.command
        self.assertEqual(two.start().client().say("PING"), "PONG")

    def test_a_cgroup_by_its_path(self):
        """Rights may name one that is not there yet, which is said, and follow the name: also after a start, and to another table."""
        allow = f"{self.ENEMY}:below=/build/jobs"
        one = self.daemon("--mode", "666", "--allow", f"0,{allow}").start()
        client, other = one.client(), Client.of(self.ENEMY, one.socket)
        self.assertEqual(client.say("PING"), "PONG")
        self.assertIn(f'--allow: "{allow}": there is no cgroup /build/jobs yet, and who is below it makes no call\n', one.said())
        for line in ("FORK 1", "LEASE x 1", "FOLLOW"):
            self.refused(other, line, "NOPERM this user may call by tasks below his cgroup alone, which is not there")
        # Another one has the name elsewhere, and came before.
        self.assertEqual([client.say(line) for line in ("FORK 1", "MK 0", "MK 0", "MK 3", "MOVE 2 4")], [[2, 2], 2, 3, 4, "OK"])
        told = [client.say(line) for line in ("NAME 2 jobs", "NAME 4 jobs", "NAME 4 jobs", "NAMES")]
        self.assertEqual(told, ["OK", "OK", "OK", [["/jobs", 2], ["/3/jobs", 4]]])
        self.refused(other, "FORK 2", "NOPERM")
        self.assertEqual([client.say(line) for line in ("NAME 3 build", "NAMES")], ["OK", [["/jobs", 2], ["/build", 3], ["/build/jobs", 4]]])
        self.assertEqual((other.say("FORK 2"), other.say("NAMES")), ([3, 3], client.say("NAMES")))
        self.refused(other, "NAME 4 mine", "NOPERM")
        one.kill()
        client, other = one.start().client(), Client.of(self.ENEMY, one.socket)
        self.assertEqual(other.say("FORK 2"), [4, 4])
        self.assertTrue(one.said().endswith("makes no call\n") and one.said().count("\n") == 1, one.said())
        # Another cgroup has the path: his tasks are outside of it now.
        self.assertEqual([client.say(line) for line in ("MK 3", "NAME 4 old", "NAME 8 jobs")], [8, "OK", "OK"])
        self.refused(other, "FORK 2", "NOPERM this user may call by tasks below his cgroup alone")
        self.assertEqual((other.say("MK 8"), client.say("MOVE 4 8"), other.say("FORK 4")), (9, "OK", [5, 5]))
        self.assertEqual([client.say(line) for line in ("MK 4", "NAME 12 x", "RM 12")], [12, "OK", "OK"])
        self.assertEqual(client.say("NAMES"), [["/jobs", 2], ["/build", 3], ["/build/old", 4], ["/build/jobs", 8]])

    def test_names_that_are_none(self):
        one = self.daemon(kept=False).start()
        client = one.client()
        self.assertEqual([client.say("MK 0"), client.say("MK 0"), client.say("MK 1")], [1, 2, 3])
        for name in ("5", ".", "..", ".x", "a/b", "a:b", "a,b", "a#b", "x" * 65):
            self.refused(client, f"NAME 1 {name}", "ERR syntax: NAME I NAME")
        for name in (b"a b", b"a\r\nb", b"\xff", b""):
            client.send(b"NAME", b"1", name)
            self.assertEqual(str(client.answer()), "ERR syntax: NAME I NAME")
        for id in (0, 77, 2**64 - 1):
            self.refused(client, f"NAME {id} x", "ERR there is no such cgroup, or it is the root's")
        self.assertEqual([client.say("NAME 1 x"), client.say("NAME 3 x"), client.say("NAMES")], ["OK", "OK", [["/x", 1], ["/x/x", 3]]])
        self.refused(client, "NAME 2 x", "ERR a cgroup beside it has the name")
        two = self.daemon("--allow", "0,1000:below=/a//b", name="two", kept=False)
        self.assertEqual(two.start(is_up=False).process.wait(timeout=10), 2)
        self.assertIn('--allow: "1000:below=/a//b" is none of UID, NAME or %GROUP, with :ro or :below=CGROUP behind', two.said())

    def test_rights_are_read_again(self):
        """A file that is wrong changes nothing, and it is said why; who is connected has the new rights at once, or is closed."""
        one = self.with_rights(f"{self.ENEMY}:ro")
        file, other = self.folder / "allowed-one", Client.of(self.ENEMY, one.socket)
        self.refused(other, "FORK 1", "NOPERM this user may only ask")
        wrong = [("0\n7:rw\n", 'allowed-one: line 2: "7:rw" is none of UID, NAME or %GROUP'), ("0\n1000:below=77\n", 'allowed-one: line 2: "1000:below=77": there is no cgroup 77'),
                 ("0\nnobody-by-that-name\n", 'line 2: "nobody-by-that-name": there is no user nobody-by-that-name'), ("%no-such-group", 'line 1: "%no-such-group": there is no group no-such-group')]
        for text, why in wrong:
            file.write_text(text, encoding="ascii")
            self.assertIn(f"{why}", said := one.reload())
            self.assertTrue(said.endswith(": the rights stay as they were\n"), said)
            self.assertEqual(other.say("GETPID 1"), 1)
        file.write_text("0 # root\n\nnobody\n", encoding="ascii")
        one.reload()
        self.assertEqual(other.say("FORK 1"), [2, 2])
        file.write_text("0\n%nogroup:below=1\n", encoding="ascii")
        one.reload()
        self.refused(other, "FORK 1", "NOPERM this user may call by tasks below his cgroup alone")
        file.write_text("0\n", encoding="ascii")
        one.reload()
        self.assertRaises((EOFError, ConnectionError), other.say, "PING")
        self.assertEqual(self.as_enemy(one, []), "-NOPERM this user may not connect\r\n")
        file.unlink()
        self.assertIn("No such file", one.reload())
        self.assertEqual(one.client().say("PING"), "PONG")
        two = self.daemon(name="two").start()
        self.assertEqual(two.client().say("PING"), "PONG")
        self.assertIn("there is no --allow-file to read again", two.reload())

    def test_a_cgroup_that_is_not_there(self):
        """Whoever makes the call with its number would fill it: so a start with it is refused."""
        one = self.daemon("--allow", f"0,{self.ENEMY}:below=1")
        one.start(is_up=False)
        self.assertEqual(one.process.wait(timeout=10), 3)
        self.assertIn("there is no cgroup 1\n", one.said())

    def test_who_may_not_come(self):
        one = self.daemon("--mode", "666", "--allow", "0").start()
        self.assertEqual(self.as_enemy(one, []), "-NOPERM this user may not connect\r\n")
        two = self.daemon(name="two").start()
        self.assertEqual(two.socket.stat().st_mode & 0o777, 0o600)
        self.assertRaises(subprocess.CalledProcessError, self.as_enemy, two, [])


if __name__ == "__main__":
    unittest.main()
