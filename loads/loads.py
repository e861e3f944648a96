#!/usr/bin/env python3
"""Loads for `pidtab run`, and what a call of them costs.

    loads.py list                        the loads, their sizes, what a competent unverified peer takes
    loads.py script LOAD N               the script on standard output
    loads.py measure PROGRAM [LOAD ..]   instructions a call by callgrind, each load at two sizes
    loads.py time PROGRAM [TASKS ..]     microseconds of processor time a call among so many live tasks, the least of five runs
    loads.py longest PROGRAM [TASKS ..]  the longest answer to 100 lines among so many live tasks, and the memory held

A load is a set-up, which brings the table to a state, and a body, which is what is measured: the cost of the body is
that of both less that of the set-up. The same words give the same bytes. Instructions repeat from run to run within
1 %; times on a busy machine do not, and the longest answer is that of the machine where others work on it. `measure` needs valgrind (a Debian package). The peer is a competent table with a
history that answers the same lines and is not verified; its figures stand below as they were given.
"""
import bisect
import os
import random
import re
import resource
import subprocess
import sys
import tempfile
import time

EVENTS = 8              # how often the one great event of `fall` comes
FAMILIES = 50           # how many namespaces fall with the one of `fall_nested`


class Numbers:
    """The root namespace's cyclic draw; the free numbers are kept sorted."""

    def __init__(self, pid_max):
        self.pid_max = pid_max
        self.cursor = 2
        self.fresh = 2          # all numbers from here on were never drawn
        self.free = []

    def draw(self):
        k = self.cursor
        low = 300 if k > 300 else 1
        n = self._gap(max(k, low))
        if n is None:
            n = self._gap(low)
        if n is None:
            return None
        if n >= self.fresh:
            self.fresh = n + 1
        else:
            del self.free[bisect.bisect_left(self.free, n)]
        self.cursor = n + 1
        return n

    def _gap(self, start):
        i = bisect.bisect_left(self.free, start)
        if i < len(self.free):
            return self.free[i]
        n = max(start, self.fresh)
        return n if n < self.pid_max else None

    def release(self, n):
        bisect.insort(self.free, n)


class Script:
    def __init__(self, pid_max, seed):
        self.pid_max = pid_max
        self.lines = []
        self.split = 0
        self.num = Numbers(pid_max)
        self.rng = random.Random(seed)

    def add(self, line):
        self.lines.append(line)

    def fork(self, p, new=False):
        self.lines.append(f"fork {p} new" if new else f"fork {p}")
        n = self.num.draw()
        assert n is not None, "the generator ran out of numbers"
        return n

    def body(self):
        """What follows is measured."""
        self.split = len(self.lines)

    def stamp(self):
        """The stamp of the next line (no line here is bad or empty)."""
        return 1 + len(self.lines)

    def mk(self, parent):
        s = self.stamp()
        self.lines.append(f"mk {parent}")
        return s


def shells(s, tasks, each=100):
    """A two-level tree of `tasks` live tasks; [[shell, child, ..], ..]."""
    out = []
    left = tasks
    while left > 0:
        group = [s.fork(1)]
        for _ in range(min(each, left) - 1):
            group.append(s.fork(group[0]))
        left -= len(group)
        out.append(group)
    return out


def cycle(s, p, how="pid"):
    """One fork, exit, wait of one parent: 3 calls."""
    c = s.fork(p)
    s.add(f"exit {c} {s.rng.randrange(256)}")
    s.add(f"wait {p} pid {c}" if how == "pid" else f"wait {p} any")
    s.num.release(c)
    return c


def fork_storm(s, n):
    s.body()
    for _ in range(n):
        s.fork(1)


def cycle_among(s, n, live):
    tree = shells(s, live)
    s.body()
    for _ in range(n // 3):
        cycle(s, s.rng.choice(tree)[0], "any")


def deep(s, depth):
    """A chain of namespaces; answers the innermost init's root number."""
    p = 1
    for _ in range(depth):
        p = s.fork(p, True)
    return p


def deep_body(s, p, cycles):
    for _ in range(cycles):
        c = s.fork(p)
        s.add(f"nspid 1 {c}")
        s.add(f"getppid {c}")
        s.add(f"exit {c} 7")
        s.add(f"wait {p} any")
        s.num.release(c)


def deep_cycle(s, n):
    p = deep(s, 32)
    for _ in range(1000):
        s.fork(p)
    s.body()
    deep_body(s, p, n // 5)


def deep_storm(s, n):
    p = deep(s, 32)
    s.body()
    for _ in range(n):
        s.fork(p)


def groups(s, n):
    kids = [s.fork(1) for _ in range(n)]
    s.body()
    # Every 16th opens a session, forks into it and makes a group there.
    sessions = kids[::16]
    for c in sessions:
        s.add(f"setsid {c}")
    rest = [c for i, c in enumerate(kids) if i % 16]
    groups = rest[::4]
    for c in groups:
        s.add(f"setpgid 1 {c} 0")
    for i, c in enumerate(rest):
        if i % 4:
            s.add(f"setpgid 1 {c} {groups[i // 4]}")
    for c in s.rng.sample(rest, len(rest) // 2):
        s.add(f"setpgid {c} 0 {s.rng.choice(groups)}")     # leaders of own groups move too
    for c in groups:
        s.add(f"next 1 group {c + 1}")
        s.add(f"getpgid 1 {c}")
    for c in sessions:
        s.add(f"next 1 session {c + 1}")
        s.add(f"getsid 1 {c}")
    for c in s.rng.sample(rest, 100):
        s.add(f"exit {c} 1")
        s.add("wait 1 any")


def control_chain(s, depth):
    ids = [0]
    for _ in range(depth):
        ids.append(s.mk(ids[-1]))
    for i in ids[1:]:
        s.add(f"limit {i} 4000000")
    return ids


def controls_body(s, a, b, tree, n):
    for k in range(n // 6):
        p = s.rng.choice(tree)[0]
        cycle(s, p)
        s.add(f"count {s.rng.choice(a)}")
        m = s.rng.choice(tree)[1]
        s.add(f"move {m} {b[-1]}")
        s.add(f"move {m} {a[-1]}")


def control_cycle(s, depth, calls):
    a = control_chain(s, depth)
    b = control_chain(s, depth)
    s.add(f"move 1 {a[-1]}")
    tree = shells(s, 1000)
    s.body()
    controls_body(s, a, b, tree, calls)


def fall(s, n):
    tops = []
    for _ in range(EVENTS):
        init = s.fork(1, True)
        tops.append(init)
        live = [init]
        # A third flat below the init, the rest a random tree, and 1 in 200 an
        # init of a nested namespace (at most 3 deep), with members of its own.
        depth = {init: 1}
        for k in range(n - 1):
            p = init if k % 3 == 0 else s.rng.choice(live[-64:])
            new = k % 200 == 199 and depth[p] < 3
            c = s.fork(p, new)
            depth[c] = depth[p] + new
            live.append(c)
    s.body()
    for init in tops:
        s.add(f"exit {init} 0")
        s.add(f"wait 1 pid {init}")


def fall_beside(s, n):
    """A namespace that has given n numbers, all free again, falls beside n others."""
    tops = []
    for _ in range(n):
        s.fork(1, True)
    for _ in range(EVENTS):
        init = s.fork(1, True)
        tops.append(init)
        for _ in range(n):
            cycle(s, init, "any")
    s.body()
    for init in tops:
        s.add(f"exit {init} 0")


def fall_nested(s, n):
    """A namespace falls with FAMILIES inside it, each of an init and three tasks, beside n others."""
    for _ in range(n):
        s.fork(1, True)
    tops = [s.fork(1, True) for _ in range(EVENTS)]
    for top in tops:
        for init in [s.fork(top, True) for _ in range(FAMILIES)]:
            for _ in range(3):
                s.fork(init)
    s.body()
    for top in tops:
        s.add(f"exit {top} 0")


def queries(s, n):
    # Four levels, a fourth of the tasks each.
    inits = [1]
    for _ in range(3):
        inits.append(s.fork(inits[-1], True))
    per = {1: [], 2: [], 3: [], 4: []}
    count = [4, 3, 2, 1]                # the last number in each namespace
    for k in range(n):
        lv = k % 4
        c = s.fork(inits[lv])
        if k % 16 == lv:
            s.add(f"setpgid {c} 0 0")
        for up in range(lv + 1):
            count[up] += 1
        per[lv + 1].append(c)
    s.body()
    for _ in range(60000):
        lv = s.rng.randrange(4)
        c = s.rng.choice(per[lv + 1])
        seen = s.rng.randrange(1, count[lv] + 1)
        s.add(f"getpid {c}")
        s.add(f"getppid {c}")
        s.add(f"getpgid {c} {seen}")
        s.add(f"getsid {c} {seen}")
        s.add(f"nspid {c} {seen}")
        s.add(f"next {c} {('task', 'group', 'session')[s.rng.randrange(3)]} {seen}")



def wait_any(s, n):
    kids = [s.fork(1) for _ in range(n)]
    s.body()
    for _ in range(10000):
        c = s.fork(1)
        s.add(f"exit {c} 1")
        s.add("wait 1 any")
        s.num.release(c)


def reap_all(s, n):
    kids = [s.fork(1) for _ in range(n)]
    s.rng.shuffle(kids)
    for c in kids:
        s.add(f"exit {c} 1")
    s.body()
    for _ in range(n):
        s.add("wait 1 any")


def nearly_full(s, n):
    """Cycles with 33 of 32,768 numbers free."""
    for _ in range(s.pid_max - 2 - 33):
        s.fork(1)
    s.body()
    for _ in range(n // 3):
        cycle(s, 1)


def refused(s, n):
    """Forks that find no number."""
    for _ in range(s.pid_max - 2):
        s.fork(1)
    s.body()
    for _ in range(n):
        s.add("fork 1")


def exit_parent(s, n):
    """Exits of parents, each with so many children, who go to the init."""
    parents = []
    for _ in range(EVENTS):
        p = s.fork(1)
        parents.append(p)
        for _ in range(n):
            s.fork(p)
    s.body()
    for p in parents:
        s.add(f"exit {p} 0")


def exit_parent_of_zombies(s, n):
    """Exits of parents, each with so many children that have ended, who go to the init."""
    parents = []
    for _ in range(EVENTS):
        p = s.fork(1)
        parents.append(p)
        for c in [s.fork(p) for _ in range(n)]:
            s.add(f"exit {c} 1")
    s.body()
    for p in parents:
        s.add(f"exit {p} 0")


def wait_own(s, n):
    """Waits for the caller's own group, in which so many children live and none has ended."""
    for _ in range(n):
        s.fork(1)
    s.body()
    for _ in range(2000):
        s.add("wait 1 own")


def wait_own_ended(s, n):
    """The same where one of them has ended: a fork, an exit and a wait, each."""
    for _ in range(n):
        s.fork(1)
    s.body()
    for _ in range(1000):
        c = s.fork(1)
        s.add(f"exit {c} 1")
        s.add("wait 1 own")
        s.num.release(c)


def wait_group_miss(s, n):
    """Waits for a group of so many who are nobody's children here, beside as many children elsewhere."""
    for _ in range(n):
        s.fork(1)
    leader = s.fork(s.fork(1))
    s.add(f"setpgid {leader} 0 0")
    for _ in range(n - 1):
        s.fork(leader)
    s.body()
    for _ in range(200):
        s.add(f"wait 1 group {leader}")


def containers(s, n):
    """A container comes and goes beside so many: a fork of a new namespace, an exit and a wait, each."""
    for _ in range(n):
        s.fork(1, True)
    s.body()
    for _ in range(2000):
        init = s.fork(1, True)
        s.add(f"exit {init} 0")
        s.add(f"wait 1 pid {init}")
        s.num.release(init)


def chain(s, n):
    """A task with a child ends at the end of a chain of so many ancestors: two forks, an exit and a wait, each."""
    parent = 1
    for _ in range(n):
        parent = s.fork(parent)
    s.body()
    for _ in range(2000):
        child = s.fork(parent)
        s.fork(child)
        s.add(f"exit {child} 0")
        s.add(f"wait {parent} pid {child}")
        s.num.release(child)


def deep_end(s, n):
    """A chain of n tasks below a subreaper ends from its deep end: each exit hands the child that has ended to the subreaper."""
    parent = s.fork(1)
    s.add(f"subreaper {parent} on")
    line = []
    for _ in range(n):
        parent = s.fork(parent)
        line.append(parent)
    s.body()
    for task in reversed(line):
        s.add(f"exit {task} 0")


def wait_group(s, n):
    """Waits for a group of two among so many children."""
    for _ in range(n):
        s.fork(1)
    leader = s.fork(1)
    s.add(f"setpgid 1 {leader} 0")
    s.body()
    for _ in range(1000):
        c = s.fork(1)
        s.add(f"setpgid 1 {c} {leader}")
        s.add(f"exit {c} 1")
        s.add(f"wait 1 group {leader}")
        s.num.release(c)


def wait_own_many(s, n):
    """Waits for one's own group among so many of it who have ended."""
    children = [s.fork(1) for _ in range(n)]
    for c in children:
        s.add(f"exit {c} 1")
    s.body()
    for _ in range(min(n, 1000)):
        s.add("wait 1 own")


def wait_group_each(s, n):
    """Waits for groups in random order, where so many children have ended and each of them led one."""
    children = [s.fork(1) for _ in range(n)]
    for c in children:
        s.add(f"setpgid 1 {c} 0")
        s.add(f"exit {c} 1")
    s.body()
    for c in s.rng.sample(children, min(n, 1000)):
        s.add(f"wait 1 group {c}")


def move_siblings(s, n):
    """A task goes back and forth between two control groups of one parent, below so many."""
    parent = control_chain(s, n)[-1]
    a, b = s.mk(parent), s.mk(parent)
    task = s.fork(1)
    s.add(f"move {task} {a}")
    s.body()
    for turn in range(10000):
        s.add(f"move {task} {a if turn % 2 else b}")


def remove_control(s, n):
    """Removals of control groups, each with so many zombies."""
    groups = []
    for _ in range(EVENTS):
        g = s.mk(0)
        groups.append(g)
        s.add(f"move 1 {g}")
        for _ in range(n):
            s.add(f"exit {s.fork(1)} 0")
        s.add("move 1 0")
    s.body()
    for g in groups:
        s.add(f"rm {g}")


def one_line(line):
    def load(s, n):
        s.body()
        for _ in range(n):
            s.add(line)
    return load


# name: (generator, pid_max, sizes, instructions a call of the peer on the same script, by the size)
LOADS = {
    "fork_storm": (fork_storm, 4194304, (3000, 30000), {3000: 1180, 30000: 1094}),
    "cycle_among_100": (lambda s, n: cycle_among(s, n, 100), 32768, (30000,), {30000: 984}),
    "cycle_among_10000": (lambda s, n: cycle_among(s, n, 10000), 32768, (30000,), {30000: 1052}),
    "deep_cycle": (deep_cycle, 32768, (10000,), {10000: 3183}),
    "deep_storm": (deep_storm, 32768, (3000, 15000), {3000: 6369, 15000: 6214}),
    "groups": (groups, 32768, (3000, 30000), {3000: 808, 30000: 841}),
    "control_cycle_64": (lambda s, n: control_cycle(s, 64, n), 32768, (12000,), {12000: 1888}),
    "fall": (fall, 4194304, (300, 3000), {300: 599, 3000: 584}),
    "fall_beside": (fall_beside, 4194304, (30, 300, 3000), {30: 987, 300: 1017, 3000: 1037}),
    "fall_nested": (fall_nested, 4194304, (30, 300, 3000), {30: 651, 300: 653, 3000: 1075}),
    "queries": (queries, 32768, (300, 30000), {300: 669, 30000: 760}),
    "wait_any": (wait_any, 32768, (300, 30000), {300: 968, 30000: 984}),
    "reap_all": (reap_all, 32768, (3000, 30000), {3000: 1251, 30000: 1304}),
    "nearly_full": (nearly_full, 32768, (30000,), {30000: 1075}),
    "refused": (refused, 32768, (20000,), {20000: 630}),
    "exit_parent": (exit_parent, 4194304, (300, 3000), {300: 13, 3000: 10}),
    "exit_parent_of_zombies": (exit_parent_of_zombies, 4194304, (300, 3000, 30000), {300: 433, 3000: 537, 30000: 645}),
    "wait_own": (wait_own, 4194304, (300, 3000, 30000), {300: 585, 3000: 494, 30000: 494}),
    "wait_own_ended": (wait_own_ended, 4194304, (300, 3000, 30000), {300: 1025, 3000: 978, 30000: 999}),
    "wait_group_miss": (wait_group_miss, 4194304, (300, 3000, 30000), {300: 3939, 3000: 33659, 30000: 330679}),
    "containers": (containers, 4194304, (300, 3000, 30000), {300: 1660, 3000: 1629, 30000: 1658}),
    "chain": (chain, 4194304, (300, 3000, 30000), {300: 1132, 3000: 1132, 30000: 1155}),
    "deep_end": (deep_end, 4194304, (300, 3000), {300: 22, 3000: 15}),
    "wait_group": (wait_group, 4194304, (300, 30000), {300: 1011, 30000: 1020}),
    "wait_own_many": (wait_own_many, 4194304, (3000, 30000), {3000: 1351, 30000: 1316}),
    "wait_group_each": (wait_group_each, 4194304, (3000, 30000), {3000: 40680, 30000: 464312}),
    "move_siblings": (move_siblings, 32768, (62,), {62: 705}),
    "remove_control": (remove_control, 4194304, (100, 10000), {100: 1783, 10000: 100833}),
    "getpid": (one_line("getpid 1"), 32768, (20000,), {20000: 501}),
    "count": (one_line("count 0"), 32768, (20000,), {20000: 559}),
    "nspid": (one_line("nspid 1 1"), 32768, (20000,), {20000: 684}),
    "getpgid": (one_line("getpgid 1 0"), 32768, (20000,), {20000: 585}),
    "wait_none": (one_line("wait 1 any"), 32768, (20000,), {20000: 486}),
    "bad_line": (one_line("fork  1"), 32768, (20000,), {20000: 176}),
    "empty_line": (one_line(""), 32768, (20000,), {20000: 76}),
    "fork_storm_million": (fork_storm, 4194304, (1000000,), {}),
}

# Those whose cost is told for each task that they concern, and how many these are.
BY_TASK = dict.fromkeys(("fall", "exit_parent", "exit_parent_of_zombies"), lambda n: EVENTS * n) | {
    "fall_nested": lambda n: EVENTS * (1 + 4 * FAMILIES),
    "deep_end": lambda n: n * (n - 1) // 2,
}
# Those that `measure` leaves out unless they are named, since they take minutes.
LONG = {"fork_storm_million"}


def make(name, n):
    load, pid_max, _, _ = LOADS[name]
    s = Script(pid_max, 1)
    load(s, n)
    return s


def collected(program, pid_max, lines):
    with tempfile.NamedTemporaryFile("w", suffix=".script", delete=False) as f:
        f.write("".join(line + "\n" for line in lines))
    try:
        with open(f.name) as script:
            done = subprocess.run(["valgrind", "--tool=callgrind", "--callgrind-out-file=/dev/null", program, "run", "--pid-max", str(pid_max)],
                                  stdin=script, stdout=subprocess.DEVNULL, stderr=subprocess.PIPE, text=True)
        found = re.search(r"Collected : (\d+)", done.stderr)
        if done.returncode or not found:
            sys.exit(f"{program} ended with {done.returncode}: {done.stderr[-300:]}")
        return int(found.group(1))
    finally:
        os.unlink(f.name)


def measure(program, names):
    print("| load | size | calls | instructions a call | peer | ratio |\n|---|---|---|---|---|---|")
    for name in names:
        _, pid_max, sizes, peer = LOADS[name]
        for n in sizes:
            s = make(name, n)
            calls = BY_TASK[name](n) if name in BY_TASK else len(s.lines) - s.split
            cost = (collected(program, pid_max, s.lines) - collected(program, pid_max, s.lines[: s.split])) / calls
            theirs = peer.get(n)
            compared = f"{theirs:,} | {cost / theirs:.2f}" if theirs else "| "
            print(f"| {name} | {n:,} | {calls:,} | {cost:,.0f} | {compared} |", flush=True)


def among(tasks, body, calls):
    """A script with so many live tasks, and then the body, so many times."""
    s = Script(4194304, 1)
    tree = shells(s, tasks)
    s.body()
    for _ in range(calls):
        body(s, s.rng.choice(tree)[0])
    return s


TIMED = 100000          # how often at least `time` makes a call
BODIES = {
    "a fork": lambda s, p: s.fork(p),
    "a fork, an exit and a wait": lambda s, p: cycle(s, p, "any"),
    "a query (`getppid`)": lambda s, p: s.add(f"getppid {p}"),
}


def seconds(program, pid_max, lines):
    """The least of five runs, in processor time."""
    with tempfile.NamedTemporaryFile("w+", suffix=".script") as f:
        f.write("".join(line + "\n" for line in lines))
        f.flush()
        return min(one_run([program, "run", "--pid-max", str(pid_max)], f) for _ in range(5))


def one_run(command, script):
    """The processor time of one run on the script, in seconds."""
    script.seek(0)
    before = resource.getrusage(resource.RUSAGE_CHILDREN)
    subprocess.run(command, stdin=script, stdout=subprocess.DEVNULL, check=True)
    after = resource.getrusage(resource.RUSAGE_CHILDREN)
    return after.ru_utime + after.ru_stime - before.ru_utime - before.ru_stime


def times(program, sizes):
    print("| What | " + " | ".join(f"{n:,} live tasks" for n in sizes) + " |\n|---|" + "---|" * len(sizes))
    for name, body in BODIES.items():
        cells = []
        for n in sizes:
            calls = max(TIMED, n)
            s = among(n, body, calls)
            took = seconds(program, s.pid_max, s.lines) - seconds(program, s.pid_max, s.lines[: s.split])
            cells.append(f"{took / calls * 1e6:.1f} µs")
        print(f"| {name} | " + " | ".join(cells) + " |", flush=True)


PIECE = 100             # lines that are sent at once, and answered before the next ones
PIECES = 10000          # how many such pieces `longest` sends


def resident(pid, field):
    """A field of proc_pid_status(5) in bytes."""
    with open(f"/proc/{pid}/status") as status:
        found = re.search(rf"{field}:\s+(\d+) kB", status.read())
    return int(found.group(1)) * 1024


def answered_in(run, lines):
    """The seconds that it takes to have so many lines answered, each by one line."""
    began = time.perf_counter()
    run.stdin.write("".join(line + "\n" for line in lines).encode())
    run.stdin.flush()
    for _ in lines:
        run.stdout.readline()
    return time.perf_counter() - began


def longest_of(program, tasks):
    """The longest answer to a piece of queries among so many live tasks, in seconds, and the most memory held, in bytes."""
    s = Script(4194304, 1)
    tree = shells(s, tasks)
    with subprocess.Popen([program, "run", "--pid-max", "4194304"], stdin=subprocess.PIPE, stdout=subprocess.PIPE) as run:
        for start in range(0, len(s.lines), PIECE):
            answered_in(run, s.lines[start : start + PIECE])
        took = max(answered_in(run, [f"getppid {s.rng.choice(tree)[0]}" for _ in range(PIECE)]) for _ in range(PIECES))
        held = resident(run.pid, "VmHWM")
        run.stdin.close()
    return took, held


def longest(program, sizes):
    print("| live tasks | longest answer to 100 lines | memory | bytes a task |\n|---|---|---|---|")
    for n in sizes:
        took, held = longest_of(program, n)
        print(f"| {n:,} | {took * 1e3:.1f} ms | {held / 1e6:.1f} MB | {held / n:.0f} |", flush=True)


def main():
    words = sys.argv[1:]
    if words[:1] == ["list"]:
        for name, (_, pid_max, sizes, peer) in LOADS.items():
            print(f"{name}: pid_max {pid_max}, sizes {sizes}, peer {peer}")
    elif words[:1] == ["script"] and len(words) == 3:
        print("\n".join(make(words[1], int(words[2])).lines))
    elif words[:1] == ["time"] and len(words) >= 2:
        times(words[1], [int(n) for n in words[2:]] or [100, 10000, 1000000])
    elif words[:1] == ["longest"] and len(words) >= 2:
        longest(words[1], [int(n) for n in words[2:]] or [20000, 200000])
    elif words[:1] == ["measure"] and len(words) >= 2:
        measure(words[1], words[2:] or [name for name in LOADS if name not in LONG])
    else:
        sys.exit(__doc__)


if __name__ == "__main__":
    main()
