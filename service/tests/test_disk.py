"""What is on the disk: kills, losses of power, damage, a full disk, wrong directories. `check` replays the log, and shares no code with the daemon."""
import os
import pathlib
import random
import shutil
import signal
import subprocess
import threading
import time
import unittest

from harness import BUILT, Case, LONG, Refused, by_itself, need, request

NUMBERS = {"EPERM": 1, "ENOENT": 2, "ESRCH": 3, "ECHILD": 10, "EAGAIN": 11, "ENOMEM": 12, "EACCES": 13, "EBUSY": 16, "EINVAL": 22, "ENOSPC": 28}


def shown(answer):
    """An answer as `check` writes it."""
    if isinstance(answer, Refused):
        name, words = str(answer).split(" ", 1)
        return f"-{NUMBERS[name]} {words}"
    if answer is None:
        return "nil"
    return ",".join(map(str, answer)) if isinstance(answer, list) else str(answer)


class Caller(threading.Thread):
    """Sends batches and reads the answers, by turns, until the daemon is gone: what it has asked, and what it was answered."""

    def __init__(self, daemon, seat, seed):
        super().__init__()
        self.daemon_process, self.seat, self.dice, self.asked, self.answered = daemon, seat, random.Random(seed), [], []
        self.own, self.controls = [], [0]

    def draw(self):
        dice = self.dice
        if dice.random() < 0.40 or not self.own:
            caller = dice.choice(self.own) if self.own and dice.random() < 0.3 else 1
            return f"FORK {caller}{' NEW' if dice.random() < 0.2 else ''}"
        task, control = dice.choice(self.own), dice.choice(self.controls)
        rare = f"JOIN 1 {task}" if dice.random() < 0.05 else "COUNT 0"
        return dice.choice([f"EXIT {task} {dice.randrange(256)}", f"EXIT {task} 0", "WAIT 1 ANY", f"WAIT 1 PID {task}", f"SETPGID {task} 0 0",
                            f"SETSID {task}", "MK 0", f"MOVE {task} {control}", f"RM {control}", f"LIMIT {control} {dice.randrange(60)}",
                            f"EXEC {task}", f"SUBREAPER {task} ON", rare, f"NSPID 1 {task}"])

    def run(self):
        try:
            client = self.daemon_process.client()
            client.say(f"SEAT {self.seat}")
            while True:
                self.turn(client)
        except (OSError, EOFError, AssertionError):
            pass

    def turn(self, client):
        batch = [self.draw() for _ in range(self.dice.choice([1, 1, 4, 16, 64]))]
        self.asked += batch
        client.socket.sendall(b"".join(request(["CALL", *line.split()]) for line in batch))
        for line in batch:
            answer = client.answer()
            self.answered.append(shown(answer))
            if line.startswith("FORK") and isinstance(answer, list):
                self.own = self.own[-40:] + [answer[1]]
            if line.startswith("MK") and isinstance(answer, int):
                self.controls = self.controls[-10:] + [answer]


class Killed(Case):
    """In each round six clients send calls, and the daemon is killed. All that was answered is in the log, with its answers, and in its order;
    behind that, of each client, some of what it had sent. The log replays to the very text that the daemon has behind its next start."""

    def play(self, mode, rounds, loses_power=False, seed=1):
        need(BUILT / "check")
        dice = random.Random(seed)
        synced = self.folder / "synced"
        synced.touch()
        variables = {"LD_PRELOAD": str(BUILT / "power.so"), "SYNCED": str(synced)} if loses_power else {}
        one = self.daemon("--fsync", mode, "--segment", "150000", "--archive", name=mode, variables=variables).start()
        total = before = lost = 0
        for number in range(rounds):
            callers = [Caller(one, seat, dice.random()) for seat in range(1, 7)]
            for caller in callers:
                caller.start()
            time.sleep(dice.uniform(0.03, 0.4))
            one.kill()
            for caller in callers:
                caller.join()
            sectors = lose_power(one.kept, synced, dice) if loses_power else 0
            lost += sectors
            if not sectors:
                tear(one.kept, dice)
            entries = self.compare(one.start())
            for caller in callers:
                self.compare_caller(caller, entries[before:], number)
                total += len(caller.answered)
            before = len(entries)
        self.assertEqual(one.end(), 0)
        self.assertGreater(total, 50 * rounds)
        if loses_power and mode == "always":
            self.assertGreater(lost, rounds, "few sectors were lost")
        snapshots = sum("snap-" in name for name in os.listdir(one.kept))
        print(f"{mode}{f', power and {lost} sectors lost' if loses_power else ''}: {rounds} kills, {total} answered calls, {before} in the log, {snapshots} snapshots")

    def compare(self, one):
        client = one.client()
        client.socket.sendall(b"POSITION\r\nDUMP\r\n")
        position, dump = client.answer(), client.answer()
        client.close()
        to = self.folder / "dump"
        done = self.check(one.kept, to)
        self.assertEqual((done.returncode, done.stderr), (0, ""))
        entries = [line.split(" ", 1)[1] for line in done.stdout.splitlines()]
        self.assertEqual(position, len(entries))
        self.assertTrue(dump == to.read_text(encoding="ascii"), "the table is not that of the log")
        return entries

    def check(self, kept, to):
        """A snapshot that is in work may rename a log meanwhile: then once more."""
        for _ in range(5):
            done = subprocess.run([BUILT / "check", kept, to], capture_output=True, text=True, check=False)
            if "cannot be read" not in done.stderr and "a gap" not in done.stderr:
                break
            time.sleep(0.2)
        return done

    def compare_caller(self, caller, entries, number):
        front = f"{caller.seat}|"
        mine = [entry.removeprefix(front) for entry in entries if entry.startswith(front)]
        told = [f"{call}|{answer}" for call, answer in zip(caller.asked, caller.answered)]
        self.assertTrue(mine[:len(told)] == told, f"round {number}: an answered call is not in the log as it was answered")
        rest = [entry.split("|")[0] for entry in mine[len(told):]]
        self.assertEqual(rest, caller.asked[len(told):len(told) + len(rest)])

    def test_everysec(self):
        self.play("everysec", 50 * LONG, seed=int(os.environ.get("SEED", "1")))

    def test_always(self):
        self.play("always", 50 * LONG)

    def test_no(self):
        self.play("no", 50 * LONG)

    def test_always_and_the_power_is_lost(self):
        self.play("always", 50 * LONG, loses_power=True, seed=int(os.environ.get("SEED", "1")))

    def test_everysec_and_the_power_is_lost(self):
        """What everysec does not promise: this test sees that the loss is one that the tests above would find."""
        with self.assertRaises(AssertionError):
            self.play("everysec", 10, loses_power=True)


def lose_power(kept, synced, dice):
    """The directory as it was when it was synced last, each file as long as it was when that was. What was written since, over bytes that were synced,
    is kept or not by each sector, in any order."""
    names, sizes, written = {}, {}, {}
    for line in synced.read_text(encoding="ascii").splitlines():
        kind, *rest = line.split(" ")
        if kind == "file" and len(rest) == 3:
            inode, size, order = map(int, rest)
            sizes[inode] = size
            written[inode] = [it for it in written.get(inode, []) if it[2] > order]
        elif kind == "lost":
            written.clear()
        elif kind == "write" and len(rest) == 4:
            inode, at, size, order = map(int, rest)
            written.setdefault(inode, []).append((at, size, order))
        elif kind == "dir":
            names = {int(pair.split("=")[0]): pair.split("=")[1] for pair in rest if "=" in pair}
    now = {path.stat().st_ino: path for path in kept.iterdir()}
    moved = {}
    for inode, path in now.items():
        if inode not in names:
            path.unlink()
            continue
        moved[inode] = path.rename(kept / f"moved.{inode}")
    lost = 0
    for inode, path in moved.items():
        for at, size, _ in written.get(inode, []):
            lost += lose_sectors(path, at, size, dice)
        os.truncate(path, min(path.stat().st_size, sizes.get(inode, 0)))
        path.rename(kept / names[inode])
    with open(synced, "a", encoding="ascii") as file:
        file.write("lost\n")
    return lost


SECTOR = 512


def lose_sectors(path, at, size, dice):
    """What was written there over zeroes: each sector of it is lost, or is not. It says how many were."""
    ends = [at, *range((at // SECTOR + 1) * SECTOR, at + size, SECTOR), at + size]
    lost = [pair for pair in zip(ends, ends[1:]) if dice.random() < 0.5]
    with open(path, "r+b") as file:
        for begin, end in lost:
            file.seek(begin)
            file.write(bytes(end - begin))
    return len(lost)


def tear(kept, dice):
    """What a write that was cut off leaves behind the last whole entry, or a file whose length came before its bytes; or all as it is."""
    last = max((path for path in kept.iterdir() if path.name.startswith("log-")), default=None)
    if last and dice.random() < 0.7:
        ends = [b"", dice.randbytes(dice.randrange(1, 48)), bytes(dice.randrange(48, 5000)), bytes(17)]
        whole = last.read_bytes().rstrip(b"\0")
        last.write_bytes(whole + bytes(-len(whole) % 48) + dice.choice(ends))


class Damaged(Case):
    def test_changed_files(self):
        """500 directories with changed, lost or added bytes: a front of the calls, or status 3 and a sentence that names the file."""
        dice = random.Random(2)
        one = self.daemon(name="whole").start()
        client = one.client()
        client.say("LEASE rig 3600000")
        client.socket.sendall(b"FORK 1 NEW\r\nFORK 2\r\nMK 0\r\nCALL NSPID 1 3\r\n" * 20)
        [client.answer() for _ in range(80)]
        client.say("BGSAVE")
        while "snapshot:80\r" not in client.say("INFO"):
            time.sleep(0.02)
        client.socket.sendall(b"FORK 1\r\nCALL NSPID 1 3\r\nEXIT 2 3\r\n" * 20)
        [client.answer() for _ in range(60)]
        self.assertEqual(one.end(), 0)
        whole = {path.name: path.read_bytes() for path in one.kept.iterdir()}
        names = [name for name in whole if name[:4] in ("snap", "log-")]
        statuses = {0: 0, 3: 0}
        for number in range(500 * LONG):
            name = names[number % len(names)]
            two = self.daemon(name="damaged")
            shutil.rmtree(two.folder)
            two.folder.mkdir()
            two.kept.mkdir(mode=0o700)
            for each, data in whole.items():
                (two.kept / each).write_bytes(damaged(data, dice) if each == name else data)
            checked = by_itself("--check", two.kept)
            two.start(is_up=False)
            status = self.status_of(two)
            statuses[status] += 1
            self.assertEqual(checked[0], status == 3)
            self.assertTrue(two.said().endswith(f"pidtabd: {checked[2]}\n" if status else ""), f"{checked}; {two.said()}")
            if status == 3:
                self.assertIn("pidtabd: ", two.said())
                self.assertRegex(two.said(), f"{name}|log-|current")
        self.assertGreater(min(statuses.values()), 50)
        print(f"damaged: {statuses[0]} went on with a front of the calls, {statuses[3]} were refused")

    def status_of(self, daemon):
        """0: it serves a front of the calls, and ends. 3: it has refused."""
        end = time.monotonic() + 20
        while daemon.process.poll() is None and time.monotonic() < end:
            if daemon.socket.exists():
                try:
                    position = daemon.client().say("POSITION")
                except (AssertionError, OSError, EOFError):
                    continue
                self.assertTrue(80 <= position <= 140, position)
                self.assertEqual(daemon.end(), 0)
                return 0
            time.sleep(0.002)
        self.assertEqual(daemon.process.wait(timeout=5), 3, daemon.said())
        return 3

    def refusal(self, daemon):
        daemon.start(is_up=False)
        self.assertEqual(daemon.process.wait(timeout=20), 3)
        return daemon.said()

    def made(self, name, calls=200, options=()):
        """The directory of a daemon that has ended, with two logs and a snapshot."""
        one = self.daemon("--segment", "4096", "--archive", *options, name=name).start()
        client = one.client()
        for _ in range(calls):
            client.say("FORK 1")
        while "snapshot:0\r" in client.say("INFO"):
            time.sleep(0.02)
        self.assertEqual(one.end(), 0)
        return one

    def test_another_s_directory(self):
        one = self.daemon()
        (one.kept / "passwd").touch()
        self.assertIn('has "passwd", which is no file of pidtabd', self.refusal(one))

    def test_a_log_is_missing(self):
        one = self.made("one")
        last = max(path for path in one.kept.iterdir() if path.name.startswith("log-"))
        last.unlink()
        self.assertIn(f"{last}: is missing", self.refusal(one))

    def test_a_directory_that_others_may_write(self):
        one = self.daemon()
        one.kept.chmod(0o770)
        self.assertIn(f"{one.kept}: may be written by others", self.refusal(one))

    def test_the_only_log_is_missing(self):
        """It is not taken for a new table; nor is one of which no head is left."""
        one = self.daemon().start()
        one.client().say("FORK 1")
        one.end()
        path = one.kept / f"log-{0:020}"
        path.write_bytes(path.read_bytes()[:20])
        self.assertIn(f"{path}: ", self.refusal(one))
        path.unlink()
        self.assertIn(f"{path}: is missing", self.refusal(one))

    def test_the_snapshot_is_missing(self):
        one = self.made("one")
        for path in one.kept.iterdir():
            if path.name.startswith("snap-"):
                path.unlink()
        self.assertIn("no snapshot or log comes before", self.refusal(one))

    def test_a_start_is_ended(self):
        """SIGTERM ends it also while the directory is read: here a snapshot that never ends."""
        one = self.daemon()
        os.mkfifo(one.kept / f"snap-{5:020}")
        one.start()
        one.process.terminate()
        self.assertEqual(one.process.wait(timeout=5), -signal.SIGTERM)

    def test_two_daemons(self):
        one = self.daemon().start()
        two = self.daemon(name="two")
        two.kept.rmdir()
        two.kept.symlink_to(one.kept)
        self.assertIn("another pidtabd has this directory", self.refusal(two))

    def test_one_socket(self):
        one = self.daemon(kept=False).start()
        two = self.daemon(kept=False)
        two.start(is_up=False)
        self.assertEqual(two.process.wait(timeout=10), 1)
        self.assertIn("in use", two.said())
        self.assertEqual(one.client().say("PING"), "PONG")

    def test_one_socket_that_nobody_listens_at(self):
        """Two that start at once where a killed one has left its socket: one serves, and the other ends."""
        one, two = self.daemon(kept=False), self.daemon(kept=False)
        for number in range(30 * LONG):
            one.start().kill()
            one.start(is_up=False)
            two.start(is_up=False)
            self.assertEqual(one.client().say("PING"), "PONG")
            end = time.monotonic() + 5
            while one.process.poll() is None and two.process.poll() is None:
                self.assertLess(time.monotonic(), end, f"both serve in round {number}")
                time.sleep(0.005)
            self.assertEqual({one.process.poll(), two.process.poll()}, {None, 1})
            for each in (one, two):
                each.kill()

    def test_another_user_s_directory(self):
        if os.geteuid() != 0:
            self.skipTest("not root")
        one = self.daemon()
        os.chown(one.kept, 65534, 65534)
        self.assertIn("belongs to the user 65534", self.refusal(one))


def damaged(data, dice):
    data = bytearray(data)
    kind, place = dice.randrange(6), dice.randrange(len(data))
    if kind == 0:
        data[place] = dice.randrange(256)
    elif kind == 1:
        data[place] ^= 1 << dice.randrange(8)
    elif kind == 2:
        del data[place:]
    elif kind == 3:
        data += dice.randbytes(dice.randrange(200))
    elif kind == 4:
        data[place:] = bytes(len(data) - place)
    else:
        del data[place:place + dice.randrange(100)]
    return bytes(data)


def told_by(client):
    """The leases, and the tasks that live but the first one."""
    live = {int(line.split()[1].split(",")[0]) for line in client.say("LIST").splitlines() if line.startswith("task ") and " live" in line}
    return client.say("LEASES"), live - {1}


class Leased(Case):
    """What the log has of leases."""

    def snapshot(self, client):
        before = client.say("POSITION")
        client.say("BGSAVE")
        while f"snapshot:{before}\r" not in client.say("INFO"):
            time.sleep(0.02)

    def test_a_snapshot_behind_a_lease(self):
        """What was leased before a snapshot is leased behind a start from it, and all that comes behind."""
        one = self.daemon().start()
        client = one.client()
        for line in ("LEASE old 60000", "RELEASE old", "LEASE rig 60000", "FORK 1", "FORK 1", "EXIT 3 0", "WAIT 1 ANY"):
            client.say(line)
        self.snapshot(client)
        client.say("FORK 1")
        client.say("LEASE rig 70000")
        one.kill()
        text = next(path for path in one.kept.iterdir() if path.name.startswith("snap-")).read_text(encoding="ascii")
        self.assertRegex(text, "\\Apidtabd snapshot 1 entries 7\nlease 2 [0-9]+ rig 60000\nbind 2 2\nend [0-9a-f]{16}\npidtab table 1 .* stamp 5\n")
        self.assertEqual(one.start().client().say("LEASES"), [["rig", 70000, 0, [2, 4]]])

    def test_a_lease_without_a_call(self):
        """What is answered is saved, also where nobody makes a call; and a lease that was released comes never again."""
        one = self.daemon("--fsync", "always").start()
        client = one.client()
        for line in ("LEASE rig 60000", "LEASE other 60000", "BGSAVE", "LEASE third 60000", "RELEASE rig"):
            client.say(line)
        one.kill()
        self.assertEqual([row[0] for row in one.start().client().say("LEASES")], ["other", "third"])
        self.assertEqual(one.client().say("POSITION"), 0)

    def played(self):
        """The whole log of leases that are taken, kept, released and end, with what is asked at the end."""
        one = self.daemon("--fsync", "always", "--reap").start()
        client, other = one.client(), one.client()
        for line in ("LEASE rig 60000", "FORK 1", "FORK 2", "EXIT 3 0", "WAIT 2 ANY", "LEASE rig 50000", "FORK 1 NEW"):
            client.say(line)
        for line in ("LEASE brief 0", "FORK 1", "FORK 1", "FORK 5"):
            other.say(line)
        other.close()
        end = time.monotonic() + 5
        while len(client.say("LEASES")) > 1:
            self.assertLess(time.monotonic(), end)
            time.sleep(0.02)
        self.assertEqual(told_by(client), ([["rig", 50000, 1, [2, 4]]], {2, 4}))
        client.say("FORK 1")
        one.end()
        return one, (one.kept / f"log-{0:020}").read_bytes()

    def test_each_cut(self):
        """Wherever the log ends, also within an entry, no task lives without its lease, and no lease has a task that is not there, or that another client forks
        behind the next start."""
        one, whole = self.played()
        path, known = one.kept / f"log-{0:020}", set()
        for size in [*range(48, len(whole), 24), len(whole)]:
            path.write_bytes(whole[:size])
            client = one.start().client()
            leases, live = told_by(client)
            other = client.say("FORK 1")[1]
            one.kill()
            self.assertNotIn(other, [task for row in one.start().client().say("LEASES") for task in row[3]], f"at {size}")
            one.kill()
            bound = [task for row in leases for task in row[3]]
            self.assertEqual(live - set(bound), set(), f"at {size} of {len(whole)}")
            self.assertEqual(len(bound), len(set(bound)))
            known |= {row[0] for row in leases}
        self.assertEqual((known, leases), ({"rig", "brief"}, [["rig", 50000, 0, [2, 4, 8]]]))

    def test_the_power_is_lost(self):
        """By `always` each fork under a lease is bound that the log has; by `everysec` each that was answered two seconds before."""
        need(BUILT / "power.so")
        for mode, rounds, wait in (("always", 10 * LONG, 0), ("everysec", 2 * LONG, 2)):
            dice, forked = random.Random(rounds), set()
            synced = self.folder / f"synced-{mode}"
            synced.touch()
            one = self.daemon("--fsync", mode, "--segment", "4096", name=mode, variables={"LD_PRELOAD": str(BUILT / "power.so"), "SYNCED": str(synced)})
            for number in range(rounds):
                client = one.start().client()
                client.say("LEASE rig 3600000")
                client.say(f"LEASE rig{number} 3600000")
                client.say("LEASE rig 3600000")
                forked |= {client.say("FORK 1")[1] for _ in range(dice.randrange(1, 60))}
                time.sleep(wait)
                client.socket.sendall(b"FORK 1\r\n" * 20)
                one.kill()
                lose_power(one.kept, synced, dice)
                leases, live = told_by(one.start().client())
                self.assertEqual({f"rig{it}" for it in range(number + 1)} - {row[0] for row in leases}, set())
                self.assertEqual(forked - set(leases[0][3]), set(), f"{mode}, round {number}")
                self.assertEqual(live - set(leases[0][3]), set(), f"round {number}")
                forked = set(leases[0][3])
                one.kill()


class Checked(Case):
    """A directory that is read alone, and one that is copied of a service."""

    def files(self, kept):
        return {path.name: (path.read_bytes(), path.stat().st_mtime_ns, path.stat().st_ino) for path in kept.iterdir()}

    def test_what_a_directory_has(self):
        one = self.daemon().start()
        client = one.client()
        for line in ("LEASE rig 60000", "FORK 1", "FORK 1 NEW", "MK 0", "BGSAVE"):
            client.say(line)
        while "snapshot:3\r" not in client.say("INFO"):
            time.sleep(0.02)
        client.say("FORK 1")
        self.assertEqual(by_itself("--check", one.kept)[::2], (1, f"{one.kept}/lock: another pidtabd has this directory"))
        one.kill()
        last = max(path for path in one.kept.iterdir() if path.name.startswith("log-"))
        with open(last, "ab") as file:
            file.write(b"x" * 11)
        before = self.files(one.kept)
        identity = (one.kept / "identity").read_text(encoding="ascii").strip()
        told = [f"identity:{identity}", "calls:4", "entries:5", "snapshot:3", "replayed:1", "left_out_bytes:11", "pid_max:32768", "tasks:4", "controls:1",
                "leases:1", "leased_tasks:3", "named_controls:0"]
        self.assertEqual(by_itself("--check", one.kept), (0, "".join(f"{line}\n" for line in told), ""))
        self.assertEqual(self.files(one.kept), before)
        self.assertEqual(one.start().client().say("POSITION"), 4)

    def test_one_without_a_lock(self):
        """Nothing is made in it, not even a lock; a file of leases of a former release counts."""
        one = self.daemon().start()
        one.client().say("FORK 1")
        one.kill()
        (one.kept / "lock").unlink()
        (one.kept / "leases").write_bytes(former_file("at 1", "lease 0 rig 1 60000", "bind 1 2 1"))
        before = self.files(one.kept)
        status, told, _ = by_itself("--check", one.kept)
        self.assertEqual((status, told.splitlines()[-3:-1]), (0, ["leases:1", "leased_tasks:1"]))
        self.assertEqual(self.files(one.kept), before)

    def test_what_is_none(self):
        one = self.daemon()
        self.assertEqual(by_itself("--check", one.kept), (0, "empty: a start begins a new table\n", ""))
        (one.kept / "passwd").touch()
        self.assertIn('has "passwd", which is no file of pidtabd', by_itself("--check", one.kept)[2])
        self.assertEqual(by_itself("--check", one.folder / "none")[0], 1)
        one.kept.chmod(0o770)
        self.assertIn("may be written by others", by_itself("--check", one.kept)[2])

    def test_a_copy(self):
        """While another client forks: the copy has a front of the calls, with the leases and names of then, and goes on by itself."""
        one = self.daemon().start()
        client, other = one.client(), one.client()
        for line in ("LEASE rig 60000", "MK 0", "NAME 1 build"):
            client.say(line)
        client.socket.sendall(b"FORK 1\r\n" * 300)
        [client.answer() for _ in range(300)]
        for number in range(5):
            before = other.say("POSITION")
            client.socket.sendall(b"FORK 1\r\n" * 2000)
            two = self.daemon(name=f"copy{number}")
            status, told, fault = by_itself("--copy", one.socket, two.kept)
            [client.answer() for _ in range(2000)]
            self.assertEqual((status, fault), (0, ""))
            copied = two.start().client()
            position = copied.say("POSITION")
            self.assertTrue(before <= position <= before + 2000, position)
            self.assertEqual(told, f"{two.kept}/snap-{position + 2:020}: {position} calls, 1 leases\n")
            self.assertEqual(copied.say("LEASES"), [["rig", 60000, 0, list(range(2, position + 1))]])
            self.assertEqual((copied.say("FORK 1"), copied.say("NAMES")), ([position + 1, position + 1], [["/build", 1]]))
            two.kill()
            self.assertEqual((two.kept / "identity").read_bytes(), (one.kept / "identity").read_bytes())
        self.assertIn("has a table: name an empty directory", by_itself("--copy", one.socket, two.kept)[2])
        three = self.daemon(name="three")
        self.assertEqual(by_itself("--copy", three.socket, three.kept)[0], 1)
        self.assertEqual([path.name for path in three.kept.iterdir()], ["lock"])


POLYNOMIAL = 0xc96c5795d7870f42


def crc(before, data):
    """CRC-64/XZ, a bit at a time."""
    register = before ^ (1 << 64) - 1
    for byte in data:
        register ^= byte
        for _ in range(8):
            register = register >> 1 ^ POLYNOMIAL * (register & 1)
    return register ^ (1 << 64) - 1


def former_file(*lines):
    """The file `leases` of a former release: a line a fact, each with the checksum of all lines up to it."""
    text = b"pidtab leases 1\n"
    total = crc(0, text)
    for line in lines:
        total = crc(total, line.encode())
        text += f"{line} {total:016x}\n".encode()
    return text


class Former(Case):
    """A directory whose leases are beside the log, in the file `leases`: it is taken over."""

    def setUp(self):
        super().setUp()
        self.assertEqual(crc(0, b"123456789"), 0x995dc9bbdf1939fa)

    def forked(self, count=3, pid_max="32768"):
        one = self.daemon("--fsync", "always", "--pid-max", pid_max).start()
        client = one.client()
        for _ in range(count):
            client.say("FORK 1")
        return one, client

    def refused_by(self, one, why):
        one.start(is_up=False)
        self.assertEqual(one.process.wait(timeout=20), 3)
        self.assertRegex(one.said(), why)

    def test_it_is_taken_over(self):
        one, _ = self.forked()
        one.kill()
        path = one.kept / "leases"
        path.write_bytes(former_file("at 3", "lease 0 rig 1 60000", "bind 1 2 1", "bind 1 3 2", "bind 1 4 3", "free 1 4",
                                     "lease 0 gone 2 1", "release 2", "lease 7 web 3 500000", "bind 3 9 1"))
        for _ in range(2):
            self.assertEqual(one.start().client().say("LEASES"), [["rig", 60000, 0, [2, 3]], ["web", 500000, 0, []]])
            self.assertFalse(path.exists())
            one.kill()
        client = one.start().client()
        client.say("LEASE new 60000")
        client.say("FORK 1")
        one.kill()
        self.assertEqual(one.start().client().say("LEASES")[0], ["new", 60000, 0, [5]])

    def test_it_ends_nobody_else_s_task(self):
        """Another task has the number of one that was leased: its fork has another stamp."""
        one, client = self.forked(299, "301")
        client.say("EXIT 300 0")
        client.say("WAIT 1 ANY")
        # 299 calls, an exit and a wait: the next one has the stamp 302, and the number that is free again.
        self.assertEqual(client.say("FORK 1"), [300, 300])
        one.kill()
        (one.kept / "leases").write_bytes(former_file("at 299", "lease 0 rig 1 100", "bind 1 300 299", "bind 1 299 298"))
        client = one.start().client()
        self.assertEqual(client.say("LEASES"), [["rig", 100, 0, [299]]])
        time.sleep(0.5)
        self.assertEqual((client.say("LEASES"), client.say("GETPID 300")), ([], 300))

    def test_one_older_than_the_snapshot_is_refused(self):
        one, client = self.forked()
        client.say("BGSAVE")
        while "snapshot:3\r" not in client.say("INFO"):
            time.sleep(0.02)
        one.kill()
        (one.kept / "leases").write_bytes(former_file("at 2", "lease 0 rig 1 60000", "bind 1 2 1"))
        self.refused_by(one, "leases: is that of call 2, and the snapshot that of call 3: restore both from one copy")
        (one.kept / "leases").write_bytes(former_file("at 3", "lease 0 rig 1 60000", "bind 1 2 1", "bind 1 3 9"))
        self.assertEqual(one.start().client().say("LEASES"), [["rig", 60000, 0, [2]]])

    def test_damage(self):
        """One that has another byte is refused by its name; a torn end is left out."""
        one, _ = self.forked()
        one.kill()
        whole = former_file("at 3", "lease 0 rig 1 60000", "bind 1 2 1", "bind 1 3 2")
        path = one.kept / "leases"
        for place in range(0, len(whole) - 1, 7):
            path.write_bytes(whole[:place] + bytes([whole[place] ^ 1]) + whole[place + 1:])
            self.refused_by(one, "leases: line [1-5]: ")
        for end in (whole[:-4], whole[:-9] + bytes(9)):
            path.write_bytes(end)
            self.assertEqual(one.start().client().say("LEASES"), [["rig", 60000, 0, [2]]])
            one.kill()
            path.unlink(missing_ok=True)
            shutil.rmtree(one.kept)
            one.kept.mkdir(mode=0o700)
            client = one.start().client()
            for _ in range(3):
                client.say("FORK 1")
            one.kill()


class Full(Case):
    def small_disk(self, size="200k"):
        """A daemon whose directory is a file system of its own."""
        if os.geteuid() != 0:
            self.skipTest("not root")
        one = self.daemon("--fsync", "always")
        mounted = subprocess.run(["mount", "-t", "tmpfs", "-o", f"size={size},mode=700", "none", one.kept], check=False, capture_output=True)
        if mounted.returncode:
            self.skipTest("no mount")
        self.addCleanup(subprocess.run, ["umount", "-l", one.kept], check=False)
        return one.start()

    def grow(self, one):
        subprocess.run(["mount", "-o", "remount,size=4m", one.kept], check=True)

    def test_answers_wait_for_room(self):
        """The disk fills up: the answers are held back, and all come when there is room."""
        one = self.small_disk()
        client = one.client()
        client.socket.sendall(b"EXEC 1\r\n" * 10000)
        client.socket.settimeout(1)
        answered = 0
        with self.assertRaises(TimeoutError):
            while client.answer() == "OK":
                answered += 1
        self.assertTrue(0 < answered < 5000, answered)
        before = one.time()
        time.sleep(1)
        self.assertLess(one.time() - before, 0.2)
        self.grow(one)
        client.socket.settimeout(30)
        self.assertEqual([client.answer() for _ in range(10000 - answered)], ["OK"] * (10000 - answered))
        self.assertEqual(client.say("POSITION"), 10000)
        self.assertEqual(one.end(), 0)
        self.assertEqual(one.start().client().say("POSITION"), 10000)

    def test_one_call_at_a_time_waits_for_room(self):
        """Batches that are written over zeroes: there is room for fewer of these than are wanted, and then for none."""
        one = self.small_disk()
        client = one.client()
        client.socket.settimeout(1)
        answered = 0
        with self.assertRaises(TimeoutError):
            while client.say("EXEC 1") == "OK":
                answered += 1
        self.assertTrue(2000 < answered < 5000, answered)
        self.grow(one)
        client.socket.settimeout(30)
        self.assertEqual(client.answer(), "OK")
        self.assertEqual([client.say("EXEC 1") for _ in range(1000)], ["OK"] * 1000)
        one.kill()
        self.assertEqual(one.start().client().say("POSITION"), answered + 1001)

    def fill(self, one):
        """The disk has no room: how many calls were answered before, one at a time; the last one waits."""
        client = one.client()
        client.socket.settimeout(1)
        answered = 0
        with self.assertRaises(TimeoutError):
            while client.say("FORK 1"):
                answered += 1
        client.socket.settimeout(30)
        return client, answered

    def test_who_asks_is_answered(self):
        """While calls wait for room, PING and INFO are answered, and queries by what is saved; a call of another waits too. And it is said."""
        one = self.small_disk()
        caller, answered = self.fill(one)
        client, other = one.client(), one.client()
        client.socket.settimeout(5)
        self.assertEqual((client.say("PING"), client.say("GETPPID 2"), client.say(f"GETPID {answered + 1}")), ("PONG", 1, answered + 1))
        self.assertEqual(client.say(f"STAT 1 {answered + 1}")[5], answered + 1)
        self.assertEqual((client.say("PAGE 1 CHILDREN 0 0 0"), client.say("WOULD fork 1")), ([answered, []], [answered + 2, answered + 2]))
        self.refused(client, f"GETPID {answered + 2}", "ESRCH no-caller")
        self.refused(client, f"STAT 1 {answered + 2}", "ESRCH no-task")
        told = client.say("INFO")
        for field in (f"position:{answered}", "waiting_calls:1", "is_stuck:1", f"stuck_by:{one.kept}/log-"):
            self.assertIn(f"\n{field}", told)
        client.socket.sendall(b"GETPID 1\r\nEXEC 1\r\nGETPID 1\r\n")
        self.assertEqual(client.answer(), 1)
        other.send("POSITION")
        client.socket.settimeout(0.5)
        self.assertRaises(TimeoutError, client.answer)
        self.assertRegex(one.said(), "log-[0-9]{20}: No space left on device .*: answers wait until it can be written\n$")
        before = one.time()
        time.sleep(0.5)
        self.assertLess(one.time() - before, 0.1)
        self.grow(one)
        client.socket.settimeout(30)
        self.assertEqual((caller.answer(), client.answer(), client.answer()), ([answered + 2, answered + 2], "OK", 1))
        self.assertIn(other.answer(), (answered + 1, answered + 2))
        self.assertIn("waiting_calls:0\r\n", client.say("INFO"))
        self.assertTrue(one.said().endswith("pidtabd: the disk takes what has waited, and answers go out\n"), one.said())
        # The file has what was written and no more: so it is closed, and a snapshot is made of it.
        client.say("BGSAVE")
        end = time.monotonic() + 20
        while f"snapshot:{answered + 2}\r" not in client.say("INFO"):
            self.assertLess(time.monotonic(), end, one.said())
            time.sleep(0.02)
        one.kill()
        self.assertEqual(one.start().client().say("POSITION"), answered + 2)

    def test_forks_under_a_lease_wait_for_room(self):
        """Each is in the log once, with its lease, and so is a lease that was taken meanwhile."""
        one = self.small_disk()
        client, other = one.client(), one.client()
        client.say("LEASE rig 3600000")
        client.socket.settimeout(1)
        answered = 0
        with self.assertRaises(TimeoutError):
            while client.say("FORK 1"):
                answered += 1
        self.assertTrue(1000 < answered < 2500, answered)
        other.send("LEASE", "late", "3600000")
        self.grow(one)
        client.socket.settimeout(30)
        self.assertEqual((client.answer(), other.answer()), ([answered + 2, answered + 2], "OK"))
        for _ in range(500):
            client.say("FORK 1")
        one.kill()
        other = one.start().client()
        self.assertEqual(other.say("POSITION"), answered + 501)
        self.assertEqual(other.say("LEASES"), [["late", 3600000, 0, []], ["rig", 3600000, 0, list(range(2, answered + 503))]])


if __name__ == "__main__":
    unittest.main()
