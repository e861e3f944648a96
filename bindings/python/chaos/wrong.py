"""Wrong versions of the package, and members that do not sync, each of which a run finds: `python3 -m chaos.wrong SWITCH [NAME ..]`, as root.

An edit of `cluster/wrong` is planted in a copy, and the run has the troubles in which it shows. A line says of each by which faults it was found.
"""

import re
import shutil
import signal
import subprocess
import sys
import tempfile
from collections.abc import Sequence
from pathlib import Path
from typing import NamedTuple

from chaos.kernel import Ended, ends_by_signals
from cluster.test_wrong import plant

PACKAGE = Path(__file__).resolve().parents[1]
EDITS = PACKAGE / "cluster" / "wrong"

# Which one is found is a matter of chance, so there are so many tries, each with another seed.
SEEDS = range(1, 5)


class Wrong(NamedTuple):
    """The troubles in which a wrong version shows, for how many seconds, and the kinds of faults by one of which it has to be found."""

    troubles: str
    seconds: int
    kinds: str
    # Words for each member of etcd.
    member: Sequence[str] = ()
    # How etcd goes back in time, in a run that has no other trouble.
    way: str = ""


WRONG = {
    "log_an_entry_is_made_twice": Wrong("compact", 10, "wrong"),
    "log_a_number_is_used_again": Wrong("kill_member", 20, "lost made fault"),
    "log_a_session_of_two_hosts": Wrong("compact", 10, "lost fault"),
    "log_an_answer_to_another": Wrong("compact", 10, "wrong lost fault"),
    "log_answered_before_it_is_there": Wrong("compact", 10, "wrong"),
    "log_a_read_that_does_not_wait": Wrong("slow", 40, "stale"),
    "log_a_cancel_is_not_looked_at": Wrong("compact", 10, "made"),
    "log_never_said_to_be_sent": Wrong("kill_members,kill_host", 60, "made"),
    "log_no_second_try": Wrong("kill_members,slow", 30, "lost fault late"),
    "etcd_in_the_order_of_keys": Wrong("kill_host", 20, "wrong digest fault"),
    "etcd_a_page_read_beyond_its_bound": Wrong("kill_host,stop_host,slow,compact", 60, "wrong digest fault"),
    "etcd_a_watch_leaves_one_out": Wrong("kill_member", 20, "wrong digest doubled fault"),
    "etcd_a_watch_at_a_dead_member": Wrong("lost_member", 110, "late"),
    "set_back_nothing_is_compared": Wrong("", 0, "goes on unnoticed fault", way="restored_ahead"),
    "set_back_a_put_that_compares_nothing": Wrong("", 0, "log wrong digest writer foreign fault", way="restored"),
    "set_back_a_look_that_compares_nothing": Wrong("", 0, "goes on unnoticed", way="restored_ahead"),
    "set_back_a_watch_that_compares_nothing": Wrong("", 0, "unnoticed goes on fault", way="restored_ahead"),
    "set_back_taken_for_a_cut": Wrong("", 0, "unnoticed goes on fault", way="restored"),
    "members_that_do_not_sync": Wrong("power_members", 40, "lost record log digest fault", ("--unsafe-no-fsync",)),
}


def run(name: str, switch: Path, seed: int) -> str:
    """The verdict on a run of a wrong version."""
    wrong = WRONG[name]
    with tempfile.TemporaryDirectory(prefix="pidtab-chaos-") as folder:
        copy = Path(folder) / "python"
        shutil.copytree(PACKAGE, copy, ignore=shutil.ignore_patterns("__pycache__"))
        edit = EDITS / f"{name}.edit"
        if edit.exists():
            plant(edit.read_text(encoding="utf-8"), copy / "pidtab")
        words = ["--seed", seed, "--folder", Path(folder) / "run", "--switch", switch, *(f"--member={it}" for it in wrong.member)]
        words += ["--way", wrong.way] if wrong.way else ["--seconds", wrong.seconds, "--troubles", wrong.troubles]
        command = [sys.executable, "-B", "-m", "chaos.set_back" if wrong.way else "chaos.run", *map(str, words)]
        done = subprocess.run(command, cwd=copy, capture_output=True, text=True, check=False)
    if done.returncode not in (0, 1):
        raise RuntimeError(f"{name}: {done.stderr}")
    return done.stdout


def kinds_of(verdict: str) -> set[str]:
    """The kinds of faults of a verdict; what the harness itself has met is none."""
    found = verdict.partition("NOT WELL: ")[2].partition("; ")[0]
    return {kind for kind, first in re.findall(r"([a-z ]+) \d+ \((.*?)\)(?:, |$)", found) if not first.startswith("the harness")}


def find(name: str, switch: Path) -> bool:
    """Whether a wrong version is found, which is said."""
    for seed in SEEDS:
        verdict = run(name, switch, seed)
        found = kinds_of(verdict) & set(WRONG[name].kinds.split())
        if found:
            print(f"{name}: found, by seed {seed}: {verdict.partition(': ')[2].strip()[:200]}", flush=True)
            return True
    print(f"{name}: NOT FOUND: {verdict.strip()}", flush=True)
    return False


def main() -> int:
    """Plants those that are named, or all."""
    switch, names = Path(sys.argv[1]).absolute(), sys.argv[2:] or list(WRONG)
    try:
        with ends_by_signals():
            return 0 if all([find(name, switch) for name in names]) else 1
    except Ended:
        return 128 + signal.SIGTERM


if __name__ == "__main__":
    sys.exit(main())
