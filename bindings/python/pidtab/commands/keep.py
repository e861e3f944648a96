"""`pidtab-keep`: follows the log of a table on many hosts, writes its snapshots, and cuts the log after them."""

import argparse
import signal
import ssl
import time
from collections.abc import Callable, Sequence
from contextlib import suppress
from functools import partial
from pathlib import Path
from types import FrameType
from typing import TypeVar

from pidtab.calls import Calls
from pidtab.commands.common import STATUS_DONE, STATUS_FAULT, STATUS_INTERRUPTED, STATUS_USAGE, complain, finish, parser_of
from pidtab.faults import LibraryFault, LogFault
from pidtab.hosts.archive import Archive, ArchiveFault
from pidtab.hosts.backoff import Backoff
from pidtab.hosts.etcd_log import EtcdLog
from pidtab.hosts.keeper import MEGABYTE, Keeper, Wishes
from pidtab.hosts.machine import NoMemory
from pidtab.hosts.salvage import begin, salvage
from pidtab.table import Table

T = TypeVar("T")

# For so many seconds etcd is asked by what is done once.
LONGEST_ONCE = 30.0

ABOUT = """Writes snapshots of a table on many hosts, and cuts its log in etcd behind them, until it is ended by a signal.
Or, once, it writes the table of a log that cannot be used any more into a file, or begins a new log with such a file."""


def number_of(word: str) -> float:
    """A number of the command line."""
    try:
        number = float(word)
    except ValueError:
        number = 0.0
    if not 0 < number < float("inf"):
        raise argparse.ArgumentTypeError(f"a number above 0, not {word}")
    return number


def read_command_line(called: str, words: Sequence[str] | None) -> argparse.Namespace:
    """The words of the command line."""
    parser = parser_of(called, ABOUT)
    parser.add_argument("--archive", type=Path, metavar="DIRECTORY", help="keep what is cut, in files in this folder, which pidtab-replay reads")
    ways = parser.add_mutually_exclusive_group()
    ways.add_argument("--check", action="store_true", help="write no snapshots, and only check those of others")
    ways.add_argument("--alone", action="store_true", help="nobody else checks: what this one writes serves at once")
    parser.add_argument("--bytes", type=number_of, default=16.0, metavar="MB", help="write one when the log has grown by so much, 16 by default")
    parser.add_argument("--times", type=number_of, default=4.0, metavar="N", help="and by so many times the last snapshot, 4 by default")
    parser.add_argument("--most", type=number_of, default=64.0, metavar="MB", help="write none that is greater, packed; 64 by default")
    ways.add_argument("--salvage", type=Path, metavar="FILE", help="write the table into a file, as all entries that are good have made it, and end")
    parser.add_argument("--begin", metavar="NAME", help="begin a log of this name with the table of --from, and end; then no other name is given")
    parser.add_argument("--from", type=Path, dest="dump", metavar="DUMP", help="the file of --begin, as --salvage or `dump` write it")
    parser.add_argument("--now", action="store_true", help="cut the log behind snapshots that are there, write one, and end")
    parser.add_argument("--user", metavar="NAME", help="a user of etcd")
    parser.add_argument("--password", type=Path, metavar="FILE", help="whose first line is the user's password")
    parser.add_argument("--ca", type=Path, metavar="FILE", help="speak TLS, with members whose certificates these authorities have signed")
    parser.add_argument("--certificate", type=Path, metavar="FILE", help="one's own certificate, for --ca")
    parser.add_argument("--key", type=Path, metavar="FILE", help="the key of that certificate")
    parser.add_argument("--library", metavar="PATH", help="have the table by this library")
    parser.add_argument("name", help="the name of the log")
    parser.add_argument("member", nargs="*", help="HOST:PORT of a member of etcd")
    given = parser.parse_args(words)
    if (given.begin is None) != (given.dump is None):
        parser.error("--begin and --from go together")
    if given.begin is not None:
        given.name, given.member = given.begin, [given.name, *given.member]
    if not given.member:
        parser.error("the following arguments are required: member")
    if (given.user is None) != (given.password is None):
        parser.error("--user and --password go together")
    if (given.certificate is None) != (given.key is None) or (given.key and not given.ca):
        parser.error("--certificate and --key go together, with --ca")
    return given


def open_log(given: argparse.Namespace) -> EtcdLog:
    """The log that is named."""
    tls = None
    if given.ca is not None:
        tls = ssl.create_default_context(cafile=given.ca)
        if given.key is not None:
            tls.load_cert_chain(given.certificate, given.key)
    user = None if given.user is None else (given.user, given.password.read_text("utf-8").partition("\n")[0])
    return EtcdLog(given.member, given.name, tls=tls, user=user)


def say(called: str, text: str) -> None:
    """Says what was done. Nobody has to read it."""
    with suppress(OSError):
        print(f"{called}: {text}", flush=True)


def make_keeper(given: argparse.Namespace) -> Keeper:
    """What does as the command line says."""
    archive = None if given.archive is None else Archive(given.archive, given.name)
    wishes = Wishes(int(given.bytes * MEGABYTE), given.times, int(given.most * MEGABYTE), given.check, given.alone)
    log = open_log(given)

    def open_table(pid_max: int) -> Calls:
        return Table(pid_max, given.library)

    # Before anything is asked: whether there is a library.
    open_table(pid_max=301).close()
    return Keeper(log, open_table, wishes, archive, partial(say, given.called))


def end_by_signals(keeper: Keeper) -> list[int]:
    """Has signals end it; the numbers of those that came."""
    came: list[int] = []

    def end(number: int, frame: FrameType | None) -> None:
        came.append(number)
        keeper.end()

    for number in (signal.SIGTERM, signal.SIGINT):
        signal.signal(number, end)
    return came


def insist(step: Callable[[], T]) -> T:
    """What a step of the log answers, tried until it does for some seconds."""
    backoff, deadline = Backoff(), time.monotonic() + LONGEST_ONCE
    while True:
        try:
            return step()
        except OSError as fault:
            if time.monotonic() > deadline:
                raise LogFault(f"the log does not answer: {fault}") from fault
        time.sleep(backoff.next())


def salvage_into(given: argparse.Namespace) -> None:
    """Writes what is good of a log into a file."""
    log = open_log(given)
    found = insist(lambda: salvage(log, lambda pid_max: Table(pid_max, given.library)))
    given.salvage.write_bytes(found.text)
    say(given.called, f"{given.salvage} has the table behind entry {found.position}")
    if found.left:
        say(given.called, f"{found.left} entries behind it cannot be used: {found.why}")


def begin_from(given: argparse.Namespace) -> None:
    """Begins a log with the table of a file."""
    text = given.dump.read_text("ascii")
    try:
        table = Table.from_dump(text, given.library)
    except ValueError as fault:
        raise LogFault(f"{given.dump} is none of a table: {fault}") from None
    with table:
        log = open_log(given)
        insist(lambda: begin(log, table, table.pid_max))
    say(given.called, f"the log {given.name} begins with the table of {given.dump}")


def run_once(given: argparse.Namespace) -> int:
    """Does what is done once, if that is asked for."""
    try:
        (salvage_into if given.salvage is not None else begin_from)(given)
    except (ValueError, OSError) as fault:
        return complain(f"{given.called}: {fault}", STATUS_USAGE)
    except (RuntimeError, MemoryError, NoMemory) as fault:
        return complain(f"{given.called}: {fault}", STATUS_FAULT)
    return STATUS_DONE


def run(called: str = "pidtab-keep", words: Sequence[str] | None = None) -> int:
    """Keeps what the command line names."""
    given = read_command_line(called, words)
    if given.salvage is not None or given.begin is not None:
        return run_once(given)
    try:
        keeper = make_keeper(given)
    except (ValueError, ArchiveFault) as fault:
        return complain(f"{given.called}: {fault}", STATUS_USAGE)
    except OSError as fault:
        return complain(f"{given.called}: cannot read {fault.filename or given.ca}: {fault.strerror or fault}", STATUS_USAGE)
    except (LibraryFault, MemoryError) as fault:
        return complain(f"{given.called}: no table: {fault}", STATUS_USAGE)
    came = end_by_signals(keeper)
    try:
        keeper.run(given.now)
    except (RuntimeError, MemoryError, NoMemory) as fault:
        return complain(f"{given.called}: stopped: {fault}", STATUS_FAULT)
    return STATUS_INTERRUPTED if signal.SIGINT in came else STATUS_DONE


def main() -> None:
    """The program `pidtab-keep`."""
    finish(run)


if __name__ == "__main__":
    main()
