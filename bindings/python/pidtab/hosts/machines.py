"""What makes the entries of a log: the library, where it has replicas, and else Python."""

from collections.abc import Callable

from pidtab.calls import Calls
from pidtab.hosts.library_machine import LibraryMachine, has_replicas
from pidtab.hosts.log_entries import Settings
from pidtab.hosts.machine import Machine
from pidtab.table import Table

AnyMachine = Machine | LibraryMachine


def open_machine(open_table: Callable[[], Calls], settings: Settings) -> AnyMachine:
    """A table with what is known of its log, which has not begun."""
    table = open_table()
    if isinstance(table, Table) and has_replicas(table):
        return LibraryMachine(table, settings)
    return Machine(table, settings)
