"""Network namespaces, which the switch joins: what goes from one to another is lost, late, out of order, doubled or cut, as is asked for."""

import queue
import subprocess
import threading
from collections.abc import Callable, Iterable, Sequence
from pathlib import Path
from typing import NamedTuple, TypeVar

from chaos.kernel import enter_network, new_network

T = TypeVar("T")


class Rule(NamedTuple):
    """What happens to the frames from one place to another: how many of 1,000 are lost and doubled, and by how many microseconds they are late."""

    loss: int = 0
    delay: int = 0
    jitter: int = 0
    doubled: int = 0


CUT = Rule(loss=1000)
WELL = Rule()


def address_of(place: int) -> str:
    """Where a place is called."""
    return f"10.77.0.{place + 1}"


def hardware_of(place: int) -> str:
    """The address of a place below IP."""
    return f"02:00:00:00:00:{place + 1:02x}"


def in_thread(step: Callable[[], T]) -> T:
    """What a step answers, in a thread of its own, which ends then."""
    told: "queue.SimpleQueue[tuple[T | None, BaseException | None]]" = queue.SimpleQueue()

    def run() -> None:
        try:
            told.put((step(), None))
        except BaseException as fault:
            told.put((None, fault))

    threading.Thread(target=run, daemon=True).start()
    answer, fault = told.get()
    if fault is not None:
        raise fault
    return answer  # type: ignore[return-value]


class Network:
    """Some places, each a namespace with one address. It goes with the process that has made it."""

    def __init__(self, switch: Path, count: int, seed: int = 1) -> None:
        self._spaces = [in_thread(new_network) for _ in range(count)]
        self._rules: dict[tuple[int, int], Rule] = {}
        command = [str(switch), str(seed), *map(self._path, range(count))]
        self._switch = subprocess.Popen(command, stdin=subprocess.PIPE, stdout=subprocess.PIPE, text=True, pass_fds=self._spaces)
        assert self._switch.stdout
        if self._switch.stdout.readline() != "ready\n":
            raise OSError("the switch does not begin: see its words above")
        for place in range(count):
            self._set_up(place)

    def command(self, place: int, words: Iterable[object]) -> list[str]:
        """The words that run a command at a place; who runs them passes `spaces` on."""
        return ["nsenter", f"--net={self._path(place)}", *map(str, words)]

    @property
    def spaces(self) -> Sequence[int]:
        """The open files of the namespaces."""
        return self._spaces

    def at(self, place: int, step: Callable[[], T]) -> T:
        """What a step answers at a place."""

        def run() -> T:
            enter_network(self._spaces[place])
            return step()

        return in_thread(run)

    def set(self, one: int, other: int, rule: Rule) -> None:
        """Sets what happens from one place to another."""
        if self._rules.get((one, other), WELL) == rule:
            return
        self._rules[one, other] = rule
        assert self._switch.stdin
        self._switch.stdin.write(f"{one} {other} {rule.loss} {rule.delay} {rule.jitter} {rule.doubled}\n")
        self._switch.stdin.flush()

    def set_all(self, rule: Rule) -> None:
        """Sets what happens between all places."""
        for one in range(len(self._spaces)):
            for other in range(len(self._spaces)):
                self.set(one, other, rule)

    def close(self) -> str:
        """Ends the switch: what it says that it did."""
        said, _ = self._switch.communicate()
        return said.strip()

    def _path(self, place: int) -> str:
        return f"/proc/self/fd/{self._spaces[place]}"

    def _set_up(self, place: int) -> None:
        """Gives a place its address, and says where the others are: nobody asks for addresses below IP, which might be lost."""
        others = [it for it in range(len(self._spaces)) if it != place]
        steps = ["link set lo up", f"link set tap0 address {hardware_of(place)} up", f"addr add {address_of(place)}/24 dev tap0"]
        steps += [f"neigh replace {address_of(it)} lladdr {hardware_of(it)} nud permanent dev tap0" for it in others]
        command = self.command(place, ["ip", "-batch", "-"])
        subprocess.run(command, input="\n".join(steps) + "\n", text=True, check=True, pass_fds=self._spaces)
