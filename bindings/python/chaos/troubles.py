"""The troubles: each does its harm to a world, and says what it has done, what heals it, and whether calls may wait for as long as it lasts."""

import random
import signal
from collections.abc import Callable, Iterable, Sequence
from contextlib import suppress
from typing import NamedTuple

from chaos import clocks
from chaos.hosts import CHECKS, PLAIN, Child, Host, Keeper
from chaos.members import PLACES, Members
from chaos.network import CUT, WELL, Network, Rule
from chaos.recorder import Recorder

# The patience of a host that begins anew, in seconds.
PATIENCES = (60.0, 20.0, 6.0)

# By how much a clock jumps, in seconds: up to a year, ahead and back.
JUMPS = (1, 30, 3600, 86_400, 31_536_000)

DELAYS = (1_000, 20_000, 60_000)
JITTERS = (5_000, 50_000, 150_000)
LOSSES = (0, 20, 60)
DOUBLED = (0, 50)


class World(NamedTuple):
    """All that can be harmed. The places of members are the first ones."""

    random: random.Random
    network: Network
    members: Members
    hosts: Sequence[Host]
    keepers: Sequence[Keeper]
    recorder: Recorder

    @property
    def places(self) -> range:
        """The places of all."""
        return range(len(PLACES) + len(self.hosts) + len(self.keepers))

    def place_of(self, host: Host) -> int:
        """Where a host is."""
        return len(PLACES) + self.hosts.index(host)

    def leader(self) -> int:
        """The member that leads; any, where none does."""
        found = self.members.leader()
        return self.random.choice(PLACES) if found is None else found

    def member(self) -> int:
        """A member: the one that leads each other time."""
        return self.random.choice(PLACES) if self.random.random() < 0.5 else self.leader()

    def start_host(self, host: Host) -> None:
        """Begins a host anew, which may wait for more or less time, and check snapshots."""
        host.start(self.random.choice(PATIENCES), CHECKS if self.random.random() < 0.25 else PLAIN)

    def cut(self, pairs: Iterable[tuple[int, int]]) -> Callable[[], None]:
        """Cuts off some from others, one way each: what joins them again."""
        cut = list(pairs)
        for one, other in cut:
            self.network.set(one, other, CUT)

        def heal() -> None:
            for one, other in cut:
                self.network.set(one, other, WELL)

        return heal


class Trouble(NamedTuple):
    """What was done, what heals it, and whether calls may wait for as long as it lasts."""

    what: str
    heal: Callable[[], object]
    holds: bool = False


def others(places: Iterable[int], place: int) -> list[int]:
    """All places but one."""
    return [it for it in places if it != place]


def nothing() -> None:
    """What heals by itself."""


def one_way(world: World) -> Trouble:
    """From one place to another nothing comes."""
    member = world.random.choice(PLACES)
    pair = [member, world.random.choice(others(world.places, member))]
    world.random.shuffle(pair)
    return Trouble(f"{pair[0]} to {pair[1]}", world.cut([(pair[0], pair[1])]))


def unheard(world: World) -> Trouble:
    """A member is heard by no other one."""
    member = world.member()
    return Trouble(f"member {member}", world.cut((member, it) for it in others(PLACES, member)))


def deaf(world: World) -> Trouble:
    """A member hears no other one."""
    member = world.member()
    return Trouble(f"member {member}", world.cut((it, member) for it in others(PLACES, member)))


def cut_off(world: World) -> Trouble:
    """A place is cut off."""
    place = world.random.choice([world.member(), world.random.choice(world.places)])
    pairs = [pair for it in others(world.places, place) for pair in ((place, it), (it, place))]
    return Trouble(f"place {place}", world.cut(pairs), holds=True)


def leader_from_host(world: World) -> Trouble:
    """A host does not reach the member that leads, or neither reaches the other."""
    leader, host = world.leader(), world.place_of(world.random.choice(world.hosts))
    pairs = [(host, leader), (leader, host)][: world.random.choice((1, 2))]
    return Trouble(f"leader {leader}, host at {host}, {len(pairs)} ways", world.cut(pairs))


def leader_from_member(world: World) -> Trouble:
    """The member that leads does not reach another one, or is not reached."""
    leader = world.leader()
    pair = [leader, world.random.choice(others(PLACES, leader))]
    world.random.shuffle(pair)
    return Trouble(f"leader {leader}: {pair[0]} to {pair[1]}", world.cut([(pair[0], pair[1])]))


def slow(world: World) -> Trouble:
    """All is late, out of order, lost and doubled."""
    rule = Rule(*(world.random.choice(it) for it in (LOSSES, DELAYS, JITTERS, DOUBLED)))
    world.network.set_all(rule)
    return Trouble(str(rule), lambda: world.network.set_all(WELL), holds=True)


def stop_member(world: World) -> Trouble:
    """A member hangs."""
    member = world.member()
    world.members.send(member, signal.SIGSTOP)
    return Trouble(f"member {member}", lambda: world.members.send(member, signal.SIGCONT))


def stop_host(world: World) -> Trouble:
    """A host hangs."""
    return stop(world.random.choice(world.hosts), holds=True)


def stop_keeper(world: World) -> Trouble:
    """A keeper hangs."""
    return stop(world.random.choice(world.keepers), holds=False)


def stop(child: Child, holds: bool) -> Trouble:
    """Stops a process, of which each thread so finds that much time has passed."""
    child.send(signal.SIGSTOP)
    return Trouble(child.life, lambda: child.send(signal.SIGCONT), holds)


def kill_member(world: World) -> Trouble:
    """A member is killed."""
    member = world.member()
    world.members.kill(member)
    return Trouble(f"member {member}", lambda: world.members.start(member))


def kill_members(world: World) -> Trouble:
    """All members are killed."""
    for it in PLACES:
        world.members.kill(it)
    return Trouble("all", world.members.start_all, holds=True)


def kill_host(world: World) -> Trouble:
    """A host is killed."""
    host = world.random.choice(world.hosts)
    host.kill()
    return Trouble(host.life, lambda: world.start_host(host))


def kill_keeper(world: World) -> Trouble:
    """A keeper is killed."""
    keeper = world.random.choice(world.keepers)
    keeper.kill()
    return Trouble(keeper.life, keeper.start)


def kill_all(world: World) -> Trouble:
    """All members, hosts and keepers are killed."""
    for it in [*world.hosts, *world.keepers]:
        it.kill()
    members = kill_members(world)

    def heal() -> None:
        members.heal()
        for host in world.hosts:
            world.start_host(host)
        for keeper in world.keepers:
            keeper.start()

    return Trouble("all", heal, holds=True)


def power_member(world: World) -> Trouble:
    """A member loses power."""
    member = world.member()
    world.members.lose_power(member)
    return Trouble(f"member {member}", lambda: world.members.start(member))


def power_members(world: World) -> Trouble:
    """All members lose power at once."""
    for it in PLACES:
        world.members.kill(it)
    for it in PLACES:
        world.members.lose_power(it)
    return Trouble("all", world.members.start_all, holds=True)


def compact(world: World) -> Trouble:
    """The history of etcd is dropped up to now."""
    member = world.random.choice(PLACES)
    try:
        revision = world.recorder.record(member)
        world.members.compact(member, revision)
    except (OSError, ValueError) as fault:
        return Trouble(f"not done: {fault!r}"[:80], nothing)
    return Trouble(f"up to {revision}", nothing)


def clock(world: World) -> Trouble:
    """The wall clocks of some processes jump, and are right again later."""
    found = [it.pid for it in [*world.hosts, *world.keepers]] + [world.members.pid(it) for it in PLACES]
    pids = [it for it in found if it is not None]
    jumps = {it: world.random.choice(JUMPS) * world.random.choice((-1, 1)) for it in world.random.sample(pids, world.random.randint(1, len(pids)))}
    set_clocks(jumps)
    return Trouble(f"{len(jumps)} processes", lambda: set_clocks(dict.fromkeys(jumps, 0)))


def set_clocks(jumps: dict[int, int]) -> None:
    """Has wall clocks be ahead by some seconds; some processes may have gone."""
    for pid, seconds in jumps.items():
        with suppress(OSError):
            clocks.jump(pid, seconds)


def lost_member(world: World) -> Trouble:
    """A member is killed, and stays away for long: the others are enough."""
    return kill_member(world)


def all_troubles() -> dict[str, Callable[[World], Trouble]]:
    """The troubles by their names."""
    found = [
        one_way, unheard, deaf, cut_off, leader_from_host, leader_from_member, slow, stop_member, stop_host, stop_keeper, kill_member, kill_members,
        kill_host, kill_keeper, kill_all, power_member, power_members, compact, clock, lost_member,
    ]  # fmt: skip
    return {it.__name__: it for it in found}
