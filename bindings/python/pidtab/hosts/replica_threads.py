"""The three threads of one replica: one that follows the log, one that appends to it, and one that watches the time."""

import threading
from collections.abc import Callable

from pidtab.hosts.backoff import Backoff
from pidtab.hosts.crew import LAST_SECONDS, TimedCrew
from pidtab.hosts.replica import Replica
from pidtab.hosts.shared_threads import Clock


class OwnThreads(TimedCrew):
    """The crew of one replica alone."""

    def __init__(self, replica: Replica) -> None:
        super().__init__(replica, Clock())
        self.threads = [threading.Thread(target=it, name=f"pidtab {it.__name__}", daemon=True) for it in (self.follow, self.append, self.watch)]

    def watch_time(self) -> None:
        self.threads[-1].start()

    def follow_log(self) -> None:
        for thread in self.threads[:-1]:
            thread.start()

    def leave_log(self) -> None:
        pass

    def expect(self, position: int) -> None:
        pass

    def wait(self) -> None:
        self.threads[-1].join()

    def do(self, job: Callable[[], object]) -> None:
        threading.Thread(target=job, name="pidtab job", daemon=True).start()

    def end_session(self) -> None:
        """The thread that appends does so by itself."""

    # The thread that follows.

    def follow(self) -> None:
        """Applies what comes of the log, for as long as the replica is open."""
        replica, backoff = self.replica, self.replica.make_backoff()
        while not replica.stopped:
            pause = replica.attempt(lambda: self.follow_once(backoff))
            replica.pause((pause or 0.0) + backoff.next())

    def follow_once(self, backoff: Backoff) -> None:
        """Follows the log until it raises something."""
        replica = self.replica
        replica.replay()
        following = replica.following = replica.log.follow(replica.seen)
        try:
            for progress in following:
                replica.take(progress)
                backoff.reset()
                if replica.stopped:
                    return
        finally:
            following.close()

    # The thread that appends.

    def append(self) -> None:
        """Puts what waits into the log, an entry at a time, and ends the session."""
        replica, backoff = self.replica, self.replica.make_backoff()
        while self.next_comes():
            pause = replica.guard(lambda: replica.send(backoff))
            if pause:
                replica.pause(pause)
        replica.guard(replica.end_session)
        self.has_ended_session()

    def next_comes(self) -> bool:
        """Waits until there is something to send; False where nothing more comes."""
        it = self.replica
        it.changed.wait_for(lambda: it.stopped or it.calls.may_put or (it.closing and it.is_idle()))
        return it.has_to_send()

    # The thread that watches the time.

    def watch(self) -> None:
        """Watches it until the replica has ended, and then ends the others."""
        while not self.ended:
            self.clock.turn(self.next_time())
            self.look()
        # What could not be opened may lack some.
        for thread in self.threads[:-1]:
            if thread.is_alive():
                thread.join(LAST_SECONDS)
