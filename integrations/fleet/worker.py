"""The worker of a fleet: leases a partition, hosts its instances, and answers the requests to them.

Rules that make each request one entry, whatever dies and whenever:

1. Before its first request a new host replays the whole log of its partition, and what it reads is counted.
2. A request with the number of its client's last entry at that instance is answered by that entry; one with a smaller number enters
   nothing.
3. Entries are appended behind the position that the log was read to, and replies are sent only once the engine confirms the append.
4. Where the engine says no to an append, or nothing, the host is thrown away, and the log is read anew.
5. A host gets no line that is too long for it, and answers each request by its own name. What ends it again and again is given up, in the
   log.

A host that made no call whose entry isn't in the log is kept where its lease ends or the engine is gone: it may go on from there.

A worker that serves nothing may follow the log of a partition: its host replays entries as they come, so it serves at once where the server
is lost, however long the log is.
"""
from __future__ import annotations

import logging
import random
import time
from collections import Counter
from collections.abc import Callable, Sequence
from contextlib import ExitStack, closing

from engine import Engine, EngineError, Role
from host import Ended, Host, Lost
from lease import Lease
from partition import Blamed, Misread, Partition
from program import Unfit, must_fit
from service import Service
from status import Status

log = logging.getLogger("fleet")

MOST_BLAMED = 1000
CLAIM_SECONDS = 0.2
READ_SECONDS = 2.0  # how long who follows reads on before it looks for free partitions
RETRY_SECONDS = 1.0
KEPT_LEASES = 2  # how long a host is kept whose partition others may take
AVOID_SECONDS = 10.0  # how long others come first where a log was misread


class LeaseEnded(Lost):
    """The lease wasn't renewed in time."""


class Worker:
    """Holds one partition after another. Each has a connection of its own, so nothing of one that was lost is in the way of the next."""

    def __init__(self, connect: Callable[[], Engine], command: Sequence[str], is_stopped: Callable[[], bool], follows: bool = False,
                 status: Status | None = None) -> None:
        self.connect, self.command, self.is_stopped, self.follows = connect, command, is_stopped, follows
        self.status = status or Status()
        self.blamed = Counter[tuple[str, str, int]]()
        self.spare: Host | None = None
        self.followed: Partition | None = None
        self.following: Lease | None = None
        self.kept_until = 0.0
        self.known = 0  # entries that the host had replayed when we began to follow
        self.freed: dict[int, float] = {}
        self.avoided: dict[int, float] = {}

    def work(self) -> None:
        """Works until it is stopped. Raises `Unfit` where it can't serve this fleet."""
        try:
            while not self.is_stopped():
                self.try_once()
        finally:
            self.stop_following()
            if self.spare:
                self.spare.close()

    def try_once(self) -> None:
        """Holds a partition, once one is free."""
        try:
            with closing(self.connect()) as engine:
                for made in engine.mend():
                    log.warning("made anew: %s", made)
                must_fit(self.command, engine.head())
                self.find(engine)
            self.pause()
        except Lost as reason:
            log.warning("%s", reason)
            self.pause()
        except (EngineError, OSError) as error:
            log.warning("begins anew: %s", error)
            self.status.role = "begins"
            time.sleep(RETRY_SECONDS)

    def find(self, engine: Engine) -> None:
        """Waits for a free partition, and holds it."""
        while not self.is_stopped():
            self.spare = self.spare or (None if self.followed else self.begin())
            number = self.choose(engine)
            if number is not None:
                with closing(Lease(self.connect, Role.SERVE, number, engine.head().lease, self.status)) as lease:
                    if lease.claim():
                        self.hold(engine, lease)
                        return
            if self.follows:
                self.follow(engine)
            elif not self.followed or time.monotonic() > self.kept_until:
                self.stop_following()
                self.status.role, self.status.partition = "waits", -1
            self.pause()

    def begin(self) -> Host:
        """A host that is ready. Where it ends by itself no other would do better."""
        host = Host(self.command)
        try:
            host.is_ready()
        except Ended as end:
            host.close()
            raise Unfit(f"{end} at once") if end.status >= 0 else end
        return host

    def choose(self, engine: Engine) -> int | None:
        """A free partition to serve. One that somebody else follows is left to them for a lease, and so is another than we follow
        ourselves."""
        free, now = engine.free(Role.SERVE), time.monotonic()
        self.freed = {p: self.freed.get(p, now) for p in free}
        ours = self.followed.number if self.followed else None
        if not free or ours in free:
            return ours if free else None
        alone = [] if self.followed else engine.free(Role.FOLLOW)
        left = [p for p in free if (p in alone or now > self.freed[p] + engine.head().lease) and now > self.avoided.get(p, 0.0)]
        return random.choice(left) if left else None

    def follow(self, engine: Engine) -> None:
        """Replays what came to the log of a partition that nobody else follows."""
        if self.following is None and not self.begin_to_follow(engine):
            self.status.role = "waits"
            return
        assert self.following and self.followed
        if not self.following.is_ours():
            self.let_follow(self.followed, self.following)
            return
        end = time.monotonic() + READ_SECONDS
        try:
            is_behind = self.read_some(engine, self.followed, lambda: time.monotonic() < end) < 0
            if not is_behind and self.status.role != "follows":
                log.info("follows partition %d behind %d entries, of which it read %d", self.followed.number, self.followed.entries,
                         self.followed.entries - self.known)
            self.status.role = "replays" if is_behind else "follows"
        except Lost as reason:
            log.warning("doesn't follow partition %d any more: %s", self.followed.number, reason)
            self.stop_following()

    def begin_to_follow(self, engine: Engine) -> bool:
        """Leases a partition to be followed: the one whose host was kept, if nobody else follows that."""
        free = engine.free(Role.FOLLOW)
        number = self.followed.number if self.followed else random.choice(free or [None])
        if number in free:
            with ExitStack() as stack:
                lease = stack.enter_context(closing(Lease(self.connect, Role.FOLLOW, number, engine.head().lease, self.status)))
                if lease.claim():
                    self.followed = self.followed or Partition(number, self.take_spare(), self.status)
                    self.following, self.known, self.status.role = lease, self.followed.entries, "replays"
                    stack.pop_all()
                    return True
        if self.followed and time.monotonic() > self.kept_until:
            self.stop_following()
        return False

    def let_follow(self, partition: Partition, following: Lease) -> None:
        """Lets others follow a partition, since our lease ended."""
        log.warning("doesn't follow partition %d for now: its lease ended", partition.number)
        following.close()
        self.following, self.status.role = None, "waits"
        self.keep(partition, following.seconds)

    def keep(self, partition: Partition, seconds: float) -> None:
        """Keeps a host for some leases of so many seconds. What it replayed is still the log's, and it may go on from there."""
        self.followed, self.kept_until = partition, time.monotonic() + KEPT_LEASES * seconds + RETRY_SECONDS

    def stop_following(self) -> None:
        partition, lease = self.followed, self.following
        self.followed = self.following = None
        if partition:
            partition.close()
        if lease:
            lease.close()

    def take_spare(self) -> Host:
        host, self.spare = self.spare or self.begin(), None
        return host

    def hold(self, engine: Engine, lease: Lease) -> None:
        """Serves a partition that is leased, until the lease is lost or the worker is stopped. Where its host ends at a request, another
        host goes on, which is told of it."""
        try:
            while not self.is_stopped():
                try:
                    self.serve(engine, lease)
                except Blamed as reason:
                    self.blame(reason)
        except Lost as reason:
            if isinstance(reason, Misread):
                self.avoided[lease.partition] = time.monotonic() + AVOID_SECONDS
            raise Lost(f"lost partition {lease.partition}: {reason}") from reason

    def blame(self, reason: Blamed) -> None:
        log.warning("%s", reason)
        if len(self.blamed) > MOST_BLAMED:
            self.blamed.clear()
        self.blamed[reason.request.key] += 1

    def partition_of(self, lease: Lease) -> Partition:
        """The partition that is leased: the one that we follow or kept, or one whose log is still to be read."""
        if self.followed and self.followed.number == lease.partition:
            partition, following = self.followed, self.following
            self.followed = self.following = None
            if following:
                following.close()
            return partition
        self.stop_following()
        return Partition(lease.partition, self.take_spare(), self.status)

    def serve(self, engine: Engine, lease: Lease) -> None:
        """Serves a partition by one host."""
        partition = self.partition_of(lease)
        try:
            self.answer(engine, lease, partition)
        except (LeaseEnded, EngineError, OSError):
            if not partition.is_behind and not partition.is_spoilt:
                self.keep(partition, lease.seconds)
            raise
        finally:
            if self.followed is not partition:
                partition.close()

    def answer(self, engine: Engine, lease: Lease, partition: Partition) -> None:
        """Reads the log, and then answers requests."""
        began, known, self.status.role = time.monotonic(), partition.entries, "replays"
        while self.read_some(engine, partition, lambda: self.goes_on(lease)) != 0 and not self.is_stopped():
            pass
        if not self.is_stopped():
            log.info("holds partition %d behind %d entries, of which it read %d in %.2f s", lease.partition, partition.entries,
                     partition.entries - known, time.monotonic() - began)
        service, self.status.role = Service(engine, partition, self.blamed), "serves"
        while not self.is_stopped():
            self.goes_on(lease)
            service.turn()

    def read_some(self, engine: Engine, partition: Partition, go_on: Callable[[], bool]) -> int:
        """Reads on in the log, as `Partition.catch_up` says. A host that ends by itself at it takes it no other time."""
        try:
            return partition.catch_up(engine, go_on)
        except Ended as end:
            raise Unfit(f"{end} at the log of partition {partition.number}") if end.status >= 0 else end

    def goes_on(self, lease: Lease) -> bool:
        """Whether the worker isn't stopped. Its lease must be ours."""
        if not self.is_stopped() and not lease.is_ours():
            raise LeaseEnded("the lease ended")
        return not self.is_stopped()

    def pause(self) -> None:
        """Lets others come first, at times that differ from theirs."""
        time.sleep(CLAIM_SECONDS * (0.5 + random.random()))
