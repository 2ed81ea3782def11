"""A worker of a fleet that dies, sleeps or hears nothing at a chosen moment.

    struck_worker.py FOLDER URL MOMENT TIMES HOST..

FOLDER has the fleet's modules. At the TIMES-th time that requests are `taken`, that entries are `stepped` and about to be appended, that
they are `appended`, that all is `settled`, or that a part of the log is read (`replay`), the worker dies by SIGKILL. At `asleep` it stops
itself once before an append, at `hostless` its host is killed once. At `mute` it hears no answer to some appends, every other one
of which isn't made, and at `broken` the engine fails there. At `slow` a read of the log waits until the lease was renewed for five leases.
At `gap` some messages of the log are lost in the connection; at `forgotten` the server forgets its reader. At `rogue` it leases partitions
whoever has them. At `late` its leases aren't renewed in time, and are given back while a renewal goes on. At `short` an append has few
bytes. At `follow` it follows, at `lapsed` its first lease for that isn't renewed, at `kept` it keeps its host however long its partition is lost, at `never` it goes on. It says so, `struck: MOMENT`, each time that something of this has happened.
"""
from __future__ import annotations

import logging
import os
import signal
import sys
import time
from collections.abc import Callable, Iterator
from dataclasses import dataclass
from pathlib import Path
from typing import Any

LONG_BYTES = 1000
RENEWALS = 15  # five leases
SLOW_LEASES = 10
LATE_LEASE, LATE_SECONDS = 0.5, 1.0
FORGOTTEN_AT = 50
KEPT_LEASES = 1000
SHORT_BYTES = 20_000


@dataclass
class Moment:
    """When something happens to the worker."""

    name: str
    times: int
    seen: int = 0
    renewals: int = 0

    def is_now(self, name: str) -> bool:
        """Whether what comes to this moment is struck."""
        self.seen += name == self.name
        return name == self.name and self.seen == self.times

    def strike(self) -> None:
        """Says that something happened."""
        logging.warning("struck: %s", self.name)

    def strike_again_later(self) -> None:
        """Says that something happened, and has it happen again after one time more."""
        self.strike()
        self.seen, self.times = 0, self.times + 1

    def die_at(self, name: str) -> None:
        if self.is_now(name):
            self.strike()
            os.kill(os.getpid(), signal.SIGKILL)


def kill_hosts() -> None:
    for child in Path(f"/proc/self/task/{os.getpid()}/children").read_text().split():
        os.kill(int(child), signal.SIGKILL)


def lose_some(engine: Any, moment: Moment) -> None:
    """Has an engine's connection lose ten messages of the log once, without its knowing."""
    def is_lost(of_log: bool) -> bool:
        moment.seen += of_log
        if of_log and moment.seen == 10 * moment.times + 1:
            moment.strike()
        return of_log and 10 * moment.times < moment.seen <= 10 * moment.times + 10

    if hasattr(engine, "nats"):
        poll = engine.nats.poll
        engine.nats.poll = lambda *words: [each for each in poll(*words) if not is_lost(".LUS_LOG_" in each.reply)]
    else:
        rows = engine.rows
        engine.rows = lambda text, *words: [each for each in rows(text, *words) if not is_lost(text.startswith("select position, text"))]


def forget_readers(nats: Any, partition: int) -> None:
    """Has the server forget who reads a log, as it does with one that is idle for long."""
    for name in nats.api(f"CONSUMER.NAMES.LUS_LOG_{partition}")["consumers"]:
        nats.api(f"CONSUMER.DELETE.LUS_LOG_{partition}.{name}")


class Struck:
    """An engine at which the worker comes to its moment."""

    def __init__(self, engine: Any, moment: Moment, error: Callable[[str], Exception]) -> None:
        self.engine, self.moment, self.error = engine, moment, error
        self.longest = SHORT_BYTES if moment.name == "short" else engine.longest

    def __getattr__(self, name: str) -> Any:
        return getattr(self.engine, name)

    def head(self) -> Any:
        head = self.engine.head()
        return head._replace(lease=LATE_LEASE) if self.moment.name == "late" else head

    def free(self, role: Any) -> Any:
        return list(range(self.engine.head().partitions)) if self.moment.name == "rogue" else self.engine.free(role)

    def claim(self, role: Any, partition: int, owner: str) -> bool:
        return self.moment.name == "rogue" or self.engine.claim(role, partition, owner)

    def renew(self, role: Any, partition: int, owner: str) -> bool:
        self.moment.renewals += 1
        return self.moment.name == "rogue" or self.engine.renew(role, partition, owner)

    def take(self, partition: int, most: int, wait: float) -> Any:
        taken = self.engine.take(partition, most, wait)
        if taken:
            self.moment.die_at("taken")
            if self.moment.is_now("hostless"):
                self.moment.strike()
                kill_hosts()
        return taken

    def append(self, partition: int, position: int, text: bytes) -> Any:
        self.moment.die_at("stepped")
        if self.moment.is_now("asleep"):
            self.moment.strike()
            os.kill(os.getpid(), signal.SIGSTOP)
        if self.moment.is_now("mute"):
            self.fail_to_append(partition, position, text)
            return None
        if self.moment.is_now("broken"):
            self.fail_to_append(partition, position, text)
            raise self.error("no answer")
        appended = self.engine.append(partition, position, text)
        self.moment.die_at("appended")
        if appended is None and self.moment.name == "rogue":
            self.moment.strike()
        return appended

    def fail_to_append(self, partition: int, position: int, text: bytes) -> None:
        """Appends every other time."""
        self.moment.strike_again_later()
        if self.moment.times % 2:
            self.engine.append(partition, position, text)

    def settle(self, partition: int, handles: Any, replies: Any) -> None:
        self.engine.settle(partition, handles, replies)
        self.moment.die_at("settled")

    def read(self, partition: int, behind: int, last: int) -> Iterator[Any]:
        if self.moment.name == "gap":
            lose_some(self.engine, self.moment)
        waits = self.moment.name == "slow"
        for count, each in enumerate(self.engine.read(partition, behind, last)):
            self.moment.die_at("replay")
            if self.moment.name == "forgotten" and count == FORGOTTEN_AT:
                self.moment.strike()
                forget_readers(self.engine.nats, partition)
            if waits and len(each[1]) > LONG_BYTES:
                waits = False
                self.wait_for_renewals()
            yield each

    def wait_for_renewals(self) -> None:
        """Waits for five leases' renewals, or longer than that."""
        last, end = self.moment.renewals + RENEWALS, time.monotonic() + SLOW_LEASES * self.engine.head().lease
        while self.moment.renewals < last and time.monotonic() < end:
            time.sleep(0.01)
        if self.moment.renewals >= last:
            self.moment.strike()


def late_lease(lease: Any, moment: Moment, error: Callable[[str], Exception]) -> Any:
    """A lease whose renewal waits until it is to be given back, and longer, and then fails."""
    class LateLease(lease.Lease):  # type: ignore[misc]
        def renew(self) -> None:
            moment.strike()
            self.given_up.wait()
            time.sleep(LATE_SECONDS)
            raise error("no answer")

    return LateLease


def lapsed_lease(lease: Any, moment: Moment, error: Callable[[str], Exception]) -> Any:
    """A lease to follow whose renewal fails until the lease has ended; later ones are renewed."""
    class LapsedLease(lease.Lease):  # type: ignore[misc]
        def renew(self) -> None:
            if self.role.value == "follow" and not moment.seen:
                if self.ends - time.monotonic() < self.seconds / 2:
                    time.sleep(max(0.0, self.ends - time.monotonic()))
                    moment.seen = 1
                    moment.strike()
                raise error("no answer")
            super().renew()

    return LapsedLease


def main() -> None:
    folder, url, name, times, *host = sys.argv[1:]
    sys.path.insert(0, folder)
    import engine
    import lease
    import worker
    logging.basicConfig(level=logging.INFO, format=f"%(asctime)s {os.getpid()} %(message)s")
    worker.RETRY_SECONDS = 0.2
    moment = Moment(name, int(times))
    if name == "kept":
        worker.KEPT_LEASES = KEPT_LEASES
    if name == "late":
        worker.Lease = late_lease(lease, moment, engine.EngineError)
    if name == "lapsed":
        worker.Lease = lapsed_lease(lease, moment, engine.EngineError)
    is_stopped: list[bool] = []
    signal.signal(signal.SIGTERM, lambda *_: is_stopped.append(True))
    follows = name in ("follow", "lapsed")
    worker.Worker(lambda: Struck(engine.connect(url), moment, engine.EngineError), host, lambda: bool(is_stopped), follows).work()


if __name__ == "__main__":
    main()
