"""A lease that lasts, however busy its owner is."""
from __future__ import annotations

import logging
import os
import threading
import time
from collections.abc import Callable

from engine import Engine, EngineError, Role
from status import Status

log = logging.getLogger("fleet")

GIVE_BACK_TRIES = 2
CLOSE_SECONDS = 5.0  # how long an owner waits until its lease is given back


class Lease:
    """A lease of a partition. A thread renews it by a connection of its own, so neither a long replay nor what the owner reads meanwhile
    is in its way. Where it ends without our doing nothing is wrong: appends are refused by the log alone."""

    def __init__(self, connect: Callable[[], Engine], role: Role, partition: int, seconds: float, status: Status) -> None:
        self.connect, self.role, self.partition, self.seconds, self.status = connect, role, partition, seconds, status
        self.engine: Engine | None = connect()
        self.owner = os.urandom(8).hex()
        self.ends = 0.0
        self.may_be_ours = False  # for the engine, which may have done what it doesn't answer
        self.given_up = threading.Event()
        self.thread = threading.Thread(target=self.keep, daemon=True)

    def claim(self) -> bool:
        """Leases the partition, unless somebody has it."""
        assert self.engine
        began, self.may_be_ours = time.monotonic(), True
        try:
            self.may_be_ours = self.engine.claim(self.role, self.partition, self.owner)
        except (EngineError, OSError):
            self.disconnect()
            raise
        if self.may_be_ours:
            self.ends = self.status.lease_ends = began + self.seconds
            self.thread.start()
        return self.may_be_ours

    def is_ours(self) -> bool:
        """Whether the lease was renewed lately enough."""
        return time.monotonic() < self.ends

    def keep(self) -> None:
        """Renews the lease each time that a third of it has passed, and gives it back in the end. An engine that doesn't answer is asked
        anew until the lease ends."""
        due = time.monotonic() + self.seconds / 3
        while not self.given_up.wait(max(0.0, due - time.monotonic())):
            due = time.monotonic() + self.seconds / 3
            try:
                self.renew()
            except (EngineError, OSError) as error:
                log.warning("the lease of partition %d isn't renewed: %s", self.partition, error)
                self.disconnect()
            if not self.is_ours():
                break
        self.give_back()

    def renew(self) -> None:
        self.engine = self.engine or self.connect()
        began = time.monotonic()
        self.may_be_ours = self.engine.renew(self.role, self.partition, self.owner)
        self.ends = self.status.lease_ends = began + self.seconds if self.may_be_ours else 0.0
        if self.may_be_ours:
            self.status.waiting = self.engine.waiting(self.partition)

    def give_back(self) -> None:
        """Gives the lease back, also where it wasn't renewed in time: the engine looks whose it is. A connection may have broken
        meanwhile, so another one is tried too."""
        for _ in range(GIVE_BACK_TRIES):
            try:
                if self.may_be_ours:
                    self.engine = self.engine or self.connect()
                    self.engine.release(self.role, self.partition, self.owner)
                break
            except (EngineError, OSError) as error:
                log.warning("the lease of partition %d isn't given back: %s", self.partition, error)
                self.disconnect()
        self.disconnect()

    def disconnect(self) -> None:
        if self.engine:
            self.engine.close()
        self.engine = None

    def close(self) -> None:
        """Gives the lease back. While the engine doesn't answer its owner goes on without waiting for that; it then ends by itself."""
        self.given_up.set()
        if self.thread.ident:
            self.thread.join(CLOSE_SECONDS)
        else:
            self.give_back()
