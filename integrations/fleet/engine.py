"""What a fleet needs of logs, queues and leases, and the engines that have them.

A fleet's instances are cut into partitions by their names. Each partition has a log, a queue of requests and leases: one for who serves it,
one for who follows its log. A connection keeps nothing of a partition, so one that broke is replaced by another.
"""
from __future__ import annotations

from collections.abc import Iterator, Sequence
from enum import Enum
from typing import Any, NamedTuple, Protocol


class EngineError(Exception):
    """The engine doesn't answer or says no. What was asked of it may have been done or not."""


class Denied(EngineError):
    """The engine doesn't let this client do what it asks: not its name, its password, or its certificate."""


class Role(str, Enum):
    """What a worker has leased a partition for."""

    SERVE = "serve"
    FOLLOW = "follow"


class Head(NamedTuple):
    """What a fleet is, which never changes."""

    partitions: int
    """How many there are, from 0 on."""
    lease: float
    """After how many seconds a lease ends that isn't renewed."""
    copies: int
    """In how many copies the engine keeps things, where it doesn't know that itself."""
    program: str
    """The SHA-256 of the program's text, in hexadecimal digits."""
    node: str
    waiting: int
    """How many requests may wait for each partition."""


class Taken(NamedTuple):
    """A line that was taken from the queue. It comes again, perhaps to others, until its handle is settled."""

    handle: Any
    line: str
    times: int
    """How often it was taken, with this time."""


class Engine(Protocol):
    """A connection to an engine. Each method raises `EngineError`, and the connection is then of no more use."""

    longest: int
    """How many bytes one append may have."""

    def make(self, head: Head) -> list[str]:
        """Makes what isn't there of a fleet, and names it. Says no where there is another fleet, or where a log is gone."""

    def mend(self) -> list[str]:
        """Makes anew what isn't there of the fleet and can be lost without harm, and names it. Says no where there is no fleet, or where a
        log is gone."""

    def head(self) -> Head:
        """What the fleet is. Says no where there is none."""

    def free(self, role: Role) -> list[int]:
        """The partitions that nobody has leased for this."""

    def claim(self, role: Role, partition: int, owner: str) -> bool:
        """Leases a partition to an owner, whose name is that of this lease alone. Says whether nobody had it."""

    def renew(self, role: Role, partition: int, owner: str) -> bool:
        """Leases a partition for as long again. Says whether this owner had it."""

    def release(self, role: Role, partition: int, owner: str) -> None:
        """Gives the lease of this owner back, where there is one."""

    def last(self, partition: int) -> int:
        """The position of what was appended last to a partition's log, 0 where it is empty."""

    def read(self, partition: int, behind: int, last: int) -> Iterator[tuple[int, bytes]]:
        """What was appended to a partition's log behind a position up to another, in order and without a gap, each with its position."""

    def append(self, partition: int, position: int, text: bytes) -> int | None:
        """Appends to a partition's log where nothing stands behind this position (0: where it is empty): the position of what was appended
        once it is safe, or `None` where something stands there."""

    def take(self, partition: int, most: int, wait: float) -> list[Taken]:
        """Takes requests of a partition: waits at most so many seconds for the first."""

    def waiting(self, partition: int) -> int:
        """How many requests of a partition aren't settled."""

    def settle(self, partition: int, handles: Sequence[Any], replies: Sequence[str]) -> None:
        """Sends each reply to its client, then takes the requests of these handles off the queue."""

    def bury(self, partition: int, taken: Taken, reason: str) -> None:
        """Keeps a request that was given up for whoever looks after the fleet. Old ones make room."""

    def buried(self) -> Iterator[str]:
        """The requests that were given up, each behind the reason."""

    def listen(self, client: str) -> None:
        """Has `hear` give the replies to this client from now on."""

    def ask(self, lines: Sequence[str]) -> None:
        """Puts requests into the queues of their instances' partitions. Where one is full, `hear` gives the reply `busy`."""

    def hear(self, wait: float) -> list[str]:
        """Replies that came: waits at most so many seconds for the first."""

    def close(self) -> None:
        """Ends the connection."""


def connect(url: str) -> Engine:
    """A connection to the engine at a URL, `nats://..`, `tls://..` or `postgresql://..`."""
    if url.startswith(("nats://", "tls://")):
        from engine_nats import NatsEngine
        return NatsEngine(url)
    if url.startswith(("postgresql://", "postgres://")):
        from engine_postgres import PostgresEngine
        return PostgresEngine(url)
    raise ValueError(f"{url} begins with none of nats://, tls:// and postgresql://")
