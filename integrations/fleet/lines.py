"""The lines of a fleet.

A request is `INSTANCE CLIENT.N CALL`, where CALL is what `lus_live` takes for one. Its entry is `INSTANCE K CLIENT.N ASKED -> ANSWER`: the
K-th entry of that instance's journal, and at the same time a line of the log and the reply to the client. The reply to what enters nothing
is `INSTANCE # CLIENT.N REASON`. Where such a request was given up, its reply is also a line of the log: what is refused stays refused. The
reason `busy` alone isn't final: the queue is full, and the request may be asked again.
"""
from __future__ import annotations

import re
from typing import NamedTuple

MOST_BYTES = 1 << 20  # of a line, with its line feed: what a host takes
BUSY = "busy"
REQUEST = re.compile(r"([A-Za-z0-9_-]{1,64}) ([A-Za-z][A-Za-z0-9_-]{0,47})\.([1-9][0-9]{0,17}) (.+)")


class Request(NamedTuple):
    """A call of an instance, and the number that its client gave it."""

    instance: str
    client: str
    number: int
    line: str

    @property
    def key(self) -> tuple[str, str, int]:
        """What tells it from others."""
        return self.instance, self.client, self.number


class Answered(NamedTuple):
    """Which request a reply answers, and the number of its entry: 0 where it entered nothing."""

    instance: str
    entry: int
    client: str
    number: int


def request_of(line: str) -> Request | None:
    """The request that a line makes; `None` where it makes none."""
    match = REQUEST.fullmatch(line)
    return Request(match[1], match[2], int(match[3]), line) if match else None


def lines_of(text: bytes) -> list[str]:
    """The lines of a text, each of which ends with a line feed, without it."""
    return text.decode().split("\n")[:-1]


def rejection_of(request: Request, reason: str) -> str:
    """The reply to a request that enters nothing."""
    return f"{request.instance} # {request.client}.{request.number} {reason}"


def is_too_long(line: str) -> bool:
    """Whether no host takes a line."""
    return len(line.encode()) >= MOST_BYTES


def is_busy(reply: str) -> bool:
    """Whether a reply says that the queue is full."""
    return reply.endswith(f" {BUSY}") and reply.count(" ") == 3


def answered_by(reply: str) -> Answered | None:
    """What a reply answers: `kitchen 4 panel.17 ..` is the 4th entry of kitchen, for the 17th request of panel to it. `None` where it is
    none."""
    try:
        instance, entry, caller, _ = reply.split(" ", 3)
        client, _, number = caller.rpartition(".")
        return Answered(instance, 0 if entry == "#" else int(entry), client, int(number))
    except ValueError:
        return None


def is_entry(reply: str) -> bool:
    """Whether a reply is an entry, which goes into the log."""
    read = answered_by(reply)
    return read is not None and read.entry > 0
