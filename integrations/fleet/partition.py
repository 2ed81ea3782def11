"""The instances of a partition in a host, and what a worker remembers of its log."""
from __future__ import annotations

import logging
import time
from collections.abc import Callable, Sequence

from engine import Engine, Taken
from host import Ended, Host, Lost
from lines import MOST_BYTES, Request, answered_by, is_too_long, lines_of, rejection_of, request_of
from status import Status

log = logging.getLogger("fleet")

MOST_JUMP = 10**6  # beyond a client's last number, or beyond the time in microseconds: else one request would shut its client out


class Misread(Lost):
    """What was read can't be the log of a fleet."""


class Blamed(Lost):
    """The host ended at a request, or answered something else."""

    def __init__(self, request: Request, reason: str) -> None:
        super().__init__(f"{reason} at {request.line:.80}")
        self.request = request


class Partition:
    """The instances of a partition, as its log left them at a position.

    What is read is counted: positions by the engine, and here each entry's number, which is the next of its instance, and each request,
    which has one entry. Where that isn't so nothing is served: what was read isn't the log.
"""

    def __init__(self, number: int, host: Host, status: Status) -> None:
        self.number, self.host, self.status = number, host, status
        self.position = self.entries = 0
        self.is_behind = False  # whether calls were made whose entries aren't known to be in the log
        self.is_spoilt = False  # whether a call was made whose entry never will be
        self.counts: dict[str, int] = {}
        self.latest: dict[tuple[str, str], tuple[int, str]] = {}

    def close(self) -> None:
        self.host.close()

    def catch_up(self, engine: Engine, go_on: Callable[[], bool]) -> int:
        """Replays what stands in the log behind our position, as long as it shall go on: how many parts that were, or -1 where there is
        more."""
        last, before = engine.last(self.number), self.position
        self.status.partition, self.status.last = self.number, last
        for position, text in engine.read(self.number, self.position, last):
            self.note(lines_of(text))
            self.host.replay(text)
            self.position = self.status.position = position
            if position < last and not go_on():
                return -1
        if self.position == before:
            self.host.is_ready()
        return self.position - before

    def note(self, lines: Sequence[str]) -> None:
        """Counts entries, and remembers the last one of each client at each instance: it answers the same request."""
        for line in lines:
            read = answered_by(line)
            if read is None:
                raise Misread(f"the log has a line that is no entry: {line:.80}")
            count = self.counts.get(read.instance, 0)
            if read.entry not in (0, count + 1):  # 0: a request that was given up
                raise Misread(f"in the log entry {read.entry} of {read.instance} stands behind its entry {count}")
            key = read.instance, read.client
            if read.number <= self.latest.get(key, (0, ""))[0]:
                raise Misread(f"in the log request {read.client}.{read.number} to {read.instance} stands behind a later one")
            self.latest[key] = read.number, line
            if read.entry:
                self.counts[read.instance] = read.entry
        self.entries += len(lines)

    def sort(self, taken: Sequence[Taken]) -> tuple[list[tuple[Request, Taken]], list[str]]:
        """What is new among requests, and the replies to what isn't. A line that is no request has no reply."""
        new, replies = [], []
        called: dict[tuple[str, str], int] = {}
        for each in taken:
            request = request_of(each.line)
            if request is None:
                log.warning("passed over, since it is no request: %.80r", each.line)
                self.status.refuse("no request")
                continue
            if is_too_long(each.line):
                replies.append(self.refusal(request, "too long", f"it has more than {MOST_BYTES} bytes"))
                continue
            key = request.instance, request.client
            last, entry = self.latest.get(key, (0, ""))
            most = max(last, time.time_ns() // 1000) + MOST_JUMP
            if request.number > most:
                replies.append(self.refusal(request, "number jumps", f"its number may be at most {most} now"))
            elif request.number > max(last, called.get(key, 0)):
                called[key] = request.number
                new.append((request, each))
            elif request.number == last:
                replies.append(entry)
            elif request.number < last:
                replies.append(self.refusal(request, "old number", f"the last request of {request.client} here has the number {last}"))
        return new, replies

    def refusal(self, request: Request, kind: str, reason: str) -> str:
        """The reply to a request that is refused, and counted."""
        self.status.refuse(kind)
        return rejection_of(request, reason)

    def step(self, requests: Sequence[Request]) -> list[str]:
        """The host's answers to new requests, each an entry or a rejection."""
        try:
            answers = self.host.answers([request.line for request in requests])
        except Ended as end:
            raise Blamed(requests[end.answered], str(end)) from end
        for request, answer in zip(requests, answers):
            read = answered_by(answer)
            if read is None or (read.instance, read.client, read.number) != (request.instance, request.client, request.number):
                raise Blamed(request, f"the host answers {answer:.80}")
        return answers
