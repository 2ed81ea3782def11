"""Answers the requests to a partition."""
from __future__ import annotations

import logging
import random
from collections import Counter
from collections.abc import Iterator, Sequence

from engine import Engine, Taken
from host import Lost
from lines import MOST_BYTES, Request, is_entry
from partition import Partition

log = logging.getLogger("fleet")

MOST_TAKEN = 256
MOST_APPENDED = 1 << 18
MOST_BLAMES = 2  # how many hosts a request may end
CALM_TIMES = 4  # how often a request is taken among others,
MOST_TIMES = 64  # and how often at all
TAKE_SECONDS = 0.05


def pieces(lines: Sequence[str], longest: int) -> Iterator[list[str]]:
    """Lines in groups of at most so many bytes, or of one line."""
    group: list[str] = []
    size = 0
    for line in lines:
        length = len(line.encode())
        if group and size + length > longest:
            yield group
            group, size = [], 0
        group.append(line)
        size += length
    if group:
        yield group


class Service:
    """Answers the requests to a partition, whose lease is ours and whose log was read."""

    def __init__(self, engine: Engine, partition: Partition, blamed: Counter[tuple[str, str, int]]) -> None:
        self.engine, self.partition, self.blamed = engine, partition, blamed
        self.longest = min(engine.longest, MOST_BYTES)  # (a host that replays it takes no longer line)

    def turn(self) -> None:
        """Takes requests and answers them. Those at which a host ended, and those that were taken often without an end, are suspects: each
        is answered alone, behind the others, and the second time that it ends a host it is given up."""
        taken = self.engine.take(self.partition.number, MOST_TAKEN, TAKE_SECONDS)
        if not taken:
            return
        new, replies = self.partition.sort(taken)
        suspects = [(request, each) for request, each in new if each.times > CALM_TIMES or self.blamed[request.key]]
        later = {id(each) for _, each in suspects}
        self.answer([each for each in new if id(each[1]) not in later], [each.handle for each in taken if id(each) not in later], replies)
        for request, each in random.sample(suspects, len(suspects)):
            if self.blamed[request.key] >= MOST_BLAMES or each.times > MOST_TIMES:
                self.give_up(request, each, f"given up: {self.blamed[request.key]} hosts ended at it, and it was taken {each.times} times")
            else:
                self.answer([(request, each)], [each.handle], [])

    def answer(self, new: Sequence[tuple[Request, Taken]], handles: Sequence[object], replies: Sequence[str]) -> None:
        """Makes the calls of new requests, appends the entries, and only then replies."""
        self.partition.is_behind = True
        answers = self.partition.step([request for request, _ in new])
        long = next((k for k, answer in enumerate(answers) if len(answer.encode()) >= self.longest), None)
        if long is not None:
            self.partition.is_spoilt = True
            self.append([answer for answer in answers[:long] if is_entry(answer)])
            self.give_up(*new[long], f"its entry has more than {self.longest} bytes")
            raise Lost("an entry is too long for the log")
        self.append([answer for answer in answers if is_entry(answer)])
        self.partition.status.refuse("no call", sum(not is_entry(answer) for answer in answers))
        self.settle(handles, [*replies, *answers])

    def give_up(self, request: Request, taken: Taken, reason: str) -> None:
        """Refuses a request for good: the refusal is in the log, so nobody makes its call later."""
        log.warning("%s.%d to %s: %s", request.client, request.number, request.instance, reason)
        reply = self.partition.refusal(request, "given up", reason)
        self.append([reply])
        self.engine.bury(self.partition.number, taken, reason)
        self.settle([taken.handle], [reply])

    def settle(self, handles: Sequence[object], replies: Sequence[str]) -> None:
        self.engine.settle(self.partition.number, handles, replies)

    def append(self, entries: Sequence[str]) -> None:
        """Appends entries behind our position, once they are counted."""
        self.partition.is_behind = True
        self.partition.note(entries)
        for group in pieces([entry + "\n" for entry in entries], min(self.longest, MOST_APPENDED)):
            position = self.engine.append(self.partition.number, self.partition.position, "".join(group).encode())
            if position is None:
                raise Lost("somebody else appended to the log")
            self.partition.position = position
        self.partition.is_behind = False
        self.partition.status.entries += len(entries)
