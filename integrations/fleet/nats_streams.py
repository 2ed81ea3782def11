"""The streams of a fleet on NATS, as they are made and mended.

What a fleet is stands in LUS_HEAD, written last: where it is there, all else was made. Queue and leases can be made anew without harm; a
log can't, so one that is gone is told.
"""
from __future__ import annotations

import base64
import json
import random
import time
from collections.abc import Callable, Iterator
from typing import Any, NamedTuple

from engine import EngineError, Head
from nats_wire import Asked, Connection, frame

HEAD, QUEUE, LOG, LEASE, DEAD = "LUS_HEAD", "LUS_QUEUE", "LUS_LOG_", "LUS_LEASE", "LUS_DEAD"
REQUEST_BYTES, QUEUE_BYTES, DEAD_BYTES = 1 << 14, 1 << 28, 1 << 24
BEHIND = "Nats-Expected-Last-Subject-Sequence"
MEND_SECONDS = 1.0
IS_BEHIND = 10071  # the server's number for a message behind another sequence than the last


def nanoseconds(seconds: float) -> int:
    return int(seconds * 1e9)


def put(nats: Connection, subject: str, behind: int, data: bytes) -> int | None:
    """Publishes behind the last message of a subject: its sequence, or `None` where there is another."""
    answer = nats.request(Asked(subject, data, {BEHIND: behind}))
    error = answer.get("error")
    if error and error.get("err_code") != IS_BEHIND:
        raise EngineError(f"NATS doesn't take a message of {subject}: {error.get('description')}")
    return None if error else int(answer["seq"])


class Stored(NamedTuple):
    """A message of a stream."""

    sequence: int
    data: bytes


def newest_of(nats: Connection, stream: str, subject: str) -> Stored | None:
    """The last message of a subject; `None` where there is none."""
    message = nats.api("STREAM.MSG.GET." + stream, {"last_by_subj": subject}).get("message")
    return Stored(int(message["seq"]), base64.b64decode(message.get("data", ""))) if message else None


class Streams:
    """The streams and consumers of a fleet."""

    def __init__(self, nats: Connection) -> None:
        self.nats = nats

    def head(self) -> Head | None:
        """What the fleet is, where there is one."""
        newest = newest_of(self.nats, HEAD, "lus.head")
        return Head(**json.loads(newest.data)) if newest else None

    def make(self, head: Head, place: Callable[[str], str]) -> list[str]:
        """Makes what isn't there of a fleet, and names it. `place` says into which queue a request to an instance belongs."""
        known = self.head()
        if known is None:
            self.check_mapping(place)
        elif known != head:
            raise EngineError(f"there is another fleet here: {known}")
        made = self.mend(head, known is None)
        if known is None:
            self.create(HEAD, {"subjects": ["lus.head"], "deny_delete": True, "deny_purge": True}, head.copies)
            if put(self.nats, "lus.head", 0, json.dumps(head._asdict()).encode()) is None:
                raise EngineError("somebody else makes a fleet here")
            made.append(HEAD)
        return made

    def mend(self, head: Head, is_new: bool = False) -> list[str]:
        """Makes the streams and consumers that aren't there, and names them. Logs are made with a new fleet only."""
        made = []
        for name, config in wanted(head):
            there = self.nats.api("STREAM.INFO." + name)
            if name.startswith(LOG) and is_new and there and there["state"]["messages"]:
                raise EngineError(f"{name} has entries of a fleet whose head is gone: restore it")
            if name.startswith(LOG) and not is_new and not there:
                raise EngineError(f"{name} is gone, and its entries with it: restore it")
            if not there and (is_new or self.is_missing_later(name)):
                self.create(name, config, head.copies)
                made.append(name)
        for name in self.missing_consumers(head) if is_new else self.missing_consumers_later(head):
            self.create_consumer(name, head)
            made.append(f"{QUEUE} {name}")
        return made

    def is_missing_later(self, name: str) -> bool:
        """Whether a stream is missing also after a while. (A server mixes up what several make at once, or while it
        still deletes what was there.)"""
        time.sleep(MEND_SECONDS * (1 + random.random()))
        return not self.nats.api("STREAM.INFO." + name)

    def missing_consumers(self, head: Head) -> list[str]:
        known = self.nats.api("CONSUMER.NAMES." + QUEUE).get("consumers") or []
        return [name for p in range(head.partitions) if (name := f"p{p}") not in known]

    def missing_consumers_later(self, head: Head) -> list[str]:
        """The consumers that are missing also after a while."""
        if not self.missing_consumers(head):
            return []
        time.sleep(MEND_SECONDS * (1 + random.random()))
        return self.missing_consumers(head)

    def create(self, name: str, config: dict[str, Any], copies: int) -> None:
        """Makes a stream. Where it is there already, and the same, nothing happens."""
        self.nats.api("STREAM.CREATE." + name, {"name": name, "storage": "file", **config, "num_replicas": copies})

    def create_consumer(self, name: str, head: Head) -> None:
        """Makes the consumer of a partition's requests. What isn't settled comes again after two leases."""
        config = {"durable_name": name, "filter_subject": f"lus.queue.{name[1:]}.*.*", "ack_policy": "explicit",
                  "ack_wait": nanoseconds(2 * head.lease), "max_ack_pending": 10_000}
        self.nats.api(f"CONSUMER.DURABLE.CREATE.{QUEUE}.{name}", {"stream_name": QUEUE, "config": config})

    def check_mapping(self, place: Callable[[str], str]) -> None:
        """Looks where the server's mapping puts some names."""
        names = [f"probe{k}" for k in range(50)]
        self.nats.subscribe("lus.queue.*.*.*")
        self.nats.send(b"".join(frame("lus.req.probe." + name, b"") for name in names))
        seen: set[str] = set()
        while messages := self.nats.poll(0.5):
            seen |= {message.subject for message in messages}
        if not seen >= set(map(place, names)):
            raise EngineError("the server doesn't map lus.req.*.* to so many partitions: see `mappings` in nats.conf")


def wanted(head: Head) -> Iterator[tuple[str, dict[str, Any]]]:
    """The streams that a fleet needs, without its head."""
    for p in range(head.partitions):
        yield f"{LOG}{p}", {"subjects": [f"lus.log.{p}"], "deny_delete": True, "deny_purge": True}
    waiting = head.partitions * head.waiting
    yield QUEUE, {"subjects": ["lus.queue.*.*.*"], "retention": "workqueue", "discard": "new", "max_msgs": waiting,
                  "max_bytes": min(waiting * REQUEST_BYTES, QUEUE_BYTES)}
    yield DEAD, {"subjects": ["lus.dead.*"], "max_bytes": DEAD_BYTES}
    yield LEASE, {"subjects": ["lus.lease.*.*"], "max_age": nanoseconds(head.lease), "max_msgs_per_subject": 1}
