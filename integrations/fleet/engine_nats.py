"""NATS JetStream as engine of a fleet.

Streams: a work queue `lus.queue.P.CLIENT.INSTANCE`, a log `lus.log.P` for each partition, and leases `lus.lease.ROLE.P`, each one message
that names its owner and ends by its age. The messages of a log have the sequences 1, 2, 3 and so on, which are its positions. An append names the last one that
its writer has read, and the server refuses it where there is a later one. The server's own mapping puts a request
`lus.req.CLIENT.INSTANCE`, also one that came by MQTT, into its partition's queue. Its reply goes to `lus.rep.CLIENT.INSTANCE`, so the
server's permissions say who is which client.
"""
from __future__ import annotations

import functools
import json
import time
from collections.abc import Iterator, Sequence
from typing import Any

from engine import EngineError, Head, Role, Taken
from lines import BUSY, answered_by
from nats_log import stored
from nats_streams import DEAD, LEASE, LOG, QUEUE, Streams, nanoseconds, newest_of, put
from nats_wire import Connection, Message, frame

PULL_SECONDS = 1.0
NO_MESSAGES, TIMED_OUT = 404, 408
MOST_SILENT = 3  # pulls that end without a word


@functools.lru_cache(1 << 16)
def partition_of(instance: str, partitions: int) -> int:
    """Where the server's mapping puts an instance: by FNV-1a, in 32 bits."""
    number = 0x811C9DC5
    for byte in instance.encode():
        number = (number ^ byte) * 0x01000193 % 2**32
    return number % partitions


def lease_of(role: Role, partition: int) -> str:
    """The subject of a lease."""
    return f"lus.lease.{role.value}.{partition}"


class NatsEngine:
    """A connection to NATS, as `engine.Engine` says."""

    def __init__(self, url: str) -> None:
        self.nats = Connection(url)
        self.longest = int(self.nats.info.get("max_payload", 1 << 20)) - 4096
        self.streams = Streams(self.nats)
        self.known: Head | None = None
        self.pull, self.pull_left, self.pull_ends, self.silent = "", 0, 0.0, 0

    def close(self) -> None:
        self.nats.close()

    def make(self, head: Head) -> list[str]:
        return self.streams.make(head, lambda name: f"lus.queue.{partition_of(name, head.partitions)}.probe.{name}")

    def mend(self) -> list[str]:
        return self.streams.mend(self.head())

    def head(self) -> Head:
        self.known = self.known or self.streams.head()
        if self.known is None:
            raise EngineError("there is no fleet here: make one first")
        return self.known

    def free(self, role: Role) -> list[int]:
        answer = self.nats.api("STREAM.INFO." + LEASE, {"subjects_filter": f"lus.lease.{role.value}.*"})
        if not answer:
            raise EngineError("the leases are gone")
        leased = answer["state"].get("subjects") or {}
        return [p for p in range(self.head().partitions) if lease_of(role, p) not in leased]

    def claim(self, role: Role, partition: int, owner: str) -> bool:
        return put(self.nats, lease_of(role, partition), 0, owner.encode()) is not None

    def renew(self, role: Role, partition: int, owner: str) -> bool:
        newest = newest_of(self.nats, LEASE, lease_of(role, partition))
        if newest is None or newest.data != owner.encode():
            return False
        return put(self.nats, lease_of(role, partition), newest.sequence, newest.data) is not None

    def release(self, role: Role, partition: int, owner: str) -> None:
        newest = newest_of(self.nats, LEASE, lease_of(role, partition))
        if newest and newest.data == owner.encode():
            self.nats.api("STREAM.MSG.DELETE." + LEASE, {"seq": newest.sequence})

    def last(self, partition: int) -> int:
        answer = self.nats.api(f"STREAM.INFO.{LOG}{partition}")
        if not answer:
            raise EngineError(f"the log of partition {partition} is gone")
        state = answer["state"]
        if state["messages"] != state["last_seq"]:
            raise EngineError(f"the log of partition {partition} has lost messages: {state['messages']} of {state['last_seq']} are there")
        return int(state["last_seq"])

    def read(self, partition: int, behind: int, last: int) -> Iterator[tuple[int, bytes]]:
        return stored(self.nats, f"{LOG}{partition}", behind, last)

    def append(self, partition: int, position: int, text: bytes) -> int | None:
        return put(self.nats, f"lus.log.{partition}", position, text)

    def take(self, partition: int, most: int, wait: float) -> list[Taken]:
        if self.pull_left <= 0 or time.monotonic() > self.pull_ends:
            self.begin_pull(partition, most)
        taken: list[Taken] = []
        for message in self.nats.poll(wait):
            if message.reply.startswith(f"$JS.ACK.{QUEUE}."):
                taken.append(self.taken_of(message, partition))
            elif message.subject == self.pull:  # this pull has ended
                self.pull_left, self.silent = len(taken), 0
                if message.status not in (NO_MESSAGES, TIMED_OUT):
                    raise EngineError(f"NATS gives no requests of partition {partition}: {message.headers!r}")
        self.pull_left -= len(taken)
        self.silent = 0 if taken else self.silent
        return taken

    def begin_pull(self, partition: int, most: int) -> None:
        """Asks for requests. A pull that ends says so; a consumer that says nothing at all is broken, and is made anew."""
        self.silent += 1
        if self.silent > MOST_SILENT:
            self.nats.api(f"CONSUMER.DELETE.{QUEUE}.p{partition}")
            raise EngineError(f"NATS is silent about the requests of partition {partition}")
        self.pull, self.pull_left, self.pull_ends = self.nats.fresh(), most, time.monotonic() + PULL_SECONDS + 0.5
        pull = json.dumps({"batch": most, "expires": nanoseconds(PULL_SECONDS)}).encode()
        self.nats.send(frame(f"$JS.API.CONSUMER.MSG.NEXT.{QUEUE}.p{partition}", pull, self.pull))

    def taken_of(self, message: Message, partition: int) -> Taken:
        """A message of the queue as a line. Who may ask by MQTT may also write to queues, so the partition may be wrong."""
        client, instance = message.subject.split(".")[-2:]
        is_here = partition_of(instance, self.head().partitions) == partition
        line = f"{instance if is_here else '?'} {client}.{message.data.decode(errors='replace')}"
        return Taken(message.reply, line, int(message.reply.split(".")[4]))

    def waiting(self, partition: int) -> int:
        answer = self.nats.api(f"CONSUMER.INFO.{QUEUE}.p{partition}")
        return int(answer["num_pending"] + answer["num_ack_pending"]) if answer else 0

    def settle(self, partition: int, handles: Sequence[Any], replies: Sequence[str]) -> None:
        answered = [(each, reply) for reply in replies if (each := answered_by(reply))]
        frames = [frame(f"lus.rep.{each.client}.{each.instance}", reply.encode()) for each, reply in answered]
        frames += [frame(handle, b"+ACK") for handle in handles]
        self.nats.send(b"".join(frames))

    def bury(self, partition: int, taken: Taken, reason: str) -> None:
        self.nats.send(frame(f"lus.dead.{partition}", f"{reason}: {taken.line}".encode()))

    def buried(self) -> Iterator[str]:
        state = self.nats.api("STREAM.INFO." + DEAD)["state"]
        for _, data in stored(self.nats, DEAD, state["last_seq"] - state["messages"], state["last_seq"]):
            yield data.decode(errors="replace")

    def listen(self, client: str) -> None:
        self.nats.subscribe(f"lus.rep.{client}.*")

    def ask(self, lines: Sequence[str]) -> None:
        frames = []
        for line in lines:
            instance, _, rest = line.partition(" ")
            client, _, call = rest.partition(".")
            stored_or_not = f"{self.nats.inbox}.ask.{instance}.{rest.partition(' ')[0]}"
            frames.append(frame(f"lus.req.{client}.{instance}", call.encode(), stored_or_not))
        self.nats.send(b"".join(frames))

    def hear(self, wait: float) -> list[str]:
        heard, asked = [], self.nats.inbox + ".ask."
        for message in self.nats.poll(wait):
            if message.subject.startswith("lus.rep."):
                heard.append(message.data.decode(errors="replace"))
            elif message.subject.startswith(asked) and (message.status or b'"error"' in message.data):
                instance, _, caller = message.subject.removeprefix(asked).partition(".")
                heard.append(f"{instance} # {caller} {BUSY}")
        return heard
