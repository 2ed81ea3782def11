"""Reads a stream of NATS whole: message by message, without a gap, or not at all."""
from __future__ import annotations

import json
from collections.abc import Iterator

from engine import EngineError
from nats_wire import Connection, frame

READ_AT_ONCE = 256
READ_BYTES = 1 << 24  # the server gives up a client for which 64 MiB wait
MESSAGE_SECONDS = 5.0
IDLE_SECONDS = 600  # how long a host may be busy with what was read before the server forgets us; we then begin anew
TRIES = 4


def stored(nats: Connection, stream: str, behind: int, last: int) -> Iterator[tuple[int, bytes]]:
    """The messages of a stream behind a sequence up to another, each with its sequence, which is the next of the one before."""
    at, tries = behind, 0
    while at < last:
        before, reader = at, reader_of(nats, stream, at + 1)
        try:
            for sequence, data in pulled(nats, stream, reader, last - at):
                if sequence != at + 1:
                    raise EngineError(f"{stream} gives message {sequence} behind {at}")
                at = sequence
                yield at, data
        except GeneratorExit:
            drop(nats, stream, reader)
            raise
        tries = 0 if at > before else tries + 1
        if tries == TRIES:
            raise EngineError(f"{stream} doesn't give its message {at + 1} of {last}")
        drop(nats, stream, reader)


def drop(nats: Connection, stream: str, reader: str) -> None:
    """Ends a consumer. What it still sent is there before the answer, and is passed over."""
    nats.api(f"CONSUMER.DELETE.{stream}.{reader}")
    nats.waiting = [message for message in nats.waiting if not message.reply.startswith(f"$JS.ACK.{stream}.{reader}.")]


def reader_of(nats: Connection, stream: str, first: int) -> str:
    """A new consumer of a stream that begins with a message."""
    config = {"ack_policy": "none", "deliver_policy": "by_start_sequence", "opt_start_seq": first, "num_replicas": 1, "mem_storage": True,
              "inactive_threshold": IDLE_SECONDS * 10**9}
    answer = nats.api("CONSUMER.CREATE." + stream, {"stream_name": stream, "config": config})
    if not answer:
        raise EngineError(f"there is no {stream}")
    return str(answer["name"])


def pulled(nats: Connection, stream: str, reader: str, most: int) -> Iterator[tuple[int, bytes]]:
    """The next messages of a consumer as they come, each with its sequence. They are there already, so it ends early only where one is
    late."""
    ours = f"$JS.ACK.{stream}.{reader}."
    while most > 0:
        pull, left = nats.fresh(), min(most, READ_AT_ONCE)
        most -= left
        words = {"batch": left, "max_bytes": READ_BYTES, "expires": int(MESSAGE_SECONDS * 10**9)}
        nats.send(frame(f"$JS.API.CONSUMER.MSG.NEXT.{stream}.{reader}", json.dumps(words).encode(), pull))
        while left > 0:
            messages = nats.poll(MESSAGE_SECONDS, lambda message: message.subject == pull or message.reply.startswith(ours))
            for message in messages:
                if message.subject == pull:  # this pull has ended early: the server knows no such consumer, or its bytes are full
                    return
                left -= 1
                yield int(message.reply.split(".")[5]), message.data
            if not messages:
                return
