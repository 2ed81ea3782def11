#!/usr/bin/python3
"""A fleet of instances of a Lustre node, on NATS JetStream or PostgreSQL.

    fleet.py make URL PARTITIONS PROGRAM NODE [--lease SECONDS] [--copies N] [--waiting N]
                                       makes the logs, queues and leases of a fleet; of one that is there it makes what is missing
    fleet.py work URL [--follow] [--metrics PORT] -- HOST..
                                       a worker: HOST.. is `lus_live --many PROGRAM NODE`. Where it has nothing to serve it may follow
                                       a partition; PORT of loopback answers /metrics, for Prometheus, and /ready
    fleet.py ready PORT                whether the worker with this port is ready: the status
    fleet.py call URL CLIENT           makes the calls of standard input, `INSTANCE CALL` in each line, and prints their replies
    fleet.py log URL                   prints the log, partition by partition
    fleet.py dead URL                  prints the requests that were given up, each behind the reason

URL is `nats://[USER:PASSWORD@]HOST[:PORT][,HOST..]`, with TLS `tls://..`, with files behind it
`?login=FILE&ca=FILE&certificate=FILE&key=FILE`; or `postgresql://..` as libpq takes it; or `-`: that of the environment, FLEET_URL.

Status 0; 1 where the engine doesn't do what is asked; 2 where some calls weren't made; 3 where a worker can't serve this fleet: its host
ends at once or at the log, or its program is another.
"""
from __future__ import annotations

import argparse
import functools
import logging
import os
import signal
import sys
from collections.abc import Iterator, Sequence
from contextlib import closing
from typing import Any, BinaryIO

import engine
from caller import Caller
from lines import is_entry
from metrics import ask_ready, serve
from program import Unfit, sum_of
from status import Status
from worker import Worker


def arguments(words: Sequence[str]) -> argparse.Namespace:
    parser = argparse.ArgumentParser(description=__doc__, formatter_class=argparse.RawDescriptionHelpFormatter, usage=argparse.SUPPRESS)
    commands = parser.add_subparsers(dest="command", required=True)
    made = {name: commands.add_parser(name) for name in ("make", "work", "call", "log", "dead")}
    for command in made.values():
        command.add_argument("url", type=lambda word: os.environ.get("FLEET_URL", "") if word == "-" else word)
    made["make"].add_argument("partitions", type=int)
    made["make"].add_argument("program")
    made["make"].add_argument("node")
    made["make"].add_argument("--lease", type=float, default=3.0, metavar="SECONDS")
    made["make"].add_argument("--copies", type=int, default=1, metavar="N")
    made["make"].add_argument("--waiting", type=int, default=10_000, metavar="N")
    made["work"].add_argument("--follow", action="store_true")
    made["work"].add_argument("--metrics", type=int, default=0, metavar="PORT")
    commands.add_parser("ready").add_argument("port", type=int)
    made["work"].add_argument("host", nargs="+")
    made["call"].add_argument("client")
    return parser.parse_args(words)


def make(url: str, head: engine.Head) -> None:
    """Makes a fleet, or what is missing of it."""
    with closing(engine.connect(url)) as link:
        for made in link.make(head) or ["nothing: all is there"]:
            print(f"made {made}")


class Stop:
    """Whether SIGTERM or SIGINT came. A handler may interrupt anything, also itself, so it does no more than to set this."""

    def __init__(self) -> None:
        self.is_asked = False
        self.have(self.ask)

    def have(self, what: Any) -> None:
        for number in (signal.SIGTERM, signal.SIGINT):
            signal.signal(number, what)

    def ask(self, *_: object) -> None:
        self.is_asked = True

    def close(self) -> None:
        """Lets signals that still come do nothing, since Python would have them end the process where it already ends."""
        self.have(signal.SIG_IGN)


def work(url: str, host: Sequence[str], follows: bool, port: int) -> None:
    """Works until SIGTERM or SIGINT."""
    status = Status()
    if port:
        serve(status, port)
    with closing(Stop()) as stop:
        Worker(functools.partial(engine.connect, url), host, lambda: stop.is_asked, follows, status).work()


def calls_of(lines: BinaryIO) -> Iterator[tuple[str, str]]:
    """Each line's instance and call."""
    for line in lines:
        instance, _, call = line.decode().rstrip("\n").partition(" ")
        yield instance, call


def call(url: str, client: str) -> int:
    """Prints replies. The status: whether all calls were made."""
    status = 0
    with closing(Caller(functools.partial(engine.connect, url), client)) as caller:
        for reply in caller.replies(calls_of(sys.stdin.buffer)):
            print(reply, flush=True)
            status = status if is_entry(reply) else 2
    return status


def print_log(url: str) -> None:
    with closing(engine.connect(url)) as link:
        for partition in range(link.head().partitions):
            for _, text in link.read(partition, 0, link.last(partition)):
                sys.stdout.buffer.write(text)


def print_dead(url: str) -> None:
    with closing(engine.connect(url)) as link:
        for line in link.buried():
            print(line)


def main() -> int:
    words = arguments(sys.argv[1:])
    logging.basicConfig(level=logging.INFO, format=f"%(asctime)s {os.getpid()} %(message)s")
    try:
        if words.command == "make":
            make(words.url, engine.Head(words.partitions, words.lease, words.copies, sum_of(words.program), words.node, words.waiting))
        elif words.command == "work":
            work(words.url, words.host, words.follow, words.metrics)
        elif words.command == "ready":
            return 0 if ask_ready(words.port) else 1
        elif words.command == "call":
            return call(words.url, words.client)
        elif words.command == "dead":
            print_dead(words.url)
        else:
            print_log(words.url)
    except Unfit as reason:
        print(f"fleet: {reason}", file=sys.stderr)
        return 3
    except BrokenPipeError:
        return 1
    except (engine.EngineError, OSError, ValueError) as error:
        print(f"fleet: {error}", file=sys.stderr)
        return 1
    return 0


if __name__ == "__main__":
    sys.exit(main())
