"""A trial of long logs: how soon a partition is served again whose server is killed, where another worker follows it."""
from __future__ import annotations

import re
import subprocess
import time
from collections import Counter
from contextlib import closing
from dataclasses import dataclass
from pathlib import Path

from trials import FLEET, HOLDS, Held, Plan, Trial, end_group, steady

from caller import Caller
from engine import Engine, connect
from engine_nats import NatsEngine, partition_of
from lines import answered_by, lines_of

PARTITIONS, WORKERS = 8, 18  # each partition has a server and who follows it; two are spare
LEASE = 3.0
WITHIN = LEASE + 2.0  # seconds from a kill to a reply
ASK_SECONDS = 0.2
PIECE_BYTES = 1 << 18
FOLLOWS = re.compile(r"\S+ \S+ (\d+) follows partition (\d+) behind (\d+) entries")
LEFT = re.compile(r"\S+ \S+ (\d+) (?:lost|doesn't follow) partition (\d+)")


@dataclass
class Taken:
    """A partition that another worker serves since its server was killed."""

    partition: int
    seconds: float
    """From the kill to the reply to a request."""
    held: Held


class TakeoverTrial(Trial):
    """A fleet with so many entries of so many instances, as many of each. One server after another is killed."""

    def __init__(self, name: str, url: str, host: list[str], folder: Path, entries: int, instances: int, kills: int) -> None:
        super().__init__(name, Plan("never", partitions=PARTITIONS, workers=WORKERS, strikes=kills, lease=LEASE, seconds=7200), url, host, folder)
        self.each, self.instances = entries // instances, instances
        self.servers, self.followers = dict[int, Held](), dict[int, int]()
        self.seen = 0
        self.taken: list[Taken] = []

    def begin_with_past(self, link: Engine) -> None:
        """Appends the entries of each partition's instances, in turn: thermostats that heat a minute more each time."""
        self.names = self.places(link)
        self.ends: list[int] = []
        for partition, names in enumerate(self.names):
            position, piece, size = 0, list[str](), 0
            for count in range(1, self.each + 1):
                for name in names:
                    piece.append(f"{name} {count} past.{count} step(18, 19, 22) -> (true, {count})\n")
                    size += len(piece[-1])
                    if size > PIECE_BYTES:
                        position, piece, size = link.append(partition, position, "".join(piece).encode()) or 0, [], 0
            self.ends.append(link.append(partition, position, "".join(piece).encode()) or 0 if piece else position)

    def places(self, link: Engine) -> list[list[str]]:
        """The names of each partition's instances."""
        names = [f"{self.name}_{k}" for k in range(self.instances)]
        if isinstance(link, NatsEngine):
            placed = [(name, partition_of(name, PARTITIONS)) for name in names]
        else:
            placed = link.rows("select name, partition_of(name) from unnest(%s) name", names)  # type: ignore[attr-defined]
        found: list[list[str]] = [[] for _ in range(PARTITIONS)]
        for name, place in placed:
            found[place].append(name)
        return found

    def start(self, moment: list[str]) -> None:
        words = ["/usr/bin/python3", str(FLEET / "fleet.py"), "work", self.url, "--follow", "--", *self.host]
        with open(self.folder / "log", "a") as log:
            self.workers.append(subprocess.Popen(words, stdout=log, stderr=log, start_new_session=True))

    def look(self) -> None:
        """Goes through what the workers said since: who serves which partition, and who follows it."""
        self.told.read()
        for line in self.told.lines[self.seen:]:
            if match := LEFT.match(line):
                self.leaves(int(match[1]), int(match[2]))
            if match := FOLLOWS.match(line):
                self.followers[int(match[2])] = int(match[1])
            if match := HOLDS.match(line):
                held = Held(*map(int, match.groups()))
                self.servers[held.partition] = held
                self.leaves_as_follower(held.pid)
        self.seen = len(self.told.lines)

    def leaves(self, pid: int, partition: int) -> None:
        if partition in self.servers and self.servers[partition].pid == pid:
            del self.servers[partition]
        self.leaves_as_follower(pid)

    def leaves_as_follower(self, pid: int) -> None:
        for partition in [each for each, follower in self.followers.items() if follower == pid]:
            del self.followers[partition]

    def is_whole(self) -> bool:
        """Whether each partition has a server and who follows it."""
        self.look()
        return len(self.servers) == len(self.followers) == PARTITIONS

    def is_served(self, partition: int) -> bool:
        self.look()
        return partition in self.servers

    def run(self) -> str:
        self.folder.mkdir()
        steady(self.prepare)
        self.end = time.monotonic() + self.plan.seconds
        try:
            began = time.monotonic()
            for _ in range(WORKERS):
                self.start([])
            self.expect("each partition is served and followed", self.wait_until(self.is_whole))
            self.replayed = time.monotonic() - began
            with closing(self.caller("panel", patience=ASK_SECONDS)) as caller:
                for kill in range(self.plan.strikes):
                    self.kill(caller, kill % PARTITIONS)
        finally:
            self.stop()
        self.judge_log()
        return ""

    def kill(self, caller: Caller, partition: int) -> None:
        """Kills the server of a partition, and asks until it is served again. Then a new worker replays what nobody follows any more."""
        if not self.wait_until(self.is_whole):
            self.expect("each partition is served and followed again", False)
            return
        server = self.servers.pop(partition)
        worker = next(each for each in self.workers if each.pid == server.pid)
        began = time.monotonic()
        end_group(worker)
        self.workers.remove(worker)
        self.heard += self.replies(caller, [(self.names[partition][0], "[18,19,22]")])
        took = time.monotonic() - began
        self.start([])
        self.wait_until(lambda: self.is_served(partition))
        held = self.servers[partition]
        self.taken.append(Taken(partition, took, held))
        self.expect(f"a partition is served again within {WITHIN} s: {took:.2f} s", took < WITHIN)
        self.expect(f"who followed reads nothing again: {held}", held.read < held.entries // 1000)

    def judge_log(self) -> None:
        """Each request has one entry, the next of its instance, and that was heard."""
        with closing(connect(self.url)) as link:
            texts = [text for p in range(PARTITIONS) for _, text in link.read(p, self.ends[p], link.last(p))]
        lines = [line for text in texts for line in lines_of(text)]
        self.expect("what was heard is what was added to the logs", sorted(lines) == sorted(self.heard))
        counts = Counter[str]()
        for line in self.heard:
            read = answered_by(line)
            assert read
            counts[read.instance] += 1
            wanted = self.each + counts[read.instance]
            self.expect(f"{line} is entry {wanted}", read.entry == wanted and line.endswith(f"-> (true, {wanted})"))
        self.expect("each request has an entry", len(lines) == self.plan.strikes)

    def figures(self) -> str:
        took = sorted(each.seconds for each in self.taken)
        if not took:
            return "nothing was taken over"
        return (f"{self.each * self.instances} entries of {self.instances} instances, replayed by {WORKERS} workers in {self.replayed:.0f} s; "
                f"{len(took)} servers killed, served again after {took[0]:.2f} to {took[-1]:.2f} s, {took[len(took) // 2]:.2f} in the middle")
