"""Trials of who serves what: followers, workers that are cut off, leases that are given back, a log that isn't right."""
from __future__ import annotations

import random
import re
import time
from contextlib import closing

from proxies import Proxy
from trials import HOLDS, Held, Trial, end_group, steady

from engine import Engine, Role, connect
from engine_nats import NatsEngine, partition_of

READ = re.compile(r" follows partition \d+ behind \d+ entries, of which it read (\d+)")
FOLLOWS = re.compile(r"\S+ \S+ (\d+) (?:doesn't follow|follows) partition 0 (?:behind (\d+) entries)?")


class FollowTrial(Trial):
    """A trial whose workers follow. The server of the one partition is killed where another follows it, until one that followed serves: it
    reads no more than what came since."""

    def __init__(self, *words: object) -> None:
        super().__init__(*words)  # type: ignore[arg-type]
        self.seen = 0
        self.following: dict[int, int] = {}
        self.taken_over: list[tuple[Held, int]] = []
        self.server = 0

    def look(self) -> None:
        """Goes through what the workers said since: who follows, behind how many entries, and who serves."""
        for line in self.told.lines[self.seen:]:
            if match := FOLLOWS.match(line):
                self.following.pop(int(match[1]), None)
                if match[2]:
                    self.following[int(match[1])] = int(match[2])
            if match := HOLDS.match(line):
                held = Held(*map(int, match.groups()))
                if held.pid in self.following:
                    self.taken_over.append((held, self.following.pop(held.pid)))
                self.server = held.pid
        self.seen = len(self.told.lines)

    def disturb(self, generator: random.Random) -> None:
        super().disturb(generator)
        self.look()
        self.strikes = len(self.taken_over)
        server = next((worker for worker in self.workers if worker.pid == self.server), None)
        if server and not self.strikes and any(pid != self.server for pid in self.following) and self.heard:
            self.server = 0
            end_group(server)

    def judge_more(self, entries: list[str]) -> None:
        for held, known in self.taken_over:
            self.expect(f"who followed {known} entries reads none of them again: {held}", held.read <= held.entries - known)


class LapsedTrial(Trial):
    """A trial of a worker whose lease to follow ends. It follows on by the host that it has, and reads nothing again."""

    def call(self, client: str) -> None:
        self.wait_until(lambda: self.is_struck() and len(self.reads()) > 1)

    def reads(self) -> list[int]:
        """How many entries were read each time that a worker came to follow."""
        return [int(match[1]) for line in self.told.lines if (match := READ.search(line))]

    def judge_more(self, entries: list[str]) -> None:
        self.expect(f"a worker whose lease to follow ended goes on with its host: {self.reads()}", sum(self.reads()) <= len(entries))


class CutTrial(Trial):
    """A trial whose workers but one are cut off from the engine for longer than a lease; what they sent comes late."""

    def run(self) -> str:
        port = int(re.findall(r":(\d+)", self.url)[-1])
        self.proxies, self.started = [Proxy(port) for _ in range(self.plan.workers)], 0
        try:
            return super().run()
        finally:
            for proxy in self.proxies:
                proxy.close()

    def worker_url(self) -> str:
        self.started += 1
        return re.sub(r":\d+(?=$|/[^/]*$)", f":{self.proxies[self.started % self.plan.workers].port}", self.url)

    def disturb(self, generator: random.Random) -> None:
        super().disturb(generator)
        if self.strikes < self.plan.strikes and len(self.heard) >= self.due():
            cut = [proxy for k, proxy in enumerate(self.proxies) if k != self.strikes % self.plan.workers]
            for proxy in cut:
                proxy.hold()
            time.sleep(2.5 * self.plan.lease)
            for proxy in cut:
                proxy.go()
            self.strikes += 1


class KeptTrial(CutTrial):
    """A trial of an idle worker that is cut off until its lease has ended. It then serves on by the host that it has, and reads nothing
    again."""

    def disturb(self, generator: random.Random) -> None:
        Trial.disturb(self, generator)

    def call(self, client: str) -> None:
        with closing(self.caller(client)) as caller:
            self.heard += self.replies(caller, [(f"{self.name}_0", "[18,19,22]")])
            told = len(self.told.lines)
            self.proxies[0].hold()
            self.wait_until(lambda: self.told.has(" lost partition 0", told) or self.told.has(" begins anew", told))
            self.proxies[0].go()
            self.heard += self.replies(caller, [(f"{self.name}_0", "[18,19,22]")])
            self.strikes += 1

    def judge_more(self, entries: list[str]) -> None:
        holds = self.told.holds()
        self.expect("the worker serves twice", len(holds) > 1)
        self.expect(f"a worker whose lease ended goes on with its host: {holds}", sum(held.read for held in holds) <= len(entries))


class RogueTrial(Trial):
    """A trial in which half of the workers lease what others have. As many keep to the rules as there are partitions, so none lacks one."""

    def moment(self, generator: random.Random) -> list[str]:
        return ["rogue" if len(self.workers) % 2 else "never", "0"]


class LeaseTrial(Trial):
    """A trial without calls of long leases, one of which isn't renewed in time. All are given back long before they would end."""

    def moment(self, generator: random.Random) -> list[str]:
        return ["late" if len(self.workers) % 2 else "never", "0"]

    def call(self, client: str) -> None:
        self.wait_until(lambda: self.is_struck() and self.told.has(" lost partition ") and self.told.has(" holds partition "))

    def judge_more(self, entries: list[str]) -> None:
        def free() -> list[int]:
            with closing(connect(self.url)) as link:
                return link.free(Role.SERVE)

        self.expect("workers that end give their leases back", len(steady(free)) == self.plan.partitions)


class AgainTrial(Trial):
    """A trial of a request that is asked again once it is answered. Its reply comes again, before that of a later request."""

    def call(self, client: str) -> None:
        first, second = (f"{self.name}_0 {client}.{k} [18,19,22]" for k in (1, 2))
        with closing(connect(self.url)) as link:
            link.listen(client)
            link.ask([first])
            self.wait_until(lambda: self.hears(link, f" {client}.1 "))
            link.ask([first])
            link.ask([second])
            self.wait_until(lambda: self.hears(link, f" {client}.2 "))
        self.expect(f"who asks again hears the same again: {self.heard}", len(self.heard) == 3 and self.heard[0] == self.heard[1])

    def hears(self, link: Engine, text: str) -> bool:
        self.heard += link.hear(0.1)
        return any(text in reply for reply in self.heard)

    def wanted(self) -> set[str]:
        return {"c0.1", "c0.2"}


def place_of(link: Engine, name: str) -> int:
    """In which of two partitions an instance is."""
    if isinstance(link, NatsEngine):
        return partition_of(name, 2)
    return int(link.rows("select partition_of(%s)", name)[0][0])  # type: ignore[attr-defined]


class MisreadTrial(Trial):
    """A trial in which the log of partition 0 lacks an entry. Workers say so, and serve the other partition."""

    def begin_with_past(self, link: Engine) -> None:
        entry = "step(18, 19, 22) -> (true, 1)"
        link.append(0, 0, f"{self.name}_x 1 past.1 {entry}\n{self.name}_x 3 past.3 {entry}\n".encode())

    def is_over(self) -> bool:
        """(This log is misread.)"""
        return time.monotonic() > self.end or self.ended > self.plan.workers

    def call(self, client: str) -> None:
        with closing(connect(self.url)) as link, closing(self.caller(client)) as caller:
            calls = [(name, "[18,19,22]") for k in range(40) if place_of(link, name := f"{self.name}_{client}_{k}") == 1]
            self.heard += self.replies(caller, calls)
            self.called = len(calls)
        self.wait_until(lambda: self.told.has(self.why()))

    def why(self) -> str:
        return f"entry 3 of {self.name}_x stands behind its entry 1"

    def judge(self) -> str:
        self.expect("workers say what is wrong", self.told.has(self.why()))
        self.expect("such a log isn't served", not self.told.has("holds partition 0"))
        self.expect("other partitions are served", len(self.heard) == self.called > 0)
        self.expect("no worker ended", self.ended == 0)
        return ""
