"""A long trial of everything at once: some hundred acts against workers, hosts, servers and the network."""
from __future__ import annotations

import os
import random
import signal
import time
from collections.abc import Callable
from contextlib import closing, suppress
from dataclasses import replace
from pathlib import Path

from parts import CutTrial
from servers import Server
from trials import Plan, end_group


PLAN = Plan("cut", partitions=3, clients=3, instances=40, strikes=0, seconds=3600.0)
LONGEST = 2.5  # leases that something is stopped


class ChaosTrial(CutTrial):
    """A trial of so many acts. Clients call until the last one."""

    server: Server

    def __init__(self, acts: int, name: str, url: str, host: list[str], folder: Path) -> None:
        super().__init__(name, replace(PLAN, strikes=acts), url, host, folder)
        self.later: list[tuple[float, Callable[[], None]]] = []
        self.next, self.done = 0.0, dict[str, int]()

    def disturb(self, generator: random.Random) -> None:
        """Starts a worker for each that died, ends what is due, and acts."""
        now = time.monotonic()
        for due in [each for each in self.later if each[0] < now]:
            self.later.remove(due)
            due[1]()
        for worker in list(self.workers):
            if worker.poll() is not None:
                end_group(worker)
                self.workers.remove(worker)
                self.start(["never", "0"])
        if now > self.next and self.strikes < self.plan.strikes:
            self.next = now + generator.random() * 0.5
            self.strikes += 1
            name = generator.choices([*ACTS], [weight for weight, _ in ACTS.values()])[0]
            self.done[name] = self.done.get(name, 0) + 1
            ACTS[name][1](self, generator)

    def after(self, generator: random.Random, act: Callable[[], None]) -> None:
        self.later.append((time.monotonic() + generator.random() * LONGEST * self.plan.lease, act))

    def kill(self, generator: random.Random) -> None:
        end_group(generator.choice(self.workers))

    def kill_host(self, generator: random.Random) -> None:
        pid = generator.choice(self.workers).pid
        with suppress(OSError):
            for child in Path(f"/proc/{pid}/task/{pid}/children").read_text().split():
                os.kill(int(child), signal.SIGKILL)

    def sleep(self, generator: random.Random) -> None:
        worker = generator.choice(self.workers)
        if worker.poll() is None:
            worker.send_signal(signal.SIGSTOP)
            self.after(generator, lambda: worker.send_signal(signal.SIGCONT))

    def cut(self, generator: random.Random) -> None:
        proxy = generator.choice(self.proxies)
        proxy.hold()
        self.after(generator, proxy.go)

    def rogue(self, generator: random.Random) -> None:
        self.start(["rogue", "0"])
        rogue = self.workers.pop()
        self.after(generator, lambda: end_group(rogue))

    def restart(self, generator: random.Random) -> None:
        self.server.stop(generator.choice([signal.SIGTERM, signal.SIGKILL]))
        time.sleep(generator.random())
        self.server.start()

    def stop(self) -> None:
        for _, act in self.later:
            act()
        super().stop()

    def call(self, client: str) -> None:
        generator = random.Random(client)
        with closing(self.caller(client)) as caller:
            while (self.strikes < self.plan.strikes or caller.open) and not self.is_over():
                free = [name for k in range(self.plan.instances) if (name := f"{self.name}_{k}") not in caller.open]
                wanted = generator.sample(free, 8 - len(caller.open)) if self.strikes < self.plan.strikes and len(caller.open) < 8 else []
                caller.ask([(name, f"[{generator.randrange(15, 27)},19,22]") for name in wanted])
                self.heard += caller.hear()
                time.sleep(0.002)


ACTS: dict[str, tuple[int, Callable[[ChaosTrial, random.Random], None]]] = {
    "workers killed": (30, ChaosTrial.kill), "hosts killed": (15, ChaosTrial.kill_host), "workers stopped": (20, ChaosTrial.sleep),
    "networks cut": (20, ChaosTrial.cut), "rogues": (8, ChaosTrial.rogue), "servers stopped": (7, ChaosTrial.restart)}
