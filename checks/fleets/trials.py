"""Trials of a fleet: workers are struck while clients call, and the log is compared with what the clients heard."""
from __future__ import annotations

import os
import random
import re
import signal
import subprocess
import sys
import threading
import time
from collections import deque
from collections.abc import Callable, Iterator
from concurrent.futures import ThreadPoolExecutor
from contextlib import closing
from dataclasses import dataclass
from pathlib import Path
from typing import Any, NamedTuple, TypeVar

HERE = Path(__file__).resolve().parent
FLEET = HERE.parent.parent / "integrations/fleet"
sys.path.insert(0, str(FLEET))

from caller import Caller  # noqa: E402
from engine import Engine, EngineError, Head, connect  # noqa: E402
from lines import answered_by, lines_of  # noqa: E402
from program import sum_of  # noqa: E402

PAST_ROWS = 80
AFTER = 15  # calls of a client behind the last strike
END_SECONDS = 60  # until a worker has ended that is told to
STEADY_TRIES = 5
STRIKERS = ("taken", "stepped", "appended", "settled", "replay", "hostless", "mute", "broken", "asleep", "gap")  # until all have struck
HOLDS = re.compile(r"\S+ \S+ (\d+) holds partition (\d+) behind (\d+) entries, of which it read (\d+) in ")
MISREAD = re.compile(r" (in the log (entry|request) |the log has a line that is no entry)")
Result = TypeVar("Result")


@dataclass(frozen=True)
class Plan:
    """What happens in a trial. Its clients call until all strikes were seen, so none is missed however fast or slow a machine is."""

    moment: str
    partitions: int = 2
    workers: int = 3
    clients: int = 2
    requests: int = 30  # of each client, at least
    instances: int = 12
    strikes: int = 3
    seconds: float = 300.0  # until a fleet that doesn't answer is given up
    lease: float = 1.0
    past: int = 0  # how many instances have an entry before the workers begin
    waiting: int = 1000
    others: tuple[str, ...] = ()  # further clients


class Held(NamedTuple):
    """That a worker began to serve a partition, and how much of its log it read for that."""

    pid: int
    partition: int
    entries: int
    read: int


class Told:
    """What the workers of a trial said."""

    def __init__(self, path: Path) -> None:
        self.path, self.at, self.rest = path, 0, ""
        self.lines: list[str] = []

    def read(self) -> None:
        """Adds the lines that are new."""
        if not self.path.exists():
            return
        with open(self.path, errors="replace") as file:
            file.seek(self.at)
            *lines, self.rest = (self.rest + file.read()).split("\n")
            self.at = file.tell()
        self.lines += lines

    def has(self, text: str, behind: int = 0) -> bool:
        """Whether a line behind so many says this."""
        return any(text in line for line in self.lines[behind:])

    def count(self, text: str) -> int:
        return sum(text in line for line in self.lines)

    def holds(self) -> list[Held]:
        return [Held(*map(int, match.groups())) for line in self.lines if (match := HOLDS.match(line))]


class Trial:
    """A fleet of its own on a server."""

    copies = 1

    def __init__(self, name: str, plan: Plan, url: str, host: list[str], folder: Path) -> None:
        self.name, self.plan, self.url, self.host, self.folder = name, plan, url, host, folder
        self.modules = FLEET
        self.told = Told(folder / "log")
        self.workers: list[subprocess.Popen[bytes]] = []
        self.asleep: dict[int, set[str]] = {}
        self.callers: dict[str, Caller] = {}
        self.heard: list[str] = []
        self.strikes = self.ended = 0  # strikes of the trial itself, and workers that died
        self.end = 0.0
        self.failures: list[str] = []
        self.given_up: list[str] = []
        self.log = ""

    def run(self) -> str:
        """The trial's log."""
        generator = random.Random(self.name)
        self.folder.mkdir()
        steady(self.prepare)
        self.end = time.monotonic() + self.plan.seconds
        try:
            for _ in range(self.plan.workers):
                self.start(self.moment(generator))
            clients = [threading.Thread(target=self.call, args=(f"c{k}",), daemon=True) for k in range(self.plan.clients)]
            for client in clients:
                client.start()
            while any(client.is_alive() for client in clients) and not self.is_over():
                self.told.read()
                self.disturb(generator)
                time.sleep(0.01)
            for client in clients:
                client.join(END_SECONDS)
        finally:
            self.stop()
        try:
            self.told.read()
            self.log = self.judge()
        except EngineError as error:
            self.expect(f"the log can be read: {error}", False)
        return self.log

    def prepare(self) -> None:
        """Makes the fleet."""
        with closing(connect(self.url)) as link:
            link.make(self.head())
            self.begin_with_past(link)

    def head(self) -> Head:
        """What this trial's fleet is."""
        return Head(self.plan.partitions, self.plan.lease, self.copies, sum_of(self.host[-2]), self.host[-1], self.plan.waiting)

    def begin_with_past(self, link: Engine) -> None:
        """Appends an entry of each instance to the log of partition 0, one at a time: long ones, so that they aren't read at once."""
        rows = ",".join(["[18,19,22]"] * PAST_ROWS)
        calls = "".join(f'{self.name}_{k} past.{k + 1} {{"burst":[{rows}]}}\n' for k in range(self.plan.past))
        entries = subprocess.run(self.host, input=calls.encode(), capture_output=True, check=True).stdout.splitlines(keepends=True)
        for position in range(link.last(0), len(entries)):
            link.append(0, position, entries[position])

    def is_over(self) -> bool:
        """Whether there is nothing to wait for: the time is up, or the log was misread, which ends its service."""
        return time.monotonic() > self.end or any(MISREAD.search(line) for line in self.told.lines[-50:])

    def is_struck(self) -> bool:
        """Whether all strikes were seen."""
        return self.strikes + self.told.count(" struck: ") >= self.plan.strikes

    def wait_until(self, condition: Callable[[], bool]) -> bool:
        """Waits for something, but not when the trial is over. Says whether it is so."""
        while not (is_so := condition()) and not self.is_over():
            time.sleep(0.02)
        return is_so

    def moment(self, generator: random.Random) -> list[str]:
        """The moment of the next worker, as struck_worker.py takes it."""
        if self.plan.moment in STRIKERS and self.is_struck() or self.plan.moment == "killed":
            return ["never", "0"]
        return [self.plan.moment, str(generator.randrange(2, 5))]

    def start(self, moment: list[str]) -> None:
        words = ["/usr/bin/python3", str(HERE / "struck_worker.py"), str(self.modules), self.worker_url(), *moment, *self.host]
        with open(self.folder / "log", "a") as log:
            self.workers.append(subprocess.Popen(words, stdout=log, stderr=log, start_new_session=True))

    def worker_url(self) -> str:
        """By which way the next worker comes to the engine."""
        return self.url

    def disturb(self, generator: random.Random) -> None:
        """Starts a worker for each that died, wakes those that stopped, and kills one where the plan says so."""
        for worker in list(self.workers):
            if worker.poll() is not None:
                end_group(worker)
                self.ended += 1
                self.workers.remove(worker)
                self.start(self.moment(generator))
            elif state_of(worker.pid) == "T":
                self.wake(worker)
        if self.plan.moment == "killed" and self.strikes < self.plan.strikes and len(self.heard) >= self.due():
            self.strike()
            self.strikes += 1

    def due(self) -> int:
        """How many replies are heard before the next strike."""
        return (self.strikes + 1) * self.plan.requests * self.plan.clients // (self.plan.strikes + 1)

    def strike(self) -> None:
        """Kills a worker and its host."""
        end_group(self.workers[self.strikes % len(self.workers)])

    def wake(self, worker: subprocess.Popen[bytes]) -> None:
        """Lets a worker go on once others have done its work: all that was open when it stopped is heard. Where all have stopped one
        goes on."""
        opened = {each.line.split(" ", 2)[1] for caller in list(self.callers.values()) for each in list(caller.open.values())}
        is_first = worker is self.workers[0] and all(state_of(other.pid) == "T" for other in self.workers)
        if self.asleep.setdefault(worker.pid, opened) <= self.answered() or is_first:
            os.kill(worker.pid, signal.SIGCONT)

    def answered(self) -> set[str]:
        """The requests whose reply was heard."""
        return {f"{each.client}.{each.number}" for reply in list(self.heard) if (each := answered_by(reply))}

    def stop(self) -> None:
        """Ends the workers as a service does, and by force those that don't end."""
        living = [worker for worker in self.workers if worker.poll() is None]
        for worker in living:
            worker.terminate()
            os.kill(worker.pid, signal.SIGCONT)
        for worker in living:
            try:
                worker.wait(END_SECONDS)
            except subprocess.TimeoutExpired:
                self.expect("a worker ends when it is told to", False)
        for worker in self.workers:
            end_group(worker)

    def caller(self, name: str, patience: float = 0.7) -> Caller:
        """A caller of this trial, whose requests have to be heard."""
        caller = self.callers[name] = Caller(lambda: connect(self.url), name, first=1, patience=patience)
        return caller

    def calls(self, client: str) -> Iterator[tuple[str, str]]:
        """A client's calls: so many at least, and some behind the last strike."""
        generator = random.Random(self.name + client)
        made = behind = 0
        while made < self.plan.requests or behind < AFTER:
            made, behind = made + 1, behind + self.is_struck()
            yield f"{self.name}_{generator.randrange(self.plan.instances)}", f"[{generator.randrange(15, 27)},19,22]"

    def call(self, client: str) -> None:
        """Makes calls of instances until each is heard."""
        calls, later = self.calls(client), deque[tuple[str, str]]()
        with closing(self.caller(client)) as caller:
            while not self.is_over():
                caller.ask(caller.ready(calls, later, 6))
                if not caller.open:
                    break
                self.heard += caller.hear()

    def replies(self, caller: Caller, calls: list[tuple[str, str]]) -> list[str]:
        """The replies to calls, until the trial is over."""
        source, later, heard = iter(calls), deque[tuple[str, str]](), list[str]()
        while not self.is_over():
            caller.ask(caller.ready(source, later, len(calls)))
            if not caller.open:
                break
            heard += caller.hear()
        return heard

    def expect(self, what: str, is_so: bool) -> None:
        if not is_so:
            self.failures.append(f"{self.name}: not so: {what}")

    def judge(self) -> str:
        """Compares the log with what was heard."""
        logs = steady(self.logs)
        lines = [line for log in logs for line in lines_of(log)]
        entries = [line for line in lines if " # " not in line]
        past = {f"past.{k + 1}" for k in range(self.plan.past)}
        self.given_up = [line for line in lines if " # " in line]
        wanted = self.wanted()
        asked = [caller for entry in entries if (caller := entry.split(" ", 3)[2]).split(".")[0] not in self.plan.others]
        self.expect("each request has an entry", wanted | past <= set(asked))
        self.expect("no request has two entries", len(set(asked)) == len(asked))
        self.expect("each entry is of a request", set(asked) <= wanted | past)
        self.expect("each entry that was heard is in the log", set(self.heard) <= set(entries))
        self.expect("each request was heard", self.answered() == wanted)
        owners = [{line.split(" ", 1)[0] for line in lines_of(log)} for log in logs]
        self.expect("each instance is in one partition", sum(map(len, owners)) == len(set().union(*owners)))
        counts: dict[str, int] = {}
        for entry in entries:
            instance, number, _ = entry.split(" ", 2)
            counts[instance] = counts.get(instance, 0) + 1
            self.expect(f"{entry} has the next number", int(number) == counts[instance])
        self.expect("all strikes were seen", self.is_struck())
        for line in self.told.lines:
            self.expect(f"no worker misreads the log: {line}", not MISREAD.search(line))
        self.expect("who serves has read all", all(held.entries >= self.plan.past for held in self.told.holds() if held.partition == 0))
        self.judge_more(entries)
        return b"".join(logs).decode()

    def logs(self) -> list[bytes]:
        """The log of each partition."""
        with closing(connect(self.url)) as link:
            return [b"".join(text for _, text in link.read(p, 0, link.last(p))) for p in range(self.plan.partitions)]

    def buried(self) -> list[str]:
        """The requests that were given up."""
        with closing(connect(self.url)) as link:
            return list(link.buried())

    def wanted(self) -> set[str]:
        """The requests that were made."""
        return {f"{caller.name}.{n}" for caller in self.callers.values() for n in range(1, caller.number + 1)
                if caller.name not in self.plan.others}

    def judge_more(self, entries: list[str]) -> None:
        """What else a trial asks."""


def steady(act: Callable[[], Result]) -> Result:
    """What an act gives. It is tried again where the engine doesn't answer, since the machine may be busy."""
    for _ in range(STEADY_TRIES):
        try:
            return act()
        except EngineError:
            time.sleep(1)
    return act()


def state_of(pid: int) -> str:
    """The state of a process: T where it is stopped."""
    try:
        return Path(f"/proc/{pid}/stat").read_text().rpartition(") ")[2][0]
    except OSError:
        return ""


def end_group(worker: subprocess.Popen[bytes]) -> None:
    """Kills a worker and its host, as the loss of a machine does."""
    try:
        os.killpg(worker.pid, signal.SIGKILL)
    except ProcessLookupError:
        pass
    worker.wait()


def at_once(jobs: list[Callable[[], Any]], lanes: int) -> list[Any]:
    """The results of jobs, so many at a time."""
    with ThreadPoolExecutor(lanes) as pool:
        return [job.result() for job in [pool.submit(job) for job in jobs]]
