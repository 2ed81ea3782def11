"""Callers of a fleet: they ask again until they hear."""
from __future__ import annotations

import logging
import time
from collections import deque
from collections.abc import Callable, Iterable, Iterator
from dataclasses import dataclass

from engine import Denied, Engine, EngineError
from lines import answered_by, is_busy

log = logging.getLogger("fleet")

HEAR_SECONDS = 0.05
RETRY_SECONDS = 0.5


@dataclass
class Open:
    """A request that has no reply yet."""

    line: str
    asked: float


class Caller:
    """A client of a fleet, who has at most one request open at an instance.

    Its name is its own: two callers with one name would hear each other's replies. Its numbers rise: `first` is above those that it
    ever used, which the time in microseconds is where nothing else is kept.
    """

    def __init__(self, connect: Callable[[], Engine], name: str, first: int | None = None, patience: float = 2.5) -> None:
        self.connect, self.name, self.patience = connect, name, patience
        self.number = time.time_ns() // 1000 if first is None else first - 1
        self.open: dict[str, Open] = {}
        self.asked_again = self.busy = 0
        self.engine = self.listening()

    def listening(self) -> Engine:
        """A connection that hears our replies."""
        while True:
            try:
                engine = self.connect()
                engine.listen(self.name)
                return engine
            except Denied:
                raise
            except (EngineError, OSError) as error:
                log.warning("%s has no engine: %s", self.name, error)
                time.sleep(RETRY_SECONDS)

    def close(self) -> None:
        self.engine.close()

    def ask(self, calls: Iterable[tuple[str, str]]) -> None:
        """Opens a request for each (instance, call). None of these instances has an open one."""
        opened = []
        for instance, call in calls:
            if instance in self.open:
                raise ValueError(f"{self.name} has an open request to {instance}")
            self.number += 1
            self.open[instance] = Open(f"{instance} {self.name}.{self.number} {call}", time.monotonic())
            opened.append(self.open[instance].line)
        self.send(opened)

    def send(self, lines: list[str]) -> None:
        try:
            if lines:
                self.engine.ask(lines)
        except Denied:
            raise
        except (EngineError, OSError) as error:
            self.begin_anew(error)

    def begin_anew(self, error: Exception) -> None:
        log.warning("%s begins anew: %s", self.name, error)
        self.engine.close()
        self.engine = self.listening()

    def hear(self) -> list[str]:
        """Replies to open requests, which close them. Asks again for what is open too long."""
        now = time.monotonic()
        late = [each for each in self.open.values() if now > each.asked + self.patience]
        for each in late:
            each.asked = now
        self.asked_again += len(late)
        self.send([each.line for each in late])
        try:
            heard = self.engine.hear(HEAR_SECONDS)
        except Denied:
            raise
        except (EngineError, OSError) as error:
            self.begin_anew(error)
            return []
        return [reply for reply in heard if self.closes(reply)]

    def closes(self, reply: str) -> bool:
        """Whether a reply, without its line feed, answers an open request, which is then closed."""
        answered = answered_by(reply)
        waits = answered and self.open.get(answered.instance)
        if not answered or not waits or waits.line.split(" ", 2)[1] != f"{answered.client}.{answered.number}":
            return False
        if is_busy(reply):
            self.busy += 1
            return False
        del self.open[answered.instance]
        return True

    def replies(self, calls: Iterable[tuple[str, str]], most: int = 256) -> Iterator[str]:
        """The replies to calls, each (instance, call), as they come. Calls of one instance are made in order, and at most so many requests
        are open at once."""
        source, later = iter(calls), deque[tuple[str, str]]()
        while True:
            self.ask(self.ready(source, later, most))
            if not self.open:
                return
            yield from self.hear()

    def ready(self, source: Iterator[tuple[str, str]], later: deque[tuple[str, str]], most: int) -> list[tuple[str, str]]:
        """The next calls of instances without an open request; `later` keeps those of the others."""
        ready: list[tuple[str, str]] = []
        busy = set(self.open)

        def place(call: tuple[str, str]) -> None:
            (later if call[0] in busy or len(busy) >= most else ready).append(call)
            busy.add(call[0])

        for _ in range(len(later)):
            place(later.popleft())
        while len(busy) < most and len(later) < most and (call := next(source, None)):
            place(call)
        return ready
