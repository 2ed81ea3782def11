"""What a worker says of itself."""
from __future__ import annotations

import time
from collections import Counter
from collections.abc import Iterator
from dataclasses import dataclass, field

ROLES = ("begins", "waits", "replays", "follows", "serves")
READY = ("waits", "follows", "serves")


@dataclass
class Status:
    """What a worker does now, and has done. Its threads write single values, which the thread of the metrics reads."""

    role: str = "begins"
    partition: int = -1
    entries: int = 0
    position: int = 0
    last: int = 0
    waiting: int = 0
    lease_ends: float = 0.0
    refusals: Counter[str] = field(default_factory=Counter)

    def refuse(self, reason: str, times: int = 1) -> None:
        self.refusals[reason] += times

    def is_ready(self) -> bool:
        """Whether it serves, follows, or waits for something to do."""
        return self.role in READY

    def samples(self) -> Iterator[tuple[str, str, str, list[tuple[str, float]]]]:
        """Each metric: its name, kind, meaning, and values behind their labels."""
        yield "lus_entries_total", "counter", "Entries that this worker appended.", [("", self.entries)]
        yield ("lus_refusals_total", "counter", "Requests that made no entry, by reason.",
               [(f'{{reason="{reason}"}}', count) for reason, count in sorted(self.refusals.items())])
        yield "lus_role", "gauge", "What this worker does.", [(f'{{role="{role}"}}', int(role == self.role)) for role in ROLES]
        yield "lus_partition", "gauge", "The partition that it serves, replays or follows; -1 for none.", [("", self.partition)]
        yield "lus_replay_position", "gauge", "The position up to which its host has replayed the log.", [("", self.position)]
        yield "lus_log_position", "gauge", "The last position of the log, when it was looked at.", [("", self.last)]
        yield "lus_queue", "gauge", "Requests that wait for the partition.", [("", self.waiting)]
        yield "lus_lease_seconds", "gauge", "How long the lease lasts.", [("", round(max(0.0, self.lease_ends - time.monotonic()), 3))]

    def text(self) -> str:
        """All metrics, in Prometheus' text format."""
        lines = []
        for name, kind, meaning, values in self.samples():
            lines += [f"# HELP {name} {meaning}", f"# TYPE {name} {kind}", *(f"{name}{labels} {value}" for labels, value in values)]
        return "\n".join(lines) + "\n"
