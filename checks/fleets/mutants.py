"""The rules of a fleet, each broken in a copy: a trial has to see it."""
from __future__ import annotations

import re
from dataclasses import dataclass, replace
from pathlib import Path

from kinds import AGAIN, ASLEEP, CALM, DOOR, FOLLOW, GAP, HOSTILE, KEPT, LAPSED, LEASES, LOST, MISREAD, POISON, SLOW
from trials import FLEET, Plan


@dataclass(frozen=True)
class Mutant:
    """A rule that is broken in a copy of the fleet's modules, and the trial that has to see it, by what isn't so there."""

    name: str
    file: str
    old: str
    new: str
    plan: Plan
    seen_by: str
    kind: str = ""

    def is_seen(self, failures: list[str]) -> bool:
        """Whether a trial's failures say what has to be seen."""
        return any(re.search(self.seen_by, failure) for failure in failures)

    def modules(self, folder: Path) -> Path:
        """A copy of the modules in which the rule is broken."""
        folder.mkdir()
        for source in FLEET.glob("*.py"):
            text = source.read_text()
            if source.name == self.file:
                if text.count(self.old) != 1:
                    raise ValueError(f"{self.file} has not one place for: {self.name}")
                text = text.replace(self.old, self.new)
            (folder / source.name).write_text(text)
        return folder


STUCK_SECONDS = 12.0  # until a fleet whose rule is broken is seen not to answer
STRUCK = Plan("", partitions=1, workers=2, requests=10, strikes=2)
UNHEARD = "each request was heard"
DOUBLE = "no request has two entries"
MISREAD_TOLD = "no worker misreads the log"
MUTANTS = [
    Mutant("a host begins without the log", "partition.py", "            self.host.replay(text)\n", "", replace(STRUCK, moment="stepped"), MISREAD_TOLD),
    Mutant("requests aren't remembered", "partition.py", "            self.latest[key] = read.number, line\n", "", replace(STRUCK, moment="appended"), DOUBLE),
    Mutant("known requests have no reply", "partition.py", "                replies.append(entry)\n", "                pass\n",
           AGAIN, "who asks again hears the same again", "again"),
    Mutant("replies go out before the append", "service.py",
           "        self.append([answer for answer in answers if is_entry(answer)])\n        self.partition.status",
           "        self.settle(handles, [*replies, *answers])\n        self.append([answer for answer in answers if is_entry(answer)])\n"
           "        self.partition.status",
           replace(STRUCK, moment="stepped"), "each entry that was heard is in the log"),
    Mutant("silence counts as an append", "service.py",
           '                raise Lost("somebody else appended to the log")\n', "                position = self.partition.position\n",
           replace(STRUCK, moment="mute"), "each entry that was heard is in the log"),
    Mutant("a host is kept whose calls aren't in the log", "worker.py", "if not partition.is_behind and not partition.is_spoilt:",
           "if partition:", replace(STRUCK, moment="broken", workers=1), "|".join((MISREAD_TOLD, "each entry that was heard is in the log"))),
    Mutant("a host ends with its lease", "worker.py", "if not partition.is_behind and not partition.is_spoilt:", "if not partition:",
           KEPT, "a worker whose lease ended goes on with its host", "kept"),
    Mutant("a lease isn't renewed during a replay", "lease.py", "max(0.0, due - time.monotonic())", "60",
           replace(SLOW, seconds=STUCK_SECONDS), UNHEARD),
    Mutant("leases aren't given back", "lease.py", "                    self.engine.release(self.role, self.partition, self.owner)\n", "",
           LEASES, "workers that end give their leases back", "leases"),
    Mutant("late leases aren't given back", "lease.py", "                if self.may_be_ours:\n                    self.engine =",
           "                if self.is_ours():\n                    self.engine =", LEASES, "workers that end give their leases back", "leases"),
    Mutant("numbers of entries aren't looked at", "partition.py", "if read.entry not in (0, count + 1):", "if count < 0:",
           replace(MISREAD, seconds=STUCK_SECONDS), "workers say what is wrong", "misread"),
    Mutant("lengths aren't looked at", "partition.py", "if is_too_long(each.line):", "if not each.line:",
           HOSTILE, "who sends too long a request is told so", "hostile"),
    Mutant("a host may answer anything", "partition.py", "if read is None or", "if read and read.number < 0 and",
           replace(POISON, seconds=STUCK_SECONDS), "some requests are given up", "poison"),
    Mutant("numbers may jump", "partition.py", "if request.number > most:", "if request.number > 10**18:",
           HOSTILE, "a number that jumps is refused", "hostile"),
    Mutant("a worker with another program serves", "program.py", "!= head.program", "== ''", CALM, "it has another program", "ends"),
    Mutant("a worker whose host ends goes on", "worker.py", 'raise Unfit(f"{end} at once") if end.status >= 0 else end', "raise end",
           CALM, "its host ends at once", "ends"),
    Mutant("who followed reads all anew", "worker.py", "if self.followed and self.followed.number == lease.partition:", "if not lease:",
           FOLLOW, "reads none of them again", "follow"),
    Mutant("a host ends with its lease to follow", "worker.py", "        self.keep(partition, following.seconds)\n", "        self.stop_following()\n",
           LAPSED, "a worker whose lease to follow ended goes on with its host", "lapsed"),
    Mutant("what is given up isn't in the log", "service.py", "        self.append([reply])\n", "", POISON, "some requests are given up",
           "poison"),
    Mutant("what ends hosts isn't given up", "service.py", "self.blamed[request.key] >= MOST_BLAMES", "self.blamed[request.key] < 0",
           POISON, "hosts of a worker at most", "poison"),
    Mutant("a door looks at no token", "http_door.py", "if self.tokens is None:", "if True:", replace(DOOR, strikes=0), "another's token is refused",
           "door"),
]
MUTANTS_OF = {
    "NATS": [
        Mutant("what was lost isn't made anew", "engine_nats.py", "return self.streams.mend(self.head())", "return []",
               replace(LOST, seconds=STUCK_SECONDS), "workers say that LUS_QUEUE was made anew", "lost"),
        Mutant("a log that is gone is begun anew", "nats_streams.py", "if name.startswith(LOG) and not is_new and not there:", "if not name:",
               LOST, "a log that is gone isn't begun anew", "lost"),
        Mutant("what was read isn't counted", "nats_log.py", "if sequence != at + 1:", "if not sequence:", GAP, "who serves has read all"),
        Mutant("entries are appended at any place", "engine_nats.py", 'put(self.nats, f"lus.log.{partition}", position, text)',
               'put(self.nats, f"lus.log.{partition}", self.last(partition), text)', ASLEEP, DOUBLE),
    ],
    "PostgreSQL": [
        Mutant("what was read isn't counted", "engine_postgres.py", "if position != behind + 1:", "if not position:", GAP,
               "who serves has read all"),
        Mutant("entries are appended at any place", "engine_postgres.py",
               "insert into log values (%s, %s, %s) on conflict do nothing",
               "insert into log select p, greatest(at, 1 + (select max(position) from log)), own "
               "from (values (%s, %s, %s)) t(p, at, own)",
               ASLEEP, DOUBLE),
    ],
}
