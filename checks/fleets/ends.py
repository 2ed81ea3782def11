"""Trials of single workers: those that have to end, and what one says of itself."""
from __future__ import annotations

import re
import signal
import subprocess
import threading
import time
import urllib.request
from collections.abc import Iterator
from contextlib import closing, contextmanager
from pathlib import Path

from servers import free_port
from trials import Trial, steady

from engine import Role, connect
from metrics import ask_ready

WANTED = {"lus_entries_total 2", 'lus_role{role="serves"} 1', 'lus_role{role="waits"} 0', "lus_partition 0", "lus_queue 0",
          'lus_refusals_total{reason="no call"} 1', 'lus_refusals_total{reason="old number"} 1'}
LINE = re.compile(r"# (HELP|TYPE) lus_\w+ .+|lus_\w+({\w+=\"[^\"]*\"})? -?[0-9.]+")


@contextmanager
def begun(trial: Trial, *words: str) -> Iterator[subprocess.Popen[str]]:
    """A worker of a trial's fleet, by `fleet.py`. It ends in the end, and if need be by force."""
    command = ["/usr/bin/python3", str(trial.modules / "fleet.py"), "work", trial.url, *words]
    with subprocess.Popen(command, stderr=subprocess.PIPE, text=True) as worker:
        watch = threading.Timer(trial.plan.seconds, worker.kill)
        watch.start()
        try:
            yield worker
            worker.wait()
        finally:
            worker.kill()
            watch.cancel()


class EndTrial(Trial):
    """A trial of workers that have to end: by a host that ends at once, by another program or node, by many signals."""

    def run(self) -> str:
        self.folder.mkdir()
        steady(self.prepare)
        other = self.folder / "other.lus"
        other.write_text(Path(self.host[-2]).read_text() + "-- another\n")
        self.ends("its host ends at once", ["false", *self.host[-2:]], "at once")
        self.ends("it has another program", [*self.host[:-2], str(other), self.host[-1]], "another program")
        self.ends("it has another node", [*self.host[:-1], "other"], "this fleet is of node")
        self.expect("such workers have no lease", len(steady(self.free)) == self.plan.partitions)
        self.storm()
        self.expect("a worker that ends gives its lease back", len(steady(self.free)) == self.plan.partitions)
        return ""

    def free(self) -> list[int]:
        with closing(connect(self.url)) as link:
            return link.free(Role.SERVE)

    def ends(self, why: str, host: list[str], says: str) -> None:
        """Begins a worker that has to end. One that holds a partition, or begins one host after another, wouldn't."""
        told = ""
        with begun(self, "--", *host) as worker:
            for line in worker.stderr or ():
                told += line
                if " holds " in line or told.count("the host ended") > 2:
                    worker.kill()
        self.expect(f"a worker ends with status 3 and says why, where {why}: {told}", worker.returncode == 3 and says in told)

    def storm(self) -> None:
        """Tells a worker that holds a partition to end, again and again."""
        with begun(self, "--", *self.host) as worker:
            for line in worker.stderr or ():
                if " holds " in line:
                    break
            for k in range(50):
                worker.send_signal(signal.SIGTERM)
                time.sleep(0.0001 * (k % 3))
            told = "".join(worker.stderr or ())
        self.expect(f"a worker ends with status 0 when it is told to, however often: {told}", worker.returncode == 0)


class MetricsTrial(Trial):
    """A trial of what a worker says of itself."""

    def run(self) -> str:
        self.folder.mkdir()
        self.port, self.end = free_port(), time.monotonic() + self.plan.seconds
        with begun(self, "--metrics", str(self.port), "--", *self.host) as worker:
            self.look()
            worker.kill()
        self.expect("a worker that ended isn't ready", not ask_ready(self.port))
        return ""

    def look(self) -> None:
        self.wait_until(lambda: bool(self.metrics()))
        self.expect("a worker without a fleet isn't ready", not ask_ready(self.port))
        steady(self.prepare)
        with closing(self.caller("c", patience=self.plan.seconds)) as caller:
            caller.number = 4
            for call in ("a", "[18,19,22]"), ("a", "oops"), ("b", "[18,19,22]"):
                self.replies(caller, [call])
            caller.number = 0
            self.replies(caller, [("a", "[18,19,22]")])
        self.wait_until(lambda: WANTED <= set(self.metrics()) and self.lease() > 0)
        text = self.metrics()
        self.expect("a worker that serves is ready", self.wait_until(lambda: ask_ready(self.port)))
        self.expect("metrics have their form", all(LINE.fullmatch(line) for line in text))
        self.expect(f"metrics say {WANTED}: {text}", set(text) >= WANTED)
        self.expect("metrics say how long the lease lasts", 0 < self.lease() <= self.plan.lease)

    def lease(self) -> float:
        """How long the lease lasts, as the metrics say."""
        return next((float(line.split()[1]) for line in self.metrics() if line.startswith("lus_lease_seconds ")), 0.0)

    def metrics(self) -> list[str]:
        """The lines of the metrics; none where there are no metrics yet."""
        try:
            with urllib.request.urlopen(f"http://127.0.0.1:{self.port}/metrics", timeout=5) as answer:
                return str(answer.read().decode()).splitlines()
        except OSError:
            return []
