"""What passed here before, for tools/rt and tools/prove: in the folder `lus-kept` of the user's folder for caches ($XDG_CACHE_HOME, else ~/.cache).

An entry is what a proof, or a check of a crate's tests, made; or why each wrong body of a crate was refused. Its name is a sum of the crate's
files and of those below it, of the toolchain, of the handles that are allowed, and of the libraries over which it was proved, so it is found
from any clone of the same sources. What no run has taken for 14 days goes, and of more than 20 GB the oldest. Whoever can write there can have
anything pass, so what is merged has to pass without it.
"""
import fcntl
import hashlib
import os
import re
import shutil
import time
from contextlib import contextmanager
from pathlib import Path

import kit

DAYS = 14
MOST = 20_000_000_000


class Kept:
    """The store, for one process and the tree `top`."""

    def __init__(self, top):
        handles = (Path(top) / "HANDLES").read_text().partition(":")[2]
        self.given = (kit.said("version"), sorted(re.findall(r"\w+", handles)))
        self.folder = Path(os.environ.get("XDG_CACHE_HOME") or Path.home() / ".cache") / "lus-kept"
        self.folder.mkdir(parents=True, exist_ok=True)
        self.sums = {}

    def tidy(self):
        """Removes what no run has taken for long, and the oldest of too much."""
        room = MOST
        for entry in sorted(self.folder.iterdir(), key=lambda entry: -entry.stat().st_mtime):
            room -= sum(file.stat().st_size for file in [entry, *entry.rglob("*")])
            if room < 0 or entry.stat().st_mtime < time.time() - DAYS * 86400:
                remove(entry)

    def sum_of_library(self, crate):
        # (each is proved once in a run, before those above it)
        if crate.rlib not in self.sums:
            made = hashlib.sha256()
            for file in sorted(it for it in Path(crate.rlib).rglob("*") if it.is_file()):
                made.update(repr((str(file.relative_to(crate.rlib)), hashlib.sha256(file.read_bytes()).hexdigest())).encode())
            self.sums[crate.rlib] = made.hexdigest()
        return self.sums[crate.rlib]

    def place(self, crate, *what):
        """Where something of this crate stands, or would stand."""
        below = [self.sum_of_library(lower) for lower in crate.below()]
        version, handles = self.given
        said = repr((version, crate.stamp(), handles, below, what))
        return self.folder / f"{crate.name}-{hashlib.sha256(said.encode()).hexdigest()[:32]}"

    @contextmanager
    def alone(self, entry):
        """Waits for another process that is at this entry: what that makes can be taken then."""
        with open(entry.with_name(f".{entry.name}.lock"), "w") as lock:
            fcntl.flock(lock, fcntl.LOCK_EX)
            yield

    def put(self, entry, write):
        """Makes an entry by `write`, which gets its path: whole or not at all, whoever else makes it."""
        room = entry.with_name(f".{entry.name}.{os.getpid()}")
        try:
            write(room)
            room.rename(entry)
        except OSError:
            remove(room)

    def take(self, entry, to):
        """Copies what an entry has into the folder `to`. Gives whether there is the entry."""
        if not entry.is_dir():
            return False
        os.utime(entry)
        for made in entry.iterdir():
            copy(made, to / made.name)
        return True


def remove(entry):
    if entry.is_dir():
        shutil.rmtree(entry, ignore_errors=True)
    else:
        entry.unlink(missing_ok=True)


def copy(entry, to):
    if entry.is_dir():
        shutil.copytree(entry, to, dirs_exist_ok=True)
    else:
        shutil.copy2(entry, to)
