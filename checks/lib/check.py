"""What the scripts of checks/ share: the count that ends each, the tools beside a `lus`, and how these are run."""
import os
import subprocess
import sys
from pathlib import Path

TOP = Path(__file__).resolve().parents[2]
# A program that isn't proved may check memory as it runs, and would hold back what is freed; a proved one reads nothing of this.
BARE = {"ASAN_OPTIONS": "detect_leaks=0:quarantine_size_mb=0:thread_local_quarantine_size_kb=0"}
LIMIT = 600.0  # seconds of any run, also on a slow and busy machine
TOOLS = ["lus_explain", "lus_format", "lus_draw", "lus_audit", "lus_live", "lus_test", "lus_lsp"]


class Check:
    """Counts what holds and what doesn't."""

    def __init__(self):
        self.passed = self.failed = 0

    def holds(self, name, is_so, why=""):
        """Counts whether something is so, and prints why it isn't."""
        self.passed, self.failed = self.passed + bool(is_so), self.failed + (not is_so)
        if not is_so:
            print(f"{name}: {str(why)[:600]}", flush=True)

    def expect(self, name, got, wanted):
        """Counts whether what came is what was wanted."""
        self.holds(name, got == wanted, f"expected {str(wanted)[:300]}, got {str(got)[:300]}")

    def end(self):
        """Ends the script with its last line and its status: 0 where all holds, and something was looked at."""
        print(f"{self.passed} passed, {self.failed} failed")
        sys.exit(1 if self.failed or not self.passed else 0)


def lus_of(doc):
    """The path of `lus` that is a script's one word; with other words the script says what it is, and ends."""
    if len(sys.argv) != 2:
        sys.exit(doc)
    return Path(sys.argv[1]).absolute()


def run(words, given="", env=BARE, cwd=TOP, **how):
    """Runs a program: its status, and what it writes to standard output and to standard error, as texts."""
    given = given.encode() if isinstance(given, str) else given
    done = subprocess.run(list(map(str, words)), input=given, capture_output=True, env=env, cwd=cwd, timeout=LIMIT, **how)
    return done.returncode, done.stdout.decode("utf-8", "replace"), done.stderr.decode("utf-8", "replace")


def user_environment(lus):
    """What a user has whose tools are those beside a `lus`. Ends the script where one isn't there, since the shell would take another."""
    for tool in TOOLS:
        if not (lus.parent / tool).is_file():
            sys.exit(f"there is no {tool} beside {lus}")
    return {**os.environ, **BARE, "PATH": f"{lus.parent}:{os.environ['PATH']}", "LC_ALL": "C.UTF-8"}
