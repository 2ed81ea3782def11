"""Runs of programs of which one allocation, or one thread, is refused."""
import shutil
import subprocess
import sys
from pathlib import Path

from lib.check import TOP


def need_cc():
    """Fails where there is no `cc`."""
    if shutil.which("cc") is None:
        print("there is no cc, which this needs\n0 passed, 1 failed")
        sys.exit(1)


class Refusing:
    """Runs programs whose Nth allocation, or thread, is refused, and counts those that they ask for; `cc` makes what does so in a folder."""

    def __init__(self, folder, refused="allocations", limit=60):
        self.refused, self.limit = refused, limit
        self.library, self.count = Path(folder, "refusing.so"), Path(folder, "count")
        subprocess.run(["cc", "-O1", "-shared", "-fPIC", "-o", self.library, Path(__file__).with_suffix(".c"), "-ldl"], check=True)

    def run(self, words, number, given=b""):
        """The status, the output and the faults of a run, and how many it asked for; no status where it didn't end."""
        self.count.write_bytes(bytes(8))
        # (a build before any proof looks for faults in memory, and wants no library before its own unless it is told)
        told = {"LD_PRELOAD": str(self.library), "COUNT_IN": str(self.count), "REFUSED": self.refused, "REFUSE": str(number),
                "ASAN_OPTIONS": "verify_asan_link_order=0"}
        try:
            done = subprocess.run(list(map(str, words)), input=given, capture_output=True, cwd=TOP, env=told, timeout=self.limit)
            answer = done.returncode, done.stdout, done.stderr
        except subprocess.TimeoutExpired:
            answer = None, b"", b"no end within the limit"
        return answer, int.from_bytes(self.count.read_bytes(), sys.byteorder)
