#!/usr/bin/python3
"""Runs a batch of shards on Dask.

    dask_batch.py SCHEDULER PROGRAM FOLDER [LUS]

Each FOLDER/NAME.json is run by `lus` on any worker, and gives FOLDER/NAME.txt here, whole or not at all. A worker gets the shard's script and gives
back its journals, so workers need `lus` (LUS names it) and no common folder. Shards whose output is there aren't run again: after a
crash, call it once more. A shard whose worker is lost, or whose run fails, is run again elsewhere. Status 0 says that every shard is whole.
"""
from __future__ import annotations

import subprocess
import sys
import tempfile
from pathlib import Path

from distributed import Client, as_completed

RETRIES = 10


def run_shard(lus: str, program: str, script: str) -> str:
    """The journals of a shard: it shares nothing with others, so it may be run anew."""
    with tempfile.TemporaryDirectory() as room:
        (Path(room) / "program.lus").write_text(program)
        (Path(room) / "script.json").write_text(script)
        done = subprocess.run([lus, "program.lus", "script.json"], cwd=room, capture_output=True, text=True)
    if done.returncode:
        raise RuntimeError(f"status {done.returncode}: {done.stderr}")
    return done.stdout


def keep(path: Path, text: str) -> None:
    """Writes a file that is whole as soon as it has its name."""
    part = path.with_suffix(".part")
    part.write_text(text)
    part.rename(path)


def main() -> int:
    scheduler, program, folder = sys.argv[1], Path(sys.argv[2]).read_text(), Path(sys.argv[3])
    lus = sys.argv[4] if len(sys.argv) > 4 else "lus"
    scripts = [path for path in sorted(folder.glob("*.json")) if not path.with_suffix(".txt").exists()]
    failed = 0
    with Client(scheduler, timeout=60) as client:
        client.wait_for_workers(1)
        runs = {client.submit(run_shard, lus, program, path.read_text(), pure=False, retries=RETRIES): path for path in scripts}
        for run in as_completed(runs):
            if run.status == "finished":
                keep(runs[run].with_suffix(".txt"), run.result())
            else:
                failed += 1
                print(f"{runs[run]}: {run.exception()}", file=sys.stderr)
    return 1 if failed else 0


if __name__ == "__main__":
    if len(sys.argv) not in (4, 5):
        sys.exit(__doc__)
    sys.exit(main())
