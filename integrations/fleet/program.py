"""Which program a fleet runs, and whether a worker has the same."""
from __future__ import annotations

import hashlib
from collections.abc import Sequence
from pathlib import Path

from engine import Head


class Unfit(Exception):
    """This worker can't serve the fleet, and ends."""


def sum_of(program: str) -> str:
    """The SHA-256 of a program's text, in hexadecimal digits."""
    return hashlib.sha256(Path(program).read_bytes()).hexdigest()


def must_fit(command: Sequence[str], head: Head) -> None:
    """Sees whether a host, whose last words are PROGRAM NODE, has the fleet's program and node."""
    program, node = command[-2:]
    if node != head.node:
        raise Unfit(f"this fleet is of node {head.node}, and this worker has {node}")
    if (own := sum_of(program)) != head.program:
        raise Unfit(f"this fleet has another program: {head.program} is its SHA-256, and {own} that of {program}")
