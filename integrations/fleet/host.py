"""The process that hosts the instances of a partition: `lus_live --many`."""
from __future__ import annotations

import os
import select
import subprocess
from collections.abc import Sequence

PATIENCE_SECONDS = 300.0
AT_ONCE = 1 << 16


class Lost(Exception):
    """The partition isn't known to be where we are: somebody else may have it, or the host is gone."""


class Ended(Lost):
    """The host ended or hangs, behind so many of the answers that it was asked for. Its status is negative where a signal ended it."""

    def __init__(self, reason: str, answered: int, status: int) -> None:
        super().__init__(reason)
        self.answered, self.status = answered, status


class Host:
    """A process of `lus_live --many`: it replays entries, and answers each call by a line."""

    def __init__(self, command: Sequence[str]) -> None:
        self.process = subprocess.Popen(command, stdin=subprocess.PIPE, stdout=subprocess.PIPE)
        assert self.process.stdin and self.process.stdout
        self.input, self.output = self.process.stdin.fileno(), self.process.stdout.fileno()
        os.set_blocking(self.input, False)
        self.rest = b""

    def replay(self, entries: bytes) -> None:
        """Has the host replay entries, which it answers by nothing."""
        self.exchange(entries, 0)
        if self.rest:
            raise Lost(f"the host doesn't take an entry of the log: {self.rest[:200]!r}")

    def answers(self, calls: Sequence[str]) -> list[str]:
        """The host's answers to calls, in order."""
        answers = self.exchange("".join(call + "\n" for call in calls).encode(), len(calls))
        return [answer.decode(errors="replace") for answer in answers]

    def is_ready(self) -> None:
        """Waits until the host has done all that it was told. What is no call is answered, and enters nothing."""
        answer, = self.exchange(b"?\n", 1)
        if b" # " not in answer:
            raise Lost(f"the host answers {answer[:200]!r} to what is no call")

    def exchange(self, text: bytes, count: int) -> list[bytes]:
        """Writes a text, and reads so many lines of answers meanwhile."""
        left, lines = memoryview(text), list[bytes]()
        while left or len(lines) < count:
            readable, writable, _ = select.select([self.output], [self.input] if left else [], [], PATIENCE_SECONDS)
            if not readable and not writable:
                raise Ended(f"the host has done nothing for {PATIENCE_SECONDS:.0f} s", len(lines), -1)
            try:
                if readable:
                    lines += self.read_lines()
                elif writable:
                    left = left[os.write(self.input, left[:AT_ONCE]):]
            except BlockingIOError:
                pass
            except OSError as error:
                raise self.end(len(lines)) from error
        if len(lines) > count:
            raise Lost(f"the host says more than it was asked: {lines[count][:200]!r}")
        return lines

    def read_lines(self) -> list[bytes]:
        data = os.read(self.output, AT_ONCE)
        if not data:
            raise BrokenPipeError
        *lines, self.rest = (self.rest + data).split(b"\n")
        return lines

    def end(self, answered: int) -> Ended:
        """That the host ended."""
        try:
            status = self.process.wait(PATIENCE_SECONDS)
        except subprocess.TimeoutExpired:
            status = -1
        return Ended(f"the host ended with status {status}", answered, status)

    def close(self) -> None:
        self.process.kill()
        self.process.wait()
        assert self.process.stdin and self.process.stdout
        self.process.stdout.close()
        self.process.stdin.close()
