"""A trial of clients that call by HTTP."""
from __future__ import annotations

import http.client
import socket
import subprocess
import time
from collections.abc import Iterable
from contextlib import closing

from servers import free_port, wait_for
from trials import Trial, end_group

LATER = (503, 504)
LONG = 2 << 20


class DoorTrial(Trial):
    """A trial whose clients call by an HTTP door. Workers are killed, and the door with them."""

    def prepare(self) -> None:
        super().prepare()
        self.port, self.numbers = free_port(), dict[str, int]()
        (self.folder / "tokens").write_text("".join(f"c{k} word-c{k}\n" for k in range(self.plan.clients)))
        self.open_door()

    def open_door(self) -> None:
        words = ["/usr/bin/python3", str(self.modules / "http_door.py"), self.url, str(self.port), "--tokens", str(self.folder / "tokens")]
        with open(self.folder / "door", "a") as log:
            self.door = subprocess.Popen(words, stdout=log, stderr=log)
        wait_for(self.port)

    def close_door(self) -> None:
        self.door.kill()
        self.door.wait()

    def strike(self) -> None:
        end_group(self.workers[self.strikes % len(self.workers)])
        self.close_door()
        self.open_door()

    def stop(self) -> None:
        self.close_door()
        super().stop()

    def put(self, path: str, body: bytes | Iterable[bytes], token: str = "word-c0") -> tuple[int, str]:
        """What is answered: the status and the text."""
        with closing(http.client.HTTPConnection("127.0.0.1", self.port, timeout=120)) as link:
            link.request("PUT", path, body, {"Authorization": f"Bearer {token}"})
            answer = link.getresponse()
            return answer.status, answer.read().decode().rstrip("\n")

    def put_until(self, path: str, body: bytes, token: str = "word-c0") -> tuple[int, str]:
        """What is answered in the end, however often it has to be put."""
        while not self.is_over():
            try:
                status, text = self.put(path, body, token)
                if status not in LATER:
                    return status, text
            except (OSError, http.client.HTTPException):
                pass
            time.sleep(0.1)
        return 0, ""

    def call(self, client: str) -> None:
        for number, (instance, call) in enumerate(self.calls(client), 1):
            self.numbers[client] = number
            status, reply = self.put_until(f"/{instance}/{client}.{number}", call.encode(), f"word-{client}")
            if self.is_over():
                return
            self.expect(f"a call is answered by its entry: {status} {reply}", status == 200)
            self.heard.append(reply)
        if client == "c0":
            self.look()

    def look(self) -> None:
        """Puts the last request again, and what is none. (No strike comes any more.)"""
        last, path = self.heard_of("c0"), f"/{self.name}_0/c0.{self.numbers['c0'] + 1}"
        again = self.put_until(f"/{last.split(' ')[0]}/{last.split(' ')[2]}", b"[0,0,0]")
        self.expect(f"who puts a request again hears the same: {again}", again == (200, last))
        status, text = self.put_until(path, b"oops")
        self.expect(f"what is no call is told so: {status} {text}", status == 422 and text.startswith(f"{self.name}_0 # c0."))
        odd: list[tuple[str, int, str, bytes | Iterable[bytes]]] = [
            ("a body that is too long", 413, path, b" " * LONG), ("another path", 400, "/kitchen", b"[18,19,22]"),
            ("no name", 400, "/kitchen/7up.1", b"[18,19,22]"), ("two lines", 400, path, b"[18,19,22]\n[18,19,22]"),
            ("a body of no known length", 411, path, iter([b"[18,19,22]"]))]
        for what, wanted, at, body in odd:
            got = self.put(at, body)
            self.expect(f"{what} is refused: {got}", got[0] == wanted)
        got = self.put(path, b"[18,19,22]", "word-c1")
        self.expect(f"another's token is refused: {got}", got[0] == 401)
        with socket.create_connection(("127.0.0.1", self.port), 120) as link:
            link.sendall(f"PUT {path} HTTP/1.1\r\nHost: door\r\nExpect: 100-continue\r\nContent-Length: {LONG}\r\n\r\n".encode())
            told = link.recv(1000)
        self.expect(f"who asks before it sends too long a body is refused: {told!r}", told.startswith(b"HTTP/1.1 413 "))

    def heard_of(self, client: str) -> str:
        """The reply to a client's last request."""
        return next(reply for reply in self.heard if reply.split(" ")[2] == f"{client}.{self.numbers[client]}")

    def wanted(self) -> set[str]:
        return {f"{client}.{n}" for client, last in self.numbers.items() for n in range(1, last + 1)}
