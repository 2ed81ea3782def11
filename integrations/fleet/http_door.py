#!/usr/bin/python3
"""An HTTP door to a fleet, on loopback: an example of a service over `engine.Engine`. A proxy before it has TLS.

    http_door.py URL PORT [--tokens FILE]

`PUT /kitchen/panel.17` asks kitchen what its body says, `[18,19,22]`, as the 17th request of panel. Who hears nothing, or that it took too
long, puts the same again, with the same number: it is one request. With `--tokens` a client shows its token, as `Authorization: Bearer
TOKEN`; FILE has a line `CLIENT TOKEN` for each client. `GET /ready` says whether there is an engine.

    200 the entry                                413 the body has more bytes than a call may have
    400 no request: another path, or two lines   422 the request made no entry, and why
    401 the token isn't this client's            503 busy, or no engine: put it again later
    411 no length of the body                    504 no reply yet: put it again
"""
from __future__ import annotations

import argparse
import contextlib
import functools
import hmac
import logging
import queue
import socket
import threading
import time
from collections.abc import Callable
from dataclasses import dataclass, field
from http.server import BaseHTTPRequestHandler, ThreadingHTTPServer
from pathlib import Path

from engine import Engine, EngineError, connect
from lines import MOST_BYTES, Request, answered_by, is_busy, is_entry, request_of

log = logging.getLogger("fleet")

HEAR_SECONDS = 0.01
ASK_SECONDS = 2.5  # until a request is asked again
REPLY_SECONDS = 20.0
RETRY_SECONDS = 0.5
IDLE_SECONDS = 60.0
MOST_CALL = MOST_BYTES - 256  # bytes: a line has names too
MOST_DISCARDED = 1 << 26
MOST_OPEN = 1000
MOST_CLIENTS = 10_000  # that one connection listens to


@dataclass
class Open:
    """A request whose reply somebody waits for."""

    request: Request
    ends: float
    due: float = 0.0  # when it is asked again
    reply: str = ""
    is_heard: threading.Event = field(default_factory=threading.Event)


class Door:
    """Asks for many clients by one connection, which one thread has."""

    def __init__(self, connect: Callable[[], Engine]) -> None:
        self.connect = connect
        self.new = queue.SimpleQueue[Open]()
        self.open: list[Open] = []
        self.is_ready = False
        threading.Thread(target=self.run, daemon=True).start()

    def ask(self, request: Request) -> str:
        """The reply to a request; an empty one where none came in time."""
        asked = Open(request, time.monotonic() + REPLY_SECONDS)
        self.new.put(asked)
        asked.is_heard.wait(REPLY_SECONDS)
        return asked.reply

    def run(self) -> None:
        while True:
            try:
                with contextlib.closing(self.connect()) as engine:
                    self.is_ready = True
                    self.work(engine)
            except (EngineError, OSError) as error:
                log.warning("the door begins anew: %s", error)
                self.is_ready = False
                time.sleep(RETRY_SECONDS)

    def work(self, engine: Engine) -> None:
        """Asks and hears by one connection, until it listens to too many."""
        clients: set[str] = set()
        for each in self.open:
            each.due = 0.0
        while len(clients) < MOST_CLIENTS:
            now = time.monotonic()
            self.open = [each for each in self.open if now < each.ends and not each.is_heard.is_set()]
            while not self.new.empty():
                self.open.append(self.new.get())
            due = [each for each in self.open if now >= each.due]
            for client in {each.request.client for each in due} - clients:
                engine.listen(client)
                clients.add(client)
            for each in due:
                each.due = now + ASK_SECONDS
            if due:
                engine.ask([each.request.line for each in due])
            for reply in engine.hear(HEAR_SECONDS):
                self.hear(reply)

    def hear(self, reply: str) -> None:
        """Gives a reply to those who wait for it."""
        answered = answered_by(reply)
        for each in self.open:
            if answered and each.request.key == (answered.instance, answered.client, answered.number):
                each.reply = reply
                each.is_heard.set()


class Handler(BaseHTTPRequestHandler):
    """A connection of a client."""

    protocol_version = "HTTP/1.1"
    timeout = IDLE_SECONDS
    door: Door
    tokens: dict[str, str] | None

    def do_GET(self) -> None:  # noqa: N802 (the name is the library's)
        if self.path == "/ready":
            self.answer(200 if self.door.is_ready else 503, "ready" if self.door.is_ready else "no engine")
        else:
            self.answer(404, "there are PUT /INSTANCE/CLIENT.N and GET /ready")

    def do_PUT(self) -> None:  # noqa: N802
        call = self.body()
        if call is None:
            return
        line = " ".join([*self.path.removeprefix("/").split("/"), call.decode(errors="replace").removesuffix("\n")])
        request = request_of(line) if self.path.count("/") == 2 else None
        if request is None:
            self.answer(400, "there is PUT /INSTANCE/CLIENT.N, with a call in one line")
        elif not self.is_client(request.client):
            self.answer(401, "the token isn't this client's")
        elif len(self.door.open) >= MOST_OPEN or not self.door.is_ready:
            self.answer(503, "busy" if self.door.is_ready else "no engine")
        else:
            self.tell(self.door.ask(request))

    def tell(self, reply: str) -> None:
        if is_entry(reply):
            self.answer(200, reply)
        elif not reply:
            self.answer(504, "no reply yet: put it again")
        else:
            self.answer(503 if is_busy(reply) else 422, reply)

    def is_client(self, name: str) -> bool:
        """Whether who asks has this name."""
        if self.tokens is None:
            return True
        shown = self.headers.get("Authorization", "").removeprefix("Bearer ")
        return hmac.compare_digest(shown.encode(), self.tokens.get(name, "").encode()) and shown != ""

    def length(self) -> int:
        """How many bytes the body has; -1 where that isn't said."""
        text = self.headers.get("Content-Length", "")
        is_said = text.isascii() and text.isdigit() and len(text) < 16 and "Transfer-Encoding" not in self.headers
        return int(text) if is_said else -1

    def body(self) -> bytes | None:
        """The body, or none, which is then answered."""
        length = self.length()
        if length < 0:
            self.refuse(411, "the body has no length")
        elif length > MOST_CALL:
            self.refuse(413, f"a call has at most {MOST_CALL} bytes")
        else:
            data = self.rfile.read(length)
            if len(data) == length:
                return data
            self.close_connection = True
        return None

    def handle_expect_100(self) -> bool:
        """(Who asks before it sends what is too long doesn't send it.)"""
        if self.length() > MOST_CALL:
            self.refuse(413, f"a call has at most {MOST_CALL} bytes")
            return False
        return super().handle_expect_100()

    def refuse(self, code: int, text: str) -> None:
        """Answers what ends the connection, and reads on until the client ends it: who still sends doesn't listen, and closing a connection
        on which something comes takes back what was answered."""
        self.close_connection = True
        self.answer(code, text)
        left = MOST_DISCARDED
        with contextlib.suppress(OSError):
            self.connection.shutdown(socket.SHUT_WR)
            while left > 0 and (data := self.rfile.read1(1 << 16)):
                left -= len(data)

    def answer(self, code: int, text: str) -> None:
        data = f"{text}\n".encode()
        self.send_response(code)
        self.send_header("Content-Type", "text/plain; charset=utf-8")
        self.send_header("Content-Length", str(len(data)))
        if code == 503:
            self.send_header("Retry-After", "1")
        if self.close_connection:
            self.send_header("Connection", "close")
        self.end_headers()
        self.wfile.write(data)

    def log_message(self, *_: object) -> None:
        """(The log has each entry.)"""


def main() -> None:
    parser = argparse.ArgumentParser(description=__doc__, formatter_class=argparse.RawDescriptionHelpFormatter, usage=argparse.SUPPRESS)
    parser.add_argument("url")
    parser.add_argument("port", type=int)
    parser.add_argument("--tokens", type=Path, metavar="FILE")
    words = parser.parse_args()
    logging.basicConfig(level=logging.INFO, format="%(asctime)s %(message)s")
    Handler.door = Door(functools.partial(connect, words.url))
    Handler.tokens = dict(line.split() for line in words.tokens.read_text().splitlines()) if words.tokens else None
    ThreadingHTTPServer.daemon_threads = True
    ThreadingHTTPServer(("127.0.0.1", words.port), Handler).serve_forever()


if __name__ == "__main__":
    main()
