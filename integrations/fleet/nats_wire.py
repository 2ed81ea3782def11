"""The few words of NATS that the fleet needs (docs.nats.io, "Client Protocol"). Debian 12 has the server, and no client for Python."""
from __future__ import annotations

import json
import os
import socket
import ssl
import time
from collections.abc import Callable, Mapping
from pathlib import Path
from typing import Any, NamedTuple
from urllib.parse import parse_qsl

from engine import Denied, EngineError

CONNECT_SECONDS = 10.0
ANSWER_SECONDS = 4.0
NO_RESPONDERS = 503


class Message(NamedTuple):
    """A message of a subscription."""

    subject: str
    reply: str
    headers: bytes
    data: bytes

    @property
    def status(self) -> int:
        """What the server says in place of data; 0 where it says nothing."""
        words = self.headers.split(b"\r\n", 1)[0].split()
        return int(words[1]) if len(words) > 1 else 0


class Asked(NamedTuple):
    """A request to the server."""

    subject: str
    data: bytes
    headers: Mapping[str, object] | None = None


class Place(NamedTuple):
    """Where servers are, and who we are there."""

    user: str
    password: str
    servers: list[tuple[str, int]]
    tls: ssl.SSLContext | None


def place_of(url: str) -> Place:
    """What `nats://[USER:PASSWORD@]HOST[:PORT][,HOST..][?login=FILE&ca=FILE&certificate=FILE&key=FILE]` says; `tls://..` wants TLS, as `ca`
    does.

    The file `login` has `USER:PASSWORD` as its first line. `ca` is of whom signed the servers' certificates, where it isn't the
    system's."""
    scheme, _, rest = url.partition("://")
    rest, _, query = rest.partition("?")
    words = dict(parse_qsl(query, strict_parsing=True)) if query else {}
    if unknown := words.keys() - {"login", "ca", "certificate", "key"}:
        raise ValueError(f"a URL of NATS has no {unknown.pop()}")
    login, _, places = rest.rstrip("/").rpartition("@")
    if "login" in words:
        login = Path(words["login"]).read_text().partition("\n")[0]
    user, _, password = login.partition(":")
    servers = []
    for place in places.split(","):
        host, _, port = place.partition(":")
        servers.append((host, int(port or 4222)))
    tls = ssl.create_default_context(cafile=words.get("ca")) if scheme == "tls" or "ca" in words else None
    if tls and "certificate" in words:
        tls.load_cert_chain(words["certificate"], words.get("key"))
    return Place(user, password, servers, tls)


def frame(subject: str, data: bytes, reply: str = "", headers: Mapping[str, object] | None = None) -> bytes:
    """The bytes that publish a message."""
    if headers is None:
        return f"PUB {subject} {reply} {len(data)}\r\n".encode() + data + b"\r\n"
    head = ("NATS/1.0\r\n" + "".join(f"{name}: {value}\r\n" for name, value in headers.items()) + "\r\n").encode()
    return f"HPUB {subject} {reply} {len(head)} {len(head) + len(data)}\r\n".encode() + head + data + b"\r\n"


class Connection:
    """A connection to the first of some servers that answers."""

    def __init__(self, url: str) -> None:
        place = place_of(url)
        self.buffer, self.count = b"", 0
        self.waiting: list[Message] = []
        self.info: dict[str, Any] = {}
        self.socket = self.reach(place)
        self.inbox = ".".join(["_INBOX", *([place.user] if place.user else []), os.urandom(8).hex()])
        login = {"user": place.user, "pass": place.password} if place.user else {}
        words = {"verbose": False, "pedantic": False, "headers": True, "no_responders": True, "lang": "lus", "version": "0", **login}
        self.send(b"CONNECT " + json.dumps(words).encode() + b"\r\n")
        self.subscribe(self.inbox + ".>")
        self.flush()

    def flush(self) -> None:
        """Waits until the server has done all that it was told."""
        self.pongs = 0
        self.send(b"PING\r\n")
        end = time.monotonic() + ANSWER_SECONDS
        while not self.pongs:
            self.waiting += self.receive(0.1)
            if time.monotonic() > end:
                raise EngineError("NATS doesn't answer")

    def reach(self, place: Place) -> socket.socket:
        """Tries the servers in turn."""
        end, turn = time.monotonic() + CONNECT_SECONDS, 0
        while True:
            try:
                return self.open(place.servers[turn % len(place.servers)], place.tls)
            except ssl.SSLCertVerificationError as error:
                raise Denied(f"the server isn't whom it says: {error}") from error
            except OSError as error:
                if time.monotonic() > end:
                    raise EngineError(f"no NATS server at {place.servers}: {error}") from error
                turn += 1
                time.sleep(0.2)

    def open(self, server: tuple[str, int], tls: ssl.SSLContext | None) -> socket.socket:
        """A connection to a server, which first says what it is. TLS begins behind that."""
        plain = socket.create_connection(server, 1)
        plain.setsockopt(socket.IPPROTO_TCP, socket.TCP_NODELAY, 1)
        if tls is None:
            return plain
        plain.settimeout(ANSWER_SECONDS)
        line = b""
        while not line.endswith(b"\r\n"):
            if not (byte := plain.recv(1)):
                raise OSError("it closed the connection")
            line += byte
        self.obey(b"INFO", line[:-2])
        return tls.wrap_socket(plain, server_hostname=server[0])

    def send(self, data: bytes) -> None:
        try:
            self.socket.settimeout(ANSWER_SECONDS)
            self.socket.sendall(data)
        except OSError as error:
            raise EngineError(f"NATS takes nothing: {error}") from error

    def subscribe(self, subject: str) -> None:
        self.count += 1
        self.send(f"SUB {subject} {self.count}\r\n".encode())

    def fresh(self) -> str:
        """A subject of our own for answers."""
        self.count += 1
        return f"{self.inbox}.{self.count}"

    def parsed(self) -> list[Message]:
        """Takes the whole messages off the buffer."""
        found, buffer, at = [], self.buffer, 0
        while (end := buffer.find(b"\r\n", at)) >= 0:
            words = buffer[at:end].split()
            kind = words[0] if words else b""
            if kind in (b"MSG", b"HMSG"):
                size, begin = int(words[-1]), end + 2
                if len(buffer) < begin + size + 2:
                    break
                has_head = kind == b"HMSG"
                head = begin + (int(words[-2]) if has_head else 0)
                reply = words[3].decode() if len(words) == (6 if has_head else 5) else ""
                found.append(Message(words[1].decode(), reply, buffer[begin:head], buffer[head:begin + size]))
                at = begin + size + 2
            else:
                self.obey(kind, buffer[at:end])
                at = end + 2
        self.buffer = buffer[at:]
        return found

    def obey(self, kind: bytes, line: bytes) -> None:
        """Does what a line of the server asks for that is no message."""
        if kind == b"PING":
            self.send(b"PONG\r\n")
        elif kind == b"INFO":
            self.info = json.loads(line[5:])
        elif kind == b"PONG":
            self.pongs += 1
        elif kind == b"-ERR":
            what = line[5:].decode()
            raise (Denied if "Violation" in what and "Payload" not in what else EngineError)("NATS says " + what)

    def receive(self, wait: float) -> list[Message]:
        """The messages that come first within so many seconds."""
        end = time.monotonic() + wait
        while not (found := self.parsed()):
            self.socket.settimeout(max(end - time.monotonic(), 0.0001))
            try:
                data = self.socket.recv(1 << 18)
            except TimeoutError:
                return []
            except OSError as error:
                raise EngineError(f"NATS is gone: {error}") from error
            if not data:
                raise EngineError("NATS closed the connection")
            self.buffer += data
        return found

    def poll(self, wait: float, is_mine: Callable[[Message], bool] = lambda _: True) -> list[Message]:
        """The messages of a kind that came, or those that come first within so many seconds. Others stay for whoever asks for them."""
        end = time.monotonic() + wait
        while True:
            mine = [message for message in self.waiting if is_mine(message)]
            if mine:
                self.waiting = [message for message in self.waiting if not is_mine(message)]
                return mine
            came = self.receive(end - time.monotonic())
            if not came:
                return []
            self.waiting += came

    def request(self, asked: Asked, wait: float = ANSWER_SECONDS) -> dict[str, Any]:
        """The server's answer, as JSON."""
        inbox = self.fresh()
        self.send(frame(asked.subject, asked.data, inbox, asked.headers))
        answers = self.poll(wait, lambda message: message.subject == inbox)
        if not answers:
            raise EngineError(f"NATS doesn't answer {asked.subject}")
        if answers[0].status == NO_RESPONDERS:
            raise EngineError(f"nothing of NATS takes {asked.subject}")
        answer: dict[str, Any] = json.loads(answers[0].data)
        return answer

    def api(self, name: str, body: Mapping[str, object] | None = None) -> dict[str, Any]:
        """JetStream's answer; an empty one where there is no such thing."""
        answer = self.request(Asked("$JS.API." + name, b"" if body is None else json.dumps(body).encode()), 2 * ANSWER_SECONDS)
        if answer.get("error", {}).get("code") == 404:
            return {}
        if "error" in answer:
            raise EngineError(f"{name}: {answer['error'].get('description')}")
        return answer

    def close(self) -> None:
        self.socket.close()
