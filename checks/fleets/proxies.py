"""A network that stops: what goes through a proxy waits while it is held."""
from __future__ import annotations

import select
import socket
import threading
from contextlib import suppress


class Proxy:
    """Passes on what comes to a port of its own to another one, and back. While it is held nothing goes through, and nobody is told."""

    def __init__(self, port: int) -> None:
        self.target = port
        self.door = socket.create_server(("127.0.0.1", 0))
        self.port = int(self.door.getsockname()[1])
        self.open = threading.Event()
        self.open.set()
        threading.Thread(target=self.accept, daemon=True).start()

    def accept(self) -> None:
        with suppress(OSError):
            while True:
                near, _ = self.door.accept()
                threading.Thread(target=self.pass_on, args=(near,), daemon=True).start()

    def pass_on(self, near: socket.socket) -> None:
        """Passes on both ways, until one side ends."""
        with near, suppress(OSError), socket.create_connection(("127.0.0.1", self.target), 5) as far:
            other = {near: far, far: near}
            while True:
                for side in select.select([near, far], [], [])[0]:
                    data = side.recv(1 << 16)
                    self.open.wait()
                    if not data:
                        return
                    other[side].sendall(data)

    def hold(self) -> None:
        self.open.clear()

    def go(self) -> None:
        self.open.set()

    def close(self) -> None:
        self.go()
        self.door.close()
