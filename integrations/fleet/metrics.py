"""A worker's status by HTTP on loopback: metrics as Prometheus reads them, and whether it is ready."""
from __future__ import annotations

import threading
import urllib.error
import urllib.request
from http.server import BaseHTTPRequestHandler, ThreadingHTTPServer

from status import Status


def serve(status: Status, port: int) -> ThreadingHTTPServer:
    """Answers `/metrics` and `/ready` on loopback from now on, by threads that end with the process."""
    class Handler(BaseHTTPRequestHandler):
        def do_GET(self) -> None:  # noqa: N802 (the name is the library's)
            if self.path == "/metrics":
                self.answer(200, "text/plain; version=0.0.4", status.text())
            elif self.path == "/ready":
                self.answer(200 if status.is_ready() else 503, "text/plain", status.role + "\n")
            else:
                self.answer(404, "text/plain", "there are /metrics and /ready\n")

        def answer(self, code: int, kind: str, text: str) -> None:
            self.send_response(code)
            self.send_header("Content-Type", kind)
            self.send_header("Content-Length", str(len(text.encode())))
            self.end_headers()
            self.wfile.write(text.encode())

        def log_message(self, *_: object) -> None:
            """(Probes come each few seconds.)"""

    server = ThreadingHTTPServer(("127.0.0.1", port), Handler)
    server.daemon_threads = True
    threading.Thread(target=server.serve_forever, daemon=True).start()
    return server


def ask_ready(port: int) -> bool:
    """Whether the worker whose metrics are at a port is ready."""
    try:
        with urllib.request.urlopen(f"http://127.0.0.1:{port}/ready", timeout=2) as answer:
            return bool(answer.status == 200)
    except (urllib.error.URLError, OSError):
        return False
