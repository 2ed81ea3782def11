"""What nats.conf promises: each client speaks in its own name, also by MQTT; TLS, and passwords in files."""
from __future__ import annotations

import functools
import importlib.util
import shutil
import subprocess
import time
from collections.abc import Callable
from contextlib import closing
from pathlib import Path

from servers import NATS, free_port, wait_for
from trials import FLEET

from engine import Denied, connect
from nats_wire import frame

Expect = Callable[[str, bool], None]
PYTHON = "/usr/bin/python3"
CERTIFICATE = ["openssl", "req", "-x509", "-newkey", "rsa:2048", "-nodes", "-days", "2", "-subj", "/CN=check", "-addext",
               "subjectAltName=IP:127.0.0.1"]


def look(host: list[str], folder: Path, expect: Expect) -> None:
    """Checks nats.conf with a server of its own, where what it takes is installed."""
    if not NATS or not shutil.which("openssl"):
        print("skipped: names, passwords and TLS of NATS, since nats-server or openssl isn't installed")
        return
    room = folder / "names"
    room.mkdir()
    for name in ("server", "stranger"):
        subprocess.run([*CERTIFICATE, "-keyout", room / f"{name}-key.pem", "-out", room / f"{name}.pem"], check=True, capture_output=True)
    port, mqtt = free_port(), free_port()
    text = (FLEET / "nats.conf").read_text()
    here = {":4222": f":{port}", ":1883": f":{mqtt}", 'store_dir: "nats"': f'store_dir: "{room}"', "partition(8,2)": "partition(1,2)"}
    for old, new in here.items():
        text = text.replace(old, new)
    (room / "nats.conf").write_text(f'{text}\ntls {{ cert_file: "{room}/server.pem", key_file: "{room}/server-key.pem" }}\n')
    with open(room / "log", "w") as log, subprocess.Popen([NATS, "-c", room / "nats.conf"], stdout=log, stderr=log) as server:
        try:
            wait_for(port)
            Names(room, port, host, expect).look(mqtt)
        finally:
            server.kill()


class Names:
    """A fleet of one partition and one worker on such a server."""

    def __init__(self, room: Path, port: int, host: list[str], expect: Expect) -> None:
        self.room, self.port, self.host, self.expect = room, port, host, expect

    def url(self, user: str, word: str = "", ca: str = "server") -> str:
        login = self.room / f"{user}{word}.login"
        login.write_text(f"{user}:{word or f'{user}-word'}\n")
        return f"tls://127.0.0.1:{self.port}?login={login}&ca={self.room / ca}.pem"

    def fleet(self, *words: str, calls: str = "") -> subprocess.CompletedProcess[str]:
        return subprocess.run([PYTHON, str(FLEET / "fleet.py"), *words], input=calls, capture_output=True, text=True, timeout=300)

    def look(self, mqtt: int) -> None:
        made = self.fleet("make", self.url("worker"), "1", *self.host[-2:], "--lease", "1")
        self.expect(f"a fleet is made by TLS, with a password from a file: {made.stderr}", made.returncode == 0)
        work = [PYTHON, str(FLEET / "fleet.py"), "work", self.url("worker"), "--", *self.host]
        with subprocess.Popen(work, stderr=subprocess.DEVNULL) as worker:
            try:
                self.calls()
                self.denials()
                if importlib.util.find_spec("paho"):
                    self.devices(mqtt)
            finally:
                worker.terminate()

    def calls(self) -> None:
        done = self.fleet("call", self.url("panel"), "panel", calls="kitchen [18,19,22]\n")
        self.expect(f"a client calls in its name: {done}", done.returncode == 0 and done.stdout.startswith("kitchen 1 panel."))
        done = self.fleet("call", self.url("panel"), "panel", calls="kitchen oops\nkitchen [18,19,22]\n")
        self.expect(f"the status says that a call wasn't made: {done}", done.returncode == 2 and done.stdout.count("\n") == 2)

    def denials(self) -> None:
        wrong = {"another's name": (self.url("panel"), "sensor"), "a wrong password": (self.url("panel", "other"), "panel"),
                 "another certificate": (self.url("panel", ca="stranger"), "panel")}
        for what, (url, client) in wrong.items():
            done = self.fleet("call", url, client, calls="kitchen [18,19,22]\n")
            self.expect(f"a client with {what} is refused: {done}", done.returncode == 1 and not done.stdout)
        acts = {"ask in another's name": frame("lus.req.sensor.kitchen", b"1 [18,19,22]"), "write to a log": frame("lus.log.0", b"x"),
                "write to a queue in another's name": frame("lus.queue.0.sensor.kitchen", b"1 [18,19,22]"),
                "hear another's replies": b"SUB lus.rep.sensor.* 9\r\n",
                "ask about streams": frame("$JS.API.STREAM.NAMES", b"", "_INBOX.panel.x"),
                "hear another's inbox": b"SUB _INBOX.worker.> 9\r\n"}
        for what, act in acts.items():
            try:
                with closing(connect(self.url("panel"))) as link:
                    link.nats.send(act)  # type: ignore[attr-defined]
                    link.nats.flush()  # type: ignore[attr-defined]
                self.expect(f"a client can't {what}", False)
            except Denied:
                self.expect(f"a client can't {what}", True)

    def devices(self, mqtt: int) -> None:
        from device import Device
        make = functools.partial(Device, "127.0.0.1", mqtt)
        with closing(make("sensor", "sensor-word", "sensor")) as device:
            self.expect("a device calls in its name", device.call("hall", "[18,19,22]", 0.7).startswith("hall 1 sensor."))
        with closing(make("panel", "panel-word", "sensor")) as device:
            device.asked = f"sensor.{device.number}"
            device.client.publish("lus/req/sensor/hall", f"{device.number} [18,19,22]", qos=0)
            time.sleep(0.7)
            self.expect("a device with another's name is refused", not device.is_heard.is_set())
        log = self.fleet("log", self.url("worker")).stdout
        self.expect(f"the log has what was allowed alone: {log}", [line.split(".")[0] for line in log.splitlines()]
                    == ["kitchen 1 panel", "kitchen 2 panel", "hall 1 sensor"])
