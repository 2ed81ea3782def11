#!/usr/bin/python3
"""A device that speaks MQTT to a fleet on NATS: it asks `lus/req/CLIENT/INSTANCE`, and hears replies at
`lus/rep/CLIENT/INSTANCE`.

    device.py HOST:PORT USER PASSWORD CLIENT INSTANCE     makes the calls of standard input, one in each line, and prints their replies
"""
from __future__ import annotations

import sys
import threading
import time
from typing import Any

import paho.mqtt.client as mqtt

PATIENCE = 2.5


class Device:
    """A client with one open request, which it asks again until it hears the reply."""

    def __init__(self, host: str, port: int, user: str, password: str, name: str) -> None:
        self.name, self.number = name, time.time_ns() // 1000
        self.asked, self.reply = "", ""
        self.is_heard = threading.Event()
        versions = getattr(mqtt, "CallbackAPIVersion", None)  # (since paho 2.0)
        self.client = mqtt.Client(client_id=name, **({"callback_api_version": versions.VERSION2} if versions else {}))
        self.client.on_connect = self.listen
        self.client.on_message = self.hear
        self.client.username_pw_set(user, password)
        self.client.connect(host, port)
        self.client.loop_start()

    def listen(self, *_: Any) -> None:
        """Subscribes anew at each connection."""
        self.client.subscribe(f"lus/rep/{self.name}/+", qos=0)

    def hear(self, _client: Any, _data: Any, message: Any) -> None:
        reply = message.payload.decode(errors="replace")
        if reply.split(" ")[2:3] == [self.asked]:
            self.reply = reply
            self.is_heard.set()

    def call(self, instance: str, call: str, patience: float = PATIENCE) -> str:
        """The reply to a call, however often it has to be asked."""
        self.number += 1
        self.asked = f"{self.name}.{self.number}"
        self.is_heard.clear()
        while True:
            self.client.publish(f"lus/req/{self.name}/{instance}", f"{self.number} {call}", qos=0)
            if self.is_heard.wait(patience):
                return self.reply

    def close(self) -> None:
        self.client.disconnect()
        self.client.loop_stop()


def main() -> None:
    place, user, password, name, instance = sys.argv[1:]
    host, _, port = place.partition(":")
    device = Device(host, int(port or 1883), user, password, name)
    for line in sys.stdin:
        print(device.call(instance, line.rstrip("\n")), flush=True)
    device.close()


if __name__ == "__main__":
    if len(sys.argv) != 6:
        sys.exit(__doc__)
    main()
