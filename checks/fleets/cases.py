"""Trials of what else may happen to a fleet."""
from __future__ import annotations

import re
import signal
import time
from collections import Counter
from contextlib import closing
from typing import Any

from servers import Server
from trials import HERE, Trial, end_group, steady

from engine import Engine, EngineError, connect
from engine_nats import NatsEngine, partition_of
from lines import lines_of
from nats_wire import frame
from service import MOST_BLAMES

CAN_BE_LOST = ("LUS_LEASE", "LUS_QUEUE")
BLAMES = re.compile(r"\S+ \S+ (\d+) (?:the host ended with status|the host answers) .* at \S+ (evil\.\d+) ")


class DeviceTrial(Trial):
    """A trial whose clients are devices, each with an instance of its own, that speak MQTT to the server."""

    mqtt = 0

    def call(self, client: str) -> None:
        from device import Device
        with closing(Device("127.0.0.1", self.mqtt, self.name, "word", client)) as device:
            device.number = 0
            self.devices[client] = device
            for _, call in self.calls(client):
                self.heard.append(device.call(f"{self.name}_{client}", call, 0.7))

    def prepare(self) -> None:
        self.devices: dict[str, Any] = {}
        super().prepare()

    def wanted(self) -> set[str]:
        return {f"{client}.{n}" for client, device in self.devices.items() for n in range(1, device.number + 1)}


class OddTrial(Trial):
    """A trial on NATS of a request whose entry is longer than an append, of one in another partition's queue, and of ones that are well."""

    def call(self, client: str) -> None:
        name, others = self.name, [f"other{k}" for k in range(20)]
        elsewhere = next(other for other in others if partition_of(other, 2) != partition_of(name, 2))
        rows = ",".join(["[18,19,22]"] * 1000)
        with closing(NatsEngine(self.url)) as link:
            link.nats.send(frame(f"lus.queue.{partition_of(elsewhere, 2)}.stranger.{name}", b"1 [18,19,22]"))
        with closing(self.caller(client)) as caller:
            for call in (name, f'{{"burst":[{rows}]}}'), (name, "[18,19,22]"), (elsewhere, "[18,19,22]"), (name, "oops"):
                self.heard += self.replies(caller, [call])

    def judge(self) -> str:
        lines = sorted(line for log in steady(self.logs) for line in lines_of(log))
        buried = steady(self.buried)
        self.expect("a request with too long an entry is told so", self.heard[0].startswith(f"{self.name} # c0.1 its entry has more than"))
        self.expect("what is no call is told so", self.heard[3].startswith(f"{self.name} # c0.4 "))
        self.expect("the log has the refusal and the two calls that are well", lines == sorted(self.heard[:3]))
        self.expect("what was refused for good can be looked at", len(buried) == 1 and f"{self.name} c0.1 " in buried[0])
        return ""


class RestartTrial(Trial):
    """A trial whose server is stopped, in turn by SIGTERM and SIGKILL, and begun again."""

    server: Server

    def strike(self) -> None:
        self.server.stop(signal.SIGKILL if self.strikes % 2 else signal.SIGTERM)
        time.sleep(0.3 * (self.strikes % 3))
        self.server.start()

    def judge_more(self, entries: list[str]) -> None:
        with closing(connect(self.url)) as link:
            self.expect("a fleet that is there is made again without harm", link.make(link.head()) == [])
            try:
                link.make(link.head()._replace(node="other"))
                self.expect("another fleet isn't made where there is one", False)
            except EngineError:
                pass


class LoseTrial(Trial):
    """A trial on NATS that loses the streams which can be made anew, and then a log, which can't."""

    def api(self, name: str) -> Any:
        """JetStream's answer."""
        def ask() -> Any:
            with closing(connect(self.url)) as link:
                return link.nats.api(name)  # type: ignore[attr-defined]

        return steady(ask)

    def strike(self) -> None:
        for name in CAN_BE_LOST:
            self.api("STREAM.DELETE." + name)
        self.wait_until(lambda: all(self.api("STREAM.INFO." + name) for name in CAN_BE_LOST))

    def judge_more(self, entries: list[str]) -> None:
        for name in CAN_BE_LOST:
            self.expect(f"workers say that {name} was made anew", self.told.has("made anew: " + name))
        self.api("STREAM.DELETE.LUS_LOG_0")
        self.start(["never", "0"])
        self.end = time.monotonic() + self.plan.seconds
        self.wait_until(lambda: self.tells("LUS_LOG_0 is gone") or self.tells("made anew: LUS_LOG_0"))
        end_group(self.workers[-1])
        self.expect("workers say that a log is gone", self.told.has("LUS_LOG_0 is gone"))
        self.expect("a log that is gone isn't begun anew", not self.api("STREAM.INFO.LUS_LOG_0"))

    def tells(self, text: str) -> bool:
        self.told.read()
        return self.told.has(text)


def send(link: Engine, instance: str, rest: bytes) -> None:
    """Sends anything at all as a request."""
    if isinstance(link, NatsEngine):
        client, dot, call = rest.partition(b".")
        link.nats.send(frame(f"lus.req.{client.decode() if dot and client.isalnum() else 'evil'}.{instance}", call if dot else rest))
    else:
        line = f"{instance} {rest.decode(errors='replace')}".replace("\0", "")
        link.rows("insert into request (p, line) values (partition_of(%s), %s)", instance, line)  # type: ignore[attr-defined]


class HostileTrial(Trial):
    """A trial in which a client also sends what is no request, and what is too long for one."""

    def hostile(self) -> list[bytes]:
        good = b"[18,19,22]"
        return [b"evil.1 [" + b" " * (2 << 20) + b"18,19,22]", b"evil.2 " + b"x" * (1 << 20),
                b"evil.3 " + good + b"\n" + b"k 9 x reset -> done", b"evil.4 " + good + b"\r", b"evil.5 [18,\0 19,22]",
                b"evil.6 \xff\xfe", b"", b" ", b"#", b"- # -", b"evil", b"evil. " + good,
                b"evil.0 " + good, b"evil.-1 " + good, b"evil.9999999999999999999 " + good, b"7up.1 " + good, b"3 evil.1 step(1) -> (2)",
                b"evil.999999999999999999 " + good,
                "evil.7 [18,\u2028 19,22]".encode(), b'evil.8 {"burst":[]}', b"evil.9 [" + b" " * 1_040_000 + b"18,19,22]",
                b"evil.10 " + b"[" * 100_000]

    def call(self, client: str) -> None:
        if client == "c0":
            with closing(connect(self.url)) as link:
                link.listen("evil")
                for line in self.hostile():
                    send(link, f"{self.name}_evil", line)
                self.wait_until(lambda: self.is_told(link))
        super().call(client)

    def is_told(self, link: Engine) -> bool:
        """Whether the last of these is answered. It is sent again where it isn't."""
        heard = link.hear(1)
        self.answers += heard
        is_so = any(" evil.10 " in reply for reply in self.answers)
        if not heard and not is_so:
            send(link, f"{self.name}_evil", self.hostile()[-1])
        return is_so

    def prepare(self) -> None:
        self.answers: list[str] = []
        super().prepare()

    def judge_more(self, entries: list[str]) -> None:
        for number in (1, 2):
            self.expect("who sends too long a request is told so", any(
                reply.startswith(f"{self.name}_evil # evil.{number} it has more than") for reply in self.answers))
        self.expect("a number that jumps is refused", any(" # evil.999999999999999999 its number" in reply for reply in self.answers))
        self.expect("no worker ended", self.ended == 0)


class PoisonTrial(Trial):
    """A trial in which some requests end the host. They are given up, once and for all, and nobody else's."""

    poisons = 3

    def run(self) -> str:
        self.host = ["/usr/bin/python3", str(HERE / "frail_host.py"), *self.host]
        self.answers: list[str] = []
        return super().run()

    def is_over(self) -> bool:
        return super().is_over() or self.most_blames() > MOST_BLAMES

    def most_blames(self) -> int:
        """How many hosts ended at one request under one worker."""
        blames = Counter((match[1], match[2]) for line in self.told.lines if (match := BLAMES.match(line)))
        return max(blames.values(), default=0)

    def call(self, client: str) -> None:
        if client == "c0":
            with closing(self.caller("evil")) as caller:
                calls = [(f"{self.name}_{k}", f'{{"{word}":1}}') for k, word in enumerate(("poison", "poison", "babble"))]
                self.answers += self.replies(caller, calls)
        super().call(client)

    def judge_more(self, entries: list[str]) -> None:
        buried = steady(self.buried)
        self.expect("some requests are given up", len(self.given_up) == self.poisons)
        self.expect("who ends the host is told so", set(self.answers) == set(self.given_up))
        self.expect("what is given up can be looked at", len(buried) == self.poisons and all('":1}' in line for line in buried))
        self.expect(f"a request ends {MOST_BLAMES} hosts of a worker at most", self.most_blames() <= MOST_BLAMES)
        self.expect("no worker ended", self.ended == 0)


class FullTrial(Trial):
    """A trial whose queue is full before the workers begin. The caller is told so, and asks again."""

    def begin_with_past(self, link: Engine) -> None:
        self.early = self.caller("early")
        self.early.ask([(f"{self.name}_{k}", "[18,19,22]") for k in range(3 * self.plan.waiting)])
        end = time.monotonic() + self.plan.seconds
        while not self.early.busy and time.monotonic() < end:
            self.early.hear()
        self.expect("who asks while the queue is full is told so", self.early.busy > 0)

    def call(self, client: str) -> None:
        if client == "c0":
            while self.early.open and not self.is_over():
                self.early.hear()
            self.early.close()
            self.expect("what was refused as busy is answered later", not self.early.open)
        super().call(client)


class LongTrial(Trial):
    """A trial on PostgreSQL of a reply that no notification holds, behind a log that is much longer than the reply."""

    def call(self, client: str) -> None:
        rows = ",".join(["[18,19,22]"] * 700)
        with closing(self.caller(client, patience=self.plan.seconds)) as caller:
            fetched, take = list[str](), caller.engine.rows  # type: ignore[attr-defined]

            def counted(*words: object) -> object:
                found = take(*words)
                fetched.append(repr(found))
                return found

            caller.engine.rows = counted  # type: ignore[attr-defined]
            self.heard = self.replies(caller, [(f"{self.name}_0", f'{{"burst":[{rows}]}}')])
        size, wanted = sum(map(len, fetched)), sum(map(len, self.heard))
        self.expect(f"a client fetches its reply alone: {size} bytes for {wanted}", size < 2 * wanted)


class PartsTrial(Trial):
    """A trial on PostgreSQL of a log of long texts. It is fetched in parts: one that came at once would keep a worker's other thread from
    renewing the lease."""

    def run(self) -> str:
        from engine_postgres import READ_BYTES
        self.folder.mkdir()
        steady(self.prepare)
        texts, fetched = [b"x" * (READ_BYTES // 4)] * 12, list[int]()
        with closing(connect(self.url)) as link:
            for position, text in enumerate(texts):
                link.append(0, position, text)
            take = link.rows  # type: ignore[attr-defined]

            def counted(*words: object) -> Any:
                rows = take(*words)
                fetched.append(sum(len(text) for _, text in rows))
                return rows

            link.rows = counted  # type: ignore[attr-defined]
            self.expect("a log is read whole", [text for _, text in link.read(0, 0, len(texts))] == texts)
        self.expect(f"a log is fetched in parts: {fetched}", max(fetched) <= READ_BYTES)
        return ""
