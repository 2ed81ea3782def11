"""PostgreSQL as engine of a fleet.

A log's position is a primary key, so of two that append behind one position one is refused. Requests are rows of a table that `ask` fills,
and replies are notifications. The URL may name several servers: the connection goes to the one that takes writes.
"""
from __future__ import annotations

import select
import time
from collections.abc import Iterator, Sequence
from typing import Any

import psycopg2
from psycopg2.extensions import POLL_OK, POLL_READ, POLL_WRITE, make_dsn, set_wait_callback

from engine import EngineError, Head, Role, Taken
from lines import BUSY, MOST_BYTES, answered_by

ANSWER_SECONDS = 8.0
LONGEST_NOTE = 7900  # bytes of a notification; PostgreSQL takes 7,999
MOST_ROWS = 512
READ_BYTES = 1 << 20  # at once: while psycopg2 takes rows no other thread runs, not even one that renews a lease
MOST_DEAD = 1000
TABLES = """
create table fleet (partitions int not null, lease interval not null, copies int not null, program text not null, node text not null,
    waiting int not null);
create table log (p int, position int, text text not null, primary key (p, position));
create table request (p int, id bigserial, line text not null, times int not null default 0, primary key (p, id));
create table reply (client text, instance text, line text not null, primary key (client, instance));
create table dead (id bigserial primary key, p int not null, note text not null);
create table lease (role text, p int, owner text not null default '', until timestamptz not null default '-infinity',
    primary key (role, p));
create function partition_of(instance text) returns int language sql stable as
    $$ select mod(('x' || left(md5(instance), 8))::bit(32)::bigint, partitions)::int from fleet $$;
create function is_full(place int) returns bool language sql stable as $$
    select count(*) >= (select waiting from fleet) or coalesce(sum(bytes), 0) >= {bytes}
    from (select octet_length(line) bytes from request where p = place limit (select waiting from fleet)) t $$;
create function ask(variadic lines text[]) returns setof text language sql as $$
    with asked as (select line, split_part(line, ' ', 1) instance, split_part(line, ' ', 2) caller from unnest(lines) t(line)),
        placed as (select asked.*, partition_of(instance) p, octet_length(line) >= {longest} is_long from asked),
        places as (select p, is_full(p) from (select distinct p from placed) t),
        put as (insert into request (p, line) select p, line from placed join places using (p) where not is_full and not is_long)
    select instance || ' # ' || caller || case when is_long then ' it has more than {longest} bytes' else ' {busy}' end
    from placed join places using (p) where is_full or is_long $$;
""".format(bytes=1 << 26, longest=MOST_BYTES, busy=BUSY)


def wait(link: Any) -> None:
    """Waits for an answer of the server, as psycopg2 wants it, but not for ever: a network may swallow one."""
    while (state := link.poll()) != POLL_OK:
        ready = select.select([link] if state == POLL_READ else [], [link] if state == POLL_WRITE else [], [], ANSWER_SECONDS)
        if not any(ready):
            raise psycopg2.OperationalError(f"it hasn't answered for {ANSWER_SECONDS:.0f} s")


set_wait_callback(wait)


class PostgresEngine:
    """A connection to PostgreSQL, as `engine.Engine` says."""

    longest = 1 << 26

    def __init__(self, url: str) -> None:
        try:
            self.link = psycopg2.connect(make_dsn(url, target_session_attrs="read-write", connect_timeout=5))
        except psycopg2.Error as error:
            raise EngineError(f"no PostgreSQL takes writes: {error}") from error
        self.link.autocommit = True
        self.known: Head | None = None
        self.refused: list[str] = []

    def close(self) -> None:
        self.link.close()

    def rows(self, text: str, *words: Any) -> list[tuple[Any, ...]]:
        """The rows of a statement, none where it gives none."""
        try:
            with self.link.cursor() as cursor:
                cursor.execute(text, words)
                return cursor.fetchall() if cursor.description else []
        except psycopg2.Error as error:
            raise EngineError(f"PostgreSQL says {error}") from error

    def make(self, head: Head) -> list[str]:
        if self.rows("select 1 from pg_tables where schemaname = current_schema() and tablename = 'fleet'"):
            if self.head() != head:
                raise EngineError(f"there is another fleet here: {self.head()}")
            return []
        self.rows(TABLES + "insert into fleet values (%s, %s * interval '1 s', %s, %s, %s, %s); "
                  "insert into lease (role, p) select role, p from unnest(%s::text[]) role, generate_series(0, %s) p",
                  *head, [role.value for role in Role], head.partitions - 1)
        return ["tables"]

    def mend(self) -> list[str]:
        """(Tables don't get lost one by one.)"""
        self.head()
        return []

    def head(self) -> Head:
        if self.known is None:
            found = self.rows("select partitions, extract(epoch from lease)::float, copies, program, node, waiting from fleet")
            self.known = Head(*found[0])
        return self.known

    def free(self, role: Role) -> list[int]:
        return [p for p, in self.rows("select p from lease where role = %s and until < clock_timestamp()", role.value)]

    def claim(self, role: Role, partition: int, owner: str) -> bool:
        return self.lease_where(role, partition, owner, "until < clock_timestamp()")

    def renew(self, role: Role, partition: int, owner: str) -> bool:
        return self.lease_where(role, partition, owner, "owner = %s", owner)

    def lease_where(self, role: Role, partition: int, owner: str, condition: str, *words: Any) -> bool:
        """Leases a partition to an owner from now on, where its row has this condition."""
        return bool(self.rows("update lease set owner = %s, until = clock_timestamp() + (select lease from fleet) "
                              f"where role = %s and p = %s and {condition} returning p", owner, role.value, partition, *words))

    def release(self, role: Role, partition: int, owner: str) -> None:
        self.rows("update lease set until = '-infinity' where role = %s and p = %s and owner = %s", role.value, partition, owner)

    def last(self, partition: int) -> int:
        return int(self.rows("select coalesce(max(position), 0) from log where p = %s", partition)[0][0])

    def read(self, partition: int, behind: int, last: int) -> Iterator[tuple[int, bytes]]:
        while behind < last:
            rows = self.rows("select position, text from (select position, text, sum(octet_length(text)) over (order by position) size "
                             "from (select * from log where p = %s and position > %s order by position limit %s) few) sized "
                             "where size - octet_length(text) < %s order by position", partition, behind, MOST_ROWS, READ_BYTES)
            for position, text in rows or [(0, "")]:
                if position != behind + 1:
                    raise EngineError(f"the log of partition {partition} gives position {position} behind {behind}")
                behind = position
                yield position, text.encode()

    def append(self, partition: int, position: int, text: bytes) -> int | None:
        got = self.rows("insert into log values (%s, %s, %s) on conflict do nothing returning position",
                        partition, position + 1, text.decode())
        return position + 1 if got else None

    def take(self, partition: int, most: int, wait: float) -> list[Taken]:
        end, pause = time.monotonic() + wait, 0.002
        while True:
            found = self.rows("set local synchronous_commit = off; update request set times = times + 1 where p = %s and id in "
                              "(select id from request where p = %s order by id limit %s) returning id, line, times",
                              partition, partition, most)
            if found or time.monotonic() > end:
                return [Taken(*row) for row in sorted(found)]
            time.sleep(pause)
            pause *= 1.5

    def waiting(self, partition: int) -> int:
        return int(self.rows("select count(*) from request where p = %s", partition)[0][0])

    def settle(self, partition: int, handles: Sequence[Any], replies: Sequence[str]) -> None:
        """(What a crash of the server undoes of this comes again as requests that are known.)"""
        told = [(each, reply) for reply in replies if (each := answered_by(reply))]
        long = {(each.client, each.instance): reply for each, reply in told if len(reply.encode()) > LONGEST_NOTE}
        for (client, instance), reply in long.items():
            self.rows("insert into reply values (%s, %s, %s) on conflict (client, instance) do update set line = excluded.line",
                      client, instance, reply)
        channels = ["rep_" + each.client for each, _ in told]
        notes = [" ".join(reply.split(" ", 3)[:3]) if reply in long.values() else reply for _, reply in told]
        self.rows("set local synchronous_commit = off; delete from request where p = %s and id = any(%s); "
                  "select pg_notify(channel, note) from unnest(%s::text[], %s::text[]) as t(channel, note)",
                  partition, list(handles), channels, notes)

    def bury(self, partition: int, taken: Taken, reason: str) -> None:
        self.rows("insert into dead (p, note) values (%s, %s); delete from dead where id <= (select max(id) from dead) - %s",
                  partition, f"{reason}: {taken.line}", MOST_DEAD)

    def buried(self) -> Iterator[str]:
        for note, in self.rows("select note from dead order by id"):
            yield note

    def listen(self, client: str) -> None:
        self.rows(f'listen "rep_{client}"')

    def ask(self, lines: Sequence[str]) -> None:
        self.refused += [reply for reply, in self.rows("select ask(variadic %s)", list(lines))]

    def hear(self, wait: float) -> list[str]:
        try:
            self.link.poll()
            if not self.link.notifies and not self.refused and select.select([self.link], [], [], wait)[0]:
                self.link.poll()
        except psycopg2.Error as error:
            raise EngineError(f"PostgreSQL says {error}") from error
        heard = [self.whole(note.payload) for note in self.link.notifies] + self.refused
        self.link.notifies.clear()
        self.refused = []
        return heard

    def whole(self, note: str) -> str:
        """The reply that a notification gives: a table has what is too long for one."""
        if note.count(" ") > 2:
            return note
        instance, _, caller = note.split(" ")
        rows = self.rows("select line from reply where client = %s and instance = %s", caller.rpartition(".")[0], instance)
        return next((line for line, in rows if line.startswith(note + " ")), note + " ")
