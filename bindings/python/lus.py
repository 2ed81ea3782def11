"""Lustre programs, instances of their nodes, and seats at them for threads, over liblus.so.

    program = lus.Program(text)
    seat, = program.open("thermostat")
    seat.step(temperature=18, low=19, high=22)    # {'heat': True, 'minutes': 1}
    live = program.open_live("thermostat")        # keeps no history

Programs, seats, live instances and journals are let go by `close`, at the end of a `with`, or by and by.

Inputs and outputs are Python values by name: bool, int, the name of a constructor, a dict of a structure's fields, and None
where a clock is absent. Each thread has a seat of its own; seats of one instance may be called at the same time. A seat takes
one call at a time: a lock of its own sees to that.
"""
from __future__ import annotations

import contextlib
import ctypes as c
import os
import threading
import time
from collections.abc import Callable, Iterable, Iterator, Sequence
from typing import Any, Dict, List, NamedTuple, Optional, TypeVar, Union, overload

VERSION = 1  # that of lus.h
Value = Union[None, bool, int, str, Dict[str, Any]]
Row = Dict[str, Value]
_Self = TypeVar("_Self", bound="_Owner")

OK, BUSY, MEMORY, FULL, REFUSED, NO_SUCH, VALUE, SHORT, HANDLE, SEATS, TEXT, WRONG = range(12)
_ABSENT, _BOOL, _INT, _ENUM, _STRUCT = range(5)
_STEP, _RESET, _SAVE, _RESTORE, _BURST = range(1, 6)
_OUTPUTS, _DONE, _NOT_DONE, _ROWS = range(1, 5)
_WHY = ["", "shape", "presence", "fault", "nosave"]
_REQUESTS = ["", "step", "reset", "save", "restore", "burst"]
_STATUS = ["done", "another seat has the machine", "out of memory", "the history is full", "the text is refused",
           "there is none of this name or number", "these are no values, no line of the next entry, or no names that journals are read back with", "an array is too short", "wrong use of a handle",
           "these are not all seats of one instance", "the bytes are not UTF-8", "the line tells another reply than the instance gives"]


class Handle(c.Structure):
    _fields_ = [("live", c.c_uint64), ("kept", c.c_void_p)]


class _Value(c.Structure):
    _fields_ = [("kind", c.c_uint32), ("type", c.c_uint32), ("number", c.c_int64)]


class _Refusal(c.Structure):
    _fields_ = [(name, c.c_uint32) for name in ("number", "line", "column", "cycle")] + [("bytes", c.c_uint64)]


class _Formal(c.Structure):
    _fields_ = [(name, c.c_uint32) for name in ("kind", "type", "clocked", "unused")] + [("bytes", c.c_uint64)]


class _Bounds(c.Structure):
    _fields_ = [(name, c.c_uint64) for name in ("orders", "row", "instance_bytes", "saved_bytes")]


class _Answer(c.Structure):
    _fields_ = [("kind", c.c_uint32), ("why", c.c_uint32), ("count", c.c_uint64)]


class _Entry(c.Structure):
    _fields_ = [("caller", c.c_uint32), ("request", c.c_uint32), ("slot", c.c_uint64), ("reply", c.c_uint32),
                ("why", c.c_uint32), ("inputs", c.c_uint64), ("outputs", c.c_uint64)]


class Error(Exception):
    """A call that made no entry, with its status."""

    def __init__(self, status: int) -> None:
        super().__init__(_STATUS[status])
        self.status = status


class NoSuch(Error, KeyError):
    """The program has no node of this name."""

    def __init__(self, name: str) -> None:
        super().__init__(NO_SUCH)
        self.name = name

    def __str__(self) -> str:
        return f"there is no node {self.name}"


class Busy(Error):
    """Another seat has the machine, which has so many entries."""

    def __init__(self, entries: int) -> None:
        super().__init__(BUSY)
        self.entries = entries


class Refused(Error):
    """The text is refused: its number, the place, for a cycle the variables, and the explanation that `lus_explain` prints."""

    def __init__(self, number: int, line: int, column: int, cycle: list[str], explanation: str) -> None:
        super().__init__(REFUSED)
        self.number, self.line, self.column, self.cycle, self.explanation = number, line, column, cycle, explanation

    def __str__(self) -> str:
        cycle = ", a cycle of " + ", ".join(self.cycle) if self.cycle else ""
        return f"E{self.number} line {self.line} column {self.column}{cycle}"


class NotDone(Exception):
    """The request was entered, and refused: `why` is shape, presence, fault or nosave."""

    def __init__(self, why: str) -> None:
        super().__init__("refused " + why)
        self.why = why


_H, _N, _U32, _U64, _S = c.POINTER(Handle), c.c_size_t, c.POINTER(c.c_uint32), c.POINTER(c.c_uint64), c.c_char_p
_VALUES = c.POINTER(_Value)
_CALLS = {
    "compile": [_S, _N, _H, c.POINTER(_Refusal), _S, _N],
    "explain": [_S, _N, _S, _N, _S, _N, _U64],
    "nodes": [_H, _U32],
    "node": [_H, _S, _N, _U32],
    "node_name": [_H, c.c_uint32, _U64, _S, _N],
    "formals": [_H, c.c_uint32, _U32, _U32],
    "cost": [_H, c.c_uint32, c.POINTER(_Bounds)],
    "input": [_H, c.c_uint32, c.c_uint32, c.POINTER(_Formal), _S, _N],
    "output": [_H, c.c_uint32, c.c_uint32, c.POINTER(_Formal), _S, _N],
    "field": [_H, c.c_uint32, c.c_uint32, c.POINTER(_Formal), _S, _N],
    "constructor": [_H, c.c_uint32, c.c_uint32, _U64, _S, _N],
    "open": [_H, c.c_uint32, _H, c.c_uint32],
    "try_call": [_H, c.c_uint32, c.c_uint64, _VALUES, _N, c.POINTER(_Answer), _VALUES, _N],
    "outputs": [_H, c.POINTER(_Answer), _VALUES, _N],
    "count": [_H, _U64],
    "number": [_H, _U32],
    "meet": [_H, _H],
    "hold": [_H, _U64],
    "release": [_H],
    "close": [_H, c.c_uint32, _H],
    "entries": [_H, _U64],
    "entry_at": [_H, c.c_uint64, c.POINTER(_Entry), _VALUES, _N, _VALUES, _N],
    "journal_text": [_H, _S, _N, _S, _N, _S, _N, _U64],
    "live_open": [_H, c.c_uint32, _H],
    "live_call": [_H, c.c_uint32, c.c_uint64, _VALUES, _N, c.POINTER(_Answer), _VALUES, _N],
    "live_replay": [_H, _S, _N],
    "live_entry": [_H, c.POINTER(_Entry), _VALUES, _N, _VALUES, _N],
    "live_line": [_H, _S, _N, _S, _N, _U64],
    "live_count": [_H, _U64],
    "free": [c.c_void_p],
}


def _load() -> c.CDLL:
    path = os.environ.get("LIBLUS") or os.path.join(os.path.dirname(os.path.abspath(__file__)), "liblus.so")
    library = c.CDLL(path)
    if not hasattr(library, "lus_version") or library.lus_version() != VERSION:
        raise ImportError(f"{path} isn't of version {VERSION} of lus.h, as this module is", path=path)
    for name, types in _CALLS.items():
        call = getattr(library, "lus_" + name)
        call.argtypes, call.restype = types, c.c_uint32
    return library


_lus = _load()


def _must(status: int) -> None:
    if status != OK:
        raise Error(status)


def _text_of(call: Callable[..., int], *arguments: Any) -> str:
    """A text of the library's, for which a call says how long it is."""
    count, room = c.c_uint64(), 256
    while True:
        text = c.create_string_buffer(room)
        status = call(*arguments, text, room, count)
        if status != SHORT:
            _must(status)
            return text.raw[: count.value].decode()
        room = count.value


class _Owner:
    """A handle that is given to one call at a time, and let go with its owner."""

    def __init__(self) -> None:
        self._handle, self._lock = Handle(), threading.Lock()

    def close(self) -> None:
        """Lets it go, where that wasn't done before. It is then of no more use."""
        with self._lock:
            if self._handle.live:
                _lus.lus_free(c.byref(self._handle))

    def __enter__(self: _Self) -> _Self:
        return self

    def __exit__(self, *_: object) -> None:
        self.close()

    def __del__(self) -> None:
        if self._handle.live:
            _lus.lus_free(c.byref(self._handle))


class _Formals:
    """The inputs, the outputs or the fields of a structure, in declared order."""

    def __init__(self, program: Handle, call: Callable[..., int], owner: int, count: Optional[int]) -> None:
        self.names: list[str] = []
        self.kinds: list[tuple[int, int, bool]] = []
        place = 0
        while count is None or place < count:
            formal, name = _Formal(), c.create_string_buffer(64)
            status = call(program, owner, place, formal, name, 64)
            if status == NO_SUCH:
                break
            _must(status)
            if formal.bytes > 64:
                name = c.create_string_buffer(formal.bytes)
                _must(call(program, owner, place, formal, name, formal.bytes))
            self.names.append(name.raw[: formal.bytes].decode())
            self.kinds.append((formal.kind, formal.type, bool(formal.clocked)))
            place += 1


class _Types:
    """The constructors of enumerations and the fields of structures, read from the program once."""

    def __init__(self, program: Handle) -> None:
        self.enums: dict[int, list[str]] = {}
        self.structs: dict[int, _Formals] = {}
        self.program = program

    def learn(self, formals: _Formals) -> None:
        for kind, number, _clocked in formals.kinds:
            if kind == _ENUM and number not in self.enums:
                self.enums[number] = self._constructors(number)
            if kind == _STRUCT and number not in self.structs:
                self.structs[number] = fields = _Formals(self.program, _lus.lus_field, number, None)
                self.learn(fields)

    def _constructors(self, number: int) -> list[str]:
        names: list[str] = []
        while True:
            count, name = c.c_uint64(), c.create_string_buffer(256)
            status = _lus.lus_constructor(self.program, number, len(names), count, name, 256)
            if status == NO_SUCH:
                return names
            _must(status)
            if count.value > 256:
                name = c.create_string_buffer(count.value)
                _must(_lus.lus_constructor(self.program, number, len(names), count, name, count.value))
            names.append(name.raw[: count.value].decode())

    def write(self, row: list[_Value], value: Any, kind: tuple[int, int, bool]) -> None:
        """Adds the numbers of a value to a row; the type of the value decides, so that the machine can refuse a wrong one."""
        if value is None:
            row.append(_Value(_ABSENT, 0, 0))
        elif isinstance(value, bool):
            row.append(_Value(_BOOL, 0, int(value)))
        elif isinstance(value, int):
            if not -(2 ** 63) <= value < 2 ** 63:
                raise OverflowError("an int has 64 bits")
            row.append(_Value(_INT, 0, value))
        elif isinstance(value, str) and kind[0] == _ENUM and value in self.enums[kind[1]]:
            row.append(_Value(_ENUM, kind[1], self.enums[kind[1]].index(value)))
        elif isinstance(value, dict) and kind[0] == _STRUCT and set(value) == set(self.structs[kind[1]].names):
            fields = self.structs[kind[1]]
            row.append(_Value(_STRUCT, 0, len(fields.names)))
            for name, field in zip(fields.names, fields.kinds):
                self.write(row, value[name], field)
        else:
            raise ValueError(f"no value of its type: {value!r}")

    def read(self, values: Iterator[_Value], kind: tuple[int, int, bool]) -> Value:
        value = next(values)
        if value.kind == _ABSENT:
            return None
        if value.kind == _BOOL:
            return bool(value.number)
        if value.kind == _INT:
            return int(value.number)
        if value.kind == _ENUM:
            name: str = self.enums[value.type][value.number]
            return name
        fields = self.structs[kind[1]]
        return {field: self.read(values, kind) for field, kind in zip(fields.names, fields.kinds)}

    def row(self, formals: _Formals, values: Iterable[_Value]) -> Row:
        """A row of numbers as a dict by names."""
        return self.rows(formals, values, 1)[0]

    def rows(self, formals: _Formals, values: Iterable[_Value], count: int) -> list[Row]:
        """So many rows of numbers, one behind another, as dicts by names."""
        left = iter(values)
        return [{name: self.read(left, kind) for name, kind in zip(formals.names, formals.kinds)} for _ in range(count)]


class Cost(NamedTuple):
    """What a node costs, before anything runs: the orders that a step obeys at most, the places of the row on which steps are made, and
    the bytes of an instance and of a saved state. Each is exact, or 2 ** 64 - 1 where it is that or more."""

    orders: int
    row: int
    instance_bytes: int
    saved_bytes: int


class Node:
    """A node of a program: its name, the names of its inputs and outputs, and what it costs."""

    def __init__(self, program: Program, number: int) -> None:
        self._program, self.number = program, number
        count, name = c.c_uint64(), c.create_string_buffer(256)
        handle = program._handle
        _must(_lus.lus_node_name(handle, number, count, name, 256))
        if count.value > 256:
            name = c.create_string_buffer(count.value)
            _must(_lus.lus_node_name(handle, number, count, name, count.value))
        self.name = name.raw[: count.value].decode()
        bounds = _Bounds()
        _must(_lus.lus_cost(handle, number, bounds))
        self.cost = Cost(bounds.orders, bounds.row, bounds.instance_bytes, bounds.saved_bytes)
        inputs, outputs = c.c_uint32(), c.c_uint32()
        _must(_lus.lus_formals(handle, number, inputs, outputs))
        self._inputs = _Formals(handle, _lus.lus_input, number, inputs.value)
        self._outputs = _Formals(handle, _lus.lus_output, number, outputs.value)
        program._types.learn(self._inputs)
        program._types.learn(self._outputs)
        self.inputs, self.outputs = tuple(self._inputs.names), tuple(self._outputs.names)


class Program(_Owner):
    """The program of a text, or Refused, whose explanation says `name` before the place."""

    def __init__(self, text: Union[str, bytes], name: str = "text") -> None:
        super().__init__()
        source = text.encode() if isinstance(text, str) else bytes(text)
        why, room = _Refusal(), 1024
        while True:
            names = c.create_string_buffer(room)
            status = _lus.lus_compile(source, len(source), self._handle, why, names, room)
            if status == REFUSED and why.bytes > room:
                room = why.bytes
                continue
            break
        if status == REFUSED:
            cycle = names.raw[: why.bytes].decode().split("\0")[:-1]
            file = name.encode()
            explanation = _text_of(_lus.lus_explain, source, len(source), file, len(file))
            raise Refused(why.number, why.line, why.column, cycle, explanation)
        _must(status)
        self._types = _Types(self._handle)
        count = c.c_uint32()
        _must(_lus.lus_nodes(self._handle, count))
        self.nodes: dict[str, Node] = {}
        for number in range(count.value):
            node = Node(self, number)
            self.nodes[node.name] = node

    def open(self, node: str, seats: int = 1) -> list[Seat]:
        """An instance of the node of this name, or NoSuch: a seat for each of so many callers, with the numbers from 0 on."""
        if node not in self.nodes:
            raise NoSuch(node)
        if seats < 1:
            raise ValueError("an instance has a seat at least")
        handles = (Handle * seats)()
        with self._lock:
            _must(_lus.lus_open(self._handle, self.nodes[node].number, handles, seats))
        return [Seat(self, self.nodes[node], handles[k]) for k in range(seats)]

    def open_live(self, node: str) -> Live:
        """A live instance of the node of this name, or NoSuch. It keeps no history."""
        if node not in self.nodes:
            raise NoSuch(node)
        handle = Handle()
        with self._lock:
            _must(_lus.lus_live_open(self._handle, self.nodes[node].number, handle))
        return Live(self, self.nodes[node], handle)


class _Callable(_Owner):
    """What answers requests to an instance of a node."""

    def __init__(self, program: Program, node: Node, handle: Handle) -> None:
        super().__init__()
        self._program, self.node = program, node
        self._handle = Handle(handle.live, handle.kept)
        handle.live, handle.kept = 0, None
        self._room = len(node.outputs) + 8

    def _made(self, *arguments: Any) -> int:
        raise NotImplementedError

    def _reply_again(self, inputs: Any, answer: _Answer, outputs: Any) -> int:
        raise NotImplementedError

    def _call(self, request: int, slot: int, row: Sequence[_Value]) -> Any:
        answer = _Answer()
        inputs = (_Value * len(row))(*row)
        with self._lock:
            outputs = (_Value * self._room)()
            status = self._made(self._handle, request, slot, inputs, len(row), answer, outputs, self._room)
            while status == SHORT:
                self._room = answer.count
                outputs = (_Value * self._room)()
                status = self._reply_again(inputs, answer, outputs)
        if status == BUSY:
            raise Busy(answer.count)
        _must(status)
        if answer.kind == _NOT_DONE:
            raise NotDone(_WHY[answer.why])
        if answer.kind == _OUTPUTS:
            return self._program._types.row(self.node._outputs, outputs[: answer.count])
        if answer.kind == _ROWS:
            return self._program._types.rows(self.node._outputs, outputs[: answer.count], slot)
        return None

    def _row(self, inputs: Row) -> list[_Value]:
        formals = self.node._inputs
        row: list[_Value] = []
        unknown = set(inputs) - set(formals.names)
        if unknown:
            raise ValueError("no inputs: " + ", ".join(sorted(unknown)))
        for name, kind in zip(formals.names, formals.kinds):
            self._program._types.write(row, inputs.get(name), kind)
        return row

    def _rows(self, rows: Iterable[Row]) -> list[_Value]:
        values: list[_Value] = []
        for inputs in rows:
            values += self._row(inputs)
        return values

    def _again(self, request: int, slot: int, row: Sequence[_Value]) -> Any:
        while True:
            try:
                return self._call(request, slot, row)
            except Busy:
                time.sleep(0)

    def step(self, /, **inputs: Value) -> Row:
        """The outputs at the next instant, by their names; or NotDone, which is an entry too."""
        outputs: Row = self._again(_STEP, 0, self._row(inputs))
        return outputs

    def burst(self, rows: Iterable[Row]) -> list[Row]:
        """The outputs at several instants, given the inputs of each as a dict by their names: all of them, or NotDone and none."""
        rows = list(rows)
        outputs: list[Row] = self._again(_BURST, len(rows), self._rows(rows))
        return outputs

    def reset(self) -> None:
        """Begins again."""
        self._again(_RESET, 0, [])

    def save(self, slot: int) -> None:
        """Records all instants so far in a slot, from 0 to 7."""
        self._again(_SAVE, slot, [])

    def restore(self, slot: int) -> None:
        """Goes back to what a slot records."""
        self._again(_RESTORE, slot, [])


class Seat(_Callable):
    """A caller's place at an instance of a node. `step`, `burst`, `reset`, `save` and `restore` call again while another seat has the
    machine; `try_step` and `try_burst` give Busy."""

    def _made(self, *arguments: Any) -> int:
        return int(_lus.lus_try_call(*arguments))

    def _reply_again(self, inputs: Any, answer: _Answer, outputs: Any) -> int:
        return int(_lus.lus_outputs(self._handle, answer, outputs, len(outputs)))

    def try_step(self, /, **inputs: Value) -> Row:
        outputs: Row = self._call(_STEP, 0, self._row(inputs))
        return outputs

    def try_burst(self, rows: Iterable[Row]) -> list[Row]:
        rows = list(rows)
        outputs: list[Row] = self._call(_BURST, len(rows), self._rows(rows))
        return outputs

    def count(self) -> int:
        """How many entries there are."""
        count = c.c_uint64()
        with self._lock:
            _must(_lus.lus_count(self._handle, count))
        return count.value

    def number(self) -> int:
        """Which of the instance's callers this is."""
        number = c.c_uint32()
        with self._lock:
            _must(_lus.lus_number(self._handle, number))
        return number.value

    def meet(self, other: Seat) -> None:
        """Both seats of one instance have then seen the same entries."""
        if other is self:
            raise Error(HANDLE)
        first, second = sorted((self, other), key=id)
        with first._lock, second._lock:
            _must(_lus.lus_meet(self._handle, other._handle))

    def hold(self) -> contextlib.ExitStack:
        """Takes the machine for this seat alone, until `release` or the end of a `with`, or Busy."""
        count = c.c_uint64()
        with self._lock:
            status = _lus.lus_hold(self._handle, count)
        if status == BUSY:
            raise Busy(count.value)
        _must(status)
        held = contextlib.ExitStack()
        held.callback(self.release)
        return held

    def release(self) -> None:
        """Lets the machine go that `hold` took."""
        with self._lock:
            _must(_lus.lus_release(self._handle))


class Live(_Callable):
    """An instance that keeps its last entry and no other: what it takes doesn't grow with its calls. Threads may share it, since it
    has a lock of its own; but a call and its `line` then want a lock of theirs. For calls at the same time, take more instances."""

    def _made(self, *arguments: Any) -> int:
        return int(_lus.lus_live_call(*arguments))

    def _reply_again(self, inputs: Any, answer: _Answer, outputs: Any) -> int:
        entry, room = _Entry(), len(inputs)
        status = int(_lus.lus_live_entry(self._handle, entry, (_Value * room)(), room, outputs, len(outputs)))
        answer.count = entry.outputs
        return status

    def line(self, caller: str) -> str:
        """The line of the last call's entry in a journal, with its line feed. An Error of the status VALUE where the caller's name has a
        blank or a line feed."""
        name = caller.encode()
        with self._lock:
            return _text_of(_lus.lus_live_line, self._handle, name, len(name))

    def replay(self, line: str) -> None:
        """Makes the entry of a line of a journal, with its line feed, where it is the right next one. Otherwise it is an Error whose
        status is WRONG, where the line tells another reply, or VALUE, where it is no line of the next entry."""
        text = line.encode()
        with self._lock:
            _must(_lus.lus_live_replay(self._handle, text, len(text)))

    def count(self) -> int:
        """How many entries were made."""
        count = c.c_uint64()
        with self._lock:
            _must(_lus.lus_live_count(self._handle, count))
        return count.value


def close(seats: Iterable[Seat]) -> Journal:
    """The journal of an instance, given all of its seats, which are empty then; otherwise they stay as they are."""
    seats = list(seats)
    if not seats:
        raise Error(SEATS)
    if len(set(map(id, seats))) != len(seats):
        raise Error(HANDLE)
    journal = Journal(seats[0]._program, seats[0].node)
    handles = (Handle * len(seats))()
    for seat in sorted(seats, key=id):
        seat._lock.acquire()
    try:
        for handle, seat in zip(handles, seats):
            handle.live, handle.kept = seat._handle.live, seat._handle.kept
        status = _lus.lus_close(handles, len(seats), journal._handle)
        for handle, seat in zip(handles, seats):
            seat._handle.live, seat._handle.kept = handle.live, handle.kept
    finally:
        for seat in seats:
            seat._lock.release()
    _must(status)
    return journal


class Entry:
    """One entry of a journal: the caller's number, the request, its inputs by name or its slot, and the outputs by name, None, or
    why it was refused. A burst's inputs and outputs are lists."""

    def __init__(self, caller: int, request: str, inputs: Any, slot: Optional[int], outputs: Any, why: str) -> None:
        self.caller, self.request, self.inputs, self.slot = caller, request, inputs, slot
        self.outputs, self.why = outputs, why

    def __repr__(self) -> str:
        return f"Entry({self.caller}, {self.request!r}, {self.inputs}, {self.slot}, {self.outputs}, {self.why!r})"


class Journal(_Owner):
    """The entries of an instance that was closed."""

    def __init__(self, program: Program, node: Node) -> None:
        super().__init__()
        self._program, self.node = program, node

    def __len__(self) -> int:
        count = c.c_uint64()
        with self._lock:
            _must(_lus.lus_entries(self._handle, count))
        return count.value

    @overload
    def __getitem__(self, place: int) -> Entry: ...

    @overload
    def __getitem__(self, place: slice) -> list[Entry]: ...

    def __getitem__(self, place: Union[int, slice]) -> Union[Entry, list[Entry]]:
        """The entry at a place from 0, or from the end where it is negative; of a slice the entries at its places."""
        if isinstance(place, slice):
            return [self[k] for k in range(*place.indices(len(self)))]
        count = len(self)
        if not -count <= place < count:
            raise IndexError(place)
        place %= count
        entry, inputs, outputs = _Entry(), (_Value * 8)(), (_Value * 8)()
        with self._lock:
            status = _lus.lus_entry_at(self._handle, place, entry, inputs, 8, outputs, 8)
            if status == SHORT:
                inputs, outputs = (_Value * entry.inputs)(), (_Value * entry.outputs)()
                status = _lus.lus_entry_at(self._handle, place, entry, inputs, entry.inputs, outputs, entry.outputs)
        _must(status)
        types, node = self._program._types, self.node
        given: Any = None
        why = _WHY[entry.why]
        if entry.request == _STEP and why != "shape":
            given = types.row(node._inputs, inputs[: entry.inputs])
        if entry.request == _BURST and why != "shape":
            given = types.rows(node._inputs, inputs[: entry.inputs], entry.slot)
        told: Any = types.row(node._outputs, outputs[: entry.outputs]) if entry.reply == _OUTPUTS else None
        if entry.reply == _ROWS:
            told = types.rows(node._outputs, outputs[: entry.outputs], entry.slot)
        slot = entry.slot if entry.request in (_SAVE, _RESTORE) else None
        return Entry(entry.caller, _REQUESTS[entry.request], given, slot, told, why)

    def __iter__(self) -> Iterator[Entry]:
        return (self[place] for place in range(len(self)))

    def text(self, instance: str, callers: Sequence[str]) -> str:
        """The journal as `lus` prints it and `lus_draw` reads it. An Error of the status VALUE where a name has a blank, a line feed or,
        of a caller, a 0."""
        if any("\0" in name for name in callers):
            raise Error(VALUE)
        own = instance.encode()
        names = b"".join(name.encode() + b"\0" for name in callers)
        with self._lock:
            return _text_of(_lus.lus_journal_text, self._handle, own, len(own), names, len(names))
