"""Wrong uses, structures, seats that hold and meet, and four threads."""
import threading

import lus

TEXT = """
type pair = struct { a: int; b: bool }; type light = enum { Red, Green };
node counter(passed: bool) returns (count: int); let count = (0 -> pre count) + (if passed then 1 else 0); tel
node swap(p: pair; l: light) returns (q: pair; m: light);
let q = pair { a = p.a + 1; b = not p.b }; m = if l = Red then Green else Red; tel
node sometimes(c: bool; x: int when c) returns (y: int); let y = merge c (true -> x) (false -> 0 when not c); tel
"""
uses = 0


def raises(kind, call, *arguments, **named):
    """The call raises this, or its status."""
    global uses
    uses += 1
    try:
        call(*arguments, **named)
    except Exception as error:
        found = error.status if isinstance(error, lus.Error) and isinstance(kind, int) else type(error)
        assert found == kind, (found, kind)
        return
    raise AssertionError("nothing was raised")


program = lus.Program(TEXT)
one, = program.open("counter")
one.step(passed=True)
raises(lus.Refused, lus.Program, "node n(x: int) returns (y: int); var a: int; let y = a; a = y; tel")
raises(lus.TEXT, lus.Program, b"\xff")
raises(lus.NO_SUCH, program.open, "nothing")
raises(lus.NoSuch, program.open_live, "nothing")
assert issubclass(lus.NoSuch, KeyError)
raises(ValueError, program.open, "counter", 0)
raises(ValueError, one.step, gone=1)
raises(ValueError, one.step, passed="Red")
raises(ValueError, one.step, passed={"a": 1})
raises(OverflowError, one.step, passed=2 ** 63)
raises(lus.NotDone, one.step, passed=1)
raises(lus.NotDone, one.restore, 3)
raises(lus.NotDone, one.save, 8)
two = program.open("counter", 2)
raises(lus.SEATS, lus.close, two[:1])
raises(lus.SEATS, lus.close, [one, two[0]])
raises(lus.HANDLE, lus.close, [two[0], two[0]])
raises(lus.SEATS, one.meet, two[0])
raises(lus.HANDLE, one.meet, one)
raises(lus.HANDLE, one.release)
two[0].hold()
raises(lus.Busy, two[1].try_step, passed=True)
raises(lus.Busy, two[1].hold)
raises(lus.HANDLE, two[0].try_step, passed=True)
raises(lus.HANDLE, lus.close, two)
two[0].release()
with two[1].hold():
    raises(lus.Busy, two[0].try_step, passed=True)
two[0].step(passed=True)
two[0].meet(two[1])
assert two[1].step(passed=False) == {"count": 1} and two[1].count() == 2 and two[1].number() == 1
journal = lus.close(two)
assert len(journal) == 2 and journal[-1].outputs == {"count": 1} and [entry.caller for entry in journal[:2]] == [0, 1]
raises(IndexError, journal.__getitem__, 2)
for names in (["panel", "the clock"], ["panel", "clock\n"], ["panel", "clo\0ck"]):
    raises(lus.VALUE, journal.text, "door", names)
raises(lus.VALUE, journal.text, "front door", ["panel", "clock"])
live = program.open_live("counter")
live.step(passed=True)
raises(lus.VALUE, live.line, "panel step(true) -> (1)\n2 clock")
raises(lus.VALUE, live.line, "the panel")
assert live.line("#7") == "1 #7 step(true) -> (1)\n"
with program.open_live("counter") as live:
    live.step(passed=True)
raises(lus.HANDLE, live.step, passed=True)
live.close()
raises(lus.HANDLE, two[0].step, passed=True)
assert one.count() == 4 and one.step(passed=True) == {"count": 2}
print(uses, "wrong uses")

cost = program.nodes["swap"].cost
assert cost.orders > 0 and cost.row >= 4 and cost.instance_bytes % 40 == 0 and cost.saved_bytes <= cost.instance_bytes
swap, = program.open("swap")
print(swap.step(p={"a": 41, "b": False}, l="Red"))
counter, = program.open("counter")
print(counter.burst({"passed": passed} for passed in (True, False, True)), counter.burst([]))
raises(lus.NotDone, counter.burst, [{"passed": True}, {"passed": 1}])
raises(ValueError, counter.burst, [{"gone": 1}])
for entry in lus.close([counter]):
    print(entry)
sometimes, = program.open("sometimes")
print(sometimes.step(c=True, x=5), sometimes.step(c=False))
raises(lus.NotDone, sometimes.step, c=True)
for entry in lus.close([sometimes]):
    print(entry)

seats = program.open("counter", 4)


def work(seat):
    for _ in range(2000):
        seat.step(passed=True)


threads = [threading.Thread(target=work, args=(seat,)) for seat in seats]
for thread in threads:
    thread.start()
for thread in threads:
    thread.join()
journal = lus.close(seats)
assert [entry.outputs["count"] for entry in journal] == list(range(1, 8001))
print("4 threads:", len(journal), "entries in one order")
