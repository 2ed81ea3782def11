"""Runs a program on a script, and compares the journals with what the reference evaluator says of them: the table of the streams' instants,
and the reasons of the refused calls."""
import csv
import io
import re
import subprocess
from collections import Counter
from dataclasses import dataclass, field
from pathlib import Path

from calls import refusal_of, request_text, script_text
from programs import GREATEST, LEAST

SECONDS = 60  # that a tool may take
FAULT = re.compile(r"(?:row (\d+), )?(.+) at line (\d+), column (\d+): (overflow, the result is no int|division by zero), instant (\d+), in (.+)")
SIGNS = {"+": r"\+", "-": "-", "*": r"\*", "div": "/|div", "mod": "mod"}  # how the operators may be written
INFIX = re.compile(r"(-?\d+) (\+|-|\*|div|mod) (-?\d+)")


class Rejected(Exception):
    """The program is rejected, with the error of this number."""


@dataclass(eq=False)
class Difference(Exception):
    """Where a journal and the reference differ, and what both say; or how a tool ended otherwise than it should."""
    place: str
    machine: str
    reference: str = ""

    def is_like(self, other):
        """Whether both are of journals, or both of tools that ended in one way, at whatever line."""
        ends = [re.sub(r"line \d+", "line", end.place + end.machine) if not end.reference else "" for end in (self, other)]
        return ends[0] == ends[1]

    def __str__(self):
        return f"{self.place}\nmachine   {self.machine}\nreference {self.reference}"


@dataclass
class Tools:
    """The programs, and a folder for their files."""
    programs: Path
    folder: Path

    def run(self, tool, *words):
        try:
            done = subprocess.run([self.programs / tool, *words], capture_output=True, text=True, timeout=SECONDS)
        except subprocess.TimeoutExpired:
            raise Difference(f"{tool} doesn't end", f"within {SECONDS} seconds") from None
        if done.returncode == 1 and tool == "lus":
            raise Rejected(done.stderr.split()[1] if done.stderr else "no line")
        if done.returncode or done.stderr:
            raise Difference(f"{tool} ends with status {done.returncode}", done.stderr.strip() + done.stdout)
        return done.stdout

    def ask(self, program, instances, calls):
        """What the machine and the reference say: the journals, the table and the reasons."""
        source, script, journal = (self.folder / name for name in ("random.lus", "random.json", "random.txt"))
        source.write_text(str(program))
        script.write_text(script_text(instances, calls))
        journals = self.run("lus", source, script)
        journal.write_text(journals)
        return [journals, self.run("lus_draw", "--csv", "--all", source, journal), self.run("lus_audit", "--why", source, journal)]


def compare(said, program, instances, calls, counts):
    """Raises the first difference in what was said, and counts what was compared."""
    journals, table, reasons = said
    tables, reasons = tables_of(table), reasons_of(reasons, instances)
    nodes = {node.name: node for node in program.nodes}
    lines = iter(enumerate(journals.splitlines(), 1))
    for name in instances:
        journal = Journal(counts, str(program).split("\n"), nodes[instances[name]], iter(tables.get(name, [])), reasons)
        expect("a journal's first line", next(lines, (0, "none"))[1], f"instance {name} {instances[name]}")
        own = [call for call in calls if call["on"] == name]
        for number, call in enumerate(own, 1):
            line, text = next(lines, (0, "none"))
            asked = f"{number} c {request_text(call, journal.node)} -> "
            expect(f"{name}, line {line}", text[:len(asked)], asked)
            journal.follow(f"{name}, line {line}: {text}", (name, line), call, text[len(asked):])
        expect("a journal's last line", next(lines, (0, "none"))[1], f"entries {len(own)}")
        expect(f"the table of {name}, behind its last line", "nothing", str(next(journal.table, "nothing")))
    expect("reasons of what wasn't refused", "none", str(reasons or "none"))


def expect(place, machine, reference):
    if machine != reference:
        raise Difference(place, machine, reference)


def tables_of(text):
    """Of each instance the lines of its table: a number or the name of an event, and the values by their names."""
    tables, head = {}, None
    for row in csv.reader(io.StringIO(text, newline="")):
        if not row or head is None:
            head = row or None
        else:
            tables.setdefault(row[0], []).append((row[1] or row[2], dict(zip(head[3:], row[3:]))))
    return tables


def reasons_of(text, instances):
    """The reasons of refused calls, each by its instance and its line, behind the lines that say that all is lawful."""
    lines, found = text.splitlines(), {}
    for name in instances:
        expect("lus_audit", lines.pop(0) if lines else "nothing", f"{name} lawful")
    for line in lines:
        match = re.fullmatch(r"(\w+) line (\d+) refused (.*)", line)
        if not match:
            raise Difference("lus_audit", line, "a reason")
        found[match[1], int(match[2])] = match[3]
    return found


@dataclass
class Journal:
    """An instance's journal as it is followed: the lines of the table that are still to come, the instants since the last reset, and
    their numbers that are saved."""
    counts: Counter
    source: list
    node: object
    table: object
    reasons: dict
    instants: int = 0
    saved: dict = field(default_factory=dict)

    def follow(self, place, line, call, reply):
        refusal = self.refusal_of(call)
        if reply == "refused fault":
            self.counts["faults"] += 1
            return self.check_fault(place, call, self.reasons.pop(line, "fault: nothing"))
        if refusal or reply.startswith("refused"):
            self.counts["other refusals"] += 1
            expect(place, reply, f"refused {refusal}" if refusal else "outputs")
            return expect(place, reply, f"refused {self.reasons.pop(line, 'nothing').split(':')[0]}")
        if "step" in call:
            return expect(place, reply, self.instant(place, call["step"]))
        if "burst" in call:
            self.event(place, f"burst {len(call['burst'])}")
            return expect(place, reply, f"({', '.join([self.instant(place, row) for row in call['burst']])})")
        expect(place, reply, "done")
        self.event(place, request_text(call, self.node))
        if "save" in call:
            self.saved[call["save"]] = self.instants
        else:
            self.instants = self.saved[call["restore"]] if "restore" in call else 0

    def refusal_of(self, call):
        """Why a request is refused if its rows' operations have values."""
        if "save" in call or "restore" in call:
            slot = call.get("save", call.get("restore"))
            return "shape" if slot > 7 else "nosave" if "restore" in call and slot not in self.saved else None
        return next(filter(None, (refusal_of(row, self.node) for row in rows_of(call))), None)

    def event(self, place, name):
        expect(place, name, next(self.table, ("nothing",))[0])

    def instant(self, place, row):
        """The outputs of the table's next line, which has to be of the next instant and of these inputs."""
        self.instants += 1
        self.counts["instants"] += 1
        number, values = next(self.table, ("nothing", {}))
        expect(place, f"instant {self.instants}", f"instant {number}")
        inputs, outputs = (", ".join([values.get(variable.name) or "-" for variable in part]) for part in (self.node.inputs, self.node.outputs))
        expect(place, request_text({"step": row}, self.node), f"step({inputs})")
        return f"({outputs})"

    def check_fault(self, place, call, reason):
        """The reason names an operation without a value, of this place in the source and of the row's instant; the rows up to there step."""
        found = FAULT.fullmatch(reason.removeprefix("fault: "))
        row = int(found[1] or 1) if found else 1
        rows, infix = rows_of(call)[:row], INFIX.fullmatch(found[2]) if found else None
        if not (found and not has_value(found[2]) and len(rows) == row and int(found[6]) == self.instants + row
                and not any(refusal_of(given, self.node) for given in rows)
                and re.search(SIGNS[infix[2] if infix else "-"], self.source[int(found[3]) - 1][int(found[4]) - 1:])):
            raise Difference(place, f"refused fault behind instant {self.instants}", reason)


def rows_of(call):
    return [call["step"]] if "step" in call else call.get("burst", [])


def has_value(operation):
    """Whether an operation in words has a value after all; also of words that are no operation that may have none."""
    negated, infix = re.fullmatch(r"- (-?\d+)", operation), INFIX.fullmatch(operation)
    if negated:
        return LEAST <= -int(negated[1]) <= GREATEST
    if not infix:
        return True
    left, sign, right = int(infix[1]), infix[2], int(infix[3])
    if sign in ("div", "mod"):
        return right != 0 and (left, right) != (LEAST, -1)
    return LEAST <= {"+": left + right, "-": left - right, "*": left * right}[sign] <= GREATEST
