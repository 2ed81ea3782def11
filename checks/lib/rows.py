"""The acceptance rows of rows/*.json, whose README says how a row is written."""
import json
import re
import subprocess
import tempfile
from pathlib import Path

from lib.check import LIMIT, TOP

KEYS = {
    "name", "shows",
    "source", "check", "calls", "scripts", "fronts", "table", "words", "folders", "stdout_to",
    "stdout", "journal", "accepted", "merged", "stderr", "status",
}


class BadRow(Exception):
    """A row that isn't written as README.md says."""


# Texts made of pieces


def fill(text, name, number):
    """The text with {k}, {k-1} and {k+1} replaced, for a counter k."""
    for mark, value in ((name, number), (name + "-1", number - 1), (name + "+1", number + 1)):
        text = text.replace("{" + mark + "}", str(value))
    return text


def spell(piece):
    """The bytes that a piece spells."""
    if isinstance(piece, str):
        return piece.encode("utf-8")
    if isinstance(piece, list):
        return b"\n".join(spell(part) for part in piece)
    if "join" in piece:
        return b"".join(spell(part) for part in piece["join"])
    if "repeat" in piece:
        return spell(piece.get("between", "")).join([spell(piece["repeat"])] * piece["times"])
    if "each" in piece:
        numbers = range(piece["first"], piece["last"] + 1)
        parts = [fill(piece["text"], piece["each"], number).encode("utf-8") for number in numbers]
        return spell(piece.get("between", "")).join(parts)
    if "bytes" in piece:
        return bytes.fromhex(piece["bytes"])
    raise BadRow(f"no such piece: {piece}")


def listing(piece):
    """The lines, or the requests of one caller, that a list or one repeated piece gives."""
    if isinstance(piece, dict):
        return spell({"between": "\n", **piece}).decode("utf-8").split("\n")
    return [line for part in piece for line in (listing(part) if isinstance(part, dict) else [part])]


def inserted(piece, text):
    """A piece with each `{text}` in it replaced by a piece."""
    if isinstance(piece, str):
        return {"join": [part for between in piece.split("{text}") for part in (text, between)][1:]}
    if isinstance(piece, list):
        return [inserted(part, text) for part in piece]
    if "join" in piece:
        return {"join": inserted(piece["join"], text)}
    return piece


# What a row runs


def last_node(source):
    names = re.findall(rb"\b(?:node|function)\s+([A-Za-z_][A-Za-z0-9_]*)", source)
    if not names:
        raise BadRow("`calls` wants a source with a node")
    return names[-1].decode("ascii")


def scripts_bytes(row, source):
    if "calls" in row:
        calls = [{"on": "k", **call} for call in row["calls"]]
        whole = {"instances": [{"name": "k", "node": last_node(source)}],
                 "callers": [{"name": "a", "calls": calls}]}
        return json.dumps(whole, separators=(",", ":")).encode("utf-8")
    if "scripts" not in row:
        return None
    scripts = row["scripts"]
    if isinstance(scripts, dict) and "instances" in scripts:
        return json.dumps(scripts, separators=(",", ":")).encode("utf-8")
    return spell(scripts)


def files_of(row):
    """Each pair of files that the row is run with: one, or one for each front."""
    source = spell(row["source"]) if "source" in row else None
    scripts = scripts_bytes(row, source)
    if "fronts" not in row:
        yield "", source, scripts
        return
    fronts = row["fronts"]
    whole = source if fronts["of"] == "source" else scripts
    for length in range(fronts["first"], fronts.get("last", len(whole) - 1) + 1):
        case = f" (front of {length} bytes)"
        if fronts["of"] == "source":
            yield case, source[:length], scripts
        else:
            yield case, source, scripts[:length]


def lines_of_table(row):
    """The rows that a row with a table stands for: one for each pair of it."""
    if "table" not in row:
        yield "", row
        return
    key = "source" if "check" in row else "scripts"
    for piece, end in row["table"]:
        line = {**row, key: inserted(row.get(key, "{text}"), piece)}
        if isinstance(end, int):
            line["accepted"] = end
        elif end is not None:
            line.update(stderr=end, status=1 if key == "source" else 2)
        yield f" ({shorten(spell(piece).decode('utf-8', 'replace'), 80)})", line


def words(row):
    if "words" in row:
        return row["words"]
    return ["--check", "program.lus"] if row.get("check") else ["program.lus", "scripts.json"]


# What a row expects


def expected_stdout(row, source):
    if "stdout" in row:
        lines = listing(row["stdout"])
    elif "journal" in row:
        lines = listing(row["journal"])
        lines = [f"instance k {last_node(source)}", *lines, f"entries {len(lines)}"]
    elif "accepted" in row:
        lines = [f"accepted {row['accepted']}"]
    else:
        lines = []
    return "".join(line + "\n" for line in lines)


def stdout_differs(row, source, got):
    """What was expected, or None where the output is as the row says."""
    if "merged" not in row:
        expected = expected_stdout(row, source)
        return None if got == expected else expected
    merged = row["merged"]
    waiting = {name: listing(requests) for name, requests in merged["callers"].items()}
    replies = listing(merged["replies"])
    lines = got.split("\n")
    if lines[0] != merged["first"]:
        return merged["first"] + "\n"
    for number, reply in enumerate(replies, 1):
        lawful = [f"{number} {name} {requests[0]} -> {reply}"
                  for name, requests in waiting.items() if requests]
        line = lines[number] if number < len(lines) else ""
        if line not in lawful:
            return f"as line {number + 1} one of: {lawful}"
        waiting[line.split(" ")[1]].pop(0)
    tail = [f"entries {len(replies)}", ""]
    return None if lines[len(replies) + 1:] == tail else f"at the end {tail[0]}"


def line_fits(line, got):
    """Whether a line of standard error is the one of a row, in which {17..64} is any number from 17 to 64, {*} any from 1."""
    parts = re.split(r"(\{\*\}|\{\d+\.\.\d+\})", line)
    pattern = "".join(r"([1-9][0-9]*)" if index % 2 else re.escape(part) for index, part in enumerate(parts))
    match = re.fullmatch(pattern + "\n", got)
    spans = [part[1:-1].split("..") for part in parts[1::2]]
    return match is not None and all(span == ["*"] or int(span[0]) <= int(number) <= int(span[1])
                                     for number, span in zip(match.groups(), spans))


def stderr_differs(row, got):
    lines = row.get("stderr", [])
    lines = [lines] if isinstance(lines, str) else lines
    if not lines:
        return None if got == "" else "nothing"
    return None if any(line_fits(line, got) for line in lines) else " or ".join(lines)


def shorten(text, most=600):
    text = text.rstrip("\n")
    return repr(text) if len(text) <= most else repr(text[:most]) + f" .. ({len(text)} characters)"


def differences(program, row, source, scripts):
    """What was expected of one run, and what came."""
    with tempfile.TemporaryDirectory(prefix="rows-") as folder:
        for name, content in (("program.lus", source), ("scripts.json", scripts)):
            if content is not None:
                (Path(folder) / name).write_bytes(content)
        for name in row.get("folders", []):
            (Path(folder) / name).mkdir()
        sink = open(row["stdout_to"], "wb") if "stdout_to" in row else None
        try:
            done = subprocess.run([program, *words(row)], cwd=folder, timeout=LIMIT, stdin=subprocess.DEVNULL,
                                  stdout=sink or subprocess.PIPE, stderr=subprocess.PIPE)
        except subprocess.TimeoutExpired:
            return [f"  expected an end, and none came within {LIMIT:.0f} seconds"]
        finally:
            if sink:
                sink.close()
    stdout = (done.stdout or b"").decode("utf-8", "replace")
    stderr = done.stderr.decode("utf-8", "replace")
    found = []
    expected = stdout_differs(row, source, stdout)
    if expected is not None:
        found.append(f"  expected output {shorten(expected)}\n  got {shorten(stdout)}")
    expected = stderr_differs(row, stderr)
    if expected is not None:
        found.append(f"  expected the error's line {expected}\n  got {shorten(stderr)}")
    if done.returncode != row.get("status", 0):
        found.append(f"  expected status {row.get('status', 0)}, got {done.returncode}")
    return found


class Row:
    """A row, which is right or differs; it is worked out by hand, so nothing that comes is written into its file."""

    def __init__(self, file, row, lus):
        self.file, self.row, self.lus, self.found = file, row, lus, []

    def label(self):
        return f"{self.file.relative_to(TOP)}: {self.row['name']}"

    def run(self, _environment):
        """Runs the row up to its first difference."""
        for entry, line in lines_of_table(self.row):
            for case, source, scripts in files_of(line):
                self.found = differences(str(self.lus), line, source, scripts)
                if self.found:
                    self.found.insert(0, f"{self.row['name']}{entry}{case}")
                    return False
        return True

    def difference(self):
        return self.found


def checked_name(row, seen):
    name = row.get("name", "?")
    if not re.fullmatch(r"[a-z][a-z0-9_]*", name):
        raise BadRow(f"{name}: a name has lower-case letters, digits and _")
    if name in seen:
        raise BadRow(f"{name}: two rows of one name")
    if set(row) - KEYS:
        raise BadRow(f"{name}: unknown keys {sorted(set(row) - KEYS)}")
    if ("stderr" in row) != (row.get("status", 0) != 0):
        raise BadRow(f"{name}: a fault's line goes with a status other than 0")
    return name


def rows_of(lus):
    """Each row, for a `lus`."""
    seen = set()
    for path in sorted((TOP / "rows").glob("*.json")):
        for row in json.loads(path.read_text("utf-8")):
            seen.add(checked_name(row, seen))
            yield Row(path, row, lus.absolute())
