"""Random calls of a program's nodes, as scripts have them, and what each asks as a journal has it."""
import json

from programs import BOOL, GREATEST, INT, LEAST

SLOTS = 3


def made_script(chance, program, turns):
    """Instances with their nodes, and calls: so many turns for an instance of each node, and for a second one of the last."""
    instances = {f"k{number}": node for number, node in enumerate([*program.nodes, program.nodes[-1]])}
    calls = []
    for name, node in instances.items():
        width = chance.choice([10, 10, 1000, GREATEST])
        calls.append([{"on": name, **made_call(chance, node, program, width)} for _ in range(turns)])
    order = [number for number, part in enumerate(calls) for _ in part]
    chance.shuffle(order)
    parts = list(map(iter, calls))
    return {name: node.name for name, node in instances.items()}, [next(parts[number]) for number in order]


def made_call(chance, node, program, width):
    draw = chance.random()
    if draw < 0.72:
        return {"step": made_row(chance, node, program, width)}
    if draw < 0.84:
        return {"burst": [made_row(chance, node, program, width) for _ in range(chance.randint(0, 4))]}
    if draw < 0.88:
        return {"reset": True}
    slot = chance.randrange(SLOTS) if chance.random() < 0.95 else 8
    return {"save" if draw < 0.94 else "restore": slot}


def made_row(chance, node, program, width):
    """Values of the inputs, each where its clock is present; now and then a row that is refused for its shape or its presence."""
    values = {}
    for formal in sorted(node.inputs, key=lambda formal: len(formal.clock)):
        values[formal.name] = made_value(chance, formal.type, width) if is_present(formal, values) else None
    row = [values[formal.name] for formal in node.inputs]
    draw = chance.random()
    if row and draw < 0.04:
        place = chance.randrange(len(row))
        kinds = [BOOL, INT, node.inputs[place].type, *(kind for kind in program.types if kind.labels)]
        row[place] = made_value(chance, chance.choice(kinds), width) if draw < 0.03 else None
    elif draw < 0.05:
        row = row[:-1] if row and draw < 0.045 else [*row, 1]
    return row


def made_value(chance, kind, width):
    if kind.fields:
        return {name: made_value(chance, part, width) for name, part in kind.fields}
    if kind is BOOL:
        return chance.random() < 0.6
    if kind is not INT:
        return chance.choice(kind.labels)
    draw = chance.random()
    if width == GREATEST and draw < 0.15:
        return chance.choice([LEAST, LEAST + 1, GREATEST, GREATEST // 2, -2**32, 2**31])
    return chance.randint(-width, width) if draw < 0.3 and width < GREATEST else chance.randint(-9, 9)


def is_present(formal, values):
    if not formal.clock:
        return True
    name, label = formal.clock[-1]
    return values[name] is not None and text_of(values[name], None) == label


def has_type(value, kind):
    if kind is BOOL or kind is INT:
        return type(value) is (bool if kind is BOOL else int)
    return isinstance(value, dict) if kind.fields else value in kind.labels


def refusal_of(row, node):
    """Why an instance refuses a row before it steps, or None."""
    if len(row) != len(node.inputs) or any(value is not None and not has_type(value, formal.type) for value, formal in zip(row, node.inputs)):
        return "shape"
    values = {formal.name: value for value, formal in zip(row, node.inputs)}
    return None if all((values[formal.name] is not None) == is_present(formal, values) for formal in node.inputs) else "presence"


def text_of(value, kind):
    """A value as journals have it; a structure by its type."""
    if value is None:
        return "-"
    if isinstance(value, dict):
        return "{" + "; ".join(text_of(value[name], part) for name, part in kind.fields) + "}"
    return str(value).lower() if isinstance(value, bool) else str(value)


def row_text(row, node):
    kinds = [formal.type for formal in node.inputs] + [None] * len(row)
    return "(" + ", ".join(map(text_of, row, kinds)) + ")"


def request_text(call, node):
    if "step" in call:
        return "step" + row_text(call["step"], node)
    if "burst" in call:
        return "burst(" + ", ".join(row_text(row, node) for row in call["burst"]) + ")"
    return next(word if word == "reset" else f"{word} {call[word]}" for word in ("reset", "save", "restore") if word in call)


def script_text(instances, calls):
    """Scripts of one caller, with the instances by their nodes."""
    return json.dumps({"instances": [{"name": name, "node": node} for name, node in instances.items()], "callers": [{"name": "c", "calls": calls}]})
