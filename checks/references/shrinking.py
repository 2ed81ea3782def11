"""Makes what differs smaller, while it still differs."""
import json
from dataclasses import dataclass

MOST_TRIES = 3000


@dataclass
class Case:
    """A program and a script, and how the machine and the reference differ on them. `differs` says so of another case."""
    program: object
    instances: dict
    calls: list
    difference: Exception
    differs: object
    tried: int = 0

    def size(self):
        return len(str(self.program)) + len(json.dumps([self.instances, self.calls]))

    def becomes(self, changes):
        """Changes some attributes of its parts, unless it doesn't get smaller by them or differs no more."""
        if self.tried == MOST_TRIES:
            return False
        before, kept = self.size(), [(owner, name, getattr(owner, name)) for owner, name, _ in changes]
        for owner, name, value in changes:
            setattr(owner, name, value)
        if self.size() < before:
            self.tried += 1
            found = self.differs(self)
            if found and found.is_like(self.difference):
                self.difference = found
                return True
        for owner, name, value in kept:
            setattr(owner, name, value)
        return False


def shrink(case):
    """Tries each change as long as one of them makes the case smaller. A case gets smaller each time, so this ends."""
    while any([shrink_by(case, changes) for changes in (of_instances, of_calls, of_rows, of_nodes, of_trees, of_equations, of_formals)]):
        pass


def shrink_by(case, changes):
    place, is_smaller, choices = 0, False, list(changes(case))
    while place < len(choices):
        if case.becomes(choices[place]):
            is_smaller, choices = True, list(changes(case))
        else:
            place += 1
    return is_smaller


def without(items, place, count=1):
    return items[:place] + items[place + count:]


# Each of these gives changes, of which each is a list: of what, which attribute, its value then.


def of_instances(case):
    for name in case.instances:
        yield [(case, "instances", {other: node for other, node in case.instances.items() if other != name}),
               (case, "calls", [call for call in case.calls if call["on"] != name])]


def of_calls(case):
    count = len(case.calls)
    while count:
        count //= 2
        for place in range(0, len(case.calls), max(count, 1)):
            yield [(case, "calls", without(case.calls, place, max(count, 1)))]


def of_rows(case):
    """Bursts with a row less, or as a step, and plainer values."""
    for place, call in enumerate(case.calls):
        others = [{**call, "burst": without(call["burst"], row)} for row in range(len(call["burst"]))] if "burst" in call else []
        if "burst" in call and len(call["burst"]) == 1:
            others.append({"on": call["on"], "step": call["burst"][0]})
        if "step" in call:
            others += [{**call, "step": [*call["step"][:item], plain, *call["step"][item + 1:]]}
                       for item, value in enumerate(call["step"]) if type(value) is int for plain in (0, 1, 2, value // 10)]
        for other in others:
            yield [(case, "calls", [*case.calls[:place], other, *case.calls[place + 1:]])]


def of_nodes(case):
    for part in ("nodes", "types"):
        for place in range(len(getattr(case.program, part))):
            yield [(case.program, part, without(getattr(case.program, part), place))]
    for name in case.program.constants:
        yield [(case.program, "constants", {other: value for other, value in case.program.constants.items() if other != name})]


def of_trees(case):
    """A literal for a tree, or a tree in it of the same type and clock, wide trees first."""
    for node in case.program.nodes:
        for _, right in node.equations:
            for tree in right.below():
                if tree.type:
                    yield [(tree, "parts", [tree.type.plain()])]
                    for other in tree.below():
                        if other is not tree and other.type is tree.type and other.clock == tree.clock:
                            yield [(tree, "parts", other.parts)]


def of_equations(case):
    """An equation less, with the variables that it defines."""
    for node in case.program.nodes:
        for place, (left, _) in enumerate(node.equations):
            yield [(node, part, [variable for variable in getattr(node, part) if variable not in left]) for part in ("outputs", "locals")] + [
                (node, "equations", without(node.equations, place))]


def of_formals(case):
    """An input less, in the calls too."""
    for node in case.program.nodes:
        for place in range(len(node.inputs)):
            yield [(node, "inputs", without(node.inputs, place)),
                   (case, "calls", [without_item(call, place) if case.instances[call["on"]] == node.name else call for call in case.calls])]


def without_item(call, place):
    if "step" in call:
        return {**call, "step": without(call["step"], place)}
    return {**call, "burst": [without(row, place) for row in call["burst"]]} if "burst" in call else call
