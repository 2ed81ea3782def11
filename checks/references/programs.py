"""What a random program is made of, and its text."""
from dataclasses import dataclass, field

LEAST, GREATEST = -2**63, 2**63 - 1


@dataclass(eq=False)
class Type:
    """A type by its name, with the labels of its tests if it has some, or its fields if it is a structure."""
    name: str
    labels: tuple = ()
    fields: tuple = ()

    def declared(self):
        if self.fields:
            return f"{self.name} = struct {{ {'; '.join(f'{name}: {kind.name}' for name, kind in self.fields)} }};"
        return f"{self.name} = enum {{ {', '.join(self.labels)} }};"

    def plain(self):
        """The text of one of its values."""
        if self.fields:
            return f"{self.name} {{ {'; '.join(f'{name} = {kind.plain()}' for name, kind in self.fields)} }}"
        return self.labels[0] if self.labels else "0"


BOOL = Type("bool", ("true", "false"))
INT = Type("int")


@dataclass(eq=False)
class Variable:
    """A variable with its clock, a tuple of tests (name, label) behind the base clock; `may_be_nil` at its first instant."""
    name: str
    type: Type
    clock: tuple = ()
    may_be_nil: bool = False

    def declared(self):
        test = f" when {tested(*self.clock[-1])}" if self.clock else ""
        return f"{self.name}: {self.type.name}{test}"


def tested(name, label):
    return {"true": name, "false": f"not {name}"}.get(label, f"{label}({name})")


@dataclass(eq=False)
class Tree:
    """An expression: its type and its clock, and its text in parts, some of which are trees."""
    type: Type
    clock: tuple
    parts: list

    def __str__(self):
        return "".join(map(str, self.parts))

    def below(self):
        """It and all trees in it."""
        yield self
        for part in self.parts:
            if isinstance(part, Tree):
                yield from part.below()


@dataclass(eq=False)
class Node:
    """A node; each of its equations has the variables on its left and a tree."""
    name: str
    is_function: bool
    inputs: list = field(default_factory=list)
    outputs: list = field(default_factory=list)
    locals: list = field(default_factory=list)
    equations: list = field(default_factory=list)

    def __str__(self):
        inputs, outputs = ("; ".join(map(Variable.declared, part)) for part in (self.inputs, self.outputs))
        lines = [f"{'function' if self.is_function else 'node'} {self.name}({inputs})", f"returns ({outputs});"]
        lines += ["var"] * bool(self.locals) + [f"  {variable.declared()};" for variable in self.locals] + ["let"]
        lines += [f"  {', '.join(variable.name for variable in left)} = {right};" for left, right in self.equations]
        return "\n".join([*lines, "tel", ""])


@dataclass(eq=False)
class Program:
    types: list = field(default_factory=list)
    constants: dict = field(default_factory=dict)  # the type of each name, and its text
    nodes: list = field(default_factory=list)

    def __str__(self):
        lines = ["type"] * bool(self.types) + [f"  {kind.declared()}" for kind in self.types]
        lines += ["const"] * bool(self.constants)
        lines += [f"  {name}: {kind.name} = {text};" for name, (kind, text) in self.constants.items()]
        return "\n".join([*lines, "", *map(str, self.nodes)])
