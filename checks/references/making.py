"""Makes random programs that are accepted: the wanted type, clock and whether nil is allowed go down into each expression.

Of a node's variables those that are `ready` have their equations already, so what is written now may need them at the same instant;
under a `pre` all that are `known` are free to use. So no variable needs itself.
"""
from programs import BOOL, GREATEST, INT, Node, Program, Tree, Type, Variable

MOST_EXTRA = 6  # locals of a node that are made where an expression asks for a variable
LOGICAL, COMPARISONS, SUMS, DIVISIONS = ["and", "or", "xor", "=>"], ["<", "<=", ">", ">="], ["+", "-"], ["div", "/", "mod", "mod"]


def made_program(chance):
    """A program of some types, constants and nodes, of which each calls some before it."""
    program = Program()
    for number in range(chance.randint(1, 2)):
        program.types.append(Type(f"e{number}", tuple(f"{letter}{number}" for letter in "ABC"[:chance.randint(2, 3)])))
    for number in range(chance.randint(0, 2)):
        kinds = [BOOL, INT, INT, *program.types]
        fields = tuple((f"f{place}", chance.choice(kinds)) for place in range(chance.randint(1, 3)))
        program.types.append(Type(f"s{number}", (), fields))
    for number in range(chance.randint(0, 2)):
        kind = chance.choice([BOOL, INT, program.types[0]])
        program.constants[f"k{number}"] = (kind, literal(chance, kind).strip("()"))
    for number in range(chance.randint(2, 4)):
        NodeMaker(chance, program, Node(f"n{number}", chance.random() < 0.15)).make()
    chance.shuffle(program.nodes)
    return program


def literal(chance, kind):
    if kind is not INT:
        return chance.choice(kind.labels)
    draw = chance.random()
    number = chance.randint(-9, 9) if draw < 0.8 else chance.randint(-999, 999) if draw < 0.98 else chance.choice([GREATEST, -GREATEST])
    return str(number) if number >= 0 else f"({number})"


class NodeMaker:
    def __init__(self, chance, program, node):
        self.chance, self.program, self.node = chance, program, node
        self.known, self.ready, self.count = [], [], 0
        self.callees = [other for other in program.nodes if other.is_function or not node.is_function]
        self.makers = {"operate": 9, "choose": 2, "field": 1, "sample": 3, "merge": 3, "call": 5}
        if not node.is_function:
            self.makers |= {"pre": 6, "arrow": 3, "fby": 3}

    def make(self):
        for number in range(self.chance.choice([0, 1, 2, 2, 3, 3, 4, 4, 5])):
            self.node.inputs.append(self.variable(f"i{number}", self.node.inputs))
        self.known, self.ready = list(self.node.inputs), list(self.node.inputs)
        planned = ["o"] * self.chance.choice([1, 1, 1, 2, 3]) + ["v"] * self.chance.randint(0, 4)
        self.chance.shuffle(planned)
        equations = []
        for number, letter in enumerate(planned):
            part = self.node.outputs if letter == "o" else self.node.locals
            made = self.variable(f"{letter}{number}", self.node.inputs + self.node.outputs if letter == "o" else self.known)
            made.may_be_nil = letter == "v" and not self.node.is_function and self.chance.random() < 0.25
            part.append(made)
            self.known.append(made)
            equations.append(made)
        for made in equations:
            while self.chance.random() < 0.3 and self.call_whole():
                pass
            self.node.equations.append(([made], self.tree(made.type, made.clock, made.may_be_nil, False, self.chance.randint(1, 4))))
            self.ready.append(made)
        for part in (self.node.locals, self.node.equations):
            self.chance.shuffle(part)
        self.program.nodes.append(self.node)

    def variable(self, name, testable):
        """A variable of any type, on the base clock or on one that tests one of these."""
        made = Variable(name, self.chance.choice([BOOL, BOOL, INT, INT, INT, INT, *self.program.types]))
        testable = [other for other in testable if other.type.labels and not other.may_be_nil]
        if testable and self.chance.random() < 0.45:
            other = self.chance.choice(testable)
            made.clock = (*other.clock, (other.name, self.chance.choice(other.type.labels)))
        return made

    def tree(self, kind, clock, may_be_nil, is_free, depth):
        """An expression of this type on this clock; a free one is under a `pre`."""
        makers = dict(self.makers) if depth > 0 else {}
        while makers:
            name = self.chance.choices(list(makers), list(makers.values()))[0]
            made = getattr(self, name)(kind, clock, may_be_nil, is_free, depth - 1)
            if made:
                return Tree(kind, clock, made)
            del makers[name]
        return Tree(kind, clock, self.leaf(kind, clock, may_be_nil, is_free))

    def seen(self, kind, clock, may_be_nil, is_free):
        return [other for other in (self.known if is_free else self.ready)
                if other.type is kind and other.clock == clock and (may_be_nil or not other.may_be_nil)]

    def leaf(self, kind, clock, may_be_nil, is_free):
        seen = self.seen(kind, clock, may_be_nil, is_free)
        if seen and self.chance.random() < 0.9:
            return [self.chance.choice(seen).name]
        if clock and self.chance.random() < 0.8:
            return self.sample(kind, clock, may_be_nil, is_free, 0)
        if kind.fields:
            return self.structure(kind, lambda part: self.tree(part, clock, may_be_nil, is_free, 0))
        constants = [name for name, (other, _) in self.program.constants.items() if other is kind]
        return [self.chance.choice(constants) if constants and self.chance.random() < 0.3 else literal(self.chance, kind)]

    def named(self, kind, clock, is_free, depth):
        """A variable of this type on this clock that is never nil, made with an equation where there is none; None if it can't be."""
        seen = self.seen(kind, clock, False, is_free)
        if seen and (self.count == MOST_EXTRA or self.chance.random() < 0.8):
            return self.chance.choice(seen)
        if self.count == MOST_EXTRA:
            return None
        self.count += 1
        made = Variable(f"x{self.count}", kind, clock)
        right = self.tree(kind, clock, False, is_free, max(1, min(depth, 2)))
        self.add([made], right, is_free)
        return made

    def add(self, made, right, is_free):
        self.node.locals += made
        self.node.equations.append((made, right))
        self.known += made
        if not is_free:
            self.ready += made

    # Each of these gives the parts of an expression, or None where there is none of its form.

    def operate(self, kind, clock, may_be_nil, is_free, depth):
        def part(other):
            return self.tree(other, clock, may_be_nil, is_free, depth)
        draw = self.chance.random()
        if kind.fields:
            return self.structure(kind, part)
        if kind is INT:
            return self.reckon(part, draw, clock)
        if kind is not BOOL:
            return None
        if draw < 0.3:
            return ["(", part(BOOL), f" {self.chance.choice(LOGICAL)} ", part(BOOL), ")"]
        if draw < 0.6:
            return ["(", part(INT), f" {self.chance.choice(COMPARISONS)} ", part(INT), ")"]
        if draw < 0.8:
            other = self.chance.choice([BOOL, INT, *self.program.types])
            return ["(", part(other), f" {self.chance.choice(['=', '<>'])} ", part(other), ")"]
        if draw < 0.9:
            return ["(not ", part(BOOL), ")"]
        parts = [self.chance.choice(["#(", "nor("])]
        for _ in range(self.chance.randint(1, 3)):
            parts += [part(BOOL), ", "]
        return [*parts[:-1], ")"]

    def structure(self, kind, part):
        parts = [f"({kind.name} {{ "]
        for name, other in self.chance.sample(kind.fields, len(kind.fields)):
            parts += [f"{name} = ", part(other), "; "]
        return [*parts[:-1], " })"]

    def reckon(self, part, draw, clock):
        """An operation on numbers: now and then one of those that may have no value."""
        def small():
            return Tree(INT, clock, [str(self.chance.randint(2, 9))])
        if draw < 0.45:
            return ["(", part(INT), f" {self.chance.choice(SUMS)} ", part(INT), ")"]
        if draw < 0.6:
            return ["(", part(INT), " * ", small() if self.chance.random() < 0.6 else part(INT), ")"]
        if draw < 0.9:
            divisor = small() if self.chance.random() < 0.9 else part(INT)
            return ["(", part(INT), f" {self.chance.choice(DIVISIONS)} ", divisor, ")"]
        return ["(- ", part(INT), ")"]

    def choose(self, kind, clock, may_be_nil, is_free, depth):
        test, first, second = (self.tree(other, clock, may_be_nil, is_free, depth) for other in (BOOL, kind, kind))
        return ["(if ", test, " then ", first, " else ", second, ")"]

    def field(self, kind, clock, may_be_nil, is_free, depth):
        fields = [(whole, name) for whole in self.program.types for name, part in whole.fields if part is kind]
        if not fields:
            return None
        whole, name = self.chance.choice(fields)
        return ["(", self.tree(whole, clock, may_be_nil, is_free, depth), f").{name}"]

    def sample(self, kind, clock, may_be_nil, is_free, depth):
        if not clock:
            return None
        name, label = clock[-1]
        ways = {"true": [name, f"true({name})"], "false": [f"not {name}", f"not ({name})", f"false({name})"]}
        test = self.chance.choice(ways.get(label, [f"{label}({name})"]))
        return ["((", self.tree(kind, clock[:-1], may_be_nil, is_free, depth), f") when {test})"]

    def merge(self, kind, clock, may_be_nil, is_free, depth):
        of = self.named(self.chance.choice([BOOL, *(other for other in self.program.types if other.labels)]), clock, is_free, depth)
        if of is None:
            return None
        parts = [f"(merge {of.name}"]
        for label in self.chance.sample(of.type.labels, len(of.type.labels)):
            parts += [f" ({label} -> ", self.tree(kind, (*clock, (of.name, label)), False, is_free, depth), ")"]
        return [*parts, ")"]

    def pre(self, kind, clock, may_be_nil, is_free, depth):
        return ["(pre ", self.tree(kind, clock, False, True, depth), ")"] if may_be_nil else None

    def arrow(self, kind, clock, may_be_nil, is_free, depth):
        first = self.tree(kind, clock, may_be_nil, is_free, min(depth, 1))
        return ["(", first, " -> ", self.tree(kind, clock, True, is_free, depth), ")"]

    def fby(self, kind, clock, may_be_nil, is_free, depth):
        first = self.tree(kind, clock, may_be_nil, is_free, min(depth, 1))
        return ["(", first, " fby ", self.tree(kind, clock, False, True, depth), ")"]

    def call(self, kind, clock, may_be_nil, is_free, depth):
        """A call of a node with one output. Where that is on a clock, the last tests of the wanted clock have to be its own."""
        choices = []
        for node in self.callees:
            own = node.outputs[0].clock
            split = len(clock) - len(own)
            if len(node.outputs) == 1 and node.outputs[0].type is kind and [test[1] for test in clock[max(split, 0):]] == [test[1] for test in own]:
                choices.append((node, clock[:split], {formal: name for (formal, _), (name, _) in zip(own, clock[split:])}))
        if not choices:
            return None
        node, base, actuals = self.chance.choice(choices)
        arguments = self.arguments(node, base, actuals, is_free, depth)
        return arguments and [f"{node.name}(", *arguments, ")"]

    def arguments(self, node, base, actuals, is_free, depth):
        """The arguments of a call on this base, where some are given already; adds to these the variables that stand for formals."""
        named = {formal.clock[-1][0] for formal in node.inputs + node.outputs if formal.clock}
        trees = {}
        for formal in sorted(node.inputs, key=lambda formal: len(formal.clock)):
            clock = renamed(base, formal.clock, actuals)
            if formal.name in named:
                if formal.name not in actuals:
                    found = self.named(formal.type, clock, is_free, depth)
                    if found is None:
                        return None
                    actuals[formal.name] = found.name
                trees[formal.name] = Tree(formal.type, clock, [actuals[formal.name]])
            else:
                trees[formal.name] = self.tree(formal.type, clock, False, is_free, depth)
        parts = [""]
        for formal in node.inputs:
            parts += [trees[formal.name], ", "]
        return parts[:-1] or [""]

    def call_whole(self):
        """An equation that calls a node, with a new local for each of its outputs; whether it is one."""
        nodes = [node for node in self.callees if self.count + len(node.outputs) <= MOST_EXTRA]
        if not nodes:
            return False
        node, actuals = self.chance.choice(nodes), {}
        base = self.chance.choice([(), *(other.clock for other in self.ready)])
        testable = [other for other in self.seen_on(base) if other.type.labels]
        if testable and self.chance.random() < 0.5:
            other = self.chance.choice(testable)
            base = (*base, (other.name, self.chance.choice(other.type.labels)))
        self.count += len(node.outputs)
        names = {formal.name: f"y{self.count - place}" for place, formal in enumerate(node.outputs)}
        arguments = self.arguments(node, base, actuals, False, 2)
        if arguments is None:
            return False
        actuals |= names
        made = [Variable(names[formal.name], formal.type, renamed(base, formal.clock, actuals)) for formal in node.outputs]
        self.add(made, Tree(None, base, [f"{node.name}(", *arguments, ")"]), False)
        return True

    def seen_on(self, clock):
        return [other for other in self.ready if other.clock == clock and not other.may_be_nil]


def renamed(base, clock, actuals):
    return base + tuple((actuals[name], label) for name, label in clock)
