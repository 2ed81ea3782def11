"""Cuts a module, as text of LLVM, into parts that are compiled side by side."""
import re

NAME = re.compile(rb'@(?:"[^"\n]+"|[\w.$-]+)')
SHORT = 2000  # bytes of a function that each part has which calls it, so that it is inlined there


class Module:
    """The functions and the globals of a module by their names, and the other lines at its top."""

    def __init__(self, text):
        first, *pieces = text.split(b"\ndefine ")
        self.functions, between = {}, [first]
        for piece in pieces:
            end = piece.index(b"\n}\n") + 3
            self.functions[NAME.search(piece).group()] = piece[:end]
            between.append(piece[end:])
        lines = [line for line in b"\n".join(between).split(b"\n") if line and not line.startswith(b";")]
        self.globals = {NAME.match(line).group(): line for line in lines if line.startswith(b"@")}
        self.others = [line for line in lines if not line.startswith(b"@")]

    def named(self, roots):
        """What each function names that is reached from the roots, in the order in which they are reached."""
        named, waiting = {}, list(roots)[::-1]
        while waiting:
            function = waiting.pop()
            if function not in named:
                named[function] = dict.fromkeys(NAME.findall(self.functions[function]))
                waiting.extend(name for name in list(named[function])[::-1] if name in self.functions)
        return named


def owners_of(module, functions, count):
    """The part that has each of these functions: parts of about one length, in which those stand together that call one another."""
    whole, before, owners = sum(len(module.functions[each]) for each in functions), 0, {}
    for function in functions:
        owners[function] = before * count // whole
        before += len(module.functions[function])
    return owners


def members_of(module, named, owners, part):
    """The functions of a part: its own, and the short ones that these call."""
    members, waiting = {}, [function for function, owner in owners.items() if owner == part]
    while waiting:
        function = waiting.pop()
        if function not in members:
            members[function] = None
            waiting.extend(name for name in named[function] if name in module.functions and name not in owners)
    return members


def global_in_part(line):
    """A global that each part has which names it: a constant without an address of its own is copied, and of another one is left by the linker."""
    return line if b" unnamed_addr constant " in line else line.replace(b" = private ", b" = weak_odr hidden ", 1)


def cut(text, roots, count):
    """The texts of so many parts with all that is reached from the roots, functions that are seen outside."""
    module = Module(text)
    named = module.named(roots)
    owners = owners_of(module, [each for each in named if len(module.functions[each]) > SHORT or each in roots], count)
    parts = [members_of(module, named, owners, part) for part in range(count)]
    called = [{name for function in members for name in named[function]} for members in parts]
    elsewhere = [{name for name in names if owners.get(name, part) != part} for part, names in enumerate(called)]
    shared = set().union(*elsewhere)

    def seen(function):
        code, sight = module.functions[function], b"" if function in roots else b"hidden "
        return code.replace(b"internal ", sight, 1) if function in roots or function in shared else code

    def declared(function):
        return b"declare " + seen(function).split(b"\n", 1)[0].rstrip(b" {")

    texts = []
    for part, members in enumerate(parts):
        lines = module.others + [global_in_part(line) for name, line in module.globals.items() if name in called[part]]
        lines += [declared(function) for function in elsewhere[part]] + [b"define " + seen(function) for function in members]
        texts.append(b"\n".join(lines) + b"\n")
    return texts
