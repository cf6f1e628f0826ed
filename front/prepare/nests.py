"""The nests of a file: its outermost loops, or what stands between the lines of a scop, and each as a program or as obstacles."""

import re

from .lowering import Lowering
from .program import Program
from .writer import Writer


class Function:
    """A function of the file: its body, and what says which pointers may lead into one array."""

    def __init__(self, name, body, bodies):
        self.name, self.body, self.bodies = name, body, bodies
        self.given = {}
        for node in body.walk():
            target = node if node.kind == "variable" else node.kids[0] if node.kind == "assign" and node.kids[0].kind == "name" else None
            if target is not None and node.kids and target.declaration.sort == "pointer":
                self.given.setdefault(target.declaration, []).append((node.start, node.kids[-1]))

    def origins(self, it, nest):
        """The names that a pointer may be set from outside of a nest, itself among them."""
        found, open_ = {it}, [it]
        while open_:
            for start, value in self.given.get(open_.pop(), []):
                if any(one.start <= start < one.end for one in nest):
                    continue
                for node in value.walk():
                    if node.kind == "name" and node.declaration.sort in ("pointer", "array") and node.declaration not in found:
                        found.add(node.declaration)
                        open_.append(node.declaration)
        return found


class Nest:
    """`path` leads to it: what stands before it in each block, and the loop that is entered; `nodes` are its statements."""

    def __init__(self, function, path, nodes, source):
        self.function, self.path, self.nodes = function, path, nodes
        self.line = source.line(nodes[0].start)
        self.depth = max(depth_of(it) for it in nodes)

    def name(self):
        return f"{self.function.name}:{self.line}"


def depth_of(node):
    if node is None:
        return 0
    return (node.kind in ("for", "while")) + max([depth_of(it) for it in node.kids], default=0)


class File:
    """All nests of a source."""

    def __init__(self, source):
        self.source, self.cursors, self.known, self.functions = source, {}, {}, []
        for cursor in source.functions():
            self.cursors[cursor.spelling] = cursor
        for name, cursor in self.cursors.items():
            extent = cursor.extent
            if re.search(r"\b(for|while)\b", source.whole[extent.start.offset:extent.end.offset]):
                body = source.body(cursor)
                if body is not None:
                    self.functions.append(Function(name, body, self.bodies))
        self.regions = [(it.start(), source.whole.find("#pragma endscop", it.start()))
                        for it in re.finditer(r"^[ \t]*#[ \t]*pragma[ \t]+scop\b", source.whole, re.M)]

    def bodies(self, name):
        """(parameters, body) of a function that the file defines, or None."""
        if name not in self.cursors:
            return None
        if name not in self.known:
            self.known[name] = None
            cursor = self.cursors[name]
            body = self.source.body(cursor)
            self.known[name] = ([self.source.declaration(it) for it in cursor.get_arguments()], body) if body else None
        return self.known[name]

    def nests(self):
        """The outermost nests, in the order of the text."""
        for function in self.functions:
            yield from self.below(function, function.body, (), False)

    def inner(self, nest):
        """The loops right below a nest's loop."""
        for it in nest.nodes:
            body = it.kids[-1] if it.kind in ("for", "while") else it
            yield from self.below(nest.function, body, nest.path + (((), it if it.kind in ("for", "while") else None),), False)

    def below(self, function, node, path, every):
        """Nests below a node; `path` as a nest has it."""
        if node is None:
            return
        if node.kind in ("for", "while"):
            yield Nest(function, path, [node], self.source)
            return
        kids = node.kids if node.kind in ("block", "if", "do", "switch", "label", "case", "default") else []
        before, taken = [], set()
        for it in kids:
            region = next((one for one in self.regions if one[0] < it.start < one[1]), None) if node.kind == "block" else None
            here = path + ((tuple(before) if node.kind == "block" else (), node if node.kind == "do" else None),)
            if region is not None:
                if region not in taken:
                    taken.add(region)
                    members = [one for one in kids if region[0] < one.start < region[1]]
                    if any(depth_of(one) for one in members):
                        yield Nest(function, here, members, self.source)
            else:
                yield from self.below(function, it, here, every)
            before.append(it)

    def program(self, nest, parts=False):
        """The program of a nest; its `obstacles` are empty where it was made."""
        for start, words in self.source.errors:
            if nest.nodes[0].start <= start < nest.nodes[-1].end:
                return Refusal({(self.source.line(start), words): start})
        lowering = Lowering(self.source, nest.function, nest.path, nest.nodes, parts)
        return Program(lowering)

    def text(self, nest, program):
        return Writer(program).text(f"{self.source.path}:{nest.line}, {nest.function.name}, as iolb-prepare reads it")

    def largest(self, nest, parts=False):
        """The largest parts of a nest that are read, [(nest, program)]."""
        found = []
        for it in self.inner(nest):
            program = self.program(it, parts)
            found += [(it, program)] if not program.obstacles else self.largest(it, parts)
        return found


class Refusal:
    """What stands in the way of a nest that isn't even parsed."""

    def __init__(self, obstacles):
        self.obstacles = obstacles
