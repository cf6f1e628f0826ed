"""A nest as a small tree of its own: loops, guards and statements, whose subscripts and bounds are forms."""

from dataclasses import dataclass, field


@dataclass(frozen=True)
class Cell:
    """A cell of the array `key`, (declaration, member, ..), at `subs`, a form for each subscript."""
    key: tuple
    subs: tuple


@dataclass(frozen=True)
class Pointer:
    """An address: `subs` has one form at least, and the last of them moves."""
    key: tuple
    subs: tuple

    def moved(self, form):
        return Pointer(self.key, self.subs[:-1] + (self.subs[-1] + form,))


class Unknown:
    """A whole number or an address that forms don't tell."""

    def __repr__(self):
        return "UNKNOWN"


UNKNOWN = Unknown()


@dataclass
class Loop:
    """`name` runs from `first` to `last`, both included, upward or downward."""
    name: str
    first: object
    last: object
    upward: bool
    body: list = field(default_factory=list)
    line: int = 0


@dataclass
class Guard:
    """The body is done where all rows hold: (`>=` or `==`, form), each compared with 0."""
    rows: list
    body: list = field(default_factory=list)


@dataclass
class Statement:
    """`target` is computed from what `tree` reads; `said` is the C that it stands for."""
    target: Cell
    tree: tuple
    said: str
    line: int
    start: int = 0


def reads_of(tree):
    """The cells that a value's tree reads, each once, in the order of the text."""
    found, stack = {}, [tree]
    while stack:
        it = stack.pop()
        if it[0] == "cell":
            found[it[1]] = True
        stack.extend(reversed([kid for kid in it[1:] if isinstance(kid, tuple) and not isinstance(kid, Cell)]))
    return list(found)


def mapped(tree, change):
    """The tree with `change` of each cell in its place; where it gives None, a number stands there."""
    if tree[0] == "cell":
        cell = change(tree[1])
        return ("cell", cell) if cell is not None else ("whole",)
    return tuple(mapped(it, change) if isinstance(it, tuple) and not isinstance(it, Cell) else it for it in tree)


def walk(items, around=()):
    """Each statement with the loops and guards around it, in the order of the text."""
    for it in items:
        if isinstance(it, Statement):
            yield it, around
        else:
            yield from walk(it.body, around + (it,))


def nodes(items):
    """Loops, guards and statements, outer ones first."""
    for it in items:
        yield it
        if not isinstance(it, Statement):
            yield from nodes(it.body)


def put_in(items, name, form):
    """New items with `form` in the place of `name`."""
    made = []
    for it in items:
        if isinstance(it, Statement):
            change = lambda cell: Cell(cell.key, tuple(sub.put(name, form) for sub in cell.subs))
            made.append(Statement(change(it.target), mapped(it.tree, change), it.said, it.line, it.start))
        elif isinstance(it, Guard):
            made.append(Guard([(op, row.put(name, form)) for op, row in it.rows], put_in(it.body, name, form)))
        else:
            made.append(Loop(it.name, it.first.put(name, form), it.last.put(name, form), it.upward, put_in(it.body, name, form), it.line))
    return made
