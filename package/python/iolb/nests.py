"""How often statements run, and how many operations they are: read from the loops of a program that `iolb` reads."""

import re
from dataclasses import dataclass

from iolb.command import Fault
from iolb.polynomials import Polynomial

TOKEN = re.compile(r"[A-Za-z_]\w*|\d[\w.]*|\+\+|--|[-+*/<>=!]=|&&|\S")
ASSIGNING = ("=", "+=", "-=", "*=", "/=")


@dataclass(frozen=True)
class Loop:
    """A loop from one form to another, both included, whichever way it runs."""

    name: str
    lower: Polynomial
    upper: Polynomial


@dataclass(frozen=True)
class Run:
    """A statement: its loops from the outermost on, whether a condition stands around it, and its operations."""

    loops: tuple
    conditional: bool
    operations: int

    def count(self):
        """How many instances there are, where no loop's upper bound is more than one below its lower; None under a condition."""
        if self.conditional:
            return None
        count = Polynomial.constant(1)
        for loop in reversed(self.loops):
            count = count.summed(loop.name, loop.lower, loop.upper)
        return count

    def counted(self, sizes):
        """How many instances there are, one by one: for small sizes."""
        return turns(self.loops, dict(sizes))

    def count_at(self, sizes):
        """How many instances there are at sizes; None where the count's formula doesn't hold of small sizes in the same order."""
        count = self.count()
        order = sorted({*sizes.values()})
        small = {name: 8 + order.index(number) for name, number in sizes.items()}
        if count is None or count.value(small) != self.counted(small):
            return None
        return int(count.value(sizes))


def turns(loops, point):
    """The turns of the innermost of loops together, where outer values are given."""
    if not loops:
        return 1
    first, last = int(loops[0].lower.value(point)), int(loops[0].upper.value(point))
    if len(loops) == 1:
        return max(0, last - first + 1)
    return sum(turns(loops[1:], {**point, loops[0].name: turn}) for turn in range(first, last + 1))


def operations_of(tokens):
    """The operations of an assignment: operators between two operands, the one that it assigns with, and calls; not those of subscripts."""
    plain, depth = [], 0
    for token in tokens:
        depth += token == "["
        if depth == 0:
            plain.append(token)
        depth -= token == "]"
    found, before = 0, "="
    for token, behind in zip(plain, [*plain[1:], ";"]):
        operand = re.match(r"[\w.)]", before)
        found += token in "+-*/" and operand is not None
        found += token in ASSIGNING and token != "="
        found += re.match(r"[A-Za-z_]", token) is not None and behind == "("
        before = token
    return int(found)


class Reader:
    """Reads the loops and the statements between `#pragma scop` and `#pragma endscop`, which `iolb` has read before."""

    def __init__(self, text):
        text = re.sub(r"/\*.*?\*/|//[^\n]*", " ", text, flags=re.S)
        body = text.split("#pragma scop", 1)[1].split("#pragma endscop", 1)[0]
        self.tokens, self.place, self.runs = TOKEN.findall(re.sub(r"(?m)^\s*#[^\n]*", " ", body)), 0, []
        while self.place < len(self.tokens):
            self.item((), False)

    def upto(self, *ends):
        """The tokens before the next of these outside brackets, which is passed."""
        found, depth = [], 0
        while depth or self.tokens[self.place] not in ends:
            token = self.tokens[self.place]
            depth += (token in "([") - (token in ")]")
            found.append(token)
            self.place += 1
        self.place += 1
        return found

    def item(self, loops, conditional):
        token = self.tokens[self.place]
        if token == "{":
            self.place += 1
            while self.tokens[self.place] != "}":
                self.item(loops, conditional)
            self.place += 1
        elif token == "for":
            self.item((*loops, self.loop()), conditional)
        elif token == "if":
            self.place += 2
            self.upto(")")
            self.item(loops, True)
        else:
            tokens = self.upto(";")
            self.runs += [Run(loops, conditional, operations_of(tokens))] if tokens else []

    def loop(self):
        """The loop whose header begins here."""
        self.place += 2
        name = self.upto("=")[-1]
        first = Polynomial.of("".join(self.upto(";")))
        _, sign, *end = self.upto(";")
        self.upto(")")
        last, one = Polynomial.of("".join(end)), Polynomial.constant(1)
        if sign in ("<", "<="):
            return Loop(name, first, last - one if sign == "<" else last)
        return Loop(name, last + one if sign == ">" else last, first)


def runs_of(program):
    """The statements of a program that `iolb` reads, in the order of the text."""
    try:
        return Reader(program).runs
    except (IndexError, ValueError) as why:
        raise Fault("the loops of the program aren't read") from why


def operations_at(runs, sizes, given=None):
    """The operations of all statements at sizes, with their own numbers of operations or those that are given, or None where a
    statement's instances aren't counted. One number may be given for all statements."""
    numbers = given or [run.operations for run in runs]
    numbers = numbers * len(runs) if len(numbers) == 1 else numbers
    if len(numbers) != len(runs):
        raise Fault("there are %d statements, and the operations of %d are given" % (len(runs), len(numbers)))
    counts = [run.count_at(sizes) for run in runs]
    return None if None in counts else sum(count * number for count, number in zip(counts, numbers))
