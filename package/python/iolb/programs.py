"""Calls of the two programs: `iolb`, whose answers are proved, and `iolb-explain`, which says them in words."""

import contextlib
import json
import os
import re
import shutil
import subprocess
import tempfile
from dataclasses import dataclass

from iolb.bounds import Bound
from iolb.command import Fault
from iolb.sizes import whole

HERE = os.path.dirname(os.path.realpath(__file__))


def found(name):
    """The path of a program: in the folder that IOLB_BIN names, in the repository's bin/, in PATH, or beside an installed script."""
    named = os.environ.get("IOLB_BIN")
    beside = [os.path.join(HERE, "../../../bin", name), shutil.which(name), os.path.join(HERE, "../../../../bin", name)]
    places = [os.path.join(named, name)] if named else beside
    for path in filter(None, places):
        if os.access(path, os.X_OK):
            return os.path.normpath(path)
    raise Fault("there is no %s in %s" % (name, named or "PATH, nor in bin/: `make` or `make quick` builds it"))


def called(name, *words, statuses=(0,)):
    """What a program printed on both outputs; a fault, with its own line, where it ended with another status."""
    done = subprocess.run([found(name), *map(str, words)], capture_output=True, text=True, errors="replace")
    if done.returncode not in statuses:
        said = (done.stderr.strip() or done.stdout.strip()).splitlines() or ["status %d" % done.returncode]
        raise Fault("%s %s: %s" % (name, words[0] if words else "", said[0]))
    return done.stdout, done.stderr


@contextlib.contextmanager
def kept(text, name):
    """A file with a text, as long as it is needed."""
    with tempfile.TemporaryDirectory() as folder:
        path = os.path.join(folder, name)
        with open(path, "w", encoding="utf-8", newline="") as file:
            file.write(text)
        yield path


def numbers_of(sizes):
    """Sizes by name as whole numbers: texts such as `64K` and numbers such as 1e6 are told."""
    return {name: number_of(size) for name, size in sizes.items()}


def number_of(size):
    """The whole number that a text such as `64KiB/8`, or a number such as 1e6, says."""
    if isinstance(size, str):
        return -whole(size[1:]) if size.startswith("-") else whole(size)
    if int(size) != size:
        raise Fault("%s isn't a whole number" % size)
    return int(size)


@dataclass(frozen=True)
class Made:
    """A bound that `iolb bound` made for a program, with its certificate, which `iolb check` decides about.

    S and sizes are whole numbers, or texts such as `64KiB/8`, `32K` or `1e6`; the sizes of parameters are named: `N=1000`.
    """

    program: str
    certificate: str
    bound: Bound

    def value(self, memory, **sizes):
        """The bound with so many words of fast memory: no execution loads fewer words. Faults where an assumption isn't met."""
        return self.bound.value(number_of(memory), numbers_of(sizes))

    def values(self, memory, **sizes):
        """The value of each branch; the greatest is the bound."""
        return self.bound.values(number_of(memory), numbers_of(sizes))

    def table(self, memories, **sizes):
        """For each number of words a row: `S`, `bound`, the `branch` that wins, and each branch's value in `branches`."""
        return self.bound.table([number_of(it) for it in memories], numbers_of(sizes))

    def formula(self, form="text"):
        """The bound as a formula: `text`, `latex`, `sympy` or `json`."""
        return self.bound.formula(form)

    def leading(self):
        """For each branch its leading term: what it comes to where sizes are great, and S too but far below them."""
        return [branch.leading() for branch in self.bound.branches]

    def expression(self):
        """The bound as an expression of SymPy over S and the parameters, which are positive whole numbers there. It has the
        exact value, where assumptions are met."""
        import sympy

        names = {name: sympy.Symbol(name, integer=True, positive=True) for name in ("S", *self.bound.parameters())}
        return sympy.sympify(self.bound.formula("sympy"), locals=names)

    def plot(self, memories, schedules=(), axes=None, **sizes):
        """Draws the bound, and the loads of schedules, which are paths of files, over S, into axes of matplotlib, which it gives."""
        from iolb.plots import drawn

        return drawn(self, [number_of(it) for it in memories], schedules, axes, numbers_of(sizes))

    def _repr_latex_(self):
        """What notebooks show."""
        return "$\\displaystyle %s$" % self.formula("latex")

    def checked(self):
        """What `iolb check` prints of the certificate, where it accepts it: the bound once more."""
        with kept(self.program, "program.c") as path, kept(self.certificate, "made.json") as made:
            return called("iolb", "check", path, made)[0]

    def words(self):
        """The bound in words, term by term."""
        with kept(self.program, "program.c") as path, kept(self.certificate, "made.json") as made:
            return called("iolb-explain", "bound", path, made)[0]

    def compared(self, schedules, memories, sizes):
        """The rows of schedules' plays beside the bound: S, bound, loads, stores, over, schedule, as `compare json` says."""
        given = ["%s=%d" % it for it in sizes.items()]
        with kept(self.program, "program.c") as path, kept(self.certificate, "made.json") as made:
            words = ["compare", "json", path, made, *schedules, ",".join(map(str, memories)), *given]
            said, error = called("iolb-explain", *words, statuses=(0, 1))
        rows = [json.loads(line) for line in said.splitlines() if line.startswith("{")]
        if not rows:
            raise Fault((said + error).replace(path, "the program").strip() or "the schedules weren't played")
        return rows


def bound(program):
    """The bound of a program, which is the text of a C file; a fault, in words, where it isn't read."""
    with kept(program, "program.c") as path:
        certificate, printed = called("iolb", "bound", path, statuses=(0, 3))
        if not certificate:
            raise Fault(called("iolb-explain", "program", path, statuses=(1,))[0].strip().replace(path, "program.c"))
    return Made(program, certificate, Bound.of(printed))


@dataclass(frozen=True)
class Read:
    """A read of a statement: its line and column, counted from 1, and its text."""

    line: int
    column: int
    text: str


@dataclass(frozen=True)
class Statement:
    """A statement: its line and column, the cell that it writes, the names of its loops, and its reads."""

    line: int
    column: int
    writes: str
    loops: tuple
    reads: tuple


@dataclass(frozen=True)
class Listing:
    """What a program consists of: parameters, assumptions, statements, and warnings of what keeps bounds from being found."""

    parameters: tuple
    assumptions: tuple
    statements: tuple
    warnings: str


STATEMENT = re.compile(r"  \d+ at (\d+):(\d+) writes (.*), loops: (.*)")
READ = re.compile(r"    read \d+ at (\d+):(\d+) is (.*)")


def listing(program):
    """What `iolb-explain program` says of a program that is read."""
    with kept(program, "program.c") as path:
        said = called("iolb-explain", "program", path)[0].replace(path, "program.c")
    lines = said.splitlines()
    parameters = next((line[12:] for line in lines if line.startswith("parameters: ")), "none")
    statements, last = [], 0
    for place, line in enumerate(lines):
        one, read = STATEMENT.fullmatch(line), READ.fullmatch(line)
        if one:
            loops = () if one[4] == "none" else tuple(it.split()[0] for it in one[4].split(", "))
            statements.append([int(one[1]), int(one[2]), one[3], loops, []])
        if read:
            statements[-1][4].append(Read(int(read[1]), int(read[2]), read[3]))
        last = place if one or read else last
    assumptions = tuple(line.strip() for line in lines if re.fullmatch(r"  .* >= 0", line))
    made = tuple(Statement(*it[:4], tuple(it[4])) for it in statements)
    names = () if parameters == "none" else tuple(parameters.split(", "))
    return Listing(names, assumptions, made, "\n".join(lines[last + 1 :]).strip())


def reads_counted(certificate):
    """For each branch, for each term, the reads whose words it counts, as pairs of a statement and a read."""
    return [[sorted(reads_of(*next(iter(term.items())))) for term in branch["terms"]] for branch in json.loads(certificate)["branches"]]


def reads_of(kind, term):
    """The reads whose words a term of a certificate counts: a walk of words begins at a read of the term's instances."""
    if kind == "cold":
        return {(term["statement"], term["read"])}
    if kind == "wavefront":
        return {(term["user"]["statement"], term["read"])}
    if kind == "partition":
        return {(term["statement"], read) for family in term["families"] for read in first_reads(family["start"])}
    starts = [zip(term["parts"], family["starts"]) for family in term["families"]]
    return {(part["statement"], read) for pairs in starts for part, start in pairs for read in first_reads(start)}


def first_reads(tree):
    """The reads that a walk's first step goes by."""
    if isinstance(tree, dict):
        here = {tree["read"]} if "read" in tree else set()
        return here.union(*(first_reads(tree[it]) for it in ("tree", "yes", "no") if it in tree))
    return set()
