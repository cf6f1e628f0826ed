"""Bounds as `iolb` prints them: branches and terms, with exact values, leading terms and formulas."""

import json
import math
import re
from dataclasses import dataclass
from fractions import Fraction

from iolb.command import Fault
from iolb.polynomials import Polynomial

STRETCHES = re.compile(r"count (.*) credits (.*) T (\d+)\*S \+ (\d+) U\^(\d+)\*(\d+) <= (\d+)\*\(S \+ T\)\^(\d+)")
SWEEPS = re.compile(r"(.*) - S\*\((.*)\)")


def whole_root(number, degree):
    """The greatest whole number whose power of this degree is at most a number."""
    if degree == 1:
        return number
    if degree == 2:
        return math.isqrt(number)
    low, high = 0, 1 << (number.bit_length() // degree + 1)
    while high - low > 1:
        middle = (low + high) // 2
        low, high = (middle, high) if middle**degree <= number else (low, middle)
    return low


@dataclass(frozen=True)
class Cold:
    """Inputs that differ: each is loaded once. Their count is a polynomial over the parameters."""

    count: Polynomial
    kind = "cold"

    def value(self, memory, sizes):
        return int(self.count.value(sizes))

    def text(self):
        return str(self.count)

    def latex(self):
        return latex_of(self.count)

    def sympy(self):
        return sympy_of(self.count)

    def facts(self):
        return {"kind": self.kind, "count": str(self.count)}


@dataclass(frozen=True)
class Wavefront:
    """Words that a computation in between drives out: their count less S for each point of the outer variables, or 0."""

    count: Polynomial
    outer: Polynomial
    kind = "wavefront"

    def value(self, memory, sizes):
        return max(0, int(self.count.value(sizes) - memory * self.outer.value(sizes)))

    def text(self):
        return "max(0, %s - S*(%s))" % (self.count, self.outer)

    def latex(self):
        return r"\max\left(0,\ %s - S\left(%s\right)\right)" % (latex_of(self.count), latex_of(self.outer))

    def sympy(self):
        return "Max(0, %s - S*(%s))" % (sympy_of(self.count), sympy_of(self.outer))

    def facts(self):
        return {"kind": self.kind, "count": str(self.count), "outer": str(self.outer)}


@dataclass(frozen=True)
class Stretches:
    """A partition or a joint term: T*floor((count - 1)/U) less credits, or 0, where T = a*S + b and U^q*den <= num*(S + T)^m."""

    kind: str
    count: Polynomial
    credits: Polynomial
    a: int
    b: int
    q: int
    den: int
    num: int
    m: int

    def stretch(self, memory):
        """T, a stretch's loads."""
        return self.a * memory + self.b

    def most(self, memory):
        """U, the points that a stretch computes at most, one at least."""
        return max(1, whole_root(self.num * (memory + self.stretch(memory)) ** self.m // self.den, self.q))

    def value(self, memory, sizes):
        stretches = int(self.count.value(sizes) - 1) // self.most(memory)
        return max(0, self.stretch(memory) * stretches - int(self.credits.value(sizes)))

    def factor(self):
        """What stands under the root of degree q in the leading term, which is the count times this root over S^(m/q - 1)."""
        return Fraction(self.a**self.q * self.den, self.num * (1 + self.a) ** self.m), self.q, Fraction(self.m, self.q) - 1

    def leading(self):
        return scaled(self.count.leading(), *self.factor())

    def text(self):
        stretch, most = self.parts("%d*S")
        worth = "(%s)*floor((%s - 1)/U)" % (stretch, bracketed(self.count))
        return "max(0, %s%s) with U = %s" % (worth, "" if not self.credits.terms else " - (%s)" % self.credits, most)

    def parts(self, times):
        """T and U as texts."""
        stretch = "S" if self.a == 1 else times % self.a
        stretch += " + %d" % self.b if self.b else ""
        whole = (self.a + 1, self.b)
        within = "%d*S%s" % (whole[0], " + %d" % self.b if self.b else "")
        inside = ("%d*" % self.num if self.num != 1 else "") + ("(%s)" % within + ("^%d" % self.m if self.m != 1 else ""))
        inside = inside + ("/%d" % self.den if self.den != 1 else "")
        root = {1: "floor(%s)", 2: "floor(sqrt(%s))"}.get(self.q, "floor((%%s)^(1/%d))" % self.q)
        return stretch, root % inside

    def latex(self):
        within = "%d\\,S%s" % (self.a + 1, " + %d" % self.b if self.b else "")
        power = r"\frac{%s\left(%s\right)^{%d}}{%d}" % ("%d" % self.num if self.num != 1 else "", within, self.m, self.den)
        power = power if self.den != 1 else r"%s\left(%s\right)^{%d}" % ("%d" % self.num if self.num != 1 else "", within, self.m)
        root = power if self.q == 1 else r"\sqrt%s{%s}" % ("" if self.q == 2 else "[%d]" % self.q, power)
        credits = " - \\left(%s\\right)" % latex_of(self.credits) if self.credits.terms else ""
        stretch = "%sS%s" % ("" if self.a == 1 else self.a, " + %d" % self.b if self.b else "")
        stretch = r"\left(%s\right)" % stretch if self.b else stretch
        stretches = r"\left\lfloor\frac{%s - 1}{\left\lfloor %s\right\rfloor}\right\rfloor" % (latex_of(self.count), root)
        return r"\max\left(0,\ %s%s%s\right)" % (stretch, stretches, credits)

    def sympy(self):
        stretch, whole = ("(%d*S + %d)" % it if it[1] else "%d*S" % it[0] for it in ((self.a, self.b), (self.a + 1, self.b)))
        most = "floor(%d*(%s)**%d/Integer(%d))" % (self.num, whole, self.m, self.den)
        most = "Max(1, %s)" % (most if self.q == 1 else "floor(root(%s, %d))" % (most, self.q))
        return "Max(0, %s*floor((%s - 1)/%s) - %s)" % (stretch, sympy_of(self.count), most, sympy_of(self.credits))

    def facts(self):
        numbers = {name: getattr(self, name) for name in ("a", "b", "q", "den", "num", "m")}
        return {"kind": self.kind, "count": str(self.count), "credits": str(self.credits), **numbers}


def exact_root(number, degree):
    """The root of a fraction, or None where it is no fraction."""
    parts = [whole_root(it, degree) for it in (number.numerator, number.denominator)]
    return Fraction(*parts) if [it**degree for it in parts] == [number.numerator, number.denominator] else None


def scaled(count, under, degree, power):
    """A count times the root of a fraction, over a power of S, as a text."""
    root = exact_root(under, degree)
    below = {Fraction(0): "", Fraction(1, 2): "/sqrt(S)", Fraction(1): "/S"}.get(power, "/S^(%s)" % power)
    if root is None:
        return "(%s)^(1/%d)*%s%s" % (under, degree, bracketed(count), below)
    front = str(count * Polynomial.constant(root))
    return ("(%s)" % front if below and re.search(r".[-+/]", front) else front) + below


def bracketed(polynomial):
    text = str(polynomial)
    return "(%s)" % text if len(polynomial.terms) > 1 and not text.startswith("(") else text


def latex_of(polynomial):
    monomials, den = polynomial.ordered()
    top = Polynomial({key: number for key, number in monomials})
    body = re.sub(r"\^(\d+)", r"^{\1}", top.written(times=r"\,", name=latex_name))
    return body if den == 1 else r"\frac{%s}{%d}" % (body, den)


def latex_name(name):
    return name if len(name) == 1 else r"\mathit{%s}" % name.replace("_", r"\_")


def sympy_of(polynomial):
    monomials, den = polynomial.ordered()
    body = Polynomial({key: number for key, number in monomials}).written(power="**")
    return "(%s)" % body if den == 1 else "(%s)/Integer(%d)" % (body, den)


def term_of(line):
    """The term that a line of a bound says."""
    kind, _, rest = line.strip().partition(" ")
    if kind == "cold":
        return Cold(Polynomial.of(rest))
    sweeps, stretches = SWEEPS.fullmatch(rest), STRETCHES.fullmatch(rest)
    if kind == "wavefront" and sweeps:
        return Wavefront(*map(Polynomial.of, sweeps.groups()))
    if kind in ("partition", "joint") and stretches:
        count, credits, *numbers = stretches.groups()
        return Stretches(kind, Polynomial.of(count), Polynomial.of(credits), *map(int, numbers))
    raise Fault("%s isn't a line of a bound" % line.strip())


@dataclass(frozen=True)
class Branch:
    """A sum of terms."""

    terms: tuple

    def value(self, memory, sizes):
        return sum(term.value(memory, sizes) for term in self.terms)

    def leading(self):
        """What it comes to where the parameters are great, and S too but far below them: terms with S, and the greatest without."""
        plain, roots = Polynomial(), {}
        for term in self.terms:
            if isinstance(term, Stretches):
                roots[term.factor()] = roots.get(term.factor(), Polynomial()) + term.count.leading()
            else:
                plain += term.count
        found = [scaled(count, *factor) for factor, count in roots.items()]
        return " + ".join(found + ([str(plain.leading())] if plain.degree() or not found else []))

    def sympy(self):
        return " + ".join(term.sympy() for term in self.terms) or "Integer(0)"

    def latex(self):
        return " + ".join(term.latex() for term in self.terms) or "0"

    def text(self):
        return " + ".join(term.text() for term in self.terms) or "0"


@dataclass(frozen=True)
class Bound:
    """What `iolb bound` or `iolb check` printed: assumptions, forms that are at least 0, and branches, of which the greatest counts."""

    assumptions: tuple
    branches: tuple

    @classmethod
    def of(cls, text):
        """The bound of a printed text; a fault where a line is none of a bound."""
        assumptions, branches = [], []
        for line in filter(str.strip, text.splitlines()):
            if line.startswith("assume "):
                assumptions.append(Polynomial.of(line[7:].removesuffix(">= 0")))
            elif re.fullmatch(r"branch \d+", line):
                branches.append([])
            elif line.startswith("  ") and branches:
                branches[-1].append(term_of(line))
            elif not re.fullmatch(r"branches \d+", line):
                raise Fault("%s isn't a line of a bound" % line)
        return cls(tuple(assumptions), tuple(Branch(tuple(it)) for it in branches))

    def parameters(self):
        polynomials = [*self.assumptions]
        for term in (it for branch in self.branches for it in branch.terms):
            polynomials += [getattr(term, name) for name in ("count", "credits", "outer") if hasattr(term, name)]
        return sorted({name for it in polynomials for name in it.names()})

    def meant(self, memory, sizes):
        """Faults where S isn't a number of words, a parameter has no size, or an assumption isn't met."""
        if memory < 1:
            raise Fault("S is at least 1, and %s isn't" % memory)
        for name in self.parameters():
            if name not in sizes:
                raise Fault("%s has no size: give %s=.." % (name, name))
        for form in self.assumptions:
            if form.value(sizes) < 0:
                raise Fault("%s >= 0 is assumed, and isn't so at these sizes" % form)

    def values(self, memory, sizes):
        """The value of each branch with so many words of fast memory, at sizes by name."""
        self.meant(memory, sizes)
        return [branch.value(memory, sizes) for branch in self.branches]

    def value(self, memory, sizes):
        """The bound: no execution loads fewer words."""
        return max(self.values(memory, sizes), default=0)

    def winner(self, memory, sizes):
        """The number of the branch that is greatest, the first of these, or None."""
        values = self.values(memory, sizes)
        return values.index(max(values)) if values else None

    def table(self, memories, sizes):
        """For each number of words a row: S, the bound, the branch that wins, and each branch's value."""
        rows = []
        for memory in memories:
            values = self.values(memory, sizes)
            rows.append({"S": memory, "bound": max(values, default=0), "branch": self.winner(memory, sizes), "branches": values})
        return rows

    def formula(self, form="text"):
        """The bound as a formula: `text`, `latex`, `sympy` (a text that SymPy reads and that has the exact value) or `json`."""
        if form == "json":
            return json.dumps({"assume": [str(it) for it in self.assumptions], "branches": [[term.facts() for term in it.terms] for it in self.branches]})
        if form not in ("text", "latex", "sympy"):
            raise Fault("a formula is text, latex, sympy or json, and %s isn't" % form)
        parts = [getattr(branch, form)() for branch in self.branches]
        if form == "latex":
            return r"\max\left(%s\right)" % r",\ ".join(parts) if len(parts) > 1 else "".join(parts) or "0"
        if form == "sympy":
            return "Max(%s)" % ", ".join(parts) if len(parts) > 1 else "".join(parts) or "Integer(0)"
        return "\n".join("branch %d: %s" % it for it in enumerate(parts)) or "0"
