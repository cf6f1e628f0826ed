"""Polynomials over names, with exact numbers: the counts that bounds consist of."""

import ast
import math
import re
from fractions import Fraction

from iolb.command import Fault


def power_sum(exponent):
    """The numbers of a polynomial in x, the constant first, whose difference f(x) - f(x - 1) is x^exponent."""
    result = [Fraction(0)] * (exponent + 2)
    result[exponent + 1] = Fraction(1)
    for lower in range(exponent):
        times = math.comb(exponent + 1, lower) * (-1) ** (exponent + 1 - lower)
        for place, number in enumerate(power_sum(lower)):
            result[place] += times * number
    return [number / (exponent + 1) for number in result]


class Polynomial:
    """A sum of monomials: for the exponents of names, as sorted pairs, a number other than 0."""

    def __init__(self, terms=()):
        self.terms = {key: Fraction(number) for key, number in dict(terms).items() if number}

    @classmethod
    def constant(cls, number):
        return cls({(): number})

    @classmethod
    def named(cls, name):
        return cls({((name, 1),): 1})

    @classmethod
    def of(cls, text):
        """The polynomial that a text such as `(N^2 + N)/2` says; a fault where it says none."""
        names = re.sub(r"[A-Za-z_]\w*", r"n_\g<0>", text).replace("^", "**")
        try:
            return of_tree(ast.parse(names.strip(), mode="eval").body)
        except (SyntaxError, ValueError) as why:
            raise Fault("%s isn't a polynomial" % text) from why

    def __eq__(self, other):
        return isinstance(other, Polynomial) and self.terms == other.terms

    def __hash__(self):
        return hash(frozenset(self.terms.items()))

    def __add__(self, other):
        return Polynomial({key: self.terms.get(key, 0) + other.terms.get(key, 0) for key in {*self.terms, *other.terms}})

    def __neg__(self):
        return Polynomial({key: -number for key, number in self.terms.items()})

    def __sub__(self, other):
        return self + -other

    def __mul__(self, other):
        result = Polynomial()
        for key, number in self.terms.items():
            result += Polynomial({joined(key, more): number * times for more, times in other.terms.items()})
        return result

    def __pow__(self, exponent):
        result = Polynomial.constant(1)
        for _ in range(exponent):
            result *= self
        return result

    def names(self):
        return sorted({name for key in self.terms for name, _ in key})

    def degree(self):
        return max((sum(power for _, power in key) for key in self.terms), default=0)

    def leading(self):
        """The monomials of the greatest degree."""
        return Polynomial({key: number for key, number in self.terms.items() if sum(power for _, power in key) == self.degree()})

    def value(self, sizes):
        """What it comes to at sizes by name; a fault where a name has no size."""
        missing = [name for name in self.names() if name not in sizes]
        if missing:
            raise Fault("%s has no size" % missing[0])
        return sum((number * math.prod(Fraction(sizes[name]) ** power for name, power in key) for key, number in self.terms.items()), Fraction(0))

    def put(self, name, other):
        """The polynomial with another one for a name."""
        result = Polynomial()
        for key, number in self.terms.items():
            rest = tuple(it for it in key if it[0] != name)
            result += Polynomial({rest: number}) * other ** dict(key).get(name, 0)
        return result

    def summed(self, name, lower, upper):
        """The sum over a name from one polynomial to another, where the second is at least the first less 1."""
        total = Polynomial()
        for key, number in self.terms.items():
            rest = Polynomial({tuple(it for it in key if it[0] != name): number})
            powers = {((name, place),) if place else (): more for place, more in enumerate(power_sum(dict(key).get(name, 0)))}
            total += rest * Polynomial(powers)
        return total.put(name, upper) - total.put(name, lower - Polynomial.constant(1))

    def ordered(self):
        """Its monomials, those of great degree first, and its common denominator."""
        den = math.lcm(1, *(number.denominator for number in self.terms.values()))
        order = sorted(self.terms.items(), key=lambda it: (-sum(power for _, power in it[0]), [(name, -power) for name, power in it[0]]))
        return [(key, int(number * den)) for key, number in order], den

    def written(self, power="^", times="*", name=str):
        """A text of it: `(N^2 + N)/2`; with another sign of powers and of products, and names as a function writes them."""
        monomials, den = self.ordered()
        text = ""
        for key, number in monomials:
            factors = [name(it) if by == 1 else "%s%s%d" % (name(it), power, by) for it, by in key]
            size = [] if abs(number) == 1 and factors else [str(abs(number))]
            text += (" - " if number < 0 else " + ") + times.join(size + factors)
        text = (("-" if text.startswith(" - ") else "") + text[3:]) or "0"
        return text if den == 1 else "%s/%d" % ("(%s)" % text if len(monomials) > 1 else text, den)

    def __str__(self):
        return self.written()

    def __repr__(self):
        return "Polynomial.of(%r)" % str(self)


def joined(one, other):
    """The exponents of a product of two monomials."""
    result = dict(one)
    for name, power in other:
        result[name] = result.get(name, 0) + power
    return tuple(sorted(it for it in result.items() if it[1]))


def of_tree(tree):
    """The polynomial of a parsed expression."""
    if isinstance(tree, ast.Constant) and isinstance(tree.value, int):
        return Polynomial.constant(tree.value)
    if isinstance(tree, ast.Name):
        return Polynomial.named(tree.id[2:])
    if isinstance(tree, ast.UnaryOp) and isinstance(tree.op, (ast.USub, ast.UAdd)):
        return -of_tree(tree.operand) if isinstance(tree.op, ast.USub) else of_tree(tree.operand)
    if isinstance(tree, ast.BinOp):
        return of_operation(tree)
    raise ValueError("no polynomial")


def of_operation(tree):
    left, right = of_tree(tree.left), of_tree(tree.right)
    if isinstance(tree.op, ast.Add):
        return left + right
    if isinstance(tree.op, ast.Sub):
        return left - right
    if isinstance(tree.op, ast.Mult):
        return left * right
    number = right.terms.get((), Fraction(0))
    if set(right.terms) == {()} and isinstance(tree.op, ast.Div):
        return left * Polynomial.constant(1 / number)
    if set(right.terms) <= {()} and isinstance(tree.op, ast.Pow) and number.denominator == 1 and 0 <= number <= 64:
        return left ** int(number)
    raise ValueError("no polynomial")
