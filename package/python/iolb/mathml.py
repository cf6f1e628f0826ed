"""Formulas of bounds as MathML, which browsers show without anything else."""

from html import escape

from iolb.bounds import Cold, Wavefront
from iolb.polynomials import Polynomial


def row(*parts):
    return "<mrow>%s</mrow>" % "".join(parts)


def sign(text):
    return "<mo>%s</mo>" % escape(text)


def number(value):
    return "<mn>%d</mn>" % value


def name(text):
    return "<mi>%s</mi>" % escape(text)


def power(base, exponent):
    return base if exponent == 1 else "<msup>%s%s</msup>" % (base, number(exponent))


def fraction(above, below):
    return "<mfrac>%s%s</mfrac>" % (above, below)


def fenced(first, inside, last):
    return row('<mo stretchy="true">%s</mo>' % first, inside, '<mo stretchy="true">%s</mo>' % last)


def root(inside, degree):
    if degree == 1:
        return inside
    return "<msqrt>%s</msqrt>" % inside if degree == 2 else "<mroot>%s%s</mroot>" % (inside, number(degree))


def polynomial(it):
    """A polynomial, as a fraction where its numbers aren't whole."""
    monomials, den = it.ordered()
    parts = []
    for place, (key, times) in enumerate(monomials):
        if place or times < 0:
            parts.append(sign("−" if times < 0 else "+"))
        factors = [power(name(one), by) for one, by in key]
        size = [number(abs(times))] if abs(times) != 1 or not factors else []
        parts.append(row(*[part for both in zip([*size, *factors], [sign("\u2062")] * 9) for part in both][:-1]))
    top = row(*parts) if parts else number(0)
    return top if den == 1 else fraction(top, number(den))


def memory_form(times, plus):
    """A form a*S + b."""
    parts = [] if times == 1 else [number(times)]
    return row(*parts, name("S"), *([sign("+"), number(plus)] if plus else []))


def most(term):
    """U, the points that a stretch of loads computes at most."""
    base = memory_form(term.a + 1, term.b)
    bracketed = base if (term.a + 1, term.b) == (1, 0) or term.m == 1 else fenced("(", base, ")")
    inside = row(*([number(term.num)] if term.num != 1 else []), power(bracketed, term.m))
    return fenced("⌊", root(inside if term.den == 1 else fraction(inside, number(term.den)), term.q), "⌋")


def term(it):
    """A term's value; that it is at least 0 is said in words beside it."""
    if isinstance(it, Cold):
        return polynomial(it.count)
    if isinstance(it, Wavefront):
        return row(polynomial(it.count), sign("−"), name("S"), fenced("(", polynomial(it.outer), ")"))
    stretch = memory_form(it.a, it.b)
    points = polynomial(it.count - Polynomial.constant(1))
    whole = fenced("⌊", fraction(points, most(it)), "⌋")
    credits = [sign("−"), fenced("(", polynomial(it.credits), ")")] if it.credits.terms else []
    return row(fenced("(", stretch, ")") if it.b else stretch, whole, *credits)


def shown(inside):
    return '<math display="block">%s</math>' % inside
