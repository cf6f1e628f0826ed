"""Subscripts within rows: `a[i*lda + j]` becomes `a[i][j]` where j is shown, or assumed, to stay within its row."""

from collections import Counter

from .forms import Form, ZERO, is_loop
from .nest import Loop


class Refused(Exception):
    """Subscripts that don't fall into rows."""


def least(form, around):
    return extreme(form, around, False)


def greatest(form, around):
    return extreme(form, around, True)


def extreme(form, around, most):
    """The least or greatest value of a form over the loops around, a form of sizes; None where it isn't told."""
    for it in reversed(around):
        if not isinstance(it, Loop) or it.name not in form.names():
            continue
        by = form.coefficient(it.name)
        if by is None or not by.is_number():
            return None
        form = form.put(it.name, it.last if ((by.constant() > 0) == most) == it.upward else it.first)
    return form if form.of_sizes() else None


def parts_of(product):
    """A product's loops, and what else it has."""
    return tuple(it for it in product if is_loop(it)), tuple(it for it in product if not is_loop(it))


def strides_of(forms):
    """The products of sizes that multiply loops, the greatest first; each has to be a multiple of the next."""
    found = {sizes for form in forms for product in form.terms for loops, sizes in [parts_of(product)] if loops and sizes}
    if any(len(parts_of(product)[0]) > 1 for form in forms for product in form.terms):
        raise Refused("a product of loops in a subscript")
    chain = sorted(found, key=lambda it: (-len(it), it))
    for one, other in zip(chain, chain[1:]):
        if Counter(other) - Counter(one) or len(one) == len(other):
            raise Refused("strides that don't divide one another")
    return chain + [()]


def quotient(one, other):
    return tuple(sorted((Counter(one) - Counter(other)).elements()))


def taken_apart(form, strides, below):
    """A subscript for each stride; multiples of a stride that no loop moves go to the row below it where `below`."""
    made = [ZERO] * len(strides)
    for product, factor in form.terms.items():
        loops, sizes = parts_of(product)
        if loops:
            made[strides.index(sizes)] += Form({loops: factor})
            continue
        fit = [at for at, stride in enumerate(strides) if not Counter(stride) - Counter(sizes)]
        at = fit[0] + (1 if below and fit[0] + 1 < len(strides) and strides[fit[0]] == sizes else 0)
        made[at] += Form({quotient(sizes, strides[at]): factor})
    return made


def in_rows(uses):
    """Of one column's uses, [(form, around)]: the subscripts of each, and the rows that have to hold: (list of lists, rows)."""
    strides = strides_of([form for form, _ in uses])
    if len(strides) == 1:
        return [[form] for form, _ in uses], []
    made, rows = [], []
    for form, around in uses:
        subs = taken_apart(form, strides, False)
        for sub in subs[1:]:
            most = greatest(sub, around)
            if most is not None and most.is_number() and most.constant() < 0:
                subs = taken_apart(form, strides, True)
        made.append(subs)
    for at in range(1, len(strides)):
        length = Form({quotient(strides[at - 1], strides[at]): 1})
        rows += within([(subs[at], around) for subs, (_, around) in zip(made, uses)], length)
    return made, rows


def within(uses, length):
    """Rows by which every form stays in [shift, shift + length), for one shift."""
    ends = [(least(form, around), greatest(form, around)) for form, around in uses]
    if any(low is None or high is None for low, high in ends):
        raise Refused("a subscript that isn't shown to stay within its row")
    numbers = [low.constant() for low, _ in ends if low.is_number()]
    shift = min(numbers) if numbers and all(low.is_number() for low, _ in ends) else min([0, *numbers])
    rows = []
    for low, high in ends:
        for row in (low.plus(-shift), length.plus(shift - 1) - high):
            if row.is_number() and row.constant() < 0:
                raise Refused("a subscript that leaves its row")
            if not row.is_number():
                rows.append(row)
    return rows
