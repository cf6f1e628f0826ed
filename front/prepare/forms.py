"""Polynomials with integer coefficients over names: of loops (`%number:name`), of values at the head of a loop (`@number:name`), and of sizes."""

from itertools import count

_numbers = count(1)


def fresh(mark, name):
    """A name that no other has; `mark` is `%` for a loop and `@` for a value at the head of one."""
    return f"{mark}{next(_numbers)}:{name}"


def is_loop(name):
    return name.startswith("%")


def is_head(name):
    return name.startswith("@")


def plain(name):
    """The name as it was given."""
    return name.split(":", 1)[1] if name[0] in "%@" else name


class Form:
    """A sum of products: `terms` has the coefficient of each product, a sorted tuple of names."""

    __slots__ = ("terms",)

    def __init__(self, terms=None):
        self.terms = {product: factor for product, factor in (terms or {}).items() if factor}

    @staticmethod
    def number(value):
        return Form({(): value})

    @staticmethod
    def of(name):
        return Form({(name,): 1})

    def __add__(self, other):
        terms = dict(self.terms)
        for product, factor in other.terms.items():
            terms[product] = terms.get(product, 0) + factor
        return Form(terms)

    def __neg__(self):
        return self.times(-1)

    def __sub__(self, other):
        return self + -other

    def __mul__(self, other):
        total = {}
        for left, factor in self.terms.items():
            for right, times in other.terms.items():
                product = tuple(sorted(left + right))
                total[product] = total.get(product, 0) + factor * times
        return Form(total)

    def __eq__(self, other):
        return isinstance(other, Form) and self.terms == other.terms

    def __hash__(self):
        return hash(frozenset(self.terms.items()))

    def times(self, number):
        return Form({product: factor * number for product, factor in self.terms.items()})

    def plus(self, number):
        return self + Form.number(number)

    def constant(self):
        return self.terms.get((), 0)

    def is_number(self):
        return all(product == () for product in self.terms)

    def names(self):
        return {name for product in self.terms for name in product}

    def loops(self):
        return {name for name in self.names() if is_loop(name)}

    def is_affine(self):
        return all(len(product) <= 1 for product in self.terms)

    def of_sizes(self):
        """Whether no loop and no value at the head of a loop is named."""
        return not any(name[0] in "%@" for name in self.names())

    def coefficient(self, name):
        """What multiplies `name`, where it stands once in each product that it stands in; else None."""
        terms = {}
        for product, factor in self.terms.items():
            if product.count(name) > 1:
                return None
            if name in product:
                terms[tuple(it for it in product if it != name)] = factor
        return Form(terms)

    def without(self, name):
        return Form({product: factor for product, factor in self.terms.items() if name not in product})

    def put(self, name, value):
        """This form with `value` in the place of `name`."""
        if name not in self.names():
            return self
        total = Form()
        for product, factor in self.terms.items():
            rest = Form({tuple(it for it in product if it != name): factor})
            for _ in range(product.count(name)):
                rest = rest * value
            total = total + rest
        return total

    def divided(self, number):
        """The quotient where `number` divides each coefficient, else None."""
        if any(factor % number for factor in self.terms.values()):
            return None
        return Form({product: factor // number for product, factor in self.terms.items()})

    def value(self, values):
        """The form's value at `values`, of each name an integer."""
        total = 0
        for product, factor in self.terms.items():
            for name in product:
                factor *= values[name]
            total += factor
        return total

    def text(self, name=plain):
        """The form in C; `name` says what is written for a name."""
        parts = []
        for product, factor in sorted(self.terms.items(), key=lambda it: (not it[0], it[0])):
            names = "*".join(name(it) for it in product)
            size = abs(factor)
            body = names if names and size == 1 else f"{size}*{names}" if names else str(size)
            parts.append((" - " if factor < 0 else " + ") + body)
        whole = "".join(parts)
        return "0" if not parts else "-" + whole[3:] if whole.startswith(" - ") else whole[3:]


ZERO = Form()
ONE = Form.number(1)
