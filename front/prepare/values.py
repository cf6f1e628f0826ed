"""Expressions: whole numbers as forms, addresses as cells and pointers, values as trees of what they read."""

from .forms import Form, ONE, ZERO
from .nest import Cell, Pointer, UNKNOWN, reads_of
from .sizes import words

PURE = set("""sqrt fabs exp log sin cos tan pow abs labs fmin fmax floor ceil atan atan2 asin acos sinh cosh tanh exp2 log2 log10 cbrt hypot
    fma fmod round lround rint lrint nearbyint trunc erf erfc tgamma lgamma copysign expm1 log1p ldexp isnan isinf isfinite signbit llabs
    conj creal cimag cabs carg csqrt cexp toupper tolower isdigit isalpha isspace""".split())
PURE |= {name + end for name in list(PURE) for end in "fl"}


class Data(Exception):
    """A whole variable that was taken for an index holds data: the nest is read again with it as a cell."""

    def __init__(self, key):
        self.key = key


class Values:
    """The part of the reading of a nest that evaluates expressions."""

    def integer(self, node):
        """The form of a whole expression; UNKNOWN where forms don't tell it, None where data decide it."""
        handler = getattr(self, "integer_" + node.kind, None)
        return handler(node) if handler else None

    def integer_number(self, node):
        return Form.number(node.number)

    def integer_cast(self, node):
        return self.integer(node.kids[0]) if node.sort == "whole" and node.kids[0].sort in ("whole", None) else None

    def integer_name(self, node):
        it = node.declaration
        if it.value is not None:
            if it.name not in self.source.constants:
                return Form.number(it.value)
            self.sizes.values[it.name] = it.value
            return self.sizes.size(("constant", it.name), it.name, f"{it.name}, {it.value} here")
        if it.sort != "whole" or it.key in self.data:
            return None
        return self.current(it)

    def integer_unary(self, node):
        if node.op in ("++", "--", "post++", "post--"):
            return self.stepped(node)
        if node.op == "*":
            return self.size_in_memory(node)
        if node.op not in ("-", "+", "~"):
            return None
        form = self.integer(node.kids[0])
        if not isinstance(form, Form):
            return form
        return form if node.op == "+" else -form if node.op == "-" else (-form).plus(-1)

    def stepped(self, node):
        """`i++` and its like on a whole variable that isn't data: the value, and the variable moved."""
        target = node.kids[0]
        if target.kind != "name" or target.sort != "whole" or target.declaration.key in self.data:
            return None
        before = self.current(target.declaration)
        by = ONE if "++" in node.op else -ONE
        after = before + by if isinstance(before, Form) else UNKNOWN
        self.env[target.declaration.key] = after
        return before if node.op.startswith("post") else after

    def integer_binary(self, node):
        left, right = self.integer(node.kids[0]), self.integer(node.kids[1])
        if left is None or right is None:
            return None
        if left is UNKNOWN or right is UNKNOWN:
            return UNKNOWN
        return self.arithmetic(node.op, left, right)

    def arithmetic(self, op, left, right):
        """Two forms joined by an operator of C; UNKNOWN where the result is no form."""
        if op in ("+", "-", "*"):
            return left + right if op == "+" else left - right if op == "-" else left * right
        if not right.is_number():
            return self.opaque(op, left, right)
        number = right.constant()
        if op == "<<" and 0 <= number < 20:
            return left.times(2 ** number)
        if op == ">>" and 0 <= number < 20:
            return self.quotient(left, 2 ** number)
        if op == "/" and number > 0:
            return self.quotient(left, number)
        if op == "%" and number > 0:
            quotient = self.quotient(left, number)
            return left - quotient.times(number) if isinstance(quotient, Form) else UNKNOWN
        if op == "&" and number > 0 and (number + 1) & number == 0:
            return self.arithmetic("%", left, right.plus(1))
        if op == "&" and number < 0 and (-number) & (-number - 1) == 0:
            quotient = self.quotient(left, -number)
            return quotient.times(-number) if isinstance(quotient, Form) else UNKNOWN
        return self.opaque(op, left, right)

    def quotient(self, form, number):
        if form.is_number() and form.constant() >= 0:
            return Form.number(form.constant() // number)
        exact = form.divided(number)
        if exact is not None:
            return exact
        return self.sizes.quotient(form, number) if form.of_sizes() else UNKNOWN

    def opaque(self, op, left, right):
        """A size for what an operator makes of sizes."""
        if not (left.of_sizes() and right.of_sizes()):
            return UNKNOWN
        said = f"({left.text()}) {op} ({right.text()})"
        names = {"/": "by", "%": "mod", "<<": "shifted", ">>": "shifted", "&": "and", "|": "or", "^": "xor"}
        if op not in names:
            return None
        return self.sizes.size(("operator", op, left, right), words(f"{left.text()}_{names[op]}_{right.text()}"), said)

    def integer_select(self, node):
        """A choice between sizes on sizes alone is a size; the bounds of loops treat other choices themselves."""
        if self.invariant(node) and not has_effects(node):
            said = self.source.spelled(node)
            return self.sizes.size(("text", self.identity(node)), words(said), said)
        return UNKNOWN if self.condition(node.kids[0]) is not None else None

    def integer_assign(self, node):
        self.assign(node)
        return self.integer(node.kids[0])

    def integer_comma(self, node):
        self.expression(node.kids[0])
        return self.integer(node.kids[1])

    def integer_index(self, node):
        return self.size_in_memory(node)

    def integer_member(self, node):
        return self.size_in_memory(node)

    def integer_call(self, node):
        """A call of a function without effects on sizes is a size; any other is data."""
        if node.sort != "whole" or not self.effect_free(node) or not all(self.invariant(it) for it in node.kids[1:]):
            return None
        said = self.source.spelled(node)
        return self.sizes.size(("text", self.identity(node)), words(said), said)

    def size_in_memory(self, node):
        """A whole number in memory that the nest doesn't write, at an address that doesn't change."""
        if node.sort != "whole":
            return None
        cell = self.cell(node, quiet=True)
        if cell is None or not all(isinstance(it, Form) and it.of_sizes() for it in cell.subs):
            return None
        if cell.key in self.written:
            return None
        said = self.source.spelled(node)
        made = self.sizes.size(("cell", cell), words(said.lstrip("*")), said)
        self.sizes.cells[made.text()] = (cell, node.start)
        return made

    def invariant(self, node):
        """Whether an expression has one value while the nest runs, so far as its names and cells say."""
        for it in node.walk():
            if it.kind == "name" and not it.declaration.is_function and it.declaration.value is None:
                if it.declaration.key in self.assigned or it.declaration.key in self.env or it.sort == "array":
                    return False
                if (it.declaration,) in self.written:
                    return False
            elif it.kind in ("index", "member") or it.kind == "unary" and it.op == "*":
                cell = self.cell(it, quiet=True)
                if cell is None or cell.key in self.written or not all(isinstance(sub, Form) and sub.of_sizes() for sub in cell.subs):
                    return False
            elif it.kind == "call" and not self.effect_free(it):
                return False
            elif it.kind in ("unknown", "assign", "union", "string") or it.kind == "unary" and it.op in ("++", "--", "post++", "post--", "&"):
                return False
        return True

    def identity(self, node):
        """What two expressions have in common that say the same: their words, with the declarations of their names."""
        return (node.kind, node.op, node.number, node.name, node.declaration.key if node.declaration else None,
                self.source.spelled(node) if node.kind in ("real", "unknown") else "", tuple(self.identity(it) for it in node.kids))

    def cell(self, node, quiet=False):
        """The cell of an expression that names one; None, and an obstacle unless `quiet`, where it isn't told."""
        handler = getattr(self, "cell_" + node.kind, None)
        if handler is None:
            return self.refuse(node, "what is read or written isn't a cell that is named", quiet)
        return handler(node, quiet)

    def cell_name(self, node, quiet):
        if node.declaration.sort == "union":
            return self.refuse(node, "a union", quiet)
        return Cell((node.declaration,), ())

    def cell_cast(self, node, quiet):
        return self.cell(node.kids[0], quiet)

    def cell_index(self, node, quiet):
        base, index = node.kids
        if base.sort == "whole":
            base, index = index, base
        return self.at(node, self.pointer(base, quiet), index, quiet)

    def cell_unary(self, node, quiet):
        if node.op != "*":
            return self.refuse(node, "what is read or written isn't a cell that is named", quiet)
        address = self.pointer(node.kids[0], quiet)
        if address is UNKNOWN:
            return self.refuse(node, "an address that isn't told by the loops", quiet)
        return Cell(address.key, address.subs)

    def cell_member(self, node, quiet):
        if node.op == "->":
            address = self.pointer(node.kids[0], quiet)
            if address is UNKNOWN:
                return self.refuse(node, "an address that isn't told by the loops", quiet)
            return Cell(address.key + (node.name,), address.subs)
        owner = self.cell(node.kids[0], quiet)
        return None if owner is None else Cell(owner.key + (node.name,), owner.subs)

    def cell_union(self, node, quiet):
        return self.refuse(node, "a member of a union", quiet)

    def at(self, node, address, index, quiet):
        """The cell `index` behind an address."""
        form = self.integer(index)
        if form is None:
            if self.parts and not quiet:
                self.kept_reads += reads_of(self.value(index))
                return self.somewhere(node, address)
            return self.refuse(index, "indirect subscript: data decide it", quiet)
        if form is UNKNOWN:
            return self.refuse(index, "subscript by a value that the loops don't tell", quiet)
        if address is UNKNOWN:
            return self.refuse(node, "an address that isn't told by the loops", quiet)
        moved = address.moved(form)
        return Cell(moved.key, moved.subs)

    def somewhere(self, node, address):
        """Part of a graph: of a cell whose subscript is data only the array is known."""
        if address is UNKNOWN:
            return self.refuse(node, "an address that isn't told by the loops")
        self.loose.add(address.key)
        return Cell(address.key, None)

    def pointer(self, node, quiet=False):
        """The address that an expression of a pointer or an array says."""
        handler = getattr(self, "pointer_" + node.kind, None)
        return handler(node, quiet) if handler else UNKNOWN

    def pointer_name(self, node, quiet):
        it = node.declaration
        if it.sort == "array":
            return Pointer((it,), (ZERO,))
        return self.current(it) if it.sort == "pointer" else UNKNOWN

    def pointer_loaded(self, node, quiet):
        cell = self.cell(node, quiet)
        if cell is None or cell.subs is None:
            return UNKNOWN
        return Pointer(cell.key, cell.subs + (ZERO,))

    pointer_index = pointer_member = pointer_loaded

    def pointer_unary(self, node, quiet):
        if node.op == "*":
            return self.pointer_loaded(node, quiet)
        if node.op == "&":
            return self.address_of(node.kids[0], quiet)
        target = node.kids[0]
        if target.kind != "name" or node.op not in ("++", "--", "post++", "post--"):
            return UNKNOWN
        before = self.current(target.declaration)
        after = before.moved(ONE if "++" in node.op else -ONE) if isinstance(before, Pointer) else UNKNOWN
        self.env[target.declaration.key] = after
        return before if node.op.startswith("post") else after

    def address_of(self, node, quiet):
        cell = self.cell(node, quiet)
        if cell is None or cell.subs is None:
            return UNKNOWN
        if node.kind == "index" or node.kind == "unary" and node.op == "*":
            if len(cell.subs) > 1:
                self.walked.setdefault(cell.key, node.start)
            return Pointer(cell.key, cell.subs)
        return Pointer(cell.key, cell.subs + (ZERO,))

    def pointer_binary(self, node, quiet):
        left, right = node.kids
        if node.op not in ("+", "-"):
            return UNKNOWN
        if left.sort == "whole":
            left, right = right, left
        address, form = self.pointer(left, quiet), self.integer(right)
        if address is UNKNOWN or not isinstance(form, Form):
            return UNKNOWN
        return address.moved(form if node.op == "+" else -form)

    def pointer_cast(self, node, quiet):
        inner = node.kids[0]
        if inner.element is None or node.element is None:
            return UNKNOWN
        if inner.element[0] == node.element[0] or "void" in (inner.element[0], node.element[0]):
            return self.pointer(inner, quiet)
        self.refuse(node, f"a cast from {inner.element[0]} * to {node.element[0]} *", quiet)
        return UNKNOWN

    def pointer_assign(self, node, quiet):
        self.assign(node)
        return self.pointer(node.kids[0], quiet)

    def pointer_comma(self, node, quiet):
        self.expression(node.kids[0])
        return self.pointer(node.kids[1], quiet)

    def value(self, node):
        """The tree of a value: ("cell", cell), ("number", text), ("operator", op, left, right), ("call", name, tree, ..), ("whole",)."""
        handler = getattr(self, "value_" + node.kind, None)
        if handler is None:
            self.refuse(node, {"string": "a string", "list": "a list of values"}.get(node.kind, "an expression that isn't read"))
            return ("whole",)
        return handler(node)

    def value_number(self, node):
        return ("number", str(node.number))

    def value_real(self, node):
        text = self.source.spelled(node).rstrip("fFlLiI")
        return ("number", text if text.replace(".", "", 1).isdigit() and text[0] != "." and text[-1] != "." else "1.0")

    def value_name(self, node):
        it = node.declaration
        if it.is_function or it.value is not None:
            return ("whole",)
        if it.sort == "whole" and it.key not in self.data and (it.key in self.env or it.key in self.assigned):
            return ("whole",)
        if it.sort in ("pointer", "array"):
            self.refuse(node, "an address in a value")
        return ("cell", Cell((it,), ()))

    def value_cell(self, node):
        if node.sort in ("pointer", "array"):
            self.refuse(node, "an address in a value")
            return ("whole",)
        cell = self.cell(node)
        if cell is None:
            return ("whole",)
        if cell.subs is None:
            return ("call", "f", *[("cell", it) for it in self.taken_reads()])
        return ("cell", cell)

    value_index = value_member = value_union = value_cell

    def taken_reads(self):
        kept, self.kept_reads = self.kept_reads, []
        return kept

    def value_unary(self, node):
        if node.op == "*":
            return self.value_cell(node)
        if node.op == "&":
            self.refuse(node, "an address is taken")
            return ("whole",)
        if node.op not in ("++", "--", "post++", "post--"):
            inner = self.value(node.kids[0])
            return ("operator", "-", ("number", "0"), inner) if node.op == "-" else inner if node.op == "+" else ("call", "f", inner)
        if node.kids[0].sort == "pointer" or isinstance(self.integer(node), (Form, type(UNKNOWN))):
            return ("whole",)
        if node.op.startswith("post"):
            self.later.append(node)
            return self.value(node.kids[0])
        self.count(node)
        return self.value(node.kids[0])

    def value_binary(self, node):
        if node.op in ("&&", "||"):
            left = self.value(node.kids[0])
            self.left_out(node.kids[1])
            return ("call", "f", left)
        if node.kids[0].sort in ("pointer", "array") or node.kids[1].sort in ("pointer", "array"):
            if self.pointer(node.kids[0]) is UNKNOWN or self.pointer(node.kids[1]) is UNKNOWN:
                self.refuse(node, "an address in a value")
            return ("whole",)
        left, right = self.value(node.kids[0]), self.value(node.kids[1])
        if node.op in ("+", "-", "*", "/"):
            return ("operator", node.op, left, right)
        return ("call", "f", left, right)

    def left_out(self, node):
        """An operand that isn't evaluated in every case: what it reads isn't counted, and effects in it are refused."""
        if has_effects(node) or any(it.kind == "call" and not self.effect_free(it) for it in node.walk()):
            self.refuse(node, "an effect in an operand that isn't always evaluated")
            return []
        reads = reads_of(self.value(node))
        if reads:
            self.partial.append((self.source.line(node.start), self.source.spelled(node)))
        return reads

    def value_select(self, node):
        """What is read in any case: by the condition and by both arms."""
        chosen, (one, other) = self.value(node.kids[0]), node.kids[1:]
        kept = len(self.partial)
        first, second = self.left_out(one), self.left_out(other)
        common = [it for it in first if it in second]
        sure = reads_of(chosen) + common
        if all(it in sure for it in first + second):
            del self.partial[kept:]
        return ("call", "f", chosen, *[("cell", it) for it in common])

    def value_cast(self, node):
        if node.sort in ("pointer", "record"):
            self.refuse(node, "an address in a value")
            return ("whole",)
        return self.value(node.kids[0])

    def value_assign(self, node):
        self.assign(node)
        return self.value(node.kids[0])

    def value_comma(self, node):
        self.expression(node.kids[0])
        return self.value(node.kids[1])

    def value_call(self, node):
        if not self.effect_free(node, tell=True):
            self.refuse(node, f"a call of {self.source.spelled(node.kids[0]) or 'a function'} in a value")
            return ("whole",)
        return ("call", "f", *[self.value(it) for it in node.kids[1:]])


def has_effects(node):
    return any(it.kind == "assign" or it.kind == "unary" and it.op in ("++", "--", "post++", "post--") for it in node.walk())
