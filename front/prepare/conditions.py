"""Conditions as rows: each becomes lists of rows of which exactly one holds where the condition does, and such lists for its contrary."""

from .forms import Form
from .loops import extremes, joined
from .nest import Pointer

def both(one, other):
    return [left + right for left in one for right in other]


def compared(op, form):
    """Lists of rows for `form op 0`."""
    return {">": [[(">=", form.plus(-1))]], ">=": [[(">=", form)]], "<": [[(">=", (-form).plus(-1))]], "<=": [[(">=", -form)]],
            "==": [[("==", form)]], "!=": [[(">=", form.plus(-1))], [(">=", (-form).plus(-1))]]}[op]


CONTRARY = {"<": ">=", ">=": "<", ">": "<=", "<=": ">", "==": "!=", "!=": "=="}


class Conditions:
    """The part of the reading of a nest that treats conditions."""

    def condition(self, node):
        """(where it holds, where it doesn't), lists of disjoint lists of rows; None where data decide it."""
        if node.kind == "unary" and node.op == "!":
            inner = self.condition(node.kids[0])
            return inner and (inner[1], inner[0])
        if node.kind == "binary" and node.op in ("&&", "||"):
            return self.joined(node)
        if node.kind == "binary" and node.op in CONTRARY:
            return self.comparison(node)
        form = self.integer(node) if node.sort in ("whole", None) else None
        if isinstance(form, Form) and not form.of_sizes() or isinstance(form, Form) and form.is_number():
            return compared("!=", form), compared("==", form)
        if isinstance(form, Form):
            return self.flagged(("form", form), form.text(), form.text() + " isn't 0")
        return self.flag_of(node)

    def joined(self, node):
        left, right = self.condition(node.kids[0]), self.condition(node.kids[1])
        if left is None or right is None:
            return None
        if node.op == "&&":
            return both(left[0], right[0]), left[1] + both(left[0], right[1])
        return left[0] + both(left[1], right[0]), both(left[1], right[1])

    def comparison(self, node):
        left, right = node.kids
        apart = self.without_extremes(node)
        if apart is not None:
            return self.condition(apart)
        if left.sort == "pointer" and right.sort in ("pointer", "array"):
            difference = self.apart(left, right)
        elif left.sort == "pointer" or right.sort == "pointer":
            return self.flag_of(node)
        else:
            one, other = self.integer(left), self.integer(right)
            difference = one - other if isinstance(one, Form) and isinstance(other, Form) else None
        if difference is None:
            return self.flag_of(node)
        return compared(node.op, difference), compared(CONTRARY[node.op], difference)

    def without_extremes(self, node):
        """`i < min(a, b)` as `i < a && i < b`, and its like; None where neither side is such a choice."""
        for side in (0, 1):
            found = extremes(node.kids[side])
            if found is not None and node.op in ("<", "<=", ">", ">="):
                parts = []
                for it in found[1]:
                    kids = [it, node.kids[1]] if side == 0 else [node.kids[0], it]
                    parts.append(joined(node.op, *kids))
                every = (found[0] == "min") == ((node.op[0] == "<") == (side == 1))
                return joined("&&" if every else "||", *parts)
        return None

    def apart(self, left, right):
        """How many elements lie between two addresses into one array; None where that isn't told."""
        one, other = self.pointer(left, quiet=True), self.pointer(right, quiet=True)
        if isinstance(one, Pointer) and isinstance(other, Pointer) and one.key == other.key and one.subs[:-1] == other.subs[:-1]:
            return one.subs[-1] - other.subs[-1]
        return None

    def flag_of(self, node):
        """A condition that the nest doesn't change, as a size that is 0 or 1."""
        if not self.invariant(node):
            return None
        if node.kind == "binary" and node.op == "!=":
            one, other = (self.identity(it) for it in node.kids)
            held, other_way = self.flagged(("==", one, other), *self.words_of(node))
            return other_way, held
        key = ("==", *(self.identity(it) for it in node.kids)) if node.kind == "binary" and node.op == "==" else self.identity(node)
        return self.flagged(key, self.source.spelled(node), "`" + self.source.spelled(node) + "`")

    def words_of(self, node):
        left, right = (self.source.spelled(it) for it in node.kids)
        return f"{left}_is_{right}", f"`{left} == {right}`"

    def flagged(self, key, wanted, said):
        flag = self.sizes.flag(key, said, wanted + "_set")
        return [[(">=", flag.plus(-1))]], [[(">=", -flag)]]
