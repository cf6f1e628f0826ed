"""C that logs what a nest reads and writes: the nest is rewritten, each read and write of a value with its address, and run over
memory of its own. What is address arithmetic alone (`data` says of which whole variables that isn't so) isn't logged."""

from .reading import Type, WHOLE, sort_of
from .values import PURE

# What the rewritten nest calls; it stands in a file of its own, since the nest's file may declare the library in its own way.
HEAD = """extern void rd_(const volatile void *), wr_(const volatile void *), rdv_(long), wrv_(long), size_(const char *, long);
extern void *memory_(unsigned long, unsigned long);
"""
LOG = r"""#include <stdio.h>
#include <stdlib.h>
void rd_(const volatile void *p) { printf("r %ld\n", (long)p); }
void wr_(const volatile void *p) { printf("w %ld\n", (long)p); }
void rdv_(long id) { printf("r v%ld\n", id); }
void wrv_(long id) { printf("w v%ld\n", id); }
void size_(const char *name, long value) { printf("s %s %ld\n", name, value); }
void *memory_(unsigned long count, unsigned long bytes) { return calloc(count, bytes); }
"""


class Unlogged(Exception):
    """An expression that the log can't follow."""


class Logger:
    """Rewrites statements of one nest; `numbers` tells variables apart."""

    def __init__(self, source, lowering):
        self.source, self.lowering, self.numbers, self.inlined, self.given = source, lowering, {}, {}, set()

    def number(self, it):
        return self.numbers.setdefault(it, len(self.numbers) + 1)

    def is_index(self, it):
        """Whether a variable is address arithmetic."""
        return it.sort == "pointer" or it.sort == "whole" and it.key not in self.lowering.data and (it.key in self.lowering.assigned or it in self.given)

    def around(self, node, rewritten):
        """The node's text with its kids' new texts in their places."""
        text, at = [], node.start
        for kid, new in rewritten:
            text += [self.source.whole[at:kid.start], new]
            at = kid.end
        return "".join(text) + self.source.whole[at:node.end]

    def plain(self, node):
        return self.source.whole[node.start:node.end]

    def statement(self, node):
        if node.kind in ("block", "if", "for", "while", "do"):
            kids = [it for it in node.kids if it is not None]
            conditions = {"if": kids[:1], "while": kids[:1], "for": kids[:-1], "do": kids[1:], "block": []}[node.kind]
            return self.around(node, [(it, self.plain(it) if it in conditions else self.statement(it)) for it in kids])
        if node.kind == "declare":
            return self.around(node, [(it, self.declared(it)) for it in node.kids])
        if node.kind == "call":
            return self.call(node)
        if node.kind == "comma":
            return self.around(node, [(it, self.statement(it)) for it in node.kids])
        return self.effect(node) if node.kind in ("assign", "unary") else self.plain(node)

    def declared(self, node):
        if not node.kids or self.is_index(node.declaration):
            return self.plain(node)
        given = node.kids[0]
        return self.around(node, [(given, self.kept(f"wrv_({self.number(node.declaration)});", given))])

    def kept(self, before_after, given):
        return f"({{ __auto_type v_ = {self.value(given)}; {before_after} v_; }})"

    def effect(self, node, used=False):
        """An assignment or `++`, with what it reads and writes."""
        target = node.kids[0]
        if target.sort == "pointer" or target.kind == "name" and self.is_index(target.declaration):
            return self.plain(node)
        if node.kind == "unary":
            if used or node.op not in ("++", "--", "post++", "post--"):
                raise Unlogged("a step in a value")
            op, value = ("+=" if "++" in node.op else "-="), "1"
        else:
            op, value = node.op, self.value(node.kids[1])
        read = "" if op == "=" else "rd"
        if target.kind == "name":
            number = self.number(target.declaration)
            before = f"rdv_({number});" if read else ""
            after = f"rdv_({number});" if used else ""
            name = self.plain(target)
            return f"({{ {before} __auto_type v_ = {value}; wrv_({number}); {name} {op} v_; {after} {name}; }})"
        place = self.plain(target)
        before, after = ("rd_(p_);" if read else ""), ("rd_(p_);" if used else "")
        return f"({{ __auto_type v_ = {value}; __typeof__(&({place})) p_ = &({place}); {before} wr_(p_); *p_ {op} v_; {after} *p_; }})"

    def value(self, node):
        """An expression that logs what it reads."""
        if node.kind == "assign":
            return self.effect(node, used=True)
        if node.kind == "name":
            it = node.declaration
            if it.is_function or it.value is not None or it.sort in ("array", "pointer") or self.is_index(it):
                return self.plain(node)
            return f"({{ rdv_({self.number(it)}); {self.plain(node)}; }})"
        if node.kind in ("index", "member") or node.kind == "unary" and node.op == "*":
            if node.sort in ("array", "pointer", "other"):
                return self.plain(node)
            place = self.plain(node)
            return f"({{ __typeof__(&({place})) p_ = &({place}); rd_(p_); *p_; }})"
        if node.kind == "unary" and node.op in ("++", "--", "post++", "post--", "&"):
            return self.effect(node, used=True)
        if node.kind == "call":
            return self.called(node)
        return self.around(node, [(it, self.value(it)) for it in node.kids])

    def called(self, node):
        """A call in a value: known functions are called, of others only the arguments are evaluated."""
        kids = node.kids[1:]
        if node.kids[0].name in PURE or self.lowering.callee(node):
            return self.around(node, [(it, self.value(it)) for it in kids])
        given = " ".join(f"(void)({self.value(it)});" for it in kids)
        return f"({{ {given} (__typeof__({self.plain(node)}))0; }})"

    def call(self, node):
        """A call as a statement: a copy as a loop, or a function of the file with a log of its own."""
        name = node.kids[0].name
        if name and name.split("_")[-1] in ("memcpy", "memmove", "memset"):
            to, other, count = (self.plain(it) for it in node.kids[1:])
            body = "wr_(d_ + k_); d_[k_] = 0;" if name.endswith("memset") else f"rd_(({other}) + k_); wr_(d_ + k_);"
            return f"({{ __auto_type d_ = {to}; for (unsigned long k_ = 0; k_ < ({count}) / sizeof(*d_); k_++) {{ {body} }} }})"
        body = self.lowering.callee(node)
        if body is None:
            raise Unlogged("a call")
        self.given.update(body[0])
        self.inlined[name] = (body[1], self.statement(body[1]))
        given = []
        for it, kid in zip(body[0], node.kids[1:]):
            given.append((kid, self.plain(kid) if self.is_index(it) else self.kept(f"wrv_({self.number(it)});", kid)))
        return self.around(node, given)


def first_values(place, kind, depth, number):
    """C that gives memory to what a type leads to; whole numbers are small."""
    kind = kind.get_canonical()
    if kind.kind in WHOLE:
        return f"{place} = {number};"
    name = f"q{depth}_"
    if kind.kind == Type.POINTER and depth < 4:
        inner = kind.get_pointee().get_canonical()
        if inner.get_size() <= 0:
            return f"*(void **)&{place} = (char *)memory_(1 << 16, 8) + (1 << 18);"
        many = 64 if sort_of(inner) in ("pointer", "record") else 1 << 15
        text = f"*(void **)&{place} = (char *)memory_({many}, {inner.get_size()}) + {many // 4 * inner.get_size()};"
        whole = inner.kind in WHOLE
        if sort_of(inner) in ("pointer", "record") or whole and not inner.is_const_qualified():
            text += f" for (int {name} = {'0' if whole else -(many // 4)}; {name} < {1 if whole else many // 2}; {name}++) {{ {first_values(f'{place}[{name}]', inner, depth + 1, number)} }}"
        elif whole:
            text += f" *(int *){place} = {number};"
        return text
    if kind.kind == Type.CONSTANTARRAY and sort_of(kind.element_type.get_canonical()) in ("pointer", "record", "array"):
        return f"for (int {name} = 0; {name} < {kind.element_count}; {name}++) {{ {first_values(f'{place}[{name}]', kind.element_type, depth + 1, number)} }}"
    if kind.kind == Type.RECORD and sort_of(kind) == "record" and depth < 5:
        return " ".join(first_values(f"{place}.{it.spelling}", it.type, depth + 1, number) for it in kind.get_fields() if it.spelling and not it.is_bitfield())
    return ""
