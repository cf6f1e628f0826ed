"""A nest of C, run over forms: what is left are loops, guards and statements over cells, or what stands in the way."""

from .conditions import Conditions
from .forms import Form, ONE, ZERO, fresh
from .loops import Later, Loops
from .nest import Cell, Guard, Loop, Pointer, Statement, UNKNOWN
from .sizes import Sizes
from .values import Data, PURE, Values, has_effects

SENTENCES = {"return": "a return", "break": "a break", "continue": "a continue that isn't the end of an if", "goto": "a goto",
             "label": "a label", "switch": "a switch", "asm": "assembly", "unknown": "a statement that isn't read"}


class Lowering(Values, Conditions, Loops):
    """One nest: `items` are what it does, `obstacles` what stands in the way, (line, words) with a place each."""

    def __init__(self, source, function, path, nest, parts):
        self.source, self.function, self.path, self.nest, self.parts = source, function, path, nest, parts
        self.data, self.written = set(), set()
        self.bodies = function.bodies
        while True:
            self.begin()
            try:
                self.prelude()
                for it in nest:
                    self.run(it)
            except Data as told:
                self.data.add(told.key)
                continue
            if self.found <= self.written:
                return
            self.written |= self.found

    def begin(self):
        self.sizes, self.env, self.items, self.obstacles = Sizes(), {}, [], {}
        self.found, self.walked, self.needs, self.partial, self.assumed, self.words = set(), {}, [], [], set(), []
        self.later, self.kept_reads, self.loose = [], [], set()
        self.dry, self.hidden, self.guarded, self.depth, self.open, self.prelude_steps = 0, 0, 0, 0, [], []
        self.assigned = set(self.changed(self.nest))
        addresses = self.addresses()
        for it in self.nest:
            for node in it.walk():
                if node.kind == "name" and node.sort == "whole" and node.declaration.key in self.assigned - addresses:
                    self.data.add(node.declaration.key)

    def addresses(self):
        """The whole variables that subscripts, bounds, conditions and addresses are made of, one step after the other."""
        found, flows = set(), []
        for root in self.nest:
            for node in self.reached(root):
                for part in address_parts(node):
                    found |= names_in(part)
                if node.kind == "assign" and node.kids[0].kind == "name":
                    flows.append((node.kids[0].declaration, node.kids[1]))
                elif node.kind == "variable" and node.kids:
                    flows.append((node.declaration, node.kids[0]))
        found |= {key for it, given in flows if it.sort == "pointer" for key in names_in(given)}
        grown = True
        while grown:
            more = {key for it, given in flows if it.key in found for key in names_in(given)}
            grown, found = not more <= found, found | more
        return found

    def reached(self, root, depth=0):
        """The nodes of a statement, and of the functions of the file that it calls."""
        for node in root.walk():
            yield node
            body = self.callee(node) if node.kind == "call" and depth < 4 else None
            if body:
                yield from self.reached(body[1], depth + 1)

    def changed(self, roots):
        """The whole variables and pointers that are assigned below some nodes: key to declaration."""
        found = {}
        for root in roots:
            for node in self.reached(root) if root is not None else ():
                target = node if node.kind == "variable" else None
                if node.kind == "assign" or node.kind == "unary" and node.op in ("++", "--", "post++", "post--"):
                    target = node.kids[0] if node.kids[0].kind == "name" else None
                if target is not None and target.declaration.sort in ("whole", "pointer") and target.declaration.key not in self.data:
                    found[target.declaration.key] = target.declaration
        return found

    def current(self, it):
        """What a whole variable or a pointer is now."""
        found = self.env.get(it.key)
        if isinstance(found, Later):
            self.needs.append((found.row, f"{it.name} is used behind its loop"))
            found = self.env[it.key] = found.form
        if found is not None:
            return found
        if it.sort == "pointer":
            return Pointer((it,), (ZERO,))
        moved = it.key in self.assigned
        return self.sizes.size(("start", it.key), it.name + ("_0" if moved else ""), it.name + (" before the nest" if moved else ""))

    def refuse(self, node, words, quiet=False):
        if not self.dry and not quiet:
            self.obstacles.setdefault((self.source.line(node.start), words), node.start)

    def prelude(self):
        """What is set on the way to the nest, in straight lines: sums of sizes, and addresses."""
        self.dry += 1
        for siblings, entered in self.path:
            for it in siblings:
                self.set_before(it)
            if entered is not None:
                for key in self.changed([entered]):
                    self.forget(key)
        self.dry -= 1

    def set_before(self, node):
        if node.kind == "declare":
            for it in node.kids:
                self.set_before(it)
            return
        target = node if node.kind == "variable" else node.kids[0] if node.kind == "assign" and node.op == "=" else None
        simple = target is not None and (target.kind == "variable" or target.kind == "name") and node.kids
        given = node.kids[-1] if simple else None
        if simple and target.declaration.sort in ("whole", "pointer") and not has_effects(given) and target.declaration.key not in self.data:
            value = self.integer(given) if target.declaration.sort == "whole" else self.pointer(given, quiet=True)
            self.forget(target.declaration.key)
            sure = isinstance(value, Form) and value.of_sizes() or isinstance(value, Pointer) and all(it.of_sizes() for it in value.subs)
            own = self.sizes.names.get(("start", target.declaration.key))
            if sure and not (isinstance(value, Form) and own in value.names()) and value != Pointer((target.declaration,), (ZERO,)):
                self.env[target.declaration.key] = value
                self.prelude_steps.append((target.declaration, given))
            return
        for key in self.changed([node]):
            self.forget(key)
        if any(it.kind == "call" or it.kind == "assign" and it.kids[0].kind != "name" for it in node.walk()):
            self.forget(None)

    def forget(self, key):
        """A variable gets a value that isn't told, or, for None, cells do: what was said by the old one goes."""
        self.env.pop(key, None)
        derived = {name for it, name in self.sizes.names.items() if it[0] not in ("start", "constant") or it[:2] == ("start", key)}
        for other, value in list(self.env.items()):
            forms = value.subs if isinstance(value, Pointer) else [value]
            stale = isinstance(value, Pointer) and (len(value.subs) > 1 or len(value.key) > 1 or value.key[0].key == key)
            if stale or any(derived & it.names() for it in forms):
                del self.env[other]
                self.prelude_steps = [it for it in self.prelude_steps if it[0].key != other]
        self.prelude_steps = [it for it in self.prelude_steps if it[0].key != key]

    def run(self, node):
        """One statement."""
        if node.kind in SENTENCES:
            self.refuse(node, SENTENCES[node.kind])
        elif node.kind == "block":
            self.run_all(node.kids)
        elif node.kind == "for":
            self.run_loop(node, *node.kids)
        elif node.kind == "while":
            self.run_loop(node, None, node.kids[0], None, node.kids[1])
        elif node.kind == "do":
            self.run_once(node)
        elif node.kind == "if":
            self.run_if(node, node.kids[0], [node.kids[1]], node.kids[2:])
        elif node.kind != "null":
            self.expression(node)

    def run_once(self, node):
        """A `do` that ends after one turn, as macros have it."""
        body, condition = node.kids
        if condition.kind == "number" and condition.number == 0:
            self.run(body)
        else:
            self.refuse(node, "a do loop")

    def run_all(self, nodes):
        """Statements in their order; what stands behind an `if` that continues is its other arm."""
        for at, it in enumerate(nodes):
            if it.kind == "if" and continues(it.kids[1]):
                self.run_if(it, it.kids[0], inner(it.kids[1])[:-1], list(it.kids[2:]) + list(nodes[at + 1:]))
                return
            self.run(it)

    def collected(self, action):
        """What `action` does, in a list of its own."""
        kept, self.items = self.items, []
        action()
        made, self.items = self.items, kept
        return made

    def run_if(self, node, condition, one, other):
        cases = None if has_effects(condition) else self.condition(condition)
        if cases is None:
            self.run_data_if(node, condition, one, other)
            return
        before, ends = dict(self.env), []
        for lists, arm in zip(cases, (one, other)):
            for rows in lists:
                kept = [(op, row) for op, row in rows if not decided(op, row, True)]
                if any(decided(op, row, False) for op, row in rows):
                    continue
                self.env = dict(before)
                self.guarded += 1
                made = self.collected(lambda: self.run_all(arm))
                self.guarded -= 1
                ends.append(self.env)
                if made:
                    self.items += [Guard(kept, made)] if kept else made
        self.env = self.merged(ends)

    def merged(self, ends):
        """What is known behind arms: what all of them end with."""
        made = {}
        for key in {key for it in ends for key in it}:
            values = [it.get(key) for it in ends]
            made[key] = values[0] if all(same(it, values[0]) for it in values) else UNKNOWN
        return made

    def run_data_if(self, node, condition, one, other):
        """An `if` on data: refused, or for a part the condition is an instance and what it decides is left out."""
        if not self.parts:
            self.refuse(node, "if on data")
        before = dict(self.env)
        tree = self.value(condition)
        if self.parts:
            self.emit(Cell((f"condition_{self.source.line(node.start)}",), ()), tree, condition)
            told = f"the if at line {self.source.line(node.start)} depends on data: what it decides is left out"
            self.words += [told] if told not in self.words else []
        ends = []
        for arm in (one, other):
            self.env = dict(before)
            self.hidden += 1
            self.run_all(arm)
            self.hidden -= 1
            ends.append(self.env)
        self.env = self.merged(ends)

    def emit(self, cell, tree, node):
        """One instance for each turn: `cell` is computed from what the tree reads."""
        if not isinstance(cell.key[0], str):
            self.found.add(cell.key)
        if cell.subs is None or self.hidden:
            self.loose.add(cell.key)
        kept = [("cell", it) for it in self.taken_reads()]
        if not self.dry and not self.hidden:
            if cell.subs is None:
                cell = Cell(("somewhere_" + str(self.source.line(node.start)),), ())
            whole = ("call", "f", tree, *kept) if kept else tree
            self.items.append(Statement(cell, whole, self.source.spelled(node), self.source.line(node.start), node.start))
        pending, self.later = self.later, []
        for it in pending:
            self.count(it)

    def count(self, node):
        """`x++` on data."""
        cell = self.cell(node.kids[0])
        if cell is not None:
            op = "+" if "++" in node.op else "-"
            self.emit(cell, ("operator", op, ("cell", cell), ("number", "1")), node)

    def expression(self, node):
        """An expression as a statement."""
        if node.kind == "assign":
            self.assign(node)
        elif node.kind == "declare":
            for it in node.kids:
                self.declare(it)
        elif node.kind == "comma":
            self.expression(node.kids[0])
            self.expression(node.kids[1])
        elif node.kind == "unary" and node.op in ("++", "--", "post++", "post--"):
            self.step_alone(node)
        elif node.kind == "call":
            self.call(node)
        elif node.kind == "cast" and node.sort == "other":
            self.expression(node.kids[0])
        elif node.kind not in ("number", "name"):
            self.refuse(node, "a statement that isn't read")

    def step_alone(self, node):
        target = node.kids[0]
        if target.sort == "pointer":
            if target.kind == "name":
                self.pointer(node)
            else:
                self.refuse(node, "a pointer in memory is set")
        elif target.kind == "name" and target.sort == "whole" and target.declaration.key not in self.data:
            self.stepped(node)
        else:
            self.count(node)

    def declare(self, node):
        it = node.declaration
        if it.sort in ("whole", "pointer") and it.key not in self.data:
            self.env[it.key] = UNKNOWN
        if node.op == "static" and node.kids:
            self.refuse(node, "a static variable")
        elif node.kids and it.sort in ("array", "record", "union") and node.kids[0].kind == "list":
            self.refuse(node, "an array that is declared with its values")
        elif node.kids:
            self.set_name(it, "=", node.kids[0], node)

    def assign(self, node):
        """An assignment; a chain of them is done from its end."""
        target, given = node.kids
        if target.kind == "name":
            self.set_name(target.declaration, node.op, given, node)
            return
        if target.sort == "pointer":
            self.refuse(node, "a pointer in memory is set")
            return
        cell = self.cell(target)
        tree = self.value(given)
        if cell is not None:
            self.emit(cell, self.with_target(node.op, cell, tree), node)

    def with_target(self, op, cell, tree):
        if op == "=":
            return tree
        if cell.subs is None:
            return ("call", "f", tree)
        if op in ("+=", "-=", "*=", "/="):
            return ("operator", op[0], ("cell", cell), tree)
        return ("call", "f", ("cell", cell), tree)

    def set_name(self, it, op, given, node):
        """A variable is set: an index or a pointer moves, a cell is computed."""
        if it.sort == "pointer":
            self.env[it.key] = self.moved_pointer(it, op, given)
            return
        if it.sort == "whole" and it.key not in self.data:
            value = self.integer(given)
            if op != "=" and value is not None:
                before = self.current(it)
                known = isinstance(before, Form) and isinstance(value, Form)
                value = self.arithmetic(op[:-1], before, value) if known else UNKNOWN
            if value is None:
                raise Data(it.key)
            self.env[it.key] = value
            return
        cell = Cell((it,), ())
        tree = self.value(given)
        self.emit(cell, self.with_target(op, cell, tree), node)

    def moved_pointer(self, it, op, given):
        if op == "=":
            value = self.pointer(given)
            return value
        before, form = self.current(it), self.integer(given)
        if before is UNKNOWN or not isinstance(form, Form) or op not in ("+=", "-="):
            return UNKNOWN
        return before.moved(form if op == "+=" else -form)

    def callee(self, node):
        """The function of the file that a call names: (its parameters, its body), or None."""
        name = node.kids[0] if node.kids else None
        return self.bodies(name.name) if name is not None and name.kind == "name" and name.declaration.is_function else None

    def effect_free(self, node, tell=False):
        """Whether a call computes a value from its values alone; with `tell`, a function that isn't seen is assumed to."""
        name = node.kids[0] if node.kids else None
        if name is None or name.kind != "name":
            return False
        if name.name in PURE or name.name.startswith("__builtin_") and name.name[10:] in PURE or name.name == "strlen" and not tell:
            return True
        body = self.callee(node)
        if body is not None:
            return all(it.kind not in ("index", "member", "union", "unknown", "asm") and not (it.kind == "unary" and it.op == "*")
                       and (it.kind != "call" or it.kids[0].kind == "name" and it.kids[0].name in PURE)
                       and (it.kind != "assign" or it.kids[0].kind == "name" and inside(it.kids[0].declaration, body))
                       and not (it.kind == "name" and not it.declaration.is_function and it.declaration.value is None
                                and not inside(it.declaration, body)) for it in body[1].walk())
        if tell:
            self.assumed.add(name.name)
        return tell

    def call(self, node):
        """A call as a statement: copies are loops, functions of the file are put in place, others are refused."""
        name = node.kids[0].name if node.kids else None
        if name in ("memcpy", "memmove", "memset", "__builtin_memcpy", "__builtin_memset", "__builtin_memmove") and len(node.kids) == 4:
            self.copy(node, name.endswith("memset"))
            return
        body = self.callee(node)
        if body is None or self.depth >= 4:
            self.refuse(node, f"a call of {self.source.spelled(node.kids[0]) if node.kids else 'a function'} as a statement")
            return
        if len(body[0]) != len(node.kids) - 1:
            self.refuse(node, "a call with another number of arguments")
            return
        self.depth += 1
        for it, given in zip(body[0], node.kids[1:]):
            self.set_name(it, "=", given, given)
        kids = body[1].kids
        self.run_all(kids[:-1] if kids and kids[-1].kind == "return" and not kids[-1].kids else kids)
        self.depth -= 1

    def copy(self, node, fills):
        """`memcpy(to, from, bytes)` and `memset` as loops over elements."""
        target, other, count = node.kids[1:]
        size = target.element[1] if target.element else 0
        bytes_ = self.integer(count)
        number = bytes_.divided(size) if isinstance(bytes_, Form) and size > 0 else None
        address = self.pointer(target)
        origin = address if fills else self.pointer(other)
        if number is None or address is UNKNOWN or origin is UNKNOWN or not fills and other.element != target.element:
            self.refuse(node, "a copy whose elements aren't told")
            return
        name = fresh("%", "copied")
        at = Form.of(name)
        cell, read = (Cell(it.key, it.moved(at).subs) for it in (address, origin))
        body = self.collected(lambda: self.emit(cell, ("number", "0") if fills else ("cell", read), node))
        if body:
            self.items.append(Loop(name, ZERO, number - ONE, True, body, self.source.line(node.start)))


def inside(it, body):
    return it in body[0] or body[1].start <= it.where < body[1].end


def same(one, other):
    if isinstance(one, Later) or isinstance(other, Later):
        return one is other
    return type(one) is type(other) and one == other


def decided(op, row, held):
    """Whether a row of numbers alone is `held`."""
    return row.is_number() and (row.constant() >= 0 if op == ">=" else row.constant() == 0) == held


def inner(node):
    return node.kids if node.kind == "block" else [node]


def continues(node):
    kids = inner(node)
    return bool(kids) and kids[-1].kind == "continue"


def names_in(node):
    return {it.declaration.key for it in node.walk() if it.kind == "name" and it.sort == "whole"}


def address_parts(node):
    """What below a node says where, how often or whether."""
    if node.kind == "index":
        return [node.kids[1] if node.kids[1].sort == "whole" else node.kids[0]]
    if node.kind == "for":
        return [it for it in node.kids[:3] if it is not None]
    if node.kind in ("while", "if"):
        return [node.kids[0]]
    if node.kind == "binary" and node.element is not None or node.kind == "assign" and node.kids[0].sort == "pointer":
        return node.kids
    return node.kids[1:] if node.kind == "call" and node.kids and node.kids[0].name in ("memcpy", "memset", "memmove") else []
