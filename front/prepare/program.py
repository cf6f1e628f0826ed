"""What a nest was read as, made into a program that `iolb` reads: columns, rows, sizes, assumptions and limits."""

from .forms import Form, is_loop
from .nest import Cell, Guard, Loop, mapped, nodes, reads_of, walk
from .rows import Refused, in_rows
from .sizes import words

LIMITS = {"loops": 6, "sizes": 6, "assumptions": 32, "statements": 32, "reads": 32, "subscripts": 4, "rows": 16}


class Program:
    """`rows` are assumptions for `#pragma iolb assume`: (operator, form, reason); `told` those that are told in words."""

    def __init__(self, lowering):
        self.lowering, self.items, self.sizes = lowering, lowering.items, lowering.sizes
        self.obstacles = dict(lowering.obstacles)
        self.rows, self.told, self.products = [], list(lowering.words), {}
        if not self.obstacles:
            self.finish()

    def refuse(self, words_, start):
        self.obstacles.setdefault((self.lowering.source.line(start), words_), start)

    def finish(self):
        """Each step ends the work where it finds something in the way."""
        for step in (self.left_out, self.shapes, self.aliases, self.columns, self.bounds, self.assume, self.limits):
            step()
            if self.obstacles:
                return

    def statements(self):
        return list(walk(self.items))

    def first_line(self):
        return self.lowering.nest[0].start

    def left_out(self):
        """Part of a graph: reads of what instances that are left out may write are left out too."""
        loose = self.lowering.loose
        if self.lowering.parts and (loose or self.told):
            self.told.append("this is a part: its bound of loads holds for every run, and nothing is said of stores")
        if loose:
            def kept(cell):
                return None if cell.key in loose or cell.subs is None else cell
            for it, _ in self.statements():
                it.tree = mapped(it.tree, kept)
            names = sorted({key[0].name if not isinstance(key[0], str) else key[0] for key in loose})
            self.told.append("reads of " + ", ".join(names) + " are left out, since what is left out may write there")
        if not self.statements():
            self.refuse("nothing that is computed", self.first_line())

    def shapes(self):
        """One array has one number of subscripts, and a record is used whole or by its members."""
        seen = {}
        for it, _ in self.statements():
            for cell in [it.target, *reads_of(it.tree)]:
                if seen.setdefault(cell.key, len(cell.subs)) != len(cell.subs):
                    self.refuse(f"{named(cell.key)} is used with other numbers of subscripts", it.start)
        for key in seen:
            if any(key[:length] in seen for length in range(1, len(key))):
                self.refuse(f"{named(key)} is used as a member and as part of a whole", self.first_line())
        for key, start in self.lowering.walked.items():
            self.refuse(f"a pointer that may walk over the rows of {named(key)}", start)

    def aliases(self):
        """Names of which one may be set from another, outside of what was followed, are one array or two: refused."""
        written = {it.target.key for it, _ in self.statements()}
        bases = {cell.key[0] for it, _ in self.statements() for cell in [it.target, *reads_of(it.tree)] if cell.subs and not isinstance(cell.key[0], str)}
        origins = {base: self.lowering.function.origins(base, self.lowering.nest) for base in bases}
        touched = {key[0] for key in written}
        for one in bases:
            for other in bases:
                if one is not other and (one in touched or other in touched) and origins[one] & origins[other]:
                    name, from_ = sorted((one.name, other.name))
                    self.refuse(f"{name} and {from_} may be one array", self.first_line())
        if len(bases) > 1 and not self.obstacles:
            self.told.append("arrays with different names don't overlap: " + ", ".join(sorted(it.name for it in bases)))

    def columns(self):
        """Subscripts that are one number for all, or move by sizes, go; strides by sizes become rows."""
        uses = {}
        for it, around in self.statements():
            for cell in [it.target, *reads_of(it.tree)]:
                uses.setdefault(cell.key, {}).setdefault(cell.subs, []).append((around, it.start))
        changes = {}
        for key, found in uses.items():
            try:
                changes[key] = self.columns_of(found)
            except Refused as told:
                self.refuse(f"{named(key)}: {told}", next(iter(found.values()))[0][1])
        if self.obstacles:
            return

        def change(cell):
            return Cell(cell.key, changes[cell.key][cell.subs])
        for it, _ in self.statements():
            it.target, it.tree = change(it.target), mapped(it.tree, change)

    def columns_of(self, found):
        """New subscripts for each that an array is used with."""
        olds = list(found)
        made = {subs: () for subs in olds}
        for at in range(len(olds[0]) if olds else 0):
            offset = common({subs[at] for subs in olds})
            uses = [(subs, subs[at] - offset, around) for subs in olds for around, _ in found[subs]]
            split, rows = in_rows([(form, around) for _, form, around in uses])
            for row in rows:
                self.need((">=", row), "subscripts stay within their rows")
            new = {}
            for (subs, _, _), columns in zip(uses, split):
                if new.setdefault(subs, columns) != columns:
                    raise Refused("one subscript falls into rows in two ways")
            for place in range(len(split[0])):
                if any(columns[place] != Form() for columns in new.values()):
                    for subs in olds:
                        made[subs] += (new[subs][place],)
        return made

    def need(self, row, reason):
        op, form = row
        form = self.affine(form)
        if form.is_number():
            if form.constant() < 0 or op == "==" and form.constant():
                self.refuse(f"no sizes meet what is assumed: {reason}", self.first_line())
            return
        if (op, form) not in [(other, it) for other, it, _ in self.rows]:
            self.rows.append((op, form, reason))

    def affine(self, form):
        """The form with a size in the place of each product of sizes."""
        made = {}
        for product, factor in form.terms.items():
            if len(product) > 1 and not any(is_loop(it) for it in product):
                text = " * ".join(product)
                product = (self.sizes.named(("product", product), words("_".join(product)), text),)
            made[product] = made.get(product, 0) + factor
        return Form(made)

    def bounds(self):
        """Bounds, guards and subscripts have to be affine."""
        for it in list(nodes(self.items)):
            if isinstance(it, Loop):
                it.first, it.last = self.affine(it.first), self.affine(it.last)
                forms, words_ = [it.first, it.last], "a product of loops and sizes in a bound"
            elif isinstance(it, Guard):
                it.rows = [(op, self.affine(row)) for op, row in it.rows]
                forms, words_ = [row for _, row in it.rows], "a condition that isn't affine"
            else:
                def change(cell):
                    return Cell(cell.key, tuple(self.affine(sub) for sub in cell.subs))
                it.target, it.tree = change(it.target), mapped(it.tree, change)
                forms, words_ = [sub for cell in [it.target, *reads_of(it.tree)] for sub in cell.subs], "a subscript that isn't affine"
            if not all(form.is_affine() for form in forms):
                self.refuse(words_, self.first_line())

    def assume(self):
        """What holds of sizes by definition, what was needed, and that loops run; where no sizes meet it all, it is refused."""
        for row, reason in self.lowering.needs:
            self.need(row, reason)
        self.running(self.items)
        used = self.used()
        grown = True
        while grown:
            more = [it for it in self.sizes.rows if it[1].names() & used and it not in self.rows]
            for op, form, reason in more:
                if (op, form) not in [(other, it) for other, it, _ in self.rows]:
                    self.need((op, form), reason)
            more_used = self.used() | {name for _, form, _ in self.rows for name in form.names()}
            grown, used = more_used != used, more_used
        if len(used) > LIMITS["sizes"]:
            named_ = self.used()
            dropped = [it for it in self.rows if not it[1].names() <= named_]
            self.rows = [it for it in self.rows if it[1].names() <= named_]
            self.told += [f"{row_text(op, form)}: {reason}" for op, form, reason in dropped]
        if not self.rows:
            self.rows = [(">=", Form.of(name).plus(-1), "sizes are at least 1") for name in sorted(self.used())]
        if met([(op, form) for op, form, _ in self.rows]) is None:
            self.refuse("no sizes meet what is assumed", self.first_line())

    def running(self, items):
        for it in items:
            if isinstance(it, Loop):
                if it.first.of_sizes() and it.last.of_sizes():
                    self.need((">=", it.last - it.first if it.upward else it.first - it.last), f"the loop at line {it.line} runs")
                self.running(it.body)

    def used(self):
        """The sizes that bounds, conditions and subscripts name."""
        found = set()
        for it in nodes(self.items):
            forms = [it.first, it.last] if isinstance(it, Loop) else [row for _, row in it.rows] if isinstance(it, Guard) else \
                [sub for cell in [it.target, *reads_of(it.tree)] for sub in cell.subs]
            found |= {name for form in forms for name in form.names() if not is_loop(name)}
        return found

    def all_sizes(self):
        return sorted(self.used() | {name for _, form, _ in self.rows for name in form.names()})

    def limits(self):
        """What `iolb` reads no more of."""
        found = self.statements()
        counts = {"statements": len(found), "sizes": len(self.all_sizes()), "assumptions": len(self.rows),
                  "loops": max(sum(isinstance(it, Loop) for it in around) for _, around in found),
                  "reads": max(len(reads_of(it.tree)) for it, _ in found),
                  "subscripts": max(len(cell.subs) for it, _ in found for cell in [it.target, *reads_of(it.tree)]),
                  "rows": max(sum(2 if op == "==" else 1 for it in around if isinstance(it, Guard) for op, _ in it.rows) for _, around in found)}
        for name, count in counts.items():
            if count > LIMITS[name]:
                told = {"loops": "nested loops", "reads": "reads in a statement", "rows": "rows of conditions"}.get(name, name)
                self.refuse(f"more than {LIMITS[name]} {told}, which iolb doesn't read: {count}", self.first_line())


def named(key):
    return "_".join(it if isinstance(it, str) else it.name for it in key)


def common(forms):
    """What all forms have in common that no loop moves."""
    offsets = [{product: factor for product, factor in form.terms.items() if not any(is_loop(it) for it in product)} for form in forms]
    first = offsets[0]
    shared = {product: factor for product, factor in first.items() if product and all(it.get(product) == factor for it in offsets)}
    if len(forms) == 1:
        shared = dict(first)
    return Form(shared)


def row_text(op, form, name=lambda it: it):
    """A row as a comparison, each term on the side on which it is positive."""
    left = Form({product: factor for product, factor in form.terms.items() if factor > 0})
    right = Form({product: -factor for product, factor in form.terms.items() if factor < 0})
    return f"{left.text(name)} {op} {right.text(name)}"


def met(rows, begins=(1, 2, 8, 24, 64, 0)):
    """Sizes that meet all rows, found by mending one broken row after the other; None where none are found."""
    names = sorted({name for _, form in rows for name in form.names()})
    for begin in begins:
        values = {name: begin for name in names}
        for _ in range(400):
            broken = [(op, form) for op, form in rows if (form.value(values) < 0 if op == ">=" else form.value(values) != 0)]
            if not broken:
                return values
            op, form = broken[0]
            mend(form, values)
    return None


def mend(form, values):
    """One name is moved so that the form's value is 0 or a little more."""
    value = form.value(values)
    fit = [(product[0], factor) for product, factor in form.terms.items() if len(product) == 1]
    ups = sorted((it for it in fit if (it[1] > 0) == (value < 0)), key=lambda it: (abs(it[1]), it[0]))
    name, factor = (ups or fit)[0]
    step = -(-abs(value) // abs(factor))
    values[name] += step if (factor > 0) == (value < 0) else -step
