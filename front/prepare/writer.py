"""The text of a program: sizes, assumptions, and each statement with the C that it stands for."""

from .forms import plain
from .nest import Guard, Loop, reads_of
from .program import named, row_text

TAKEN = {"S", "T", "U", "for", "if", "else", "int", "while", "return", "f"}


class Writer:
    """Names for sizes, arrays and loops, and the lines of the program."""

    def __init__(self, program):
        self.program, self.lines, self.arrays, self.loops = program, [], {}, {}
        self.names = {}
        for name in program.all_sizes():
            self.names[name] = self.free(name, self.names.values())
        for it, _ in program.statements():
            for cell in [it.target, *reads_of(it.tree)]:
                if cell.key not in self.arrays and not self.is_size(cell):
                    self.arrays[cell.key] = self.free(named(cell.key), [*self.names.values(), *self.arrays.values()])

    def is_size(self, cell):
        """Whether a cell is a variable or a member that is a size of the program: no word of the memory that is counted."""
        sizes = self.program.sizes
        key = ("start", cell.key[0].key) if len(cell.key) == 1 and not isinstance(cell.key[0], str) else None
        found = sizes.names.get(key) if key and not cell.subs else None
        return found in self.names

    def free(self, wanted, taken):
        name, turn = wanted if wanted not in TAKEN else wanted + "_", 2
        wanted = name
        while name in taken or name in TAKEN:
            name, turn = f"{wanted}_{turn}", turn + 1
        return name

    def named(self, name):
        return self.loops[name] if name in self.loops else self.names.get(name, plain(name))

    def form(self, form):
        return form.text(self.named)

    def cell(self, cell):
        return self.arrays[cell.key] + "".join(f"[{self.form(sub)}]" for sub in cell.subs)

    def tree(self, tree):
        """A value in C; where an operator isn't one that `iolb` reads, a function of the reads."""
        if any_call(tree):
            reads = [it for it in reads_of(tree) if not self.is_size(it)]
            return "f(" + ", ".join(self.cell(it) for it in reads) + ")"
        return self.arithmetic(tree, 0)

    def arithmetic(self, tree, level):
        if tree[0] == "cell":
            return self.names[self.program.sizes.names[("start", tree[1].key[0].key)]] if self.is_size(tree[1]) else self.cell(tree[1])
        if tree[0] == "number":
            return tree[1]
        _, op, left, right = tree
        mine = 1 if op in "+-" else 2
        text = f"{self.arithmetic(left, mine)} {op} {self.arithmetic(right, mine + (op in '-/'))}"
        return f"({text})" if mine < level else text

    def body(self, items, depth):
        for it in items:
            if isinstance(it, Loop):
                self.loop(it, depth)
            elif isinstance(it, Guard):
                text = " && ".join(row_text(op, row, self.named) for op, row in it.rows)
                self.line(depth, f"if ({text}) {{")
                self.body(it.body, depth + 1)
                self.line(depth, "}")
            else:
                self.line(depth, f"// {it.line}: {it.said[:120]}".rstrip("\\"))
                self.line(depth, f"{self.cell(it.target)} = {self.tree(it.tree)};")

    def loop(self, it, depth):
        around = list(self.loops.values())
        name = self.loops[it.name] = self.free(plain(it.name), [*self.names.values(), *self.arrays.values(), *around])
        compare, step = ("<=", "++") if it.upward else (">=", "--")
        self.line(depth, f"for (int {name} = {self.form(it.first)}; {name} {compare} {self.form(it.last)}; {name}{step}) {{")
        self.body(it.body, depth + 1)
        self.line(depth, "}")
        del self.loops[it.name]

    def line(self, depth, text):
        self.lines.append("    " * depth + text)

    def text(self, head):
        """The whole program; `head` says where it comes from."""
        program, sizes = self.program, self.program.sizes
        used = program.all_sizes()
        self.lines = [f"// {head}"]
        for name in used:
            said = sizes.said.get(name, name)
            if said != self.names[name]:
                self.line(0, f"// size {self.names[name]}: {said}")
        for it in program.told:
            self.line(0, f"// assumed: {it}")
        for name in sorted(program.lowering.assumed):
            self.line(0, f"// assumed: {name} computes a value from its arguments, and does nothing else")
        for line, said in sorted(set(program.lowering.partial)):
            self.line(0, f"// left out: what `{said[:80]}` at line {line} reads, since it isn't always evaluated")
        if used:
            self.line(0, "#pragma iolb param " + " ".join(self.names[it] for it in used))
        for op, form, reason in program.rows:
            self.line(0, f"// assumed, since {reason}:")
            self.line(0, f"#pragma iolb assume {row_text(op, form, self.named)}")
        self.line(0, "#pragma scop")
        self.body(program.items, 0)
        self.line(0, "#pragma endscop")
        return "\n".join(self.lines) + "\n"


def any_call(tree):
    return tree[0] in ("call", "whole") or tree[0] == "operator" and (any_call(tree[2]) or any_call(tree[3]))
