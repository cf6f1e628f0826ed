"""C by libclang: the file is run through the user's preprocessor, so that no macro hides a token, and what libclang makes of it
becomes a tree of nodes. A header that is missing is taken as empty and told."""

import ctypes
import os
import re
import subprocess
import tempfile
from bisect import bisect_right

from .faults import Fault

try:
    import clang.cindex as cindex
except ImportError:
    raise Fault("libclang's Python module is missing: `apt-get install python3-clang` gives it to /usr/bin/python3")

Kind = cindex.CursorKind
Type = cindex.TypeKind

# What libclang says of itself, so that headers keep to what it reads.
OLDER = ["-U__GNUC__", "-D__GNUC__=4", "-U__GNUC_MINOR__", "-D__GNUC_MINOR__=2"]

WHOLE = {Type.BOOL, Type.CHAR_U, Type.UCHAR, Type.CHAR16, Type.CHAR32, Type.USHORT, Type.UINT, Type.ULONG, Type.ULONGLONG, Type.CHAR_S,
         Type.SCHAR, Type.WCHAR, Type.SHORT, Type.INT, Type.LONG, Type.LONGLONG, Type.ENUM, Type.INT128, Type.UINT128}
ARRAYS = {Type.CONSTANTARRAY, Type.INCOMPLETEARRAY, Type.VARIABLEARRAY, Type.DEPENDENTSIZEDARRAY}
UNSIGNED = {Type.UCHAR, Type.USHORT, Type.UINT, Type.ULONG, Type.ULONGLONG, Type.UINT128, Type.CHAR_U}

SAME = {Kind.PAREN_EXPR}
KINDS = {
    Kind.FLOATING_LITERAL: "real", Kind.IMAGINARY_LITERAL: "real", Kind.STRING_LITERAL: "string", Kind.CONDITIONAL_OPERATOR: "select",
    Kind.CALL_EXPR: "call", Kind.INIT_LIST_EXPR: "list", Kind.WHILE_STMT: "while", Kind.DO_STMT: "do", Kind.IF_STMT: "if",
    Kind.COMPOUND_STMT: "block", Kind.RETURN_STMT: "return", Kind.BREAK_STMT: "break", Kind.CONTINUE_STMT: "continue",
    Kind.GOTO_STMT: "goto", Kind.INDIRECT_GOTO_STMT: "goto", Kind.LABEL_STMT: "label", Kind.SWITCH_STMT: "switch", Kind.CASE_STMT: "case",
    Kind.DEFAULT_STMT: "default", Kind.NULL_STMT: "null", Kind.ASM_STMT: "asm", Kind.ARRAY_SUBSCRIPT_EXPR: "index",
}


class Declaration:
    """A variable, parameter, constant or function: its name, the sort of its type, and what says which it is."""

    __slots__ = ("name", "sort", "element", "key", "value", "cursor", "unsigned", "where", "is_function", "type_name")

    def __init__(self, cursor):
        kind = cursor.type.get_canonical()
        self.name, self.key, self.cursor = cursor.spelling, cursor.hash, cursor
        self.sort, self.element = sort_of(kind), element_of(kind)
        self.value = cursor.enum_value if cursor.kind == Kind.ENUM_CONSTANT_DECL else None
        self.unsigned = kind.kind in UNSIGNED
        self.where = cursor.extent.start.offset
        self.is_function = cursor.kind == Kind.FUNCTION_DECL
        self.type_name = cursor.type.spelling

    def __repr__(self):
        return self.name


class Node:
    """One expression or statement: `kids` in their order, `start` and `end` in the preprocessed text."""

    __slots__ = ("kind", "kids", "op", "name", "declaration", "sort", "element", "number", "start", "end")

    def __init__(self, kind, kids, start, end):
        self.kind, self.kids, self.start, self.end = kind, kids, start, end
        self.op = self.name = self.declaration = self.sort = self.element = self.number = None

    def walk(self):
        """This node and all below it, in the order of the text."""
        stack = [self]
        while stack:
            node = stack.pop()
            if node is not None:
                yield node
                stack.extend(reversed(node.kids))


def sort_of(kind):
    """`whole`, `real`, `pointer`, `array`, `record`, `union` or `other`, of a canonical type."""
    if kind.kind in WHOLE:
        return "whole"
    if kind.kind in ARRAYS:
        return "array"
    if kind.kind == Type.RECORD:
        return "union" if kind.get_declaration().kind == Kind.UNION_DECL else "record"
    if kind.kind == Type.POINTER:
        return "pointer"
    return "real" if kind.kind in (Type.FLOAT, Type.DOUBLE, Type.LONGDOUBLE, Type.COMPLEX, Type.FLOAT128, Type.HALF) else "other"


def element_of(kind):
    """The words that tell what a pointer or an array leads to, and its bytes: (spelling, bytes), or None."""
    if kind.kind == Type.POINTER:
        inner = kind.get_pointee().get_canonical()
    elif kind.kind in ARRAYS:
        inner = kind.element_type.get_canonical()
    else:
        return None
    return inner.spelling.replace("const ", "").replace("volatile ", ""), inner.get_size()


class Source:
    """A C file as it was read: its preprocessed text, where its lines come from, and its functions."""

    def __init__(self, path, options):
        self.path, self.missing, self.guessed = path, [], []
        self.constants = numeric_macros(path)
        self.text = self.preprocessed(options)
        self.guesses = ""
        self.parse()
        if self.missing:
            self.guess()
        self.errors = [(it.location.offset, it.spelling) for it in self.unit.diagnostics if it.severity >= 3]
        self.declarations = {}

    def preprocessed(self, options):
        """The text behind the preprocessor; headers that it doesn't find are given to it, empty, one after the other."""
        with tempfile.TemporaryDirectory() as folder, open(self.path, encoding="latin-1") as file:
            body = keep_constants(file.read(), self.constants)
            while True:
                call = ["cc", "-E", "-xc", *OLDER, "-idirafter", folder, "-iquote", os.path.dirname(self.path) or ".", *options, "-"]
                done = subprocess.run(call, input=f'#line 1 "{self.path}"\n{body}', capture_output=True, text=True, encoding="latin-1")
                found = re.search(r"error: '?([^\s:']+)'?(?:: No such file| file not found)", done.stderr)
                if not found or found.group(1) in self.missing or len(self.missing) > 200:
                    break
                self.missing.append(found.group(1))
                stub = os.path.join(folder, os.path.normpath("/" + found.group(1)).lstrip("/"))
                os.makedirs(os.path.dirname(stub), exist_ok=True)
                open(stub, "w").close()
        if done.returncode:
            told = re.search(r"^(\S+:\d+:\d+): (?:fatal )?error: (.*)", done.stderr, re.M)
            raise Fault(told.group(2), told.group(1)) if told else Fault(f"the preprocessor failed on {self.path}")
        return done.stdout

    def parse(self):
        text = self.guesses + self.text
        options = ["-xc", "-std=gnu99", "-w", "-ferror-limit=0", "-fbracket-depth=1024"]
        self.unit = cindex.Index.create().parse("file.i.c", args=options, unsaved_files=[("file.i.c", text)])
        self.whole, self.starts, self.places = text, [], []
        name, line, offset = self.path, 1, 0
        for row in text.split("\n"):
            marker = re.match(r'# (\d+) "(.*?)"', row)
            if marker:
                name, line = marker.group(2), int(marker.group(1)) - 1
            self.starts.append(offset)
            self.places.append((name, line))
            line, offset = line + 1, offset + len(row) + 1

    def guess(self):
        """Names of types and of constants that stood in missing headers are declared, and told; a few rounds find them all."""
        for _ in range(4):
            new = set()
            for it in self.unit.diagnostics:
                told = re.match(r"(unknown type name|use of undeclared identifier) '(\w+)'", it.spelling)
                if told and it.severity >= 3:
                    new.add((told.group(1) == "unknown type name", told.group(2)))
            new -= set(self.guessed)
            if not new:
                return
            self.guessed += sorted(new)
            self.guesses = "".join(f"typedef int {name};\n" if is_type else f"extern int {name};\n" for is_type, name in self.guessed)
            self.guesses += f'# 1 "{self.path}"\n'
            self.parse()

    def place(self, offset):
        """The file, line and column of a byte of the text."""
        row = bisect_right(self.starts, offset) - 1
        return (*self.places[row], offset - self.starts[row] + 1)

    def line(self, offset):
        return self.place(offset)[1]

    def spelled(self, node):
        return re.sub(r"\s+", " ", re.sub(r"^# \d+.*$", "", self.whole[node.start:node.end], flags=re.M)).strip()

    def functions(self):
        """The cursors of the functions that the file itself defines."""
        for cursor in self.unit.cursor.get_children():
            if cursor.kind == Kind.FUNCTION_DECL and self.place(cursor.extent.start.offset)[0] == self.path and cursor.is_definition():
                yield cursor

    def declaration(self, cursor):
        found = self.declarations.get(cursor.hash)
        if found is None:
            found = self.declarations[cursor.hash] = Declaration(cursor)
        return found

    def body(self, function):
        """The tree of a function's body, or None."""
        for cursor in function.get_children():
            if cursor.kind == Kind.COMPOUND_STMT:
                return self.node(cursor)
        return None

    def node(self, cursor):
        """The tree below a cursor."""
        kids = list(cursor.get_children())
        if cursor.kind in SAME or cursor.kind == Kind.UNEXPOSED_EXPR and len(kids) == 1:
            return self.node(kids[0])
        extent = cursor.extent
        start, end = extent.start.offset, extent.end.offset
        build = BUILDERS.get(cursor.kind)
        if build:
            return build(self, cursor, kids, start, end)
        made = Node(KINDS.get(cursor.kind, "unknown"), [self.node(it) for it in kids if it.kind != Kind.TYPE_REF], start, end)
        if made.kind in ("index", "call", "select"):
            typed(made, cursor)
        return made


def typed(node, cursor):
    kind = cursor.type.get_canonical()
    node.sort, node.element = sort_of(kind), element_of(kind)
    return node


def numeric_macros(path):
    """Macros of the file that are whole numbers of 8 and more, and of which no condition of the preprocessor speaks: they stay names."""
    try:
        with open(path, encoding="latin-1") as file:
            text = file.read()
    except OSError as error:
        raise Fault(f"{path} isn't read: {error.strerror}")
    found = dict(re.findall(r"^[ \t]*#[ \t]*define[ \t]+(\w+)[ \t]+\(?(\d{1,7})\)?[ \t]*(?://.*|/\*.*\*/[ \t]*)?$", text, re.M))
    asked = " ".join(re.findall(r"^[ \t]*#[ \t]*(?:el)?if.*$|^[ \t]*#[ \t]*undef.*$|^.*##.*$|^.*#\w.*$", text, re.M))
    once = {name for name in found if len(re.findall(rf"#[ \t]*define[ \t]+{name}\b", text)) == 1}
    return {name: int(value) for name, value in found.items()
            if name in once and int(value) >= 8 and value[0] != "0" and not re.search(rf"(?:if|undef|ifdef|ifndef)\b.*\b{name}\b", asked)}


def keep_constants(text, constants):
    """The text with a constant of an enumeration in the place of each such macro."""
    def kept(found):
        return f"enum {{ {found.group(1)} = {constants[found.group(1)]} }};" if found.group(1) in constants else found.group(0)
    return re.sub(r"^[ \t]*#[ \t]*define[ \t]+(\w+)[ \t]+\(?\d{1,7}\)?[ \t]*(?://.*|/\*.*\*/[ \t]*)?$", kept, text, flags=re.M)


def whole_number(source, cursor, kids, start, end):
    node = Node("number", [], start, end)
    written = source.whole[start:end].rstrip("uUlL")
    node.number = int(written, 8) if re.fullmatch(r"0[0-7]+", written) else int(written, 0)
    node.sort = "whole"
    return node


def character(source, cursor, kids, start, end):
    node = Node("number", [], start, end)
    inside = source.whole[start:end].split("'")[1]
    escapes = {"\\n": 10, "\\t": 9, "\\0": 0, "\\r": 13, "\\\\": 92}
    node.number = escapes.get(inside, ord(inside[-1]) if inside else 39)
    node.sort = "whole"
    return node


def named(source, cursor, kids, start, end):
    node = Node("name", [], start, end)
    target = cursor.referenced
    node.name = cursor.spelling
    if target is None:
        node.kind = "unknown"
        return node
    node.declaration = source.declaration(target)
    node.sort, node.element = node.declaration.sort, node.declaration.element
    return node


def member(source, cursor, kids, start, end):
    node = typed(Node("member", [source.node(kids[0])] if kids else [], start, end), cursor)
    node.name = cursor.spelling
    node.op = "->" if kids and kids[0].type.get_canonical().kind == Type.POINTER else "."
    owner = cursor.referenced.semantic_parent if cursor.referenced else None
    if owner is not None and owner.kind == Kind.UNION_DECL or not kids:
        node.kind = "union"
    return node


def unary(source, cursor, kids, start, end):
    kid = source.node(kids[0])
    node = typed(Node("unary", [kid], start, end), cursor)
    before = source.whole[start:kids[0].extent.start.offset].strip()
    node.op = before or "post" + source.whole[kids[0].extent.end.offset:end].strip()
    return node


def binary(source, cursor, kids, start, end):
    if len(kids) != 2:
        return Node("unknown", [], start, end)
    node = Node("binary", [source.node(kids[0]), source.node(kids[1])], start, end)
    node.op = source.whole[kids[0].extent.end.offset:kids[1].extent.start.offset].strip()
    node.kind = "assign" if re.fullmatch(r"(?:[-+*/%&|^]|<<|>>)?=", node.op) else "comma" if node.op == "," else "binary"
    return typed(node, cursor)


def cast(source, cursor, kids, start, end):
    inner = [it for it in kids if it.kind != Kind.TYPE_REF]
    if len(inner) != 1:
        return Node("unknown", [], start, end)
    return typed(Node("cast", [source.node(inner[0])], start, end), cursor)


def size_of(source, cursor, kids, start, end):
    node = Node("number", [], start, end)
    library = cindex.conf.lib
    library.clang_Cursor_Evaluate.restype = ctypes.c_void_p
    library.clang_Cursor_Evaluate.argtypes = [cindex.Cursor]
    result = library.clang_Cursor_Evaluate(cursor)
    if not result:
        node.kind = "unknown"
        return node
    library.clang_EvalResult_getAsLongLong.restype = ctypes.c_longlong
    node.number, node.sort = library.clang_EvalResult_getAsLongLong(ctypes.c_void_p(result)), "whole"
    library.clang_EvalResult_dispose(ctypes.c_void_p(result))
    return node


def declared(source, cursor, kids, start, end):
    """A declaration becomes a list of nodes `variable`, with what each begins with."""
    node = Node("declare", [], start, end)
    for it in kids:
        if it.kind == Kind.VAR_DECL:
            node.kids.append(variable(source, it))
    return node


def variable(source, cursor):
    extent = cursor.extent
    node = Node("variable", [], extent.start.offset, extent.end.offset)
    node.declaration, node.name = source.declaration(cursor), cursor.spelling
    node.sort, node.op = node.declaration.sort, "static" if cursor.storage_class == cindex.StorageClass.STATIC else ""
    equals = initial(source.whole, cursor.location.offset, node.end)
    for it in cursor.get_children():
        if equals is not None and it.extent.start.offset >= equals and it.kind != Kind.TYPE_REF:
            node.kids.append(source.node(it))
            break
    return node


def initial(text, start, end):
    """Where the value of a declaration begins, behind `=` outside of brackets; None where it has none."""
    depth = 0
    for at in range(start, end):
        depth += (text[at] in "([{") - (text[at] in ")]}")
        if text[at] == "=" and depth == 0:
            return at
    return None


def counted(source, cursor, kids, start, end):
    """A `for`: its four kids are what stands first, the condition, the step and the body, None for each that is missing."""
    body = kids[-1]
    text = source.whole
    opening = text.index("(", start)
    cuts, depth, at = [], 0, opening + 1
    while len(cuts) < 2 and at < end:
        depth += (text[at] in "([{") - (text[at] in ")]}")
        if text[at] == ";" and depth == 0:
            cuts.append(at)
        at += 1
    parts = [None, None, None]
    for it in kids[:-1]:
        offset = it.extent.start.offset
        parts[sum(offset > cut for cut in cuts)] = source.node(it)
    return Node("for", [*parts, source.node(body)], start, end)


BUILDERS = {
    Kind.INTEGER_LITERAL: whole_number, Kind.CHARACTER_LITERAL: character, Kind.DECL_REF_EXPR: named, Kind.MEMBER_REF_EXPR: member,
    Kind.UNARY_OPERATOR: unary, Kind.BINARY_OPERATOR: binary, Kind.COMPOUND_ASSIGNMENT_OPERATOR: binary, Kind.CSTYLE_CAST_EXPR: cast,
    Kind.CXX_UNARY_EXPR: size_of, Kind.DECL_STMT: declared, Kind.FOR_STMT: counted,
}
