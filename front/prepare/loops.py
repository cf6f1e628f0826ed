"""Loops: what moves by the same in each turn is told by the turn, and the condition says how many turns there are."""

from dataclasses import dataclass, replace

from .forms import Form, ONE, ZERO, fresh
from .nest import Guard, Loop, Pointer, UNKNOWN
from .reading import Node


class Later:
    """A form that holds where its row does: the value behind a loop whose turns aren't fewer than none."""

    def __init__(self, form, row):
        self.form, self.row = form, row


@dataclass(frozen=True)
class Head:
    """A loop as it is read: what its turns change, by how much each moves where that is told, and what each is at first; the variable
    that counts; and its condition, step and body."""

    node: object
    changed: dict
    moves: dict
    start: dict
    counter: object
    condition: object
    step: object
    body: object


@dataclass(frozen=True)
class Count:
    """How a loop counts: its name, the turn as a form of it, its first value, and whether it runs upward."""

    name: str
    turn: Form
    first: Form
    upward: bool


def is_unit(form):
    return form is not None and form.is_number() and abs(form.constant()) == 1


class Loops:
    """The part of the reading of a nest that treats loops."""

    def run_loop(self, node, first, condition, step, body):
        extra = self.begin_loop(first)
        if condition is None:
            self.refuse(node, "a loop without a condition")
            return
        changed = self.changed([condition, step, body])
        moves, swaps = self.moves(changed, condition, step, body)
        start = {key: self.current(it) for key, it in changed.items()}
        counter = self.counter(changed, moves, start, condition)
        if counter is None:
            on_data = any(it.kind == "name" and it.declaration.key in self.data for it in condition.walk())
            self.refuse(node, "a loop whose condition depends on data" if on_data else "a loop whose variable doesn't move by the same in each turn")
            self.lose(changed)
            return
        head = Head(node, changed, moves, start, counter, condition, step, body)
        if swaps:
            self.run_swapped(head, swaps)
        else:
            self.run_counted(head, extra)

    def begin_loop(self, first):
        """What stands first is done; of `i = max(a, b)` the loop begins with a, and b is a row."""
        target = first
        if first is not None and first.kind == "declare" and len(first.kids) == 1:
            target = first.kids[0]
        given = target.kids[-1] if target is not None and target.kind in ("assign", "variable") and target.kids else None
        found = extremes(given) if given is not None else None
        if found is None or not (target.kind == "variable" or target.kids[0].kind == "name" and target.op == "="):
            if first is not None:
                self.expression(first)
            return None
        forms = [self.integer(it) for it in found[1]]
        it = target.declaration if target.kind == "variable" else target.kids[0].declaration
        if not all(isinstance(form, Form) for form in forms):
            self.env[it.key] = UNKNOWN
            return None
        self.env[it.key] = forms[0]
        return it.key, found[0], forms[1:]

    def lose(self, changed):
        for key in changed:
            self.env[key] = UNKNOWN

    def turn(self, condition, step, body):
        """One turn: what the condition does, the body, the step."""
        rows = self.condition(condition)
        self.run_all([body] if body.kind != "block" else body.kids)
        if step is not None:
            self.expression(step)
        return rows

    def moves(self, changed, condition, step, body):
        """By how much each variable moves in a turn (None where that differs), and which pointers change places."""
        saved, heads = dict(self.env), {}
        for key, it in changed.items():
            heads[key] = fresh("@", it.name)
            self.env[key] = Form.of(heads[key]) if it.sort == "whole" else Pointer((heads[key],), (ZERO,))
        self.dry += 1
        self.turn(condition, step, body)
        self.dry -= 1
        ends, self.env = self.env, saved
        mine, keys = set(heads.values()), {head: key for key, head in heads.items()}
        moves, swaps = {}, {}
        for key, head in heads.items():
            end = self.settled(ends.get(key))
            moves[key] = None
            if isinstance(end, Form):
                by = end - Form.of(head)
            elif isinstance(end, Pointer) and end.key == (head,) and len(end.subs) == 1:
                by = end.subs[0]
            else:
                if isinstance(end, Pointer) and end.key[0] in keys and end.key != (head,) and end.subs == (ZERO,) and len(end.key) == 1:
                    swaps[key] = keys[end.key[0]]
                continue
            if not by.names() & mine and by.loops() <= set(self.open):
                moves[key] = by
        return moves, {key: other for key, other in swaps.items() if swaps.get(other) == key}

    def settled(self, end):
        """What a variable is at the end of a turn; where a loop in it was counted, that its turns aren't fewer than none is needed."""
        if not isinstance(end, Later):
            return end
        if not self.dry:
            self.needs.append((end.row, "a loop doesn't end before it begins"))
        return end.form

    def counter(self, changed, moves, start, condition):
        """The variable by which the turns are counted: one of the condition, moving by one if there is such a one."""
        asked = {it.declaration.key for it in condition.walk() if it.kind == "name"}
        fit = [key for key in changed if key in asked and moves[key] is not None and moves[key] != ZERO
               and isinstance(start[key], (Form, Pointer))]
        ones = [key for key in fit if is_unit(moves[key]) and isinstance(start[key], Form)]
        return (ones or fit or [None])[0]

    def bind(self, changed, moves, start, turn):
        """Each variable at the head of a turn."""
        for key in changed:
            by, first = moves[key], start[key]
            if by is None or first is UNKNOWN:
                self.env[key] = UNKNOWN
            else:
                self.env[key] = first + by * turn if isinstance(first, Form) else first.moved(by * turn)

    def counted_by(self, head):
        by, first = head.moves[head.counter], head.start[head.counter]
        name = fresh("%", head.changed[head.counter].name)
        if is_unit(by) and isinstance(first, Form):
            return Count(name, (Form.of(name) - first).times(by.constant()), first, by.constant() > 0)
        return Count(name, Form.of(name), ZERO, True)

    def run_counted(self, head, extra):
        node, count = head.node, self.counted_by(head)
        name, upward = count.name, count.upward
        if extra is not None:
            by = head.moves[head.counter]
            if extra[0] != head.counter or not is_unit(by) or (extra[1] == "max") != upward:
                self.refuse(node, "a loop that begins at a least or greatest value")
                return
            head = replace(head, moves={key: by if key == head.counter else None for key in head.moves})
        self.bind(head.changed, head.moves, head.start, count.turn)
        self.open.append(name)
        limits, entries = self.limits(node, self.condition(head.condition), count)
        if entries and extra is not None:
            self.refuse(node, "a loop that begins at a least or greatest value")
        inside = [(">=", Form.of(name) - it if upward else it - Form.of(name)) for it in (extra[2] if extra else [])]
        inside += [(">=", it - Form.of(name) if upward else Form.of(name) - it) for it in limits[1:]]
        self.guarded += bool(entries or inside)
        made = self.collected(lambda: self.rest_of_turn(head.step, head.body))
        self.guarded -= bool(entries or inside)
        self.open.pop()
        if not limits:
            self.refuse(node, "a loop whose last turn the sizes don't tell")
            self.lose(head.changed)
            return
        turns = self.turns(count, limits)
        self.end(head.changed, head.moves, head.start, turns if not (len(limits) > 1 or entries or inside) else None, head.condition)
        if made:
            loop = Loop(name, count.first, limits[0], upward, [Guard(inside, made)] if inside else made, self.source.line(node.start))
            self.items += [Guard(entries, [loop])] if entries else [loop]

    def turns(self, count, limits):
        """How many turns there are up to the first of the last values."""
        return (limits[0] - count.first if count.upward else count.first - limits[0]).plus(1)

    def rest_of_turn(self, step, body):
        self.run_all([body] if body.kind != "block" else body.kids)
        if step is not None:
            self.expression(step)

    def end(self, changed, moves, start, turns, condition):
        """The variables behind the loop, where the turns are told; the condition is asked once more."""
        if turns is not None and (not turns.is_number() or turns.constant() >= 0) and turns.of_sizes():
            self.bind(changed, moves, start, turns)
            self.dry += 1
            self.condition(condition)
            self.dry -= 1
            for key in changed:
                if isinstance(self.env[key], Form) and moves[key] != ZERO and not turns.is_number():
                    self.env[key] = Later(self.env[key], (">=", turns))
                elif isinstance(self.env[key], Pointer) and moves[key] != ZERO and not turns.is_number():
                    self.env[key] = Later(self.env[key], (">=", turns))
            return
        for key in changed:
            self.env[key] = start[key] if moves[key] == ZERO else UNKNOWN

    def limits(self, node, cases, count):
        """(last values, all of which hold; rows for the loop as a whole)."""
        if cases is None:
            self.refuse(node, "a loop whose condition depends on data")
            return [ZERO], []
        lists = cases[0]
        if len(lists) == 2 and all(len(rows) == 1 for rows in lists) and lists[0][0][1] + lists[1][0][1] == Form.number(-2):
            lists = [self.ending(node, lists, count)]
        if len(lists) != 1:
            self.refuse(node, "a loop whose condition joins by ||")
            return [ZERO], []
        found = ([], [])
        for op, row in lists[0]:
            self.limit(node, op, row, count, found)
        return found

    def ending(self, node, lists, count):
        """Of `i != end` the side on which the loop ends, which is assumed to be where it begins."""
        name, first, upward = count.name, count.first, count.upward
        for rows in lists:
            by = rows[0][1].coefficient(name)
            if by is not None and by.is_number() and by.constant() == (-1 if upward else 1):
                at_first = rows[0][1].put(name, first).plus(1)
                self.needs.append(((">=", at_first), "the loop with != ends"))
                if not at_first.of_sizes():
                    self.refuse(node, "a loop with != that isn't known to end")
                return rows
        self.refuse(node, "a loop with != whose step may not meet its end")
        return []

    def limit(self, node, op, row, count, found):
        """One row of a loop's condition: a last value, or a row for the loop as a whole."""
        (limits, entries), name, upward = found, count.name, count.upward
        by = row.coefficient(name)
        if by is None or op == "==" and by != ZERO:
            self.refuse(node, "a loop whose condition isn't affine")
        elif by == ZERO:
            entries.append((op, row))
        elif not by.is_number():
            self.limit_by_size(node, by, row.without(name), upward, limits)
        elif (by.constant() < 0) == upward:
            rest, size = row.without(name), abs(by.constant())
            floor = self.floor(rest, size)
            if floor is None:
                self.refuse(node, "a loop whose last turn the sizes don't tell")
                return
            limits.append(floor if upward else -floor)
        else:
            entries += [it for it in [(op, row.put(name, count.first))] if not (it[1].is_number() and it[1].constant() >= 0)]

    def limit_by_size(self, node, by, rest, upward, limits):
        """A step by a size: how many turns there are is a size of its own."""
        if not upward or not by.of_sizes() or not rest.of_sizes() or len(by.terms) != 1 or min(by.terms.values()) > 0:
            self.refuse(node, "a loop whose last turn the sizes don't tell")
            return
        said = f"the number of turns of the loop at line {self.source.line(node.start)}, ({rest.text()}) / ({(-by).text()}) rounded down, and 1"
        limits.append(self.sizes.size(("turns", by, rest), f"turns_{self.source.line(node.start)}", said).plus(-1))
        self.words.append(f"{(-by).text()} is at least 1")

    def floor(self, form, number):
        """`form / number` rounded down, where forms tell it."""
        if number == 1:
            return form
        exact = form.plus(-(form.constant() % number)).divided(number)
        if exact is not None:
            return exact
        return self.sizes.quotient(form, number) if form.of_sizes() else None

    def run_swapped(self, head, swaps):
        """A loop in which two pointers change places: two turns in one, and the last of an odd number behind."""
        node, changed, start, count = head.node, head.changed, head.start, self.counted_by(head)
        self.bind(changed, head.moves, start, count.turn)
        self.open.append(count.name)
        limits, entries = self.limits(node, self.condition(head.condition), count)
        self.open.pop()
        turns = self.turns(count, limits) if len(limits) == 1 else None
        if turns is None or entries or not turns.of_sizes():
            self.refuse(node, "pointers that change places in a loop whose turns the sizes don't tell")
            self.lose(changed)
            return
        half = self.quotient(turns, 2)
        pair = fresh("%", changed[head.counter].name)
        swapped = {key: start[swaps.get(key, key)] for key in changed}
        self.open.append(pair)
        made = []
        for begin, at in ((start, Form.of(pair).times(2)), (swapped, Form.of(pair).times(2).plus(1))):
            made += self.collected(lambda: self.one_turn(head, swaps, begin, at))
        self.open.pop()
        self.items.append(Loop(pair, ZERO, half - ONE, True, made, self.source.line(node.start)))
        self.guarded += 1
        last = self.collected(lambda: self.one_turn(head, swaps, start, half.times(2)))
        self.guarded -= 1
        self.items.append(Guard([(">=", turns - half.times(2) - ONE)], last))
        self.lose(changed)

    def one_turn(self, head, swaps, begin, at):
        self.bind(head.changed, {key: ZERO if key in swaps else by for key, by in head.moves.items()}, begin, at)
        self.dry += 1
        self.condition(head.condition)
        self.dry -= 1
        self.rest_of_turn(head.step, head.body)


def extremes(node):
    """`a < b ? a : b` and its like: ("min" or "max", [a, b]); None for another expression."""
    if node.kind != "select" or node.kids[0].kind != "binary" or node.kids[0].op not in ("<", "<=", ">", ">="):
        return None
    left, right = node.kids[0].kids
    words = [plain_words(it) for it in (left, right, node.kids[1], node.kids[2])]
    less = node.kids[0].op[0] == "<"
    if words[:2] == words[2:]:
        return ("min" if less else "max"), [left, right]
    if words[:2] == words[:1:-1]:
        return ("max" if less else "min"), [left, right]
    return None


def plain_words(node):
    return node.kind, node.op, node.name, node.number, tuple(plain_words(it) for it in node.kids)


def joined(op, left, right):
    made = Node("binary", [left, right], left.start, right.end)
    made.op, made.sort = op, "whole"
    return made
