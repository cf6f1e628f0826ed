"""One page about a program: its bound, schedules beside it, and what that means, as HTML that needs nothing else."""

import os
import re
from dataclasses import dataclass, field
from html import escape

from iolb import curves, mathml, nests, programs
from iolb.bounds import Cold, Wavefront
from iolb.command import Fault

STYLE = """
body { font: 15px/1.5 sans-serif; color: #222; max-width: 62em; margin: 2em auto; padding: 0 1em; }
h1 { font-size: 1.6em; margin-bottom: .2em; } h2 { font-size: 1.2em; margin-top: 1.8em; border-bottom: 1px solid #ccc; }
h3 { font-size: 1em; margin: 1.2em 0 .3em; }
pre { background: #f6f6f6; padding: .8em; overflow-x: auto; line-height: 1.75; } code { background: #f6f6f6; }
table { border-collapse: collapse; font-variant-numeric: tabular-nums; } th, td { padding: .2em .7em; text-align: right; border-bottom: 1px solid #ddd; }
td { white-space: nowrap; } th { background: #f0f0f0; } td.name, th.name { text-align: left; }
.answer { background: #eef4fa; border-left: 4px solid #2471a3; padding: .6em 1em; } .small { color: #555; font-size: .9em; }
mark { padding: .05em .15em; border-radius: .2em; } mark sup { font-size: .65em; line-height: 0; }
mark.none { background: none; border-bottom: 2px dotted #c0392b; } math { font-size: 1.1em; } details { margin: .5em 0; }
"""
LEGEND = 232  # browsers' fonts are wide
SHADES = ["#cfe3f5", "#fbdcc4", "#d5ecd0", "#e9d7f1", "#fbf0b8", "#d1eeee", "#f6d1d8", "#e3e0d3"]


@dataclass
class Report:
    """What a report is made of: the program, its bound, numbers of words, sizes, bytes of a word, operations, and plays of schedules."""

    name: str
    made: programs.Made
    memories: list
    sizes: dict
    word: int = 8
    operations: list = None
    schedules: list = field(default_factory=list)

    def __post_init__(self):
        self.listing = programs.listing(self.made.program)
        unknown = [it for it in self.sizes if it not in self.listing.parameters]
        if unknown:
            raise Fault("%s is no parameter of %s, which has %s" % (unknown[0], self.name, ", ".join(self.listing.parameters) or "none"))
        self.bound, self.given = self.made.bound, self.sizes_of()
        self.rows = self.bound.table(self.memories, self.sizes)
        self.plays = self.made.compared(self.schedules, self.memories, self.sizes) if self.schedules else []
        self.counted = programs.reads_counted(self.made.certificate)
        self.work = nests.operations_at(nests.runs_of(self.made.program), self.sizes, self.operations)
        self.made.checked()

    def sizes_of(self):
        return ", ".join("%s = %s" % (name, grouped(self.sizes[name])) for name in self.listing.parameters)

    def play(self, schedule, memory):
        """The row of a schedule with so many words."""
        return next((it for it in self.plays if it["schedule"] == schedule and it["S"] == memory), None)

    def played(self):
        """The schedules' names, as the rows have them, in order."""
        return list(dict.fromkeys(row["schedule"] for row in self.plays))

    def winners(self):
        """The branches that win at an S of the table, in the order in which they do."""
        return list(dict.fromkeys(row["branch"] for row in self.rows if row["branch"] is not None))

    def page(self):
        title = "%s: what it has to load" % self.name
        sections = [answer, program, formulas, table, picture, intensity, assumed]
        parts = ["<h1>%s</h1>" % escape(title), *(section(self) for section in sections)]
        head = '<!DOCTYPE html>\n<html lang="en">\n<head>\n<meta charset="utf-8">\n<title>%s</title>\n<style>%s</style>\n</head>' % (escape(title), STYLE)
        return "\n".join([head, "<body>", *parts, "</body>", "</html>", ""])


def grouped(number):
    """A whole number with commas between thousands."""
    return "{:,}".format(number)


def in_bytes(count):
    """A number of bytes in the greatest unit of 1024 of which it has one."""
    for unit, size in (("TiB", 1 << 40), ("GiB", 1 << 30), ("MiB", 1 << 20), ("KiB", 1 << 10)):
        if count >= size:
            return "%.4g %s" % (count / size, unit)
    return "%d bytes" % count


def short(schedule):
    """A schedule's name without its folder and ending; divisors of a family of schedules stand behind it."""
    path, _, divisors = schedule.partition(" ")
    return os.path.splitext(os.path.basename(path))[0] + (" " + divisors if divisors else "")


def gap(bound, loads):
    """How many percent of the loads can be saved at most."""
    return 100 * (loads - bound) / loads if loads else 0.0


def memory_of(report, memory):
    return "S = %s words (%s)" % (grouped(memory), in_bytes(memory * report.word))


def best_at(report, row):
    """The schedule with the fewest loads at a row's S, and its loads; None where none is played."""
    plays = [it for it in report.plays if it["S"] == row["S"] and it["loads"] is not None]
    return min(plays, key=lambda it: it["loads"], default=None)


def answer(report):
    """The page's first words: the bound at an S in the middle, and what the best schedule leaves to gain."""
    row = report.rows[len(report.rows) // 2]
    place = " at %s" % escape(report.given) if report.given else ""
    where = "With a fast memory of %s%s," % (memory_of(report, row["S"]), place)
    if not row["bound"]:
        return '<p class="answer">%s nothing was found that has to be loaded. That is no statement that nothing is.</p>' % where
    said = ["every execution loads at least <b>%s words</b> (%s)" % (grouped(row["bound"]), in_bytes(row["bound"] * report.word))]
    said.append(", in whatever order it computes and whatever it keeps.")
    best = best_at(report, row)
    if best:
        words = " The best of the schedules here, %s, loads <b>%s</b>: at most %.1f percent of its loads can be saved."
        said.append(words % (escape(short(best["schedule"])), grouped(best["loads"]), gap(row["bound"], best["loads"])))
    return '<p class="answer">%s %s</p>' % (where, "".join(said))


def label(branch, term):
    """What a term is called: the number of its branch and a letter."""
    letters, rest = "", term + 1
    while rest:
        rest, letter = divmod(rest - 1, 26)
        letters = chr(97 + letter) + letters
    return "%d%s" % (branch, letters)


def labels_of(report, place, branches):
    """The terms of branches that count a read, which is a statement and a read of it."""
    return [label(branch, term) for branch in branches for term, reads in enumerate(report.counted[branch]) if place in reads]


def shade_of(report, place):
    """The colour of a read: that of the first term that counts it, of the first winning branch that has one."""
    for branch in report.winners():
        for term, reads in enumerate(report.counted[branch]):
            if place in reads:
                return SHADES[term % len(SHADES)]
    return None


def reference_end(line, start):
    """Where a reference ends that begins in a line: behind its name and its subscripts."""
    end = re.compile(r"[A-Za-z_]\w*").match(line, start).end()
    while found := re.compile(r"\s*\[[^\[\]]*\]").match(line, end):
        end = found.end()
    return end


def marks_of(report):
    """For each line, its marks: first and last column, the read's text, and what marks it."""
    marks, every = {}, range(len(report.counted))
    for number, statement in enumerate(report.listing.statements):
        for read, it in enumerate(statement.reads):
            place = (number, read)
            shown, all_terms = labels_of(report, place, report.winners()), labels_of(report, place, every)
            shade = shade_of(report, place)
            style = ' style="background: %s"' % shade if shade else ' class="none"' if not all_terms else ' style="background: #eee"'
            title = "read %d of statement %d: counted by %s" % (read, number, ", ".join(all_terms) or "no term")
            marks.setdefault(it.line, {})[it.column - 1] = (style, title, ",".join(shown))
    return marks


def marked(line, marks):
    """A line of the program with its marks; columns are those of bytes."""
    parts, place = [], 0
    for start, (style, title, shown) in sorted(marks.items()):
        end = reference_end(line, start)
        parts.append(escape(line[place:start]))
        sup = "<sup>%s</sup>" % shown if shown else ""
        parts.append('<mark%s title="%s">%s%s</mark>' % (style, escape(title), escape(line[start:end]), sup))
        place = end
    return "".join(parts) + escape(line[place:])


def program(report):
    """The program, with its reads marked."""
    marks = marks_of(report)
    lines = report.made.program.rstrip("\n").split("\n")
    shown = "\n".join(marked(line, marks.get(number, {})) for number, line in enumerate(lines, 1))
    words = "Each read has the colour of a term that counts its words, and the names of all such terms of the branches below. A read with a"
    words += " dotted line is counted by no term: it may be kept, or nothing was shown of it."
    return "<h2>The program</h2>\n<pre>%s</pre>\n<p class=\"small\">%s</p>" % (shown, words)


def changes(report):
    """Which branch wins from which S on: pairs of an S and a branch, the first at the least S of the table."""
    found = [(report.rows[0]["S"], report.rows[0]["branch"])]
    for before, after in zip(report.rows, report.rows[1:]):
        low, high = before["S"], after["S"]
        while after["branch"] != found[-1][1] and high - low > 1:
            middle = (low + high) // 2
            if report.bound.winner(middle, report.sizes) == found[-1][1]:
                low = middle
            else:
                high = middle
        if after["branch"] != found[-1][1]:
            found.append((high, after["branch"]))
    return found


def won(report, branch):
    """Where a branch wins, in words."""
    ranges, all_changes = [], changes(report)
    for place, (memory, it) in enumerate(all_changes):
        if it == branch:
            last = all_changes[place + 1][0] - 1 if place + 1 < len(all_changes) else None
            ranges.append("from S = %s %s" % (grouped(memory), "on" if last is None else "to %s" % grouped(last)))
    return ", and ".join(ranges)


def reads_named(report, reads):
    """The texts of reads, with their lines."""
    found = [report.listing.statements[statement].reads[read] for statement, read in reads]
    return ", ".join(dict.fromkeys("<code>%s</code> in line %d" % (escape(it.text), it.line) for it in found))


def term_words(report, term, reads):
    """What a term counts, in words."""
    where = reads_named(report, reads)
    if isinstance(term, Cold):
        return "input words that differ, each loaded at least once: %s" % where
    if isinstance(term, Wavefront):
        return "words that a computation in between drives out, all but S of them at each turn: %s" % where
    points = "%s instances" % mathml.row(mathml.polynomial(term.count))
    words = "words that are loaded again and again (%s). Of <math>%s</math> a stretch of T = %s loads computes at most U = <math>%s</math>"
    stretch = term.parts("%dS")[0]
    tail = ", and each whole stretch is worth T; never less than 0. About <code>%s</code> where all is great." % escape(term.leading())
    return words % (where, points, stretch, mathml.most(term)) + tail


def branch_part(report, number, memory):
    """A branch: its formula, and its terms in words, with their values at an S."""
    terms = report.bound.branches[number].terms
    inside = mathml.sign("+").join(mathml.term(term) for term in terms) or mathml.number(0)
    items = []
    for place, (term, reads) in enumerate(zip(terms, report.counted[number])):
        worth = "%s words at S = %s" % (grouped(term.value(memory, report.sizes)), grouped(memory))
        shade = SHADES[place % len(SHADES)]
        items.append('<li><mark style="background: %s">%s</mark> %s. <span class="small">%s.</span></li>' % (
            shade, label(number, place), term_words(report, term, reads).rstrip("."), worth))
    return "%s\n<ul>\n%s\n</ul>" % (mathml.shown(mathml.row(inside)), "\n".join(items))


def formulas(report):
    """The bound as formulas and in words: first the branches that win, then the others."""
    parts = ["<h2>The bound</h2>"]
    if not report.bound.branches:
        return parts[0] + "<p>Nothing was found: there is no branch. The warnings at the end may say why.</p>"
    parts.append("<p>The bound is the greatest of %d branches; each is the sum of its terms, and holds at all sizes.</p>" % len(report.bound.branches))
    memory = report.rows[len(report.rows) // 2]["S"]
    for number in report.winners():
        parts.append("<h3>Branch %d is the greatest %s</h3>" % (number, won(report, number)))
        parts.append(branch_part(report, number, memory))
    others = [it for it in range(len(report.bound.branches)) if it not in report.winners()]
    if others:
        inside = "\n".join("<h3>Branch %d</h3>\n%s" % (it, branch_part(report, it, memory)) for it in others)
        parts.append("<details><summary>%d more, which are the greatest nowhere in the table</summary>\n%s</details>" % (len(others), inside))
    return "\n".join(parts)


def table_head(report):
    heads = ["S", "bytes", "bound, words", "bytes", "branch"]
    for name in report.played():
        heads += ["%s loads" % short(name), "can be saved"]
    return "<tr>%s</tr>" % "".join("<th>%s</th>" % escape(it) for it in heads)


def play_cells(report, row, name):
    play = report.play(name, row["S"])
    if play is None or play["loads"] is None:
        return ["–", "–"]
    return [grouped(play["loads"]), "≤ %.1f %%" % gap(row["bound"], play["loads"])]


def table(report):
    """The bound and the schedules' loads over S."""
    lines = [table_head(report)]
    for row in report.rows:
        branch = "–" if row["branch"] is None else str(row["branch"])
        cells = [grouped(row["S"]), in_bytes(row["S"] * report.word), grouped(row["bound"]), in_bytes(row["bound"] * report.word), branch]
        for name in report.played():
            cells += play_cells(report, row, name)
        lines.append("<tr>%s</tr>" % "".join("<td>%s</td>" % it for it in cells))
    reasons = dict.fromkeys("%s: %s" % (short(it["schedule"]), it["reason"]) for it in report.plays if it.get("reason"))
    notes = "".join('<p class="small">%s</p>' % escape(it) for it in reasons)
    given = " at %s" % escape(report.given) if report.given else ""
    words = '<p class="small">Loads%s; a word has %d bytes. "Can be saved" is what no other order can better: at most so many percent.</p>'
    return "<h2>Over the size of the memory</h2>\n<table>\n%s\n</table>\n%s%s" % ("\n".join(lines), words % (given, report.word), notes)


def lines_of(report):
    """The bound at each S, and each schedule's loads."""
    loads = {}
    for row in report.plays:
        line = loads.setdefault(short(row["schedule"]), {})
        if row["loads"] is not None:
            line[row["S"]] = row["loads"]
    return {row["S"]: row["bound"] for row in report.rows}, loads


def picture(report):
    """The bound and the schedules as curves."""
    title = "%s%s" % (report.name, ", " + report.given if report.given else "")
    return "<h2>Picture</h2>\n" + curves.picture(title, *lines_of(report), LEGEND)


def intensity(report):
    """Operations for each word that is loaded: what no execution is above, and what the schedules have."""
    head = "<h2>Operational intensity</h2>\n"
    if report.work is None:
        return head + "<p>The operations weren't counted, since a statement stands under a condition, or a loop may be empty. Give their number.</p>"
    names = report.played()
    lines = ["<tr><th>S</th><th>operations a word, at most</th><th>a byte, at most</th>%s</tr>" % "".join("<th>%s, a word</th>" % escape(short(it)) for it in names)]
    for row in report.rows:
        most = report.work / row["bound"] if row["bound"] else None
        cells = [grouped(row["S"]), "–" if most is None else "%.4g" % most, "–" if most is None else "%.4g" % (most / report.word)]
        for name in names:
            play = report.play(name, row["S"])
            cells.append("%.4g" % (report.work / play["loads"]) if play and play["loads"] else "–")
        lines.append("<tr>%s</tr>" % "".join("<td>%s</td>" % it for it in cells))
    source = "as they were given for the statements" if report.operations else "the operators and calls of the statements"
    words = '<p>%s operations in all, %s. Whatever is done, no more of them come to a word that is loaded than the second column says;' % (grouped(report.work), source)
    words += " where a machine computes more in the time in which it loads a word, the memory is what it waits for. Stores come on top.</p>"
    return head + words + "\n<table>\n%s\n</table>" % "\n".join(lines)


def built():
    """What the program says that it was built from."""
    with open(programs.found("iolb"), "rb") as file:
        file.seek(-200, os.SEEK_END)
        found = re.search(rb"BUILT ([\x20-\x7e]+)\n?\Z", file.read())
    return found[1].decode() if found else "unknown"


def assumed(report):
    """What the numbers rest on."""
    forms = [it for it in report.listing.assumptions]
    items = ["Of the sizes: %s." % ("; ".join("<code>%s</code>" % escape(it) for it in forms) if forms else "nothing")]
    items.append("A fast memory of S words, at first empty, over a slow memory with all inputs. An iteration is computed where all words that it reads"
                 " are in the fast memory, and its result is one more word there.")
    items.append("Every iteration is computed once, in any order in which a value is there before it is used: no value is computed twice.")
    items.append("Loads are counted, word by word, each of %d bytes. Stores, lines of caches and what a cache can't hold for its own reasons come on top." % report.word)
    items.append("A schedule is played with the word dropped whose next use is furthest.")
    items.append("The bound was made by <code>iolb bound</code>, and its certificate accepted by <code>iolb check</code> (%s)." % escape(built()))
    warnings = "<h3>Warnings</h3>\n<pre>%s</pre>" % escape(report.listing.warnings) if report.listing.warnings else ""
    words = "<details><summary>The bound in the words of <code>iolb-explain</code></summary>\n<pre>%s</pre></details>"
    texts = words % escape(re.sub(r"\S*/", "", report.made.words()).rstrip())
    return "<h2>What was assumed</h2>\n<ul>\n%s\n</ul>\n%s%s" % ("\n".join("<li>%s</li>" % it for it in items), warnings, texts)
