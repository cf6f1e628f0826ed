"""Tests of the module: worked values, which README.md and the pages compute by hand, and refusals with their text."""

import itertools
import os
import re
import sys
import tempfile
import unittest

TOP = os.path.normpath(os.path.join(os.path.dirname(os.path.abspath(__file__)), "../../.."))
sys.path.insert(0, os.path.join(TOP, "package/python"))

import iolb
from iolb import nests, programs, report, sizes
from iolb.polynomials import Polynomial

try:
    import sympy
except ImportError:
    sympy = None
try:
    import matplotlib

    matplotlib.use("Agg")
except ImportError:
    matplotlib = None

PRODUCT_BOUND = """assume N - 1 >= 0
branch 0
  partition count N^3 credits 0 T 2*S + 0 U^2*27 <= 1*(S + T)^3
branch 1
  cold N^2
  cold N^2
  cold N^2
branches 2
"""


def text_of(name):
    with open(os.path.join(TOP, name), encoding="utf-8") as file:
        return file.read()


class Sizes(unittest.TestCase):
    def test_units(self):
        for text, number in (("64", 64), ("1e6", 10**6), ("2^20", 1 << 20), ("32K", 32768), ("64KiB/8", 8192), ("1.5M", 3 << 19), ("1,000", 1000), ("10kB/3", 3333)):
            self.assertEqual(sizes.whole(text), number)
        self.assertEqual(sizes.whole("32KiB", 8), 4096)
        self.assertEqual(sizes.whole("32K", 8), 32768)
        self.assertEqual(sizes.named("N=1e6"), ("N", 10**6))
        self.assertEqual(sizes.named("M=-3"), ("M", -3))
        self.assertEqual(sizes.words_of_memory("1K,64,64"), [64, 1024])

    def test_refusals(self):
        for text, why in (
            ("many", "many isn't a size: write it as 4096, 1e6, 2^20, 32K (of 1024) or 64KiB/8"),
            ("1.5", "1.5 isn't a whole number below 2^63"),
            ("1e99", "1e99 is too great"),
            ("8KiB/0", "8KiB/0 is divided by 0"),
        ):
            with self.assertRaisesRegex(iolb.Fault, "^%s$" % re.escape(why)):
                sizes.whole(text)
        with self.assertRaisesRegex(iolb.Fault, "^N isn't a size by name, as N=1000$"):
            sizes.named("N")


class Polynomials(unittest.TestCase):
    def test_texts(self):
        triangle = Polynomial.of("(N^2 - N)/2")
        self.assertEqual(triangle.value({"N": 5}), 10)
        self.assertEqual(str(triangle * Polynomial.of("2*M + 1")), "(2*M*N^2 - 2*M*N + N^2 - N)/2")
        self.assertEqual(str(Polynomial.of("N - N")), "0")
        with self.assertRaisesRegex(iolb.Fault, r"^N/M isn't a polynomial$"):
            Polynomial.of("N/M")

    def test_sums(self):
        squares = Polynomial.of("i^2").summed("i", Polynomial.of("1"), Polynomial.of("N"))
        self.assertEqual(squares, Polynomial.of("(2*N^3 + 3*N^2 + N)/6"))


class Bounds(unittest.TestCase):
    """README.md computes by hand that the product's bound is 65,408 for S = 64 and N = 64: 511 stretches of 128 loads."""

    def test_values(self):
        bound = iolb.Bound.of(PRODUCT_BOUND)
        self.assertEqual(bound.values(64, {"N": 64}), [511 * 128, 3 * 64**2])
        self.assertEqual(bound.value(64, {"N": 64}), 65408)
        self.assertEqual(bound.branches[0].terms[0].most(64), 512)

    def test_winner(self):
        """For N = 14 and S = 256 a stretch of 512 loads has at most 4,096 points, more than there are: 3 * 14^2 inputs are more."""
        rows = iolb.Bound.of(PRODUCT_BOUND).table([64, 256], {"N": 14})
        self.assertEqual(rows[0], {"S": 64, "bound": 640, "branch": 0, "branches": [640, 588]})
        self.assertEqual(rows[1], {"S": 256, "bound": 588, "branch": 1, "branches": [0, 588]})

    def test_sweeps(self):
        bound = iolb.Bound.of("branch 0\n  wavefront N*M - M - S*(N - 1)\nbranches 1\n")
        self.assertEqual([bound.value(s, {"N": 11, "M": 20}) for s in (1, 20, 50)], [200 - 10, 0, 0])

    def test_leading(self):
        bound = iolb.Bound.of(PRODUCT_BOUND)
        self.assertEqual([it.leading() for it in bound.branches], ["2*N^3/sqrt(S)", "3*N^2"])

    def test_formulas(self):
        bound = iolb.Bound.of(PRODUCT_BOUND)
        text = "branch 0: max(0, (2*S)*floor((N^3 - 1)/U)) with U = floor(sqrt((3*S)^3/27))\nbranch 1: N^2 + N^2 + N^2"
        self.assertEqual(bound.formula(), text)
        self.assertIn(r"\left\lfloor\frac{N^{3} - 1}{\left\lfloor \sqrt{\frac{\left(3\,S\right)^{3}}{27}}\right\rfloor}\right\rfloor", bound.formula("latex"))
        self.assertIn('"assume": ["N - 1"]', bound.formula("json"))

    def test_refusals(self):
        bound = iolb.Bound.of(PRODUCT_BOUND)
        for act, why in (
            (lambda: iolb.Bound.of("branch 0\n  warm N\n"), "warm N isn't a line of a bound"),
            (lambda: bound.value(64, {}), "N has no size: give N=.."),
            (lambda: bound.value(64, {"N": 0}), "N - 1 >= 0 is assumed, and isn't so at these sizes"),
            (lambda: bound.value(0, {"N": 9}), "S is at least 1, and 0 isn't"),
            (lambda: bound.formula("word"), "a formula is text, latex, sympy or json, and word isn't"),
        ):
            with self.assertRaisesRegex(iolb.Fault, "^%s$" % re.escape(why)):
                act()


class Programs(unittest.TestCase):
    def test_product(self):
        made = iolb.bound(text_of("examples/matmul.c"))
        self.assertEqual(made.value("512B/8", N="64"), 65408)
        self.assertIn("branches 2", made.checked())
        self.assertIn("about 2*N^3/sqrt(S)", made.words())

    def test_evaluates_as_iolb(self):
        """The values are those that `iolb eval` prints."""
        for name in ("lu", "durbin", "heat-3d", "cholesky"):
            made = iolb.bound(text_of("bench/polybench/%s.c" % name))
            given = dict.fromkeys(made.bound.parameters(), 100)
            with programs.kept(made.program, "p.c") as path, programs.kept(made.certificate, "c.json") as certificate:
                printed = programs.called("iolb", "eval", path, certificate, 64, *("%s=100" % it for it in given))[0]
            self.assertEqual([int(it.split()[-1]) for it in printed.splitlines()], [*made.values(64, **given), made.value(64, **given)])

    def test_unread(self):
        with self.assertRaises(iolb.Fault) as why:
            iolb.bound("#pragma scop\nfor (i = 0; i < N; i += 2) A[i] = 0;\n#pragma endscop\n")
        self.assertTrue(str(why.exception).startswith("program.c:2:20: error: the loop doesn't step by one"), str(why.exception))

    def test_reads_counted(self):
        """The product's partition term counts words of all three reads, and each cold term those of one."""
        made = iolb.bound(text_of("examples/matmul.c"))
        self.assertEqual(programs.reads_counted(made.certificate), [[[(0, 0), (0, 1), (0, 2)]], [[(0, 0)], [(0, 1)], [(0, 2)]]])

    @unittest.skipIf(sympy is None, "python3-sympy isn't installed")
    def test_expression(self):
        for name, memory in itertools.product(("examples/matmul.c", "bench/polybench/heat-3d.c", "bench/polybench/durbin.c"), (64, 1000)):
            made = iolb.bound(text_of(name))
            given = dict.fromkeys(made.bound.parameters(), 4321)
            expression = made.expression()
            known = {it: {"S": memory, **given}[it.name] for it in expression.free_symbols}
            self.assertEqual(expression.subs(known), made.value(memory, **given))

    @unittest.skipIf(matplotlib is None, "python3-matplotlib isn't installed")
    def test_plot(self):
        made = iolb.bound(text_of("examples/matmul.c"))
        axes = made.plot([16, 64, 256], [os.path.join(TOP, "examples/matmul-tiles.json")], N=14)
        bound, tiles = axes.get_lines()
        self.assertEqual(list(bound.get_ydata()), [1344, 640, 588])  # as docs/USING.md has them
        self.assertEqual(list(tiles.get_ydata()), [3192, 956, 588])


class Pages(unittest.TestCase):
    @unittest.skipIf(sympy is None or matplotlib is None, "python3-sympy or python3-matplotlib isn't installed")
    def test_using(self):
        """The lines of Python in docs/USING.md run, and have the values that stand behind them."""
        lines = re.findall(r"(?m)^    (.*)$", text_of("docs/USING.md").split("## In Python")[1].split("## ")[0])
        names, before = {}, os.getcwd()
        os.chdir(TOP)
        try:
            for line in lines:
                words, _, said = (it.strip() for it in line.partition("#"))
                found = eval(words, names) if words.startswith("made.") else exec(words, names)
                if said.startswith(("[", "6")):
                    self.assertEqual(str(found), said)
        finally:
            os.chdir(before)


class Nests(unittest.TestCase):
    def test_operations(self):
        runs = nests.runs_of(text_of("bench/polybench/cholesky.c"))
        self.assertEqual([it.operations for it in runs], [2, 1, 2, 1])
        self.assertEqual([str(it.count()) for it in runs], ["(N^3 - 3*N^2 + 2*N)/6", "(N^2 - N)/2", "(N^2 - N)/2", "N"])
        self.assertEqual(nests.operations_at(runs, {"N": 4}), 4 * 2 + 6 + 6 * 2 + 4)

    def test_calls_and_subscripts(self):
        runs = nests.runs_of("#pragma scop\nfor (i = N - 1; i > 0; i--) A[i - 1] = max(-A[2*i + 1], 1.0) * c;\n#pragma endscop\n")
        self.assertEqual((runs[0].operations, str(runs[0].count())), (2, "N - 1"))

    def test_not_counted(self):
        runs = nests.runs_of("#pragma scop\nfor (i = 0; i < N; i++) if (i < M) A[i] = B[i] + 1;\n#pragma endscop\n")
        self.assertIsNone(nests.operations_at(runs, {"N": 9, "M": 3}))
        empty = nests.runs_of("#pragma scop\nfor (i = 0; i < N; i++) for (j = i + 2; j < N; j++) A[i] = B[j] + 1;\n#pragma endscop\n")
        self.assertIsNone(nests.operations_at(empty, {"N": 9}))
        with self.assertRaisesRegex(iolb.Fault, "^there are 1 statements, and the operations of 2 are given$"):
            nests.operations_at(runs, {"N": 9, "M": 3}, [1, 2])


class Reports(unittest.TestCase):
    def made(self, **more):
        schedules = [os.path.join(TOP, "examples/matmul-tiles.json")]
        return report.Report("matmul", iolb.bound(text_of("examples/matmul.c")), [16, 64, 256], {"N": 14}, schedules=schedules, **more)

    def test_page(self):
        """The numbers are those of docs/USING.md: 956 loads beside a bound of 640 at S = 64, so 316 of 956 can be saved at most."""
        page = self.made().page()
        self.assertIn("loads at least <b>640 words</b> (5 KiB)", page)
        self.assertIn("loads <b>956</b>: at most 33.1 percent of its loads can be saved", page)
        self.assertIn("<td>64</td><td>512 bytes</td><td>640</td><td>5 KiB</td><td>0</td><td>956</td><td>≤ 33.1 %</td>", page)
        self.assertIn("5,488 operations in all", page)  # 2 * 14^3
        self.assertIn("<td>64</td><td>8.575</td><td>1.072</td><td>5.741</td>", page)  # 5488/640, /8, 5488/956
        self.assertIn("Of the sizes: <code>N - 1 &gt;= 0</code>", page)

    def test_marks(self):
        page = self.made().page()
        self.assertIn('title="read 1 of statement 0: counted by 0a, 1b">A[i][k]<sup>0a,1b</sup></mark>', page)

    def test_changes(self):
        """The partition term falls below 3 * 14^2 = 588 where 2S*floor(2743/U) does: U = floor(S^1.5)."""
        found = report.changes(self.made())
        self.assertEqual((found[0], found[1][1]), ((16, 0), 1))
        least = found[1][0]
        worth = [2 * s * (2743 // int(s**1.5)) for s in (least - 1, least)]
        self.assertTrue(worth[0] >= 588 > worth[1], (least, worth))

    def test_needs_nothing_else(self):
        page = self.made().page()
        for what in ("<script", "src=", "href=", "url(", "@import"):
            self.assertNotIn(what, page)

    def test_given(self):
        self.assertIn("27,440 operations in all, as they were given", self.made(operations=[10]).page())
        self.assertIn("<td>64</td><td>256 bytes</td><td>640</td><td>2.5 KiB</td>", self.made(word=4).page())

    def test_nothing_found(self):
        program = "#pragma scop\nfor (i = 0; i < N; i++) A[i] = 0;\n#pragma endscop\n"
        page = report.Report("zero", iolb.bound(program), [16], {"N": 5}).page()
        self.assertIn("nothing was found that has to be loaded", page)

    def test_unknown_size(self):
        with self.assertRaisesRegex(iolb.Fault, "^M is no parameter of matmul, which has N$"):
            report.Report("matmul", iolb.bound(text_of("examples/matmul.c")), [16], {"N": 5, "M": 3})


if __name__ == "__main__":
    unittest.main()
