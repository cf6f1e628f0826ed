"""IOLB from Python: bounds on the words that loop nests load, as values, formulas, tables and plots.

    import iolb
    made = iolb.bound(open("matmul.c").read())
    made.value(64, N=64)                       # no execution loads fewer words into a memory of 64 words
    made.table([64, 256, "8KiB/8"], N=1000)    # rows with S, the bound and the branch that wins
    print(made.formula("latex"))               # or text, sympy, json
    made.expression()                          # for SymPy
    made.plot([16, 32, 64, 128], ["matmul-tiles.json"], N=64)

The two programs, `iolb` and `iolb-explain`, are those of the repository's bin/, of the folder that the environment's IOLB_BIN
names, or of PATH. What can't be answered is an `iolb.Fault` with a line that says why. SymPy and matplotlib are asked for only
where an expression or a plot is.
"""

from iolb.bounds import Bound
from iolb.command import Fault
from iolb.programs import Made, bound

__all__ = ["Bound", "Fault", "Made", "bound"]
