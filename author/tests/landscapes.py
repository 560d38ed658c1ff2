"""Draws pictures by `cwtune-landscape --effects`, with a stand-in for matplotlib."""
import math, os
from unittest import mock

from author.lib import landscape, tuning_files

from .trial import TUNING, Trial

# The modules of the stand-in. A picture is the text of the calls that drew it. As matplotlib does,
# it looks for settings in the current folder, and for formulas unless it is told not to.
STAND_IN = {"__init__.py": """import os

if os.path.exists("matplotlibrc") or os.environ.get("MATPLOTLIBRC") != os.devnull:
    raise ValueError("a matplotlibrc is read")
rcParams = {"text.parse_math": True}


def use(_):
    pass
""", "pyplot.py": """import matplotlib, types


class Axes:
    def __init__(self, calls):
        self.calls = calls

    def __getattr__(self, name):
        return lambda *args, **_: self.calls.append(f"{name} {args}")


class Figure(Axes):
    def savefig(self, file, **_):
        if matplotlib.rcParams["text.parse_math"]:
            raise ValueError("a text may be a formula")
        file.write("\\n".join(self.calls).encode())


def subplots(rows=1, columns=1, squeeze=True, sharey=False, **_):
    calls = ["one scale"] * sharey
    grid = types.SimpleNamespace(flat=[Axes(calls) for _ in range(rows * columns)])
    return Figure(calls), grid.flat[0] if squeeze else grid
"""}
FILES = {
    "t.red": ";@tune K 0 1 1 0\nJMP 1-K\n",
    "list.red": ";@text JMP [K:1,0]\n;@tune K 0 1 1 0\nJMP ((K==0)*(1)+(K==1)*(0))\n",
    "two.red": ";@tune A 0 1 1 0\n;@tune B 0 2 1 0\nMOV 0, 1\n",
    "imp.red": "MOV 0, 1\n",
    "s.csv": "opponent,position,first\n0,4000,c\n",
    **{name: (TUNING / name).read_bytes() for name in ["step.red", "step.cert"]},
}
# The second picture of the certificate that `tune --all` makes of t.red.
EFFECTS = """one scale
errorbar ([0, 1], [0.0, 1.0], [0.0, 0.0])
set_xlabel ('K',)
set_ylabel ('mean total',)
suptitle ('best setting 1: K=1, total 1 of 3',)"""


class Landscapes(Trial):
    FILES = FILES

    def test_effects(self):
        for name, text in STAND_IN.items():
            self.write(f"matplotlib/{name}", text)
        self.write("matplotlibrc", "text.usetex: True\n")
        self.enterContext(mock.patch.dict(os.environ, {"PYTHONPATH": str(self.folder)}))
        self.tune("--all", "t.red", "s.csv", "t.cert", "imp.red")
        self.same("the means of all values", ((0, "", ""), EFFECTS, True), (
            self.call("cwtune-landscape t.red t.cert x.svg --effects y.svg"),
            (self.read("y.svg") or b"").decode(), b"scatter " in self.read("x.svg")))
        self.tune("--all", "list.red", "s.csv", "list.cert", "imp.red")
        self.call("cwtune-landscape list.red list.cert x.svg --effects y.svg")
        self.same("what is in a list is shown", [1, 1], [
            self.read(name).count(b"set_xticks ([0, 1], ['1', '0'])")
            for name in ["x.svg", "y.svg"]])
        self.same("settings that were dropped", (
            1, "", "refused: settings were dropped: the means need a certificate of `cwtune tune "
            "--all`\n", None, None), (
            *self.call("cwtune-landscape step.red step.cert x.png --effects y.png"),
            self.read("x.png"), self.read("y.png")))

    def test_means(self):
        template, nan = tuning_files.Template(str(self.folder / "two.red")), math.nan
        for name, totals, constant, expected in [
            ("the slower constant", [1, 2, 3, 4, nan, 6], 0, ([0, 1], [2, 5], [0.577350269, 1])),
            ("the faster constant", [1, 2, 3, 4, nan, 6], 1,
             ([0, 1, 2], [2.5, 2, 4.5], [1.5, 0, 1.5])),
            ("a value that never assembles", [1, nan, 3, 4, nan, 6], 1,
             ([0, 2], [2.5, 4.5], [1.5, 1.5])),
        ]:
            values, came, errors = landscape.effect_of(template, totals, constant)
            self.same(name, expected, (values, came, [round(error, 9) for error in errors]))
