"""Asks the modules for help, and runs them with a program that does not exist or always fails. Has
cases refused, and an option of pmars.sh, and looks whether `classes.py` has something to write and
whether CDPATH may lead a script elsewhere.

Each module of `gate` that can be run has to be in the lists of gate.gate and of gate/__init__.py,
but for those that are run by hand.
"""
import contextlib, pathlib, re, sys, tempfile
from unittest import mock

import gate.lib, pmars.compare
from author.lib.adapt import Unwritable
from author.lib.endings import Fault, run_tool
from author.lib.words import module_parser

from . import documents
from .gate import EDITS, STEPS
from .lib.running import ROOT, ran, ran_module
from .lib.tally import compare, tally

ROOMS = ["author", "bench", "gate", "pmars", "release"]
# The end of a module that can be run, and a line of one that takes a program alone.
MAIN, TAKES_PROGRAM = '\nif __name__ == "__main__":\n', "import program_word\n"
# The modules of gate that are no step after the proofs.
NO_STEPS = {"gate.gate", "gate.answers", EDITS}
# The other modules that take a program, as their last word, by the command that builds it.
REFUSED = {
    "make build": ["author.tests.run", "author.tests.own_folders", "gate.play_cases",
                   "release.manual none", "bench.measure --program", "bench.loop_place --program",
                   "bench.limit --pmars=none --program", "bench.searches none --program",
                   "bench.races --results=none --program", "bench.naive 1 1 none none --program"],
    "make pmars": ["pmars.compare", "bench.measure --pmars", "bench.random_pairs --pmars",
                   "bench.races --results=none --pmars"],
    "rt test": ["gate.refuse.growth"],
}
FAILING = "/bin/false"
TALLY = "from gate.lib.tally import *; exit(tally([('a', []), ('b', LeftOut('no x'))]))"
# What a case says that is refused, and what is said of it.
CASES = {'words = "asm $smal dat.red"': "no words for `$smal`\n",
         'words = "asm \'dat.red"': "`words`: No closing quotation\n",
         "status = 0": "`words` is missing\n",
         'words = "asm dat.red"\nstate = 1': "unknown key `state`\n",
         'words = "asm dat.red"\nstatus = "0"': "`status` is of type str, not int\n",
         'words = "asm dat.red"\nreport = ["1"]': "`report` has six values, in place of `out`\n",
         'words = "asm dat.red"\nvalues."a b" = [["0"]]':
             "a (1: '0'): not a text for each of `a b`\n",
         'words = "asm dat.red"\nvalues = { a = [], b = [] }': "`values` has more than one key\n",
         '[files]\n"dat.red" = "DAT 1"': "gate/inputs.toml has `dat.red`, too\n"}


def failing():
    """Gives modules a program that always fails: they have to say so, in a line."""
    status, _, err = ran_module("gate.shares", FAILING)
    yield compare(f"gate.shares {FAILING}", (1, ""), (status, err))
    said = "error: no crate is called none, or it has no proofs\n"
    yield compare("gate.answers none", (2, "", said), ran_module("gate.answers", "none"))
    words = ["bench.searches", "--kinds=best", "--program", FAILING, "examples/tuning/stone.red"]
    said = "failed: stone.red: a search ended with status 1\n"
    yield compare(" ".join(words), (3, "", said), ran_module(*words))
    yield "a listing of pMARS that is refused", refused_listing()
    with (mock.patch.multiple(pmars.compare, adapt=mock.Mock(side_effect=Unwritable("")),
                              ADAPTED=pathlib.Path("none")), contextlib.redirect_stdout(None)):
        wrong = pmars.compare.compare_adapted(pmars.compare.Programs(FAILING, FAILING, ""))
    yield compare("no text can be written, so all but ROUNDS count as wrong",
                  len(pmars.compare.TEXTS) - 1, wrong)
    yield "a command of a document that takes too long", left_running()
    yield from left_out()
    for text, said in CASES.items():
        yield compare(f"a case with {text!r}", (1, "", said), played(text))


def left_out():
    """Has trials counted of which one is left out, without CWTUNE_ALL and with it."""
    for value, expected in [("", (0, "left out: b: no x\n1 passed, 0 failed\n")),
                            ("1", (1, "b: left out\nleft out: b: no x\n1 passed, 1 failed\n"))]:
        actual = ran([sys.executable, "-c", TALLY], CWTUNE_ALL=value)
        yield compare(f"a trial that is left out, {value!r}", (*expected, ""), actual)


def played(text):
    """Plays a case of which a text says all but the name. Returns how that ends; the name of the
    case's file is left out of what is said."""
    with tempfile.TemporaryDirectory() as folder:
        path = pathlib.Path(folder, "a.toml")
        path.write_text(f'[[case]]\nname = "a"\n{text}\n')
        status, out, err = ran_module("gate.play_cases", FAILING, path)
        return status, out, err.removeprefix(f"refused: {path}: ").removeprefix("a: ")


def refused_listing():
    """Reads a listing that `cwtune asm` refuses. Returns what is wrong, in a list."""
    with tempfile.TemporaryDirectory() as folder:
        try:
            return [f"got {pmars.compare.Programs(FAILING, '/bin/echo', folder).listing('')!r}"]
        except Fault:
            return []


def left_running():
    """Types a command that takes too long. Returns what is wrong, in a list."""
    # `sleep` does not hold the pipe: else `typed` would wait until it is over.
    run = documents.Run("", "sleep 99 >/dev/null 2>&1 & echo $! >pid; wait", "")
    with tempfile.TemporaryDirectory() as folder, mock.patch.object(documents, "SECONDS", 2):
        documents.typed(FAILING, [run], folder)
        pid = pathlib.Path(folder, "pid").read_text().strip()
        return ["it goes on"] * pathlib.Path(f"/proc/{pid}/cwd").exists()


def modules_of(rooms, text=""):
    """Returns the names of the modules of some rooms whose files have a text."""
    return {".".join(path.relative_to(ROOT).with_suffix("").parts)
            for room in rooms for path in (ROOT / room).rglob("*.py")
            if path.stem != "__init__" and text in path.read_text("utf-8")}


def listed():
    """Compares the lists of modules with the files that are there."""
    run_in_gate = modules_of(["gate"], MAIN)
    steps = {words.split()[0] for words in STEPS if words.startswith("gate.")}
    yield same("gate.gate", run_in_gate - NO_STEPS, steps)
    first = {f"gate.{name}" for name in re.findall("(?m)^([a-z_.]+)(?:  .*)?$", gate.__doc__)}
    yield same("gate/__init__.py", run_in_gate, first)
    named = first | {f"gate.{name}" for name in re.findall("`([a-z_.]+)`", gate.__doc__)}
    named |= {f"gate.lib.{name}" for name in re.findall("(?m)^([a-z_]+)  ", gate.lib.__doc__)}
    yield same("gate/__init__.py, with libraries,", named & modules_of(["gate"]),
               modules_of(["gate"]))


def same(name, modules, listed):
    """Compares the modules that are there with a list of them."""
    return compare(f"{name} lists other modules than are there", [], sorted(modules ^ listed))


def led_elsewhere():
    """Returns the scripts with a `cd` that leave CDPATH set."""
    texts = {path.name: path.read_text() for path in [*ROOT.glob("*/*.sh"), ROOT / ".ci/run"]}
    return [name for name, text in texts.items()
            if re.search(r"\bcd ", text) and "\nunset CDPATH\n" not in text]


def trials():
    yield from listed()
    for module in sorted(modules_of(ROOMS, MAIN)):
        status, out, _ = ran_module(module, "--help")
        yield compare(f"{module} --help", (0, f"usage: python3 -m {module}"), (
            status, out.partition(" [")[0]))
    status, _, err = ran_module("gate.cuts", "none", "x")
    yield compare("a word too many", (2, "gate.cuts: error: unrecognized arguments: x\n"), (
        status, err.rpartition("python3 -m ")[2]))
    yield compare("the tables of classes", (0, "", ""),
                  ran([sys.executable, "crates/mars_core/classes.py", "--check"]))
    yield compare("scripts that CDPATH may lead elsewhere", [], led_elsewhere())
    yield compare("pmars.sh takes no options", (2, "", "use: pmars/pmars.sh [FOLDER]\n"),
                  ran(["sh", "pmars/pmars.sh", "--help"]))
    refused = [("make build", module) for module in sorted(modules_of(ROOMS, TAKES_PROGRAM))]
    refused += [(command, module) for command, modules in REFUSED.items() for module in modules]
    for command, module in refused:
        said = f"error: no program none (`{command}` builds one)\n"
        yield compare(f"{module} none", (2, "", said), ran_module(*module.split(), "none"))
    yield from failing()


def main():
    module_parser("gate.runners", __doc__).parse_args()
    return tally(trials())


if __name__ == "__main__":
    run_tool(main)
