"""Short runs of every command with their ends: what memory.py, writes.py and two_devices.py run."""
import contextlib, os, pathlib, subprocess, tempfile, tomllib

from author.lib.endings import Fault

from ..lib import inputs
from ..lib.inputs import RULES
from ..lib.play import end, play, report

HERE = pathlib.Path(__file__).resolve().parent
OLD_CERT = "cwcert,1,1\nbest,0,0\ncap,0,-\n"
IMP = "ORG 0\nMOV.I $0, $1\n"
DAT = "ORG 0\nDAT.F $0, $0\n"
JUMP = "ORG 0\nJMP.B $0, $0\n"
GOOD = inputs.FILES["imps.cert"]
FILES = {
    **inputs.files("dat.red", "imp.red", "both.csv", "near.csv", "one.red", "imps.red", "step.red",
                   "tail.red", "half.red", "empty.red", "zero.red", "imps.cert"),
    "equ.red": "s EQU 2+3\nDAT #0, #s*2\n",
    "minus.red": "DAT #-7/2\n",
    "joined.red": "i FOR 2\nx&i DAT #i\nROF\nJMP x01\n",
    "open.red": "FOR 3\n",
    "points.cert": GOOD.replace("cap,2,0:3 1:1", "cap,2,0:3 1:3"),
    "short.cert": GOOD[: GOOD.rindex("same")],
    "CERT": OLD_CERT,
}


def fight(cycles, candidate, opponent):
    """Returns the text of a fight at 8 in which the candidate moves first."""
    head = f"rules 16 {cycles} 4 4 4\nfight 8 c\n"
    return f"{head}candidate\n{candidate}opponent\n{opponent}"


# Name, standard input, and the end of the run.
FIGHTS = [
    ("imps", fight(20, IMP, IMP), end(0, "tie 1 turns 40\n")),
    ("a loss", fight(20, DAT, IMP), end(0, "loss 0 turns 1\n")),
    ("a win", fight(1, IMP, DAT), end(0, "win 3 turns 2\n")),
    ("a jump", fight(20, IMP, JUMP), end(0, "tie 1 turns 40\n")),
    ("bad load file", fight(20, IMP, "ORG 0\n"),
     end(1, err="refused: Load opponent Warrior Empty\n")),
]
CHECK = "check imps.red both.csv"
# The words but for the rules, and the end of the run.
TEXTS = [
    ("asm equ.red", end(0, "ORG 0\nDAT.F #0, #8\n")),
    ("asm minus.red", end(0, "ORG 0\nDAT.F $0, #-3\n")),
    ("asm joined.red", end(0, "ORG 0\nDAT.F $0, #1\nDAT.F $0, #2\nJMP.B $-2, $0\n")),
    ("asm zero.red", end(1, err="refused: Asm line 1 Value DivisionByZero\n")),
    ("asm open.red", end(1, err="refused: Asm line 1 Expand ForWithoutRof\n")),
    (f"{CHECK} imps.cert dat.red imp.red", end(0, "accepted best 0 total 4\n")),
    ("check --share 2/2 imps.red both.csv imps.cert dat.red imp.red",
     end(0, "accepted share 2/2 best 0 total 4\n")),
    (f"{CHECK} points.cert dat.red imp.red", end(1, "rejected row 4 WrongPoints\n")),
    (f"{CHECK} short.cert dat.red imp.red", end(1, "rejected row 0 RowCount\n")),
    # setting 1 has the fights of setting 2 as they are listed, which would beat the best
    (f"{CHECK} --share=1/2 points.cert dat.red imp.red", end(1, "rejected row 3 CapTooHigh\n")),
    (f"{CHECK} --share=2/2 points.cert dat.red imp.red", end(1, "rejected row 4 WrongPoints\n")),
]
# Here the end has the certificate, if one is written.
TUNINGS = [
    ("tune one.red both.csv CERT dat.red imp.red",
     end(0, report(1, 1, 0, "-", "4 of 6", "2 of 2"), CERT=inputs.FILES["one.cert"])),
    ("tune imps.red both.csv CERT dat.red imp.red",
     end(0, report(4, 4, 0, "K=0", "4 of 6", "2 of 8"), CERT=GOOD)),
    ("tune step.red both.csv CERT dat.red imp.red",
     end(0, report(3, 2, 1, "K=1", "4 of 6", "3 of 4"),
         CERT="cwcert,1,3\nbest,1,4\nrefused,0,-\ncap,1,0:3 1:1\ncap,2,1:1\n")),
    ("tune tail.red both.csv CERT dat.red imp.red",
     end(0, report(3, 3, 0, "K=0", "4 of 6", "5 of 6"),
         CERT="cwcert,1,3\nbest,0,4\ncap,0,0:3 1:1\ncap,1,0:3 1:1\ncap,2,1:1\n")),
    ("tune --cache=2 half.red both.csv CERT dat.red imp.red",
     end(0, report(6, 6, 0, "K=0", "4 of 6", "3 of 12"),
         CERT="cwcert,1,6\nbest,0,4\ncap,0,0:3 1:1\ncap,1,1:1\nsame,2,0\nsame,3,1\nsame,4,0\n"
              "same,5,1\n")),
    ("tune one.red near.csv CERT dat.red", end(1, err="refused: Schedule row 1 BadPosition\n")),
    ("tune empty.red both.csv CERT dat.red", end(1, err="refused: Template line 1 EmptyRange\n")),
]


def with_rules(words, rules=RULES):
    """Returns the words of a command with the rules after its name."""
    name, *others = words.split()
    return [name, *rules, *others]


def version():
    """Returns what `--version` prints, as a case has it."""
    cases = tomllib.loads((HERE.parent / "cases/command-line.toml").read_text("utf-8"))["case"]
    return next(case["out"] for case in cases if case.get("words") == "--version")


def all_runs():
    """Returns name, words, standard input and the end of each run."""
    runs = [(name, [], text, expected) for name, text, expected in FIGHTS]
    settings = end(0, "vectors 3\nconstant K 3 1\n")
    runs.append(("settings step.red", ["settings", "step.red"], "", settings))
    runs.append(("--version", ["--version"], "", end(0, version())))
    return runs + [(words, with_rules(words), "", expected)
                   for words, expected in TEXTS + TUNINGS]


def run(program, library, words, files, text="", **variables):
    """Runs with the library. Returns the end. `variables` are those that the library reads, as
    SHORT=1: a byte a step."""
    variables = {name: str(value) for name, value in variables.items()}
    env = {**os.environ, **library, **variables}
    return play(program, words, files, text=text, env=env)


def refuse_each(run, count, expected, refused):
    """Refuses each request of a run in turn: `run` takes a variable for the library, and `count`
    says how many requests there are. Returns that number, and what was wrong."""
    actual = run()
    wrong = [] if actual == expected else [f"nothing refused: expected {expected}, got {actual}"]
    results = [run(REFUSE=number) for number in range(1, count() + 1)]
    wrong += [f"request {number} refused: got {result}" for number, result in enumerate(results, 1)
              if result != expected and result not in refused]
    wrong += ["no run ended out of memory"] * (not any(result in refused for result in results))
    return len(results), wrong


@contextlib.contextmanager
def library_of(source):
    """Compiles a library. Gives a block the variables that load it. Needs `cc`."""
    with tempfile.TemporaryDirectory() as work:
        words = ["cc", "-shared", "-fPIC", "-O1", "-o", f"{work}/refuse.so", HERE / source, "-ldl"]
        if subprocess.run(words).returncode != 0:
            raise Fault(f"cc does not compile {source}", 3)
        # A blank in LD_PRELOAD would end a path.
        yield {"LD_PRELOAD": "refuse.so", "LD_LIBRARY_PATH": work}
