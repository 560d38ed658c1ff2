"""Tries `gate.edits`, and the gate with another step after the proofs, with a stand-in for the kit:
how edits are judged, and when their rounds begin beside `rt ci`. Tries `prove.sh` with it, too."""
import os, pathlib, queue, shutil, subprocess, sys, tempfile, time, types
from unittest import mock

from author.lib.endings import Fault, run_tool
from author.lib.words import module_parser

from .lib import lanes
from .lib.running import ROOT
from .lib.tally import compare, tally

# A crate with an edit, a step of the gate, the kit that checks the crate, and its `rt ci`.
FILES = {
    "tree/crates/low/src/lib.rt":
        "fn first() -> u64 {\n    1\n}\n\nfn second() -> u64 {\n    2\n}\n",
    "tree/crates/low/must-fail/wrong.edit":
        "function: low::first\nfile: src/lib.rt\nold:     1\nnew:     one(2)\n",
    "tree/gate/harmless/low.edit":
        "function: low::second\nfile: src/lib.rt\nold:     2\nnew:     1 + 1\n",
    "tree/gate/late.py": """import pathlib
print(len([*pathlib.Path("crates/low/must-fail").iterdir()]), "passed, 0 failed")
""",
    "kit/rtlib.py": """import os, types
RATTLE = os.path.join(os.path.dirname(__file__), "rattle")
def crates_below(top):
    folder = os.path.join(top, "crates", "low")
    return [types.SimpleNamespace(name="low", folder=folder, below=lambda: [],
                                  words=lambda flags, keeps: flags)]
""",
    "kit/rattle": '#!/bin/sh\n. "${0%/*}/said"\n',
    "kit/rt": '#!/bin/sh\necho "rt: low proved"\n. "${0%/*}/ends"\n',
}
HARMLESS, ERROR = "fn low::second: no holes", "proofs/first/Answers.antt:1:1: error: "
OPEN = "fn low::first: no proof: expected answers in it; `search` did not prove "
NOT_PROVED, ASKS = "fn low::first: not proved", "add a line `breaks: CASE` that says in which case "
# What a check says of the edit, and what is wrong with its verdict.
VERDICTS = [
    ([OPEN + "`returns`", HARMLESS], ""),
    ([OPEN + "`returns`, `one-requires`; it calls `low::one`", HARMLESS], ""),
    ([OPEN + "`two-requires`", HARMLESS], ""),
    ([OPEN + "`one-requires`, `in-Ok-one-requires-clause-found`", HARMLESS], ""),
    (["fn low::first: no holes", HARMLESS], "wrong: NOT REFUSED: low::first: no holes"),
    ([HARMLESS], "wrong: NOT REFUSED: low::first: the check does not name it"),
    ([ERROR + "`returns`: it differs", NOT_PROVED, HARMLESS],
     f"wrong: a proof file refused it: {ASKS}it breaks the contract"),
    ([ERROR + "`c.gone` is not in scope", NOT_PROVED, HARMLESS],
     "wrong: NOT REFUSED: low::first: not proved"),
    ([OPEN + "`returns`", "fn low::second: not proved"],
     "low::second: a harmless edit was refused: not proved"),
    (["proofs/Lib.antt:1:1: error: it differs", OPEN + "`returns`", HARMLESS],
     "proofs/Lib.antt: an error that no edit explains: it differs"),
]


class Room:
    """A folder with a tree of one crate, the modules of the gate and a stand-in for the kit."""

    def __init__(self, name):
        self.folder = pathlib.Path(name)
        for part in ("gate", "author/lib"):
            shutil.copytree(ROOT / part, self.folder / "tree" / part,
                            ignore=shutil.ignore_patterns("harmless"))
        for path, text in FILES.items():
            self.write(path, text)
        # No round waits for memory here.
        file = self.folder / "tree/gate/lib/lanes.py"
        before, found, after = file.read_text().partition("SETTLED = 4_000_000,")
        if not found:
            raise Fault(f"{file} sets ROOM otherwise", 3)
        file.write_text(f"{before}SETTLED = 1,{after}")

    def write(self, path, text):
        file = self.folder / path
        file.parent.mkdir(parents=True, exist_ok=True)
        file.write_text(text)
        file.chmod(0o755)

    def check_says(self, lines):
        self.write("kit/said", "".join(f"echo '{line}'\n" for line in lines))

    def run(self, *words, program=sys.executable):
        """Runs Python or another program in the tree, with the kit on the PATH and a CDPATH that
        leads elsewhere. Returns the status and the lines."""
        kit, cache, other = (str(self.folder / name) for name in ("kit", "cache", "other"))
        done = subprocess.run(
            [program, *words], cwd=self.folder / "tree", stdout=subprocess.PIPE,
            stderr=subprocess.STDOUT, text=True,
            env={**os.environ, "PATH": f"{kit}:{os.environ['PATH']}", "XDG_CACHE_HOME": cache,
                 "CDPATH": other})
        return done.returncode, done.stdout.split("\n")[:-1]


def verdicts(room):
    """Has `gate.edits` judge what a check says."""
    for said, wrong in VERDICTS:
        room.check_says(said)
        status, lines = room.run("-m", "gate.edits", "--anew")
        faults = [line.removeprefix("  ") for line in lines if line.startswith("  ")]
        yield compare(f"a verdict on {said}", (bool(wrong), [wrong] if wrong else []),
                      (status, faults))


def kept(room):
    """Has a round judged until its verdict is right, which is kept."""
    for at, before in [(4, ""), (0, ""), (4, " judged before,")]:
        room.check_says(VERDICTS[at][0])
        yield compare(f"a round,{before or ' anew'}",
                      f"low, round 1: 1 edits,{before} 0 refused by a proof file",
                      room.run("-m", "gate.edits")[1][0])


def malformed(room):
    """Has edits that lack a line, or have one of no meaning, and a harmless one of a crate without
    edits, which are refused before a check."""
    edit = "tree/crates/low/must-fail/malformed.edit"
    for text, fault in [
            ("function: low::first\nfile: src/lib.rt\nold:     1\n", "no line `new:`"),
            (FILES["tree/crates/low/must-fail/wrong.edit"] + "break: 1\n",
             "a line of no meaning: break: 1")]:
        room.write(edit, text)
        status, lines = room.run("-m", "gate.edits")
        yield compare(fault, (1, [fault]), (status, [line.rpartition(".edit: ")[2]
                                                     for line in lines]))
    (room.folder / edit).unlink()
    alone = room.folder / "tree/gate/harmless/gone.edit"
    alone.touch()
    yield compare("a harmless edit alone", (1, [
        f"refused: {alone}: its crate has no edits in must-fail/"]), room.run("-m", "gate.edits"))
    alone.unlink()


def gates(room):
    """Runs the gate with one step after the proofs, which is emptied in the checkout then. An
    `rt ci` that fails ends the edits."""
    words = ["-c", "import sys; from gate import gate; gate.STEPS = ['gate.late']; "
             "sys.exit(gate.main())", "--anew"]
    late = "tree/gate/late.py"
    passes = f">'{room.folder / late}'; echo 3 passed, 0 failed"
    for name, at, ends, expected in [
            ("all is right", 0, passes, (0, "6 passed, 0 failed")),
            ("an edit is not refused", 4, passes, (1, "5 passed, 1 failed")),
            ("`rt ci` fails", 0, f"{passes}; exit 1", (1, "3 passed, 1 failed"))]:
        room.check_says(VERDICTS[at][0])
        room.write("kit/ends", ends + "\n")
        room.write(late, FILES[late])
        status, lines = room.run(*words)
        yield compare(f"a gate: {name}", expected, (status, lines[-1]))
    begun = room.folder / "kit/begun"
    room.write("kit/said", f"echo $$ >'{begun}.new'; mv '{begun}.new' '{begun}'; exec sleep 60\n")
    room.write("kit/ends", f"for one in $(seq 600); do [ -e '{begun}' ] && echo 1 passed, 1 failed "
               "&& exit 1; sleep 0.1; done\n")
    status, lines = room.run(*words)
    yield compare("a gate: `rt ci` fails beside an edit", (1, "1 passed, 1 failed"),
                  (status, lines[-1]))
    number = begun.read_text().strip() if begun.exists() else "self"
    # A process that is killed has no words, and then no folder.
    words = pathlib.Path("/proc", number, "cmdline")
    yield compare("the words of its check", b"", words.read_bytes() if words.exists() else b"")


def proves(room):
    """Has prove.sh prove the crate, with a CDPATH that leads elsewhere, and an empty list."""
    room.write("other/gate/none", "")
    room.write("kit/ends", "")
    for crates, expected in [("low: itoa\n", (0, "low")),
                             ("", (1, "prove.sh: no crates in crates.txt"))]:
        room.write("tree/crates.txt", crates)
        status, lines = room.run("gate/prove.sh", program="sh")
        yield compare(f"prove.sh, crates {crates!r}", (expected, 1), (
            (status, lines[-1].partition("  ")[0]), len(lines)))


def beside():
    """Begins the rounds of three crates, one upon another, beside an `rt ci`, one at a time."""
    begun, said = [], queue.SimpleQueue()
    proofs, below = lanes.Proofs(lambda: said.get(timeout=20)), []
    crates = []
    for name in ("low", "middle", "high"):
        kit_crate = types.SimpleNamespace(name=name, rlib="none", below=[*below].copy)
        below.append(kit_crate)
        crates.insert(0, types.SimpleNamespace(kit_crate=kit_crate))

    def judge(crate):
        begun.append(crate.kit_crate.name)
        is_middle = crate.kit_crate.name == "middle"
        said.put("rt: middle is kept: an earlier run proved it\n" if is_middle else "")
        while is_middle and "middle" not in proofs.names:
            time.sleep(0.01)
        return crate.kit_crate.name

    said.put("rt: low: its tests are proved\n")
    said.put("rt: low proved\n")
    with mock.patch.object(lanes, "ROOM", 1):  # no round waits for memory
        actual = list(lanes.in_lanes([(crate,) for crate in crates], judge, 1, proofs))
    yield compare("rounds beside `rt ci`", (["middle", "high", "low"],) * 2, (begun, actual))


def trials():
    with tempfile.TemporaryDirectory(prefix="cwtune-edits-trials-") as name:
        room = Room(name)
        yield from kept(room)
        yield from verdicts(room)
        yield from malformed(room)
        yield from gates(room)
        yield from proves(room)
    yield from beside()


def main():
    module_parser("gate.edits_trials", __doc__).parse_args()
    return tally(trials())


if __name__ == "__main__":
    run_tool(main)
