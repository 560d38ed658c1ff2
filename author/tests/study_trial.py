"""The folder in which `cwtune-study` is played: a template, a warrior and opponents."""
import json, subprocess

from .trial import Trial

STONE = """;redcode-nano
;name Little <Stone> & "Co"
STEP EQU 4
;@tune STEP 1 9 2 5
aim EQU 3
        ADD  #STEP, 3
        MOV  2, @2
        JMP  -2
        DAT  #0, #aim
"""
WARRIOR = STONE.replace(";@tune STEP 1 9 2 5\n", "").replace("STEP EQU 4", "STEP EQU 5")
TEMPLATE = STONE.replace("STEP EQU 4\n", "")
PLANE = TEMPLATE.replace("aim EQU 3\n", ";@tune aim -4 4 1 0\n")
OPPONENTS = {"dat.red": "DAT 0, 0\n", "imp.red": "MOV 0, 1\n", "two.red": "SPL 0\nMOV 0, 1\n"}
FEW = ["--hill=nano", "--rounds=3", "--fresh=10", "--jobs=1"]


class StudyTrial(Trial):
    """A trial of `cwtune-study`, with a template, a warrior and a folder of opponents."""

    FILES = {"t.red": TEMPLATE, "w.red": WARRIOR, "p.red": PLANE,
             **{f"all/{name}": text for name, text in OPPONENTS.items()},
             # What is no opponent, though its name ends with `.red`.
             "all/.#dat.red": "an editor's\n", "all/old.red/dat.txt": "in a folder\n"}
    # The words of a study that is made before the trial, if any.
    STUDIED = ()

    def setUp(self):
        super().setUp()
        self.result = self.study(*self.STUDIED) if self.STUDIED else None

    def study(self, *words):
        return self.call("cwtune-study", *FEW, *words)

    def begin(self, *words):
        return self.started("cwtune-study", *FEW, *words, stderr=subprocess.PIPE)

    def report(self, name):
        return json.loads(self.read(f"{name}.study/report.json"))

    def own_lines(self, name, index):
        """Returns the winner's lines that are not the warrior's, but for STRATEGY at `index`."""
        lines = self.read(f"{name}.study/winner.red").decode().split("\n")
        own = self.read(f"{name}.red").decode().split("\n")
        if not lines.pop(index).startswith(";strategy cwtune: ") or len(lines) != len(own):
            return lines
        return [line for line, other in zip(lines, own) if line != other]

    def mark(self, name, **changes):
        """Returns the mark of a study, and then changes entries of it."""
        mark = json.loads(self.read(f"{name}.study/study.json") or '{"stages": {}}')
        if changes:
            self.write(f"{name}.study/study.json", json.dumps(mark | changes))
        return mark

    def stages(self, name):
        return list(self.mark(name)["stages"])

    def texts_of(self, name):
        return {path: path.read_bytes() for path in (self.folder / name).rglob("*")
                if path.is_file()}
