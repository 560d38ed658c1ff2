"""Gives the commands certificates with their CERT.inputs, and files and rules of another tuning."""
import os

from author.lib.program import version_of
from gate.lib import cert_inputs

from .trial import Refusal, Trial, python, usage_errors

FILES = {
    "t.red": ";@tune K 0 1 1 0\nJMP 1-K\n",
    "other.red": ";@tune K 1 2 1 1\nJMP 2-K\n",
    "dat.red": "DAT 0\n",
    "imp.red": "MOV 0, 1\n",
    "s.csv": "opponent,position,first,weight\n0,400,c,5\n1,400,c,1\n",
    "other.csv": "opponent,position,first,weight\n0,400,c,4\n1,400,c,1\n",
}
TUNE = ["--core=800", "t.red", "s.csv", "cert", "dat.red", "imp.red"]
HOLDOUT = "cwtune-holdout --rounds 20 t.red cert"
GAIN = ("setting 1, rank 1: tuning 16 of 18 (88.9%), fresh 88.9% +- 0.0 K=1\n"
        "setting 0, rank 2: tuning 15 of 18 (83.3%), fresh 83.3% +- 0.0 K=0\n"
        "START, setting 0: tuning 15 of 18 (83.3%), fresh 83.3% +- 0.0 K=0\n"
        "over START, setting 1: +5.6% +- 0.0, a gain\n")
# Runs a command as a process with the greatest id that Linux gives.
LAST_PID = """import os; from author.lib import endings, start
os.getpid = lambda: (1 << 22) - 1; start.run("cwtune-spread")
"""
# Command lines with a file or a rule of another tuning, by what they name.
OTHER_INPUTS = [Refusal(words, 2, f"error: {message}") for words, message in [
    (HOLDOUT.replace("t.red", "other.red"), "other.red is not the template of the tuning"),
    (f"{HOLDOUT} imp.red dat.red", "imp.red is not opponent 0 of the tuning"),
    (f"{HOLDOUT} dat.red", "opponents given: 1; of the tuning: 2"),
    (f"{HOLDOUT} --core 8000", "--core is 8000, but the tuning had 800"),
    (f"{HOLDOUT} --hill nano", "--core is 80, but the tuning had 800"),
    (f"{HOLDOUT} --core 800 --hill tiny", "--cycles is 8000, but the tuning had 80000"),
    (f"{HOLDOUT} --schedule other.csv", "other.csv is not the schedule of the tuning"),
    ("cwtune-scores cert other.csv", "other.csv is not the schedule of the tuning"),
    ("cwtune-scores cert --template other.red", "other.red is not the template of the tuning"),
    ("cwtune-warrior other.red cert", "other.red is not the template of the tuning"),
    ("cwtune-warrior --cycles 9 t.red cert", "--cycles is 9, but the tuning had 80000"),
    ("cwtune-landscape other.red cert x.svg", "other.red is not the template of the tuning"),
]]


def note(why_unused):
    return f"note: {why_unused}, so files and rules cannot be compared with the tuning's\n"


class Origins(Trial):
    FILES = FILES

    def test_readers(self):
        """Runs commands whose words leave out what CERT.inputs says."""
        self.tune("--all", *TUNE)
        self.same("cwtune-holdout by CERT.inputs", (0, GAIN, ""), self.call(HOLDOUT))
        (self.folder / "below").mkdir()
        for words, below, line in [
            ("cwtune-scores cert", "", "START, setting 0, total 15, 1 less than the best K=0\n"),
            ("cwtune-warrior t.red cert", "",
             ";strategy cwtune: K=1, total 16, total of START 15\n"),
            ("cwtune-scores ../cert", "below", "best setting 1, total 16 of 18 K=1\n"),
        ]:
            status, out, err = self.call(words, below=below)
            self.same(f"{words} by CERT.inputs", (0, True, ""), (status, line in out, err))
        self.refused(OTHER_INPUTS)
        (self.folder / "s.csv").rename(self.folder / "moved.csv")
        self.refused(usage_errors("cwtune-scores", [
            ("cert", "give SCHEDULE: the schedule of the tuning is not there")]))
        self.write("t.red", FILES["other.red"])
        self.refused([Refusal(HOLDOUT, 2, "error: t.red is not the template of the tuning")])

    def test_names(self):
        """Tunes against a warrior whose name has what other readers take for a line end."""
        name = "a\rb\x0cc\x85d\u2028.red"
        self.write(name, FILES["imp.red"])
        result = self.cwtune(["tune", "--all", *TUNE[:-1], name], keep=True)
        self.same("the gate knows its CERT.inputs", ["cert"], sorted(result.files))
        self.same("a name with line ends of others", (0, GAIN, ""), self.call(HOLDOUT))

    def test_unknown(self):
        """Runs commands without a CERT.inputs that can be believed."""
        self.tune("--all", *TUNE)
        right = self.read("cert.inputs")
        for text, why_unused in [
            (None, "cert.inputs is not there"), (b"a text\n", "cert.inputs is malformed"),
            (right.replace(b"inputs 1", b"inputs 2"), "cert.inputs is malformed"),
            (right.replace(b"\ncert ", b"\ncert 1"), "cert.inputs is of another certificate"),
        ]:
            (self.folder / "cert.inputs").unlink(missing_ok=True)
            if text:
                self.write("cert.inputs", text)
            self.same(why_unused, (0, GAIN, note(why_unused)), self.call(
                f"{HOLDOUT} --core=800 --schedule s.csv dat.red imp.red"))
            for words, missing in [(HOLDOUT, "OPPONENT.."), ("cwtune-scores cert", "SCHEDULE")]:
                self.refused(usage_errors(words, [("", f"give {missing}: {why_unused}")]))

    def test_writers(self):
        for words in [["--all", *TUNE], TUNE]:
            status = self.call("cwtune-spread --jobs=2", *words).status
            expected = cert_inputs.text_of(["tune", *words], self.folder,
                                           version_of(self.program))
            self.same(f"cwtune-spread {words[0]}", (0, expected),
                      (status, self.read("cert.inputs")))
        self.same("cwtune-spread leaves nothing else", sorted([*FILES, "cert", "cert.inputs"]),
                  sorted(os.listdir(self.folder)))
        longest = "c" * 236  # so that CERT.inputs.PID.new has 255 bytes
        python(LAST_PID, f"--program={self.program}", "--jobs=1",
               *(longest if word == "cert" else word for word in TUNE), cwd=self.folder)
        self.same("a name of 236 bytes", cert_inputs.SUFFIX,
                  max(os.listdir(self.folder), key=len).removeprefix(longest))
        self.write("cert.inputs", "a text\n")
        self.refused([Refusal(" ".join(["cwtune-spread", *TUNE]), 2, "error: CERT.inputs is a text "
                              "of another kind, and is not overwritten: cert.inputs")])
