"""Tries the file CERT.inputs, which a tuning writes beside its certificate.

Its text is compared with one that is made from the words and the files; nothing else of a run may
depend on it.
"""
import os, pathlib, signal, tempfile

from author.lib.endings import run_tool
from author.lib.program import version_of
from author.lib.words import program_word

from .lib import cert_inputs, inputs
from .lib.inputs import RULES
from .lib.play import SECONDS, Place, end, report
from .lib.tally import compare, tally

FILES = inputs.files("dat.red", "imp.red", "both.csv", "first.csv", "imps.red", "step.red",
                     "tail.red", "empty.red")
TUNE = ["tune", *RULES, "imps.red", "both.csv", "CERT", "dat.red", "imp.red"]
OTHERS = [*(["tune", *options, *TUNE[1:]]
            for options in [["--all"], ["--cache", "7"], ["--part=2/3"]]),
          ["tune", *RULES, "--", "./imps.red", "both.csv", "CERT", "imp.red", "dat.red"],
          ["tune", "--core=400", "--distance", "50", "--length=50", "imps.red", "wide.csv", "CERT",
           "dat.red"]]
REPORT = report(4, 4, 0, "K=0", "4 of 6", "2 of 8")
OLD = "cwtune inputs 1\nof an older certificate\n"
HOLDS = ("  a certificate holds only for its own template, schedule, opponents in order, rules and "
         "part\n")
SAME = ("  all of these are the tuning's, so its --keep or --floor was another, or the certificate "
        "itself is wrong\n")
TAKEN = "error: CERT is also another file of this command, and is not overwritten: CERT\n"
# A tuning of about a second.
SLOW = {"slow.red": ";@tune K 1 800 1 1\nSPL 0, <K\nJMP -1\n",
        "slow.csv": "opponent,position,first\n0,4000,c\n"}
TUNE_SLOWLY = ["tune", "--progress", "slow.red", "slow.csv", "CERT", "imp.red"]
KIND = "error: CERT.inputs is a text of another kind, and is not overwritten: CERT.inputs\n"
NAMED = "error: CERT.inputs is also a file of this command, and is not overwritten: CERT.inputs\n"


class TuningPlace(Place):
    """A folder with the files of the trials."""

    def __init__(self, program, folder, version):
        wide = {"wide.csv": "opponent,position,first\n0,100,c\n"}
        super().__init__(program, folder, FILES | SLOW | wide)
        self.version, self.inputs_path = version, self.folder / "CERT.inputs"

    def inputs(self, words):
        """Runs a tuning. Returns CERT.inputs, and what it has to be."""
        self.run(words, keep=True)
        actual = self.read("CERT.inputs")
        return actual, cert_inputs.text_of(words, self.folder, self.version)

    def remove_inputs(self):
        """Removes CERT.inputs, which a program at fault may not have written."""
        self.inputs_path.unlink(missing_ok=True)

    def at_terminal(self, words):
        """Returns what a terminal shows at the end of a run, progress aside."""
        return self.run(words, terminal=True).err.decode().rpartition("\x1b[K")[2]


def texts(place):
    for words in [TUNE, *OTHERS]:
        actual, expected = place.inputs(words)
        yield compare(" ".join(words), expected, actual)


def replaced(place):
    """Has older files replaced."""
    for name, old in [("an older one", OLD), ("an empty one", "")]:
        place.write("CERT.inputs", old)
        actual, expected = place.inputs(TUNE)
        yield compare(f"{name} is replaced", expected, actual)
    place.write("CERT.inputs", OLD)
    place.inputs_path.chmod(0o2640)
    place.inputs(TUNE)
    mode = place.inputs_path.exists() and place.inputs_path.stat().st_mode & 0o7777
    yield compare("permissions stay", 0o2640, mode)
    place.write("elsewhere", OLD)
    place.remove_inputs()
    place.inputs_path.symlink_to("elsewhere")
    actual, expected = place.inputs(TUNE)
    yield compare("a link is followed", (expected, expected), (actual, place.read("elsewhere")))
    place.remove_inputs()


def kept(place):
    """Has files that stay as they are."""
    good = end(0, REPORT, CERT=inputs.FILES["imps.cert"])
    (place.folder / "CERT").unlink()
    place.write("CERT.inputs", "a text\n")
    yield compare("another text stays", end(2, err=KIND), place.run(TUNE))
    place.write("CERT.inputs", OLD)
    yield compare("a refused tuning leaves it",
                  end(1, err="refused: Template line 1 EmptyRange\n"),
                  place.run(["tune", *RULES, "empty.red", *TUNE[-4:]]))
    words = [*TUNE[:-2], "/dev/null", *TUNE[-2:]]
    words.remove("CERT")
    yield compare("a device has none", end(0, REPORT), place.run(words))
    place.remove_inputs()
    place.inputs_path.mkdir()
    yield compare("a folder stays", good, place.run(TUNE))
    place.inputs_path.rmdir()
    place.inputs_path.symlink_to("/dev/null")
    yield compare("a link to a device stays", (good, True),
                  (place.run(TUNE), place.inputs_path.is_symlink()))
    place.remove_inputs()
    os.link(place.folder / "imp.red", place.inputs_path)
    yield compare("a file of the tuning stays", end(2, err=NAMED), place.run(TUNE))
    place.remove_inputs()
    cert = place.folder / "CERT"
    place.inputs_path.symlink_to(cert)
    yield compare("a link to CERT, which is to come, stays", (good, True),
                  (place.run(TUNE), place.inputs_path.is_symlink()))
    cert.touch()
    yield compare("a link to CERT is refused", end(2, err=NAMED), place.run(TUNE))
    cert.unlink()
    place.remove_inputs()
    cert.symlink_to(place.inputs_path)
    yield compare("CERT that leads to CERT.inputs stays there",
                  end(0, REPORT, files={"CERT.inputs": inputs.FILES["imps.cert"]}),
                  place.run(TUNE))
    cert.unlink()


def unwritable(place):
    """Has a name that the file cannot hold."""
    place.write("CERT.inputs", OLD)
    place.write("a\nb", FILES["dat.red"])
    words = [*TUNE[:-2], "a\nb", "imp.red"]
    yield compare("an older one goes if a new one cannot be written",
                  end(0, REPORT, CERT=inputs.FILES["imps.cert"], files={"CERT.inputs": None}),
                  place.run(words))


def meanwhile(place):
    """Has files come while a tuning runs, and standard output go to CERT."""
    for name, text, status in [("CERT", b"a text\n", 3), ("CERT.inputs", b"a text\n", 0),
                               ("CERT.unfinished-1", b"", 0)]:
        for one in "CERT", "CERT.inputs":
            (place.folder / one).unlink(missing_ok=True)
        with place.start(TUNE_SLOWLY) as process:
            line = process.stderr.readline()
            process.send_signal(signal.SIGSTOP)
            place.write(name, text)
            process.send_signal(signal.SIGCONT)
            err = process.communicate(timeout=SECONDS)[1]
        yield compare(f"{name} comes meanwhile", (True, status, status == 3, text),
                      (line.startswith(b"0% "), process.returncode, b"\nfound: " in err,
                       place.read(name)))
        cert = place.read("CERT") or b""
        yield compare(f"{name} comes meanwhile: CERT", status == 0, cert.startswith(b"cwcert,"))
    place.remove_inputs()
    for name in "CERT", "CERT.unfinished-1":
        (place.folder / name).unlink(missing_ok=True)
    with open(place.folder / "CERT", "wb") as file:
        yield compare("standard output is CERT", end(2, err=TAKEN), place.run(TUNE, stdout=file))


def checks(place):
    """Checks with other inputs, at a terminal."""
    place.remove_inputs()
    place.run(TUNE, keep=True)
    other = ["check", *RULES, "imps.red", "both.csv", "CERT", "imp.red", "dat.red"]
    for name, words, lines in [
        ("swapped opponents", other, "  imp.red is not the tuning's opponent 0\n"
                                     "  dat.red is not the tuning's opponent 1\n"),
        ("other rules", ["check", "--core=16", "--cycles=21", "--tasks=4", "--length=4",
                         "--distance=4", "step.red", "both.csv", "CERT", "dat.red", "imp.red",
                         "imp.red"],
         "  rules 16 21 4 4 4, and the tuning had rules 16 20 4 4 4\n"
         "  step.red is not the tuning's template\n"
         "  the tuning had 2 opponents, and this check has 3\n"),
        ("another schedule, and fewer opponents",
         ["check", *RULES, "imps.red", "first.csv", "CERT", "dat.red"],
         "  first.csv is not the tuning's schedule\n"
         "  the tuning had 2 opponents, and this check has 1\n"),
        ("another part", ["check", "--part=2/2", *TUNE[1:]],
         "  part 2/2, and the tuning had part 1/1\n"),
    ]:
        yield compare(f"{name} at a terminal", HOLDS + lines, place.at_terminal(words))
        yield compare(f"{name} in a pipe", b"", place.run(words).err)


def rejections(place):
    """Checks certificates that are not of the tuning, or show too little, at a terminal."""
    unknown = HOLDS + "  CERT.inputs {}, so it is not known whether one of these differs\n"
    place.run(TUNE, keep=True)
    text, said = place.read("CERT"), place.read("CERT.inputs") or b""
    wrong = text.replace(b"0:3", b"0:1")
    place.write("CERT", wrong)
    check = ["check", *TUNE[1:]]
    yield compare("a changed certificate", unknown.format("is of another certificate"),
                  place.at_terminal(check))
    digests = [cert_inputs.digest_of(cert).encode() for cert in (text, wrong)]
    place.write("CERT.inputs", said.replace(*digests))
    yield compare("a wrong certificate with its digest", HOLDS + SAME, place.at_terminal(check))
    place.remove_inputs()
    yield compare("without CERT.inputs", unknown.format("cannot be read"), place.at_terminal(check))
    os.mkfifo(place.inputs_path)
    yield compare("a FIFO", unknown.format("cannot be read"), place.at_terminal(check))
    place.remove_inputs()
    place.write("CERT.inputs", said.replace(b"inputs 1", b"inputs 2"))
    yield compare("another form", unknown.format("is of another form"), place.at_terminal(check))
    place.write("CERT.inputs", said.replace(*digests).replace(b"rules 16", b"rules \x1b[2J"))
    yield compare("rules that would steer a terminal", HOLDS + "  rules 16 20 4 4 4, and the "
                  "tuning had rules of another form\n", place.at_terminal(check))
    tail = [*RULES, "tail.red", *TUNE[-4:]]
    place.run(["tune", *tail], keep=True)
    yield compare("a ranking that the tuning did not find",
                  HOLDS + SAME, place.at_terminal(["check", "--keep=3", *tail]))
    place.run(["tune", "--floor=5", *TUNE[1:]], keep=True)
    yield compare("a floor that no setting reaches, and that the check does not name",
                  HOLDS + SAME, place.at_terminal(check))


def main():
    program = program_word("gate.cert_inputs_trials", __doc__)
    with tempfile.TemporaryDirectory() as folder:
        place = TuningPlace(program, pathlib.Path(folder), version_of(program))
        return tally([*texts(place), *replaced(place), *kept(place), *unwritable(place),
                      *meanwhile(place), *checks(place), *rejections(place)])


if __name__ == "__main__":
    run_tool(main)
