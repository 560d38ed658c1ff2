"""Runs `demo.sh`, `tuning/certify.py` and `slurm.sh` of `examples/`, also with what they refuse."""
import itertools, pathlib, re, signal, subprocess, sys, tempfile, time

from author.lib.endings import run_tool
from author.lib.words import program_word

from .lib import inputs
from .lib.inputs import RULES
from .lib.play import in_folder
from .lib.running import ROOT, ran, take_interrupts
from .lib.tally import compare, tally

EXAMPLES = ROOT / "examples"
DEMO = ["sh", EXAMPLES / "demo.sh"]
CERTIFY = [sys.executable, EXAMPLES / "tuning/certify.py"]
CERT = inputs.FILES["imps.cert"]
OPPONENTS = ["dat.red", "imp.red"]
WORDS = ["imps.red", "both.csv", "CERT", *OPPONENTS]
# Templates of one warrior, with a setting that does not assemble, of two warriors in turn, and with
# a second `;redcode` line.
TEMPLATES = ["imps.red", "step.red", "half.red", "twice.red"]
FILES = inputs.files("both.csv", *OPPONENTS, *TEMPLATES[:3]) | {
    "twice.red": ";redcode\n;@tune K 0 1 1 0\nMOV 0, 1+K-K\nDAT K\n;redcode again\nDAT 0, 2\n"}
# What certify.py has to say of `CERT` with a text replaced by another one.
CHECKED = {
    ("", ""): "accepted best 0 total 4",
    ("cwcert,1,4", "cwcert,1,5"): "rejected row 0 RowCount",
    ("best,0,4", "best,0,6"): "rejected row 1 BestRow",
    ("cap,2,0:3 1:1", "cap,2,0:3 0:3"): "rejected row 4 RepeatedFight",
    ("cap,2,0:3 1:1", "cap,2,0:3 1:3"): "rejected row 4 WrongPoints",
    ("cap,2,0:3 1:1", "cap,2,0:3"): "rejected row 4 CapTooHigh",
    ("same,3,2", "same,3,1"): "rejected row 5 NotSame",
    ("same,3,2", "refused,3,-"): "rejected row 5 NotRefused",
    ("same,3,2", "same,3,02"): "rejected row 5 Malformed",
    # longer than Python's `csv` takes by default
    ("same,3,2", f"same,3,{'2' * 140000}"): "rejected row 5 Malformed",
}
# Range lines with too few words, a word that is not a number, the step 0, a START between two
# values, numbers of other forms or too great, a reserved and a predefined name, a name twice, and
# nine names.
RANGES = ["K 0 5 1", "K 0 x 1 0", "K 0 5 0 0", "K 0 4 2 1", "K 0 1_0 1 0", "K +0 2 1 0",
          "K 0 000002 1 0", "K 70000 70001 1 70000", "K 0 1 -1 0", "K 0 5 65536 0", "mov 0 1 1 0",
          "VERSION 0 1 1 0", "K 0 1 1 0\n;@tune K 0 1 1 0",
          "\n;@tune ".join(f"K{index} 0 0 1 0" for index in range(9))]
REFUSED = (1, "", "refused: Template: a range line is malformed\n")


def programs(program):
    """Gives the script of `make demo` a program, one that does not exist, and a wrong one with a
    CDPATH that leads elsewhere."""
    status, out, err = ran([*DEMO, program])
    yield "demo.sh PROGRAM", [] if status == 0 else [f"got {out}{err}"]
    yield compare("demo.sh none", (1, "", "demo.sh: no program none\n"), ran([*DEMO, "none"]))
    with tempfile.TemporaryDirectory() as other:
        pathlib.Path(other, "examples").mkdir()
        status, out, err = ran(["sh", "examples/demo.sh", "/bin/true"], CDPATH=other)
    wrong = len(re.findall("(?m)^cwtune .*: not as expected", out))
    said = re.findall("(?m)^Traceback|^certify.py: .*true(: .*)", err)
    yield compare("demo.sh /bin/true: what differs", (1, True, [": not the output of cwtune"] * 2),
                  (status, wrong > 30, said))
    for kind, options in [("cwtune", []), ("a pMARS server build", ["--pmars"])]:
        words = [*CERTIFY, *options, "/bin/true", *[EXAMPLES / "warriors/dwarf.red"] * 3]
        yield compare(f"certify.py: /bin/true is not {kind}",
                      (1, "", f"certify.py: /bin/true: not the output of {kind}\n"), ran(words))


def ranges(program):
    """Gives certify.py templates with a malformed range line."""
    words = [*CERTIFY, program, "range.red", "both.csv", *OPPONENTS]
    for line in RANGES:
        with in_folder(program, {**FILES, "range.red": f";@tune {line}\nDAT K\n"}) as place:
            yield compare(f"certify.py: {line}", REFUSED, ran(words, place.folder))


def interrupted(program):
    """Interrupts certify.py while a stand-in for the program assembles."""
    with in_folder(program, FILES | {"slow": "#!/bin/sh\ntouch begun\nexec sleep 99\n"}) as place:
        (place.folder / "slow").chmod(0o755)
        job = subprocess.Popen([*CERTIFY, "./slow", "imps.red", "both.csv", *OPPONENTS],
                               cwd=place.folder, stdout=subprocess.PIPE, stderr=subprocess.PIPE,
                               preexec_fn=take_interrupts)
        while not (place.folder / "begun").exists() and job.poll() is None:
            time.sleep(0.01)
        job.send_signal(signal.SIGINT)
        out, err = job.communicate()
        yield compare("Ctrl-C in certify.py", (130, b"", b""), (job.returncode, out, err))


def searches(program):
    """Has certify.py search in the order of `tune`: certificate and report have to be the same."""
    for template, cache in itertools.product(TEMPLATES, [1, 8]):
        options = [*RULES, f"--cache={cache}"]
        with in_folder(program, FILES) as place:
            tuned = place.run(["tune", *options, template, "both.csv", "CERT", *OPPONENTS])
            actual = ran([*CERTIFY, "--like-tune", "--report=REPORT", *options, program, template,
                          "both.csv", *OPPONENTS], place.folder)
            expected = 0, tuned.files.get("CERT", b"").decode(), "", tuned.out
            yield compare(f"certify.py --like-tune --cache={cache}: {template}", expected,
                          (*actual, place.read("REPORT")))


def checks(program):
    """Has the program and certify.py check certificates."""
    for (old, new), line in CHECKED.items():
        with in_folder(program, {**FILES, "CERT": CERT.replace(old, new, 1)}) as place:
            expected = int(line.startswith("rejected")), f"{line}\n", ""
            yield compare(f"check: {line}", expected,
                          ran([program, "check", *RULES, *WORDS], place.folder))
            words = [*CERTIFY, "--check=CERT", *RULES, program, *WORDS[:2], *OPPONENTS]
            yield compare(f"certify.py --check: {line}", expected, ran(words, place.folder))


def shares(program):
    """Has slurm.sh check a share of a right certificate, and of a wrong one."""
    words = ["sh", EXAMPLES / "slurm.sh", "--check", "2", *WORDS, *RULES]
    job = {"CWTUNE": program, "SLURM_ARRAY_TASK_ID": "2"}
    wrong = CERT.replace("cap,2,0:3 1:1", "cap,2,0:3 1:3")
    for name, cert, status in [("a right share", CERT, 0), ("a wrong share", wrong, 1)]:
        with in_folder(program, {**FILES, "CERT": cert}) as place:
            yield compare(f"slurm.sh --check: {name}", (status, "", ""),
                          ran(words, place.folder, **job))


GROUPS = [programs, ranges, interrupted, searches, checks, shares]


def main():
    program = program_word("gate.scripts", __doc__)
    return tally(trial for group in GROUPS for trial in group(program))


if __name__ == "__main__":
    run_tool(main)
