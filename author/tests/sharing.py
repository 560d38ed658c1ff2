"""Plays the checks of `cwtune-spread`, in shares: kills them and starts them again, damages what
they check, and gives them what they have to refuse.
"""
import signal

from gate.lib import inputs

from .spread_trial import DECOY, SMALL, SpreadTrial, left_over, without_fights
from .trial import SECONDS, usage_errors

CHECK_ONLY = ["--check-only", *DECOY]
OTHER_CHECK = " is cut, or of another certificate, number of shares or --keep)\n"


def damaged(row, more=""):
    """Returns a row that says something wrong of its setting, with `more` in the list of a cap."""
    kind, setting, content = row.strip().split(",")
    if kind == "same":
        return f"same,{setting},{setting}\n"
    if kind == "cap":
        return f"cap,{setting},{content.replace(':0', ':3', 1)}{more}\n"
    return f"{kind},1,9\n"


class Sharing(SpreadTrial):
    def tune_decoy(self):
        """Tunes the decoy. Returns its certificate, and the line of its check."""
        self.tune(*DECOY)
        return self.read("CERT"), self.verdict(DECOY)[1]

    def left(self):
        return sorted(path.name for path in self.folder.glob("CERT.*") if path.suffix != ".inputs")

    def test_verdicts(self):
        """Compares with `check` on certificates that are right, damaged, or of other inputs."""
        cert, line = self.tune_decoy()
        for options in [["--shares=1"], ["--jobs=3"], ["--shares=200"], ["--work=elsewhere"]]:
            self.same(f"accepted with {options}", ((0, line, ""), [], False), (
                self.spread(*options, *CHECK_ONLY), self.left(),
                (self.folder / "elsewhere").exists()))
        rows = cert.decode().splitlines(keepends=True)
        same = next(index for index, row in enumerate(rows) if row.startswith("same"))
        caps = [index for index, row in enumerate(rows) if row.startswith("cap") and ":0" in row]
        for name, indices, *more in [
                ("the count", [0]), ("the best row", [1]), ("a same row", [same]),
                ("a cap row", [caps[-1]]), ("a same and a cap row", [same, caps[-1]]),
                ("two long cap rows", [caps[0], caps[-1]], " 0:0" * 40000)]:
            self.write("CERT", "".join(damaged(row, *more) if index in indices else row
                                       for index, row in enumerate(rows)))
            status, verdict = self.verdict(DECOY)
            self.same(f"rejected: {name}", (1, (1, verdict, ""), []),
                      (status, self.spread("--shares=12", *CHECK_ONLY), self.left()))
        self.write("CERT", "cwcert,1\n")
        self.same("rejected: no certificate", (1, "rejected row 0 Malformed\n", ""),
                  self.spread(*CHECK_ONLY))
        for files in ["none.red schedule.csv CERT", "decoy.red schedule.csv none",
                      "decoy.red none.csv CERT", "schedule.csv schedule.csv CERT"]:
            words = [*files.split(), "dwarf.red"]
            end = self.cwtune(["check", *words])
            self.same(f"check {files}", ((end.status, "", end.err.decode()), []),
                      (self.spread("--check-only", *words), self.left()))

    def test_after_kills(self):
        _, line = self.tune_decoy()
        list(self.kill_by_chance(range(0, 12, 2), 0.03, "--shares=16", *CHECK_ONLY, kind="shares"))
        self.same("six kills change nothing", ((0, line, ""), []),
                  (self.spread("--jobs=2", *CHECK_ONLY), self.left()))

    def test_kept_shares(self):
        """Gives a folder of shares other inputs, and damaged files."""
        cert, line = self.tune_decoy()
        shares = ["--shares=16", *CHECK_ONLY]
        self.unfinished(*shares, kind="shares")
        self.write("CERT", cert + b"\n")
        before = self.done("shares")
        self.same("shares of another certificate are refused", (
            2, "", "error: the shares in CERT.shares are of other inputs (certificate): give "
            "--anew to throw the shares away and begin again, or another folder by --work\n",
            before),
            (*self.spread(*CHECK_ONLY), self.done("shares")))
        self.same("--anew begins again", ((0, line, ""), []),
                  (self.spread("--anew", *CHECK_ONLY), self.left()))
        self.write("CERT", cert)
        self.unfinished(*shares, kind="shares")
        self.same("so is another number of shares", 2,
                  self.spread("--shares=7", *CHECK_ONLY).status)
        min(self.folder.glob("CERT.shares/*.done")).write_text('"acc')
        self.same("a share that was cut is checked again", (0, line, ""), self.spread(*CHECK_ONLY))

    def test_other_folders(self):
        """Tries a folder in which another `cwtune-spread` is at work, and one of somebody else."""
        self.tune_decoy()
        self.write("mine/precious.txt", b"mine\n")
        self.same("a folder that it did not make", (2, "", "error: mine is not a folder of this "
                  "cwtune-spread, and is not touched\n"), self.spread("--work=mine", *CHECK_ONLY))
        with self.started("cwtune-spread --jobs=1 --shares=16", *CHECK_ONLY) as job:
            self.wait_for(1, job, "shares")
            job.send_signal(signal.SIGSTOP)
            self.same("two at once",
                      (2, "", "error: another cwtune-spread is at work in CERT.shares\n"),
                      self.spread(*CHECK_ONLY))
            job.send_signal(signal.SIGCONT)
            self.same("the first one ends as it does alone", 0, job.wait(SECONDS))
        self.refused(usage_errors(f"cwtune-spread {' '.join(CHECK_ONLY)}", [
            ("--all", "argument --check-only: not allowed with argument --all"),
            ("--parts=3", "argument --check-only: not allowed with argument --parts")]))

    def test_with_a_tuning(self):
        """Checks what a tuning in parts found, and kills it between tuning and check."""
        _, line = self.tune_decoy()
        (self.folder / "CERT").unlink()
        unbroken = self.spread("--check", "--parts=4", *DECOY)
        self.same("--check of a tuning", (0, line.strip(), "", []),
                  (unbroken.status, unbroken.out.splitlines()[-1], unbroken.err, self.left()))
        (self.folder / "CERT").unlink()
        self.kill_at(2, signal.SIGKILL, 0, "--check", "--parts=4", "--jobs=1", "--shares=16",
                     *DECOY, kind="shares")
        self.same("a kill in the check leaves the parts and the shares", (None, 4, True),
                  (self.read("CERT"), self.done(), self.done("shares") > 1))
        self.same("the check goes on", (without_fights(unbroken), []),
                  (without_fights(self.spread("--check", *DECOY)), self.left()))
        self.tune("--all", *DECOY)
        self.unfinished("--shares=16", *CHECK_ONLY, kind="shares")
        self.same("shares of an older certificate are replaced", (without_fights(unbroken), []), (
            without_fights(self.spread("--check", "--parts=4", "--shares=3", *DECOY)),
            self.left()))

    def test_liars(self):
        """Runs stand-ins for `cwtune` whose shares differ in what they name, or have no verdict."""
        self.write("x.red", inputs.FILES["imps.red"])
        self.tune(*SMALL)
        other_total = f"""case "$*" in *share=2/3*) {self.program} "$@" | sed 's/total 4/total 5/';;
*) {self.program} "$@";; esac\n"""
        no_memory = f"""case "$*" in *share=2/3*) echo "failed: OutOfMemory" >&2; exit 3;;
*) {self.program} "$@";; esac\n"""
        other_share = f"""{self.program} "$@" | sed 's/share 2/share 1/'\n"""
        no_result = "no result for share 2 of 3 ({})\n" + left_over(2, 3, "shares")
        for name, script, fault in [
            ("another total", other_total, "the shares name different best settings\n"),
            ("no memory", no_memory, no_result.format("OutOfMemory")),
            ("the line of another share", other_share,
             no_result.format("cwtune ended with status 0")),
        ]:
            self.write_program("liar", script)
            self.same(name, (3, "", f"failed: {fault}"), self.spread(
                "--program=./liar", "--anew", "--shares=3", "--check-only", *SMALL))

    def test_merged(self):
        cert, line = self.tune_decoy()
        self.run_jobs(3, "--check", *DECOY)
        self.same("--check-only --merge", (0, line, ""), self.spread("--merge=3", *CHECK_ONLY))
        self.same("of another number of shares", (
            3, "", "failed: no result for shares 1, 2, 3, 4 of 4 (CERT.1.check" + OTHER_CHECK),
            self.spread("--merge=4", *CHECK_ONLY))
        first_line, *_ = self.read("CERT.2.check").decode().split("\n")
        self.write("CERT.2.check", first_line)
        self.same("of a job that was cut", (
            3, "", "failed: no result for share 2 of 3 (CERT.2.check" + OTHER_CHECK),
            self.spread("--merge=3", *CHECK_ONLY))
        self.write("CERT", cert + b"\n")
        no_result = (3, "", "failed: no result for shares 1, 2, 3 of 3 (CERT.1.check" + OTHER_CHECK)
        self.same("of another certificate", no_result, self.spread("--merge=3", *CHECK_ONLY))
        self.tune("--keep=2", *DECOY)
        self.run_jobs(3, "--check", *DECOY, "--keep=2")
        self.same("--merge --keep", (*self.verdict(["--keep=2", *DECOY]), ""),
                  self.spread("--merge=3", "--keep=2", *CHECK_ONLY))
        self.same("of checks of a ranking that is not asked for", no_result,
                  self.spread("--merge=3", *CHECK_ONLY))
        self.run_jobs(3, "--check", *DECOY)
        self.same("of checks without the ranking that is asked for", no_result,
                  self.spread("--merge=3", "--keep=2", *CHECK_ONLY))
