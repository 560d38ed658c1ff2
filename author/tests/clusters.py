"""Plays `examples/slurm.sh` as jobs of a Slurm of its own."""
import contextlib, os, subprocess
from unittest import mock

from .slurm_place import SERVERS, Slurm
from .spread_trial import DECOY, SpreadTrial
from .trial import EXAMPLES, wait_until

SCRIPT = EXAMPLES / "slurm.sh"
NO_PART = "slurm.sh: job {} of the array is none of the parts 1 to 3\n"


class Clusters(SpreadTrial):
    def setUp(self):
        super().setUp()
        self.need("sbatch", "squeue", "sinfo", "scancel", **SERVERS)
        self.slurm = self.enterContext(Slurm(self.top / "slurm"))
        self.settle(self.top / "work")

    def begin(self, array, *words, program=None):
        """Hands in jobs. Returns the name of the file of what they print."""
        with mock.patch.dict(os.environ, {"CWTUNE": program or self.program}):
            return f"slurm-{self.slurm.submit(self.folder, array, SCRIPT, *words)}.out"

    def jobs(self, array, *words, **options):
        name = self.begin(array, *words, **options)
        wait_until(lambda: not self.slurm.queue())
        return self.read(name).decode()

    def times(self):
        return {path.name: path.stat().st_mtime_ns for path in self.folder.glob("CERT.*")}

    def test_arrays(self):
        """Tunes in three parts, repeats one, and checks in three shares."""
        tuned = self.tuned()
        self.same("an array prints nothing", "", self.jobs("1-3", "3", *DECOY))
        self.same("the parts", tuned, self.found(DECOY, self.spread("--merge=3", *DECOY)))
        (self.folder / "CERT.2.report").unlink()
        before = self.times()
        self.jobs("2", "3", *DECOY)
        after = self.times()
        self.same("one part is repeated, and no other one is touched", (
            ["CERT.2", "CERT.2.fault", "CERT.2.inputs", "CERT.2.report"], tuned), (
            sorted(name for name in after if after[name] != before.get(name)),
            self.found(DECOY, self.spread("--merge=3", *DECOY))))
        self.jobs("1-3", "--check", "3", *DECOY)
        self.same("the shares", (*self.verdict(DECOY), ""),
                  self.spread("--check-only", "--merge=3", *DECOY))
        before = self.times()
        printed = self.jobs("0,4", "3", *DECOY)
        self.same("no such part", (sorted([NO_PART.format(0), NO_PART.format(4)]), before), (
            sorted(printed.splitlines(True)), self.times()))

    def test_faults(self):
        self.jobs("1-2", "2", *DECOY)
        self.jobs("2", "2", *DECOY, program="./none")
        status, _, err = self.spread("--merge=2", *DECOY)
        said = "failed: no result for part 2 of 2 (CERT.2.fault: "
        self.same("the fault of a part is told", (3, said, "./none: not found)\n"), (
            status, err[:len(said)], err[-len("./none: not found)\n"):]))
        self.write("-d.red", self.read("decoy.red"))
        self.jobs("1-2", "2", "-d.red", *DECOY[1:])
        self.same("-d.red", 0, self.spread("--merge=2", "./-d.red", *DECOY[1:]).status)

    def test_cancelled(self):
        self.jobs("1-2", "2", *DECOY)
        before = self.times()
        self.write_program("stuck", f"""case $2 in
--part*) touch {self.folder}/begun; sleep 99;; esac; exec {self.program} "$@\"""")
        name = self.begin("2", "2", *DECOY, program="./stuck")
        wait_until((self.folder / "begun").exists)
        new = sorted(self.times().keys() - before)
        self.slurm.run("scancel", name[len("slurm-"):-len(".out")])
        wait_until(lambda: not self.slurm.queue())
        with contextlib.suppress(subprocess.TimeoutExpired):
            wait_until(lambda: self.times() == before, seconds=20)
        self.same("scancel leaves what was there", (
            ["CERT.2.fault.new", "CERT.2.report.new"], before, []), (
            new, self.times(), os.listdir(self.slurm.folder / "temporary")))
