"""Plays `cwtune-spread` with what the jobs of a cluster leave, and with stand-ins for GNU parallel.
"""
import argparse, os, types
from unittest import mock

from author.lib.spread.hosts import HostJobs
from gate.lib import inputs
from gate.lib.inputs import RULES

from .spread_trial import DECOY, RANKED, SMALL, SpreadTrial, left_over
from .trial import SECONDS

NO_CERT = (3, "", "failed: CERT.2: No such file or directory\n")
NO_REPORT = "failed: no result for part 2 of 3 (CERT.2.report is cut, or not there)\n"
BELOW_ZERO = b"vectors 42\ncandidates 42\nbest -\nconstants -\ntotal below 0 of 9\nfights 0 of 9\n"
# What a stand-in for GNU parallel does first: if it is asked which hosts answer, this one does.
PROBED = """case "$*" in *--nonall*) printf ':\\tready\\n'; exit;; esac\n"""
ARCHIVES = """printf damaged >1.tar
tar -cf 2.tar hosts
echo 126 >3.status; echo 0 >4.status; touch 3.report 4.report
for number in 3 4; do tar -cf $number.tar $number.report $number.status; done
"""


def folder_stub(path):
    """Returns what `HostJobs` needs to know of a folder."""
    return types.SimpleNamespace(
        path=path, work=path, pid=1, copies=[], SENT_KINDS=[], RETURNED_KINDS=["report"],
        prepare=lambda number: None, words=lambda number: ["true"],
        file=lambda number, kind: path / f"{number}.{kind}")


class Merging(SpreadTrial):
    def parallel(self, script):
        """Makes a stand-in for GNU parallel the one on the PATH, as a context."""
        self.write_program("parallel", PROBED + script)
        self.write_program("rsync", "exit 9\n")
        self.write("hosts", ":\n")
        return mock.patch.dict(os.environ, {"PATH": f"{self.folder}:{os.environ['PATH']}"})

    def host_jobs(self, numbers):
        """Runs jobs by a stand-in for GNU parallel. Returns them, and those ended by number."""
        args, ended = argparse.Namespace(hosts=self.folder / "hosts", jobs=1), []
        jobs = HostJobs(args, folder_stub(self.folder), numbers)
        while jobs.keep_running():
            jobs.parallel.wait(SECONDS)
            ended += jobs.take_ended()
        jobs.stop()
        return jobs, ended

    def test_archives(self):
        with self.parallel(ARCHIVES):
            jobs, ended = self.host_jobs(range(1, 6))
        self.same("archives", ([(3, 126), (4, 0)], [1, 2, 5], "GNU parallel ended with status 0"),
                  (ended, jobs.waiting, jobs.fault))

    def test_idle_hosts(self):
        with self.parallel("exit 9\n"):
            self.same("parts without a result", (
                3, "", "failed: no result for parts 1, 2, 3 of 3 (GNU parallel ended with status "
                "9)\n" + left_over(0, 3, "parts")),
                self.spread("--hosts=hosts", "--parts=3", *DECOY))
            # More numbers than the pipe takes before the stand-in ends.
            jobs, ended = self.host_jobs(range(1, 20000))
        self.same("numbers that it does not read", ("GNU parallel ended with status 9", []),
                  (jobs.fault, ended))

    def merged(self, name, expected, *words):
        """Compares what is said of parts, by default of three, and that no CERT is written."""
        came = self.spread(*(words or ["--merge=3", *DECOY]))
        self.same(name, (expected, None, None), (came, self.read("CERT"), self.read("CERT.whole")))

    def test_merged(self):
        unbroken = self.found(DECOY, self.spread("--parts=3", *DECOY))
        self.clear()
        self.run_jobs(3, *DECOY)
        self.same("--merge finds what an unbroken run finds", unbroken,
                  self.found(DECOY, self.spread("--merge=3", *DECOY)))
        self.clear()
        status, out, _ = self.spread("--merge=3", "--check", *DECOY)
        self.same("--merge --check", (0, "accepted"), (status, out.splitlines()[-1][:8]))
        self.clear()
        for report in [b"", BELOW_ZERO]:
            self.write("CERT.2.report", report)
            self.merged("without a report", (3, "", NO_REPORT))
        for text, fault in [("note\nfailed: OutOfMemory\n", "failed: OutOfMemory"),
                            ("slurm.sh: cwtune: not found\n", "slurm.sh: cwtune: not found")]:
            self.write("CERT.2.fault", text)
            self.merged(fault, (
                3, "", f"failed: no result for part 2 of 3 (CERT.2.fault: {fault})\n"))
        (self.folder / "CERT.2.fault").unlink()
        self.merged("without a part", (
            3, "", "failed: no result for part 2 of 3 (no CERT.2.fault: see slurm-ARRAY.out where "
            "sbatch was called)\n"))

    def test_merged_others(self):
        self.run_jobs(3, *DECOY)
        self.write("other.csv", b"opponent,position,first\n0,4000,c\n")
        with_other_schedule = ["other.csv" if word == "schedule.csv" else word for word in DECOY]
        for words, part, fault in [
            (["--merge=4", *DECOY], "1/4", "it is of part 1/3"),
            (["--merge=3", "--cycles=99", *DECOY], "1/3",
             "--cycles is 99, but the tuning had 80000"),
            (["--merge=3", "--all", *DECOY], "1/3", "its method is `cache 4096`, not `all`"),
            (["--merge=3", *with_other_schedule], "1/3",
             "other.csv is not the schedule of the tuning"),
        ]:
            self.merged(fault, (
                2, "", f"error: CERT.1 is not part {part} of this tuning: {fault}\n"), *words)
        for number in [1, 2, 3]:
            (self.folder / f"CERT.{number}.inputs").unlink()
        self.same("--merge of too many parts that do not say of what", 3,
                  self.spread("--merge=4", *DECOY).status)

    def test_repeated_jobs(self):
        """Repeats jobs with a schedule that is refused, and with a template without a candidate in
        one part."""
        words, part = [*SMALL[len(RULES):], *RULES], ["CERT.2.report", "CERT.2.check"]
        wrong = ["dat.red" if word == "both.csv" else word for word in words]
        self.write("x.red", inputs.FILES["imps.red"])
        self.run_jobs(2, *words)
        self.write("CERT", self.read("CERT.2"))
        self.run_jobs(2, "--check", *words)
        before = list(map(self.read, part))
        for option in [[], ["--check"]]:
            self.run_jobs(2, *option, *wrong)
        self.same("a refused job leaves results as they were", before, list(map(self.read, part)))
        self.write("x.red", ";@tune K 0 3 1 0\nJMP 0, 1/(K<2)\n")
        self.run_jobs(2, *words)
        self.same("a part without a candidate", (b"", self.tuned(SMALL)), (
            self.read("CERT.2.report"), self.found(SMALL, self.spread("--merge=2", *SMALL))))

    def test_damaged(self):
        self.run_jobs(3, *DECOY)
        cert, report = self.read("CERT.2"), self.read("CERT.2.report")
        for name, text in {"changed": cert.replace(b":0", b":1", 1), "cut": cert[:-9],
                           "empty": b""}.items():
            self.write("CERT.2", text)
            self.merged(f"a certificate that is {name}", (
                2, "", "error: CERT.2.inputs is of another certificate\n"))
        (self.folder / "CERT.2").unlink()
        self.merged("a certificate that is missing", NO_CERT)
        self.write("CERT.2", cert)
        self.write("CERT.2.report", report[:report.rindex(b" of ")])
        self.merged("a report that is cut", (3, "", NO_REPORT))
        self.write("CERT.2.report", report)
        self.write("CERT.2.inputs", "a text\n")
        self.merged("a CERT.2.inputs that is damaged", (
            2, "", "error: CERT.2.inputs is malformed\n"))

    def test_damaged_without_inputs(self):
        self.run_jobs(3, *DECOY)
        (self.folder / "CERT.2.inputs").unlink()
        cert = self.read("CERT.2")
        *rows, last_row = cert.splitlines(keepends=True)
        no_cert = "CERT.2 is not a certificate of part 2"
        row_too_few = "the certificate of part 2 has 41 rows, and the part has 42 settings"
        for name, text, fault in [
            ("cut", b"".join([*rows, last_row[:4]]), no_cert), ("empty", b"", no_cert),
            ("of one line", rows[0], no_cert), ("without a count", b"x\n" + cert, no_cert),
            ("binary", b"\xff" + cert, no_cert), ("a row too few", b"".join(rows), row_too_few),
        ]:
            self.write("CERT.2", text)
            self.merged(f"a certificate that is {name}", (3, "", f"failed: {fault}\n"))
        self.write("CERT.2", cert.replace(b":0\n", b":0 9:0\n", 1))
        fault = "error: CERT is not a certificate of the schedule schedule.csv\n"
        self.merged("a fight too many", (2, "", fault), "--merge=3", "--keep=2", *DECOY)
        (self.folder / "CERT.2").unlink()
        self.merged("a certificate that is missing", NO_CERT)

    def test_merged_rankings(self):
        self.write_ranked()
        tuned = self.tuned(RANKED)
        words = [*RANKED[len(RULES):], "--hill=nano", *RULES]
        self.run_jobs(4, *words)
        below = [path.name for path in self.folder.glob("CERT.?")
                 if b"\nnone,-,4\n" in path.read_bytes()]
        self.same("some jobs end below START", True, 1 <= len(below) <= 3)
        self.same("--merge of parts below their floors", tuned,
                  self.found(RANKED, self.spread("--merge=4", *RANKED)))
        self.clear()
        self.merged("--merge --keep of parts without", (
            2, "", "error: the parts show the first 3 of the ranking, and not 4: were they tuned "
            "with --keep 4?\n"), "--merge=4", "--keep=4", *RANKED)
        self.run_jobs(4, *words, "--keep=4")
        ranks = self.tune("--keep=4", *RANKED).out.splitlines()[6:]
        self.same("--merge --keep", ranks,
                  self.spread("--merge=4", "--keep=4", *RANKED).out.splitlines()[6:])
        self.clear()
        self.run_jobs(4, *words, "--all")
        self.merged("--merge --keep of parts that show all and rank one each", (
            2, "", "error: the parts show the first 3 of the ranking, and not 4: were they tuned "
            "with --keep 4?\n"), "--merge=4", "--keep=4", "--all", *RANKED)
        self.run_jobs(4, *words, "--floor=5")
        self.merged("--merge of parts that are all below", (
            2, "", "error: the part from setting 0 on says only that it is below 5, and no other "
            "total is above 0: it may hide the best\n"), "--merge=4", *RANKED)
