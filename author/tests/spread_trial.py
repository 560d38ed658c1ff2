"""The folder in which `cwtune-spread` is played: a template, a schedule and opponents."""
import os, random, re, signal, subprocess, time
from typing import NamedTuple

from gate.lib import inputs
from gate.lib.inputs import RULES

from .trial import EXAMPLES, SECONDS, SEED, Trial, removed, wait_until

OPPONENTS = ["dwarf.red", "scanner.red", "core-clear.red"]
# The words of tunings: of the decoy of examples/tuning/, also in parts, of a template that a trial
# writes, and of the one of `write_ranked`.
DECOY = ["decoy.red", "schedule.csv", "CERT", *OPPONENTS]
TWELVE = ["--parts=12", *DECOY]
SMALL = [*RULES, "x.red", "both.csv", "CERT", "dat.red", "imp.red"]
RANKED = [*RULES, "steps.red", "both.csv", "CERT", "dat.red", "imp.red"]
SCHEDULE = b"opponent,position,first\n0,3670,c\n1,2085,o\n2,4621,c\n"


class Kill(NamedTuple):
    """What a signal did to `cwtune-spread`, and the pieces done before this run and after it."""

    status: int
    err: str
    before: int
    after: int

    def met_job(self):
        """Returns whether it met a run that had work done and was not at its end."""
        return self.status < 0 and self.after > self.before


class SpreadTrial(Trial):
    """A trial of `cwtune-spread`, with its inputs."""

    FILES = {**inputs.files("dat.red", "imp.red", "one.red", "imps.red", "both.csv"),
             "schedule.csv": SCHEDULE, "decoy.red": (EXAMPLES / "tuning/decoy.red").read_bytes(),
             **{name: (EXAMPLES / "warriors" / name).read_bytes() for name in OPPONENTS}}

    def run_jobs(self, count, *words):
        """Runs the parts, or with --check the shares, as jobs of a cluster do."""
        for job in range(1, count + 1):
            env = {**os.environ, "CWTUNE": self.program, "SLURM_ARRAY_TASK_ID": str(job),
                   "CWTUNE_PARTS": str(count)}
            subprocess.run(["sh", str(EXAMPLES / "slurm.sh"), *words], cwd=self.folder, env=env,
                           timeout=SECONDS)

    def spread(self, *words):
        return self.call("cwtune-spread", *words)

    def check(self, words):
        return self.verdict(words)[0]

    def verdict(self, words):
        end = self.cwtune(["check", *words])
        return end.status, end.out.decode()

    def found(self, words, result):
        """Returns a tuning's result without the fights, and the status of a check of CERT."""
        return without_fights(result), self.check(words)

    def tuned(self, words=DECOY):
        found = self.found(words, self.tune(*words))
        self.clear()
        return found

    def done(self, kind="parts"):
        return len(list(self.folder.glob(f"CERT.{kind}/*.done")))

    def wait_for(self, pieces, job, kind="parts"):
        wait_until(lambda: self.done(kind) >= pieces, job)

    def kill_at(self, pieces, signal_number, seconds, *words, kind="parts"):
        """Ends `cwtune-spread` by a signal, `seconds` after `pieces` parts or shares are done."""
        before = self.done(kind)
        with self.started("cwtune-spread", *words, stderr=subprocess.PIPE) as job:
            self.wait_for(pieces, job, kind)
            time.sleep(seconds)
            job.send_signal(signal_number)
            _, err = job.communicate(timeout=SECONDS)
        return Kill(job.returncode, err.decode(), before, self.done(kind))

    def unfinished(self, *words, kind="parts"):
        """Leaves CERT.parts or CERT.shares as a kill leaves it, with some pieces done."""
        for _ in range(10):
            for name in [f"CERT.{kind}", *["CERT"] * (kind == "parts")]:
                removed(self.folder / name)
            kill = self.kill_at(2, signal.SIGKILL, 0, "--jobs=1", *(words or TWELVE), kind=kind)
            if kill.after:
                break
        else:
            raise ValueError(f"no kill left a piece: {kill}")
        if kind == "parts":
            (self.folder / "CERT").unlink(missing_ok=True)

    def clear(self):
        for name in ["CERT", "CERT.parts"]:
            removed(self.folder / name)

    def kill_by_chance(self, moments, seconds, *words, kind="parts"):
        """Kills `cwtune-spread` within `seconds` after each of `moments`, counts of done pieces.
        Yields after each, and then compares what it said."""
        dice, kills = random.Random(SEED), []
        for pieces in moments:
            signal_number = dice.choice([signal.SIGKILL, signal.SIGINT, signal.SIGTERM])
            jobs = f"--jobs={dice.randint(1, 4)}"
            kills.append(self.kill_at(pieces, signal_number, dice.uniform(0, seconds), jobs, *words,
                                      kind=kind))
            yield
        count = next(word.partition("=")[2] for word in words if word.startswith(f"--{kind}="))
        how_to_go_on = re.compile("stopped: " + left_over(r"\d+", count, kind))
        self.same("a kill met a job at work", True, any(map(Kill.met_job, kills)))
        self.same("a stop says how to go on", [], [
            kill for kill in kills if kill.met_job() and kill.status != -signal.SIGKILL
            and not how_to_go_on.fullmatch(kill.err)])

    def write_ranked(self):
        """Writes a template of 12 settings: three total 4, START among them, two do not assemble,
        the others total 3. A stand-in for `cwtune` notes its words and the ranges of parts."""
        self.write("steps.red", ";@tune K 0 11 1 5\nJMP K % 5\nDAT 8/(K-3), 7/(K-9)\n")
        self.write_program("noting", f"""echo "$*" >> {self.folder}/words
for word; do case $word in [0-9]*.red) grep '^;@tune' $word >> {self.folder}/ranges;; esac; done
exec {self.program} "$@"
""")


def left_over(done, count, kind):
    return (f"{done} of {count} {kind} are done, and kept in CERT.{kind}: repeat the command to "
            "run the others\n")


def without_fights(result):
    """Returns a result without the line `fights`, which depends on which part ends when."""
    lines = [line for line in result.out.splitlines() if not line.startswith("fights ")]
    return result.status, lines, result.err
