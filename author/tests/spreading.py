"""Plays `cwtune-spread`: kills it and starts it again, and gives it what it has to refuse."""
import os, pathlib, re, signal, subprocess, threading, time
from unittest import mock

from author.lib import tuning_files
from author.lib.spread.progress import PAUSE
from gate.lib import inputs
from gate.lib.inputs import RULES
from gate.lib.play import open_terminal, shown

from .spread_trial import (DECOY, OPPONENTS, RANKED, SCHEDULE, SMALL, TWELVE, SpreadTrial,
                           left_over, without_fights)
from .trial import SECONDS, usage_errors, wait_until

WRONG_OPTIONS = usage_errors(f"cwtune-spread {' '.join(SMALL)}", [
    *((f"{name}={number}", f"argument {name}: {number} is not 1 {limit}")
      for name, number, limit in [("--jobs", 0, "to 10000"), ("--jobs", -1, "to 10000"),
                                  ("--parts", 0, "or more"), ("--parts", -3, "or more")]),
    *((f"--keep={number}", f"argument --keep: {number} is not 1 to 1000")
      for number in [0, 1001, -2]),
    ("--merge=2 --parts=2", "argument --merge: not allowed with argument --parts"),
    ("--merge=2 --hosts=2", "argument --merge: not allowed with argument --hosts"),
    ("--all --cache=5", "argument --cache: not allowed with argument --all"),
    *((f"{name}=2", f"argument {name}: needs --check or --check-only")
      for name in ["--shares", "--work"])])


class Spreading(SpreadTrial):
    def test_after_kills(self):
        """Kills a tuning at ten moments, and compares what it makes with an unbroken one."""
        unbroken = self.found(DECOY, self.spread("--jobs=3", *TWELVE))
        result, check_status = unbroken
        self.same("an unbroken tuning is accepted", (0, 0), (result[0], check_status))
        self.clear()
        for _ in self.kill_by_chance(range(10), 0.05, *TWELVE):
            # A kill while `tune` looks at the inputs leaves an empty CERT.
            is_whole = not self.read("CERT") or self.check(DECOY) == 0
            self.same("a kill leaves no half certificate", True, is_whole)
        self.same("ten kills change nothing", unbroken,
                  self.found(DECOY, self.spread("--jobs=2", *TWELVE)))
        self.same("the parts are gone at the end", False, (self.folder / "CERT.parts").exists())

    def test_stops(self):
        begun = self.folder / "begun"
        self.write_program("stuck", f"""case "$*" in *--part=2/3*) touch {begun}; exec sleep 99;;
*) exec {self.program} "$@";; esac""")
        for signal_number in [signal.SIGINT, signal.SIGTERM]:
            with self.started("cwtune-spread --program=./stuck --jobs=1 --parts=3", *DECOY,
                              stderr=subprocess.PIPE) as job:
                wait_until(begun.exists, job)
                job.send_signal(signal_number)
                _, err = job.communicate(timeout=SECONDS)
            self.same(f"signal {signal_number} says how to go on", (
                -signal.SIGINT, f"stopped: {left_over(2, 3, 'parts')}", 2),
                (job.returncode, err.decode(), self.done()))
            begun.unlink()
            self.clear()

    def test_fifo(self):
        """Tunes where CERT.inputs is a FIFO, which somebody reads, so that no write waits."""
        os.mkfifo(self.folder / "CERT.inputs")
        reader = os.open(self.folder / "CERT.inputs", os.O_RDONLY | os.O_NONBLOCK)
        status = self.spread("--parts=2", *DECOY).status
        self.same("nothing is written there", (0, b""), (status, os.read(reader, 99)))
        os.close(reader)

    def test_link_to_cert(self):
        """Tunes where a link CERT.inputs leads to CERT, which is to come."""
        (self.folder / "CERT.inputs").symlink_to("CERT")
        status = self.spread("--parts=2", *DECOY).status
        self.same("CERT is accepted", (0, 0), (status, self.check(DECOY)))

    def test_other_inputs(self):
        reversed_opponents = [*DECOY[:3], *reversed(OPPONENTS)]
        self.unfinished()
        self.write("other.red", self.read("decoy.red").replace(b"PLACE 2000", b"PLACE 2500"))
        self.write("other.csv", SCHEDULE.replace(b"4621", b"4622"))
        self.write("program", pathlib.Path(self.program).read_bytes() + b"\n")
        (self.folder / "program").chmod(0o755)
        for other, words in [
            ("template", ["other.red", *DECOY[1:]]),
            ("schedule", ["decoy.red", "other.csv", *DECOY[2:]]),
            ("opponents", reversed_opponents),
            *((other, [option, *DECOY]) for other, option in [
                ("rules", "--cycles=79999"), ("cache", "--cache=1"), ("keep", "--keep=2"),
                ("program", "--program=./program")]),
        ]:
            line = (f"error: the parts in CERT.parts are of other inputs ({other}): give --anew to "
                    "throw the parts away and begin again, or another CERT\n")
            before = self.done()
            self.same(f"parts of another {other} are refused", (2, "", line, before, None),
                      (*self.spread(*words), self.done(), self.read("CERT")))
        self.same("so is another number of parts", 2, self.spread("--parts=7", *DECOY).status)
        status = self.spread("--anew", *reversed_opponents).status
        self.same("--anew begins again", (0, False, 0),
                  (status, (self.folder / "CERT.parts").exists(),
                   self.check(reversed_opponents)))
        (self.folder / "CERT").unlink()
        self.write_program("changing", f"echo >>{self.folder}/decoy.red\n"
                           f"exec {self.program} \"$@\"")
        self.same("a template that is changed meanwhile is refused", (
            3, "", "failed: an input was changed while the parts ran: change it back and repeat "
            "the command, or give --anew to begin again\n", None), (
                *self.spread("--program=./changing", *DECOY), self.read("CERT")))

    def test_damaged_parts(self):
        unbroken = self.found(DECOY, self.spread("--jobs=1", *TWELVE))
        for name, kind in [("a certificate", "cert"), ("a result", "done")]:
            self.unfinished()
            path = min(self.folder.glob(f"CERT.parts/*.{kind}"))
            path.write_bytes(path.read_bytes()[:-9])
            self.same(f"{name} that was cut is made again", unbroken,
                      self.found(DECOY, self.spread("--jobs=4", *DECOY)))
        self.unfinished()
        (self.folder / "CERT.parts/t.red").write_bytes(b"MOV 0, 1\n")
        self.same("a copy that was changed is refused", (
            2, "", "error: the copies in CERT.parts were changed (template): give --anew to throw "
            "the parts away and begin again, or another CERT\n"), self.spread(*DECOY))

    def test_folders(self):
        self.unfinished()
        self.write("CERT.parts/notes.txt", b"mine\n")
        self.same("a folder is kept for a file of somebody else", (0, b"mine\n"),
                  (self.spread("--jobs=3", *DECOY).status, self.read("CERT.parts/notes.txt")))
        self.clear()
        self.write("CERT.parts/precious.txt", b"mine\n")
        line = "error: CERT.parts is not a folder of this cwtune-spread, and is not touched\n"
        for options in [[], ["--anew"]]:
            self.same(f"a folder that it did not make {options}", (2, "", line, b"mine\n", 1),
                      (*self.spread(*options, *DECOY), self.read("CERT.parts/precious.txt"),
                       len(list(self.folder.glob("CERT.parts/*")))))
        self.clear()
        self.write("CERT.parts", b"mine\n")
        self.same("a file in its place", (
            2, "", "error: CERT.parts is a file, and is not touched\n", b"mine\n"),
            (*self.spread(*DECOY), self.read("CERT.parts")))

    def test_templates(self):
        """Compares with `tune` on templates that another reader would take for others."""
        for name, text in [
            ("a CR before the name", b";@tune\rK 0 5 1 2\nMOV 0, 1\nDAT K\n"),
            ("CRs between the words", b";@tune K\r0\r5\r1\r2\nMOV 0, 1\nDAT K\n"),
            ("a CR in a comment", b"; old\r;@tune K 0 5 1 2\nMOV 0, 1\n"),
            *((f"byte {byte:x} after ;@tune", b";@tune%cK 0 5 1 2\nMOV 0, 1\n" % byte)
              for byte in (0x0B, 0x0C, 0x1C, 0x85, 0xA0)),
            ("three ranges of 10000 values",
             b"".join(b";@tune %c 0 9999 1 0\n" % name for name in b"ABC")),
            ("a bad range", b"NOP\n;@tune K 3 2 1 3\n"),
            ("no candidate", b";@tune K 0 5 1 2\nDAT 1/0\n"),
        ]:
            self.write("x.red", text)
            expected = self.tune(*SMALL)
            self.clear()
            result = self.spread("--jobs=2", *SMALL)
            self.same(name, without_fights(expected), without_fights(result))
            is_left = (self.folder / "CERT.parts").exists()
            check_status = self.check(SMALL) if self.read("CERT") else None
            self.same(f"{name}: the certificate is accepted, if there is one",
                      (None if expected.status else 0, False), (check_status, is_left))
            self.clear()

    def test_faults(self):
        """Compares with `tune` on words and files that it refuses."""
        self.write("x.red", inputs.FILES["imps.red"])
        self.write("near.csv", b"opponent,position,first\n0,3,c\n")
        self.write("text", b"not a certificate\n")
        for words in [
            "none.red both.csv CERT dat.red", "x.red none.csv CERT dat.red",
            "x.red both.csv CERT dat.red none.red", "x.red both.csv none/CERT dat.red",
            "x.red both.csv text dat.red", "x.red both.csv x.red dat.red",
            "both.csv x.red CERT dat.red", "x.red both.csv CERT dat.red both.csv",
            "x.red near.csv CERT dat.red", "--cache=0 x.red both.csv CERT dat.red",
            "--tasks=8001 none.red both.csv CERT dat.red",
        ]:
            rules = [rule for rule in RULES if rule[:7] != words[:7]]
            expected = self.tune(*rules, *words.split())
            self.clear()
            result = self.spread(*rules, *words.split())
            left = sorted(path.name for path in self.folder.glob("*CERT*"))
            self.same(f"tune {words}", (*expected, []), (*result, left))
            self.clear()
        self.refused(WRONG_OPTIONS)

    def test_methods(self):
        """Plays every fight, tells a log how far it is, and explains."""
        self.tune("--all", *DECOY)
        cert = self.read("CERT")
        self.clear()
        began_at = time.monotonic()
        status, _, err = self.spread("--all", "--jobs=2", "--progress", *DECOY)
        pauses = int((time.monotonic() - began_at) / PAUSE)
        self.same("--all makes the certificate of tune --all", (0, cert),
                  (status, self.read("CERT")))
        first_line, *more_lines = err.splitlines()
        self.same("--progress begins with a line", "0 of 32 parts, 0 of 126 settings, 0 fights",
                  first_line)
        self.same("at most one more line each PAUSE", True, len(more_lines) <= pauses)
        self.clear()
        folder, name = os.path.split(self.program)
        with mock.patch.dict(os.environ, {"PATH": f"{folder}:{os.environ['PATH']}"}):
            result = self.spread(f"--program={name}", "--all", *DECOY)
        self.same("a program on the PATH", (0, cert), (result.status, self.read("CERT")))
        self.clear()
        self.same("--explain tells of START", 1, self.spread("--explain", *DECOY).err.count(
            "  START, setting 94, total "))
        self.clear()
        self.write("x.red", ";@tune K 0 5 1 2\nDAT 1/0\n")
        expected = self.tune("--explain", *SMALL).err
        status, _, err = self.spread("--explain", *SMALL)
        self.same("--explain says why there is no candidate", (1, True, expected),
                  (status, "line 2" in err, err))

    def test_liars(self):
        """Runs stand-ins for `cwtune` that cut a report or a row, or change a total."""
        self.write("x.red", inputs.FILES["imps.red"])
        status, out, err = self.spread("--check", *SMALL)
        self.same("--check", (0, "accepted best 0 total 4", ""),
                  (status, out.splitlines()[-1], err))
        self.clear()
        row_too_few = f"""{self.program} "$@"; status=$?
for word in "$@"; do case $word in [0-9]*.cert) sed -i '$d' $word;; esac; done; exit $status"""
        other_total = f"""set -o pipefail; {self.program} "$@" | sed 's/^total 4/total 5/'"""
        cut_report = f"""set -o pipefail
case $1 in tune) {self.program} "$@" | head -c -5;; *) {self.program} "$@";; esac"""
        for name, script, words, expected in [
            ("reports that are cut", cut_report, ["--parts=2"], (
                3, "", "failed: no result for parts 1, 2 of 2 (its report is cut, or not a "
                "report)\n" + left_over(0, 2, "parts"))),
            ("a row too few", row_too_few, ["--parts=1"], (
                3, "", "failed: the certificate of part 1 has 3 rows, and the part has 4 "
                "settings\n")),
            ("another total", other_total, ["--check", "--parts=1"], (
                1, "rejected row 1 BestRow\n", "CERT is not written, and the parts stay\n")),
            ("another total of START", other_total, [], (
                2, "", "error: the part from setting 0 on says only that it is below 5, and no "
                "other total is above 0: it may hide the best\n")),
        ]:
            self.write_program("liar", script)
            self.same(name, (*expected, None), (
                *self.spread("--program=./liar", *words, *SMALL), self.read("CERT")))
            self.clear()

    def test_floors(self):
        self.write_ranked()
        tuned = self.tuned(RANKED)
        self.same("parts below their floors", tuned, self.found(RANKED, self.spread(
            "--program=./noting", "--jobs=1", "--parts=4", *RANKED)))
        runs = [line.split() for line in self.read("words").decode().splitlines()]
        parts = [[word for word in words if word.startswith(("--part", "--floor"))]
                 for words in runs if words[0] == "tune"]
        self.same("START's part is first, and floors are the best total, or one more", [
            [], ["--part=2/4", "--floor=4"], ["--part=1/4", "--floor=4"],
            ["--part=3/4", "--floor=5"], ["--part=4/4", "--floor=5"]], parts[1:])
        self.same("a part begins with its setting that is the fewest steps from START",
                  [f";@tune K 0 11 1 {start}" for start in [5, 2, 6, 9]],
                  self.read("ranges").decode().splitlines())

    def test_rankings(self):
        self.write_ranked()
        for option in ["--keep=2", "--keep=3", "--keep=20"]:
            tuned = self.tune(option, *RANKED).out.splitlines()
            ranks = [line for line in tuned if line.startswith("rank ")]
            self.clear()
            _, out, err = self.spread(option, "--jobs=2", "--parts=5", "--check", *RANKED)
            *report, check_line = out.splitlines()
            verdict = self.verdict([option, *RANKED])
            self.same(option, (tuned[:5], ranks, ""), (report[:5], report[6:], err))
            self.same(f"{option} --check", (0, [check_line, *ranks]),
                      (verdict[0], verdict[1].splitlines()))
            self.same(f"--check-only {option}", (*verdict, ""),
                      self.spread("--check-only", option, *RANKED))
            self.clear()
        self.tune(*RANKED)
        self.same("--check-only --keep of a certificate of the best alone",
                  (*self.verdict(["--keep=5", *RANKED]), ""),
                  self.spread("--check-only", "--keep=5", *RANKED))

    def screen_of(self, words):
        """Returns what `cwtune-spread` shows on a terminal."""
        with (open_terminal() as (screen, program_end),
              self.started("cwtune-spread", *words, stderr=program_end) as job):
            program_end.close()
            alarm = threading.Timer(SECONDS, job.kill)
            alarm.start()
            try:
                text = shown(screen)
            finally:
                alarm.cancel()
            job.wait(SECONDS)
        return text.decode()

    def test_explained(self):
        self.write("x.red", inputs.FILES["imps.red"])
        self.write("near.csv", b"opponent,position,first\n0,3,c\n")
        words = [*RULES, "x.red", "near.csv", "CERT", "dat.red"]
        explanation = self.cwtune(["tune", *words], terminal=True, keep=True).err.decode()
        self.same("the line at fault is shown", True, "near.csv, line 2: 0,3,c" in explanation)
        self.clear()
        self.same("the explanation is that of tune", explanation, self.screen_of(words))

    def test_notes(self):
        self.write("x.red", ";@tune K 0 3 1 2\n ;@tune X 1 2 1 1\nMOV 0, 1\n")
        expected = self.tune("--explain", *SMALL).err
        for options in [[], ["--check"], ["--check-only"]]:
            err = self.spread("--explain", *options, *SMALL).err
            lines = [line for line in err.splitlines(True) if not line.startswith("  START, ")]
            self.same(f"the notes of the template with {options}", expected, "".join(lines))
        self.same("elsewhere there are none", "", self.spread(*SMALL).err)
        self.write("x.red", self.read("x.red").replace(b"MOV 0, 1", b"DAT 1/0"))
        self.same("the notes and the fault", self.tune("--explain", *SMALL).err,
                  self.spread("--explain", *SMALL).err)

    def test_progress(self):
        lines = self.screen_of(["--jobs=1", *TWELVE]).split("\r")
        half = re.compile(r"6 of 12 parts, 63 of 126 settings, \d+ fights, \d+:\d\d left, best \d+ "
                          r"total \d+ DECOY.*\x1b\[K")
        self.same("a line of progress", True, any(half.fullmatch(line) for line in lines))
        fights = tuning_files.read_schedule(self.folder / "schedule.csv")
        total = tuning_files.Certificate(self.folder / "CERT").total_of(94, fights)
        self.same("the line is cleared, and START is told", f"\x1b[K  START, setting 94, total "
                  f"{total} DECOY=1 PLACE=4000 STEP=3045\n", lines[-1])
