"""Plays `cwtune-seek` with the program, and races with made-up fights."""
import argparse, json, os, random, signal, subprocess, threading, time
from unittest import mock

from author.lib import grid, race
from author.lib.program import HILLS, Rules
from author.lib.race import fights as race_fights
from author.lib.race.hosts import SCRIPT

from .trial import SECONDS, Refusal, Trial, came_of, usage_errors, wait_until

LARGE = ";@tune A 0 9999 1 2\n;@tune B 0 9999 1 2\nDAT A, B\n"
# A warrior that wins if A is 3 and B near 4.
HIDDEN = ";@tune A 0 9 1 0\n;@tune B 0 20 1 0\n"
PLANE = (";@tune STEP 1 9 2 3\n;@tune aim -4 4 1 4\n        ADD  #STEP, 3\n        MOV  2, @2\n"
         "        JMP  -2\n        DAT  #0, #aim\n")
FILES = {"plane.red": PLANE, "large.red": LARGE, "dat.red": "DAT 0, 0\n", "imp.red": "MOV 0, 1\n",
         "s.csv": "opponent,position,first,weight\n0,40,c,1\n1,40,c,3\n",
         "one.csv": "opponent,position,first\n1,40,c\n", "one.red": "MOV 0, 1\n",
         "bad.red": ";@tune K 0 5 1 2\nMOV 1\n",
         "none-assembles.red": ";@tune K 0 5 1 2\nDAT 1/0\n",
         "two.csv": "opponent,position,first\n2,40,c\n", "empty": "# good\n\n  # :\n",
         "one-host": "good\n", "settings": "1s/.*/DAT 0/\n"}
# The files of a race, and what is refused.
RACED = "plane.red s.csv dat.red imp.red"
NONE_ASSEMBLES = ("refused: no setting that was tried assembles; `cwtune asm --setting start` says "
                  "why of START")
REFUSALS = [
    Refusal("cwtune-seek none s.csv dat.red", 3, "failed: none: No such file or directory"),
    Refusal("cwtune-seek plane.red two.csv dat.red imp.red", 2,
            "error: two.csv has fights against more opponents than were given"),
    Refusal(f"cwtune-seek --distance=4001 {RACED}", 1,
            "refused: DAT 0 does not assemble: Rules Distance"),
    *usage_errors(f"cwtune-seek {RACED}", [
        *((f"--fights={number}", f"argument --fights: {number} is not 1000 to 1000000000000")
          for number in [999, 10 ** 400]),
        (f"--jobs={10 ** 400}", f"argument --jobs: {10 ** 400} is not 1 to 10000"),
        ("--minutes=0", "argument --minutes: 0 is not 0.01 to 100000"),
        ("--minutes=x", "argument --minutes: x is not a number of minutes")]),
    Refusal(f"cwtune-seek --hosts=empty {RACED}", 2, "error: empty: no host in it"),
    Refusal(f"cwtune-seek --hosts=. {RACED}", 2, "error: . is not a regular file"),
    Refusal(f"cwtune-seek --hosts=none {RACED}", 3, "failed: none: No such file or directory"),
    Refusal("cwtune-seek one.red s.csv dat.red imp.red", 1,
            "refused: one.red: no range line, which begins `;@tune` at the left margin "
            "(cwtune-vary makes a template of a text with EQU lines)"),
]


class MadeUpProcesses:
    """Makes up fights: a setting wins the more, the nearer it is to `best`."""

    def __init__(self):
        self.best, self.calls = (3, 4), []

    def play(self, settings, blocks, _):
        self.calls.append(([tuple(values) for values in settings],
                           [tuple(block) for block in blocks]))
        return [[self.points(values, block) for block in blocks] for values in settings]

    def points(self, values, block):
        distance = sum(abs(value - best) for value, best in zip(values, self.best))
        return "".join("3" if random.Random(f"{values}{fight}").random() < 1 / (1 + distance / 3)
                       else "0" for fight in block)


class MadeUpArena(race_fights.Arena):
    """An arena whose fights are made up."""

    def __init__(self, values, fights, records=(), rules=Rules()):
        args = argparse.Namespace(seed=1, jobs=1, hosts=None, hill=None, program="",
                                  **rules._asdict())
        super().__init__(args, race_fights.Budget(fights), values, ["a", "b"], [1, 1],
                         list(records), ".")
        self.processes = MadeUpProcesses()

    def tell_estimate(self, _):
        pass


def ended(improve):
    """Returns a method that improves a race, and fails after more rounds than a race has."""
    def counted(number):
        if number > 500:
            raise ValueError("the rounds do not end")
        return improve(number)

    return counted


class Racing(Trial):
    FILES, OPTIONS = FILES, ["--hill=nano", "--fights=2000", "--jobs=2"]

    def seek(self, *words, files=RACED, **options):
        return self.call(f"cwtune-seek {files}", *words, **options)

    def raced(self, records=()):
        racing = self.racing(HIDDEN, 20000, records=records)
        return racing.arena, racing.run()

    def test_rounds(self):
        arena, outcome = self.raced()
        calls = arena.processes.calls
        self.same("the best setting wins", (3, 4), outcome.winner)
        plays = [(values, block) for settings, blocks in calls for values in settings
                 for block in blocks]
        self.same("no setting plays a block twice", len(plays), len(set(plays)))
        self.same("no more fights than the budget", True, 19000 < arena.fights <= 20000)
        self.same("START plays in the first heat", True, (0, 0) in calls[0][0])
        self.same("START plays in the last heat", True, (0, 0) in calls[-1][0])
        pair = [(3, 4), (0, 0)]
        gain = [call for call in calls if call[0] == pair]
        others = {block for settings, blocks in calls if settings != pair for block in blocks}
        self.same("the winner and START end it, in blocks of their own", (pair, False), (
            calls[-1][0], any(block in others for _, blocks in gain for block in blocks)))
        self.same("and these alone are the gain", sum(len(blocks) for _, blocks in gain),
                  len(outcome.points[0][0]))

    def test_goes_on(self):
        arena, outcome = self.raced()
        for count in [0, 1, 7, len(arena.records) // 2, len(arena.records)]:
            again, outcome_again = self.raced(arena.records[:count])
            self.same(f"after {count} records", (outcome.winner, outcome.points, arena.records[-1][
                "settings"]), (outcome_again.winner, outcome_again.points,
                               again.records[-1]["settings"]))
            self.same(f"after {count} records no fight is played again",
                      len(arena.processes.calls) - count, len(again.processes.calls))
        wrong = [{**arena.records[0], "settings": [[1, 1]]}, *arena.records[1:]]
        self.same("records of another race", "what was played before is not of this race: give "
                  "--anew to begin again", came_of(self.raced, wrong))

    def racing(self, template, fights, processes=None, **options):
        """Returns a race in a template, with an arena of made-up fights."""
        self.write("made-up.red", template)
        arena = MadeUpArena(grid.Grid(self.folder / "made-up.red"), fights, **options)
        arena.processes = processes or arena.processes
        return race.Race(arena.grid, arena, 1)

    def test_few_fights(self):
        """Races longer than a core of 80 has different fights: 142 against an opponent."""
        racing = self.racing(HIDDEN, 20000, rules=HILLS["nano"])
        outcome = racing.run()
        calls = racing.arena.processes.calls[-len(outcome.points[0][0]) // 16:]
        gain = [block for _, blocks in calls for block in blocks]
        self.same("no fight of the gain comes twice", (142, 142), (len(gain), len(set(gain))))

    def test_forgets(self):
        """Races with room for 60 settings of 210."""
        racing = self.racing(HIDDEN, 20000)
        with mock.patch.object(race, "MOST_CONTENDERS", 60):
            outcome = racing.run()
        self.same("the best setting wins, and START stays", ((3, 4), True), (
            outcome.winner, (0, 0) in racing.contenders))
        self.same("others are forgotten", (True, True), (
            len(racing.contenders) <= 60 + race.NEW_SETTINGS, racing.forgotten > 0))

    def test_slow_settings(self):
        """Races by the clock, where START takes a fifth of the time of others."""
        now = [0.0]

        class SlowProcesses(MadeUpProcesses):
            def play(self, settings, blocks, tell_progress):
                now[0] += len(blocks) * sum(0.001 if tuple(values) == (2, 2) else 0.005
                                            for values in settings)
                return super().play(settings, blocks, tell_progress)

        with mock.patch.object(race_fights, "clock", lambda: now[0]):
            racing = self.racing(LARGE, None, SlowProcesses())
            racing.arena.budget = race_fights.Budget(None, 10)
            racing.run()
        self.same("who entered has played", True,
                  all(one.blocks for one in racing.contenders.values()))

    def test_slow_play(self):
        """Races by the clock, and has one play take long near the end of the rounds."""
        now, slow = [0.0], []

        class SlowProcesses(MadeUpProcesses):
            def play(self, settings, blocks, tell_progress):
                now[0] += 0.005 * len(settings) * len(blocks)
                if racing.arena.used() > 0.62 and not slow:
                    slow.append(now[0])
                    now[0] += 3
                if len(self.calls) > 9999 or now[0] > 99:
                    raise ValueError("it does not end")
                return super().play(settings, blocks, tell_progress)

        with mock.patch.object(race_fights, "clock", lambda: now[0]):
            racing = self.racing(LARGE, None, SlowProcesses())
            racing.arena.budget = race_fights.Budget(None, 60)
            with mock.patch.object(racing, "improve", ended(racing.improve)):
                racing.run()
        self.same("the race ends in time", (True, True), (bool(slow), 55 < now[0] <= 60))

    def test_seconds(self):
        """Plays with a clock that goes on by one whenever a thread reads it, as others run."""
        ticks, values = threading.local(), grid.Grid(self.folder / "plane.red")
        args = argparse.Namespace(jobs=4, hill=None, program=self.program)

        def tick():
            time.sleep(0.05)
            ticks.count = getattr(ticks, "count", 0) + 1
            return ticks.count

        with (mock.patch.object(time, "monotonic", tick), race_fights.Processes(
                args, values, [self.folder / "dat.red"], self.folder) as processes):
            processes.play([[1, 0]] * 8, [[race_fights.Fight(0, 4000, "c")]], tick)
        self.same("the seconds of all processes count", 8, processes.seconds)

    def found(self, *words):
        """Races in a plane of 45 settings, against two opponents. One counts three times."""
        came = self.seek(*words)
        return came, grid.Grid("found.red", os.fsencode(came.out))

    def test_finds(self):
        (status, _, err), found = self.found()
        whole = grid.Grid(self.folder / "plane.red")
        self.same("only START differs in the template", (0, whole.ranges), (status, found.ranges))
        lines, constants = err.splitlines(), found.constants_of(found.start_values)
        self.same("what it says", [
            "a race of 45 settings", f"found: {constants}", "note", "over START"], [
            lines[0].partition(": about")[0], lines[-3],
            *(line.partition(":")[0] for line in lines[-2:])])

    def test_json(self):
        self.write("plane.red", ";author Jörg\n".encode() + b"; \xf6\n" + PLANE.encode())
        (_, out, err), found = self.found()
        numbers = json.loads(self.seek("--json").out)
        self.same("its winner", dict(zip(found.names, found.start_values)), numbers["winner"])
        self.same("its template", out, numbers["template"])
        self.same("its gain", err.splitlines()[-1].partition(" +-")[0],
                  f"over START: {numbers['gain']['percent']:+.1f}%")

    def test_jobs(self):
        came = [self.seek(f"--jobs={jobs}") for jobs in (2, 1)]
        self.same("one job finds the same", *((out, err.splitlines()[-3:]) for _, out, err in came))

    def test_box(self):
        found, box = self.found()[1], self.found("--box=1")[1]
        self.same("a box is cut around the winner", found.start_values, box.start_values)
        self.same("no range has more than 3 values", True, max(map(len, box.ranges)) <= 3)

    def test_left_out_opponent(self):
        one, alone = (self.seek(files=f"plane.red one.csv {name} imp.red")
                      for name in ["dat.red", "none.red"])
        self.same("an opponent that SCHEDULE leaves out does not play", one.out, alone.out)

    def test_job(self):
        job = subprocess.run(["sh", SCRIPT, "settings", "true"], cwd=self.folder,
                             capture_output=True)
        self.same("sed fails without t.red", (3, b""), (job.returncode, job.stdout))

    def test_refusals(self):
        self.refused(REFUSALS)
        for name in ["none-assembles.red", "bad.red"]:
            status, out, err = self.seek(files=f"{name} s.csv dat.red imp.red")
            self.same(name, (1, "", NONE_ASSEMBLES), (status, out, err.splitlines()[-1]))
        with mock.patch.dict(os.environ, {"PATH": str(self.folder)}):
            self.same("hosts without GNU parallel", (2, "", "error: --hosts needs GNU parallel and "
                      "rsync, and there is no parallel\n"), self.seek("--hosts=one-host"))
        status, out, err = self.seek("--box=9999", "--fights=1000",
                                     files="large.red s.csv dat.red imp.red")
        self.same("a box of too many settings is not cut", (
            0, True, "note: --box=9999 would leave 100000000 settings, more than the 1000000 that "
            "`cwtune tune` takes, so the ranges are not cut"), (
            status, out.endswith("DAT A, B\n"), err.splitlines()[-1]))

    def test_stops(self):
        self.write_program("slow", "touch begun\nexec sleep 99")
        for signal_number in [signal.SIGINT, signal.SIGTERM, signal.SIGHUP]:
            self.same(f"signal {signal_number} before START was played",
                      (-signal.SIGINT, b"", b""), self.stopped("--program=./slow", signal_number))
        self.write_program("noted", f'touch begun\nexec {self.program} "$@"')
        words = "--program=./noted --minutes=5 --fights=1000000000"
        status, out, err = self.stopped(words, signal.SIGINT, b"a race of")
        self.same("Ctrl-C prints the best so far", (0, True, True), (
            status, out.startswith(b";@tune STEP "), b"\nstopped: the best so far is STEP=" in err))
        screen, terminal = os.openpty()
        with self.started(f"cwtune-seek {words} {RACED}", stdout=subprocess.PIPE,
                          stderr=terminal) as job:
            os.close(terminal)
            wait_until(lambda: b"a race of" in os.read(screen, 999), job)
            os.close(screen)
            job.send_signal(signal.SIGHUP)
            out, _ = job.communicate(timeout=SECONDS)
        self.same("and so does a terminal that is closed", (0, True), (
            job.returncode, out.startswith(b";@tune STEP ")))

    def stopped(self, words, signal_number, line=b""):
        """Sends `cwtune-seek` a signal, once it has begun and printed `line`. Returns its end."""
        path = self.folder / "begun"
        with self.started(f"cwtune-seek {words} {RACED}", stdout=subprocess.PIPE,
                          stderr=subprocess.PIPE) as job:
            wait_until(path.exists, job)
            first = job.stderr.readline() if line else b""
            job.send_signal(signal_number)
            out, err = job.communicate(timeout=SECONDS)
        path.unlink(missing_ok=True)
        return job.returncode, out, first + err
