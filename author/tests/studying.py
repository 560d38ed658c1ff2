"""Plays `cwtune-study`: compares its report with the other commands, kills it and starts it again,
and gives it other inputs, other folders and wrong words.
"""
import fcntl, json, math, os, random, shutil, signal, subprocess, time, types

from author.lib import grid, tuning_files
from author.lib.study.raced import RaceOfStudy, is_replaced
from author.lib.study.result import Box

from .study_trial import FEW, OPPONENTS, PLANE, TEMPLATE, WARRIOR, StudyTrial
from .trial import AUTHOR, SECONDS, SEED, Refusal, refusals_of, usage_errors, wait_until
from .varying import FORM

STAGES = ["inputs", "schedule", "template", "best", "fresh 1", "fresh 2", "fresh 3", "fresh 4",
          "fresh 5", "winner", "report"]
MARK = '{"by": "cwtune-study %d", "of": %s, "stages": {}}'
FOREIGN = "error: mine is not a folder of this cwtune-study, and is not touched{}\n"
REFUSALS = [
    *usage_errors("cwtune-study", [
        ("t.red", "OPPONENT is missing: files, or a folder with files *.red"),
        ("STEP=1:2 K=1:2", "WARRIOR is missing: a template, or a warrior with words PLACE=VALUES"),
        *((f"w.red all {word}", f"{word}{FORM}") for word in ["STEP=1", "s1-b=1:9"]),
        ("w.red all s1.mode=<,>",
         "s1.mode=<,>: there is no field mode; there are a b a-mode b-mode modifier opcode"),
        ("w.red all STEP=1:9 STEP=1:9", "STEP has two ranges"),
        (f"t.red all={'9' * 5000}", f"all={'9' * 5000}: the weight of all is not 1 to 1000"),
        (f"t.red {'all ' * 22}", "66 opponents; at most 64"),
        ("--rounds=4000 t.red all", "--rounds 4000 against 3 opponents: more than 10000 fights"),
        ("--fresh=4000 t.red all", "--fresh 4000 against 3 opponents: more than 10000 fights"),
        ("--fresh=0 t.red all", "argument --fresh: 0 is not 1 to 10000"),
        ("--seed=4 t.red all", "--seed 4 is not 5 to 75, the positions that pMARS takes"),
        ("--distance=41 t.red all", "--distance is more than half of --core")]),
    *refusals_of("cwtune-study", 1, [
        ("w.red all", "refused: w.red: no range line: give words PLACE=VALUES too (`cwtune-vary "
                      "w.red` lists the places)"),
        ("t.red all STEP=1:9:2", "refused: t.red: it has range lines, so it is a template already"),
        ("three-words.red all", "refused: three-words.red: line 1 is not a range line: ;@tune NAME "
                                "LOW HIGH STEP START, with START one of the values"),
        ("no-start.red all", "refused: START of no-start.red does not assemble: Asm line 3 Value "
                             "DivisionByZero"),
        ("t.red long.red", "refused: long.red does not assemble: Asm line 0 Warrior TooLong")]),
    *refusals_of("cwtune-study", 2, [
        ("t.red empty", "error: empty: no file *.red in this folder"),
        ("--out=\udcff t.red all",
         "error: the name of the folder is not UTF-8, which cwtune wants"),
        ("--out=t.red t.red all", "error: t.red is a file, and is not touched")]),
    *(Refusal(f"cwtune-study {words}", 3, f"failed: {name}: No such file or directory")
      for words, name in [("t.red none.red", "none.red"), ("t.red none.red=2", "none.red=2"),
                          ("none.red all", "none.red"), ("--out=none/x t.red all", "none/x")]),
]
# How the program plays as the hill nano has it.
NANO = ["--core=80", "--length=5", "--distance=5"]


def without_seconds(log):
    return [line.rpartition("  # ")[0] or line for line in log.decode().splitlines()]


class StudyOfTemplate(StudyTrial):
    """The study of a template that is tuned whole."""

    STUDIED = ["t.red", "all"]

    def test_finds(self):
        """Compares the report with what other commands say."""
        lines, report = self.result.out.splitlines(), self.report("t")
        self.same("a study of a template", (0, "all 5 settings are tuned: their ranking is exact",
                  ["t.study/winner.red", "t.study/report.html"]),
                  (self.result.status, lines[0], lines[-2:]))
        totals = {ranked["setting"]: ranked["tuned"] for ranked in report["ranking"]}
        scores = self.call("cwtune-scores best.cert", below="t.study").out
        self.same("the ranking is that of cwtune-scores", [
            f"setting {ranked['setting']}: total {ranked['tuned']} STEP={ranked['values']['STEP']}"
            for ranked in report["ranking"]],
            [line.strip() for line in scores.splitlines() if line.startswith("    setting")])
        output = self.tune(*NANO, "--cycles=800", "--tasks=80", "t.red", "t.study/schedule.csv",
                           "CERT", *(f"all/{name}" for name in OPPONENTS)).out
        tune_report = dict(line.split(" ", 1) for line in output.splitlines())
        best = report["ranking"][0]
        self.same("the best is that of cwtune tune",
                  (str(best["setting"]), f"{best['tuned']} of 27"),
                  (tune_report["best"], tune_report["total"]))
        self.same("the check", f"accepted best {best['setting']} total {best['tuned']}",
                  report["check"])
        self.same("the landscape has all totals", [[totals[setting] for setting in range(5)]],
                  report["landscape"]["totals"])
        self.same("the winner's text is the winner",
                  self.read(f"t.study/fresh/{report['winner']['setting']}.red"),
                  self.cwtune(["asm", *NANO, "t.study/winner.red"]).out)
        line = f"\n;strategy cwtune: STEP={report['winner']['values']['STEP']}\n"
        self.same("its text says which it is", (True, True), (
            line in report["winner_text"], line.encode() in self.read("t.study/winner.red")))

    def test_fresh_fights(self):
        """Adds up the fresh fights of the certificates, and compares with the report."""
        report, folder = self.report("t"), self.folder / "t.study"
        winner, start, ranking = report["winner"], report["start"], report["ranking"]
        players = [*((ranked, f"{ranked['setting']}-[123]") for ranked in ranking),
                   (winner, f"{winner['setting']}-4"), (start, "start-4")]
        for player, name in players:
            certs = map(tuning_files.Certificate, folder.glob(f"fresh/{name}.cert"))
            fresh = player["fresh"]
            wins, ties, losses = (sum(opponent[key] for opponent in fresh["opponents"])
                                  for key in ["wins", "ties", "losses"])
            self.same(f"points of {name} in its fresh fights", fresh["points"],
                      sum(cert.total for cert in certs))
            self.same(f"wins, ties and losses of {name}", (fresh["fights"], fresh["points"]),
                      (wins + ties + losses, 3 * wins + ties))
        gain = winner["fresh"]["percent"] - start["fresh"]["percent"]
        self.same("the gain is the difference", round(gain, 9), round(report["gain"]["percent"], 9))
        fresh_of_ranking = [ranked["fresh"] for ranked in ranking]
        self.same("each of the ranking plays, and the half of them more", [30, 30, 60, 90, 90],
                  sorted(fresh["fights"] for fresh in fresh_of_ranking))
        self.same("the winner and START play as many", [90, 90],
                  [player["fresh"]["fights"] for player in (winner, start)])
        most = max(fresh["points"] for fresh in fresh_of_ranking if fresh["fights"] == 90)
        self.same("the winner has the most points", most,
                  fresh_of_ranking[winner["rank"] - 1]["points"])

    def test_other_inputs(self):
        """Gives the folder other inputs than those that it was made of, and changes its files."""
        before = self.texts_of("t.study")
        self.write("more.red", TEMPLATE + "; more\n")
        for kind, words in [
            ("opponents", ["t.red", "all/imp.red", "all/dat.red"]),
            ("template", ["--out=t.study", "more.red", "all"]),
            ("rules", ["--cycles=799", "t.red", "all"]),
            ("--fresh was 10", ["--fresh=11", "t.red", "all"]),
            ("--exact was 1000", ["--exact=4", "t.red", "all"]),
            ("weights", ["t.red", "all=2"]),
        ]:
            line = (f"error: t.study is of other inputs ({kind}): give --anew to throw it away and "
                    "begin again, or another --out\n")
            self.same(f"other {kind}", (2, "", line), self.study(*words))
        self.same("they change nothing", before, self.texts_of("t.study"))
        self.same("other jobs go on", 0, self.study("--jobs=2", "t.red", "all").status)
        with open(self.folder / "t.study/box.red", "a") as file:
            file.write("; more\n")
        self.same("a changed file", (2, "", "error: t.study/box.red is not as it was written: give "
                  "--anew to begin again\n"), self.study("t.red", "all"))
        self.write("t.study/notes.txt", "mine\n")
        self.same("--anew begins again", 0, self.study("--anew", "t.red", "all/imp.red").status)
        self.same("and leaves what others put there", (b"mine\n", ["imp.red"]), (
            self.read("t.study/notes.txt"), os.listdir(self.folder / "t.study/opponents")))


class StudyOfWarrior(StudyTrial):
    """The study of a warrior, with opponents that have one name."""

    HOSTILE = "it's \"$HOME\".red"
    MORE = dict.fromkeys(["more/imp.red", f"more/{HOSTILE}"], OPPONENTS["dat.red"])
    FILES = StudyTrial.FILES | MORE
    STUDIED = ["w.red", "all/imp.red", "STEP=1:9:2", *MORE]

    def test_varies(self):
        template = self.call("cwtune-vary --hill=nano w.red STEP=1:9:2").out
        self.same("a study of a warrior", (0, template.encode()),
                  (self.result.status, self.read("w.study/template.red")))
        report = self.report("w")
        self.same("a name that is taken gets a number", ["imp.red", "imp-2.red", self.HOSTILE],
                  [opponent["name"] for opponent in report["opponents"]])
        self.same("only the number of the winner's text differs", [
            f"STEP EQU {report['winner']['values']['STEP']}"], self.own_lines("w", 2))
        self.same("the title is the warrior's name", 'Little <Stone> & "Co"', report["title"])
        self.same("the log has the commands of the report", report["commands"], [
            line for line in without_seconds(self.read("w.study/log.txt")) if line[0] != "#"])

    def test_typed_log(self):
        """Types all commands of the log in a folder with the inputs alone."""
        folder, typed_folder = self.folder / "w.study", self.folder / "typed"
        (typed_folder / "fresh").mkdir(parents=True)
        shutil.copytree(folder / "opponents", typed_folder / "opponents")
        for name in ["warrior.red", "start.red"]:
            shutil.copy(folder / name, typed_folder)
        path = f"{AUTHOR}:{os.environ['PATH']}"
        completed = subprocess.run(["sh", "-e", str(folder / "log.txt")], cwd=typed_folder,
                                   timeout=SECONDS, env={**os.environ, "PATH": path},
                                   capture_output=True)
        self.same("the commands of the log can be typed", (0, b"note: 5 settings"),
                  (completed.returncode, completed.stderr.splitlines()[0]))
        names = ["template.red", "schedule.csv", "box.red", "best.cert", "best.txt", "winner.red",
                 *(str(path.relative_to(folder)) for path in folder.glob("fresh/*")
                   if path.suffix != ".inputs")]
        self.same("they make the same files", [], [
            name for name in names if self.read(f"typed/{name}") != self.read(f"w.study/{name}")])


class StudyOfPlane(StudyTrial):
    """The study of a template in which settings race."""

    FILES = StudyTrial.FILES | {"p.red": PLANE.replace("2 5", "2 3").replace("1 0", "1 4")}
    STUDIED = ["--exact=9", "--fights=4000", "--certify", "p.red", "all"]

    def test_races(self):
        status, out, _ = self.result
        report, folder = self.report("p"), self.folder / "p.study"
        race, box, gain = (report[name] for name in ["race", "box", "gain"])
        self.same("settings race", (0, True, True), (
            status, 9 < race["settings"] <= 45, race["fights"] <= 4000))
        lengths = [*map(len, grid.Grid(folder / "box.red").ranges)]
        self.same("the settings around the winner are tuned, and checked", (
            math.prod(lengths), "accepted best"), (
            box["settings"], " ".join(box["check"].split()[:2])))
        totals = report["landscape"]["totals"]
        self.same("the page has their totals", sorted(lengths),
                  sorted([len(totals), len(totals[0])]))
        percents = [report[side]["fresh"]["percent"] for side in ["winner", "start"]]
        self.same("the gain is the difference of fights that picked nothing",
                  round(percents[0] - percents[1], 9), round(gain["percent"], 9))
        by_opponent = [opponent["percent"] for opponent in gain["opponents"]]
        self.same("and the mean of those against each opponent", round(gain["percent"], 9),
                  round(sum(by_opponent) / 3, 9))
        self.same("what is printed", (f"race: {race['settings']} of 45 settings in "
                  f"{race['fights']} fights", "p.study/report.html"),
                  (out.splitlines()[0], out.splitlines()[-1]))
        text = grid.Grid(folder / "found.red")
        self.same("the winner's text is the winner", tuple(report["winner"]["values"].values()),
                  text.start_values)
        self.study("--anew", "--jobs=2", *self.STUDIED)
        self.same("two jobs find the same", (race, gain), (
            self.report("p")["race"], self.report("p")["gain"]))

    def test_kills_of_races(self):
        """Kills a race at random times, and compares what it makes with an unbroken one."""
        unbroken, dice = self.report("p"), random.Random(SEED)
        shutil.rmtree(self.folder / "p.study")
        for count in range(20):
            with self.begin(*self.STUDIED) as job:
                time.sleep(dice.uniform(0.1, 0.5 + count / 10))
                job.send_signal([signal.SIGKILL, signal.SIGTERM, signal.SIGHUP][count % 3])
                job.communicate(timeout=SECONDS)
        status = self.study(*self.STUDIED).status
        report = self.report("p")
        for of_box in unbroken["box"], report["box"]:
            del of_box["seconds"]
        names = ["race", "box", "winner", "gain", "landscape"]
        self.same("20 kills change nothing", (0, {name: unbroken[name] for name in names}),
                  (status, {name: report[name] for name in names}))
        self.mark("p", stages={"inputs": self.mark("p")["stages"]["inputs"]})
        for text, fault in [("{}\n", "no entry `settings`"),
                            ("[" * 2000000, "1048576 bytes or more")]:
            self.write("p.study/race.jsonl", text)
            self.same(f"what was played is {text[:9]}", (
                2, f"error: p.study/race.jsonl: line 1: {fault}\n"), self.study(*self.STUDIED)[::2])


class Studying(StudyTrial):
    """Studies of other kinds, and what kills leave of them."""

    def test_one_setting(self):
        self.write("one.red", TEMPLATE.replace("1 9 2 5", "5 5 1 5"))
        _, out, err = self.study("one.red", "all")
        self.same("one setting", ("the winner is START: nothing better was found",
                                  "the tuning and its check: about 18 fights in 1 second"),
                  (out.splitlines()[-3], err.partition(" on ")[0]))

    def test_names_of_opponents(self):
        """Repeats a study with an opponent that is named as what a kill leaves."""
        self.write("x.report", "DAT 0, 0\n")
        copy = self.folder / "t.study/opponents/x.report"
        made = [self.study("t.red", "x.report") and copy.stat().st_mtime_ns for _ in range(2)]
        self.same("its copy is made once", 1, len(set(made)))
        self.write("all/\udce9.red", "DAT 0, 0\n")
        self.same("one in a folder that is not UTF-8", (
            2, "", "error: the name of an opponent has a line end, or is not UTF-8: "
            "'all/\udce9.red'\n"), self.study("t.red", "all"))

    def test_box_rounds(self):
        """Gives a box the rounds for which its race ended early, though that played less."""
        args = types.SimpleNamespace(certify=False, rounds=20, box=2, exact=1000, fights=300000,
                                     minutes=None)
        study = types.SimpleNamespace(args=args, folder=None, opponents=["x.red"] * 8)
        race = RaceOfStudy(study, types.SimpleNamespace(ranges=[range(5)] * 4))
        self.same("the rounds of the box", 6, race.box_rounds({"fights": 234000}))

    def test_no_fights_left(self):
        """Makes a study whose race, in which START alone is bad, leaves no fights for the gain."""
        self.write("k.red", ";@tune K 0 20 1 5\nJMP K==5\n")
        status, out, _ = self.study("--exact=9", "--fights=1000", "k.red", "all", "all")
        report, line = self.report("k"), out.splitlines()[-3]
        self.same("no gain is measured", (0, "keep START: no fights were left", False, None), (
            status, line[:31], report["winner"]["values"] == {"K": 5}, report["gain"]))

    def test_no_rivals(self):
        """Makes a study whose race has so few fights that START alone plays, and seeks so."""
        status, out, _ = self.study("--exact=1", "--fights=1000", "p.red", *["all"] * 21)
        lead = b"No other setting has played in the race."
        self.same("no other setting has played in a study", (
            0, "the winner is START: no other setting has played in the race; give more --fights "
            "or --minutes", True),
            (status, out.splitlines()[-3], lead in self.read("p.study/report.html")))
        self.write("s.csv", self.call("cwtune-series --hill=nano 33 1 63").out)
        status, _, err = self.call("cwtune-seek --hill=nano --jobs=1 --fights=1000 p.red s.csv",
                                   *["all/dat.red"] * 63)
        self.same("nor in a race of cwtune-seek", (
            0, "note: it is START: no other setting has played; give more --fights or --minutes"),
            (status, err.splitlines()[-1]))

    def test_certified_box(self):
        """Certifies a box with more fights than the race has, and then has another setting of it
        take the place of the race's winner."""
        self.write("q.red", PLANE.replace("        JMP  -2", ";@tune K -4 -2 1 -2\n JMP K"))
        words = ["--exact=27", "--rounds=100", "--fights=2000", "--certify", "q.red", "all"]
        status, folder = self.study(*words).status, self.folder / "q.study"
        stages = self.mark("q")["stages"]
        challenge, winner = stages["challenge"]["result"], stages["race"]["result"]["winner"]
        self.same("fights are left to compare the box with the winner", (0, True, True), (
            status, stages["box"]["result"]["fights"] > 2000, bool(challenge["compared"][0])))
        settings = tuning_files.Template(folder / "box.red").values_of_settings
        other = next(values for values in settings if values[2] != winner[2])
        challenge |= {"best": other, "points": [["3"] * 3, ["0"] * 3]}
        self.mark("q", stages={name: stage for name, stage in stages.items()
                               if name not in ("winner", "report")})
        status, report = self.study(*words).status, self.report("q")
        self.same("the page shows the totals around the new winner", (
            0, True, Box(folder).landscape(settings.index(other))),
            (status, report["box"]["replaces"], report["landscape"]))
        self.same("whether a box has a better setting", [None, None, False, True], [
            is_replaced({"compared": compared, "points": points}, [1])
            for compared, points in [([[], []], None), ([["3" * 9], ["0" * 9]], None),
                                     ([["0"], ["3"]], None), ([["3"], ["0"]], [["3"], ["0"]])]])

    def test_default_seed(self):
        """Makes a study in a core in which 4321 would begin a series at one position alone."""
        self.study("--core=400", "--distance=100", "t.red", "all/dat.red")
        lines = self.read("t.study/schedule.csv").decode().split()[1:]
        self.same("positions differ", 3, len({line.split(",")[1] for line in lines}))

    def test_opens(self):
        """Makes a study of a warrior with places of several kinds, in which settings race."""
        words = ["--exact=9", "--fights=2000", "w.red", "all", "STEP=1:9:2", "aim=7,-3,0",
                 "6.b-mode=@,<,}"]
        status, out, _ = self.study(*words)
        self.same("a study of places of several kinds", (0, "race: ", "w.study/report.html"),
                  (status, out[:6], out.splitlines()[-1]))
        values = self.report("w")["winner"]["values"]
        lines = [f"STEP EQU {values['STEP']}", f"aim EQU {[3, 7, -3, 0][values['aim_choice']]}",
                 f"        MOV  2, {'@<}'[values['line6_b_mode']]}2"]
        self.same("only what was opened differs in the winner's text",
                  [line for line in lines if line not in WARRIOR.split("\n")],
                  self.own_lines("w", 2))
        status, out, _ = self.study("--json", *words)
        self.same("--json prints the report alone", (0, self.report("w")), (
            status, json.loads(out)))

    def test_refused_settings(self):
        """Makes a study in which settings do not assemble, and the others are equal."""
        self.write("a.red", ";assert STEP < 8\nSTEP EQU 5\nJMP 0, STEP\n")
        status, out, _ = self.study("--rounds=1", "--fresh=1", "a.red", "all/dat.red", "STEP=1:9:4",
                                    "3.b-mode=$,<")
        lines = out.splitlines()
        self.same("how many settings do not assemble", (
            0, 2, "2 of the 6 settings do not assemble"), (
                status, self.report("a")["refused"], lines[1]))
        self.same("what is not written", ["STEP=1 line3_b_mode=-", "STEP=5 line3_b_mode=-"],
                  [line.rpartition(") ")[2] for line in lines[3:5]])
        self.same("no gain", ["over START: +0.0% +- 0.0, no difference that these fights show",
                  "keep START: these fights show no gain of winner.red"], lines[5:7])

    def test_kills_after_stages(self):
        """Kills a study of a whole template after each stage, and compares the end."""
        self.study("p.red", "all")
        unbroken, log = self.read("p.study/report.json"), self.read("p.study/log.txt")
        shutil.rmtree(self.folder / "p.study")
        dice = random.Random(SEED)
        for count, name in enumerate(STAGES, 1):
            with self.begin("p.red", "all") as job:
                wait_until(lambda: len(self.stages("p")) >= count, job)
                time.sleep(dice.uniform(0, 0.15))
                job.send_signal([signal.SIGKILL, signal.SIGTERM][count % 2])
                err = job.communicate(timeout=SECONDS)[1].decode()
            self.same(f"a kill after the stage {name}", STAGES[:count], self.stages("p")[:count])
            # A later kill may come before the folder is opened.
            if count == 1:
                self.same("a stop says how to go on", True, err.endswith(
                    "stopped: what is done is kept in p.study: repeat the command to go on\n"))
        status = self.study("p.red", "all").status
        self.same("kills change nothing", (0, unbroken), (status, self.read("p.study/report.json")))
        self.same("nor the log", without_seconds(log),
                  without_seconds(self.read("p.study/log.txt")))


class StudyRefused(StudyTrial):
    OPTIONS = FEW

    def test_foreign(self):
        """Gives it folders that it did not make, one that is in use, and a command that fails."""
        for name, text, why in [
            ("notes.txt", "mine\n", ""), ("study.json", "{", " (study.json: not JSON)"),
            ("study.json", "{}", " (study.json: no entry `by`)"),
            ("study.json", "[1]", " (study.json: not an object)"),
            ("study.json", "[" * 100000, " (study.json: nested too deep)"),
            ("study.json", MARK % (1, "[]"), " (study.json: of: not an object)"),
            ("study.json", MARK % (1, '{"opponents": [["..", ""]]}'),
             " (study.json: of.opponents[0][0]: not of its form)"),
            ("study.json", MARK % (0, '{"opponents": []}'), ""),
        ]:
            self.write(f"mine/{name}", text)
            before = self.texts_of("mine")
            for options in [[], ["--anew"]]:
                self.same(f"a folder of somebody else {options}", (
                    2, "", FOREIGN.format(why), before), (
                    *self.study("--out=mine", *options, "t.red", "all"), self.texts_of("mine")))
        (self.folder / "t.study").mkdir()
        lock = os.open(self.folder / "t.study", os.O_RDONLY)
        fcntl.flock(lock, fcntl.LOCK_EX)
        self.same("two at once", (2, "", "error: another cwtune-study is at work in t.study\n"),
                  self.study("t.red", "all"))
        os.close(lock)
        self.write("t.study/study.json.1.new", "{")
        with self.begin("t.red", "all") as job:
            wait_until(lambda: self.stages("t"), job)
            job.kill()
        (self.folder / "t.study/best.cert").unlink(missing_ok=True)
        self.write("t.study/best.cert", "a text\n")
        status, _, err = self.study("t.red", "all")
        self.same("a command's fault is that of the study", (2, True), (status, err.endswith(
            "error: CERT is a text but not a certificate, and is not overwritten: best.cert\n")))

    def test_refusals(self):
        (self.folder / "empty").mkdir()
        self.write("no-start.red", ";@tune K 1 2 1 2\nMOV 0, 1\nDAT 1/(K-2)\n")
        self.write("three-words.red", ";@tune K 1 2\n")
        self.write("long.red", "DAT 0\n" * 6)
        self.write("K", "named as a constant\n")
        before = sorted(os.listdir(self.folder))
        no_program = Refusal("cwtune-study --program=none t.red all", 3,
                             f"failed: {self.folder}/none: No such file or directory")
        self.refused([*REFUSALS, no_program])
        self.same("refusals make no folder", before, sorted(os.listdir(self.folder)))
