"""Tunes random small templates for the first of the ranking and with floors, and compares with a
model what the program writes.

Reports and certificates have to be the bytes that `lib/ranking_model.py` makes of the points of all
fights. Checks have to accept the certificates, in shares too, and to reject one in which a row of
the ranking has lost its last fight.
"""
import itertools, random

from author.lib.endings import run_tool
from author.lib.tuning_files import Certificate, Template, read_schedule
from author.lib.words import program_word

from .lib.play import in_folder
from .lib.ranking_model import (Aim, Search, Table, first_too_high, rank_line, ranking_of,
                                row_line)
from .lib.running import side_by_side
from .lib.tally import compare, difference, tally

TEMPLATES = 300
CORE = 40
RULES = [f"--core={CORE}", "--cycles=60", "--tasks=4", "--length=6", "--distance=6"]
OPPONENTS = ["dat.red", "imp.red", "spl.red", "gate.red"]
FILES = {"dat.red": "DAT 0\n", "imp.red": "MOV 0, 1\n", "spl.red": "SPL 0\nMOV -1, <9\nJMP -2\n",
         "gate.red": "ADD #7, 3\nMOV 2, @2\nJMP -2\nDAT 0, 11\n"}
OPCODES = ["MOV.I", "ADD.AB", "SPL.B", "JMP.B", "DJN.F", "MOV.AB", "SUB.X", "SEQ.I", "JMZ.F"]
MODES = ["$", "@", "<", ">", "#", "*", "{", "}"]
# Expressions of two constants, and what they are; some make equal warriors, some have no value.
EXPRESSIONS = {
    "A": lambda a, b: a, "B": lambda a, b: b, "A+2*B": lambda a, b: a + 2 * b,
    "A-B": lambda a, b: a - b, "A/2": lambda a, b: a // 2, "B%2": lambda a, b: b % 2,
    "A*B": lambda a, b: a * b, "3": lambda a, b: 3, "12/(A+B)": lambda a, b: 12 // (a + b),
    "7%A": lambda a, b: 7 % a, "-2": lambda a, b: -2, "1": lambda a, b: 1,
}
# What the searches have to show, all together.
SEEN = {"refused", "same", "cap", "a copied row", "a ranked row that names another",
        "none assembles", "none reaches the floor", "a ranking that is not full", "equal totals"}
# What `;assert` asks for, and how often it is drawn.
ASSERTS = {"1": lambda a, b: True, "A != B": lambda a, b: a != b,
           "A + B < 7": lambda a, b: a + b < 7, "A > 9": lambda a, b: False}
WEIGHTS = [10, 4, 4, 1]


class Drawn:
    """A random template, with what the warrior of each setting is known by."""

    def __init__(self, dice):
        self.lines = [(dice.choice(OPCODES), *(dice.choice(MODES) for _ in "ab"),
                       *dice.choices(list(EXPRESSIONS), k=2)) for _ in range(dice.randint(1, 5))]
        self.check = dice.choices([*ASSERTS], WEIGHTS)[0]
        self.ends = dice.randint(2, 9), dice.choice([0, 1, 2, 5])
        self.start = [dice.randint(0, end) for end in self.ends]

    def text(self):
        ranges = [f";@tune {name} 0 {end} 1 {start}"
                  for name, end, start in zip("AB", self.ends, self.start)]
        code = [f"{word} {one}{a}, {two}{b}" for word, one, two, a, b in self.lines]
        return "\n".join([*ranges, f";assert {self.check}", *code, ""])

    def warriors(self):
        """Returns the numbers of each setting's warrior, None if it does not assemble."""
        return [self.warrior(*setting)
                for setting in itertools.product(*(range(end + 1) for end in self.ends))]

    def warrior(self, a, b):
        try:
            numbers = [EXPRESSIONS[text](a, b) % CORE for line in self.lines for text in line[3:]]
        except ZeroDivisionError:
            return None
        return tuple(numbers) if ASSERTS[self.check](a, b) else None


def drawn_schedule(dice):
    fights = [[dice.randrange(len(OPPONENTS)), dice.randint(6, CORE - 6), dice.choice("co")]
              for _ in range(dice.randint(1, 12))]
    head = "opponent,position,first"
    if dice.random() < 0.4:
        head, fights = f"{head},weight", [[*fight, dice.randint(1, 4)] for fight in fights]
    return "".join(f"{line}\n" for line in [head, *(",".join(map(str, fight)) for fight in fights)])


class Trial:
    """A random template in a folder. `wrong` has what did not come as it should."""

    def __init__(self, place, seed):
        self.place, self.wrong, self.dice = place, [], random.Random(seed)
        drawn = Drawn(self.dice)
        place.write("t.red", drawn.text())
        place.write("s.csv", drawn_schedule(self.dice))
        self.seen, self.warriors, self.table = set(), drawn.warriors(), None

    def run(self, command, *options):
        """Returns the status of the program, and what it prints."""
        job = self.place.start([command, *RULES, *options, "t.red", "s.csv", "CERT", *OPPONENTS])
        out, err = job.communicate()
        return job.returncode, out.decode() + err.decode()

    def see(self, name, expected, actual):
        self.wrong += [f"{name}: {line}" for line in difference(expected, actual)]

    def read_table(self):
        """Reads the points of all fights from CERT, and compares which settings assemble. Without
        CERT none does."""
        folder = self.place.folder
        template, points = Template(folder / "t.red"), [None] * len(self.warriors)
        if self.place.read("CERT"):
            found = Certificate(folder / "CERT")
            points = [found.points(setting) for setting in range(found.count)]
        self.see("what assembles", [warrior is not None for warrior in self.warriors],
                 [listing is not None for listing in points])
        constants = [template.constants(setting) for setting in range(len(points))]
        self.table = Table(read_schedule(folder / "s.csv"), points, self.warriors, constants,
                           template.start)
        setting = self.dice.randrange(len(points))
        warrior = self.warriors[setting]
        twins = [twin for twin, other in enumerate(self.warriors) if other == warrior]
        loads = {self.load(twin) for twin in {setting, *self.dice.choices(twins, k=2)}}
        self.see("equal warriors have one load file", (1, warrior is None),
                 (len(loads), b"" in loads))

    def load(self, setting):
        """Returns the load file of a setting, empty if it does not assemble."""
        job = self.place.start(["asm", *RULES, "--setting", str(setting), "t.red"])
        return job.communicate()[0]

    def tune(self, aim, *more, table=None):
        """Tunes, and compares report and certificate with the model's. Returns the model."""
        model = Search(table or self.table, aim)
        options = [f"--cache={aim.capacity}" if aim.capacity else "--all", *more]
        options += [f"--keep={aim.keep}"] * (aim.keep > 1) + [f"--floor={aim.floor}"] * (
            aim.floor > 0)
        (self.place.folder / "CERT").unlink(missing_ok=True)
        actual = self.run("tune", *options)
        cert = self.place.read("CERT")
        report = model.report()
        expected = (0, report) if report else (1, "refused: NoCandidate\n")
        self.seen |= kinds_of(model)
        self.see(f"tune {' '.join(options)}", expected, actual)
        self.see(f"the certificate of tune {' '.join(options)}",
                 model.certificate().encode() if report else None, cert)
        return model

    def check(self, name, expected, *options):
        """Checks CERT. A line `rejected ..` goes with status 1, any other with 0."""
        status = 1 if expected.startswith("rejected") else 0
        self.see(f"{name}: check {' '.join(options)}", (status, expected),
                 self.run("check", *options))

    def accepted(self, rows, keep=1, floor=0, share="", table=None):
        """Returns what a check prints of these rows, if they are right."""
        table = table or self.table
        ranking = ranking_of(rows, table.fights, floor)[:keep]
        if not ranking:
            return f"accepted {share}none below {floor}\n"
        (total, best), shown = ranking[0], ranking if keep > 1 else []
        return f"accepted {share}best {best} total {-total}\n" + "".join(
            rank_line(rank, setting, -total, table.constants[setting])
            for rank, (total, setting) in enumerate(shown, 1))

    def judged(self, name, rows, keep, floor=0):
        """Checks the first `keep` of CERT, which has these rows, whatever they show."""
        options = [f"--keep={keep}"] + [f"--floor={floor}"] * (floor > 0)
        record = first_too_high(rows, self.table.fights, keep, floor)
        self.check(name, f"rejected row {record} CapTooHigh\n" if record
                   else self.accepted(rows, keep, floor), *options)

    def shares(self, name, rows, keep, floor, *options):
        """Checks CERT in three shares."""
        for number in (1, 2, 3):
            share = f"share {number}/3 "
            self.check(name, self.accepted(rows, keep, floor, share), f"--share={number}/3",
                       *options)

    def write(self, model, rows):
        """Writes CERT with other rows than the model's."""
        head, best, *_ = model.certificate().splitlines()
        lines = [head, best, *(row_line(setting, row) for setting, row in enumerate(rows))]
        self.place.write("CERT", "".join(f"{line}\n" for line in lines))


def kinds_of(model):
    """Returns what a search shows that not every one does."""
    kinds = {kind for kind, _ in model.rows}
    shown = {
        "a copied row": model.copied is not None,
        "a ranked row that names another": any(model.rows[setting][0] == "same"
                                               for _, setting in model.ranking),
        "none assembles": kinds == {"refused"},
        "none reaches the floor": kinds != {"refused"} and not model.ranking,
        "a ranking that is not full": len(model.ranking) < model.aim.keep,
        "equal totals": len({total for total, _ in model.ranking}) < len(model.ranking),
    }
    return kinds | {name for name, is_so in shown.items() if is_so}


def without_options(trial):
    """Tunes as without a ranking and a floor, which may be asked for, too."""
    model = trial.tune(Aim())
    cert, most = trial.place.read("CERT"), -model.ranking[0][0]
    for keep, floor in [(2, 0), (3, trial.dice.choice([most, max(0, most - 1)]))]:
        trial.judged("the best alone", model.rows, keep, floor)
    for options in [["--keep=1"], ["--floor=0"]]:
        trial.run("tune", *options)
        trial.see(f"tune {options} writes what tune writes", cert, trial.place.read("CERT"))


def firsts(trial):
    """Tunes for the first of the ranking, and has it checked."""
    table = trial.table
    for keep in [2, 5, 10, len(table.points) + 1]:
        model = trial.tune(Aim(keep, capacity=trial.dice.choice([1, 2, 4096])))
        trial.see(f"the first {keep}", table.ranked()[:keep],
                  [setting for _, setting in model.ranking])
        trial.see(f"the first {keep} are listed", model.ranking,
                  ranking_of(model.rows, table.fights)[:keep])
        trial.check(f"keep {keep}", trial.accepted(model.rows, keep), f"--keep={keep}")
    trial.check("the first of all", trial.accepted(model.rows))
    keep = trial.dice.choice([2, 3, 5])
    model = trial.tune(Aim(keep))
    trial.shares(f"keep {keep}", model.rows, keep, 0, f"--keep={keep}")
    damaged(trial, model, keep)


def damaged(trial, model, keep):
    """Takes the last fight from each row of the first of the ranking."""
    for _, setting in model.ranking:
        rows = list(model.rows)
        kind, rest = rows[setting]
        own = rest if kind == "same" else setting
        rows[own] = "cap", dict(sorted(rows[own][1].items())[:-1])
        trial.write(model, rows)
        name = f"row {own} without its last fight"
        if own == model.ranking[0][1]:
            trial.check(name, "rejected row 1 BestRow\n", f"--keep={keep}")
        else:
            trial.judged(name, rows, keep)


def floors(trial):
    """Tunes with three floors: numbers near the optimum, and totals of some settings."""
    table, dice = trial.table, trial.dice
    ranked = table.ranked()
    most = table.total(ranked[0])
    totals = {most - 1, most, most + 1, table.fights.greatest + 1,
              table.total(dice.choice(ranked))}
    totals |= {table.total(table.start)} if table.points[table.start] else set()
    totals = [total for total in sorted(totals) if total > 0]
    for floor in dice.sample(totals, min(3, len(totals))):
        keep = dice.choice([1, 1, 2, 4])
        model = trial.tune(Aim(keep, floor, dice.choice([1, 4096])))
        trial.see(f"the first {keep} from {floor}", table.ranked(floor)[:keep],
                  [setting for _, setting in model.ranking])
        with_floor(trial, model, keep, floor)


def with_floor(trial, model, keep, floor):
    """Checks a certificate of a search with a floor."""
    name, options = f"floor {floor}", [f"--floor={floor}"] + [f"--keep={keep}"] * (keep > 1)
    trial.check(name, trial.accepted(model.rows, keep, floor), *options)
    if model.ranking:
        trial.check(name, trial.accepted(model.rows))
        return
    trial.check(name, "rejected row 1 Malformed\n")
    trial.check(name, "rejected row 1 BestRow\n", f"--floor={floor + 1}")
    trial.shares(name, model.rows, keep, floor, *options)
    rows = list(model.rows)
    fought = [setting for setting, (kind, _) in enumerate(rows) if kind == "cap"]
    setting = trial.dice.choice(fought)
    rows[setting] = "cap", {}
    if 3 * sum(fight.weight for fight in trial.table.fights) >= floor:
        trial.write(model, rows)
        trial.check(f"{name}, row {setting} without a fight",
                    f"rejected row {setting + 2} CapTooHigh\n", *options)


def parts(trial):
    """Tunes a part, and has its certificate checked."""
    dice, count = trial.dice, len(trial.table.points)
    number, parts = dice.randint(1, min(3, count)), min(3, count)
    table = trial.table.part(number, parts)
    ranked = table.ranked()
    floor = dice.choice([0, table.total(ranked[0]), table.total(ranked[0]) + 1] if ranked else [1])
    aim, part = Aim(dice.choice([1, 3]), floor), f"--part={number}/{parts}"
    model = trial.tune(aim, part, table=table)
    if ranked:
        options = [part, f"--keep={aim.keep}"] + [f"--floor={floor}"] * (floor > 0)
        trial.check("a part", trial.accepted(model.rows, aim.keep, floor, table=table), *options)


def tried(program, seed):
    """Returns what is wrong with the tunings of a random template, and what they have shown."""
    with in_folder(program, FILES) as place:
        trial = Trial(place, seed)
        trial.run("tune", "--all", "--keep=1000")
        trial.read_table()
        trial.tune(Aim(1000, capacity=0))
        if trial.table.ranked():
            for plays in (without_options, firsts, floors):
                plays(trial)
        else:
            trial.tune(Aim(3, 1))
        parts(trial)
        return trial.wrong, trial.seen


def trials(program):
    """Yields a trial for each template, and one for whether all that there is was seen."""
    ends = side_by_side(lambda seed: tried(program, seed), range(TEMPLATES))
    yield from ((f"template {seed}", wrong) for seed, (wrong, _) in enumerate(ends))
    yield compare("what was seen", SEEN, set().union(*(seen for _, seen in ends)))


def main():
    return tally(trials(program_word("gate.ranking_trials", __doc__)))


if __name__ == "__main__":
    run_tool(main)
