"""Improves a warrior: tuning or race, fresh fights and report, in one folder.

WARRIOR is a template, or an ordinary text with words PLACE=VALUES, as cwtune-vary takes them.
An opponent is a file, or a folder whose files *.red are taken by their names; with `=N` after it,
as in papers/=2, its fights count N times.

A template with at most --exact settings is tuned whole: all fights of all settings are played and
the certificate is checked, so the ranking is exact. The first ten then play fresh fights, the
better half more, and so on; the winner is the one with the most points. It and START play other
fights for the gain.

In a larger template settings race: many play a few fights and the better ones more, at new
positions in each heat. For the gain the winner and START then play other fights, which picked
nothing. If it gains, the settings around it are tuned, and the first ten of them play against it.

FOLDER gets winner.red, report.html, report.json, the template, what was played, and log.txt with
the commands. After Ctrl-C or a crash repeat the command, and it goes on. A folder made of other
inputs is refused.

Example: cwtune-study --minutes 10 my.red opponents/ STEP=5:7995:10 GATE=-3500:-500:500
"""
import contextlib, json, os, pathlib, sys

from ..endings import escaped, tell
from ..gain import GAIN, fresh_text, gain_text
from ..grid import Grid
from ..program import Rules, rules_of
from ..race import Contender
from ..race.fights import Arena, Budget
from ..race.words import add_budget
from ..series import series_fights
from ..tuning_files import MOST_FIGHTS, MOST_SETTINGS, Certificate, read_schedule, schedule_text
from ..words import add_cwtune, add_number, add_shared, command_parser, number_from, print_json
from ..writing import temporary_folder
from .folder import StudyFolder
from .fresh import FIRST_HEAT_PLAYERS, find_winner
from .inputs import read_inputs
from .raced import RaceOfStudy
from .report import has_rivals, html_of, shown_values
from .result import raced_numbers, tuned_numbers


class Study:
    """A study: its words, inputs and folder, and what the stages of both kinds run."""

    def __init__(self, args, inputs):
        self.args, self.inputs = args, inputs
        self.title = os.path.basename(args.warrior)
        self.names = [name for name, _ in inputs.opponents]
        self.opponents = [f"opponents/{name}" for name in self.names]
        self.rules = [word for word, default in zip(rules_of(args).words(), Rules().words())
                      if word != default]
        given_path = args.out or f"{pathlib.Path(args.warrior).stem}.study"
        self.folder = StudyFolder(given_path, args.program, inputs.fingerprint(args), args.anew)

    def author_words(self, name, *words):
        """Returns the words of a command for authors that takes the program and the rules."""
        return [name, *words, f"--program={self.args.program}", *self.rules]

    def write_series(self, seed, rounds, name):
        """Writes the schedule that `cwtune-series` writes, which the log has."""
        weights = self.args.weights
        fights = series_fights(seed, rounds, rules_of(self.args), weights)
        self.folder.write(name, schedule_text(fights).encode())
        words = [word for word in self.rules if word.startswith(("--core", "--distance"))]
        if set(weights) != {1}:
            words.append(f"--weights={','.join(map(str, weights))}")
        self.folder.log_command(
            ["cwtune-series", *words, str(seed), str(rounds), str(len(weights))], name, 0)

    def copy_inputs(self):
        folder, inputs = self.folder, self.inputs
        (folder.path / "opponents").mkdir(exist_ok=True)
        for path, (_, text) in zip(self.opponents, inputs.opponents):
            folder.write(path, text)
        name = "warrior.red" if self.args.ranges else "template.red"
        if inputs.original != inputs.warrior:
            folder.write("original.red", inputs.original)
            folder.run(self.author_words("cwtune-adapt", "original.red"), name)
        else:
            folder.write(name, inputs.warrior)
        if self.args.ranges:
            words = [opening.word for opening in self.args.ranges]
            as_is = ["--as-is"] * self.args.as_is
            name = "warrior.red" if inputs.original == inputs.warrior else "original.red"
            folder.run(self.author_words("cwtune-vary", *as_is, name, *words), "template.red")
        grid = Grid(folder.path / "template.red")
        folder.write("start.red", grid.alone(grid.start_values))

    def tune_box(self, *words):
        """Tunes the box. Returns how many fights that took, and the last line, that of a check."""
        hosts = [f"--hosts={self.args.hosts}"] if self.args.hosts else []
        self.folder.run(self.author_words(
            "cwtune-spread", *words, *hosts, f"--jobs={self.args.jobs}", "--progress", "box.red",
            "schedule.csv", "best.cert", *self.opponents), "best.txt", logs_messages=False)
        lines = (self.folder.path / "best.txt").read_text().splitlines()
        fights = next(line.split()[1] for line in lines if line.startswith("fights "))
        return {"fights": int(fights), "check": lines[-1]}

    def first_settings(self):
        cert = Certificate(self.folder.path / "best.cert")
        ranking = cert.ranked(read_schedule(self.folder.path / "schedule.csv"))
        return [setting for _, setting in ranking.full[:FIRST_HEAT_PLAYERS]]

    def go(self):
        args, stage = self.args, self.folder.stage
        warrior = ["warrior.red"] * bool(args.ranges)
        warrior += ["original.red"] * (self.inputs.original != self.inputs.warrior)
        stage("inputs", self.copy_inputs, "template.red", "start.red", *warrior, *self.opponents)
        grid = Grid(self.folder.path / "template.red")
        results = self.tune(grid) if grid.count() <= args.exact else RaceOfStudy(self, grid).go()
        stage("report", lambda: self.write_report(results), "report.json", "report.html")
        self.folder.write_log()

    def tune(self, grid):
        """Tunes the whole template, and finds the winner in fresh fights. Returns the results."""
        args, stage = self.args, self.folder.stage
        stage("schedule", lambda: self.write_series(args.seed, args.rounds, "schedule.csv"),
              "schedule.csv")
        # The settings that are tuned are all of the template.
        stage("template", lambda: self.folder.run(["cat", "template.red"], "box.red"), "box.red")
        print(f"all {grid.count()} settings are tuned: their ranking is exact", flush=True)
        if "best" not in self.folder.mark.stages:
            self.tell_estimate(grid)
        tuning = stage("best", lambda: self.tune_box("--all", "--check"), "best.cert", "best.txt")
        winner, points, last_points = find_winner(self, self.first_settings())
        stage("winner", lambda: self.write_winner(winner, "box.red"), "winner.red")
        return {"tuning": tuning, "winner": winner, "points": points, "last_points": last_points}

    def tell_estimate(self, grid):
        fights = 2 * grid.count() * self.args.rounds * len(self.names)
        paths = [str(self.folder.path / path) for path in self.opponents]
        with (temporary_folder() as folder,
              Arena(self.args, Budget(fights), grid, paths, self.args.weights, [],
                    folder) as arena):
            arena.play([Contender(grid.start_values)], arena.timed_blocks())
            arena.tell_estimate("the tuning and its check")

    def write_winner(self, setting, template):
        is_adapted = self.inputs.original != self.inputs.warrior
        original = ["--original=original.red"] * is_adapted
        words = self.author_words("cwtune-warrior", *original, f"--setting={setting}", template)
        self.folder.run(words, "winner.red")

    def write_report(self, results):
        report = (raced_numbers if "race" in results else tuned_numbers)(self, results)
        self.folder.write("report.json", (json.dumps(report, indent=1) + "\n").encode())
        self.folder.write("report.html", html_of(report).encode(errors="replace"))


def print_fresh(name, player, report):
    values = shown_values(report, player["values"])
    constants = " ".join(f"{constant}={value}" for constant, value in values.items())
    weights = [opponent["weight"] for opponent in report["opponents"]]
    print(f"fresh: {name}: {fresh_text(player['fresh'], weights)} {constants}")


def print_tuned(report):
    best, winner, start = report["ranking"][0], report["winner"], report["start"]
    if report["refused"]:
        print(f"{report['refused']} of the {report['settings']} settings do not assemble")
    print(f"tuned: setting {best['setting']} is best, total {best['tuned']} of "
          f"{report['schedule']['greatest']}, START {start['tuned']}; the certificate is checked")
    print_fresh(f"setting {winner['setting']}, rank {winner['rank']}", winner, report)
    print_fresh("START", start, report)


def print_raced(report):
    race, box = report["race"], report["box"]
    print(f"race: {race['settings']} of {report['settings']} settings in {race['fights']} fights")
    if box:
        words = {True: "one of them is better", False: "none of them is better",
                 None: "too few fights were left to decide"}
        print(f"box: {box['settings']} settings around the race's winner, "
              f"{words[box['replaces']]}")
    if report["gain"]:
        print_fresh("winner", report["winner"], report)
        print_fresh("START", report["start"], report)
    if report["gain"] and not (box and box["replaces"]):
        luck = race["rise"] - report["gain"]["percent"]
        print(f"in the fights that picked it, the winner was {race['rise']:+z.1f}% over START; "
              f"{luck:+z.1f}% of that was luck")


def print_end(folder, report):
    gain = report["gain"]
    print_raced(report) if report["race"] else print_tuned(report)
    if report["winner"]["values"] == report["start"]["values"]:
        print("the winner is START: " + (
            "nothing better was found" if has_rivals(report) else
            "no other setting has played in the race; give more --fights or --minutes"))
    elif gain is None:
        print("keep START: no fights were left to measure the gain; give more --fights or "
              "--minutes")
    else:
        print(f"over START: {gain_text(gain)}")
        if gain["words"] != GAIN:
            print("keep START: these fights show no gain of winner.red")
    for name in ["winner.red", "report.html"]:
        print(escaped(os.path.join(folder.given_path, name)))


def make_parser():
    parser = command_parser(__doc__)
    parser.add_argument("--out", metavar="FOLDER", help="where all files go [default: NAME.study, "
                        "for a warrior NAME.red]")
    add_number(parser, "--rounds", "R", 20, "fights of the tuning against each opponent",
               high=MOST_FIGHTS)
    parser.add_argument("--seed", type=number_from(1, 65535), metavar="S",
                        help="the seed of a race, and the first position of a tuning, as SEED of "
                        "cwtune-series [default: 4321, or another if the rules exclude it]")
    add_number(parser, "--exact", "N", 1000, "tune a template of at most N settings whole, and "
               "race in a larger one", high=MOST_SETTINGS)
    add_number(parser, "--fresh", "F", 100, "fresh fights against each opponent in a heat, if the "
               "template is tuned whole", high=MOST_FIGHTS)
    add_number(parser, "--box", "N", 2, "tune the settings up to N steps from a race's winner; "
               "1 step if N steps hold more than --exact")
    parser.add_argument("--certify", action="store_true", help="tune the box around a race's "
                        "winner with all fights, check the certificate, and draw its totals")
    parser.add_argument("--by-kind", action="store_true",
                        help="have each folder of opponents count as much as the others")
    add_shared(parser, "--anew")
    add_budget(parser)
    add_shared(parser, "--json")
    add_cwtune(parser)
    add_shared(parser, "--as-is")
    parser.add_argument("warrior", metavar="WARRIOR", help="a template, or with words "
                        "PLACE=VALUES a Redcode text")
    parser.add_argument("opponents", metavar="OPPONENT", nargs="*", default=[],
                        help="the opponents: folders with files *.red, or files (write ./*.red: a "
                        "name in *.red may be an option); `=N` after one has its fights count N "
                        "times, 1 to 1000")
    parser.add_argument("ranges", metavar="PLACE=VALUES", nargs="*", default=[],
                        help="a place of the text and its values, as for cwtune-vary")
    return parser


def main():
    parser = make_parser()
    args = parser.parse_args()
    study = Study(args, read_inputs(parser, args))
    try:
        # Standard output is for the object alone.
        with contextlib.redirect_stdout(sys.stderr if args.json else sys.stdout):
            study.go()
        with study.folder.reading("report.json") as report:
            print_json(report) if args.json else print_end(study.folder, report)
    except KeyboardInterrupt:
        tell(f"stopped: what is done is kept in {study.folder.given_path}: repeat the command to "
             "go on")
        raise
