"""Races in the template of a study that is too large to be tuned whole.

If the race's winner gains, the box around it is tuned, in fights that the race did not play. The
first of the box's ranking then play against the winner. The best of these takes the winner's place
only if further fights, which picked nothing, show that it is better. What was played is kept in
`race.jsonl` and `challenge.jsonl`, so that a race that was stopped goes on.
"""
import contextlib, math, time

from ..endings import tell
from ..gain import GAIN, gain_numbers, gain_of
from ..race import Race
from ..race.fights import Arena
from ..race.journal import Journal
from ..race.words import budget_of
from ..tuning_files import Template, schedule_text
from ..writing import temporary_folder
from .fresh import FIRST_HEAT_PLAYERS

# If a box may follow the race: the parts of the budget that are used up when the race ends, when
# the best of the box's first is picked, and when it was compared with the race's winner. The box
# itself takes at most BOX_PART.
RACE_ENDS, CHALLENGED, COMPARED, BOX_PART = 0.78, 0.90, 0.95, 0.10
# The fewest fights against each opponent in which a box is tuned.
LEAST_ROUNDS = 5
# How many play in the heats against the race's winner.
CHALLENGERS = FIRST_HEAT_PLAYERS, 4, 2


class RaceOfStudy:
    """The stages of a study in a large template."""

    def __init__(self, study, grid):
        self.study, self.grid, self.args, self.folder = study, grid, study.args, study.folder

    def go(self):
        stage = self.folder.stage
        race = stage("race", self.race)
        results = {"race": race, "box": None, "challenge": None, "winner": race["winner"],
                   "points": race["points"]}
        has_gained = gains(race["points"], self.args.weights)
        if self.box_rounds(race) and (has_gained or self.args.certify):
            results["box"] = box = stage("box", lambda: self.tune_box(race), "box.red",
                                         "schedule.csv", "best.cert", "best.txt")
            results["challenge"] = found = stage("challenge", lambda: self.challenge(race, box))
            if found["points"]:
                results |= {"winner": found["best"], "points": found["points"]}
        stage("winner", lambda: self.write_winner(results["winner"]), "found.red", "winner.red")
        return results

    @contextlib.contextmanager
    def arena(self, name, *spent):
        """Gives a block the arena, which goes on with the file `name` after stages `spent`."""
        paths = [str(self.folder.path / path) for path in self.study.opponents]
        with (temporary_folder() as folder, self.folder.open_to_append(name) as file,
              Arena(self.args, budget_of(self.args), self.grid, paths, self.args.weights,
                    Journal(file, f"{self.folder.given_path}/{name}"), folder,
                    self.folder.path) as arena):
            for result in spent:
                arena.charge(result["charged"], result["seconds"])
                arena.block_count += result["blocks"]
            yield arena

    def race(self):
        """Races. Returns a dict: the outcome, the final, and what the race used of the budget."""
        budget_part = RACE_ENDS if self.rounds(budget_of(self.args).fights) else 1
        with self.arena("race.jsonl") as arena:
            race = Race(self.grid, arena, self.args.seed, budget_part)
            outcome = race.run()
            settings, opponents = race.count(), len(arena.opponents)
            self.folder.log_note(f"a race of {settings} settings, {arena.fights} fights",
                                 arena.seconds)
            return {"winner": outcome.winner, "rise": outcome.rise, "points": outcome.points,
                    "finalists": [{"values": one.values, "percent": 100 * one.rate(),
                                   "fights": one.blocks * opponents}
                                  for one in outcome.finalists],
                    "settings": settings, "blocks": arena.block_count,
                    "fights": arena.fights, "charged": arena.fights,
                    "seconds": arena.seconds}

    def reach(self):
        """Returns how many values of each constant the box has on both sides of the winner's."""
        return self.args.box if self.most_settings(self.args.box) <= self.args.exact else 1

    def most_settings(self, reach):
        """Returns how many settings a box has that no end of a range cuts."""
        return math.prod(min(2 * reach + 1, len(values)) for values in self.grid.ranges)

    def rounds(self, fights):
        """Returns the box's fights against each opponent, 0 if they are too few. `fights` are those
        of the budget, None if it has no limit of them."""
        if self.args.certify or fights is None:
            return self.args.rounds
        plays = self.most_settings(self.reach()) * len(self.study.opponents)
        rounds = int(BOX_PART * fights / plays)
        return min(self.args.rounds, rounds) if rounds >= LEAST_ROUNDS else 0

    def box_rounds(self, race):
        """Returns the rounds of the box: those for which the race ended early, and if only time
        was limited, those by the fights that the race played."""
        return self.rounds(budget_of(self.args).fights or race["fights"])

    def tune_box(self, race):
        """Tunes the box in new fights. Returns its size, its part of the budget, and the check."""
        folder, began_at, winner = self.folder, time.monotonic(), race["winner"]
        ranges, rounds = self.grid.box(winner, self.reach()), self.box_rounds(race)
        settings = math.prod(map(len, ranges))
        tell(f"the {settings} settings around the winner are tuned")
        folder.write("box.red", self.grid.text(ranges, winner))
        with self.arena("challenge.jsonl", race) as arena:
            fights = sorted(fight for block in arena.new_blocks(rounds) for fight in block)
        weighted = (fight._replace(weight=self.args.weights[fight.opponent]) for fight in fights)
        folder.write("schedule.csv", schedule_text(weighted).encode())
        folder.log_note("box.red and schedule.csv: the settings around the winner, and fights", 0)
        words = ["--all", "--check"] if self.args.certify else [f"--keep={CHALLENGERS[0]}"]
        tuned = self.study.tune_box(*words)
        # Which fights a search plays depends on --jobs, so the budget is charged with all. Those of
        # --certify are beyond it: they could leave none to compare the box with the winner.
        certify = self.args.certify
        return {"settings": settings, "blocks": rounds, "fights": tuned["fights"],
                "charged": 0 if certify else settings * rounds * len(self.study.opponents),
                "seconds": 0.0 if certify else time.monotonic() - began_at,
                "check": tuned["check"] if certify else None}

    def challenge(self, race, box):
        """Has the first of the box play against the winner. Returns the best; the points of both in
        other fights; and, if it is better and fights are left, of it and START."""
        winner, box_of = tuple(race["winner"]), Template(self.folder.path / "box.red")
        first = [box_of.values_of_settings[setting] for setting in self.study.first_settings()]
        others = [values for values in first if values != winner]
        with self.arena("challenge.jsonl", race, box) as arena:
            contest = Race(self.grid, arena, self.args.seed)
            arena.news = "the first of the box against the winner"
            ranked = contest.knock_out([*others, winner], CHALLENGERS, winner, CHALLENGED)
            best = next((one.values for one in ranked if one.values != winner), winner)
            compared = contest.measure(best, winner, COMPARED)
            points = (contest.measure(best, self.grid.start_values, 1)
                      if gains(compared, self.args.weights) else None)
            self.folder.log_note("the first of the box against the race's winner", arena.seconds)
        return {"best": best, "compared": compared,
                "points": points if points and points[0] else None}

    def write_winner(self, winner):
        self.folder.write("found.red", self.grid.alone(winner))
        self.study.write_winner("start", "found.red")


def is_replaced(challenge, weights):
    """Returns whether the best of the box took the place of the race's winner. None if too few
    fights were left to compare them or to measure its gain."""
    if challenge["points"]:
        return True
    compared = challenge["compared"]
    return None if not compared[0] or gains(compared, weights) else False


def gains(points, weights):
    """Returns whether one setting is better than another by the points of both, if they played."""
    gain = points and gain_of(points, weights)
    return bool(gain) and gain_numbers(gain)["words"] == GAIN
