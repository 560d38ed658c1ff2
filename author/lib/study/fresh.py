"""Plays the fresh fights of a study: the first of a ranking by successive halving, and then START.

In a heat all play in the same positions. The better half goes on and plays as many fights more,
until two are left; the winner is the one with the most points. Luck in these fights helped to pick
it, so it and START play a last heat of as many new fights, which picked nobody. In the folder
`fresh/` are the load files of those that play (W.red of setting W, start.red), the schedules (H.csv
of heat H), and the certificates (W-H.cert).

The points of a player are a text for each opponent, with a digit for each fight.
"""
import itertools, time

from ..endings import end_as, tell
from ..program import rules_of
from ..spread.jobs import LocalJobs, ended
from ..tuning_files import MOST_FIGHTS, Certificate
from ..watching import Pace

# How many of the ranking play in the first heat.
FIRST_HEAT_PLAYERS = 10
# The player START. The others are settings, as texts.
START = "start"


class Heat:
    """A heat as `LocalJobs` runs it: all players play `fights` fights against each opponent."""

    def __init__(self, study, number, fights):
        self.study, self.number, self.fights = study, number, fights
        self.path, self.began_at = study.folder.path, {}

    def name(self, player):
        return f"fresh/{player}-{self.number}"

    def prepare(self, player):
        self.began_at[player] = time.monotonic()

    def words(self, player):
        """Returns the words by which a player plays, as the only setting of a template."""
        study = self.study
        return [study.args.program, "tune", *study.rules, f"fresh/{player}.red",
                f"fresh/{self.number}.csv", f"{self.name(player)}.cert", *study.opponents]

    def file(self, player, kind):
        return self.path / f"{self.name(player)}.{kind}"

    def play(self, players):
        shown = "the winner and START" if START in players else f"{len(players)} settings"
        tell(f"fresh fights, heat {self.number}: {shown}, "
             f"{self.fights * len(self.study.opponents)} each")
        jobs, seconds, pace = LocalJobs(self.study.args, self, players), {}, Pace()
        for player, status in ended(jobs, lambda: pace.tell(
                f"heat {self.number}: {len(seconds)} of {len(players)} have played")):
            if status:
                end_as(self.study.args.program, status, self.file(player, "fault").read_bytes())
            for kind in ["report", "fault"]:
                self.file(player, kind).unlink()
            seconds[player] = time.monotonic() - self.began_at[player]
        for player in players:
            self.study.folder.log_command(self.words(player), "", seconds[player])
        return {player: self.points(player) for player in players}

    def points(self, player):
        points = Certificate(self.file(player, "cert")).points(0)
        digits = "".join(str(points[index]) for index in range(len(points)))
        return [digits[first:first + self.fights] for first in range(0, len(digits), self.fights)]


def seed_of(args, number):
    """Returns the first position of a heat: not the tuning's nor another heat's, if there are
    enough. A series that begins at the least position never leaves it."""
    rules = rules_of(args)
    low, high = rules.distance + 1, rules.core - rules.distance
    return low + (args.seed + number - low) % (high - low + 1) if low <= high else rules.distance


def play_heat(study, number, players, fights):
    folder, schedule = study.folder, f"fresh/{number}.csv"
    new_players = players if number == 1 else [player for player in players if player == START]

    def play():
        (folder.path / "fresh").mkdir(exist_ok=True)
        study.write_series(seed_of(study.args, number), fights, schedule)
        for player in new_players:
            text = "start.red" if player == START else "box.red"
            folder.run([study.args.program, "asm", *study.rules, "--setting", player, text],
                       f"fresh/{player}.red")
        return Heat(study, number, fights).play(players)

    return folder.stage(f"fresh {number}", play, schedule,
                        *(f"fresh/{player}.red" for player in new_players))


def total_of(points, weights):
    return sum(weight * sum(map(int, text)) for text, weight in zip(points, weights))


def halve(study, settings):
    """Plays heats until two settings are left. Returns how many heats, and points by setting."""
    players, points = [str(setting) for setting in settings], {}
    for number in itertools.count(1):
        for player, new_points in play_heat(study, number, players, study.args.fresh).items():
            before = points.get(player, [""] * len(new_points))
            points[player] = [text + new_text for text, new_text in zip(before, new_points)]
        if len(players) <= 2:
            return number, points
        ranked = sorted(players, key=lambda player: -total_of(points[player], study.args.weights))
        better = ranked[:max(2, (len(players) + 1) // 2)]
        players = [player for player in players if player in better]


def find_winner(study, settings):
    """Returns the winner, the points that picked it by setting, and those of the last heat."""
    heats, points = halve(study, settings)
    fights_of = {player: len(texts[0]) for player, texts in points.items()}
    most_fights = max(fights_of.values())
    finalists = [player for player in points if fights_of[player] == most_fights]
    winner = max(finalists, key=lambda player: total_of(points[player], study.args.weights))
    fights = min(most_fights, MOST_FIGHTS // len(study.opponents))
    return winner, points, play_heat(study, heats + 1, [winner, START], fights)
