"""Measures turns a second in the fights of fights/, and how many short fights a second there are.
README.md says what is measured."""
import math, pathlib

from author.lib.endings import Fault

from .players import SHORT_CYCLES, FightText
from .runs import least, mean_and_least, print_rates

FOLDER = pathlib.Path(__file__).resolve().parent / "fights"
NAMES = ["imps", "bombers", "replicators", "scanner"]
# A fight that takes less than this many seconds is repeated in a run until the run takes as long.
SHORTEST = 0.05


def fight_texts():
    return [FightText(FOLDER / f"{name}.fight") for name in NAMES]


def rates(players, fight, runs):
    """Returns each player's best million turns a second, without the start, which must be at most
    half of the time."""
    plays = []
    for player in players:
        play, start = player.plays(fight)
        repeats = range(max(1, math.ceil(SHORTEST / play())))
        plays += [lambda one=one, repeats=repeats: min(one() for _ in repeats)
                  for one in (play, start)]
    times = least(plays, runs)
    for seconds, start in zip(times[::2], times[1::2]):
        if seconds < 2 * start:
            raise Fault(f"{fight.turns} turns took {seconds:.6f} s, the start alone {start:.6f} s: "
                        "too short to tell", 3)
        yield fight.turns / (seconds - start) / 1e6


def print_fights(players, runs):
    """Prints a line for each fight, and beside pMARS the mean and the least ratio."""
    ratios = print_rates("fight", "M turns/s", players, (
        (fight.name, fight.turns, rates(players, fight, runs)) for fight in fight_texts()))
    if ratios:
        print(mean_and_least(ratios))


def print_short(players, runs, folder):
    """Prints a line for each fight cut short, with its load and its reset."""
    print_rates("short fight", "fights/s", players, (
        (fight.name, 2 * SHORT_CYCLES,
         [1 / seconds for seconds in least([player.short_play(fight, folder) for player in players],
                                           runs)])
        for fight in fight_texts()), ".0f")
