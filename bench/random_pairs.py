"""Measures pairs of random warriors, which were not used to choose a class, beside pMARS.

Takes pairs whose first fight lasts 2000 turns or more, and plays series of them as measure.py does.
A line for each pair says its fights, the points, how many are ties, the share of the turns of the
first fight whose instruction has no class of its own (`unclassed`), the milliseconds of the program
and of pMARS, and their ratio. The last lines have the geometric mean of the ratios and the least,
of all pairs and of those without a tie: the program cuts ties short, and pMARS does not.
"""
import random, tempfile

from author.lib.endings import run_tool
from author.lib.program import Rules, output_of, program_of
from author.lib.words import add_number
from pmars.games import Game
from pmars.random_warriors import random_load

from .pairs import SEED, pair_of, pairs_parser, play_in_turn, print_pairs
from .runs import mean_and_least, stay_on_one_processor

# The least turns of a pair's first fight.
SHORTEST = 2000


def lasts(loads, program, folder):
    """Returns whether the first fight of two warriors lasts long enough."""
    game = Game(Rules(), *loads, folder)
    return int(output_of(game.fight_words(program, SEED, "c")).split()[-1]) >= SHORTEST


def lasting_pairs(args, programs, folder):
    """Yields pairs of random warriors whose first fights last."""
    dice, found = random.Random(args.seed), 0
    while found < args.pairs:
        loads = [random_load(dice, Rules()) for _ in range(2)]
        if lasts(loads, programs[0], tempfile.mkdtemp(dir=folder)):
            found += 1
            yield pair_of((f"r{found}", loads[0]), ("other", loads[1]), programs, folder)


def print_ratios(title, pairs):
    """Prints the geometric mean of the ratios of some pairs, and the least."""
    ratios = [pair.ratio() for pair in pairs]
    if ratios:
        print(f"{title}: {len(ratios)} pairs, {mean_and_least(ratios)}")


def make_parser():
    parser = pairs_parser("bench.random_pairs", __doc__, 1)
    add_number(parser, "--pairs", "N", 100, "pairs")
    add_number(parser, "--seed", "S", 1, "another number gives other warriors", 0)
    return parser


def main():
    args = make_parser().parse_args()
    stay_on_one_processor()
    programs = program_of(args.program), program_of(args.pmars, "make pmars")
    with tempfile.TemporaryDirectory() as folder:
        pairs = play_in_turn(lasting_pairs(args, programs, folder), args.runs)
    print_pairs("pair", pairs)
    print_ratios("all", pairs)
    print_ratios("without a tie", [pair for pair in pairs if pair.ties == 0])


if __name__ == "__main__":
    run_tool(main)
