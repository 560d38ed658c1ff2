"""Prints the fights of `pmars -F SEED -r ROUNDS` as a schedule, so that totals can be compared.

Example: cwtune-series 4321 20 3 > fights.csv
"""
import argparse, re

from .program import Rules, rules_of
from .tuning_files import MOST_FIGHTS, MOST_OPPONENTS, MOST_WEIGHT, Fight, schedule_text
from .words import MEANING, add_hill, command_parser, counted, number_from


def series(seed, rounds, core, distance):
    """Yields position and first mover of each round, as pMARS 0.9.2 chooses them."""
    state = seed - distance
    for index in range(rounds):
        yield distance + state % (core + 1 - 2 * distance), "co"[index % 2]
        state = state * 16807 % 2147483647


def series_fights(seed, rounds, rules, weights):
    rounds_of_each = list(series(seed, rounds, rules.core, rules.distance))
    return [Fight(opponent, position, first, weight) for opponent, weight in enumerate(weights)
            for position, first in rounds_of_each]


def weights_of(word):
    weights = [int(part) if re.fullmatch("[0-9]{1,4}", part) else 0 for part in word.split(",")]
    if not all(1 <= weight <= MOST_WEIGHT for weight in weights):
        raise argparse.ArgumentTypeError(f"{word} is not a list of 1 to {MOST_WEIGHT}, as 2,1,1")
    return weights


def refuse_fights(parser, name, rounds, opponents):
    """Refuses more fights than a schedule may have. The option `name` gave `rounds`."""
    if rounds * opponents > MOST_FIGHTS:
        parser.error(f"{name} {rounds} against {counted(opponents, 'opponent')}: more than "
                     f"{MOST_FIGHTS} fights")


def refuse_distance(parser, rules):
    """Refuses rules by which no position is left."""
    if rules.distance > rules.core - rules.distance:
        parser.error("--distance is more than half of --core")


def refuse_seed(parser, name, seed, rules):
    """Refuses a `seed` at which pMARS begins no series. `name` is the option that gave it."""
    low, high = rules.distance, rules.core - rules.distance
    if not low <= seed <= high:
        parser.error(f"{name} {seed} is not {low} to {high}, the positions that pMARS takes")


def make_parser():
    parser = command_parser(__doc__)
    parser.add_argument("seed", metavar="SEED", type=number_from(1, 65535),
                        help="the number after -F, the first position")
    parser.add_argument("rounds", metavar="ROUNDS", type=number_from(1, MOST_FIGHTS),
                        help="the number after -r")
    parser.add_argument("opponents", metavar="OPPONENTS", type=number_from(1, MOST_OPPONENTS),
                        help="how many opponents: the series for each")
    parser.add_argument("--weights", type=weights_of, metavar="W,..", help="how much the fights "
                        "against each opponent count, 1 to 1000 [default: 1 each]")
    add_hill(parser)
    for name, low, high in [("core", 8, 65535), ("distance", 1, 32767)]:
        default = f"that of the hill, else {getattr(Rules(), name)}"
        parser.add_argument(f"--{name}", type=number_from(low, high), metavar="N",
                            help=f"{MEANING[name]} [default: {default}]")
    return parser


def main():
    parser = make_parser()
    args = parser.parse_args()
    rules = rules_of(args)
    refuse_distance(parser, rules)
    refuse_seed(parser, "SEED", args.seed, rules)
    refuse_fights(parser, "ROUNDS", args.rounds, args.opponents)
    weights = args.weights or [1] * args.opponents
    if len(weights) != args.opponents:
        parser.error(f"--weights has {counted(len(weights), 'weight')} for "
                     f"{counted(args.opponents, 'opponent')}")
    print(schedule_text(series_fights(args.seed, args.rounds, rules, weights)), end="")
