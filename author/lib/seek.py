"""Finds a good setting of a template of any size by a race in fresh fights.

Many settings from everywhere play a few fights. The better ones play more, against new settings
near them, at positions that nobody played before while there are any, and so on. A few fights pick
the winner at the end, and others, which picked nothing, say by how much it is better than START.
What is found is good, not proved to be the best.

SCHEDULE says which opponents there are, and how much each counts: the weights of its fights. The
race plays other positions.

The template goes to standard output, with the winner as its START; with --box N each range is cut
to N values on both sides of it, ready for an exact `cwtune tune`. Ctrl-C ends the race with the
best so far. With --fights and a seed the result is the same on every machine.

Example: cwtune-seek --minutes 10 my.red fights.csv dwarf.red scanner.red > better.red
"""
import math, pathlib, signal, sys

from .adapt import adapted_for, adapted_opponents, read_text
from .endings import Fault, note, tell
from .gain import gain_numbers, gain_of, gain_text
from .grid import Grid
from .program import assemble_bytes, load_file_of, rules_of
from .race import Race
from .race.fights import Arena, NoRecords
from .race.words import add_budget, budget_of
from .tuning_files import MOST_SETTINGS, weights_by_opponent
from .words import (add_cwtune, add_files, add_number, add_shared, command_parser, number_from,
                    print_json)
from .writing import temporary_folder, write_bytes


def print_outcome(grid, outcome, weights):
    tell(f"found: {grid.constants_of(outcome.winner)}")
    if outcome.winner == grid.start_values:
        note("it is START: " + ("the race found nothing better" if len(outcome.finalists) > 1 else
                                "no other setting has played; give more --fights or --minutes"))
    elif outcome.points is None:
        note("START does not assemble, so there is no gain over it")
    elif not outcome.points[0]:
        note("no fights were left to measure the gain: give more --fights or --minutes")
    else:
        gain = gain_of(outcome.points, weights)
        luck = 100 * outcome.rise - gain.mean()
        note(f"in the fights that picked it, it was {100 * outcome.rise:+z.1f}% over START; "
             f"{luck:+z.1f}% of that was luck")
        tell(f"over START: {gain_text(gain_numbers(gain))}")


def outcome_numbers(grid, outcome, weights, text):
    """Returns the object of --json. A stopped race has no outcome, and its best in the text."""
    gain = outcome and outcome.points and gain_of(outcome.points, weights)
    return {"winner": dict(zip(grid.names, outcome.winner)) if outcome else None,
            "start": dict(zip(grid.names, grid.start_values)),
            "rise": outcome and outcome.rise and 100 * outcome.rise,
            "gain": gain_numbers(gain) if gain else None,
            "finalists": [{"values": dict(zip(grid.names, one.values)),
                           "percent": 100 * one.rate(), "blocks": one.blocks}
                          for one in (outcome.finalists if outcome else ())],
            "template": text.decode(errors="surrogateescape")}


def ranges_of(args, grid, values):
    """Returns the ranges to print: the box around a setting, unless it has too many settings."""
    if args.box is None:
        return grid.ranges
    ranges = grid.box(values, args.box)
    settings = math.prod(map(len, ranges))
    if settings <= MOST_SETTINGS:
        return ranges
    note(f"--box={args.box} would leave {settings} settings, more than the {MOST_SETTINGS} that "
         "`cwtune tune` takes, so the ranges are not cut")
    return grid.ranges


def make_parser():
    parser = command_parser(__doc__)
    add_budget(parser)
    add_shared(parser, "--json")
    add_number(parser, "--seed", "N", 1, "another number gives other settings and positions", low=0)
    parser.add_argument("--box", type=number_from(0), metavar="N",
                        help="cut each range to N values on both sides of the winner's")
    add_cwtune(parser)
    add_shared(parser, "--as-is")
    add_files(parser, "template", "schedule", "opponents")
    return parser


def readable_opponents(args, paths, folder):
    """Yields the paths of opponents. Of those that are adapted these are copies in a folder."""
    for index, (path, text, is_adapted) in enumerate(adapted_opponents(args, paths)):
        if is_adapted:
            path = pathlib.Path(folder, f"opponent{index}.red")
            write_bytes(path, text)
        yield path


def seek(args, grid, opponents, weights):
    """Races. Returns the winner's values and the outcome; after Ctrl-C the best so far and None."""
    with (temporary_folder() as folder,
          Arena(args, budget_of(args), grid, list(readable_opponents(args, opponents, folder)),
                weights, NoRecords(), folder) as arena):
        race = Race(grid, arena, args.seed)
        try:
            outcome = race.run()
        except KeyboardInterrupt:
            if not race.start.blocks:
                raise
            signal.signal(signal.SIGHUP, signal.SIG_IGN)  # bash sends two if a terminal is closed
            tell(f"stopped: the best so far is {grid.constants_of(race.leader())}; its gain was "
                 "not measured")
            return race.leader(), None
    print_outcome(grid, outcome, weights)
    return outcome.winner, outcome


def main():
    args = make_parser().parse_args()
    grid = Grid(args.template, adapted_for(args, args.template, read_text(args.template)))
    if not grid.names:
        raise Fault(f"{args.template}: no range line, which begins `;@tune` at the left margin "
                    "(cwtune-vary makes a template of a text with EQU lines)")
    # Refuses a program that cannot be run, and rules of no fight, before anything is raced.
    load_file_of("DAT 0", assemble_bytes(args.program, b"DAT 0\n", *rules_of(args).words()))
    weights = weights_by_opponent(args.schedule, len(args.opponents))
    opponents = [path for path, weight in zip(args.opponents, weights) if weight]
    weights = list(filter(None, weights))
    winner, outcome = seek(args, grid, opponents, weights)
    text = grid.text(ranges_of(args, grid, winner), winner)
    if args.json:
        print_json(outcome_numbers(grid, outcome, weights, text))
    else:
        sys.stdout.buffer.write(text)
