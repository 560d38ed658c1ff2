"""Searches a template as an author with pMARS and an evening would: the search to beat.

Half of the time it plays settings from everywhere, 5 fights against each opponent. The best ten
play 20 other fights against each; until 85% of the time changes of one or two constants of the best
three play the same 20. The best five play 40 other fights, and the best of these is found; START
plays these only to be compared with. The fights of a setting end once it is certain that it is not
among the best.

Prints the template with what it found as START. On standard error it says by how much its total
exceeds START's, which is more than it gained: the total has picked it.
"""
import math, pathlib, random, sys, tempfile
from typing import NamedTuple

from author.lib.endings import Fault, end_as, run_tool
from author.lib.grid import Grid
from author.lib.program import NO_CANDIDATE, Rules, program_of, reading_output, run_program
from author.lib.race.fights import processor_seconds
from author.lib.tuning_files import Fight, schedule_text
from author.lib.words import add_files, add_program, module_parser, number_from

# The least and the greatest position of an opponent.
POSITIONS = Rules().distance, Rules().core - Rules().distance
# How often a constant is drawn anew, and by how many steps it moves if it is not.
REDRAWN, MOVES = 0.5, [-3, -2, -1, 1, 2, 3]
# While exploring, while improving and in the end: the fights against each opponent, the part of the
# time that is over then, and how many are kept. Changes are made of the best PARENTS.
ROUNDS = FEW, MORE, MANY = 5, 20, 40
EXPLORED, IMPROVED = 0.5, 0.85
EXPLORERS, IMPROVERS, PARENTS = 10, 5, 3


class Player(NamedTuple):
    """A setting, and its total as a share of the greatest in the fights that it played last."""

    share: float
    values: tuple


def schedule_of(position_dice, rounds, opponents):
    """Returns a schedule of random fights. Of each two rounds an opponent begins one."""
    blocks = []
    for index in range(rounds):
        if index % 2 == 0:
            firsts = [position_dice.choice("co") for _ in range(opponents)]
        else:
            firsts = ["o" if first == "c" else "c" for first in firsts]
        blocks.append([(position_dice.randint(*POSITIONS), first) for first in firsts])
    return schedule_text(Fight(opponent, *block[opponent])
                         for opponent in range(opponents) for block in blocks)


def leaders(players, count):
    """Returns the best `count` players, the best first; of equal ones the earlier first."""
    return sorted(players, key=lambda player: -player.share)[:count]


class Naive:
    """The search, its fights and its dice. `played` counts settings, each time they play."""

    def __init__(self, args, folder):
        self.program, self.opponents, self.grid = args.program, sorted(args.opponents), args.grid
        self.seconds, self.folder, self.played = args.seconds, pathlib.Path(folder), 0
        self.dice, position_dice = random.Random(args.seed), random.Random(args.seed + 1000)
        for rounds in ROUNDS:
            schedule = schedule_of(position_dice, rounds, len(self.opponents))
            self.schedule(rounds).write_text(schedule)

    def schedule(self, rounds):
        return self.folder / f"{rounds}.csv"

    def time_is_over(self, part):
        return processor_seconds() >= self.seconds * part

    def play(self, values, rounds, least=0.0):
        """Plays a setting. Its share is below 0 if it does not assemble, or is below `least`."""
        greatest = 3 * rounds * len(self.opponents)
        floor = max(0, math.ceil(least * greatest - 1e-6))
        self.played += 1
        return Player(self.total(values, rounds, floor) / greatest, values)

    def total(self, values, rounds, floor):
        """Returns the total of a setting, or -1 if it has none or one below `floor`."""
        template, cert = self.folder / "t.red", self.folder / "cert"
        template.write_bytes(self.grid.alone(values))
        completed = run_program(self.program, "tune", f"--floor={floor}", template,
                                self.schedule(rounds), cert, *self.opponents)
        if completed.returncode == 1 and completed.stderr.endswith(NO_CANDIDATE.encode()):
            return -1
        if completed.returncode != 0:
            end_as(self.program, completed.returncode, completed.stderr)
        with reading_output(self.program, "tune"):
            report = dict(line.split(" ", 1) for line in completed.stdout.decode().splitlines())
            return -1 if report["best"] == "-" else int(report["total"].split()[0])

    def explore(self):
        """Plays settings from everywhere. Returns the best."""
        top = [self.play(self.grid.start_values, FEW)]
        if top[0].share < 0:
            raise Fault(f"{self.grid.path}: START does not assemble")
        while not self.time_is_over(EXPLORED):
            values = tuple(self.dice.choice(values) for values in self.grid.ranges)
            least = top[-1].share if len(top) == EXPLORERS else 0
            top = leaders([*top, self.play(values, FEW, least)], EXPLORERS)
        return top

    def moved(self, value, values):
        """Returns another value of a constant, or the same one if it cannot move further."""
        if self.dice.random() < REDRAWN:
            return self.dice.choice(values)
        return min(max(value + self.dice.choice(MOVES) * values.step, values[0]), values[-1])

    def changed(self, values):
        """Returns the values of a setting with one or two of them changed."""
        new, constants = list(values), range(len(values))
        count = self.dice.choice([1, 1, 2]) if len(constants) > 1 else 1
        for constant in self.dice.sample(constants, count):
            new[constant] = self.moved(new[constant], self.grid.ranges[constant])
        return tuple(new)

    def improve(self, top):
        """Plays changes of the best. Returns the best."""
        while not self.time_is_over(IMPROVED):
            values = self.changed(self.dice.choice(top[:PARENTS]).values)
            if values not in [player.values for player in top]:
                top = leaders([*top, self.play(values, MORE, top[-1].share)], IMPROVERS)
        return top

    def find(self):
        """Searches. Returns what was found, and START in the same fights."""
        top = leaders([self.play(player.values, MORE) for player in self.explore()], IMPROVERS)
        last = [self.play(player.values, MANY) for player in self.improve(top)]
        return leaders(last, 1)[0], self.play(self.grid.start_values, MANY)


def make_parser():
    parser = module_parser("bench.naive", __doc__)
    add_program(parser)
    parser.add_argument("seconds", type=number_from(1), metavar="SECONDS",
                        help="processor time, with that of all children")
    parser.add_argument("seed", type=number_from(0), metavar="SEED")
    add_files(parser, "template", "opponents")
    return parser


def main():
    args = make_parser().parse_args()
    args.program, args.grid = program_of(args.program), Grid(args.template)
    with tempfile.TemporaryDirectory() as folder:
        naive = Naive(args, folder)
        found, start = naive.find()
    print(f"total over START's: {100 * (found.share - start.share):+.1f}%, {naive.played} plays, "
          f"{processor_seconds():.1f} s", file=sys.stderr)
    sys.stdout.buffer.write(args.grid.text(args.grid.ranges, found.values))


if __name__ == "__main__":
    run_tool(main)
