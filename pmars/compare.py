"""Plays fights and assembles texts by `cwtune` and by pMARS, and compares.

Warriors are random ones and those of the repository, in series of ten fights: the positions and
first movers are those of `pmars -F`, and the wins, ties and losses have to be the same. Texts are
random ones and those of the repository: the instructions and the start have to be those of
`pmars -r 0`. Then the differences of known.py (docs/PMARS.md) are shown, and what `cwtune-adapt`
makes of texts is compared with the listings of the originals. A fight that differs is printed as
two commands and two warriors, without the instructions that the difference does not need. The exit
status is 1 if something else differs, or if a known difference no longer shows.

PMARS is a server build of pMARS 0.9.2; `make pmars` builds one, and prints its path.
"""
import itertools, pathlib, random, tempfile, time

from author.lib.adapt import Unwritable, adapt
from author.lib.endings import Fault, run_tool
from author.lib.pmars.program import refuse_other
from author.lib.program import Rules, output_of, program_of, run_program
from author.lib.watching import AT_TERMINAL, rewrite
from author.lib.words import add_number, add_program, module_parser, number_from

from .games import READING, Game, fights_of
from .known import FIGHTS, RULES, TEXTS, WAITS
from .random_warriors import Text, random_load

ROOT = pathlib.Path(__file__).resolve().parent.parent
ADAPTED = ROOT / "author/tests/redcode"
# Texts that cannot be adapted, since they use P-space or ROUNDS.
UNWRITABLE = ["ROUNDS", "23-two-faced.red", "53-half-moon.red", "56-marble-run.red"]
ROUNDS = 10
SMALL = [Rules(80, 640, 8, 12, 12), Rules(101, 500, 64, 12, 20), Rules(800, 4000, 800, 20, 20),
         Rules(8192, 3000, 4, 12, 100)]
WHOLE = Rules()


class Programs:
    """The two programs, and a folder for the files that they read."""

    def __init__(self, cwtune, pmars, folder):
        self.cwtune, self.pmars, self.folder = cwtune, pmars, pathlib.Path(folder)

    def game(self, rules, candidate, opponent):
        return Game(rules, candidate, opponent, self.folder)

    def differs(self, game, position, first):
        """Returns whether the two say different points of one fight."""
        return (game.points(self.cwtune, [(position, first)])[0]
                != game.round_points(self.pmars, position, first))

    def assemble(self, text):
        """Returns the load file that `cwtune asm` makes of a text, or why it refuses the text."""
        done = run_program(self.cwtune, "asm", self.write("text.red", text), **READING)
        return done.stdout or done.stderr

    def listing(self, text):
        """Returns the load file of what pMARS lists for a text. A refusal of it is a fault."""
        words = [self.pmars, "-r", "0", self.write("text.red", text)]
        listed = output_of(words, **READING).partition("\n")[2]
        return output_of([self.cwtune, "asm", self.write("load.red", listed)], **READING)

    def write(self, name, text):
        """Writes a file of the folder. Returns its path."""
        path = self.folder / name
        path.write_text(text, "latin-1")
        return str(path)


class Progress:
    """A line at a terminal that says how much was compared."""

    def __init__(self, end):
        self.end, self.fights, self.texts = end, 0, 0

    def show(self):
        if AT_TERMINAL:
            rewrite(f"{self.fights} of {self.end} fights, {self.texts} texts")


def shorter(load):
    """Yields the load files that lack one instruction of this one, the last first."""
    first, *lines = load.splitlines()
    start = int(first.split()[1])
    for left_out in reversed(range(len(lines))):
        if left_out != start and len(lines) > 1:
            rest = lines[:left_out] + lines[left_out + 1:]
            yield "\n".join([f"ORG {start - (left_out < start)}", *rest, ""])


def shorter_pairs(warriors):
    """Yields the pairs of which one warrior lacks one instruction."""
    mine, theirs = warriors
    yield from ((load, theirs) for load in shorter(mine))
    yield from ((mine, load) for load in shorter(theirs))


def cut(programs, rules, warriors, fight):
    """Takes instructions out of both warriors while the fight differs. Returns what is left."""
    while smaller := next((pair for pair in shorter_pairs(warriors)
                           if programs.differs(programs.game(rules, *pair), *fight)), None):
        warriors = smaller
    return warriors


def print_fight(programs, rules, warriors, fights):
    """Prints the first of the fights that differs: two warriors and two commands."""
    game = programs.game(rules, *warriors)
    fight = next((fight for fight in fights if programs.differs(game, *fight)), None)
    if fight is None:
        print("a series differs, and none of its fights alone")
        return
    mine, theirs = cut(programs, rules, warriors, fight)
    print(f"a.red:\n{mine}\nb.red:\n{theirs}")
    game = programs.game(rules, mine, theirs)
    for words in [game.fight_words(programs.cwtune, *fight),
                  game.round_words(programs.pmars, *fight)]:
        print(" ".join(words).replace(f"{programs.folder}/", ""))


def is_series_alike(programs, rules, warriors, seed):
    """Compares a series of fights, and prints a fight that differs."""
    fights = fights_of(rules, seed, ROUNDS)
    game = programs.game(rules, *warriors)
    points = game.points(programs.cwtune, fights)
    counts = tuple(points.count(made) for made in (3, 1, 0))
    theirs = game.counts(programs.pmars, seed, ROUNDS)
    if counts == theirs:
        return True
    print(f"seed {seed}: wins, ties, losses {counts} by cwtune and {theirs} by pMARS")
    print_fight(programs, rules, warriors, fights)
    return False


def pairs_of(dice, real):
    """Yields rules and pairs of warriors without end: random ones, and now and then real ones."""
    pairs = itertools.cycle(itertools.product(real, real))
    while True:
        for _ in range(20):
            rules = dice.choice(SMALL)
            yield rules, (random_load(dice, rules), random_load(dice, rules))
        yield WHOLE, next(pairs)
        yield WHOLE, (random_load(dice, WHOLE), dice.choice(real))


def compare_fights(programs, dice, count, progress):
    """Plays at least `count` fights. Returns how many series differ."""
    real = [path.read_text("ascii") for path in sorted(ROOT.glob("examples/warriors/*.load"))]
    wrong, pairs = 0, pairs_of(dice, real)
    while progress.fights < count:
        rules, warriors = next(pairs)
        seed = dice.randint(rules.distance, rules.core - rules.distance)
        wrong += not is_series_alike(programs, rules, warriors, seed)
        progress.fights += ROUNDS
        progress.show()
    return wrong


def compare_texts(programs, dice, count, progress):
    """Assembles the texts of the repository and random ones. Returns how many differ."""
    texts = [path.read_text("latin-1") for folder in ["examples/warriors", "bench/warriors"]
             for path in sorted((ROOT / folder).glob("*.red"))]
    wrong = 0
    for text in [*texts, *(Text(dice).text() for _ in range(count))]:
        mine, theirs = programs.assemble(text), programs.listing(text)
        if mine != theirs:
            wrong += 1
            print(f"{text}\nby cwtune:\n{mine}\nby pMARS:\n{theirs}")
        progress.texts += 1
        progress.show()
    return wrong


def compare_adapted(programs):
    """Adapts the known texts and those of author/tests/redcode, and prints how many are compared.
    Returns how many pMARS lists otherwise than the originals, or cannot be written and are not in
    UNWRITABLE."""
    texts = {known.name: known.text.encode("latin-1") for known in TEXTS}
    texts |= {path.name: path.read_bytes() for path in sorted(ADAPTED.glob("*.red"))}
    compared = wrong = 0
    for name, text in texts.items():
        try:
            adapted = adapt(name, text, Rules(), programs.cwtune)
            compared += 1
            refuse_other(programs.pmars, name, text, Rules(), adapted.load_file)
        except Fault as fault:
            if not isinstance(fault, Unwritable) or name not in UNWRITABLE:
                wrong += 1
                print(fault)
    print(f"{compared} adapted texts")
    return wrong


def show_fights(programs):
    """Plays the fights that are known to differ. Returns how many came otherwise than is known."""
    wrong = 0
    for known in FIGHTS:
        game = programs.game(RULES, known.warrior, WAITS)
        actual = (game.points(programs.cwtune, [(known.position, "c")])[0],
                  game.round_points(programs.pmars, known.position, "c"))
        wrong += is_other(known, actual)
    return wrong


def show_texts(programs):
    """Assembles the texts that are known to differ. Returns how many came otherwise."""
    return sum(is_other(known, (programs.assemble(known.text), programs.listing(known.text)))
               for known in TEXTS)


def is_other(known, actual):
    """Returns whether the results of the programs are other than known, and prints them if so."""
    if actual == (known.cwtune, known.pmars):
        return False
    print(f"known: {known.name}: expected {known.cwtune!r} by cwtune and {known.pmars!r} by pMARS, "
          f"came {actual!r}")
    return True


def main():
    parser = module_parser("pmars.compare", __doc__)
    parser.add_argument("--seed", type=number_from(0), default=int(time.time()), metavar="S",
                        help="the beginning of the random numbers [default: the time]")
    add_number(parser, "--fights", "N", 1000, "how many fights at least")
    add_number(parser, "--texts", "N", 100, "random texts", 0)
    add_program(parser)
    parser.add_argument("pmars", metavar="PMARS", help="a server build of pMARS 0.9.2, whose path "
                        "`make pmars` prints")
    args = parser.parse_args()
    dice, progress = random.Random(args.seed), Progress(args.fights)
    with tempfile.TemporaryDirectory() as folder:
        programs = Programs(program_of(args.program), program_of(args.pmars, "make pmars"), folder)
        try:
            wrong = compare_fights(programs, dice, args.fights, progress)
            wrong += compare_texts(programs, dice, args.texts, progress)
        finally:
            if AT_TERMINAL:
                rewrite()
        wrong += show_fights(programs) + show_texts(programs) + compare_adapted(programs)
    print(f"seed {args.seed}: {progress.fights} fights, {progress.texts} texts, "
          f"{len(FIGHTS) + len(TEXTS)} known differences: {wrong} unexpected")
    return 1 if wrong else 0


if __name__ == "__main__":
    run_tool(main)
