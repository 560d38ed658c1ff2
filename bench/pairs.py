"""Series of fights as a tuning plays them, by `cwtune tune` with one setting and by pMARS.
README.md says what is measured."""
import dataclasses, itertools, math, pathlib, tempfile

from author.lib.endings import Fault
from author.lib.program import Rules, output_of
from author.lib.words import add_number, add_program, module_parser
from pmars.games import Game, counts_of, fights_of

from . import plain_machine
from .runs import mean_and_least, run

HERE = pathlib.Path(__file__).resolve().parent
# In each folder, each warrior fights each other one.
FOLDERS = {"examples": HERE.parent / "examples" / "warriors", "seen": HERE / "seen",
           "unseen": HERE / "unseen"}
# A series has as many fights as pMARS plays in SECONDS, so that starts do not count, but at least
# FEWEST and at most MOST.
SECONDS, FEWEST, MOST = 1.0, 60, 10_000
# The SEED of `cwtune-series`: the position of its first fight.
SEED = 3000


@dataclasses.dataclass
class Pair:
    """Two warriors, and what is measured of their series: the least seconds that each program took,
    the candidate's points, and how many of the fights are ties. `executed` is how often the first
    fight executed each instruction, by its canonical modifier, `unclassed` the share of its turns
    whose instruction has no class of its own. `folder` has the schedule as `s.csv`."""

    name: str
    folder: pathlib.Path
    fights: int
    tune_words: list
    pmars_words: list
    executed: dict
    unclassed: float
    cwtune_seconds: float = math.inf
    pmars_seconds: float = math.inf
    points: int | None = None
    ties: int | None = None

    def play_tune(self):
        """Returns the seconds of the series by `cwtune tune`, and the candidate's points."""
        ran = run(self.tune_words)
        words = ran.output.split()
        if words[words.index("fights") + 1] != str(self.fights):
            raise Fault(f"{self.name}: cwtune did not play {self.fights} fights: {words}", 3)
        return ran.processor, int(words[words.index("total") + 1])

    def play_pmars(self):
        """Returns the seconds of the series by pMARS, and the candidate's points."""
        ran = run(self.pmars_words)
        wins, self.ties, _ = counts_of(self.pmars_words[0], ran.output)
        return ran.processor, 3 * wins + self.ties

    def play(self):
        """Plays the series by each program. Their points have to be the same."""
        ours, self.points = self.play_tune()
        theirs, points = self.play_pmars()
        if self.points != points:
            raise Fault(f"{self.name}: cwtune has {self.points} points, pMARS {points}", 3)
        self.cwtune_seconds = min(self.cwtune_seconds, ours)
        self.pmars_seconds = min(self.pmars_seconds, theirs)

    def ratio(self):
        """Returns how many times as fast as pMARS the program is."""
        return self.pmars_seconds / self.cwtune_seconds


def series_length(game, pmars):
    """Returns how many fights a series of this game has, by what pMARS takes for the fewest."""
    seconds = run(game.series_words(pmars, SEED, FEWEST)).processor
    return min(MOST, max(FEWEST, int(FEWEST * SECONDS / max(seconds, 1e-3))))


def pair_of(candidate, opponent, programs, folder):
    """Returns the pair of two warriors, each a name and a load file. The plain machine plays the
    first fight, which has to end as by `cwtune`."""
    names, loads = zip(candidate, opponent)
    cwtune, pmars = programs
    game = Game(Rules(), *loads, tempfile.mkdtemp(dir=folder))
    fights, first = series_length(game, pmars), plain_machine.Fight(game.rules, loads, SEED)
    first.play()
    run(game.fight_words(cwtune, SEED, "c"), "", first.result())
    return Pair(":".join(names), game.folder, fights,
                game.tune_words(cwtune, fights_of(game.rules, SEED, fights)),
                game.series_words(pmars, SEED, fights), first.executed, first.unclassed())


def loads_of(cwtune, folder):
    """Returns the names and the load files of the warriors of a folder."""
    paths = sorted(folder.glob("*.red"))
    return [(path.stem, output_of([cwtune, "asm", path])) for path in paths]


def play_in_turn(pairs, runs):
    """Plays all pairs in turn, `runs` times, so that a slow minute spoils one run of each. Returns
    them in a list."""
    pairs = list(pairs)
    for _ in range(runs):
        for pair in pairs:
            pair.play()
    return pairs


def print_pairs(title, pairs):
    """Prints a line for each pair."""
    print(f"{title:<32}{'fights':>8}{'points':>8}{'ties':>7}{'unclassed':>10}{'ms':>10}"
          f"{'pMARS ms':>10}{'ratio':>8}")
    for pair in pairs:
        print(f"{pair.name:<32}{pair.fights:>8}{pair.points:>8}{pair.ties:>7}"
              f"{pair.unclassed:>10.0%}{pair.cwtune_seconds * 1e3:>10.1f}"
              f"{pair.pmars_seconds * 1e3:>10.1f}{pair.ratio():>8.2f}")


def print_folders(cwtune, pmars, runs):
    """Prints the pairs of warriors of each folder, the geometric mean and the least ratio."""
    for name, path in FOLDERS.items():
        with tempfile.TemporaryDirectory() as folder:
            pairs = play_in_turn((pair_of(*both, (cwtune, pmars), folder) for both in
                                  itertools.combinations(loads_of(cwtune, path), 2)), runs)
        print_pairs(name, pairs)
        print(f"the same points in {len(pairs)} series")
        print(mean_and_least([pair.ratio() for pair in pairs]), flush=True)


def pairs_parser(module, docstring, runs):
    """Returns the parser of a module that plays series of pairs, and the usual number of runs."""
    parser = module_parser(module, docstring)
    add_program(parser)
    parser.add_argument("--pmars", required=True, metavar="PATH", help="a pMARS server build")
    add_number(parser, "--runs", "N", runs, "runs of each series")
    return parser
