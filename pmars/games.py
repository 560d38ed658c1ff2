"""Plays the same fights by `cwtune` and by a pMARS server build (`make pmars` builds one)."""
import pathlib

from author.lib.endings import Fault
from author.lib.pmars.program import words_of
from author.lib.program import output_of
from author.lib.series import series
from author.lib.tuning_files import Fight, schedule_text

# How the output of both is read: of pMARS it has the bytes of names. The time is in seconds.
READING = {"encoding": "latin-1", "timeout": 120}


class Game:
    """Two warriors, as load files in a folder, and the rules."""

    def __init__(self, rules, candidate, opponent, folder):
        self.rules, self.folder = rules, pathlib.Path(folder)
        # Without an assertion pMARS prints a warning for each warrior.
        self.warriors = [self.write(name, f";assert 1\n{text}")
                         for name, text in [("a.red", candidate), ("b.red", opponent)]]
        self.template = self.write("t.red", candidate)

    def write(self, name, text):
        path = self.folder / name
        path.write_text(text, "ascii")
        return str(path)

    def tune_words(self, program, fights):
        """Returns the command that plays the fights, each a position and a first mover."""
        schedule = self.write("s.csv", schedule_text(Fight(0, *fight) for fight in fights))
        cert = self.write("cert", "")
        return [program, "tune", *self.rules.words(), self.template, schedule, cert,
                self.warriors[1]]

    def series_words(self, pmars, seed, rounds):
        """Returns the command that plays the fights of `cwtune-series`."""
        return [pmars, "-b", "-k", "-F", str(seed), "-r", str(rounds), *words_of(self.rules),
                *self.warriors]

    def fight_words(self, program, position, first):
        """Returns the command by which `cwtune` plays one fight."""
        return [program, "fight", *self.rules.words(), f"--position={position}", f"--first={first}",
                *self.warriors]

    def round_words(self, pmars, position, first):
        """Returns the command by which pMARS plays one fight. The warrior that it is given first
        is at 0 and moves first, so that the two change places if the opponent moves first."""
        if first == "c":
            return self.series_words(pmars, position, 1)
        words = self.series_words(pmars, self.rules.core - position, 1)
        return [*words[:-2], *self.warriors[::-1]]

    def points(self, program, fights):
        """Returns the candidate's points in each of the fights, by `cwtune`."""
        output_of(self.tune_words(program, fights), **READING)
        row = (self.folder / "cert").read_text("ascii").splitlines()[2]
        return [int(item.split(":")[1]) for item in row.split(",")[2].split(" ")]

    def counts(self, pmars, seed, rounds):
        """Returns how many of the fights of a series pMARS says are won, tied and lost."""
        return counts_of(pmars, output_of(self.series_words(pmars, seed, rounds), **READING))

    def round_points(self, pmars, position, first):
        """Returns the candidate's points in one fight, by pMARS."""
        printed = output_of(self.round_words(pmars, position, first), **READING)
        wins, ties, losses = counts_of(pmars, printed)
        return 3 * (wins if first == "c" else losses) + ties


def fights_of(rules, seed, rounds):
    """Returns the fights of a series: positions and first movers."""
    return list(series(seed, rounds, rules.core, rules.distance))


def counts_of(pmars, printed):
    """Returns how many fights the warrior won, tied and lost that pMARS was given first: for each
    warrior it prints the rounds that it survived alone, and those that both did."""
    try:
        (wins, ties), (losses, _) = (map(int, line.split()) for line in printed.splitlines()[:2])
    except ValueError:
        raise Fault(f"{pmars}: not a pMARS server build", 3) from None
    return wins, ties, losses
