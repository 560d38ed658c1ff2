"""The programs that play the fights of fights/: `cwtune`, and a pMARS server build."""
import pathlib, tempfile

from author.lib.program import Rules
from author.lib.tuning_files import Fight, schedule_text
from pmars.games import Game

from .runs import run

# What pMARS prints of a tie: for each warrior the rounds that it survived alone, and those that the
# two survived.
TIE = "0 1\n0 1\n"
# Short fights: the cycles of each, and how many settings are tuned in how many fights.
SHORT_CYCLES, SHORT_SETTINGS, SHORT_FIGHTS = 50, 20, 10_000


class FightText:
    """A fight text, taken apart so that pMARS can play it too. The candidate moves first, and it is
    a tie after all cycles."""

    def __init__(self, path):
        self.name, self.text = path.stem, path.read_text("ascii")
        head, fight, _, *lines = self.text.splitlines(keepends=True)
        self.rules = Rules(*map(int, head.split()[1:]))
        self.position = int(fight.split()[1])
        middle = lines.index("opponent\n")
        self.candidate, self.opponent = "".join(lines[:middle]), "".join(lines[middle + 1 :])
        self.turns = 2 * self.rules.cycles

    def of_one_cycle(self):
        """Returns this fight text with one cycle: its time is the start of the process."""
        _, rest = self.text.split("\n", 1)
        return f"rules {' '.join(map(str, self.rules._replace(cycles=1)))}\n{rest}"


class Cwtune:
    """Reads a fight text, and prints a result line. `Pmars` has the same calls."""

    def __init__(self, program):
        self.program = program

    def plays(self, fight):
        """Returns two plays, which give seconds: of the fight, and of its start alone."""
        tie = f"tie 1 turns {fight.turns}\n"
        return (lambda: run([self.program], fight.text, tie).seconds,
                lambda: run([self.program], fight.of_one_cycle()).seconds)

    def short_play(self, fight, folder):
        """Returns a play of a tuning in short fights, which gives the seconds of a fight.

        A constant that no instruction reads makes many settings of the candidate. A tuning plays
        all its fights in one process and one arena.
        """
        template = f";@tune K 0 {SHORT_SETTINGS - 1} 1 0\n{fight.candidate}DAT.F $K, $0\n"
        fights = [Fight(0, fight.position, "c")] * SHORT_FIGHTS
        texts = {"template.red": template, "schedule.csv": schedule_text(fights), "cert.csv": "",
                 "opponent.red": fight.opponent}
        folder = pathlib.Path(tempfile.mkdtemp(dir=folder))
        for name, text in texts.items():
            (folder / name).write_text(text, "ascii")
        command = [self.program, "tune", *fight.rules._replace(cycles=SHORT_CYCLES).words(),
                   *(str(folder / name) for name in texts)]

        def play():
            ran = run(command)
            return ran.seconds / int(ran.output.split("fights ")[1].split()[0])

        return play


class Pmars:
    """A pMARS server build, which reads load files as Redcode."""

    def __init__(self, program, folder):
        self.program, self.folder = program, folder

    def command(self, fight, cycles, rounds=1):
        game = Game(fight.rules._replace(cycles=cycles), fight.candidate, fight.opponent,
                    tempfile.mkdtemp(dir=self.folder))
        return game.series_words(self.program, fight.position, rounds)

    def plays(self, fight):
        whole, start = self.command(fight, fight.rules.cycles), self.command(fight, 1)
        return lambda: run(whole, "", TIE).seconds, lambda: run(start).seconds

    def short_play(self, fight, _folder):
        rounds = SHORT_SETTINGS * SHORT_FIGHTS
        command = self.command(fight, SHORT_CYCLES, rounds)
        return lambda: run(command).seconds / rounds
