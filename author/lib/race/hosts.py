"""Has hosts play what a race is about to play, if that takes long here.

What they played waits until the race comes to it. So the race goes the same way, and is recorded
the same way, as without hosts. A piece of the work is some settings in some blocks.
"""
import math, os, pathlib, shutil, subprocess
from typing import NamedTuple

from ..endings import Fault, fault_of
from ..program import reading_output
from ..spread.hosts import HostJobs, read_hosts
from ..spread.jobs import ended
from ..tuning_files import MOST_FIGHTS, schedule_text
from ..writing import write_bytes
from . import SETTINGS_AT_ONCE

# Hosts play what takes longer than that here; for one of their processors it is a piece.
SECONDS = 60
# How many pieces a processor of the hosts gets before the race goes on, and how many plays may wait
# in memory: this much is lost by a kill.
PIECES_AT_ONCE, MOST_PLAYS = 4, 500000
SCRIPT = pathlib.Path(__file__).with_name("job.sh")


def points_of(row, width):
    """Returns a text for each block of `width` fights, given the row with all their points."""
    points = {int(fight): digit for fight, _, digit in (item.partition(b":") for item
                                                        in row.split(b",")[2].split(b" "))}
    digits = b"".join(points[fight] for fight in range(len(points))).decode()
    return [digits[first:first + width] for first in range(0, len(digits), width)]


class Piece(NamedTuple):
    """Some settings, which play some blocks."""

    settings: list
    blocks: list


def pieces_of(settings, blocks, plays, most_blocks):
    """Yields the pieces of about `plays` plays each, of at most `most_blocks` blocks."""
    width = max(1, min(len(blocks), most_blocks, plays))
    height = max(1, plays // width)
    for block in range(0, len(blocks), width):
        for setting in range(0, len(settings), height):
            yield Piece(settings[setting:setting + height], blocks[block:block + width])


class PiecesFolder:
    """A temporary folder with pieces, as `HostJobs` wants it."""

    SENT_KINDS, RETURNED_KINDS = ["settings", "csv"], ["report", "fault"]

    def __init__(self, arena, pieces):
        self.arena, self.pieces, self.pid = arena, dict(enumerate(pieces, 1)), os.getpid()
        self.path, self.work = arena.folder / "pieces", arena.work
        self.path.mkdir()
        opponents = {f"o{index}.red": path for index, path in enumerate(arena.opponents)}
        sources = {"cwtune": arena.args.program, "race_job": SCRIPT, **opponents}
        for name, source in sources.items():
            shutil.copy(source, self.path / name)
        write_bytes(self.path / "t.red", b"\n".join(arena.grid.lines))
        self.opponents, self.copies = list(opponents), [*self.path.iterdir()]

    def file(self, number, kind):
        return self.path / f"{number}.{self.pid}.{kind}"

    def prepare(self, number):
        """Writes the settings of a piece, as scripts for sed, and the schedule of its blocks."""
        piece, grid = self.pieces[number], self.arena.grid
        scripts = []
        for values in piece.settings:
            lines = grid.alone(values).split(b"\n")
            scripts.append(b";".join(b"%ds/.*/%s/" % (index + 1, lines[index])
                                     for index in grid.line_indices) + b"\n")
        fights = (fight for block in piece.blocks for fight in block)
        write_bytes(self.file(number, "settings"), b"".join(scripts))
        write_bytes(self.file(number, "csv"), schedule_text(fights).encode())

    def words(self, number):
        name = f"{number}.{self.pid}"
        words = self.arena.processes.words("./cwtune", "setting.red", f"{name}.csv", self.opponents)
        return ["sh", "./race_job", f"{name}.settings", *words]

    def result(self, number, status):
        piece, fault = self.pieces[number], self.file(number, "fault").read_bytes()
        if status:
            raise fault_of(subprocess.CompletedProcess(["cwtune"], status, b"", fault))
        rows, points = self.file(number, "report").read_bytes().split(b"\n"), {}
        with reading_output(self.arena.args.program, "tune"):
            for values, row in zip(piece.settings, rows[:-1], strict=True):
                of_blocks = (points_of(row, len(self.opponents)) if row
                             else [None] * len(piece.blocks))
                points |= {(values, block): point
                           for block, point in zip(piece.blocks, of_blocks, strict=True)}
        return points


class Hosts:
    """The hosts of a race, if there are any. `points` has, by setting and block, what they played
    and the race has not come to, and `seconds` is how long one play took there."""

    def __init__(self, arena):
        self.arena, self.points, self.seconds = arena, {}, 0.0

    def play_ahead(self, contenders, blocks, count, limit):
        """Has hosts play `blocks` and more, `count` in all within `limit`, if that is slow here."""
        arena = self.arena
        if (not (arena.args.hosts and arena.processes.plays) or arena.is_recorded()
                or (contenders[0].values, blocks[0]) in self.points):
            return
        settings = [contender.values for contender in contenders]
        at_once = min(len(settings), SETTINGS_AT_ONCE) * len(blocks)
        plays = self.plays_ahead(len(settings) * count, at_once, limit)
        if plays:
            more = min(count, plays // len(settings)) - len(blocks)
            blocks = blocks + arena.blocks_to_come(max(0, more))
            self.play_pieces(settings[:max(1, plays // len(blocks))], blocks)

    def plays_ahead(self, plays, at_once, limit):
        """Returns how many of some plays hosts play now: all, or a multiple of `at_once`, which
        the race plays between two looks at the budget. Returns 0 if they do not take long."""
        arena, seconds_of_play = self.arena, self.seconds_here()
        left = arena.plays_until(limit)
        if arena.budget.seconds:
            left /= 2  # Hosts may be slower.
        if min(plays, left) * seconds_of_play < SECONDS * arena.args.jobs:
            return 0
        most = min(left, MOST_PLAYS, PIECES_AT_ONCE * SECONDS * self.processors() / seconds_of_play)
        return plays if plays <= most else max(1, int(most / at_once)) * at_once

    def seconds_here(self):
        return self.arena.processes.seconds / self.arena.processes.plays

    def processors(self):
        """Returns how many pieces run side by side, if all hosts answer."""
        return len(read_hosts(self.arena.args.hosts)) * self.arena.args.jobs

    def play_pieces(self, settings, blocks):
        arena, plays = self.arena, len(settings) * len(blocks)
        plays_of_piece = math.ceil(min(plays / self.processors(), SECONDS / self.seconds_here()))
        pieces = pieces_of(settings, blocks, plays_of_piece, MOST_FIGHTS // len(arena.opponents))
        began_at = arena.elapsed()
        self.points = self.play(PiecesFolder(arena, pieces))
        seconds = arena.elapsed() - began_at
        # The time counts when the race comes to what was played.
        arena.began_at += seconds
        self.seconds = seconds / plays

    def play(self, folder):
        jobs, points = HostJobs(self.arena.args, folder, folder.pieces), {}
        try:
            for number, status in ended(jobs, self.arena.tell_progress):
                points |= folder.result(number, status)
            if jobs.waiting:
                raise Fault(f"no result from the hosts ({jobs.fault})", 3)
        finally:
            shutil.rmtree(folder.path)
        return points

    def take(self, settings, blocks):
        """Returns the points of settings in blocks, or None if hosts did not play all of it."""
        keys = [[(tuple(values), block) for block in blocks] for values in settings]
        if not self.points or not all(key in self.points for of_one in keys for key in of_one):
            return None
        self.arena.began_at -= self.seconds * len(settings) * len(blocks)
        points = [[self.points.pop(key) for key in of_one] for of_one in keys]
        return [None if None in of_one else of_one for of_one in points]
