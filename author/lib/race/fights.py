"""Plays the fights of a race by `cwtune`, and keeps its budget.

Each process plays one setting, as the only one of a template, in some blocks; --jobs of them run
side by side. What was played is a list of records, which a study keeps in a file. A race that is
begun again with these takes the points from them, up to where it was stopped.
"""
import concurrent.futures, itertools, operator, os, pathlib, random, resource, shutil, subprocess
import time
from typing import NamedTuple

from ..endings import Fault, fault_of, tell
from ..program import NO_CANDIDATE, reading_output, rules_of
from ..tuning_files import Fight, schedule_text
from ..watching import Pace
from ..words import counted
from ..writing import write_bytes
from .hosts import Hosts, points_of

# The blocks of one process, so that a long heat runs on several processors.
BLOCKS_OF_PROCESS = 8
# The most blocks, and about the most fights, in which START alone plays before a race.
TIMED_BLOCKS, TIMED_FIGHTS = 16, 200
# How much of --minutes is left for the end of the command: a part of them, and some seconds.
END_PART, END_SECONDS = 0.01, 0.4
# Has the kernel end a process with the thread that started it. A function that is called in the
# new process would do so, too, but then Python takes three times as long to start it.
WITH_PARENT = ["setpriv", "--pdeathsig", "KILL", "--"] if shutil.which("setpriv") else []


def processor_seconds():
    """Returns the processor seconds of this process and of the children that ended."""
    return sum(sum(resource.getrusage(who)[:2])
               for who in (resource.RUSAGE_SELF, resource.RUSAGE_CHILDREN))


def clock():
    """Returns the seconds that --minutes counts. Measurements set CWTUNE_CLOCK=processor, since
    elapsed time says little on a busy machine."""
    of_processor = os.environ.get("CWTUNE_CLOCK") == "processor"
    return processor_seconds() if of_processor else time.monotonic()


class Budget(NamedTuple):
    """What a race may use: fights, seconds, or both. None is no limit."""

    fights: int | None
    seconds: float | None = None

    def used(self, fights, seconds):
        parts = [fights / self.fights] if self.fights else []
        if self.seconds:
            parts.append(seconds / max(0.001, self.seconds * (1 - END_PART) - END_SECONDS))
        return max(parts)


class Positions:
    """The fights against one opponent. It is placed at each possible position once, in an order
    drawn by the seed. Then the positions come again, and the other warrior moves first."""

    def __init__(self, rules, dice):
        self.positions = list(range(rules.distance, rules.core - rules.distance + 1))
        dice.shuffle(self.positions)
        self.shift = dice.randrange(2)

    def fight(self, opponent, block):
        cycle, index = divmod(block, len(self.positions))
        return Fight(opponent, self.positions[index], "co"[(index + cycle + self.shift) % 2])


class Processes:
    """Plays settings of a grid in blocks by processes of `cwtune`, side by side, `with` it.
    `plays` counts what was played, and `seconds` are those of all processes."""

    def __init__(self, args, grid, opponents, folder):
        self.args, self.grid, self.opponents, self.folder = args, grid, opponents, folder
        self.rules, self.plays, self.seconds = rules_of(args).words(), 0, 0.0

    def __enter__(self):
        self.running, self.is_over = set(), False
        self.threads = concurrent.futures.ThreadPoolExecutor(self.args.jobs)
        return self

    def __exit__(self, *_):
        self.is_over = True
        self.threads.shutdown(wait=False, cancel_futures=True)
        for process in list(self.running):
            process.kill()
        self.threads.shutdown()

    def play(self, settings, blocks, tell_progress):
        """Returns for each setting a text per block, or None if it does not assemble."""
        schedules, points = list(self.schedules_of(blocks)), []
        futures = [[self.threads.submit(self.run, template, schedule) for schedule in schedules]
                   for template in self.templates_of(settings)]
        for of_setting in futures:
            pieces, seconds = zip(*(future.result() for future in of_setting))
            points.append(None if None in pieces else list(itertools.chain(*pieces)))
            self.seconds += sum(seconds)
            tell_progress()
        self.plays += len(settings) * len(blocks)
        return points

    def schedules_of(self, blocks):
        """Writes a schedule for the blocks of each process. Yields its path."""
        for first in range(0, len(blocks), BLOCKS_OF_PROCESS):
            path = self.folder / f"{first}.csv"
            fights = itertools.chain(*blocks[first:first + BLOCKS_OF_PROCESS])
            write_bytes(path, schedule_text(fights).encode())
            yield path

    def templates_of(self, settings):
        """Writes a template for each setting. Yields its path."""
        for index, values in enumerate(settings):
            path = self.folder / f"{index}.red"
            write_bytes(path, self.grid.alone(values))
            yield path

    def words(self, program, template, schedule, opponents):
        """Returns the words that play a setting, the only one of a template."""
        return [program, "tune", "--all", *self.rules, "--", template, schedule,
                "/dev/stdout", *opponents]

    def run(self, template, schedule):
        """Returns the points of a setting in some blocks, and how many seconds that took."""
        began_at = time.monotonic()
        words = self.words(self.args.program, template, schedule, self.opponents)
        with subprocess.Popen([*WITH_PARENT, *words], stdin=subprocess.DEVNULL,
                              stdout=subprocess.PIPE, stderr=subprocess.PIPE) as process:
            self.running.add(process)
            if self.is_over:
                process.kill()
            stdout, stderr = process.communicate()
            self.running.discard(process)
        seconds = time.monotonic() - began_at
        if process.returncode == 1 and stderr.endswith(NO_CANDIDATE.encode()):
            return None, seconds
        if process.returncode:
            raise fault_of(subprocess.CompletedProcess(words, process.returncode, stdout, stderr))
        with reading_output(self.args.program, "tune"):
            return points_of(stdout.split(b"\n", 3)[2], len(self.opponents)), seconds


class NoRecords(list):
    """Keeps no records, since those of a day would fill the memory."""

    def append(self, _):
        pass


class Arena:
    """The fights of a race in the settings of a grid: `with` it, they can be played.

    `opponents` are the paths of the opponents, and `weights` how much each counts; each weight is 1
    or more. `records` is a list of what was played, to which each play adds: given those of a race
    that was stopped, the same race goes on where it was. `news` is what the lines of progress say,
    and `hosts` play ahead what would take long here; `work` is a name by which they know what an
    earlier run left.
    """

    def __init__(self, args, budget, grid, opponents, weights, records, folder, work=None):
        self.args, self.budget, self.grid, self.records = args, budget, grid, records
        self.opponents, self.weights = opponents, weights
        self.folder, dice = pathlib.Path(folder), random.Random(args.seed)
        self.work = work or self.folder
        self.positions = [Positions(rules_of(args), dice) for _ in self.opponents]
        self.block_count = self.record_count = self.fights = 0
        self.began_at, self.seconds, self.seconds_of_play = clock(), 0.0, 0.0
        self.processes, self.hosts = Processes(args, grid, opponents, self.folder), Hosts(self)
        self.news, self.pace = "", Pace()

    def __enter__(self):
        self.processes.__enter__()
        return self

    def __exit__(self, *_):
        self.processes.__exit__()

    def elapsed(self):
        return clock() - self.began_at

    def used(self):
        return self.budget.used(self.fights, self.seconds)

    def has_room(self, plays, limit):
        fights = self.fights + plays * len(self.opponents)
        return self.budget.used(fights, self.seconds + plays * self.seconds_of_play) <= limit

    def plays_until(self, limit):
        """Returns how many plays are left of a part of the budget, as far as can be told."""
        left = self.fights * (limit / max(self.used(), 1e-9) - 1)
        return max(0, left / len(self.opponents))

    def charge(self, fights, seconds):
        self.fights += fights
        self.seconds += seconds
        self.began_at = clock() - self.seconds

    def new_blocks(self, count):
        """Returns the next `count` blocks."""
        blocks = self.blocks_to_come(count)
        self.block_count += count
        return blocks

    def different_blocks(self):
        """Returns how many blocks there are before the first comes again."""
        return 2 * len(self.positions[0].positions)

    def blocks_to_come(self, count):
        numbers = range(self.block_count, self.block_count + count)
        return [tuple(positions.fight(opponent, number)
                      for opponent, positions in enumerate(self.positions)) for number in numbers]

    def timed_blocks(self):
        """Returns the first blocks, in which START alone plays, to time the race. They take two
        seconds at most, but in very slow fights."""
        return self.new_blocks(max(1, min(TIMED_BLOCKS, TIMED_FIGHTS // len(self.opponents))))

    def rates(self, contenders, blocks):
        greatest = 3 * sum(self.weights)
        return [points and [sum(map(operator.mul, self.weights, map(int, block))) / greatest
                            for block in points] for points in self.play(contenders, blocks)]

    def is_recorded(self):
        return self.record_count < len(self.records)

    def play(self, contenders, blocks):
        """Returns a text per contender and block, a digit per opponent; None for a contender
        that does not assemble."""
        settings = [list(contender.values) for contender in contenders]
        if self.is_recorded():
            record = self.records[self.record_count]
        else:
            points = (self.hosts.take(settings, blocks)
                      or self.processes.play(settings, blocks, self.tell_progress))
            record = {"settings": settings, "points": points, "seconds": round(self.elapsed(), 3)}
            self.records.append(record)
        plays = len(settings) * len(blocks)
        if record["settings"] != settings or not all(
                points is None or [*map(len, points)] == [len(self.opponents)] * len(blocks)
                for points in record["points"]):
            raise Fault("what was played before is not of this race: give --anew to begin again", 2)
        self.record_count += 1
        # The budget goes by what is recorded, so that a race that goes on decides as it did.
        self.seconds_of_play = (record["seconds"] - self.seconds) / plays
        self.charge(plays * len(self.opponents), record["seconds"] - self.seconds)
        return record["points"]

    def tell_estimate(self, what):
        if not self.processes.seconds:
            tell(f"{what}: goes on where it was stopped")
            return
        rate = self.args.jobs * self.fights / self.processes.seconds
        limits = [self.budget.seconds, self.budget.fights and self.budget.fights / rate]
        seconds = min(filter(None, limits))
        tell(f"{what}: about {float(f'{seconds * rate:.2g}'):.0f} fights in {duration(seconds)} on "
             f"{counted(self.args.jobs, 'processor')}")

    def tell_progress(self):
        self.pace.tell(f"{100 * self.used():.0f}%: {self.news}, {self.fights} fights")


def duration(seconds):
    if seconds < 100:
        return counted(max(1, round(seconds)), "second")
    if seconds < 6000:
        return counted(round(seconds / 60), "minute")
    return f"{seconds / 3600:.1f} hours"
