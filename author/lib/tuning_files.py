"""Reads templates, schedules (with and without weights) and certificates (of both versions).

A file that is none of these is refused in a few words; what exactly is wrong with it, `cwtune`
says. A setting is its index here, as in the output of `cwtune`; `values_of_settings` of a template
has the values of each.
"""
import array, bisect, collections.abc, contextlib, csv, functools, io, itertools, math, os, re, sys
from typing import NamedTuple

from .endings import Fault, escaped
from .grid import Grid
from .regular import open_regular
from .watching import watched

HEADER = ["opponent", "position", "first"]
# What `cwtune` takes at most: of a template its bytes, constants and settings, of a schedule its
# fights and their weights, of a tuning its opponents and how many of the ranking it keeps.
MOST_TEMPLATE_BYTES, MOST_CONSTANTS, MOST_SETTINGS = 65536, 8, 1000000
MOST_FIGHTS, MOST_WEIGHT, MOST_OPPONENTS, MOST_KEPT = 10000, 1000, 64, 1000
# The points of a cap row that lists a fight.
LISTED = re.compile(r"[0-9]{1,10}:[013](?: [0-9]{1,10}:[013])*")
# A field may have any length.
csv.field_size_limit(sys.maxsize)


class TooManySettings(Fault):
    """A template has more settings than `cwtune` takes."""


class Fight(NamedTuple):
    opponent: int
    position: int
    first: str
    weight: int = 1


class Fights(list):
    """The fights of a schedule, in order."""

    @functools.cached_property
    def greatest(self):
        """The total of a setting that wins all fights."""
        return 3 * sum(self.weights)

    @functools.cached_property
    def weights(self):
        return [fight.weight for fight in self]


class Settings(collections.abc.Sequence):
    """The values of all settings, the first constant changing slowest; made when asked for."""

    def __init__(self, ranges):
        self.ranges, self.count = ranges, math.prod(map(len, ranges))

    def __len__(self):
        return self.count

    def __iter__(self):
        return itertools.product(*self.ranges)

    def __getitem__(self, setting):
        if not 0 <= setting < self.count:
            raise IndexError(setting)
        values = []
        for whole in reversed(self.ranges):
            setting, index = divmod(setting, len(whole))
            values.append(whole[index])
        return tuple(reversed(values))

    def index(self, values):
        setting = 0
        for whole, value in zip(self.ranges, values, strict=True):
            setting = setting * len(whole) + whole.index(value)
        return setting


class Template(Grid):
    """A template as `cwtune` takes it. `values_of_settings` has the values of its settings, the
    first constant changing slowest, and `start` is the index of START."""

    def __init__(self, path):
        super().__init__(path)
        if self.count() > MOST_SETTINGS:
            raise TooManySettings(f"{path}: more than {MOST_SETTINGS} settings")
        self.values_of_settings = Settings(self.ranges)
        self.start = self.values_of_settings.index(self.start_values)

    def read(self, path):
        """Returns the text. Refuses one that cannot be that of a template."""
        with open_regular(path) as file:
            text = file.read(MOST_TEMPLATE_BYTES + 1)
            size = max(len(text), os.fstat(file.fileno()).st_size)
        if size > MOST_TEMPLATE_BYTES:
            raise Fault(f"{path}: {size} bytes, more than the {MOST_TEMPLATE_BYTES} of a template")
        if b"\0" in text or not text.strip():
            raise Fault(f"{path}: not a template, a schedule or a certificate")
        return text

    def nearest_start(self, settings):
        """Returns which of the settings is the fewest steps from START; of several the first."""
        def distance(setting):
            values = zip(self.values_of_settings[setting], self.start_values, self.ranges)
            return sum(abs(value - start) // whole.step for value, start, whole in values)

        return min(settings, key=distance)

    def with_start(self, setting):
        return self.text(self.ranges, self.values_of_settings[setting])

    def constants(self, setting):
        """Returns the values of a setting as the report says them."""
        return self.constants_of(self.values_of_settings[setting])

    def values_by_name(self, setting):
        return dict(zip(self.names, self.values_of_settings[setting]))

    def checked_for(self, cert):
        """Returns this template. Refuses it if it has not a setting for each row of `cert`."""
        if len(self.values_of_settings) != cert.count:
            raise Fault(f"the certificate is of {cert.count} settings, and the template "
                        f"has {len(self.values_of_settings)}", 2)
        return self


class AnyCertificate:
    """A certificate, with a best setting or without: its answer and its rows.

    If no setting reaches the floor of the tuning, `best` is None and `total` is the floor. A
    certificate may have a million rows, so these are kept in arrays: `twins` has for each setting
    the one whose row has its fights, itself for a cap row, and -1 if it does not assemble.
    What the cap row of a setting lists is in `listed`, the fights, and `made`, the points, from the
    index `starts[setting]` on.
    """

    def __init__(self, path):
        self.path = path
        self.twins, self.starts = array.array("q"), array.array("Q", [0])
        self.listed, self.made = array.array("I"), array.array("B")
        try:
            records = read_records(path)
            (mark, version, count), (answer, best, total) = itertools.islice(records, 2)
            self.version, self.total = int(version), int(total)
            self.best = None if (answer, best) == ("none", "-") else int(best)
            for record in watched(records, int(count), f"rows of {escaped(str(path))}"):
                self.add_row(record)
            well_formed = (mark == "cwcert" and int(count) == self.count
                           and version in ("1", "2")
                           and answer == ("none" if self.best is None else "best")
                           and (self.best is None or self.lists_fights(self.best))
                           and all(twin == -1 or self.lists_fights(twin) for twin in self.twins))
        except (ValueError, OverflowError, csv.Error):
            well_formed = False
        if not well_formed:
            raise Fault(f"{path}: not a certificate")

    @property
    def count(self):
        return len(self.twins)

    def add_row(self, record):
        """Adds the row of the next setting, or raises a ValueError if the record is not one."""
        kind, index, content = record
        setting = self.count
        twin = {"cap": setting, "refused": -1}.get(kind)
        if kind == "same":
            twin = int(content)
        if twin is None or int(index) != setting or kind == "same" and twin in (-1, setting):
            raise ValueError
        if kind == "cap" and content != "-":
            self.add_points(content)
        self.starts.append(len(self.listed))
        self.twins.append(twin)

    def add_points(self, text):
        """Adds what a cap row lists, rising fights with their points."""
        if not LISTED.fullmatch(text):
            raise ValueError
        numbers = list(map(int, text.replace(":", " ").split(" ")))
        fights = numbers[::2]
        if fights != sorted(set(fights)):
            raise ValueError
        self.listed.fromlist(fights)
        self.made.fromlist(numbers[1::2])

    def lists_fights(self, setting):
        """Returns whether there is this setting, and its row lists fights."""
        return 0 <= setting < self.count and self.twins[setting] == setting

    def assembles(self, setting):
        return self.twins[setting] >= 0

    def twin(self, setting):
        """Returns the setting whose fights a setting shares, or itself."""
        return self.twins[setting] if self.assembles(setting) else setting

    def items(self, setting):
        twin = self.twin(setting)
        listed_part = slice(self.starts[twin], self.starts[twin + 1])
        return zip(self.listed[listed_part], self.made[listed_part])

    def points(self, setting):
        """Returns the points of a setting, a dict by fight, or None if it does not assemble."""
        return dict(self.items(setting)) if self.assembles(setting) else None

    def plays_all(self, setting, fights):
        twin = self.twin(setting)
        return (self.assembles(setting)
                and self.starts[twin + 1] - self.starts[twin] == len(fights))

    def cap(self, setting, fights):
        """Returns the greatest total of a setting with its points; its total if all are listed."""
        return cap(self.items(setting), fights)


class Ranked(collections.abc.Sequence):
    """Total and setting of each setting that played all fights, the best first. A pair is one
    number of eight bytes, the less the greater its total."""

    def __init__(self, keys):
        self.keys = array.array("q", sorted(keys))

    def __len__(self):
        return len(self.keys)

    def __getitem__(self, rank_index):
        if isinstance(rank_index, slice):
            return [self[index] for index in range(*rank_index.indices(len(self)))]
        return -(self.keys[rank_index] >> 32), self.keys[rank_index] & 0xffffffff


class Ranking(NamedTuple):
    """What a certificate shows of the ranking. `full` has total and index of each setting that
    played all fights, the best first. `dropped` counts the others, none of whose caps beats one of
    the first `exact`."""

    full: Ranked
    dropped: int
    exact: int

    def rank_of(self, setting, total):
        """Returns the rank of a setting with its total, from 1, or None if it is not exact."""
        if total is None:
            return None
        index = bisect.bisect_left(self.full.keys, (-total << 32) + setting)
        return index + 1 if index < self.exact else None


class Certificate(AnyCertificate):
    """A certificate that names a best setting."""

    def __init__(self, path):
        super().__init__(path)
        if self.best is None:
            raise Fault(f"{path}: it names no best setting, since none reaches the floor "
                        f"{self.total}")

    def fights(self, schedule):
        """Returns the fights of `schedule`. Without it they are as many as the best setting played,
        and nothing of them but the weight, 1, is right."""
        if schedule:
            fights = read_schedule(schedule)
        elif self.version == 2:
            raise Fault(f"{self.path} is of a schedule with weights: give --schedule", 2)
        else:
            fights = Fights([Fight(0, 0, "c", 1)] * len(self.points(self.best)))
        # It lists no other fights, and its best setting has its total, and is the first.
        if not (len(fights) > max(self.listed, default=0)
                and self.total_of(self.best, fights) == self.total
                and self.ranked(fights).full[0][1] == self.best):
            complaint = (f" is not a certificate of the schedule {schedule}" if schedule
                         else ": its rows are not those of its best setting and total")
            raise Fault(f"{self.path}{complaint}", 2)
        return fights

    def total_of(self, setting, fights):
        """Returns the total of a setting, or None if it did not play all fights."""
        return self.cap(setting, fights) if self.plays_all(setting, fights) else None

    def ranked(self, fights):
        keys, dropped, first_dropped = [], 0, math.inf
        for setting in watched(range(self.count), self.count, "totals"):
            if self.assembles(setting):
                key = (-self.cap(setting, fights) << 32) + setting
                if self.plays_all(setting, fights):
                    keys.append(key)
                else:
                    dropped, first_dropped = dropped + 1, min(first_dropped, key)
        full = Ranked(keys)
        return Ranking(full, dropped, bisect.bisect_left(full.keys, first_dropped))


def read_records(path, errors="strict"):
    """Yields the records of a comma-separated text; empty lines are not records."""
    with io.TextIOWrapper(open_regular(path), "utf-8-sig", errors, newline="") as file:
        yield from filter(None, csv.reader(file))


def read_schedule(path):
    """Returns the fights of a schedule. Without the field `weight` each weight is 1."""
    with contextlib.suppress(ValueError, csv.Error):
        header, *records = read_records(path)
        if header in (HEADER, [*HEADER, "weight"]) and 0 < len(records) <= MOST_FIGHTS:
            weight = [] if "weight" in header else ["1"]
            return Fights(read_fight([*record, *weight]) for record in records)
    raise Fault(f"{path}: not a schedule")


def weights_by_opponent(schedule, opponents):
    """Returns the sum of the weights of each opponent's fights in a schedule, 1 without one."""
    if not schedule:
        return [1] * opponents
    fights = read_schedule(schedule)
    if any(fight.opponent >= opponents for fight in fights):
        raise Fault(f"{schedule} has fights against more opponents than were given", 2)
    return [sum(fight.weight for fight in fights if fight.opponent == opponent)
            for opponent in range(opponents)]


def schedule_text(fights):
    """Returns the text of a schedule, with weights if one is not 1."""
    fights = list(fights)
    columns = len(HEADER) + any(fight.weight != 1 for fight in fights)
    records = ([*HEADER, "weight"], *fights)
    return "".join(",".join(map(str, record[:columns])) + "\n" for record in records)


def read_fight(record):
    """Returns a fight, or raises a ValueError if the record is not one."""
    opponent, position, first, weight = record
    if not (all(re.fullmatch("[0-9]{1,9}", word) for word in (opponent, position, weight))
            and first in ("c", "o") and 1 <= int(weight) <= MOST_WEIGHT):
        raise ValueError
    return Fight(int(opponent), int(position), first, int(weight))


def cap(listed, fights):
    """Returns the cap of a setting with `listed`, pairs of fight and points."""
    weights = fights.weights
    return fights.greatest - sum((3 - points) * weights[fight] for fight, points in listed)


def exactness_text(exact, wanted):
    """Returns a text that says how many of the first `wanted` of a ranking are exact."""
    shown = "the first of the ranking is exact" if exact == 1 else (
        f"the first {exact} of the ranking are exact")
    kept = min(wanted, MOST_KEPT)
    return shown if exact >= wanted else (
        f"only {shown}; cwtune tune --keep {kept} makes the first {kept} exact")
