"""A model of the search of `cwtune tune`: from the points of all fights it makes the report and the
certificate of a search that keeps the first of the ranking and has a floor.

It has nothing in common with the program but the rules of docs/SEARCH.md and docs/FORMATS.md. The
points are those of a certificate of `cwtune tune --all`. A warrior is known by its load file, or by
another value that only equal warriors have in common.
"""
import collections
from typing import NamedTuple

from author.lib import tuning_files
from author.lib.tuning_files import Fights

from .play import report


def cap_of(points, fights):
    """Returns the greatest total of a setting with these points, a dict by fight."""
    return tuning_files.cap(points.items(), fights)


class Table(NamedTuple):
    """The settings of a template, or of a part of it: of each the points of all fights, and what
    its warrior is known by (both None if it does not assemble), and its constants as the report
    says them."""

    fights: Fights
    points: list
    warriors: list
    constants: list
    start: int

    def part(self, number, parts):
        """Returns part `number` of `parts`, whose settings count from 0."""
        count = len(self.points)
        first, end = (number - 1) * count // parts, number * count // parts
        start = self.start - first if first <= self.start < end else 0
        return Table(self.fights, self.points[first:end], self.warriors[first:end],
                     self.constants[first:end], start)

    def total(self, setting):
        return cap_of(self.points[setting], self.fights)

    def ranked(self, floor=0):
        """Returns the settings that total `floor` or more, the greatest total first."""
        own = [setting for setting, points in enumerate(self.points)
               if points is not None and self.total(setting) >= floor]
        return sorted(own, key=lambda setting: (-self.total(setting), setting))


class Aim(NamedTuple):
    """What a search is asked for, and how many settings it remembers: 0 stands for `--all`."""

    keep: int = 1
    floor: int = 0
    capacity: int = 4096


class Search:
    """A search of a table. Its `rows` are ("refused", None), ("same", twin) or ("cap", points)."""

    def __init__(self, table, aim):
        self.table, self.aim, self.played = table, aim, 0
        # Pairs of minus the total and the setting, so that they sort as the ranking does.
        self.ranking, self.rows, self.copied = [], [None] * len(table.points), None
        self.cache, self.order = collections.OrderedDict(), list(range(len(table.fights)))
        for setting in sorted(range(len(table.points)), key=lambda each: each != table.start):
            self.visit(setting)

    def contends(self, cap, setting, floor):
        last = self.ranking[self.aim.keep - 1:]
        return cap >= floor and (not last or (-cap, setting) < last[0])

    def visit(self, setting):
        warrior = self.table.warriors[setting]
        if warrior is None:
            self.rows[setting] = "refused", None
        elif warrior in self.cache:
            self.cache.move_to_end(warrior)
            self.share(setting, self.cache[warrior])
        else:
            self.fight(setting)
            self.cache[warrior] = setting
            if len(self.cache) > self.aim.capacity:
                self.cache.popitem(last=False)

    def fight(self, setting):
        """Plays the fights of a setting until its cap does not contend. START is not dropped."""
        points, listing, is_start = self.table.points[setting], {}, setting == self.table.start
        floor = 0 if is_start else self.aim.floor
        for fight in self.order:
            cap = cap_of(listing, self.table.fights)
            if self.aim.capacity and not self.contends(cap, setting, floor):
                break
            listing[fight] = points[fight]
        self.played += len(listing)
        self.rows[setting] = "cap", listing
        if is_start:
            self.order.sort(key=lambda fight: (listing[fight], fight))
        self.rank(setting, listing)

    def share(self, setting, twin):
        """Gives a setting the fights of its twin, which has the same warrior."""
        listing = self.rows[twin][1]
        leads = self.ranking[:1] == [(-cap_of(listing, self.table.fights), twin)]
        self.rows[setting] = "same", twin
        if twin == self.table.start and leads and setting < twin:
            self.rows[setting], self.copied = self.rows[twin], setting
        self.rank(setting, listing)

    def rank(self, setting, listing):
        cap = cap_of(listing, self.table.fights)
        if self.contends(cap, setting, self.aim.floor):
            self.ranking = sorted([*self.ranking, (-cap, setting)])[:self.aim.keep]

    def report(self):
        """Returns what the program prints, or None if no setting assembles."""
        candidates = sum(kind != "refused" for kind, _ in self.rows)
        if not candidates:
            return None
        best, constants, total = "-", "-", f"below {self.aim.floor}"
        if self.ranking:
            total, best = -self.ranking[0][0], self.ranking[0][1]
            constants = self.table.constants[best]
        fights = self.table.fights
        played = f"{self.played} of {candidates * len(fights)}"
        return report(len(self.rows), candidates, best, constants, f"{total} of {fights.greatest}",
                      played) + self.rank_lines()

    def rank_lines(self):
        """Returns the lines of the ranking, none if only the best setting is asked for."""
        shown = self.ranking if self.aim.keep > 1 else []
        return "".join(rank_line(rank, setting, -cap, self.table.constants[setting])
                       for rank, (cap, setting) in enumerate(shown, 1))

    def certificate(self):
        version = 1 if all(fight.weight == 1 for fight in self.table.fights) else 2
        lines = [f"cwcert,{version},{len(self.rows)}",
                 f"best,{self.ranking[0][1]},{-self.ranking[0][0]}" if self.ranking
                 else f"none,-,{self.aim.floor}",
                 *(row_line(setting, row) for setting, row in enumerate(self.rows))]
        return "".join(f"{line}\n" for line in lines)


def rank_line(rank, setting, total, constants):
    said = "" if constants == "-" else f" {constants}"
    return f"rank {rank} setting {setting} total {total}{said}\n"


def row_line(setting, row):
    """Returns the record of a row. The fights rise."""
    kind, rest = row
    if kind == "refused":
        return f"refused,{setting},-"
    if kind == "same":
        return f"same,{setting},{rest}"
    listing = " ".join(f"{fight}:{points}" for fight, points in sorted(rest.items()))
    return f"cap,{setting},{listing or '-'}"


def listing_of(rows, setting):
    """Returns the points that are listed for a setting: by its row, or by the row that it names."""
    kind, rest = rows[setting]
    return rows[rest][1] if kind == "same" else rest


def ranking_of(rows, fights, floor=0):
    """Returns the ranking that rows list: of the settings whose fights are all listed, and that
    total `floor` or more, as pairs of minus the total and the setting."""
    listings = [listing_of(rows, setting) for setting in range(len(rows))]
    totals = [(cap_of(listing, fights), setting) for setting, listing in enumerate(listings)
              if listing and len(listing) == len(fights)]
    return sorted((-total, setting) for total, setting in totals if total >= floor)


def first_too_high(rows, fights, keep, floor=0):
    """Returns the record of the first row in which fights are missing and whose cap contends, or
    None. A check looks at the cap rows first, then at the `same` rows."""
    last, found = ranking_of(rows, fights, floor)[keep - 1:keep], []
    for setting, (kind, _) in enumerate(rows):
        listing = listing_of(rows, setting)
        if listing is not None and len(listing) < len(fights):
            cap = cap_of(listing, fights)
            if cap >= floor and (not last or (-cap, setting) < last[0]):
                found.append((kind == "same", setting + 2))
    return min(found)[1] if found else None
