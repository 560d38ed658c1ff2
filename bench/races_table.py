"""Reads the results of `bench.races`, and makes its table."""
import json, math, statistics
from typing import NamedTuple

from author.lib.endings import Fault
from author.lib.gain import error_of_mean

SEARCHES = ["search", "naive", "climb"]
# The search of a run that judges START, which has the seed 0 and no budget.
START = "START"


class Measured(NamedTuple):
    """A number with its standard error; gains are percentages of the greatest total."""

    value: float
    error: float

    def __str__(self):
        return f"{self.value:+.2f} +- {self.error:.2f}"

    def __sub__(self, other):
        return Measured(self.value - other.value, math.hypot(self.error, other.error))

    def errors(self):
        """Returns the number in units of its error."""
        return self.value / self.error if self.error else math.copysign(math.inf, self.value)


class Race(NamedTuple):
    """What a run is of; `seconds` is its budget."""

    template: str
    search: str
    seconds: int
    seed: int

    def __str__(self):
        run = f" {self.seconds} s seed {self.seed}" if self.search != START else ""
        return f"{self.template} {self.search}{run}"


class Run(NamedTuple):
    """A run that ended and was judged.

    `used` are the processor seconds of the search with all its children, `said` is the gain that it
    printed with its error, None if there is none, `values` are those of what it found, and `counts`
    the fights won, lost and tied against each opponent, by pMARS.
    """

    race: Race
    used: float
    said: Measured | None
    values: tuple
    counts: list

    def line(self):
        return json.dumps(self._asdict()) + "\n"

    def judged(self):
        """Returns the share of the greatest total, in percent."""
        greatest = sum(3 * sum(counts) for counts in self.counts)
        total = sum(3 * won + tied for won, _, tied in self.counts)
        return Measured(100 * total / greatest,
                        100 * math.sqrt(sum(map(variance, self.counts))) / greatest)

    def is_above_budget(self):
        return self.used > self.race.seconds


def variance(counts):
    """Returns the variance of the total of independent fights that ended so."""
    won, _, tied = counts
    return 9 * won + tied - (3 * won + tied) ** 2 / sum(counts)


def run_of(line):
    """Reads a line of the results, or raises a ValueError, a TypeError or a LookupError."""
    fields = json.loads(line)
    said = fields["said"] and Measured(*fields["said"])
    counts = [(won, lost, tied) for won, lost, tied in fields["counts"]]
    run = Run(Race(*fields["race"]), float(fields["used"]), said, tuple(fields["values"]), counts)
    run.judged()
    return run


class Results:
    """The runs of a file, by race. Of several runs of one race the first counts."""

    def __init__(self, path):
        self.runs = {}
        for number, line in enumerate(lines_of(path), 1):
            try:
                run = run_of(line)
            except (ValueError, TypeError, LookupError, ArithmeticError):
                raise Fault(f"{path}: line {number} is not a result") from None
            self.runs.setdefault(run.race, run)

    def start(self, template):
        """Returns the judging of START, or None."""
        return self.runs.get(Race(template, START, 0, 0))

    def gain(self, run):
        """Returns by how much a run exceeds START."""
        return run.judged() - self.start(run.race.template).judged()

    def of_searches(self):
        """Returns the runs of searches, in the order of their races."""
        return [self.runs[race] for race in sorted(self.runs)
                if race.search != START and self.start(race.template)]

    def counting(self, search):
        """Returns the runs of a search within their budgets."""
        return [run for run in self.of_searches()
                if run.race.search == search and not run.is_above_budget()]

    def gains(self, search, seconds, template=None):
        """Returns the gains of a search by template and seed, of all templates or one."""
        return {(run.race.template, run.race.seed): self.gain(run).value
                for run in self.counting(search)
                if run.race.seconds == seconds and template in (None, run.race.template)}

    def differences(self, other, seconds, template=None):
        """Returns by how much the search exceeds another one, by template and seed."""
        ours, theirs = (self.gains(name, seconds, template) for name in (SEARCHES[0], other))
        return [ours[pair] - theirs[pair] for pair in sorted(ours.keys() & theirs.keys())]


def lines_of(path):
    """Returns the lines of a file; none if it is not there yet."""
    try:
        with open(path, encoding="utf-8") as file:
            return file.read().splitlines()
    except FileNotFoundError:
        return []
    except UnicodeDecodeError:
        raise Fault(f"{path}: not results") from None


def mean_of(numbers):
    """Returns the mean with its standard error, which takes two numbers: else None."""
    return Measured(statistics.mean(numbers), error_of_mean(numbers)) if numbers[1:] else None


def cell(gains):
    return f"{statistics.mean(gains.values()):+.1f}" if gains else "-"


def mean_lines(results, templates, budgets):
    """Yields the table of the mean gains."""
    columns = [(search, seconds) for seconds in budgets for search in SEARCHES]
    yield f"| Template | {' | '.join(f'{search} {seconds} s' for search, seconds in columns)} |"
    yield "|---" * (1 + len(columns)) + "|"
    for template in [*templates, None]:
        cells = [cell(results.gains(*column, template)) for column in columns]
        yield f"| {template or 'all'} | {' | '.join(cells)} |"


def pair_lines(results, templates, budgets):
    """Yields how the search does beside the others, in pairs of one template and seed; nothing
    until a template has two pairs."""
    for seconds, other in [(seconds, other) for seconds in budgets for other in SEARCHES[1:]]:
        pairs = results.differences(other, seconds)
        by_template = {template: mean for template in templates
                       if (mean := mean_of(results.differences(other, seconds, template)))}
        if by_template:
            least = min(by_template, key=lambda template: by_template[template].errors())
            yield (f"- {seconds} s: the search exceeds {other} by {mean_of(pairs)} in "
                   f"{len(pairs)} pairs; least, in errors, in {least}: {by_template[least]}")


def start_line(results, runs):
    """Returns which run of the search ended furthest below START."""
    gains = {run.race: results.gain(run) for run in runs}
    least = min(gains, key=lambda race: gains[race].errors())
    return f"- least above START, in errors: {least}: {gains[least]} ({gains[least].errors():+.1f})"


def honesty_line(results, runs):
    """Returns how far the printed gains are from those of pMARS, in errors."""
    errors = [(run.said - results.gain(run)).errors() for run in runs if run.said]
    if not errors:
        return "- printed gain less pMARS's: no run printed one"
    greatest = max(errors, key=abs)
    return (f"- printed gain less pMARS's, in errors: mean {statistics.mean(errors):+.2f}, "
            f"greatest {greatest:+.1f}, {len(errors)} runs")


def budget_line(runs):
    """Returns which runs were above their budgets."""
    above = [f"{run.race} ({run.used:.1f} s)" for run in runs if run.is_above_budget()]
    return f"- above their budget, so left out: {len(above)} of {len(runs)} runs" + "".join(
        f"; {name}" for name in above)


def table_of(results):
    runs, ours = results.of_searches(), results.counting(SEARCHES[0])
    templates = sorted({run.race.template for run in runs})
    budgets = sorted({run.race.seconds for run in runs})
    yield from mean_lines(results, templates, budgets)
    yield ""
    yield from pair_lines(results, templates, budgets)
    if ours:
        yield start_line(results, ours)
        yield honesty_line(results, ours)
    yield budget_line(runs)
