"""Runs the commands that are measured, and times them."""
import math, os, statistics, subprocess, tempfile, time
from typing import NamedTuple

from author.lib.endings import Fault


class Ran(NamedTuple):
    """A run: its seconds, those of a processor that it took, and its output."""

    seconds: float
    processor: float
    output: str


def run(command, text="", expected=None):
    """Runs a command, which has to succeed, and to print what is expected, if anything is."""
    with tempfile.TemporaryFile() as source, tempfile.TemporaryFile() as faults:
        source.write(text.encode("ascii"))
        source.seek(0)
        before = time.perf_counter()
        process = subprocess.Popen(command, stdin=source, stdout=subprocess.PIPE, stderr=faults)
        with process.stdout as stream:
            output = stream.read().decode("ascii")
        _, status, usage = os.wait4(process.pid, 0)
        seconds = time.perf_counter() - before
        process.returncode = os.waitstatus_to_exitcode(status)
        faults.seek(0)
        if process.returncode != 0:
            words = faults.read().decode(errors="replace").strip()
            raise Fault(f"{command[0]} ended with status {process.returncode}: {words}", 3)
    if expected not in (None, output):
        raise Fault(f"{' '.join(map(str, command))}: expected {expected!r}, came {output!r}", 3)
    return Ran(seconds, usage.ru_utime + usage.ru_stime, output)


def stay_on_one_processor():
    """Has all run on one processor: those of a shared machine differ by a third and more."""
    os.sched_setaffinity(0, {min(os.sched_getaffinity(0))})


def least(plays, runs):
    """Returns the least seconds of each play. They are made in turn, so that a busy moment affects
    all."""
    best = [math.inf for _ in plays]
    for _ in range(runs):
        best = [min(seconds, play()) for seconds, play in zip(best, plays)]
    return best


def mean_and_least(ratios):
    """Returns in words the geometric mean of some ratios, and the least."""
    mean = statistics.geometric_mean(ratios)
    return f"geometric mean of the ratios {mean:.2f}, least {min(ratios):.2f}"


def print_rates(kind, unit, players, rows, form=".1f"):
    """Prints a line for each row: a name, turns, and the rate of each player, and beside pMARS the
    ratio. Returns the ratios."""
    heads = f"{'pMARS':>10}{'ratio':>8}" if len(players) > 1 else ""
    print(f"{kind:<14}{'turns':>10}{unit:>12}{heads}", flush=True)
    ratios = []
    for name, turns, (ours, *theirs) in rows:
        line = f"{name:<14}{turns:>10}{ours:>12{form}}"
        for rate in theirs:
            ratios.append(ours / rate)
            line += f"{rate:>10{form}}{ratios[-1]:>8.2f}"
        print(line, flush=True)
    return ratios
