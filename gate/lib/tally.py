"""Counts what was tried, and prints it as the last line of a run."""
import os


class LeftOut(Exception):
    """Why a trial is left out, as `no rsync`."""


def difference(expected, actual):
    """Returns what is wrong with an actual value, in a list: of two tuples of one length a line for
    each item that differs."""
    if isinstance(expected, tuple) and isinstance(actual, tuple) and len(expected) == len(actual):
        return [f"item {index}: {line}" for index, items in enumerate(zip(expected, actual))
                for line in difference(*items)]
    return [] if actual == expected else [f"expected {expected!r}, got {actual!r}"[:2000]]


def compare(name, expected, actual):
    """Returns a trial: a name, and what is wrong with the actual value."""
    return name, difference(expected, actual)


def tally(trials, before=""):
    """Prints what failed, and as its last line `N passed, N failed`. Returns the exit status.

    Each of the trials, or cases, is a name, and a list of what was wrong, or why it was left out.
    Trials left out are printed before the last line, and with CWTUNE_ALL=1 they have failed.
    Status 1: one failed, or there were none.
    """
    passed = failed = 0
    lines_left_out = []
    for name, wrong in trials:
        if isinstance(wrong, LeftOut):
            lines_left_out.append(f"left out: {name}: {wrong}")
            wrong = ["left out"] if os.environ.get("CWTUNE_ALL") == "1" else None
        passed += wrong == []
        failed += bool(wrong)
        for line in wrong or []:
            print(f"{name}: {line}")
    print(*lines_left_out, f"{before}{passed} passed, {failed} failed", sep="\n")
    return 1 if failed or not passed else 0
