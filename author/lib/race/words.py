"""The options of a race, for `cwtune-seek` and `cwtune-study`."""
import argparse, os

from ..spread.hosts import read_hosts, refuse_missing_tools
from ..words import add_shared, number_from
from .fights import Budget

# The fights of a race that is given no budget.
DEFAULT_FIGHTS, MOST_FIGHTS = 300000, 10 ** 12


def add_budget(parser):
    group = parser.add_argument_group("race")
    group.add_argument("--fights", type=number_from(1000, MOST_FIGHTS), metavar="N",
                       help="end after N fights, 1000 or more "
                       f"[default: {DEFAULT_FIGHTS}, unless --minutes is given]")
    group.add_argument("--minutes", type=minutes, metavar="N",
                       help="end after N minutes, such as 10 or 0.5")
    add_shared(group, "--jobs")
    group.add_argument("--hosts", type=hosts_file, metavar="FILE", help="run on these hosts what "
                       "takes more than a minute here, as `cwtune-spread --hosts`")


def hosts_file(word):
    """Reads the name of a file of hosts for argparse. Refuses it now if it cannot be used."""
    read_hosts(word)
    refuse_missing_tools()
    return os.path.abspath(word)


def minutes(word):
    try:
        number = float(word)
    except ValueError:
        raise argparse.ArgumentTypeError(f"{word} is not a number of minutes") from None
    if not 0.01 <= number <= 100000:
        raise argparse.ArgumentTypeError(f"{word} is not 0.01 to 100000")
    return number


def budget_of(args):
    fights = args.fights or (None if args.minutes else DEFAULT_FIGHTS)
    return Budget(fights, args.minutes and 60 * args.minutes)
