"""Counts fights and seconds of searches of a template.

Each template is tuned against the eight warriors of `examples/warriors/`, with a schedule of
`cwtune-series`: by `cwtune tune` for the best setting, for the first of the ranking and with every
fight played, and by `cwtune-spread` on several processors. The ratios are to the first of these.
The exit status is 3 if a search fails, or if two find different settings.
"""
import argparse, pathlib, sys, tempfile, time

from author.lib.endings import Fault, run_tool
from author.lib.program import output_of, program_of
from author.lib.words import add_number, add_program, module_parser

ROOT = pathlib.Path(__file__).resolve().parent.parent
AUTHOR, WARRIORS = ROOT / "author", sorted((ROOT / "examples/warriors").glob("*.red"))
SEED = "4321"
# The kinds of searches; the others are compared with the first one that is asked for.
KINDS = ["best", "keep", "all", "spread"]


def search_of(kind, args):
    """Returns the name of a kind of search, and the words that begin it."""
    tune = [args.program, "tune"]
    spread = [sys.executable, AUTHOR / "cwtune-spread", "--program", args.program]
    return {"best": ("tune", tune),
            "keep": (f"tune --keep {args.keep}", [*tune, f"--keep={args.keep}"]),
            "all": ("tune --all", [*tune, "--all"]),
            "spread": (f"cwtune-spread --jobs {args.jobs}",
                       [*spread, f"--jobs={args.jobs}"])}[kind]


def some_of(names):
    """Returns a reader of a list of some of the names for argparse."""
    def read(word):
        if not set(word.split(",")) <= set(names):
            raise argparse.ArgumentTypeError(f"{word} is not some of {', '.join(names)}")
        return word.split(",")

    return read


def search(words, template, folder):
    """Searches a template. Returns the fights, the seconds, and what was found."""
    begun = time.monotonic()
    printed = output_of([*words, template, folder / "schedule.csv", folder / "cert", *WARRIORS],
                        f"{template.name}: a search")
    seconds = time.monotonic() - begun
    lines = [line.split(" ", 1) for line in printed.splitlines()]
    report = dict(line for line in lines if line[0] != "rank")
    return int(report["fights"].split()[0]), seconds, (report["best"], report["total"])


def print_searches(args, template, folder):
    """Prints a line for each kind of search. All have to find the same setting."""
    first, found = None, set()
    for kind in args.kinds:
        name, words = search_of(kind, args)
        fights, seconds, best = search(words, template, folder)
        first = first or (fights, seconds)
        found.add(best)
        print(f"{template.name}: {name}: {fights} fights, "
              f"{fights / first[0]:.2f}; {seconds:.1f} s, {seconds / first[1]:.2f}", flush=True)
    if len(found) > 1:
        raise Fault(f"{template.name}: different settings were found: {sorted(found)}", 3)


def main():
    parser = module_parser("bench.searches", __doc__)
    add_program(parser)
    add_number(parser, "--rounds", "R", 20, "fights against each warrior")
    add_number(parser, "--keep", "K", 10, "the first K of the ranking", 2, 1000)
    add_number(parser, "--jobs", "N", 4, "processors of cwtune-spread")
    parser.add_argument("--kinds", type=some_of(KINDS), default=KINDS, metavar="KIND,..",
                        help=f"some of {', '.join(KINDS)} [default: each of them]")
    parser.add_argument("templates", nargs="+", type=pathlib.Path, metavar="TEMPLATE")
    args = parser.parse_args()
    args.program = program_of(args.program)
    with tempfile.TemporaryDirectory() as name:
        folder = pathlib.Path(name)
        series = [sys.executable, AUTHOR / "cwtune-series", SEED, str(args.rounds),
                  str(len(WARRIORS))]
        (folder / "schedule.csv").write_text(output_of(series))
        for template in args.templates:
            print_searches(args, template.resolve(), folder)


if __name__ == "__main__":
    run_tool(main)
