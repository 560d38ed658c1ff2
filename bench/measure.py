"""Measures turns per second of `cwtune fight`, and how long `cwtune asm` and `cwtune tune` take.

Plays each fight of fights/, the same fights cut short, assembles each text of warriors/, and tunes
the templates of examples/tuning/, several times; the least time counts. Given a pMARS server
build, plays the fights with it too, after the series of pairs.py. README.md says what is measured.
"""
import tempfile

from author.lib.endings import run_tool
from author.lib.program import program_of
from author.lib.words import add_number, add_program, module_parser

from .fights import print_fights, print_short
from .pairs import print_folders
from .players import Cwtune, Pmars
from .runs import stay_on_one_processor
from .texts import print_texts
from .tunings import print_tunings

# Options that say how often something is measured: the name, the least and the usual number, and of
# what.
COUNTS = [("runs", 1, 10, "fight"), ("series", 0, 3, "series beside pMARS"),
          ("short", 0, 3, "short fight"), ("texts", 0, 200, "text"), ("tunings", 0, 3, "tuning")]


def make_parser():
    parser = module_parser("bench.measure", __doc__)
    add_program(parser)
    parser.add_argument("--pmars", metavar="PATH", help="a pMARS server build to compare with")
    for name, least, number, what in COUNTS:
        add_number(parser, f"--{name}", "N", number, f"runs of each {what}", least)
    return parser


def main():
    args = make_parser().parse_args()
    pmars = args.pmars and program_of(args.pmars, "make pmars")
    program = program_of(args.program)
    stay_on_one_processor()
    with tempfile.TemporaryDirectory() as folder:
        players = [Cwtune(program)] + ([Pmars(pmars, folder)] if pmars else [])
        parts = [(pmars and args.series, lambda: print_folders(program, pmars, args.series)),
                 (args.runs, lambda: print_fights(players, args.runs)),
                 (args.short, lambda: print_short(players, args.short, folder)),
                 (args.texts, lambda: print_texts(program, args.texts)),
                 (args.tunings, lambda: print_tunings(program, args.tunings))]
        for index, print_part in enumerate(part for is_asked, part in parts if is_asked):
            if index > 0:
                print()
            print_part()


if __name__ == "__main__":
    run_tool(main)
