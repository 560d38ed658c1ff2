"""Measures how much it matters where the hot loop lies in the program.

Links the program four times, each 16 bytes further on, and plays the series of some pairs of
`unseen/` by each in turn. A line for each place says the processor time of its series, the least of
the runs added up, relative to the quickest place. On some processors a jump is slow that ends at a
multiple of 32 bytes; the contracts, the points and the gate do not depend on it. Takes the object
file PROGRAM.o, which `make build` leaves beside the program, and the kit that made it.
"""
import itertools, pathlib, tempfile

from author.lib.endings import Fault, run_tool
from author.lib.program import Rules, output_of, program_of
from author.lib.words import add_number, add_program, module_parser
from pmars.games import Game, fights_of
from release.dist import kit_folder

from .pairs import FOLDERS, SEED, loads_of
from .runs import least, run, stay_on_one_processor

PLACES = (0, 16, 32, 48)
WARRIORS = ["coil", "hail-bomber", "imp-stone", "silk-paper"]
FIGHTS = 60


def linked(program, kit, shift, folder):
    """Links the program with `shift` bytes before its code. Returns the path."""
    begin, made = folder / f"begin{shift}", folder / f"program{shift}"
    begin.with_suffix(".s").write_text(
        f'.section .text,"axR",@progbits\n.globl begin\nbegin:\n.skip {shift}, 0x90\n')
    objects = [f"{program}.o", *sorted((kit / "c").glob("lib*_c.a"), reverse=True)]
    for words in (["as", "-o", f"{begin}.o", f"{begin}.s"],
                  [kit / "bin/rattle-link", "--target", "x86_64-unknown-linux-gnu", "--toolchain",
                   kit / "toolchain", "-o", made, f"{begin}.o", *objects]):
        output_of(words)
    return made


def times_of(programs, runs):
    """Plays the series of all pairs by each program in turn. Returns the seconds of each program:
    of each pair the least time, added up."""
    with tempfile.TemporaryDirectory() as folder:
        loads = [load for name, load in loads_of(programs[0], FOLDERS["unseen"])
                 if name in WARRIORS]
        games = [Game(Rules(), *pair, tempfile.mkdtemp(dir=folder))
                 for pair in itertools.combinations(loads, 2)]
        words = [game.tune_words(str(program), fights_of(game.rules, SEED, FIGHTS))
                 for game in games for program in programs]
        times = least([lambda one=one: run(one).processor for one in words], runs)
    return [sum(times[place::len(programs)]) for place in range(len(programs))]


def main():
    parser = module_parser("bench.loop_place", __doc__)
    add_program(parser)
    add_number(parser, "--runs", "N", 5, "runs of each series")
    args = parser.parse_args()
    stay_on_one_processor()
    program, kit = program_of(args.program), kit_folder()
    if not pathlib.Path(f"{program}.o").is_file():
        raise Fault(f"no object file {program}.o (`make build` makes it)", 2)
    with tempfile.TemporaryDirectory() as name:
        programs = [linked(program, kit, shift, pathlib.Path(name)) for shift in PLACES]
        times = times_of(programs, args.runs)
    for shift, seconds in zip(PLACES, times):
        print(f"{shift:>2} bytes further on: {seconds / min(times):.3f}")


if __name__ == "__main__":
    run_tool(main)
