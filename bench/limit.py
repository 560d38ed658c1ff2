"""Measures how far the program is from what a processor could do, beside pMARS.

Plays the series of all pairs of a folder of bench by three programs in turn, as bench.measure does:
by `cwtune`, by pMARS, and by limit.cc, a simulator with every trick and no proof. A line for each
pair says how many times as fast as pMARS the other two are. Then come the geometric means, and the
instructions, by their canonical modifiers, that were executed most in the first fights of the
pairs: the share of the turns, and whether the hot loop has an arm for it (docs/HOT_LOOP.md). Needs
clang++.
"""
import collections, dataclasses, itertools, math, pathlib, shutil, tempfile

from author.lib.endings import Fault, run_tool
from author.lib.program import output_of, program_of

from .pairs import FOLDERS, HERE, Pair, loads_of, pair_of, pairs_parser, play_in_turn
from .plain_machine import LINE, classes
from .runs import mean_and_least, run, stay_on_one_processor

FLAGS = ["-std=c++17", "-O2", "-march=x86-64-v2", "-fno-pie", "-static", "-fno-strict-aliasing"]
# These are in the order of limit.cc.
OPCODES = "DAT MOV ADD SUB MUL DIV MOD JMP JMZ JMN DJN SEQ SNE SLT SPL NOP".split()
MODIFIERS = "A B AB BA F X I".split()
MODES = "#$*@{<}>"
# The instructions that are shown.
SHOWN = 24


def key_of(line):
    """Returns the key of an instruction as limit.cc numbers it."""
    opcode, modifier, a_mode, _, b_mode, _ = LINE.fullmatch(line).groups()
    return (OPCODES.index(opcode) | MODIFIERS.index(modifier) << 4 | MODES.index(a_mode) << 7
            | MODES.index(b_mode) << 10)


def built(loads, folder):
    """Builds limit.cc for the instructions of some load files. Returns its path."""
    clang, program = shutil.which("clang++"), folder / "limit"
    if not clang:
        raise Fault("no clang++ on the PATH (Debian: apt-get install clang)", 2)
    keys = {key_of(line) for load in loads for line in load.splitlines()[1:]}
    (folder / "KEYS.inc").write_text("".join(f"{key},\n" for key in sorted(keys)))
    output_of([clang, *FLAGS, f"-I{folder}", "-o", program, HERE / "limit.cc"])
    return program


@dataclasses.dataclass
class LimitPair(Pair):
    """A pair that the simulator plays too: `limit_seconds` are the least that it took."""

    limit_words: list = ()
    limit_seconds: float = math.inf

    def play(self):
        super().play()
        ran = run(self.limit_words, "", f"total {self.points}\n")
        self.limit_seconds = min(self.limit_seconds, ran.processor)

    def limit_ratio(self):
        """Returns how many times as fast as pMARS the simulator is."""
        return self.pmars_seconds / self.limit_seconds


def limit_pair_of(candidate, opponent, programs, limit, folder):
    """Returns two warriors as a pair that the simulator plays too."""
    pair = pair_of(candidate, opponent, programs, folder)
    loads = [pair.folder / f"{name}.load" for name, _ in (candidate, opponent)]
    for path, (_, load) in zip(loads, (candidate, opponent)):
        path.write_text(load, "ascii")
    return LimitPair(**vars(pair), limit_words=[limit, *loads, pair.folder / "s.csv"])


def shares_of(pairs):
    """Returns the part of the turns that each instruction has, each pair counting alike."""
    shares = collections.Counter()
    for pair in pairs:
        turns = len(pairs) * sum(pair.executed.values())
        shares.update({words: count / turns for words, count in pair.executed.items()})
    return shares


def print_instructions(pairs):
    """Prints the instructions that were executed most."""
    known, shares = classes(), shares_of(pairs)
    for words, share in shares.most_common(SHOWN):
        opcode, modifier, a_mode, b_mode = words
        shown = f"{opcode}.{modifier} {a_mode}, {b_mode}"
        print(f"{shown:<32}{share:>8.1%}{'' if words in known else '  no arm'}")
    rest = sum(share for words, share in shares.items() if words not in known)
    print(f"{'all without an arm':<32}{rest:>8.1%}")


def main():
    parser = pairs_parser("bench.limit", __doc__, 3)
    parser.add_argument("--folder", choices=FOLDERS, default="unseen",
                        help="the warriors [default: unseen]")
    args = parser.parse_args()
    stay_on_one_processor()
    programs = program_of(args.program), program_of(args.pmars, "make pmars")
    with tempfile.TemporaryDirectory() as name:
        warriors = loads_of(programs[0], FOLDERS[args.folder])
        limit = built([load for _, load in warriors], pathlib.Path(name))
        pairs = play_in_turn((limit_pair_of(*both, programs, limit, name)
                              for both in itertools.combinations(warriors, 2)), args.runs)
    print(f"{args.folder:<32}{'cwtune':>8}{'limit':>8}")
    for pair in pairs:
        print(f"{pair.name:<32}{pair.ratio():>8.2f}{pair.limit_ratio():>8.2f}")
    print(f"cwtune: {mean_and_least([pair.ratio() for pair in pairs])}")
    print(f"limit: {mean_and_least([pair.limit_ratio() for pair in pairs])}")
    print_instructions(pairs)


if __name__ == "__main__":
    run_tool(main)
