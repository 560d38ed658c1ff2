"""Runs the tests of calls that allocate, with each of their requests for memory refused in turn.

The tests are those of the modules `memory` in the test programs that the gate builds. With nothing
refused each has to pass. With a request refused it has to pass too, or to end because a call
returned `OutOfMemory` (at line or record 0, never another fault), or because a request of the test
itself was refused. The last line says how many requests were refused, too.

In a test of a module `no_memory` every request after its largest one is refused, and it may fail
only at its last line, which asks for memory to show that. Those of the modules `arenas` have to
make one arena each. Each program has to have tests of one of the three. Needs `cc` and a system
with LD_PRELOAD.
"""
import functools, pathlib, subprocess

from author.lib.endings import run_tool
from author.lib.program import program_of
from author.lib.words import module_parser

from ..lib.running import ROOT, ran, side_by_side
from ..lib.tally import tally
from .runs import library_of, refuse_each

PROGRAMS = [f"crates/{crate}/out/{crate}_tests"
            for crate in ["rc_tests", "mars_tests", "tune_tests", "command_tests"]]
# The largest request of a test in `no_memory`, in bytes. In `arenas` the core of an arena and that
# of its snapshot have at least LARGE bytes, and no other request has.
LARGEST, LARGE = 1 << 24, 30_000

# How a test prints that a call was out of memory.
ERRORS = ["OutOfMemory", "AllocError", "AllocFailed { .. }",
          "AsmFault { line: 0, kind: OutOfMemory }", "ExpandFault { line: 0, kind: OutOfMemory }",
          "ScheduleFault { row: 0, kind: OutOfMemory }",
          "TemplateFault { line: 0, kind: OutOfMemory }"]
PASSED = (0, "")
FAILED = "the test failed: its result gives status 1"
REFUSED = [(101, f"error: {error}\n{FAILED}\n") for error in ERRORS]
# How a test of `no_memory` ends at its last line.
ENDED = (101, f"error: AllocError\n{FAILED}\n")


def tests_of(program, module):
    """Returns the names of a program's tests in a module."""
    listed = subprocess.run([program, "--list"], capture_output=True, text=True, check=True).stdout
    names = [line.rpartition(": ")[0] for line in listed.splitlines() if line.endswith(": test")]
    return [name for name in names if f"::{module}::" in f"::{name}"]


def run(library, program, test, **variables):
    """Runs a test with the library and its variables. Returns its status and standard error."""
    status, out, err = ran([program, test], **library,
                           **{name: str(value) for name, value in variables.items()})
    return status if status or out.endswith("test result: ok\n") else -1, err


def refuse_each_of(library, program, test):
    """Refuses each request of a test in turn. Returns how many there were, and what was wrong."""
    run_test = functools.partial(run, library, program, test)
    return refuse_each(run_test, lambda: int(run_test(REFUSE_COUNT=1)[1]), PASSED, REFUSED)


def refuse_all_of(library, program, test):
    """Refuses all requests of a test after its largest one. Returns 0, and what was wrong."""
    actual = [run(library, program, test), run(library, program, test, REFUSE_AFTER=LARGEST)]
    return 0, [] if actual == [PASSED, ENDED] else [f"got {actual}"]


def count_arenas_of(library, program, test):
    """Counts the large requests of a test. Returns 0, and what was wrong."""
    actual = run(library, program, test, REFUSE_COUNT=1, REFUSE_LEAST=LARGE)
    return 0, [] if actual == (0, "2\n") else [f"large requests: {actual}"]


TRIED = {"memory": refuse_each_of, "no_memory": refuse_all_of, "arenas": count_arenas_of}


def main():
    parser = module_parser("gate.refuse.growth", __doc__)
    parser.add_argument("programs", nargs="*", metavar="TEST_PROGRAM",
                        default=[ROOT / program for program in PROGRAMS],
                        help="test programs [default: those that the gate builds]")
    programs = [program_of(program, "rt test") for program in parser.parse_args().programs]
    tests = [(call, program, name) for program in programs for module, call in TRIED.items()
             for name in tests_of(program, module)]
    with library_of("memory.c") as library:
        results = side_by_side(lambda test: test[0](library, *test[1:]), tests)
    total = sum(requests for requests, _ in results)
    tried = {program for _, program, _ in tests}
    trials = [(f"tests of {pathlib.Path(program).name}", [] if program in tried else ["none"])
              for program in programs]
    trials += [(name, wrong) for (_, _, name), (_, wrong) in zip(tests, results)]
    return tally(trials, f"{total} requests refused: ")


if __name__ == "__main__":
    run_tool(main)
