"""Runs the program where its writes fail.

The runs are those of `runs.py`, each with an older certificate in CERT, and with none. A step is a
write of one byte, the flush of a file to the disk, or its new name. In each run one step, the
first, the second and so on, goes wrong: it fails, the disk is full, it takes no byte, or the
program is killed after it. Until a certificate has its name, CERT is as it was, and nothing is on
standard output. CERT.inputs is written after the report; a step of it that fails does not change
how the run ends. Only a kill leaves an unfinished file. The last line says how many steps failed,
too. Needs `cc` and a system with LD_PRELOAD.
"""
import itertools, signal

from author.lib.endings import run_tool
from author.lib.words import program_word

from ..lib.play import end, in_folder
from ..lib.running import side_by_side
from ..lib.tally import tally
from .runs import FILES, TUNINGS, all_runs, library_of, run, with_rules

BESIDE, BESIDE_INPUTS = "CERT.unfinished-1", "CERT.inputs.unfinished-1"
FAILURES = ["FAIL", "FULL", "NOTHING", "KILL"]
WITHOUT_CERT = {name: text for name, text in FILES.items() if name != "CERT"}


def steps_of(cert):
    """Returns how many steps a certificate takes: its bytes, a flush and a name."""
    return len(cert) + 2 if cert else 0


def length_of_inputs(program, words, text):
    """Returns how long CERT.inputs is, or 0 if a run makes none."""
    with in_folder(program, FILES) as place:
        place.run(words, text, keep=True)
        return len(place.read("CERT.inputs") or b"")


def expected_at(how, number, normal):
    """Returns how a run has to end whose step `number` fails, and whose end is else `normal`."""
    cert = normal.files.get("CERT")
    first = steps_of(cert)
    if how == "NOTHING" and first - 1 <= number <= first:
        return normal
    if number > first + len(normal.out):
        return normal if how != "KILL" else end(-signal.SIGKILL, normal.out, CERT=cert)
    done = number if how == "KILL" else number - 1
    out = normal.out[: max(0, done - first)]
    left = {}
    if cert and done >= first:
        left = {"CERT": cert}
    elif cert and how == "KILL":
        left = {BESIDE: cert[:done]}
    if how == "KILL":
        return end(-signal.SIGKILL, out, files=left)
    return end(3, out, "failed: Write\n" + found(normal) * (number <= first), left)


def found(normal):
    """Returns the line of the best setting of a tuning whose certificate cannot be written."""
    lines = dict(line.split(" ", 1) for line in normal.out.decode().splitlines())
    constants = lines.get("constants", "-")
    return (f"found: best {lines.get('best')} total {lines.get('total', '').split(' ')[0]}"
            + f" {constants}" * (constants != "-") + "\n")


def some_of(first, last):
    """Returns some steps of CERT.inputs: the first and the last ones, and each fiftieth."""
    steps = range(first, last + 1)
    return sorted({*steps[:3], *steps[::50], *steps[-5:]})


def fail_each(program, library, words, text, normal):
    """Fails each step of a run in turn. Returns how many there were, and what was wrong."""
    wrong, count = [], 0
    printed = steps_of(normal.files.get("CERT")) + len(normal.out)
    last = printed + steps_of(b" " * length_of_inputs(program, words, text))
    beginnings = [FILES, WITHOUT_CERT] if "CERT" in words else [FILES]
    steps = [*range(1, printed + 1), *some_of(printed + 1, last + 1)]
    for files, number, how in itertools.product(beginnings, steps, FAILURES):
        expected = expected_at(how, number, normal) if number <= last else normal
        actual = run(program, library, words, files, text, SHORT=1, **{how: number})
        actual.files.pop(BESIDE_INPUTS, None)
        count += expected != normal
        if actual != expected:
            wrong.append(f"{how} {number}: expected {expected}, got {actual}")
    return count, wrong


def explain_flush(program, library):
    """Fails the flush of a certificate with --explain. Returns what was wrong, in a list."""
    words, normal = TUNINGS[0]
    said = ("  one.red has no range line, so it has one setting\nfailed: Write\n"
            "found: best 0 total 4\n  CERT: Input/output error (os error 5)\n")
    actual = run(program, library, [*with_rules(words), "--explain"], FILES, SHORT=1,
                 FAIL=steps_of(normal.files["CERT"]) - 1)
    return [] if actual == end(3, err=said) else [f"expected {said!r}, got {actual}"]


def main():
    program, jobs = program_word("gate.refuse.writes", __doc__), all_runs()
    with library_of("writes.c") as library:
        results = side_by_side(lambda job: fail_each(program, library, *job[1:]), jobs)
        explained = explain_flush(program, library)
    total = sum(steps for steps, _ in results)
    trials = [(name, wrong) for (name, *_), (_, wrong) in zip(jobs, results)]
    trials.append(("a flush that fails, with --explain", explained))
    return tally(trials, f"{total} steps failed: ")


if __name__ == "__main__":
    run_tool(main)
