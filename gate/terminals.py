"""Runs the program at a terminal, for what changes while it runs.

At a terminal a progress line is rewritten, in a pipe --progress prints a line a minute, and if
standard input is a terminal, the program says what it waits for. What a terminal shows at the end
of a run is played by the cases `explanations` and `help-lines`. Expected values follow from
`docs/COMMANDS.md`.
"""
import re, select, time

from author.lib.endings import run_tool
from author.lib.words import program_word

from .lib import inputs
from .lib.inputs import RULES
from .lib.play import SECONDS, end, in_folder, open_terminal, report, shown, shown_next
from .lib.tally import compare, tally

FILES = {
    **inputs.files("dat.red", "imp.red", "two.red", "never.red", "slow.red", "both.csv", "far.csv",
                   "two.cert"),
    "long.csv": "opponent,position,first\n" + "0,4000,c\n" * 10000,
    "four.csv": "opponent,position,first\n" + "0,4000,c\n" * 4,
    "forty.red": ";@tune K 0 39 1 0\nMOV 0, 1\nDAT K\n",
}
FILES["--share.red"] = FILES["imp.red"]
REPORT = report(2, 2, 0, "K=0", "4 of 6", "2 of 4")
ONE = report(1, 1, 0, "K=1", "4 of 6", "2 of 2")
CERT = FILES["two.cert"]
PART = "cwcert,1,1\nbest,0,4\ncap,0,0:3 1:1\n"
BEGUN = "0% 0 of 2 settings, 0 fights"
SLOW_BEGUN = b"0% 0 of 800000 settings, 0 fights"
PROGRESS = rb"\r\x1b\[\?7l([^\r\n]*)\x1b\[K\x1b\[\?7h"
AT_TERMINAL = f"\r\x1b[?7l{BEGUN}\x1b[K\x1b[?7h\r\x1b[K"
LINE = (rb"\d+% \d+ of 800000 settings, [1-9]\d* fights, \d+ a second, best \d+ total \d"
        rb"( \w+=-?\d+)+, START \d, \d+ (s|min|h) left")
# Of a part without START.
PART_LINE = LINE.replace(b"800000", b"400000").replace(rb", START \d", b"")
MEANWHILE = rb"0% 0 of 1 settings, [1-9]\d* fights, \d+ a second"
STEADY = (rb"(\d+)% (\d+) of 40 settings, (\d+) fights, (\d+) a second, best 0 total \d+ "
          rb"K=0, START \d+, (\d+) s left")
CHECK = ["check", *RULES, "two.red", "both.csv", "two.cert", "dat.red", "imp.red"]
SLOW = ["slow.red", "far.csv", "CERT", "imp.red"]


def tune(template, *options):
    return ["tune", *RULES, *options, template, "both.csv", "CERT", "dat.red", "imp.red"]


def shown_whole(place, words):
    """Runs with a terminal as standard output, too. Returns the status and what was shown."""
    before = place.texts()
    with open_terminal() as (screen, program_end):
        process = place.start(words, stdout=program_end, stderr=program_end)
        program_end.close()
        text, status = shown(screen), process.wait()
    place.put_back(before, place.texts().keys() - before.keys())
    return status, text


def progress(place):
    """Tries the progress of a tuning and of a check that end at once. Yields name, expected and
    actual, as the other groups of trials."""
    tuned, accepted = end(0, REPORT, CERT=CERT), end(0, "accepted best 0 total 4\n")
    for name, words, expected in [("a tuning", tune("two.red"), tuned),
                                  ("a check", CHECK, accepted)]:
        at_terminal = expected._replace(err=AT_TERMINAL.encode())
        yield f"the progress of {name}", at_terminal, place.run(words, terminal=True)
        yield f"the progress of {name} is cleared before it prints", (
            0, at_terminal.err + expected.out), shown_whole(place, words)
        words = [*words, "--progress"]
        yield f"--progress of {name} at a terminal", at_terminal, place.run(words, terminal=True)
        line = expected._replace(err=f"{BEGUN}\n".encode())
        yield f"--progress of {name}", line, place.run(words)
        yield f"no progress of {name} on a pipe", expected, place.run(words[:-1])
    actual = place.run(tune("two.red", "--part=2/2", "--progress"))
    yield "--progress of a part", end(0, ONE, "0% 0 of 1 settings, 0 fights\n", CERT=PART), actual
    shown_first = place.run([*CHECK, "--share=1/2", "--progress"]).err[:22]
    yield "--progress of a share", b"100% 1 of 1 settings, ", shown_first
    words = ["check", *RULES, "--progress", "--", *CHECK[-5:-1], "--share.red"]
    yield "of a check against --share.red", BEGUN.encode(), place.run(words).err[:len(BEGUN)]
    actual = place.run(tune("never.red"), terminal=True)
    cleared = actual.err.startswith(AT_TERMINAL.encode() + b"refused: NoCandidate\n")
    yield "the progress is cleared before a refusal", True, cleared or actual


def seen(place, words, count):
    """Runs with a terminal as standard error until it has shown `count` lines of progress, or the
    run ends. Returns the lines, and the seconds that they took."""
    began, text, lines = time.monotonic(), b"", []
    with open_terminal() as (screen, program_end):
        process = place.start(words, stderr=program_end)
        program_end.close()
        while len(lines) < count and select.select([screen], [], [], SECONDS)[0] and (
                piece := shown_next(screen)):
            text += piece
            lines = re.findall(PROGRESS, text)
        process.kill()
        process.communicate()
    return lines, time.monotonic() - began


def begins_soon(place, words):
    """Returns whether the first line comes within a second. A busy machine is asked five times."""
    return any(lines and seconds < 1 for lines, seconds in (
        seen(place, words, 1) for _ in range(5)))


def long_tunings(place):
    """Tries the progress of a tuning that takes long."""
    lines, seconds = seen(place, ["tune", *SLOW], 6)
    yield "two lines a second at most", True, 6 <= len(lines) <= 2 * seconds + 1 or lines
    wrong = [line for line in lines[1:] if not re.fullmatch(LINE, line)]
    yield "what the lines say", ([], [SLOW_BEGUN]), (wrong, lines[:1])
    # There is half a second or more from a line to the next. A rate is rounded down.
    wrong = [line for index, line in enumerate(lines[1:], 1)
             if not index / 2 <= seconds_of(line) <= 2 * seconds]
    yield "the seconds that a line counts", [], wrong
    lines, _ = seen(place, ["tune", "--part=2/2", *SLOW], 3)
    wrong = [line for line in lines[1:] if not re.fullmatch(PART_LINE, line)]
    yield "what the lines of a part say", ([], [b"0% 0 of 400000 settings, 0 fights"]), (
        wrong, lines[:1])
    yield "the first line within a second", True, begins_soon(place, ["tune", *SLOW])
    process = place.start(["tune", "--progress", *SLOW])
    first = process.stderr.readline()
    time.sleep(2)
    process.kill()
    yield "--progress prints no second line within two seconds", (SLOW_BEGUN + b"\n", b""), (
        first, process.stderr.read())
    process.communicate()


def long_settings(place):
    """Tries the progress while one setting plays many long fights."""
    # In a core of 8009 cells no state comes back where it is looked at: each fight is played out.
    rules = ["--core=8009", "--cycles=1000000"]
    words = ["tune", *rules, "imp.red", "long.csv", "CERT", "imp.red"]
    lines, seconds = seen(place, words, 4)
    wrong = [line for line in lines[1:] if not re.fullmatch(MEANWHILE, line)]
    yield "one long setting", ([], [b"0% 0 of 1 settings, 0 fights"]), (wrong, lines[:1])
    yield "its lines while fights are played", True, 4 <= len(lines) <= 2 * seconds + 1 or lines
    yield "its first line within a second", True, begins_soon(place, words)
    words = ["tune", "--all", *rules, "forty.red", "four.csv", "CERT", "imp.red"]
    lines, _ = seen(place, words, 7)
    wrong = [line for line in lines if not agrees(line)]
    has_numbers = any(re.fullmatch(STEADY, line) for line in lines)
    yield "the numbers of a line agree", ([], True), (wrong, has_numbers or lines)


def seconds_of(line):
    """Returns the fights of a line divided by its fights a second, or 0."""
    found = re.search(rb"(\d+) fights, (\d+) a second", line)
    fights, rate = map(int, found.groups()) if found else (0, 1)
    return fights / max(rate, 1)


def agrees(line):
    """Returns whether the numbers of a line agree: the percent with the settings, and the time left
    with the time so far, if the settings to come take as long as those that are done."""
    found = re.fullmatch(STEADY, line)
    if not found:
        return b" left" not in line
    percent, done, fights, rate, left = map(int, found.groups())
    # The rate is rounded down.
    least, most = (fights / pace * (40 - done) / done for pace in (rate + 1, max(rate, 1)))
    return percent == 100 * done // 40 and 0.9 * least - 1 <= left <= 1.1 * most + 1


def invitations(place):
    """Tries whether a terminal is told what is read from it, if anything is."""
    with open_terminal() as (screen, program_end):
        other = place.run(["asm", "imp.red"], terminal=True, stdin=program_end)
        yield "a terminal that is not read", end(0, "ORG 0\nMOV.I $0, $1\n"), other
        said = "reading a fight text, which Ctrl-D ends; `cwtune --help` lists the commands\n"
        expected = end(1, err=f"{said}refused: FightText line 1\n")
        for words in [], ["fight"], ["fight", "--explain"]:
            screen.write(b"\x04")
            actual = place.run(words, terminal=True, stdin=program_end)
            yield f"a fight text from a terminal, by {words}", expected, actual


def main():
    program = program_word("gate.terminals", __doc__)
    with in_folder(program, FILES) as place:
        return tally(compare(*trial)
                     for group in [progress, long_tunings, long_settings, invitations]
                     for trial in group(place))


if __name__ == "__main__":
    run_tool(main)
