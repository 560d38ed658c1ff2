"""Checks certificates, whole ones and damaged ones, at once and in shares.

For each count of shares, all have to accept if and only if the whole check does, with its best
setting and total. Else their rejections, put together, have to give its line. Each kind of damage
is done to each row of the certificates of templates of at most six settings.
"""
from author.lib.endings import run_tool
from author.lib.spread.shares import is_verdict, verdict_of
from author.lib.words import program_word

from .lib import inputs
from .lib.inputs import RULES
from .lib.play import in_folder, play
from .lib.running import side_by_side
from .lib.tally import compare, tally

SHARE_COUNTS = [1, 2, 3, 7]
OPPONENTS = ["dat.red", "imp.red"]
# The templates have rows of all kinds: refused ones, and ones that share a warrior.
FILES = inputs.files(*OPPONENTS, "half.red", "tail.red", "both.csv") | {
    "kinds.red": ";@tune K 0 5 1 4\nMOV 0, 1\nDAT 12/(K/2-1)\n",
    "leaps.red": ";@tune K 0 5 1 5\nJMP K\nMOV 0, 1\nDAT 0\nJMP -1\n",
    "weights.csv": "opponent,position,first,weight\n0,4,c,1\n1,5,o,3\n1,6,c,2\n0,4,o,1\n"}
# The certificates: a template, a schedule and a method.
TUNINGS = [("half.red", "both.csv", "--cache=2"), ("tail.red", "weights.csv", "--all"),
           ("kinds.red", "weights.csv", "--cache=4"), ("leaps.red", "both.csv", "--all"),
           ("leaps.red", "weights.csv", "--cache=1")]


def tuned(program, template, schedule, method):
    """Tunes a template. Returns the words of a check, and the certificate, "" if there is none."""
    words = [*RULES, template, schedule, "CERT", *OPPONENTS]
    return words, play(program, ["tune", method, *words], FILES).files.get("CERT", b"").decode()


def damaged(text):
    """Yields damaged certificates: each kind of damage to each record."""
    records = text.splitlines()
    for index, record in enumerate(records):
        before, after = records[:index], records[index + 1:]
        yield before + after
        yield before + [record] + [record] + after
        kind, *rest = record.split(",")
        for other in DAMAGES[kind](*rest, len(records) - 2):
            if other != record:
                yield before + [other] + after


def of_count(version, count, _):
    return [f"cwcert,{3 - int(version)},{count}", f"cwcert,{version},{int(count) + 1}",
            f"cwcert,{version},0{count}"]


def of_best(best, total, count):
    return [f"best,{(int(best) + 1) % count},{total}", f"best,{best},{int(total) + 1}",
            f"best,{count},{total}", f"best,{best},"]


def of_refused(setting, rest, count):
    return [f"cap,{setting},-", f"same,{setting},{(int(setting) + 1) % count}",
            f"refused,{int(setting) + 1},{rest}"]


def of_same(setting, other, count):
    return [f"cap,{setting},-", f"refused,{setting},-", f"same,{setting},{setting}",
            f"same,{setting},{count}", *(f"same,{setting},{twin}" for twin in range(count))]


def of_cap(setting, listing, count):
    fights = [] if listing == "-" else listing.split(" ")
    yield f"refused,{setting},-"
    yield from (f"same,{setting},{twin}" for twin in range(count))
    yield f"cap,{setting},-"
    for index, item in enumerate(fights):
        fight, points = item.split(":")
        others = [[f"{fight}:{other}"] for other in (0, 1, 3)]
        others += [[], [item, item], [f"{fight}:2"], [f"{int(fight) + 9}:{points}"]]
        for other in others:
            yield f"cap,{setting},{' '.join(fights[:index] + other + fights[index + 1:]) or '-'}"
    if len(fights) > 1:
        yield f"cap,{setting},{' '.join(reversed(fights))}"


DAMAGES = {"cwcert": of_count, "best": of_best, "refused": of_refused, "same": of_same,
           "cap": of_cap}


def line_of(place, *words):
    """Returns what a check prints, and its status."""
    job = place.start(["check", *words])
    return job.communicate()[0].decode(), job.returncode


def in_shares(place, words, share_count):
    """Returns the line and the status of a check in shares, as `cwtune-spread` puts them together,
    or what a share printed in place of a verdict."""
    lines = []
    for number in range(1, share_count + 1):
        line, status = line_of(place, f"--share={number}/{share_count}", *words)
        if not is_verdict(line, status, number, share_count):
            return line, status
        lines.append(line)
    line = verdict_of(lines, place.folder / "CERT")
    return line, 0 if line.startswith("accepted") else 1


def compared(program, words, records):
    """Checks a certificate at once and in shares. Returns the status of the first, and a trial."""
    text = "".join(f"{record}\n" for record in records)
    with in_folder(program, {**FILES, "CERT": text}) as place:
        expected = line_of(place, *words)
        actual = {share_count: in_shares(place, words, share_count)
                  for share_count in [*SHARE_COUNTS, len(records) + 3]}
    name = f"{' '.join(words)}: {' '.join(records)}"
    return expected[1], compare(name, dict.fromkeys(actual, expected), actual)


def trials(program):
    """Yields for each certificate how its checks in shares differ from its whole check."""
    jobs = []
    for tuning in TUNINGS:
        words, text = tuned(program, *tuning)
        yield f"tune {' '.join(tuning)}", [] if text else ["no certificate"]
        tried = {tuple(text.splitlines())} | {tuple(records) for records in damaged(text)}
        jobs += [(words, records) for records in sorted(tried)]
    ends = side_by_side(lambda job: compared(program, *job), jobs)
    yield from (trial for _, trial in ends)
    statuses = [status for status, _ in ends]
    yield compare("some are accepted, at least 200 are rejected, and none is refused otherwise",
                  (True, True, {0, 1}), (statuses.count(0) >= len(TUNINGS),
                                         statuses.count(1) >= 200, set(statuses)))


def main():
    return tally(trials(program_word("gate.shares", __doc__)))


if __name__ == "__main__":
    run_tool(main)
