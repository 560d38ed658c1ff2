"""Counts requests for memory, to see that no run repeats an assembly or makes a second arena.

One more setting, row, `same` row or opponent costs one more assembly: also among 64 opponents, and
at a terminal, which explains. A run makes one arena, however many settings. `memory.py` takes the
trials: names, and for each a list of what was wrong.
"""
from author.lib.endings import Fault

from .runs import run, with_rules

RULES = "--core=4000 --cycles=20 --tasks=4 --length=4 --distance=4".split()
IMP = "MOV 0, 1\n"
# Lines that make the assembly of a text cost many more requests.
LONG = "".join(f"e{number} EQU {number}\n" for number in range(40))
# Only setting 0 assembles: for K > 0 the divisor is 0.
REFUSED = IMP + "DAT 1/(1-(K+{0}-1)/{0})\n"
CHECK = "check many.red one.csv many.cert dat.red"
TUNE = "tune {} one.csv CERT dat.red"
AT_TERMINAL = "--explain --progress "
# For each thing of which there is one more: the command, the end of the template, and the
# certificate's row of setting K > 0.
KINDS = {
    "a same row": (CHECK, IMP, "same,{},0\n"),
    "a row": (CHECK, IMP + "DAT K\n", "cap,{},0:3\n"),
    "a refused row": (CHECK, REFUSED, "refused,{},-\n"),
    "a setting": (TUNE.format("many.red"), IMP + "DAT K\n", ""),
    "a setting of --all": (TUNE.format("--all many.red"), IMP + "DAT K\n", ""),
    "an opponent": (TUNE.format("one.red"), IMP, ""),
    "an opponent at a terminal": (TUNE.format(AT_TERMINAL + "one.red"), IMP, ""),
    "an opponent of no candidate": (TUNE.format(AT_TERMINAL + "none.red"), IMP, ""),
}
# Commands that make one arena. Its core and that of its snapshot, 4000 cells of 8 bytes each, are
# the only requests of at least LARGE bytes.
ARENAS = [CHECK, TUNE.format("many.red"), TUNE.format("--all many.red"), "fight dat.red dat.red"]
LARGE = 30_000


def requests(program, library, words, files, text="", least=0):
    """Returns the number of requests of at least `least` bytes."""
    actual = run(program, library, words, files, text, REFUSE_COUNT=1, REFUSE_LEAST=least)
    return int(actual.err.splitlines()[-1])


def requests_of_end(program, library, words, files, status=0, least=0):
    """Returns the number of requests of a run, which has to end with `status`: it is run twice."""
    actual = run(program, library, words, files)
    if actual.status != status:
        raise Fault(f"{' '.join(words)} ended with status {actual.status}: {actual.err}", 1)
    return requests(program, library, words, files, least=least)


def many(count, before, after, row):
    """Returns the files of a run with `count` settings or opponents."""
    rows = "".join(row.format(setting) for setting in range(1, count))
    return {
        "many.red": f";@tune K 0 {count - 1} 1 0\n{before}{after.format(count)}",
        "many.cert": f"cwcert,1,{count}\nbest,0,3\ncap,0,0:3\n{rows}",
        "one.red": IMP, "none.red": "DAT 1/0\n",
        "dat.red": "DAT 0\n", "other.red": f"{before}DAT 0\n",
        "one.csv": "opponent,position,first\n0,30,c\n",
    }


def one_more(program, library, kind, before):
    """Returns how many requests one more of a kind costs, in texts that begin with `before`."""
    words, after, row = KINDS[kind]
    counts = []
    for count in 13, 63:
        opponents = ["other.red"] * (count if kind.startswith("an opponent") else 0)
        files = many(count, before, after, row)
        every = [*with_rules(words, RULES), *opponents]
        status = 1 if "none.red" in words else 0
        counts.append(requests_of_end(program, library, every, files, status))
    return (counts[1] - counts[0]) / 50


def trials(program, library):
    alone = [requests(program, library, with_rules("asm a.red", RULES), {"a.red": before + IMP})
             for before in ("", LONG)]
    if alone[0] >= alone[1]:
        yield "requests are seen", [f"got {alone}"]
        return
    for kind in KINDS:
        short, long = (one_more(program, library, kind, before) for before in ("", LONG))
        # What the lines of LONG add to it, in assemblies of them.
        times = (long - short) / (alone[1] - alone[0])
        yield f"one more: {kind}", [] if 0.5 < times < 1.5 else [f"costs {times} assemblies"]
    fight = with_rules("fight one.red one.red", RULES)
    counts = [requests(program, library, [word.replace("=20", cycles) for word in fight],
                       {"one.red": IMP}) for cycles in ("=10000", "=40000")]
    yield "turns take no memory", [] if counts[0] == counts[1] else [f"requests: {counts}"]
    for words in ARENAS:
        counts = [requests_of_end(program, library, with_rules(words, RULES),
                                  many(count, "", IMP, "same,{},0\n"), least=LARGE)
                  for count in (1, 60)]
        yield f"arenas: {words}", [] if counts == [2, 2] else [f"large requests: {counts}"]
