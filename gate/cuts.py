"""Cuts texts after each of their bytes and runs the program on each cut.

Each beginning of a Redcode text, of a fight text with its two load files, and of a certificate has
to end as a rule of this file says, which follows from `docs/FORMATS.md` and
`docs/REDCODE.md`: with its result, or with a fault and its line.
"""
from author.lib.endings import run_tool
from author.lib.words import program_word

from .lib import inputs
from .lib.inputs import FILES, RULES
from .lib.play import end, play
from .lib.running import side_by_side
from .lib.tally import difference, tally

IMP = b"ORG 0\nMOV.I $0, $1\n"
FIGHT, CERT = (FILES[name].encode() for name in ("imps.fight", "imps.cert"))
BENCHMARK = inputs.files("imps.red", "both.csv", "dat.red", "imp.red")
# A text as players post it.
DWARF = b"""From: a mail header
;redcode-94
;name Dwarf
;author A. K. Dewdney
;assert CORESIZE % 4 == 0
step EQU 4
  ORG start
bomb DAT #0, #0
start ADD #step, bomb
  MOV bomb, @bomb
  JMP start
  END
"""
# Without this line no cut has a start.
FIRST = b"start ADD #step, bomb"
DWARF_CODE = b"ORG 1\nDAT.F #0, #0\nADD.AB #4, $-1\nMOV.I $-2, @-2\nJMP.B $-2, $0\n"


def refused(names):
    """Returns the end of a run that is refused."""
    return end(1, err=f"refused: {names}\n")


def load_fault(text):
    """Returns the fault of a cut of `IMP`, which is malformed at the line that is not whole."""
    line = text.count(b"\n") + 1
    if text == IMP:
        return None
    return "Warrior Empty" if text == b"ORG 0\n" else f"Malformed line {line}"


def fight_end(text):
    """Returns how the run of a cut of `FIGHT` has to end."""
    whole = text.count(b"\n")
    if whole < 3 or b"opponent\n" not in text:
        return refused(f"FightText line {whole + 1}")
    if text == FIGHT:
        return end(0, "tie 1 turns 40\n")
    loaded = text[text.index(b"opponent\n") + len(b"opponent\n") :]
    return refused(f"Load opponent {load_fault(loaded)}")


def cert_end(text, share=""):
    """Returns how the check of a cut of `CERT`, or of a share of it, has to end: by its first
    malformed record."""
    records = [line for line in text.split(b"\n") if line]
    for row, record in enumerate(records):
        if not is_whole(row, record):
            return end(1, f"rejected row {row} Malformed\n")
    if len(records) < 2:
        return end(1, f"rejected row {len(records)} Malformed\n")
    if records == [line for line in CERT.split(b"\n") if line]:
        return end(0, f"accepted {share}best 0 total 4\n")
    return end(1, "rejected row 0 RowCount\n")


def is_whole(row, record):
    """Returns whether a cut of a record of `CERT` is well formed for its place."""
    fields = record.split(b",")
    expected = CERT.split(b"\n")[row].split(b",")
    if len(fields) != 3 or fields[:2] != expected[:2]:
        return False
    if fields[0] == b"cap":
        return all(item[1:] in (b":0", b":1", b":3") for item in fields[2].split(b" "))
    return fields[2] != b""


def is_of_form(text, actual):
    """Returns whether an assembly ended with a fault at a line of the text, or with a load file;
    the latter only if the text has all of FIRST, the line with the label of its start."""
    if actual.status == 0:
        return (FIRST in text and actual.out.startswith(b"ORG ") and actual.out.endswith(b"\n")
                and actual.err == b"")
    words = actual.err.split()
    if actual.status != 1 or actual.out or words[:3] != [b"refused:", b"Asm", b"line"]:
        return False
    return int(words[3]) <= text.count(b"\n") + 1 and len(words) > 4


def dwarf_end(text):
    """Returns how the assembly of a cut of `DWARF` has to end, if the cut is after a line or before
    the last byte. Of other cuts only the form of the end is known: None."""
    if text == DWARF or text == DWARF[:-1]:
        return end(0, DWARF_CODE)
    count, is_whole_line = text.count(b"\n"), text.endswith(b"\n")
    if is_whole_line and 2 <= count <= 6:
        # the header, the comments, an assert that holds, and EQU lines: no code yet
        return refused("Asm line 0 Warrior Empty")
    if is_whole_line and count in (7, 8):
        # `start` is not defined before line 9
        return refused("Asm line 7 Value UnknownName")
    if is_whole_line and 9 <= count <= 11:
        return end(0, b"".join(line + b"\n" for line in DWARF_CODE.split(b"\n")[: count - 6]))
    return None


def try_dwarf(program, text):
    """Assembles a cut of `DWARF`. Returns what is wrong, in a list."""
    actual, expected = play(program, ["asm", "x.red"], {"x.red": text}), dwarf_end(text)
    if expected is None:
        return [] if is_of_form(text, actual) else [f"got {actual}"]
    return difference(expected, actual)


def try_fight(program, text):
    """Plays a cut of `FIGHT`. Returns what is wrong, in a list."""
    return difference(fight_end(text), play(program, [], {}, text=text))


def try_cert(program, text):
    """Checks a cut of `CERT`, and a share of it. Returns what is wrong, in a list."""
    words = [*RULES, "imps.red", "both.csv", "x.cert", "dat.red", "imp.red"]
    files = {**BENCHMARK, "x.cert": text}
    whole = play(program, ["check", *words], files)
    share = play(program, ["check", "--share=3/4", *words], files)
    return [*difference(cert_end(text), whole), *difference(cert_end(text, "share 3/4 "), share)]


def main():
    program = program_word("gate.cuts", __doc__)
    cuts = [(f"{trial.__name__} of {length} bytes", trial, text[:length])
            for trial, text in [(try_dwarf, DWARF), (try_fight, FIGHT), (try_cert, CERT)]
            for length in range(len(text) + 1)]
    wrong = side_by_side(lambda cut: cut[1](program, cut[2]), cuts)
    return tally((name, lines) for (name, _, _), lines in zip(cuts, wrong))


if __name__ == "__main__":
    run_tool(main)
