"""What is known to differ from pMARS 0.9.2, each with a fight or a text that shows it.

docs/PMARS.md explains them, and names others. Three show in no listing: a text that pMARS refuses,
a start outside of the code, a text without instructions. One needs a display: an assertion after an
EQU line is overlooked.
"""
from typing import NamedTuple

from author.lib.program import Rules

RULES = Rules(80, 100, 8, 12, 12)
WAITS = "ORG 0\nJMP.B $0, $0\n"


class KnownFight(NamedTuple):
    """A fight of a warrior against `WAITS` at a position, in which the warrior moves first: the
    points that it makes by each program."""

    name: str
    warrior: str
    position: int
    cwtune: int
    pmars: int


class KnownText(NamedTuple):
    """A text: what cwtune makes of it, and the load file of what pMARS lists."""

    name: str
    text: str
    cwtune: str
    pmars: str


FIGHTS = [
    KnownFight("an immediate B-operand is read after the A-operand",
               "ORG 0\nADD.A {0, #0\nJMZ.A $2, $-1\nJMP.B $0, $0\nDAT.F $0, $0\n", 40, 1, 0),
    KnownFight("CMP and SEQ are one opcode", "ORG 0\nSEQ.I $3, $4\nJMP.B $0, $0\nDAT.F $0, $0\n"
               "CMP.I $1, $1\nSEQ.I $1, $1\n", 40, 0, 1),
]


def one(operands):
    """Returns a load file of one DAT with these operands."""
    return f"ORG 0\nDAT.F {operands}\n"


def refused(words):
    return f"refused: Asm {words}\n"


# The load files of `DAT 0, 1` alone, and of it and `DAT 0, 2`.
DAT_1 = one("$0, $1")
DATS_1_2 = f"{DAT_1}DAT.F $0, $2\n"
TEXTS = [KnownText(*row) for row in [
    ("a - b*c + d", "DAT 0, 5 - 2*3 + 4\n", one("$0, $3"), one("$0, $-5")),
    ("levels of comparisons", "DAT 0, 2 == 1 < 3\n", one("$0, $0"), DAT_1),
    ("DAT with one operand", "DAT 5\n", one("$0, $5"), one("#0, $5")),
    ("ORG and END", "ORG 0\nDAT 0, 1\nDAT 0, 2\nEND 1\n", DATS_1_2,
     "ORG 1\nDAT.F $0, $1\nDAT.F $0, $2\n"),
    ("a label on a line of its own before EQU", "go\nstep EQU 5\nDAT 0, step\nJMP go\n",
     "ORG 0\nDAT.F $0, $5\nJMP.B $-1, $0\n", "ORG 0\nDAT.F $0, $5\nJMP.B $5, $0\n"),
    ("WARRIORS", "DAT 0, WARRIORS\n", one("$0, $2"), DAT_1),
    ("a name of one letter", "DAT 0, a\n", refused("line 1 Value UnknownName"), one("$0, $0")),
    ("a second ;redcode", ";redcode\nDAT 0, 1\n;redcode\nDAT 0, 2\n", DATS_1_2, DAT_1),
    ("a ;redcode after blanks", "DAT 0, 1\n  ;redcode\nDAT 0, 2\n", DATS_1_2, one("$0, $2")),
    ("a line ;redcodes", "DAT 0, 1\n;redcodes\nDAT 0, 2\n", one("$0, $2"), DATS_1_2),
    ("an EQU name in an assertion above it", ";assert late == 0\nDAT 0, late\nlate EQU 5\n",
     refused("line 1 AssertFailed"), one("$0, $5")),
    ("a label in an assertion", "x DAT 0, 1\n;assert x == -1\nDAT 0, 2\n",
     refused("line 2 AssertFailed"), DATS_1_2),
    ("an EQU name below its count", "i FOR n\nDAT 0, 1\nROF\nDAT 0, 2\nn EQU 1\n", DATS_1_2,
     one("$0, $2")),
    ("a label twice", "x DAT 0, 1\nx DAT 0, 2\n", refused("line 2 Expand DuplicateName"), DAT_1),
    ("an EQU for an opcode", "null EQU DAT\nnull 0, 1\nnull 0, 2\n",
     refused("line 2 Expand DuplicateName"), DATS_1_2),
    ("an EQU over several lines", "both EQU DAT 0, 1\nEQU DAT 0, 2\nboth\n",
     refused("line 2 Expand BadDirective"), DATS_1_2),
    ("two names before EQU", "one two EQU 5\nDAT one, two\n", refused("line 1 Expand BadDirective"),
     one("$5, $5")),
    ("a name on the line before EQU", "five\nEQU 5\nDAT 0, five\n",
     refused("line 2 Expand BadDirective"), one("$0, $5")),
    ("a counter in the text of an EQU", "next EQU i+1\ni FOR 1\nDAT next, i\nROF\n",
     refused("line 3 Value UnknownName"), one("$2, $1")),
    ("an inner counter joined first", "i FOR 1\nj FOR 1\nx&j&i DAT 0, 1\nROF\nROF\nDAT 0, x0101\n",
     refused("line 3 UnknownOpcode"), f"{DAT_1}DAT.F $0, $-1\n"),
    ("CURLINE in a count", "DAT 0, 1\ni FOR CURLINE\nDAT 0, 2\nROF\n",
     refused("line 2 Expand CountRefused"), DATS_1_2),
    ("a label in a count", "x DAT 0, 1\ni FOR x+2\nDAT 0, 2\nROF\n",
     refused("line 2 Expand CountRefused"), DATS_1_2),
    ("a label before ROF", "i FOR 1\nDAT 0, 1\nlast ROF\nDAT 0, 2\n",
     refused("line 3 Expand BadDirective"), DATS_1_2),
    ("words after ROF", "i FOR 1\nDAT 0, 1\nROF the end\n", refused("line 3 Expand BadDirective"),
     DAT_1),
    ("a missing ROF", "i FOR 1\nDAT 0, 1\n", refused("line 1 Expand ForWithoutRof"), DAT_1),
    ("END in a block", "i FOR 1\nDAT 0, 1\nEND\nROF\n", refused("line 1 Expand ForWithoutRof"),
     DAT_1),
    ("9 nested blocks", 9 * "FOR 1\n" + "DAT 0, 1\n" + 9 * "ROF\n",
     refused("line 9 Expand ForTooDeep"), DAT_1),
    ("prose in a dropped block", "FOR 0\nit's prose\nROF\nDAT 0, 1\n",
     refused("line 2 Expand Text BadByte"), DAT_1),
    ("a form feed", "DAT\f0, 1\n", refused("line 1 Expand Text BadByte"), DAT_1),
    ("ORG without an operand", "ORG\nDAT 0, 1\n", refused("line 1 MissingOperand"), DAT_1),
    ("a mode without a number", "DAT #, 1\n", refused("line 1 Value Syntax"), one("#0, $1")),
    ("an assertion without a value", ";assert \nDAT 0, 1\n", refused("line 1 Value Syntax"), DAT_1),
    ("a number that overflows", "DAT 0, 99999999999\n",
     refused("line 1 Expand Text NumberTooLarge"), one("$0, $-1")),
    ("PIN", "PIN 5\nDAT 0, 1\n", refused("line 1 UnknownOpcode"), DAT_1),
    ("ROUNDS", "DAT 0, ROUNDS\n", refused("line 1 Value UnknownName"), one("$0, $0")),
    ("an assignment", "DAT 0, a=5\n", refused("line 1 Expand Text BadByte"), one("$0, $5")),
]]
