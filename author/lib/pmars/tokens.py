"""Reads the tokens of Redcode as pMARS 0.9.2 does."""
import re, string
from typing import NamedTuple

BLANKS = " \t\n\v\f\r"
LETTERS = frozenset(string.ascii_letters)
NAME = "[A-Za-z_][A-Za-z0-9_]*"
# A token, which may have blanks before it.
TOKEN = re.compile(rf"[{BLANKS}]*+(?:(?P<number>[0-9]+)|(?P<name>{NAME})"
                   r"|(?P<sign>&&|\|\|)|(?P<other>.))", re.DOTALL)
MODES = "#$*@{<}>"
SIGNS = "()/+-%!="
OPCODES = ("DAT MOV ADD SUB MUL DIV MOD JMP JMZ JMN DJN CMP SEQ SNE SLT SPL NOP LDP STP "
           "ORG END PIN").split()
PSEUDO_OPCODES = ["ORG", "END", "PIN"]
P_SPACE_OPCODES = ["LDP", "STP", "PIN"]
MODIFIERS = ["A", "B", "AB", "BA", "F", "X", "I"]
# The words after a semicolon by which pMARS and hills take a comment for more.
COMMENT_WORDS = ("REDCODE NAME AUTHOR DATE VERSION ASSERT STRATEGY KILL PASSWORD URL DEBUG TRACE "
                 "BREAK").split()
# The kinds of tokens that are one sign.
KIND_OF_SIGN = {**dict.fromkeys(MODES, "mode"), **dict.fromkeys(SIGNS, "sign"), "&": "join",
                ";": "comment", ",": "comma", ".": "dot"}


class Token(NamedTuple):
    """A token, and where it is in the text that was read. Its kind is name, number, sign, other or
    one of KIND_OF_SIGN, and empty at the end."""

    kind: str
    text: str
    start: int
    end: int


def token_at(text, start):
    match = TOKEN.match(text, start)
    if not match:
        return Token("", "", len(text), len(text))
    kind, token = match.lastgroup, match[match.lastgroup]
    return Token(KIND_OF_SIGN.get(token, kind), token, *match.span(kind))


def tokens_of(text, start=0):
    while (token := token_at(text, start)).kind:
        yield token
        start = token.end


def comment_sign(text):
    """Returns the sign of a plain comment: `;; ` if pMARS would read the text's first word after
    one `;`."""
    return ";; " if token_at(text, 0).text.upper() in COMMENT_WORDS else "; "


def code_of(text):
    return text.partition(";")[0]
