"""Evaluates expressions as pMARS 0.9.2 does, says which parts `cwtune` reads alike, and writes them
so that it does.
"""
import random, re
from typing import NamedTuple

from .tokens import BLANKS, LETTERS, tokens_of

# How tightly an operator binds, in pMARS and here. `first` is before the first operand.
THERE = {"first": 0, "||": 1, "&&": 2, "==": 3, "!=": 3, "<": 3, ">": 3, "<=": 3, ">=": 3, "+": 4,
         "-": 4, "*": 5, "/": 5, "%": 5}
HERE = {"||": 1, "&&": 2, "==": 3, "!=": 3, "<": 4, ">": 4, "<=": 4, ">=": 4, "+": 5, "-": 5,
        "*": 6, "/": 6, "%": 6}
UNARY, OPERAND = 7, 8
SKIPPED, DECIMAL = re.compile(f"[{BLANKS}]*"), re.compile("[0-9]+")
OPERATOR = re.compile(r"&&|\|\||[<>=!]=|[-+*/%<>]")
# The greatest number in a text of `cwtune`, and the most digits of one that is read here.
MOST_DECIMAL, LONGEST_NUMBER = 4294967295, 19


class NoValue(Exception):
    """An expression has no value."""


class AnyValue(Exception):
    """An expression has a value that nothing in the text says."""


class Node(NamedTuple):
    """A part of an expression: what it is, its parts, and where it is in the text. `kind` is a
    binary operator, or `unary` with the sign as the first part, `group`, `number`, `register` or
    `set`."""

    kind: str
    parts: tuple
    start: int
    end: int


def wrapped(number):
    """Returns a number as 64 bits with a sign have it."""
    return (number + (1 << 63)) % (1 << 64) - (1 << 63)


def divided(left, right):
    """Returns a quotient, toward zero, and its remainder."""
    if right == 0:
        raise NoValue("division by zero")
    quotient = abs(left) // abs(right)
    quotient = quotient if (left < 0) == (right < 0) else -quotient
    return quotient, left - quotient * right


BINARY = {"+": lambda left, right: wrapped(left + right),
          "-": lambda left, right: wrapped(left - right),
          "*": lambda left, right: wrapped(left * right),
          "/": lambda left, right: divided(left, right)[0],
          "%": lambda left, right: divided(left, right)[1],
          "&&": lambda left, right: int(bool(left and right)),
          "||": lambda left, right: int(bool(left or right)),
          "==": lambda left, right: int(left == right),
          "!=": lambda left, right: int(left != right),
          "<": lambda left, right: int(left < right), ">": lambda left, right: int(left > right),
          "<=": lambda left, right: int(left <= right),
          ">=": lambda left, right: int(left >= right)}
UNARY_OPERATORS = {"-": lambda value: wrapped(-value), "+": lambda value: value,
         "!": lambda value: int(not value)}


def value_of(node, leaf_value):
    """Returns the value of an expression. `leaf_value` gives that of a number or a register."""
    if node.kind == "group":
        return value_of(node.parts[0], leaf_value)
    if node.kind == "unary":
        return UNARY_OPERATORS[node.parts[0]](value_of(node.parts[1], leaf_value))
    if node.kind in BINARY:
        return BINARY[node.kind](*(value_of(part, leaf_value) for part in node.parts))
    return leaf_value(node)


def leaves_of(node):
    below = [part for part in node.parts if isinstance(part, Node) and node.kind != "set"]
    return [leaf for part in below for leaf in leaves_of(part)] if below else [node]


class Parser:
    """Reads one expression. What both readings have: operands and operators."""

    def __init__(self, text):
        self.text, self.at = text, 0

    def skip(self):
        self.at = SKIPPED.match(self.text, self.at).end()

    def next(self):
        return self.text[self.at:self.at + 1]

    def operand(self):
        self.skip()
        start, first = self.at, self.next()
        if first == "(":
            self.at += 1
            inner = self.expression()
            if self.next() != ")":
                raise NoValue("no )")
            self.at += 1
            return Node("group", (inner,), start, self.at)
        if first and first in "-!+":
            self.at += 1
            inner = self.operand()
            return Node("unary", (first, inner), start, inner.end)
        if first in LETTERS:
            return self.register(start)
        number = DECIMAL.match(self.text, start)
        if not number:
            raise NoValue("no operand")
        self.at = number.end()
        return Node("number", (), start, self.at)

    def register(self, start):
        self.at += 1
        self.skip()
        if self.next() == "=" and self.text[self.at + 1:self.at + 2] != "=":
            self.at += 1
            return Node("set", (self.expression(),), start, self.at)
        return Node("register", (), start, start + 1)

    def operator(self):
        self.skip()
        if operator := OPERATOR.match(self.text, self.at):
            self.at = operator.end()
            return operator[0]
        if self.next() in "=!|&":
            raise AnyValue(f"{self.next()} is not an operator")
        raise NoValue("no operator")

    def ended(self):
        self.skip()
        return self.next() in ("", ")")

    def whole(self):
        node = self.expression()
        if self.at != len(self.text):
            raise NoValue("more than an expression")
        return node


class ParserThere(Parser):
    """Reads an expression as pMARS does, which after a tighter operator may group to the right:
    `5 - 2*3 + 4` is `5 - (2*3 + 4)`."""

    # The operator at which an inner call stopped, for an outer one to go on with.
    saved = ""

    def expression(self):
        return self.rest(-1, None, "first")

    def rest(self, least, left, operator):
        """Reads on after `left` and the `operator` that follows it. `least` is how tightly the
        operator before that one binds."""
        right = self.operand()
        if self.ended():
            return self.made(left, operator, right)
        following = self.operator()
        self.saved = ""
        tight, next_tight = THERE[operator], THERE[following]
        if tight >= next_tight:
            node = self.made(left, operator, right)
            if next_tight >= least or tight <= least:
                return self.rest(tight, node, following)
            self.saved = following
            return node
        node = self.made(left, operator, self.rest(tight, right, following))
        if self.saved and THERE[self.saved] >= least:
            node = self.rest(next_tight, node, self.saved)
            self.saved = ""
        return node

    @staticmethod
    def made(left, operator, right):
        if operator == "first":
            return right
        return Node(operator, (left, right), left.start, right.end)


class ParserHere(Parser):
    """Reads an expression as docs/REDCODE.md says."""

    def expression(self, least=1):
        left = self.operand()
        while not self.ended():
            start, operator = self.at, self.operator()
            if HERE[operator] < least:
                self.at = start
                break
            right = self.expression(HERE[operator] + 1)
            left = Node(operator, (left, right), left.start, right.end)
        return left


class Registers(dict):
    """The registers of pMARS, each 0 at first."""

    def value(self, text, node):
        """Returns the value of an expression of a text, and gives registers their values."""
        return value_of(node, lambda leaf: self.leaf_value(text, leaf))

    def leaf_value(self, text, leaf):
        if leaf.kind == "number":  # as `sscanf` of C reads it; pMARS has no room for more
            if leaf.end - leaf.start > LONGEST_NUMBER:
                raise AnyValue(f"a number of more than {LONGEST_NUMBER} digits")
            return min(int(text[leaf.start:leaf.end]), (1 << 63) - 1)
        name = text[leaf.start].upper()
        if leaf.kind == "set":
            self[name] = self.value(text, leaf.parts[0])
        return self.get(name, 0)


def is_read_alike(text, node):
    """Returns whether an expression has the same value here, whatever its numbers are."""
    try:
        here = ParserHere(text).whole()
    except NoValue:
        return False
    dice = random.Random(1)
    return all(same_values(node, here, dice) for _ in range(8))


def same_values(node, other, dice):
    """Returns whether two readings of a text have the same value with other numbers."""
    numbers = {leaf.start: dice.randint(1, 50) for leaf in leaves_of(node)}
    try:
        values = [value_of(tree, lambda leaf: numbers[leaf.start]) for tree in (node, other)]
    except NoValue:
        return True
    return values[0] == values[1]


def written(node, leaf_text):
    """Returns an expression as `cwtune` has to read it. `leaf_text` gives the text of a part, or
    None if that is to be made of its own parts."""
    text = leaf_text(node)
    if text is not None:
        return text
    if node.kind == "group":
        return f"({written(node.parts[0], leaf_text)})"
    if node.kind == "unary":
        return node.parts[0] + in_parentheses(node.parts[1], UNARY, leaf_text)
    least = HERE[node.kind]
    left, right = (in_parentheses(part, tight, leaf_text)
                   for part, tight in zip(node.parts, (least, least + 1)))
    return f"{left}{node.kind}{right}"


def in_parentheses(node, least, leaf_text):
    """Returns an expression, in parentheses if it does not bind as tightly as it has to."""
    text = written(node, leaf_text)
    tightness = HERE.get(node.kind, UNARY if node.kind == "unary" else OPERAND)
    return text if tightness >= least else f"({text})"


def is_large(text):
    return text.isdecimal() and int(text) > MOST_DECIMAL


def has_large_number(text):
    return any(is_large(token.text) for token in tokens_of(text))


def can_stay(text):
    """Returns whether an expression that is part of another one may stay as it is."""
    return not is_other_here(text, ParserThere(text).whole(), {})


def extents_of(chars):
    """Returns for each root its first character, and the end of its last one, without blanks."""
    extents = {}
    for at, (char, root) in enumerate(zip(chars.text, chars.roots)):
        if char != " " and root:
            extents[root] = (extents.get(root, (at,))[0], at + 1)
    return extents


def is_other_here(text, node, extents):
    """Returns whether `cwtune` refuses an expression, or gives it another value."""
    leaves = leaves_of(node)
    starts = {start for start, _ in extents.values()}
    return (not is_read_alike(text, node)
            or any(leaf.kind != "number" or is_large(text[leaf.start:leaf.end])
                   or starts & set(range(leaf.start + 1, leaf.end)) for leaf in leaves))
