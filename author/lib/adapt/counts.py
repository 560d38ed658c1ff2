"""Writes CURLINE as a sum over the blocks before it.

After a block of two instructions it is (4+2*(DECOYS)), so the count of that block may still change.
"""
from typing import NamedTuple

from ..pmars.text import given_names
from ..pmars.tokens import OPCODES, PSEUDO_OPCODES, tokens_of
from ..traced import Traced, joined

INSTRUCTIONS = set(OPCODES) - set(PSEUDO_OPCODES)
# A longer sum is written as its value, since pMARS reads 255 bytes of a line.
LONGEST_SUM = 200


class CountedBlock(NamedTuple):
    """A block in no other: its count as written, how many copies, and instructions of each. In the
    sum a negative count adds 0."""

    count: Traced
    copies: int
    size: int
    may_be_negative: bool

    def term(self):
        count = "(" + self.count + ")"
        return f"{self.size}*" + count + ("*(" + count + ">0)" if self.may_be_negative else "")


class Curline:
    """The blocks so far whose counts may change. `lines` are those of the text, each a `Traced`,
    and `sums` has what was written for CURLINE, by line and column. `starts` has the addresses of
    the blocks that are open, and `holds_block` is whether the outermost has another one in it."""

    def __init__(self, lines, rules):
        self.lines, self.given, self.blocks, self.starts = lines, given_names(rules), [], []
        self.sums, self.holds_block = {}, False

    def begins(self, text):
        self.holds_block = bool(self.starts)
        self.starts.append(text.address)

    def ends(self, text, block):
        """Keeps a block once all copies are read, if it is in no other and holds none."""
        size, rest = divmod(text.address - self.starts.pop(), block.count)
        if not self.starts and not self.holds_block and not rest:
            self.keep(text, block.head, block.count, size)

    def drops(self, text, words):
        """Keeps a block without copies, if each line has one instruction. `words` yields the opcode
        or directive of each line, '' for none."""
        self.holds_block = bool(self.starts)
        if not self.starts and not set(words := list(words)) - INSTRUCTIONS:
            self.keep(text, text.at, 0, len(words))

    def keep(self, text, head, copies, size):
        line = text.lines[head]
        word = next(token for token in tokens_of(line.text) if token.text.upper() == "FOR")
        count = self.count_of(line, line.column + word.end)
        if size and self.may_change(text, count.text):
            # A count less CURLINE is negative only in a warrior that is too long.
            negative = "CURLINE" not in line.text and self.may_be_negative(text, count.text)
            self.blocks.append(CountedBlock(count, copies, size, negative))

    def count_of(self, line, start):
        """Returns the count after column `start` of a line, with the sums for CURLINE."""
        end = line.column + len(line.text)
        count = self.lines[line.index][:end]
        for (index, first, last), new in sorted(self.sums.items(), reverse=True):
            if index == line.index and first >= start:
                count = count.replaced(first, last, new)
        return count[start:].strip()

    def may_change(self, text, count):
        """Returns whether a count is a number, or made of constants and EQU names of the text."""
        names = [token.text for token in tokens_of(count) if token.kind == "name"]
        return count.isdecimal() or (any(name not in self.given for name in names)
                                     and all(self.is_text(text, name) for name in names))

    def may_be_negative(self, text, count):
        """Returns whether a count, or an EQU name in it, has a minus."""
        return "-" in count or any(self.may_be_negative(text, text.names[token.text].lines[0].text)
                                   for token in tokens_of(count) if token.kind == "name")

    def is_text(self, text, name):
        """Returns whether a name stands for a text without labels, counters and CURLINE."""
        known = text.names.get(name)
        return (known is not None and known.kind == "text" and len(known.lines) == 1 and all(
            self.is_text(text, token.text) for token in tokens_of(known.lines[0].text)
            if token.kind == "name"))

    def written(self, where, value):
        """Returns the `Traced` text of CURLINE. `where` is its line and its columns there."""
        rest = value - sum(block.copies * block.size for block in self.blocks)
        terms = [block.term() for block in self.blocks]
        new = "(" + joined([Traced.new(str(rest)), *terms], "+") + ")" if terms else None
        if new is None or len(new) > LONGEST_SUM:
            new = Traced.new(str(value))
        self.sums[where] = new
        return new
