"""Holds text that knows where it comes from: for each character its origin in another text."""
from typing import NamedTuple


class Origin(NamedTuple):
    """Where a character is in the original: the number of a line, from 1, and a column, from 0."""

    line: int
    column: int


class Traced:
    """A text, and for each of its characters the origin, or None if it is new."""

    def __init__(self, text, origins):
        self.text, self.origins = text, origins

    @classmethod
    def line(cls, number, text):
        """Returns a line of the original."""
        return cls(text, [Origin(number, column) for column in range(len(text))])

    @classmethod
    def new(cls, text):
        """Returns a text that is not in the original."""
        return cls(text, [None] * len(text))

    def __add__(self, other):
        other = Traced.new(other) if isinstance(other, str) else other
        return Traced(self.text + other.text, self.origins + other.origins)

    def __radd__(self, text):
        return Traced.new(text) + self

    def __getitem__(self, where):
        return Traced(self.text[where], self.origins[where])

    def __len__(self):
        return len(self.text)

    def strip(self):
        start = len(self.text) - len(self.text.lstrip())
        return self[start:start + len(self.text.strip())]

    def replaced(self, start, end, new):
        return self[:start] + new + self[end:]

    def lines(self):
        lines, start = [], 0
        for part in self.text.split("\n"):
            lines.append(self[start:start + len(part)])
            start += len(part) + 1
        return lines

    def number(self):
        """Returns the number of the first line of the original that is in it, or None."""
        return next((origin.line for origin in self.origins if origin), None)


def joined(parts, between):
    whole = parts[0]
    for part in parts[1:]:
        whole = whole + between + part
    return whole
