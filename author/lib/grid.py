"""Reads the range lines of a template, which may have more settings than `cwtune` takes."""
import math, pathlib, re

from .endings import Fault
from .pmars.tokens import NAME, code_of

BLANKS = b" \t\r"
# A line of the author's text that `cwtune-vary` keeps in a template, and a slot in it (`slots`).
KEPT, SLOT = ";@text ", re.compile(rf"\[({NAME})(?::([^\]\n]*))?\]")
# A line of a template whose text `cwtune-adapt` wrote.
ADAPTED = ";@adapted"
MOST_VALUE = 65535


class Grid:
    """The constants of a template, in order, with their ranges.

    `names` are the names of the constants, `ranges` the values that each may have, `start_values`
    those that START has, and `line_indices` says where the range lines are. `lists` has, for each
    constant that is an index of a list in the author's text, the list. The values of a setting are
    a tuple: one value for each constant.
    """

    def __init__(self, path, text=None):
        """Reads the template at a path. Its text is `text`, if that is given."""
        self.path = path
        self.lines = (self.read(path) if text is None else text).split(b"\n")
        range_lines = [(index, *read_range(path, index + 1, line))
                       for index, line in enumerate(self.lines) if is_range_line(line)]
        self.line_indices, self.names, self.ranges, start_values = (
            [line[field] for line in range_lines] for field in range(4))
        self.start_values = tuple(start_values)
        if len(set(self.names)) < len(self.names):
            raise Fault(f"{path}: two range lines of one constant")
        kept = [code_of(line.decode("latin-1").removeprefix(KEPT)) for line in self.lines
                if line.startswith(KEPT.encode())]
        lists = [(match[1], match[2].split(",")) for line in kept
                 for match in SLOT.finditer(line)
                 if match[1] in self.names and match[2] is not None]
        self.lists, range_of = dict(lists), dict(zip(self.names, self.ranges))
        for name, texts in lists:
            values = range_of[name]
            if not 0 <= values[0] <= values[-1] < len(texts):
                raise Fault(f"{path}: {name} is an index of a list of {len(texts)}, from 0")

    def read(self, path):
        return pathlib.Path(path).read_bytes()

    def count(self):
        return math.prod(map(len, self.ranges))

    def constants_of(self, values):
        """Returns the line `constants` of a setting. An index shows what is in its list."""
        pairs = zip(self.names, values)
        return " ".join(f"{name}={self.shown_value(name, value)}" for name, value in pairs) or "-"

    def shown_value(self, name, value):
        return self.lists[name][value] or "-" if name in self.lists else value

    def text(self, ranges, start_values):
        lines = list(self.lines)
        for index, name, values, start in zip(self.line_indices, self.names, ranges, start_values):
            end = "\r" if lines[index].endswith(b"\r") else ""
            line = f";@tune {name} {values[0]} {values[-1]} {values.step} {start}{end}"
            lines[index] = line.encode("latin-1")
        return b"\n".join(lines)

    def alone(self, values):
        """Returns the template with a setting as its only one."""
        return self.text([range(value, value + 1) for value in values], values)

    def box(self, values, reach):
        """Returns the ranges of the values at most `reach` steps from those of a setting."""
        indices = (whole.index(value) for whole, value in zip(self.ranges, values))
        return [whole[max(index - reach, 0):index + reach + 1]
                for whole, index in zip(self.ranges, indices)]


def is_range_line(line):
    """Returns whether a line is `;@tune`, then a blank or the end of the line."""
    return line[:6] == b";@tune" and line[6:7] in (b"", b" ", b"\t", b"\r")


def read_range(path, number, line):
    """Returns name, range and START of a constant. The fault has the `number` of the line."""
    words = re.split(rb"[ \t\r]+", line[6:].strip(BLANKS))
    if (len(words) == 5 and re.fullmatch(NAME.encode(), words[0])
            and all(re.fullmatch(rb"-?[0-9]{1,5}", word) for word in words[1:])):
        low, high, step, start = map(int, words[1:])
        values = range(low, high + 1, step) if step > 0 else ()
        if start in values and max(map(abs, (low, high, step))) <= MOST_VALUE:
            return words[0].decode("latin-1"), values, start
    raise Fault(f"{path}: line {number} is not a range line: ;@tune NAME LOW HIGH STEP START, with "
                "START one of the values")
