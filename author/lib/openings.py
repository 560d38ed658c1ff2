"""Reads the words PLACE=VALUES of `cwtune-vary`, and makes a constant of each."""
import argparse, re
from typing import NamedTuple

from .endings import Fault
from .grid import MOST_VALUE
from .places import FIELDS, OPEN_MODIFIERS, OPEN_OPCODES, PLACE
from .pmars.tokens import MODES, NAME
from .slots import STRATEGY

NUMBERS = re.compile(r"(-?[0-9]{1,5}):(-?[0-9]{1,5})(?::([0-9]{1,5}))?")
FIELD = re.compile(rf"(?:{NAME}|[0-9]+)\.([A-Za-z_-][^.]*)(?:\.[0-9]*)?")
LIST = re.compile(r"-?[0-9]{1,5}(?:,-?[0-9]{1,5})+")
# The most characters of a number that are read, or shown in a fault.
MOST_OF_NUMBER = 20
# Opcodes with two spellings.
SAME = {"cmp": "seq"}


class Opening(NamedTuple):
    """What a word PLACE=VALUES opens: its place, and its values, a range or a list of texts."""

    word: str
    place: str
    values: range | list


class Constant(NamedTuple):
    """A constant, its START, and the texts of which its values are indices, if they are."""

    name: str
    values: range
    start: int
    texts: list

    def slot(self):
        return f"[{self.name}{':' * bool(self.texts)}{','.join(self.texts)}]"

    def range_line(self, values):
        return f";@tune {self.name} {values[0]} {values[-1]} {values.step} {self.start}"


def opening_from(word):
    """Reads PLACE=VALUES for argparse. Without `:STEP` the step of a range is 1."""
    place, _, values = word.partition("=")
    match = re.fullmatch(PLACE, place)
    with_field = FIELD.fullmatch(place)
    if with_field and with_field[1] not in FIELDS:
        raise argparse.ArgumentTypeError(f"{word}: there is no field {with_field[1]}; there are "
                                         f"{' '.join(FIELDS)}")
    if not match or not values:
        raise malformed(word)
    if match[2] in (None, "a", "b"):
        return Opening(word, place, numbers_from(word, values))
    kind, known = {"mode": ("a mode", list(MODES)), "modifier": ("a modifier", OPEN_MODIFIERS),
                   "opcode": ("an opcode", OPEN_OPCODES)}[match[2].rpartition("-")[2]]
    texts = values.lower().split(",")
    if strange := [text for text in texts if text not in known]:
        raise argparse.ArgumentTypeError(f"{word}: {strange[0] or 'nothing'} is not {kind}; there "
                                         f"are {' '.join(known)}")
    return Opening(word, place, list(dict.fromkeys(texts)))


def malformed(word):
    return argparse.ArgumentTypeError(
        f"{word} is not of the form PLACE=LOW:HIGH:STEP or PLACE=VALUE,VALUE, as STEP=5:4000:10 or "
        "throw.b=-40,-25, without blanks")


def numbers_from(word, text):
    match = NUMBERS.fullmatch(text)
    if not match and not LIST.fullmatch(text):
        raise malformed(word)
    numbers = [int(number or 1) for number in (match.groups() if match else text.split(","))]
    if max(map(abs, numbers)) > MOST_VALUE:
        raise argparse.ArgumentTypeError(f"{word}: values are -{MOST_VALUE} to {MOST_VALUE}")
    if not match:
        return list(dict.fromkeys(map(str, numbers)))
    low, high, step = numbers
    if step == 0:
        raise argparse.ArgumentTypeError(f"{word}: the step is 0")
    if low > high:
        raise argparse.ArgumentTypeError(f"{word}: {low} is above {high}")
    return range(low, high + 1, step)


def constant_of(spot, opening, text):
    """Returns the constant for a place, and a note if its values are not those asked for, or ''."""
    if spot.kind != "number":
        return constant_of_list(spot, spot.name, list(opening.values), text)
    spelled, values = spot.spelled(), opening.values
    cut = spelled if len(spelled) <= MOST_OF_NUMBER else f"{spelled[:MOST_OF_NUMBER]}.."
    if cut != spelled or abs(int(spelled)) > MOST_VALUE:
        raise Fault(f"{spot.name} is {cut}; values are -{MOST_VALUE} to {MOST_VALUE}")
    start = int(spelled)
    if isinstance(values, range):
        # Moved by less than a step so that the number is one of them, and reaching to it.
        low, high, step = min(values.start, start), max(values.stop - 1, start), values.step
        values = range(start - (start - low) // step * step, high + 1, step)
        note = (f"{spot.name} is {start}, so its values are {values[0]} to {values[-1]} by "
                f"{values.step}" if values != opening.values else "")
        return Constant(number_name(spot, text), values, start, []), note
    numbers = sorted({start, *map(int, values)})
    values = range(numbers[0], numbers[-1] + 1, numbers[1] - numbers[0] if numbers[1:] else 1)
    if list(values) != numbers or values.step > MOST_VALUE:
        return constant_of_list(spot, f"{spot.name}.choice", list(opening.values), text)
    return Constant(number_name(spot, text), values, start, []), tried_too(spot, opening.values)


def constant_of_list(spot, name, texts, text):
    """Returns the constant for a place with a list, and a note as `constant_of` does."""
    spelled, note = spot.spelled(), tried_too(spot, texts)
    own = own_value(spot)
    if note:
        texts = [own, *texts]
    start = [SAME.get(word, word) for word in texts].index(own)
    dot = "." if spot.kind == "modifier" else ""
    is_upper = spot.line.text[slice(*spot.line.fields.get("opcode", (0, 0)))].isupper()
    texts = [spelled if index == start else dot + (word.upper() if is_upper else word)
             for index, word in enumerate(texts)]
    return Constant(free_name(name, text), range(len(texts)), start, texts), note


def own_value(spot):
    """Returns what the text has at a place, as a list of values has it."""
    if spot.kind == "number":
        return str(int(spot.spelled()))
    own = spot.spelled().lower().strip(" \t.")
    return "$" if spot.kind == "mode" and not own else SAME.get(own, own)


def tried_too(spot, values):
    """Returns a note if the text's own value is not in a list, or an empty text."""
    own = own_value(spot)
    if own in [SAME.get(word, word) for word in values]:
        return ""
    return f"{spot.name} is {own or 'not written'}, which is tried too"


def number_name(spot, text):
    """Returns the name of an EQU line that is no more than a number, else a free one."""
    return spot.name if spot.field == "equ" and "." not in spot.name else free_name(spot.name, text)


def name_of(place):
    """Returns the name of the constant of a place, unless the text has that name."""
    return re.sub(r"[.-]", "_", f"line{place}" if place[0].isdecimal() else place)


def place_named(name, place):
    """Returns `place` if a constant with this name can be of it, else None. A line gets its number
    from the name, since it may have another one in the adapted text."""
    number = re.match("line([0-9]+)_", name)
    if number and place[0].isdecimal():
        place = f"{number[1]}.{place.partition('.')[2]}"
    return place if re.fullmatch(f"{name_of(place)}(_choice)?_*", name) else None


def free_name(place, text):
    """Returns a constant's name that the text has not, but for the line of an earlier tuning."""
    name = name_of(place)
    lines = [line for line in text.split("\n") if not line.startswith(STRATEGY)]
    taken = set(re.findall(NAME, "\n".join(lines)))
    while name in taken:
        name += "_"
    return name
