"""Keeps the author's own lines in a template, and writes them with the values of a setting.

For a line in which something is open `cwtune-vary` writes a *kept line* into the template: the word
`;@text`, and the author's line with a *slot* for each place that is open. Range lines follow, and
then what is assembled in place of the line, which `code_of_kept` makes of it:

    ;@text STEP EQU [STEP] ; of the bombs           STEP is a constant, so there is no EQU line
    ;@text throw SPL #0, <[throw_b]                 a number: `throw SPL #0, <throw_b`
    ;@text aim EQU [aim_choice:7,30,95]             a list of numbers, of which aim_choice is one
    ;@text gate [gate_opcode:djn,jmp] @0, <1        a list of others: a FOR block for each of them

The value of a constant whose slot has a list is an index of the list, from 0.
"""
import itertools, re
from typing import NamedTuple

from .endings import Fault
from .grid import ADAPTED, KEPT, SLOT, is_range_line
from .places import HEAD, PLAIN, fields_of
from .pmars.tokens import code_of

# What the line with the values of a setting begins with.
STRATEGY = ";strategy cwtune: "


class Slot(NamedTuple):
    """A slot of a kept line: its constant, the texts of its list or none, and its characters."""

    name: str
    texts: tuple
    start: int
    end: int

    def has_numbers(self):
        """Returns whether its constant is a number of the text, or an index of numbers."""
        return all(re.fullmatch("-?[0-9]+", text) for text in self.texts)

    def expression(self):
        """Returns what is assembled in place of a number."""
        if not self.texts:
            return self.name
        terms = "+".join(f"({self.name}=={index})*({text})"
                         for index, text in enumerate(self.texts))
        return f"({terms})"

    def text_of(self, value):
        return self.texts[value] if self.texts else str(value)


def slots_of(line, names):
    """Returns the slots of a line, which are before its comment."""
    return [Slot(match[1], () if match[2] is None else tuple(match[2].split(",")), *match.span())
            for match in SLOT.finditer(line, 0, len(code_of(line))) if match[1] in names]


def filled(line, texts):
    """Returns a line with a text in the place of each slot. `texts` has them by slots."""
    for slot, text in sorted(texts.items(), key=lambda pair: -pair[0].start):
        line = line[:slot.start] + text_in(line, slot, text) + line[slot.end:]
    return line


def text_in(line, slot, text):
    """Returns the text of a slot as its line has it: a number below 0 is in parentheses, unless it
    is all of a field, as the next `cwtune-vary` would take its sign for an operator."""
    before, after = line[:slot.start], line[slot.end:]
    has_them = before.endswith("(") and after.startswith(")")
    is_bare = text.startswith("-") and not has_them and not is_plain(before, after)
    return f"({text})" if is_bare else text


def is_plain(before, after):
    """Returns whether a number between two parts of a line is what `PLAIN` says of a field."""
    before, after = (SLOT.sub(first_text, part) for part in (before, after))
    code = code_of(f"{before}0{after}")
    head = HEAD.match(code)
    fields = fields_of(code, head, head[2].lower()) if head else {}
    return any(start <= len(before) < end and PLAIN.fullmatch(code, start, end)
               for start, end in fields.values())


def first_text(slot):
    """Returns what the match of a slot may stand for."""
    return "0" if slot[2] is None else slot[2].split(",")[0]


def code_of_kept(line, names):
    """Returns the lines that are assembled in place of the author's line, which has slots."""
    end = "\r" if line.endswith("\r") else ""
    line = code_of(line).rstrip()
    slots = slots_of(line, names)
    numbers = {slot: slot.expression() for slot in slots if slot.has_numbers()}
    head = HEAD.match(line)
    if head and head[2].lower() == "equ" and head[1].strip(" \t:") in names:
        return []
    lists = {slot.name: slot.texts for slot in slots if not slot.has_numbers()}
    if not lists:
        return [filled(line, numbers) + end]
    lines = []
    for indices in itertools.product(*(range(len(texts)) for texts in lists.values())):
        index_of = dict(zip(lists, indices))
        texts = {slot: slot.text_of(index_of[slot.name]) for slot in slots if slot.name in lists}
        count = " && ".join(f"{name} == {index}" for name, index in index_of.items())
        lines += [f"FOR {count}{end}", filled(line, numbers | texts) + end, f"ROF{end}"]
    return lines


def author_lines(path, lines, names):
    """Returns the author's lines of a template, each with its slots, if any, and the names of the
    constants that have one. Their range lines are left out, and the line `ADAPTED`."""
    own, index = [], 0
    slots_at = {row: slots_of(line.removeprefix(KEPT), names)
                for row, line in enumerate(lines) if line.startswith(KEPT)}
    with_slot = {slot.name for slots in slots_at.values() for slot in slots}
    while index < len(lines):
        line, slots, index = lines[index], slots_at.get(index), index + 1
        if slots:
            line = line.removeprefix(KEPT)
            index = after_code(path, lines, index, with_slot, code_of_kept(line, names))
        if slots or not (is_range_of(line, with_slot) or line.rstrip("\r") == ADAPTED):
            own.append((line, slots))
    return own, with_slot


def is_range_of(line, names):
    return is_range_line(line.encode("latin-1")) and line.split()[1:2] and line.split()[1] in names


def after_code(path, lines, index, names, code):
    """Returns the index after `code`, made of the kept line before `index`. Refuses other lines."""
    number = index
    while index < len(lines) and is_range_of(lines[index], names):
        index += 1
    if lines[index:index + len(code)] != code:
        raise Fault(f"{path}, line {number}: what follows it is not what cwtune-vary wrote there")
    return index + len(code)
