"""Puts the values of a setting into the text that `cwtune-adapt` made the author's text of.

The template was made of the adapted text, which knows of each character where it is in the author's
text.
"""
import re

from . import slots
from .adapt import adapt, read_text
from .endings import Fault
from .grid import is_range_line
from .places import origin_of
from .program import rules_of


def original_lines(args, template, setting):
    """Returns the lines of the text of --original, with the values of a setting where the adapted
    text has them. Refuses a text of which the template was not made, or that lacks a place."""
    text = read_text(args.original)
    adapted = adapt(args.original, text, rules_of(args), args.program)
    lines, news = text.decode("latin-1").split("\n"), {}
    for origin, length, new in edits_of(args, template, setting, adapted):
        # Of one origin of several lines some may want parentheses.
        news[origin, length] = max(new, news.get((origin, length), ""), key=len)
    for (origin, length), new in sorted(news.items(), reverse=True):
        line = lines[origin.line - 1]
        lines[origin.line - 1] = line[:origin.column] + new + line[origin.column + length:]
    return lines


def edits_of(args, template, setting, adapted):
    """Yields the edits of the original: the `Origin`, how many characters go, and the new ones."""
    value_of, texts = template.values_by_name(setting), adapted.text.decode("latin-1").split("\n")
    lines = [line.decode("latin-1") for line in template.lines]
    own, _ = slots.author_lines(template.path, lines, value_of)
    if len(own) != len(texts):
        raise other_text(args)
    for number, ((kept, of_line), text) in enumerate(zip(own, texts), 1):
        if not of_line and not is_same_line(kept, text):
            raise other_text(args)
        for slot, (start, end) in spans(args, kept, of_line or (), text).items():
            new = slots.text_in(kept, slot, slot.text_of(value_of[slot.name]))
            if new == text[start:end]:
                continue
            origin = origin_of(adapted, number, start, end)
            if origin is None:
                raise Fault(f"{args.original} has no place for {slot.name}")
            yield origin, end - start, new


def is_same_line(kept, text):
    """Returns whether two lines are equal, or have a range of the same constant."""
    are_ranges = all(is_range_line(line.encode("latin-1")) for line in (kept, text))
    return kept == text or are_ranges and kept.split()[1:2] == text.split()[1:2]


def other_text(args):
    return Fault(f"{args.template} was not made of {args.original}, adapted", 2)


def spans(args, kept, of_line, text):
    """Returns which characters of the adapted line each slot of its kept line stands for."""
    pattern, at = "", 0
    for slot in of_line:
        pattern += re.escape(kept[at:slot.start]) + "(.*?)"
        at = slot.end
    match = re.fullmatch(pattern + re.escape(kept[at:]), text, re.DOTALL)
    if of_line and not match:
        raise other_text(args)
    return {slot: match.span(index) for index, slot in enumerate(of_line, 1)}
