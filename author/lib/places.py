"""Finds in a Redcode text what can be opened: numbers, modes, modifiers and opcodes.

A *place* is written NAME or NAME.N for the text of an EQU line, and LINE.FIELD or LINE.FIELD.N for
another line. LINE is a label or the number of a line; FIELD is a, b, a-mode, b-mode, modifier or
opcode; N is which number of the text or of the field is meant, from 1.

Of an adapted text, places and numbers of lines are those of the author's own text. Text that
`cwtune-adapt` wrote cannot be opened. Copies of one place are opened as one.
"""
import difflib, re
from typing import NamedTuple

from .adapt import Adapted
from .endings import Fault, shown
from .pmars import tokens
from .pmars.tokens import MODES, NAME, code_of
from .traced import Origin
from .words import counted

OPEN_OPCODES = [word.lower() for word in tokens.OPCODES
                if word not in tokens.P_SPACE_OPCODES + tokens.PSEUDO_OPCODES]
OPEN_MODIFIERS = [word.lower() for word in tokens.MODIFIERS]
FIELDS = ["a", "b", "a-mode", "b-mode", "modifier", "opcode"]
PLACE = (rf"({NAME}|[1-9][0-9]{{0,4}})(?:\.({'|'.join(sorted(FIELDS, reverse=True))}))?"
         r"(?:\.([1-9][0-9]{0,3}))?")
# Labels, and the opcode or the directive.
HEAD = re.compile(rf"\s*((?:{NAME}(?:\s*&\s*{NAME})*(?:\s*:\s*|\s+))*?)"
                  rf"({'|'.join(OPEN_OPCODES)}|org|end|equ|for|rof)(?![A-Za-z0-9_&])", re.I)
LONE_LABELS = re.compile(rf"\s*((?:{NAME}(?:\s*:\s*|\s+))+)")
MODIFIER = re.compile(rf"\s*\.\s*({'|'.join(OPEN_MODIFIERS)})(?![A-Za-z0-9_])", re.I)
OPERAND = re.compile(rf"\s*([{re.escape(MODES)}]?)\s*(.*?)\s*", re.S)
PLAIN = re.compile(r"\+?(-?[0-9]+)|\(\s*\+?(-?[0-9]+)\s*\)")
# A number in an expression. That in `step-(-2)` is negative.
NUMBER = re.compile(r"(?<=\()-[0-9]+(?=\))|(?<![A-Za-z0-9_])[0-9]+(?![A-Za-z0-9_])")
FIRST_NAME = re.compile(rf"\s*({NAME})")
# More EQU names than `cwtune` replaces one after the other.
MOST_EQUS = 17


class Span(NamedTuple):
    """Which characters of a line a field has."""

    start: int
    end: int


class Line(NamedTuple):
    """A line that is assembled. `number` is that of the author's line, and `row` that of the line
    in the text that is read. `word` is its opcode or directive in small letters, and `fields` has a
    span for each field; that of an EQU line is `equ`. `hidden` says of other fields why they are no
    places. `depth` is how many blocks are open, and `is_dropped` whether one of them has no copies.
    `adapted` is the adapted text, or None, and `numbers` has the numbers of all lines."""

    number: int
    row: int
    text: str
    labels: list
    word: str
    fields: dict
    hidden: dict
    depth: int
    is_dropped: bool
    adapted: Adapted | None
    numbers: set

    def spelled(self, span):
        return self.text[span.start:span.end]

    def origin(self, span):
        """Returns where characters are in the author's text, or None if they are not there."""
        return (origin_of(self.adapted, self.row, *span) if self.adapted
                else Origin(self.row, span.start))

    def plain(self, field):
        """Returns the span of the number of a field that is a plain number, else None."""
        match = PLAIN.fullmatch(self.text, *self.fields[field])
        span = match and Span(*match.span(1 if match[1] else 2))
        return span if span and self.is_own(span) else None

    def decimals(self, field):
        spans = [Span(*match.span()) for match in NUMBER.finditer(self.text, *self.fields[field])]
        return [span for span in spans if self.is_own(span)]

    def is_own(self, span):
        """Returns whether characters are of this line of the author's text, or of one that has no
        places of its own; but the count of another block in a sum for CURLINE, which follows a
        parenthesis that `cwtune-adapt` wrote in a count, is not."""
        origin, before = self.origin(span), Span(span.start - 1, span.start)
        is_in_sum = self.word == "for" and self.spelled(before) == "(" and not self.origin(before)
        return origin and (origin.line == self.number
                           or origin.line not in self.numbers and not is_in_sum)


class Spot(NamedTuple):
    """A place that was found: its name as `cwtune-vary` lists it, and where it is."""

    name: str
    line: Line
    field: str
    kind: str
    span: Span

    def spelled(self):
        return self.line.spelled(self.span)

    def source(self):
        """Returns what kind of thing is there, where it is in the author's text, and its length."""
        return self.kind, self.line.origin(self.span), self.span.end - self.span.start

    def twins(self, lines):
        """Returns all that the adapted text has of this place."""
        _, origin, length = self.source()
        return [self._replace(line=line, field=field, span=Span(at, at + length))
                for line in lines for field, (start, end) in line.fields.items()
                if kind_of(field) == self.kind for at in range(start, end - length + 1)
                if line.origin(Span(at, at + length)) == origin]

    def overlaps(self, other):
        """Returns whether another place is the same one, or has some of its characters."""
        return (self.line.row == other.line.row and self.kind == other.kind
                and self.span.start <= other.span.end and other.span.start <= self.span.end)


def kind_of(field):
    return "number" if field in ("a", "b", "equ") else field.rpartition("-")[2]


def origin_of(adapted, row, start, end):
    """Returns where characters of the adapted text are in the original, or None. An empty span is
    where the character before it ends, or the next one begins."""
    before = adapted.span(row, start - 1, start) if start == end > 0 else None
    if before:
        return before._replace(column=before.column + 1)
    return adapted.span(row, start, max(end, start + 1))


def assembled_lines(text):
    """Returns numbers and texts of the lines from `;redcode`, if there is one, to END."""
    lines = list(enumerate(text.split("\n"), 1))
    heads = [number for number, line in lines if line[:8].lower() == ";redcode"]
    lines = lines[heads[0] if heads else 0:]
    ends = [index for index, (_, line) in enumerate(lines)
            if (head := HEAD.match(code_of(line))) and head[2].lower() == "end"]
    return lines[:ends[0] + 1] if ends else lines


def lines_of(text, adapted=None):
    """Returns the opcode and directive lines with their labels. `adapted` is None if the text is
    the author's own."""
    lines, waiting, blocks, numbers = [], [], [], set()
    zeros = zeros_in(text)
    for row, line in assembled_lines(text):
        code = code_of(line)
        head = HEAD.match(code) or LONE_LABELS.fullmatch(code + " ")
        if not head:
            continue
        names, word = names_in(head[1]), head[2].lower() if head.re is HEAD else ""
        if not word and "0" in dict(blocks):  # prose, whose words are no labels
            continue
        if word == "rof" and blocks:
            count, before = blocks.pop()
            waiting = before if count in zeros else waiting
        if word != "equ":  # the last name before FOR is the block's counter
            waiting = waiting + (names[:-1] if word == "for" else names)
        if word:
            labels = waiting if word in OPEN_OPCODES else names if word == "equ" else []
            lines.append(Line(number_of(adapted, row, head.start(2)), row, line, labels, word,
                              fields_of(code, head, word), {}, len(blocks),
                              not zeros.isdisjoint(dict(blocks)), adapted, numbers))
        if word == "for":
            blocks.append((code[head.end():].strip(), waiting))
        if word in OPEN_OPCODES or word == "for" and blocks[-1][0] in zeros:
            waiting = []
    # In place: each line has this set.
    numbers.update(line.number for line in lines)
    hide_fields(lines)
    return lines


def zeros_in(text):
    """Returns the counts of blocks without copies: 0, and each EQU name for it."""
    codes = [code_of(line) for _, line in assembled_lines(text)]
    equs = [(head[1], code[head.end():].strip()) for code in codes
            if (head := HEAD.match(code)) and head[2].lower() == "equ"]
    return {"0", *(name for labels, value in equs if value == "0" for name in names_in(labels))}


def number_of(adapted, row, column):
    """Returns the number of the author's line in which a word is, or begins; 0 if it is new."""
    if adapted is None:
        return row
    origins = adapted.lines[row - 1].origins
    return next((origin.line for origin in [*origins[column:], *origins] if origin), 0)


def hide_fields(lines):
    equs = {name: line for line in lines if line.word == "equ" and "equ" in line.fields
            for name in line.labels}
    for line in lines:
        for field, span in list(line.fields.items()):
            if kind_of(field) == "number":
                continue
            why = "is not in the text: cwtune-adapt wrote it" if not line.origin(span) else (
                mode_in_equ(line, field, equs))
            if why:
                line.hidden[field] = why
                del line.fields[field]


def mode_in_equ(line, field, equs):
    """Returns that an operand's mode is in an EQU line, or ''. `equs` has these by their names."""
    if kind_of(field) != "mode" or line.spelled(line.fields[field]):
        return ""
    text, equ = line.spelled(line.fields[field[0]]), None
    for _ in range(MOST_EQUS):
        name = FIRST_NAME.match(text)
        if not name or name[1] not in equs:
            break
        equ = equs[name[1]]
        text = equ.spelled(equ.fields["equ"]) + text[name.end():]
    return f"is in line {equ.number}, an EQU line" if equ and text[:1] in [*MODES, "."] else ""


def names_in(labels):
    """Returns labels as a list, without those that are joined with `&`."""
    return [name for name in re.sub(r"\s*&\s*", "&", labels).replace(":", " ").split()
            if "&" not in name]


def fields_of(code, head, word):
    rest = head.end()
    if word == "rof" or word == "equ" and not names_in(head[1]):
        return {}
    if word not in OPEN_OPCODES:
        end = len(code.rstrip())
        start = len(code) - len(code[rest:].lstrip())
        return {"equ" if word == "equ" else "a": Span(start, max(start, end))}
    fields = {"opcode": Span(*head.span(2))}
    modifier = MODIFIER.match(code, rest)
    rest = modifier.end() if modifier else rest
    fields["modifier"] = Span(head.end(), rest)
    operands = operands_of(code, rest)
    sides = ["b"] if word == "dat" and len(operands) == 1 else ["a", "b"]
    for side, (mode, number) in zip(sides, operands if len(operands) < 3 else ()):
        fields |= {side: number, f"{side}-mode": mode}
    return fields


def operands_of(code, rest):
    """Returns the spans of the mode and of the rest of each operand."""
    if not code[rest:].strip():
        return []
    operands = []
    for operand in code[rest:].split(","):
        match = OPERAND.fullmatch(code, rest, rest + len(operand))
        operands.append((Span(*match.span(1)), Span(*match.span(2))))
        rest += len(operand) + 1
    return operands


def spot_of(path, lines, place):
    """Returns what is at a place. Refuses one that is not there, or that has no plain number."""
    name, field, nth = re.fullmatch(PLACE, place).groups()
    line = line_of(path, lines, name, field)
    where = f"{path}, line {line.number}"
    if (field is None) != (line.word == "equ"):
        raise Fault(f"{where}: give {name} or {name}.1, as {name} is the name of an EQU line"
                    if line.word == "equ" else f"{where}: give a field too, as {name}.a")
    field = field or "equ"
    title = title_of(line, field)
    if field not in line.fields:
        raise Fault(f"{where}: {title} {line.hidden[field]}" if field in line.hidden else
                    f"{where}: {line.word.upper()} has no {field} here")
    if kind_of(field) != "number":
        return spots_in(line, field)[0]
    decimals = line.decimals(field)
    if nth and int(nth) > len(decimals):
        raise Fault(f"{where}: {title} has {counted(len(decimals), 'number')}, and no "
                    f"{title}.{nth}")
    span = decimals[int(nth) - 1] if nth else line.plain(field)
    if span is None:
        numbers = ", ".join(f"{spot.name}={spot.spelled()}" for spot in spots_in(line, field))
        text = line.spelled(line.fields[field])
        why = "is not written there" if PLAIN.fullmatch(text) else "is not a plain number"
        raise Fault(f"{where}: {shown(text) or 'nothing'} {why}, so {title} can have no range"
                    f"{'; it has ' * bool(numbers)}{numbers}")
    return Spot(f"{title}.{nth}" if nth else title, line, field, "number", span)


def spots_in(line, field):
    """Returns the places of a field: itself, its number, or the numbers in it."""
    title = title_of(line, field)
    if kind_of(field) != "number":
        return [Spot(title, line, field, kind_of(field), line.fields[field])]
    plain = line.plain(field)
    spans = {title: plain} if plain else {
        f"{title}.{nth}": span for nth, span in enumerate(line.decimals(field), 1)}
    return [Spot(name, line, field, "number", span) for name, span in spans.items()]


def title_of(line, field):
    label = line.labels[-1] if line.labels else line.number
    return str(label) if field == "equ" else f"{label}.{field}"


def line_of(path, lines, name, field):
    if name.isdecimal():
        found = [line for line in lines if line.number == int(name) and line.fields]
        if not found:
            raise Fault(f"{path}, line {name}: nothing there can be opened")
        return next((line for line in found if (field or "equ") in line.fields), found[0])
    equs = [line for line in lines if line.word == "equ" and not line.depth]
    instructions = [line for line in lines if line.word in OPEN_OPCODES]
    named = [line for line in equs + instructions if name in line.labels]
    if not named and (used := line_written_out(lines, name)):
        spots = [spot.name for side in ("a", "b") if side in used.fields and field in (None, side)
                 for spot in spots_in(used, side)] or [title_of(used, field or "a")]
        raise Fault(f"{path}: the EQU line {name} is opened where it is used, as "
                    f"{', '.join(spots)}")
    if not named:
        labels = [label for line in (instructions if field else equs) for label in line.labels]
        near = ([label for label in labels if label.lower() == name.lower()]
                or difflib.get_close_matches(name, labels, 1))
        what = f"label `{name}`" if field else f"line `{name} EQU number`"
        raise Fault(f"{path}: no {what}{f'; did you mean {near[0]}?' if near else ''}")
    return min(named, key=lambda line: line.is_dropped)


def line_written_out(lines, name):
    """Returns the first line with the text of an EQU line that became a comment, or None."""
    equ, texts = re.compile(rf"[; \t]*{name}\s*:?\s+(?i:equ)\b"), []
    if lines and lines[0].adapted:
        texts = lines[0].adapted.lines
    numbers = {text.number() for text in texts if text.text[:1] == ";" and equ.match(text.text)}
    return next((line for line in lines if numbers and any(
        origin and origin.line in numbers for origin in texts[line.row - 1].origins)), None)
