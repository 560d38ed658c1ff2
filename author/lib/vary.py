"""Makes a template of an ordinary warrior: opens numbers, modes, modifiers and opcodes of the text.

So the author keeps one text, which pMARS reads, and makes every template from it. What is open is
named by its PLACE: STEP is the number of the line `STEP EQU 3045`; throw.b is the B-number of the
line with the label throw, and 12.b that of line 12; throw.b.2 is the second number of this operand,
and AIM.1 the first of an EQU line. throw.a-mode, throw.b-mode, throw.modifier and throw.opcode are
the others. VALUES are LOW:HIGH:STEP, or a list with commas.

What the text has there is START. All other lines stay as they are. Of an adapted text, lines are
those of WARRIOR. The template is printed only if its START is the warrior of the text. Without a
range what could be opened is listed.

Example: cwtune-vary my.red STEP=5:4000:10 'throw.a-mode=<,>,{' > my-template.red
"""
import itertools, math, re, sys
from typing import NamedTuple

from .adapt import Adapted, adapted_by, read_text
from .endings import Fault, note
from .grid import ADAPTED, KEPT, is_range_line
from .openings import Constant, constant_of, opening_from
from .places import FIELDS, OPEN_OPCODES, Span, Spot, lines_of, spot_of, spots_in
from .pmars.tokens import BLANKS, code_of
from .program import assemble_bytes, load_file_of, refuse_other_warrior, rules_of
from .slots import code_of_kept
from .tuning_files import MOST_CONSTANTS, MOST_SETTINGS
from .words import add_cwtune, add_shared, command_parser, counted

# What the list has for a field that is not written.
UNWRITTEN = {"a-mode": "$", "b-mode": "$", "modifier": "-"}


class Source(NamedTuple):
    """A text that is read, and the `Adapted` that it is of, None if it is the author's own."""

    text: str
    adapted: Adapted | None


class Opened(NamedTuple):
    """A place that is open, its constant, and whether the constant's range line follows."""

    spot: Spot
    constant: Constant
    has_range: bool


class Varied:
    """A text with openings: what is open in each line, and the notes on it."""

    def __init__(self, path, source, openings):
        self.source, self.opened, self.notes = source, [], []
        lines = lines_of(*source)
        for opening in openings:
            spot = spot_of(path, lines, opening.place)
            names = [opened.constant.name for opened in self.opened]
            constant, why = constant_of(spot, opening, "\n".join([source.text, *names]))
            twins = spot.twins(lines)
            for twin, other in itertools.product(twins, self.opened):
                if twin.overlaps(other.spot):
                    raise Fault(f"{path}, line {twin.line.number}: {other.spot.name} and "
                                f"{twin.name} are in one place", 2)
            self.opened += [Opened(twin, constant, twin is twins[0]) for twin in twins]
            self.notes += [why] * bool(why)
        self.constants = [opened.constant for opened in self.opened if opened.has_range]

    def template(self, starts_alone=False):
        """Returns the template. With `starts_alone` START is the only value of each constant."""
        lines = [new for row, line in enumerate(self.source.text.split("\n"), 1)
                 for new in self.lines_for(row, line, starts_alone)]
        return "\n".join(lines).encode("latin-1")

    def lines_for(self, row, line, starts_alone):
        here = sorted((opened for opened in self.opened if opened.spot.line.row == row),
                      key=lambda opened: (opened.spot.span, opened.spot.kind == "mode"),
                      reverse=True)  # where neither is written, the modifier is before the mode
        if not here:
            return [line]
        kept, range_lines = line, []
        for spot, constant, has_range in here:
            kept = kept[:spot.span.start] + constant.slot() + kept[spot.span.end:]
            values = range(constant.start, constant.start + 1) if starts_alone else constant.values
            if has_range:
                range_lines.insert(0, constant.range_line(values) + "\r" * line.endswith("\r"))
        names = [constant.name for constant in self.constants]
        is_first = row == min(opened.spot.line.row for opened in self.opened)
        mark = [ADAPTED + "\r" * line.endswith("\r")] if self.source.adapted and is_first else []
        return [*mark, KEPT + kept, *range_lines, *code_of_kept(kept, names)]


def uses_of(lines, equ):
    """Returns in how many places of the author's text other lines use the name of an EQU line."""
    use = re.compile(rf"(?<![A-Za-z0-9_]){equ.labels[-1]}(?![A-Za-z0-9_])")
    spans = [(line, Span(*match.span())) for line in lines if line is not equ
             for match in use.finditer(code_of(line.text))]
    return len({line.origin(span) or (line.row, span) for line, span in spans})


def spots_of(lines, fields):
    """Yields lines, each with the places in some of its fields that no line before it has."""
    seen = set()
    for line in lines:
        spots = {spot.source(): spot for field in fields if field in line.fields
                 for spot in spots_in(line, field)}
        yield line, [spot for source, spot in spots.items() if source not in seen]
        seen |= set(spots)


def heads_of_prose(lines):
    """Returns the rows of the FOR lines whose blocks are dropped and have no instruction."""
    heads = []
    for index, head in enumerate(lines):
        if head.word == "for" and head.spelled(head.fields["a"]) == "0":
            block = itertools.takewhile(lambda line: line.depth > head.depth, lines[index + 1:])
            if not any(line.word in OPEN_OPCODES for line in block):
                heads.append(head.row)
    return heads


def lines_of_numbers(lines):
    """Yields where each number is that can have a range, and the uses of an EQU line."""
    prose = heads_of_prose(lines)
    for line, spots in spots_of(lines, ["equ", "a", "b"]):
        is_hidden = line.row in prose or line.word == "equ" and line.depth
        for spot in () if is_hidden else spots:
            uses = (f", {counted(uses_of(lines, line), 'use')}" if line.word == "equ" else "")
            yield f"{spot.name}={spot.spelled()}: line {line.number}{uses}"


def lines_of_others(lines):
    """Yields for each instruction a line that says what else of it can be opened."""
    for line, spots in spots_of(lines, FIELDS[2:]):
        fields = [f"{spot.field}={spot.spelled().strip(BLANKS + '.') or UNWRITTEN[spot.field]}"
                  for spot in spots]
        if fields:
            label = line.labels[-1] if line.labels else line.number
            yield f"{label}: line {line.number}, {' '.join(fields)}"


def load_file_of_source(args, source):
    return load_file_of(args.warrior, assemble_bytes(
        args.program, source.text.encode("latin-1"), *rules_of(args).words()))


def make_parser():
    parser = command_parser(__doc__)
    add_cwtune(parser)
    add_shared(parser, "--as-is")
    parser.add_argument("warrior", metavar="WARRIOR", help="a Redcode text")
    parser.add_argument("ranges", metavar="PLACE=VALUES", nargs="*", type=opening_from, default=[],
                        help="a place of the text and its values: LOW:HIGH:STEP, which is LOW, LOW "
                        "+ STEP and so on, up to HIGH (without :STEP the step is 1), or a list as "
                        "3004,3044 or mov,spl")
    return parser


def source_of(parser, args):
    """Returns the `Source` of the warrior. Refuses a template, and ranges that none has."""
    names = [opening.place for opening in args.ranges]
    if twice := [name for index, name in enumerate(names) if name in names[:index]]:
        parser.error(f"{twice[0]} has two ranges")
    if len(names) > MOST_CONSTANTS:
        parser.error(f"a template has at most {MOST_CONSTANTS} constants")
    text = read_text(args.warrior)
    if any(map(is_range_line, text.split(b"\n"))):
        raise Fault(f"{args.warrior}: it has range lines, so it is a template already")
    adapted, said = adapted_by(args, args.warrior, text)
    if adapted:
        note(f"{args.warrior} is adapted to what cwtune reads, as by cwtune-adapt; places and "
             f"lines are those of {args.warrior}; {said}")
    return Source((adapted.text if adapted else text).decode("latin-1"), adapted)


def checked(args, source):
    """Returns a text with what is open in it. Refuses openings whose START is another warrior.
    START is made the only setting, since `cwtune` takes at most a million."""
    varied = Varied(args.warrior, source, args.ranges)
    load_file = load_file_of_source(args, source)
    refuse_other_warrior("with range lines", varied.template(True), load_file, args.program,
                         *rules_of(args).words(), "--setting=start")
    return varied


def main():
    parser = make_parser()
    args = parser.parse_args()
    source = source_of(parser, args)
    if not args.ranges:
        load_file_of_source(args, source)
        lines = lines_of(*source)
        for line in [*lines_of_numbers(lines), *lines_of_others(lines)]:
            print(line)
        return
    varied = checked(args, source)
    sys.stdout.buffer.write(varied.template())
    settings = math.prod(len(constant.values) for constant in varied.constants)
    excess = ": too many for `cwtune tune`; cwtune-study and cwtune-seek have them race"
    for text in [*varied.notes, counted(settings, "setting") + excess * (settings > MOST_SETTINGS)]:
        note(text)
