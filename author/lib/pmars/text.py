"""Reads a Redcode text as pMARS 0.9.2 does: labels, EQU, FOR and assertions, line by line.

The order of steps is that of its `asm.c`, since what pMARS makes of an unusual text depends on it.
Each character that comes out of a line keeps its root: the first and the last column of what stood
for it on the line, such as the name of an EQU. What `cwtune` reads otherwise is told to a `Finder`
as it is met.
"""
import enum
from typing import NamedTuple

from .tokens import BLANKS, LETTERS, OPCODES, PSEUDO_OPCODES, code_of, token_at, tokens_of
from .values import NoValue, ParserThere, Registers

# What pMARS takes at most: labels of one instruction, lines of code, bytes of a line.
MOST_LABELS, MOST_CODE, MOST_LINE_BYTES = 7, 1000, 255
# How many tokens are read at most, copies and all, so that the reading of any text ends.
MOST_TOKENS = 200000
# The copies of a block, and the warnings, at which pMARS gives up.
MOST_PMARS_COPIES, MOST_WARNINGS = 65535, 9


class PmarsFault(Exception):
    """Why pMARS refuses a text, or why it is not known what it would make of it. `index` is that of
    a line, or None."""

    def __init__(self, index, message):
        super().__init__(message)
        self.index = index


class TooMuch(Exception):
    """A text makes more than pMARS takes, or than is read here."""


class State(enum.IntEnum):
    """What was read of a line, in this order: up to LABELS no opcode. In VALUE and START a value
    goes on; START is of a pseudo-opcode."""

    WRONG, NOTHING, LABELS, VALUE, CODE, START, BLOCK, END_OF_BLOCK = range(-1, 7)


class Line(NamedTuple):
    """A line as pMARS keeps it: its index in the text, its first column, and no comment."""

    index: int
    column: int
    text: str


class Source(NamedTuple):
    """A text that is read: a line, or what an EQU name stands for. Of the latter `root` is where
    the name is on the line, and `equ` the outermost EQU."""

    text: str
    column: int = 0
    root: tuple | None = None
    equ: "Name | None" = None

    def root_of(self, start, end):
        return self.root or (self.column + start, self.column + end)


class Label(NamedTuple):
    """A label that belongs to what comes next: its name, and where it was read."""

    name: str
    index: int
    root: tuple
    reading: int


class Name:
    """What a name stands for: a `text` (an EQU), a `counter` or a `label`."""

    def __init__(self, kind, value=0, lines=(), is_given=False):
        self.kind, self.value, self.lines, self.is_given = kind, value, list(lines), is_given
        self.is_open = False


class Use(NamedTuple):
    """The use of a known name: where it is on the line, and what was read before it."""

    known: Name
    root: tuple
    state: State


class Chars:
    """A text that is made of sources, with the root of each character."""

    def __init__(self, text="", roots=()):
        self.text, self.roots = text, list(roots)

    def add(self, text, root):
        self.extend(text, [root] * len(text))

    def extend(self, text, roots):
        self.text += text
        self.roots += roots
        if len(self.text) > MOST_LINE_BYTES:
            raise TooMuch("a line is too long, once all names are replaced")

    def take(self):
        """Returns what is there, and begins anew."""
        taken = Chars(self.text, self.roots)
        self.text, self.roots = "", []
        return taken


class Block(NamedTuple):
    """A FOR block that is copied: where its head is, its counter or None, and other labels."""

    head: int
    counter: Label | None
    labels: list
    count: int


class Code(NamedTuple):
    """An instruction or pseudo-opcode as it came of a line: the line, its reading and its text."""

    index: int
    reading: int
    chars: Chars


class PmarsText:
    """A text as pMARS reads it. `code` has its instructions, `blocks` the open blocks that are
    copied; `dropping` counts the dropped ones. `at` is the index of the line that is read, and
    `reading` counts readings of lines. Without `gives_up` any number of warnings is taken."""

    def __init__(self, lines, rules, constants, finder, gives_up=True):
        self.lines, self.rules, self.finder, self.gives_up = lines, rules, finder, gives_up
        self.names = {name: Name("text", lines=[Source(str(value))], is_given=True)
                      for name, value in given_names(rules).items()}
        self.names |= {name: Name("text", lines=[Source(value)], is_given=True)
                       for name, value in constants.items()}
        self.registers, self.labels, self.blocks, self.code = Registers(), [], [], []
        self.dropping = self.address = self.at = self.reading = self.tokens = 0
        self.goes_on, self.index, self.inside, self.warnings = True, 0, None, set()

    def expand(self):
        while self.at < len(self.lines) and self.goes_on:
            made = Chars()
            state = self.read_line(made)
            if state == State.CODE:
                self.emit(made)
            elif state == State.END_OF_BLOCK:
                raise PmarsFault(self.index, "ROF without FOR")
            self.at += 1
        self.finder.blocks.text_ends(self)

    def read_line(self, made):
        """Reads the line that is next, of the text or of an EQU."""
        line = self.lines[self.at]
        if self.inside:
            return self.read(Source(line.text, 0, *self.inside), 0, made, State.NOTHING)
        self.index, self.reading = line.index, self.reading + 1
        before = self.dropping
        if not before:
            self.finder.changes.read_counts[line.index] += 1
        state = self.read(Source(line.text, line.column), 0, made, State.NOTHING)
        if before:
            self.finder.blocks.dropped(line, self.dropping - before)
        return state

    def warn(self, what):
        """Counts a warning of pMARS, which gives up after some of them."""
        self.warnings.add((self.index, what))
        if self.gives_up and len(self.warnings) == MOST_WARNINGS:
            raise PmarsFault(self.index, "too many warnings")

    def emit(self, made):
        if len(self.code) > MOST_CODE:
            raise PmarsFault(self.index, "too many instructions")
        self.code.append(Code(self.index, self.reading, made.take()))

    def read(self, source, at, made, state):
        """Reads a source from a column on. Returns the state at its end."""
        while True:
            token = token_at(source.text, at)
            self.count_token()
            step = self.step(source, token, made, state)
            if isinstance(step, State):
                return step
            at, state = step

    def count_token(self):
        self.tokens += 1
        if self.tokens > MOST_TOKENS:
            raise TooMuch("too many tokens, once all names are replaced")

    def step(self, source, token, made, state):
        """Reads a token, and returns where to go on in which state, or the state at the end."""
        if not token.kind:
            return state
        if token.kind == "comment":
            if state == State.NOTHING and not self.dropping:
                self.read_assertion(source, token, made)
            return state
        if token.kind == "name":
            return self.name_step(source, token, made, state)
        if self.dropping:
            return State.NOTHING
        if state <= State.LABELS:
            raise PmarsFault(self.index, f"{token.text} is not an instruction")
        made.add(token.text, source.root_of(token.start, token.end))
        return token.end, state

    def read_assertion(self, source, token, made):
        word = token_at(source.text, token.end)
        if word.text.upper() != "ASSERT":
            return
        self.finder.values.begins()
        self.read(source, word.end, made, State.VALUE)
        chars, before = made.take(), Registers(self.registers)
        try:
            node = ParserThere(chars.text).whole()
            value = self.registers.value(chars.text, node)
        except NoValue:
            self.warn("assertion")
            self.finder.values.assertion_without_value(self)
            return
        if value == 0 and not self.finder.names.is_unknown(self.index):
            raise PmarsFault(self.index, "the assertion is false")
        self.finder.values.assertion(self, chars, node, before)

    def name_step(self, source, token, made, state):
        word = token.text.upper()
        if self.dropping:
            return self.dropped_step(token, word)
        if token.text == "CURLINE":
            return self.curline_step(source, token, made, state)
        if word not in ("ROF", "FOR", "EQU", *OPCODES):
            return self.plain_step(source, token, made, state)
        if state > State.LABELS:
            raise PmarsFault(self.index, f"{token.text} is at a wrong place")
        if word in OPCODES:
            return self.read_code(source, token, made)
        if word == "ROF":
            self.finder.blocks.rof(self, source, token)
            return State.END_OF_BLOCK
        return (self.read_block if word == "FOR" else self.read_equ)(source, token.end, made)

    def dropped_step(self, token, word):
        if word in ("FOR", "ROF"):
            self.dropping += 1 if word == "FOR" else -1
            return State.WRONG
        if token.text == "CURLINE" or word == "EQU" or word in OPCODES:
            return State.NOTHING
        return token.end, State.NOTHING

    def curline_step(self, source, token, made, state):
        if state <= State.LABELS:
            raise PmarsFault(self.index, "CURLINE is not a label")
        root = source.root_of(token.start, token.end)
        self.finder.values.number(source, root, "CURLINE", self.address)
        if state == State.CODE and not source.root:
            self.finder.values.after_code(self, root, "+1")
        made.add(f"{self.address}{blank_at(source.text, token.end)}", root)
        return token.end, state

    def read_code(self, source, token, made):
        """Reads an instruction. What follows its opcode without a blank is not looked at yet."""
        word, end = token.text.upper(), token.end
        made.add(word, source.root_of(token.start, token.end))
        for part in tokens_of(source.text, token.end):
            if part.start != end:
                break
            made.add(part.text, source.root_of(part.start, part.end))
            end = part.end
        made.add(blank_at(source.text, end), None)
        self.finder.names.opcode(self, word, source.root_of(token.start, token.end))
        state = State.START if word in PSEUDO_OPCODES else State.VALUE
        if self.read(source, end, made, state) == State.WRONG:
            return State.WRONG
        self.define(self.take_labels())
        self.address += word not in PSEUDO_OPCODES
        if word == "END":
            self.finder.blocks.end(self)
            self.goes_on = False
        return State.CODE

    def take_labels(self):
        taken, self.labels = self.labels, []
        return taken

    def define(self, labels):
        for label in labels:
            self.names[label.name] = Name("label", self.address)

    def plain_step(self, source, token, made, state):
        """Reads a name that is no word of the language, with the counters that are joined to it."""
        name, at, counters = self.joined(source, token)
        root = source.root_of(token.start, at)
        known = self.names.get(name)
        if known and known.is_given:
            self.finder.names.given_name(self, source, root, name)
        if counters:
            self.finder.names.join(self, source, root, name, counters)
        if known and known.kind == "text":
            return self.read_equ_use(source, at, made, Use(known, root, state))
        if known and state > State.LABELS:
            return self.number_step(source, at, made, Use(known, root, state))
        if known:
            self.warn("label")
            self.finder.names.repeated_label(self, root)
            return State.WRONG
        if state > State.LABELS:
            made.add(f"{name}{blank_at(source.text, at)}", root)
            return at, state
        if len(self.labels) == MOST_LABELS:
            raise PmarsFault(self.index, "too many labels")
        if any(label.name == name for label in self.labels):
            self.finder.names.label_again(self, source, root)
        self.labels.append(Label(name, self.index, root, self.reading))
        return at + (source.text[at:at + 1] == ":"), State.LABELS

    def joined(self, source, token):
        """Returns a name with the counters that `&` joins to it, where it ends, and these."""
        name, at, counters = token.text, token.end, []
        while source.text[at:at + 1] == "&" and source.text[at + 1:at + 2] in LETTERS:
            counter = token_at(source.text, at + 1)
            known = self.names.get(counter.text)
            if not known or known.kind != "counter":
                raise PmarsFault(self.index, f"{counter.text} is not a counter")
            name, at = f"{name}{known.value:02}", counter.end
            counters.append(counter.text)
        return name, at, counters

    def number_step(self, source, at, made, use):
        if use.known.kind == "counter":
            text = f"{use.known.value:02}"
            if source.root:
                self.finder.names.counter_in_equ(self, source)
        else:
            text = str(use.known.value - (0 if use.state == State.START else self.address))
            self.finder.values.number(source, use.root, "label", int(text))
            if use.state == State.CODE and not source.root:
                self.finder.values.after_code(self, use.root, "-1")
        made.add(f"{text}{blank_at(source.text, at)}", use.root)
        return at, use.state

    def read_equ_use(self, source, at, made, use):
        known, root, state = use
        if known.is_open:
            raise PmarsFault(self.index, "an EQU that names itself")
        self.finder.names.equ_use(self, source, use)
        outside = self.lines, self.at, self.inside
        self.lines, self.at, self.inside = known.lines, 0, (root, source.equ or known)
        known.is_open = True
        state = self.read(Source(known.lines[0].text, 0, *self.inside), 0, made, state)
        state = self.read_more_lines(made, state)
        known.is_open = False
        self.lines, self.at, self.inside = outside
        made.add(blank_at(source.text, at), root)
        return at, state

    def read_more_lines(self, made, state):
        """Reads the lines of an EQU that are left. What was read before is a line of its own."""
        while self.at + 1 < len(self.lines) and self.goes_on:
            if state == State.CODE and not self.dropping:
                self.emit(made)
            made.take()
            self.at += 1
            state = self.read_line(made)
        return state

    def read_equ(self, source, at, _):
        """Reads an EQU, with the lines after it that begin with EQU."""
        labels, lines = self.take_labels(), [Line(self.index, source.column + at, source.text[at:])]
        if not labels:
            self.warn("EQU")
            self.finder.names.stray_equ(self)
            return State.VALUE
        while self.at + 1 < len(self.lines):
            line = self.lines[self.at + 1]
            token = token_at(line.text, 0)
            if token.text.upper() != "EQU":
                break
            self.at += 1
            lines.append(Line(line.index, line.column + token.end, line.text[token.end:]))
        known = Name("text", lines=lines)
        self.names |= {label.name: known for label in labels}
        self.finder.names.equ(self, known, labels)
        return State.VALUE

    def read_block(self, source, at, made):
        labels, counter = self.take_labels(), None
        if labels:
            *labels, counter = labels
            self.finder.blocks.counter(self, counter)
            self.define(labels)
        self.finder.values.begins()
        made.take()
        self.read(source, at, made, State.VALUE)
        chars, before = made.take(), Registers(self.registers)
        try:
            node = ParserThere(chars.text).whole()
            count = self.registers.value(chars.text, node)
        except NoValue as fault:
            raise PmarsFault(self.index, f"the count has no value: {fault}") from None
        self.finder.values.count(self, chars, node, before)
        if count > MOST_PMARS_COPIES:
            raise PmarsFault(self.index, "too many copies")
        if count <= 0:
            self.finder.blocks.drops(self)
            self.dropping += 1
        else:
            self.read_copies(Block(self.at, counter, labels, count), made)
        return State.BLOCK

    def read_copies(self, block, made):
        self.blocks.append(block)
        self.finder.blocks.begins(self, block)
        known, name = Name("counter"), block.counter and block.counter.name
        if name:
            self.names[name] = known
        for value in range(1, block.count + 1):
            known.value, self.at = value, block.head
            self.read_copy(made)
            if not self.goes_on:
                break
        self.names.pop(name, None)
        self.finder.blocks.ends(self, self.blocks.pop())

    def read_copy(self, made):
        while self.goes_on:
            if self.at + 1 == len(self.lines):
                self.finder.blocks.missing_rof(self)
                self.goes_on = False
                return
            self.at += 1
            made.take()
            state = self.read_line(made)
            if state == State.END_OF_BLOCK:
                return
            if state == State.CODE:
                self.emit(made)


def given_names(rules):
    """Returns the values of the names that pMARS has from the start. A fight has two warriors."""
    return {"CORESIZE": rules.core, "MAXPROCESSES": rules.tasks, "MAXCYCLES": rules.cycles,
            "MAXLENGTH": rules.length, "MINDISTANCE": rules.distance, "VERSION": 92, "WARRIORS": 2,
            "ROUNDS": 1, "PSPACESIZE": next(rules.core // part for part in range(16, 0, -1)
                                            if rules.core % part == 0)}


def blank_at(text, at):
    return " " if text[at:at + 1] and text[at:at + 1] in BLANKS else ""


def lines_of(texts):
    """Returns the lines that pMARS keeps, from `;redcode` to a second, without comments."""
    kept = []
    heads = [index for index, text in enumerate(texts) if is_head(text)]
    first = heads[0] + 1 if heads else 0
    last = heads[1] if len(heads) > 1 else len(texts)
    for index in range(first, last):
        text = texts[index].partition("\r")[0]
        kept += [Line(index, column, part)
                 for column in range(0, len(text), MOST_LINE_BYTES)
                 if (part := kept_of(text[column:column + MOST_LINE_BYTES]))]
    return kept


def kept_of(text):
    """Returns what pMARS keeps of a line: its code, or an assertion, without a comment."""
    first = token_at(text, 0)
    if first.kind == "comment":
        word = token_at(text, first.end)
        is_kept = word.text.upper() == "ASSERT"
        return text[:word.end] + code_of(text[word.end:]) if is_kept else ""
    return code_of(text) if first.kind else ""


def is_head(text):
    """Returns whether a line is a `;redcode` line for pMARS, where blanks may come before it."""
    first = token_at(text, 0)
    word = token_at(text, first.end)
    return first.kind == "comment" and word.start == first.end and word.text.upper() == "REDCODE"
