"""Collects what has to be written otherwise in a text, while it is read as pMARS reads it.

A change puts a new text in place of some columns of a line. A line of a FOR block is read once for
each copy; a change that not all copies ask for is not made, and the block is unrolled instead.
"""
import collections, itertools, re
from typing import NamedTuple

from ..pmars.text import State
from ..pmars.tokens import NAME, OPCODES, P_SPACE_OPCODES, code_of, comment_sign, tokens_of
from ..pmars.values import (Registers, can_stay, extents_of, has_large_number, is_large,
                            is_other_here, written)
from ..traced import Traced, joined
from .counts import Curline

DEEPEST_BLOCK = 8
RESERVED = [*(word for word in OPCODES if word not in P_SPACE_OPCODES), "EQU", "FOR", "ROF"]
# What `cwtune` takes for tokens, and blanks. No token is given back, or words could be divided in
# more ways than can be tried.
TOKENS = re.compile(rf"(?:{NAME}|[0-9]+|[<>=!]=|&&|\|\||[.,#$@{{}}<>*()+\-/%:&!]|[ \t\r])*+")
HEAD_LABEL = re.compile(rf"[ \t\r]*({NAME})((?:[ \t\r]*&[ \t\r]*{NAME})*)[ \t\r]*:?")
ONE_COPY = "pMARS makes one copy of the block"
# The reading of changes that are made only in a line that is always dropped.
DROPPED = -1


class Change:
    """A new text in place of the columns from `start` to `end` of the line with an index, or None
    if the whole line goes. `readings` are the readings of the line that ask for it; without any it
    is made in any case."""

    def __init__(self, index, start, end, new, note):
        self.index, self.start, self.end, self.new, self.note = index, start, end, new, note
        self.readings = set()

    def where(self):
        return self.index, self.start, self.end

    def overlaps(self, other):
        """Returns whether two changes change the same columns. One place may get several texts."""
        if self.index != other.index:
            return False
        is_same = self.where() == other.where() and self.start < self.end
        return is_same or self.start < other.end and other.start < self.end


class At(NamedTuple):
    """Where a change is: the index of a line, and the reading that asks for it, if only one does.
    A `PmarsText`, a `Label` and a `Code` have both, too."""

    index: int
    reading: int | None = None


class Changes:
    """The changes of the lines of a text, each a `Traced`. `found` has them by their columns and
    new texts, `to_unroll` the indices of lines whose block has to be unrolled, and `read_counts`
    how often each line was read."""

    def __init__(self, lines):
        self.lines, self.found, self.to_unroll = lines, {}, []
        self.read_counts = collections.Counter()

    def is_asked_for(self, change):
        """Returns whether all readings of the line ask for a change."""
        if DROPPED in change.readings:
            return change.index not in self.read_counts
        return not change.readings or len(change.readings) == self.read_counts[change.index]

    def add(self, at, root, new, note):
        """Adds a change of the columns `root`. `at` has an index and a reading."""
        new = Traced.new(new) if isinstance(new, str) else new
        change = self.found.setdefault((at.index, *root, new and new.text),
                                       Change(at.index, *root, new, note))
        if at.reading is not None:
            change.readings.add(at.reading)

    def word(self, index, root):
        return self.lines[index].text[slice(*root)]

    def take_out(self, at, root, note):
        """Takes out a label, and the line if nothing else is on it."""
        line, (start, end) = self.lines[at.index], root
        end += line.text[end:end + 1] == ":"
        if (line.text[:start] + line.text[end:]).strip():
            self.add(at, (start, end), "", note)
        else:
            self.add(at, (0, len(line)), None, note)

    def beside(self, text, label, column, note):
        """Writes a label of a line before at a column of the line that is read."""
        if label.index != text.index:
            self.take_out(label, label.root, note)
            self.add(text, (column, column), f"{label.name} ", note)

    def comment_from(self, at, start, note):
        """Makes a comment of a line from a column on."""
        self.add(at, (start, start), comment_sign(self.lines[at.index].text[start:]), note)

    def text_of(self, *equ_lines):
        parts = [self.lines[line.index][line.column:line.column + len(line.text)].strip()
                 for line in equ_lines]
        return joined(parts, "\n        ")

    def write_out(self, at, root, known, new=None):
        if not known.is_given:
            self.add(at, root, self.text_of(*known.lines) if new is None else new,
                     f"{self.word(at.index, root)} is written out")


class FoundBlock(NamedTuple):
    """A FOR block of the text, and the numbers of copies that it was found to have."""

    head: int
    counter: str
    labels: list
    counts: set


class NameFinder:
    """Finds labels and EQU names. `equs` has the indices of the lines of an EQU, and `uses` where
    it is used. `inverted` has names whose counters come in another order here, and `unknown` words
    that no other text can say."""

    def __init__(self, changes):
        self.changes, self.equs, self.uses = changes, {}, collections.defaultdict(set)
        self.inverted, self.unknown = {}, []

    def cannot(self, text, word):
        if (text.index, word) not in self.unknown:
            self.unknown.append((text.index, word))

    def is_unknown(self, index):
        """Returns whether a line has what no other text can say."""
        return any(unknown == index for unknown, _ in self.unknown)

    def opcode(self, text, word, root):
        """Looks at an opcode: those of P-space are not known here. PIN alone does nothing."""
        if word == "PIN":
            self.changes.comment_from(text, root[0], "PIN is a comment now, as there is no P-space")
        elif word in P_SPACE_OPCODES:
            self.cannot(text, word)

    def given_name(self, text, source, root, name):
        if name == "ROUNDS":
            self.cannot(text, name)
        elif name == "PSPACESIZE" and source.root:
            self.changes.write_out(text, root, source.equ)
        elif name == "PSPACESIZE":
            value = text.names[name].lines[0].text
            self.changes.add(text, root, value, f"{name} is {value} here")

    def repeated_label(self, text, root):
        """Makes a comment of a line with a known label, or takes out that of a copied line."""
        lines, line = self.changes.lines, self.changes.lines[text.index]
        is_copy = any(other.number() == line.number() for other in lines[:text.index])
        note = f"{self.changes.word(text.index, root)} is a label already, so pMARS leaves this out"
        if is_copy:
            self.changes.add(text, (0, len(line)), None, note)
        else:
            self.changes.comment_from(text, root[0], note)

    def label_again(self, text, source, root):
        """Takes out a label that is pending already."""
        if not source.root:
            word = self.changes.word(text.index, root)
            self.changes.take_out(text, root, f"{word} is a label of this already")

    def equ(self, text, known, labels):
        """Looks at an EQU, whose name may be on a line before. Each further name gets its own."""
        if text.inside:
            return
        self.equs[known] = [line.index for line in known.lines]
        if text.blocks:
            self.changes.to_unroll.append(text.index)
        *others, last = labels
        for label in others:
            self.own_equ(text, known, label)
        self.changes.beside(text, last, known.lines[0].column - len("EQU"),
                            f"the name {last.name} is on the line of its EQU now")

    def own_equ(self, text, known, label):
        note = f"{label.name} has an EQU of its own"
        self.changes.take_out(label, label.root, note)
        if len(known.lines) == 1:
            end = len(self.changes.lines[text.index])
            new = f"\n{label.name} EQU " + self.changes.text_of(*known.lines)
            self.changes.add(text, (end, end), new, note)

    def stray_equ(self, text):
        self.changes.comment_from(text, 0, "an EQU without a name is a comment now")

    def equ_use(self, text, source, use):
        """Looks at the use of an EQU, which is a label for `cwtune` if it begins an instruction."""
        outer = source.equ or use.known
        self.uses[use.known].add((text.index, *use.root) if outer is use.known else None)
        if use.state <= State.LABELS or len(use.known.lines) > 1:
            self.changes.write_out(text, use.root, outer)

    def late_use(self, code, root, name, known):
        """Looks at the use of an EQU that comes later. Of several lines pMARS takes the first."""
        is_alone = self.changes.word(code.index, root) == name
        self.uses[known].add((code.index, *root) if is_alone else None)
        if len(known.lines) > 1:
            self.changes.write_out(code, root, known, self.changes.text_of(known.lines[0]))

    def counter_in_equ(self, text, source):
        self.changes.write_out(text, source.root, source.equ)

    def join(self, text, source, root, name, counters):
        """Looks at a name with counters, of which the outer ones have to come first here."""
        if source.root:
            self.changes.write_out(text, source.root, source.equ)
            return
        order = [block.counter.name for block in text.blocks if block.counter]
        sorted_counters = sorted(counters, key=order.index)
        if sorted_counters != counters:
            base = self.changes.word(text.index, root).partition("&")[0]
            self.inverted.setdefault((text.index, *root), []).append(
                (text.reading, name, "&".join([base, *sorted_counters])))

    def write_out_root(self, at, root):
        """Writes out the EQU that is used at a root."""
        for known in self.equs:
            if (at.index, *root) in self.uses[known]:
                self.changes.write_out(at, root, known)
                return
        self.unknown.append((at.index, self.changes.word(at.index, root)))


class BlockFinder:
    """Finds FOR blocks: `found` by the indices of their heads, and `tails`, where each ends."""

    def __init__(self, changes, names, curline):
        self.changes, self.names, self.curline = changes, names, curline
        self.found, self.tails = {}, {}

    def counter(self, text, label):
        """Looks at the counter of a block, which may be on a line before."""
        if not text.inside:
            self.changes.beside(text, label, 0,
                                f"the counter {label.name} is on the line of its FOR now")

    def begins(self, text, block):
        if text.inside:
            return
        head = head_of(text, block)
        found = FoundBlock(head, block.counter.name if block.counter else "",
                           [label for label in block.labels if label.index == head], set())
        self.found.setdefault(head, found).counts.add(block.count)
        self.curline.begins(text)
        if len(text.blocks) > DEEPEST_BLOCK:
            self.changes.to_unroll.append(head)

    def ends(self, text, block):
        if not text.inside:
            self.curline.ends(text, block)

    def drops(self, text):
        """Looks at a block without copies."""
        if not text.inside:
            words = (word_here(line.text) for line in text.lines[text.at + 1:])
            self.curline.drops(text, itertools.takewhile(lambda word: word != "ROF", words))

    def rof(self, text, source, token):
        """Looks at a ROF: labels before it go after it, and words after it into a comment. Refuses
        labels before the ROF of several copies: the next copy would have them."""
        if source.root:
            return
        if text.blocks:
            self.tails[head_of(text, text.blocks[-1])] = text.index
        start, end = source.root_of(token.start, token.end)
        labels = [label for label in text.labels if label.reading == text.reading]
        if source.text[token.end:].strip():
            self.changes.add(text, (end, end), " ;", "what is after ROF is a comment now")
        if labels and text.blocks and text.blocks[-1].count > 1:
            self.names.cannot(text, token.text)
        elif labels:
            column, line = labels[0].root[0], self.changes.lines[text.index]
            note = f"the label {labels[0].name} comes after ROF now"
            self.changes.add(text, (column, start), "", note)
            self.changes.add(text, (len(line), len(line)), "\n" + line[column:start].strip(), note)

    def missing_rof(self, text):
        """Ends at the end of the text the blocks that have no ROF."""
        if not text.inside:
            self.close(text.blocks, text, len(self.changes.lines) - 1, "")

    def end(self, text):
        """Ends before END the blocks in which it is."""
        if text.blocks and not text.inside:
            self.close(text.blocks, text, text.index, "before END")

    def close(self, blocks, text, index, where):
        """Writes a ROF for each of some blocks, of which pMARS makes one copy."""
        for block in blocks:
            head = head_of(text, block)
            if block.count > 1:
                code = code_of(self.changes.lines[head].text)
                word = next(token for token in tokens_of(code) if token.text.upper() == "FOR")
                self.changes.add(At(head), (word.end, len(code)), " 1 ", ONE_COPY)
            self.tails[head] = index
        rofs = "        ROF\n" * len(blocks)
        line = self.changes.lines[index]
        end, new = (0, rofs) if where or not line.text else (len(line), "\n" + rofs.rstrip("\n"))
        self.changes.add(At(index), (end, end), new, f"ROF is written {where}".rstrip())

    def text_ends(self, text):
        """Looks at what is open at the end of the text."""
        if text.dropping:
            index = len(self.changes.lines) - 1
            end = len(self.changes.lines[index])
            self.changes.add(At(index), (end, end), "\n        ROF" * text.dropping,
                             "ROF is written")

    def dropped(self, line, depth):
        """Looks at a line of a dropped block. `depth` is 1 if a block begins, -1 if one ends."""
        is_bad = TOKENS.fullmatch(line.text) is None or has_large_number(line.text)
        word = next((token for token in tokens_of(line.text)
                     if token.text.upper() == ("FOR" if depth > 0 else "ROF")), None)
        note = "prose in a block without copies is a comment now"
        if depth == 0:
            if is_bad or word_here(line.text) in ("FOR", "ROF", "END"):
                self.changes.comment_from(At(line.index, DROPPED), 0, note)
        elif depth > 0 and is_bad:
            end = line.column + word.end
            self.changes.add(At(line.index, DROPPED), (end, end), " ;", note)
        elif depth < 0:
            self.only_rof(line, word, line.text[:word.start].strip())

    def only_rof(self, line, rof, before):
        """Leaves ROF alone on a line of a dropped block, with all other words in a comment."""
        at, start, end = At(line.index, DROPPED), line.column + rof.start, line.column + rof.end
        if before:
            self.changes.add(at, (line.column, start), "", "what is before ROF is a comment now")
        if before or line.text[rof.end:].strip():
            self.changes.add(at, (end, end), f" ; {before}".rstrip(),
                             "what is after ROF is a comment now")


class ValueFinder:
    """Finds expressions: counts, assertions and operands. `numbers` are those that were read."""

    def __init__(self, changes, names, curline, core):
        self.changes, self.names, self.curline, self.core = changes, names, curline, core
        self.numbers = []

    def begins(self):
        """Forgets the numbers that were read before a count or an assertion."""
        self.numbers = []

    def number(self, source, root, what, value):
        self.numbers.append((source, root, what, value))

    def after_code(self, text, root, difference):
        """Looks at a label or CURLINE after an EQU for the opcode. By then pMARS has counted the
        instruction, so it takes the number that the next one would have."""
        new = f"({self.changes.word(text.index, root)}{difference})"
        self.changes.add(text, root, new, f"after an EQU for an opcode this is {new}")

    def write_numbers(self, text, chars, numbers):
        """Writes labels and CURLINE as numbers."""
        for source, root, what, value in numbers:
            word = self.changes.word(text.index, root)
            new, note = str(value) if value >= 0 else f"({value})", f"{word} is {value} here"
            if source.root:
                spelled = (char for char, its in zip(chars.text, chars.roots) if its == root)
                new, note = "".join(spelled).strip(), f"{word} is written out"
            elif what == "CURLINE" and not text.blocks:
                new = self.curline.written((text.index, *root), value)
            self.changes.add(text, root, new, note)

    def count(self, text, chars, node, registers):
        """Looks at the count of a block, in which no name of an instruction has a value here."""
        if not text.inside:
            self.write_numbers(text, chars, self.numbers)
            self.expression(text, chars, node, registers)

    def assertion(self, text, chars, node, registers):
        """Looks at an assertion that holds. CURLINE has the same value here."""
        labels = [number for number in self.numbers if number[2] == "label"]
        self.write_numbers(text, chars, labels)
        self.expression(text, chars, node, registers)

    def assertion_without_value(self, text):
        self.changes.comment_from(text, 0, "the assertion has no value, and is a comment now")

    def expression(self, at, chars, node, registers, others=frozenset()):
        """Writes an expression otherwise if it has to be. `others` are the roots beside it."""
        extents = extents_of(chars)
        if not is_other_here(chars.text, node, extents):
            return
        shared = [root for root in extents if root in others]
        if shared:
            self.names.write_out_root(at, shared[0])
            return
        registers = Registers(registers)
        text = written(node, lambda part: self.leaf_text(at.index, chars, part, extents, registers))
        root = whole_root(extents)
        word = self.changes.word(at.index, root).strip()
        self.changes.add(at, root, text, f"{word} is written as {text}")

    def leaf_text(self, index, chars, node, extents, registers):
        """Returns the text of a part of an expression that has a name or is a number, or None."""
        root = chars.roots[node.start]
        if extents.get(root) == (node.start, node.end):
            text = self.changes.word(index, root)
            if can_stay(chars.text[node.start:node.end]):
                return text
        if node.kind in ("register", "set"):
            value = registers.leaf_value(chars.text, node)
            return str(value) if value >= 0 else f"({value})"
        if node.kind == "number":
            text = chars.text[node.start:node.end]
            return str(int(text) % self.core) if is_large(text) else text
        return None


class CodeFinder:
    """Finds what is missing in instructions, while the load file is made."""

    def __init__(self, changes, names, values):
        self.changes, self.names, self.values = changes, names, values

    def operand(self, instruction, operand, node, registers):
        other = instruction.a if operand is instruction.b else instruction.b
        others = instruction.head_roots | other.roots() | {operand.mode_root}
        self.values.expression(instruction.code, operand.chars, node, registers, others)

    def lone_operand(self, instruction):
        code, start = instruction.code, min(instruction.a.roots())
        if start in instruction.head_roots:
            self.names.write_out_root(code, start)
        else:
            self.changes.add(code, (start[0], start[0]), "#0, ",
                             "the A-operand of this DAT is #0 for pMARS")

    def instruction(self, instruction):
        """Writes 0 after a mode without a number."""
        pair = instruction.a, instruction.b
        for operand, other in (pair, pair[::-1]):
            if operand.mode_root and not operand.chars.text.strip():
                self.empty_operand(instruction, operand, instruction.head_roots | other.roots())

    def empty_operand(self, instruction, operand, others):
        """Writes 0 after the mode of an operand. `others` are the roots of what is beside it."""
        code, end = instruction.code, operand.mode_root[1]
        if operand.mode_root in others:
            self.names.write_out_root(code, operand.mode_root)
            return
        is_sign = self.changes.word(code.index, operand.mode_root) == operand.mode
        self.changes.add(code, (end, end), "0" if is_sign else " 0",
                         f"{operand.mode} without a number is {operand.mode}0")

    def org(self, instruction):
        if not instruction.b.chars.text.strip():
            end = instruction.root[1]
            self.changes.add(instruction.code, (end, end), " 0", "ORG without an operand is ORG 0")

    def end_over_org(self, instructions):
        for instruction in instructions:
            self.changes.comment_from(instruction.code, instruction.root[0],
                                      "for pMARS the start is that of END")

    def start_outside(self, instruction):
        self.names.cannot(instruction.code, instruction.opcode)


class Finder:
    """What is found in the lines of a text, each a `Traced`, while pMARS's reading goes on."""

    def __init__(self, lines, rules):
        curline = Curline(lines, rules)
        self.changes = Changes(lines)
        self.names = NameFinder(self.changes)
        self.blocks = BlockFinder(self.changes, self.names, curline)
        self.values = ValueFinder(self.changes, self.names, curline, rules.core)
        self.code = CodeFinder(self.changes, self.names, self.values)


def head_of(text, block):
    return text.lines[block.head].index


def whole_root(roots):
    """Returns the columns from the first of some roots to the last."""
    return min(root[0] for root in roots), max(root[1] for root in roots)


def word_here(text):
    """Returns the word that follows the labels of a line, as `cwtune` reads it."""
    at = 0
    while match := HEAD_LABEL.match(text, at):
        if match[1].upper() in RESERVED:
            return match[1].upper()
        at = match.end()
    return ""
