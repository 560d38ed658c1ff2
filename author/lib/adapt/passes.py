"""Makes the changes that a reading of a text asks for, pass by pass."""
import collections, itertools, re

from ..pmars.text import is_head
from ..pmars.tokens import code_of, comment_sign, token_at, tokens_of
from ..traced import Traced, joined
from .changes import ONE_COPY, TOKENS, Change

HEAD_HERE = ";redcode"
# A text of more copies is refused by `cwtune`.
MOST_COPIES = 4096


def changed(line, changes):
    if any(change.new is None for change in changes):
        return []
    # From the end of the line. Of several at one place the last goes in first, so their texts keep
    # the order.
    for change in sorted(reversed(changes), key=Change.where, reverse=True):
        line = line.replaced(change.start, change.end, change.new)
    return line.lines()


def without_overlaps(changes):
    """Returns the changes that change no columns which an earlier one changes."""
    chosen = collections.defaultdict(list)
    for change in changes:
        if not any(change.overlaps(other) for other in chosen[change.index]):
            chosen[change.index].append(change)
    return [change for of_line in chosen.values() for change in of_line]


def comments_of_equs(lines, names, chosen):
    """Returns changes that make comments of the EQU lines whose names are all written out."""
    places, found = {change.where() for change in chosen}, {}
    for known, indices in names.equs.items():
        uses = names.uses[known]
        is_bad = any(TOKENS.fullmatch(line.text) is None for line in known.lines)
        if uses <= places and (uses or len(indices) > 1 or is_bad):
            found |= dict.fromkeys(indices)
    return [Change(index, 0, 0, Traced.new(comment_sign(lines[index].text)),
                   "this EQU is a comment now") for index in found]


def blanks(lines):
    places = [(index, match.span()) for index, line in enumerate(lines)
              for match in re.finditer("[\f\v]", code_of(line.text))]
    return [Change(index, *span, Traced.new(" "), "a form feed is a blank now")
            for index, span in places]


def changes_of_joins(changes, inverted):
    """Yields changes that join outer counters first. If the text has a name that such a join may
    make, as x0102 of x&i&j, the blocks are unrolled instead."""
    words = {token.text for line in changes.lines for token in tokens_of(code_of(line.text))}
    bases = {new.partition("&")[0] for found in inverted.values() for _, _, new in found}
    spelled = {word for word in words for base in bases
               if re.fullmatch(rf"{base}[0-9]{{4,}}", word)}
    for (index, start, end), found in inverted.items():
        if spelled:
            changes.to_unroll.append(index)
            continue
        new = found[0][2]
        yield Change(index, start, end, Traced.new(new), f"{new} has its outer counter first now")


def passed(finder):
    """Returns the lines with the changes that were found, and the notes, each with its line."""
    changes, lines, names = finder.changes, finder.changes.lines, finder.names
    asked = sorted(filter(changes.is_asked_for, changes.found.values()),
                   key=lambda change: change.note != ONE_COPY)
    chosen = without_overlaps([*asked, *changes_of_joins(changes, names.inverted)])
    chosen = without_overlaps([*chosen, *comments_of_equs(lines, names, chosen), *blanks(lines)])
    if not chosen:
        left = itertools.filterfalse(changes.is_asked_for, changes.found.values())
        indices = [*changes.to_unroll, *(change.index for change in left)]
        return unrolled_pass(lines, finder.blocks, indices)
    of_line = collections.defaultdict(list)
    for change in chosen:
        of_line[change.index].append(change)
    new_lines = [new for index, line in enumerate(lines) for new in changed(line, of_line[index])]
    return new_lines, [(lines[change.index].number(), change.note) for change in chosen]


def unrolled_pass(lines, finder, indices):
    """Returns the lines with one block unrolled around one of the indices, and a note of it."""
    blocks = [innermost(finder.found, finder.tails, index) for index in indices]
    block = max((block for block in blocks if block and max(block.counts) <= MOST_COPIES),
                key=lambda block: block.head, default=None)
    if block is None:
        return lines, []
    note = lines[block.head].number(), "the block is unrolled"
    return unrolled(lines, block, finder.tails[block.head]), [note]


def copy_of(line, counter, value, has_comment):
    """Returns a line of a copy of a block, in which the counter has a value."""
    code = code_of(line.text)
    made, at, before = Traced.new(""), 0, ""
    for token in tokens_of(code):
        if token.text == counter and before != ".":
            is_joined = before == "&" and code[token.start - 1:token.start] == "&"
            made = made + line[at:token.start - is_joined]
            made = made + (f"{value:02}" if is_joined else str(value))
            at = token.end
        before = token.text
    return made + line[at:None if has_comment else len(code)]


def unrolled(lines, block, tail):
    """Returns lines with the copies of a block in its place. The first copy keeps comments."""
    copies, body = [], lines[block.head + 1:tail]
    for value in range(1, next(iter(block.counts)) + 1):
        copies += [copy_of(line, block.counter, value, value == 1) for line in body
                   if value == 1 or code_of(line.text).strip()]
    names = [lines[block.head][slice(*label.root)] for label in block.labels]
    labels = [joined(names, " ")] if names else []
    return [*lines[:block.head], *labels, *copies, *lines[tail + 1:]]


def innermost(blocks, tails, index):
    """Returns the innermost block around a line whose number of copies never differs, or None."""
    around = [block for head, block in blocks.items()
              if head <= index <= tails.get(head, -1) and len(block.counts) == 1]
    return max(around, key=lambda block: block.head, default=None)


def prepared(lines):
    """Returns the lines as pMARS divides them, `;redcode` where `cwtune` sees it, and notes."""
    notes = []
    for step in (cut, continued, with_heads):
        lines, more_notes = step(lines)
        notes += more_notes
    return lines, notes


def cut(lines):
    whole, notes = [], []
    for line in lines:
        end = line.text.partition("\r")[0]
        is_cut = line.text[len(end):].strip() != ""
        whole.append(line[:len(end)] if is_cut else line)
        notes += [(line.number(), "pMARS ends the line at its carriage return")] * is_cut
    return whole, notes


def continued(lines):
    whole, notes, goes_on = [], [], False
    for line in lines:
        if goes_on:
            whole[-1] = whole[-1] + line
            notes.append((line.number(), "the line is joined to the one before"))
        else:
            whole.append(line)
        text = whole[-1].text.removesuffix("\r")
        goes_on = text.endswith("\\")
        if goes_on:
            whole[-1] = whole[-1][:len(text) - 1]
    return whole, notes


def with_heads(lines):
    """Returns the lines with `;redcode` where both see it, END before a second, and notes."""
    lines, notes = list(lines), []
    heads = [index for index, line in enumerate(lines) if is_head(line.text)]
    before = heads[0] if heads else len(lines)
    for index, line in enumerate(lines[:before]):
        if line.text[:len(HEAD_HERE)].lower() == HEAD_HERE:
            lines[index] = line.replaced(1, 1, " ")
            notes.append((line.number(), "for pMARS this is not a ;redcode line"))
    if heads and lines[before].text[:1] != ";":
        lines[before] = lines[before][token_at(lines[before].text, 0).start:]
        notes.append((lines[before].number(), ";redcode begins the line now"))
    if len(heads) > 1 and any(token_at(line.text, 0).kind not in ("", "comment")
                              for line in lines[heads[1]:]):
        lines.insert(heads[1], Traced.new("        END"))
        notes.append((lines[heads[1] + 1].number(),
                      "a second ;redcode line ends the warrior, so END is before it"))
    return lines, notes
