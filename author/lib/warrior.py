"""Prints a setting of a template as the author's own text, with its values in their places.

The setting is the best one of a certificate, or the one that --setting names: its index, or
`start`. In a template that `cwtune-vary` made each number, mode, modifier or opcode is written
where the author wrote it. A range line of one's own becomes an EQU line. Nothing else is changed,
except for one new line after the author's `;strategy` lines, which names the values, and replaces
that of an earlier tuning. So the text is ready for the next `cwtune-vary`. With --template the
template is printed, with the setting as its START.

The text is printed only if `cwtune asm` makes the same load file of it as of the setting.

Example: cwtune-warrior my.red my.cert > winner.red
"""
import argparse, itertools, re, sys

from . import cert_inputs, slots, tuning_files
from .adapt import adapt, adapted_if_refused, read_text, start_of
from .endings import Fault, note
from .grid import ADAPTED, is_range_line
from .openings import place_named
from .places import HEAD, assembled_lines, lines_of, spots_in
from .pmars.text import kept_of
from .pmars.tokens import code_of, tokens_of
from .program import assemble, load_file_of, refuse_other_warrior, rules_of
from .put_back import original_lines
from .slots import STRATEGY
from .words import FILE_HELP, add_cwtune, add_files, add_shared, command_parser
from .writing import temporary_file

# The line of STRATEGY follows the last line that begins with the first of these words, else with
# the second, and so on.
LINES_BEFORE = [";strategy", ";author", ";name", ";redcode"]
# pMARS 0.9.2 reads no longer lines.
MOST_LINE_BYTES = 255


def equ_line(name, value):
    """Returns an EQU line, with a negative value in parentheses, as a sign may come before it."""
    return f"{name} EQU {value}" if value >= 0 else f"{name} EQU ({value})"


def own_lines(template, setting):
    """Returns the author's lines with the values of a setting, and the slots that each had."""
    value_of = template.values_by_name(setting)
    lines = [line.decode("latin-1") for line in template.lines]
    lines, _ = slots.author_lines(template.path, lines, value_of)
    own = []
    for line, of_line in lines:
        texts = {slot: slot.text_of(value_of[slot.name]) for slot in of_line or ()}
        own.append((slots.filled(line, texts), of_line or []))
    return own


def places_of(template, setting):
    """Returns the place of each constant that has its name from `cwtune-vary`."""
    own, places = own_lines(template, setting), {}
    for line in lines_of("\n".join(line for line, _ in own)):
        spots = [spot for field in line.fields for spot in spots_in(line, field)]
        for slot, spot in itertools.product(own[line.row - 1][1], spots):
            if place := place_named(slot.name, spot.name):
                places.setdefault(slot.name, place)
    return places


def strategy_line(template, setting, totals):
    """Returns the line with the values, their total and START's, each None if not known."""
    (total, start_total), places = totals, places_of(template, setting)
    values = [f"{places.get(name, name)}={template.shown_value(name, value)}"
              for name, value in template.values_by_name(setting).items()]
    shown = f", total {total}" if total is not None else ""
    shown += f", total of START {start_total}" if start_total is not None else ""
    return f"{STRATEGY}{' '.join(values) or '-'}{shown}"


def text_of(template, setting, totals=(None, None)):
    return finished([line for line, _ in own_lines(template, setting)], template, setting, totals)


def finished(own, template, setting, totals):
    """Returns the text of the author's lines, with EQU lines for range lines, and STRATEGY."""
    end = "\r" if own[0].endswith("\r") else ""
    own = with_equs(own, template.values_by_name(setting), end)
    return "\n".join(with_strategy(own, strategy_line(template, setting, totals) + end)).encode(
        "latin-1")


def with_equs(lines, value_of, end):
    """Returns lines with an EQU line for each range line, in its place. If pMARS would read it
    otherwise there than `cwtune`, it follows the `;redcode` line, or begins the text."""
    numbers = lines_for_equs("\n".join(lines))
    new, moved = [], []
    for number, line in enumerate(lines, 1):
        if is_range_line(line.encode("latin-1")):
            name = line.split()[1]
            stays = number in numbers and not any(uses_early(above, name) for above in new)
            (new if stays else moved).append(equ_line(name, value_of[name]) + end)
        else:
            new.append(line)
    place = 1 + last_that_begins(new, ";redcode")
    return new[:place] + moved + new[place:]


def lines_for_equs(text):
    """Returns the numbers of lines where an EQU may go: not in a block, nor after a label on a line
    of its own, which pMARS takes for one more name of the EQU."""
    numbers, depth, waits = set(), 0, False
    for number, line in assembled_lines(text):
        if not depth and not waits:
            numbers.add(number)
        code = code_of(line)
        head = HEAD.match(code)
        word = head[2].lower() if head else ""
        depth += (word == "for") - (word == "rof")
        waits = not word and (waits or code.strip() != "")
    return numbers


def uses_early(line, name):
    """Returns whether a line uses a name in a count, an assertion or any EQU. For the first two
    pMARS knows only the EQU lines above."""
    kept = kept_of(line)
    head = HEAD.match(kept)
    return ((kept.lstrip()[:1] == ";" or head and head[2].lower() in ("for", "equ"))
            and any(token.text == name for token in tokens_of(kept)))


def with_strategy(lines, line):
    """Returns lines with a line after the `;strategy` lines, without that of an earlier tuning."""
    lines = [other for other in lines if not other.startswith(STRATEGY)]
    head = max(last_that_begins(lines, ";redcode"), 0)
    places = [last_that_begins(lines[head:], word) for word in LINES_BEFORE]
    place = head + 1 + next((place for place in places if place >= 0), -1)
    return lines[:place] + [line] + lines[place:] + [""] * (place == len(lines))


def last_that_begins(lines, word):
    """Returns the index of the last line with this beginning, of `;redcode` the first; or -1."""
    found = [index for index, line in enumerate(lines) if line[:len(word)].lower() == word]
    return (found[0] if word == ";redcode" else found[-1]) if found else -1


def setting_word(word):
    if word != "start" and not re.fullmatch("[0-9]{1,10}", word):
        raise argparse.ArgumentTypeError(f"{word} is neither an index from 0 nor `start`")
    return word


def setting_of(template, word):
    if word == "start":
        return template.start
    setting = int(word)
    if setting >= len(template.values_of_settings):
        raise Fault(f"the template has {len(template.values_of_settings)} settings, from 0", 2)
    return setting


def total_of_start(cert, template, schedule):
    """Returns the total of START, None if it was dropped or the weights are not given."""
    if cert.version == 2 and schedule is None:
        return None
    return cert.total_of(template.start, cert.fights(schedule))


def print_pmars_notes(text):
    for number, line in enumerate(text.split(b"\n"), 1):
        if len(line) > MOST_LINE_BYTES:
            note(f"pMARS cuts line {number} at {MOST_LINE_BYTES} bytes")
    for line in lines_of(text.decode("latin-1")):
        is_bare = line.word in ("nop", "dat") and not line.fields.keys() & {"a", "b"}
        if is_bare and not line.is_dropped:
            note(f"pMARS refuses line {line.number}: {line.word.upper()} without an operand")


def checked_text(args, template, setting, totals):
    """Returns the author's text with a setting's values. Refuses one of another warrior."""
    rules = rules_of(args).words()
    load_file = load_file_of(f"setting {setting}", assemble(
        args.program, *rules, f"--setting={setting}", "--", template.path))
    text = args.original and text_put_back(args, template, setting, totals, load_file)
    if not text:
        text = text_of(template, setting, totals)
        refuse_other_warrior("with its values", text, load_file, args.program, *rules)
    print_pmars_notes(text)
    return text


def text_put_back(args, template, setting, totals, load_file):
    """Returns the text of --original with a setting's values. If it cannot, notes why, and returns
    None."""
    try:
        text = finished(original_lines(args, template, setting), template, setting, totals)
        if adapt(args.original, text, rules_of(args), args.program).load_file != load_file:
            raise Fault(f"{args.original} is another warrior with these values, as cwtune-adapt "
                        "wrote a number that changes with them")
        return text
    except Fault as fault:
        if fault.status != 1:
            raise
        note(f"{fault}, so this is the adapted text")
        return None


def make_parser():
    parser = command_parser(__doc__)
    parser.add_argument("--setting", type=setting_word, metavar="W",
                        help="the index of a setting, or `start`")
    printed = parser.add_mutually_exclusive_group()
    printed.add_argument("--template", action="store_true", dest="as_template",
                         help="print the template, with the setting as its START")
    printed.add_argument("--original", metavar="FILE", help="put the values into this text, which "
                         "was adapted before the template was made of it")
    add_cwtune(parser, of_tuning=True)
    add_shared(parser, "--as-is")
    add_files(parser, "template")
    parser.add_argument("cert", metavar="CERT", nargs="?", help=FILE_HELP["cert"])
    return parser


def main():
    parser = make_parser()
    args = parser.parse_args()
    if args.cert is None and args.setting is None:
        parser.error("CERT is missing: give it, or --setting W")
    if args.cert is not None and args.setting is not None:
        parser.error("give CERT or --setting, and not both")
    with adapted_if_refused(args) as path:
        try:
            print_text(args, path)
        except tuning_files.TooManySettings:
            if args.setting != "start" or args.as_template:
                raise
            with temporary_file(path, start_of(read_text(path), path)) as alone:
                print_text(args, alone)
        if not (args.original or args.as_template) and (path != args.template or has_mark(path)):
            note("this is the adapted text: --original FILE puts the values into yours")


def has_mark(path):
    """Returns whether `cwtune-vary` made a template of an adapted text."""
    return ADAPTED.encode() in map(bytes.rstrip, read_text(path).split(b"\n"))


def print_text(args, path):
    args.schedule, totals, why_unused = None, (None, None), ""
    if args.cert is None:
        template = tuning_files.Template(path)
        setting = setting_of(template, args.setting)
    else:
        cert, template, why_unused = cert_inputs.read_tuning(args)
        setting = cert.best
        totals = cert.total, total_of_start(cert, template, args.schedule)
    sys.stdout.buffer.write(template.with_start(setting) if args.as_template
                            else checked_text(args, template, setting, totals))
    cert_inputs.print_note(why_unused)
