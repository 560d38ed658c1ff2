#!/usr/bin/env python3
"""Makes or checks certificates of a tuning without the search and the checker of `cwtune`.

It asks the program only for warriors and for single fights (`cwtune asm`, `cwtune fight`), and
reads schedules with and without weights and certificates of both versions itself. With --pmars the
program is a server build of pMARS, which assembles and fights in place of cwtune.

It prints a certificate on standard output. Its own search goes from the last setting to the first,
in each from the last fight to the first, and drops a setting as soon as its cap no longer beats the
lead. With --like-tune it searches in the order of `cwtune tune` (docs/SEARCH.md), so that the
report and the certificate have to be the same bytes. With --check it prints the line of `cwtune
check` on a certificate.

Nothing here has to be trusted: `cwtune check` says whether what it writes is right.

It is one file on purpose: it shares no code with the commands of `author/`, and runs wherever
Python does. So `RULES` is a copy of what `author/lib/` has.
"""
import argparse, collections, csv, functools, io, itertools, math, pathlib, re, subprocess, sys
import tempfile

Fight = collections.namedtuple("Fight", "opponent position first weight")
HEADER = ["opponent", "position", "first"]
# The rules, each with its usual number and what it is.
RULES = {"core": (8000, "the core size"), "cycles": (80000, "the most cycles of a fight"),
         "tasks": (8000, "the most tasks of a warrior"),
         "length": (100, "the most instructions of a warrior"),
         "distance": (100, "the least distance of two warriors")}
MOST_FIGHTS, MOST_WEIGHT, MOST_SETTINGS, MOST_NUMBER = 10000, 1000, 10**6, 2**32 - 1
MOST_CONSTANTS, MOST_VALUE = 8, 65535
# What follows `;@tune`: NAME, LOW, HIGH, STEP and START.
RANGE = re.compile(rb"[ \t\r]+".join([b"", rb"([A-Za-z_]\w*)", *[rb"(-?\d{1,5})"] * 2,
                                     rb"(\d{1,5})", rb"(-?\d{1,5})"]) + rb"[ \t\r]*")
# Names that no constant has, the first ones in letters of any case.
RESERVED = re.compile(rb"""(?i:DAT|MOV|ADD|SUB|MUL|DIV|MOD|JMP|JMZ|JMN|DJN|CMP|SLT|SPL|SEQ|SNE|NOP|
    ORG|END|EQU|FOR|ROF)|CORESIZE|MAXPROCESSES|MAXCYCLES|MAXLENGTH|MINDISTANCE|WARRIORS|VERSION|
    CURLINE""", re.X)
# A field may have any length.
csv.field_size_limit(sys.maxsize)


class Refused(Exception):
    """What is wrong with a template, an opponent or a schedule."""


class Rejected(Exception):
    """What is wrong with a certificate: the record, from 0, and the reason."""


class Failed(Exception):
    """What is wrong with the program."""


def read_ranges(source):
    """Returns the name and the four numbers of each range line, or raises a ValueError."""
    found = [RANGE.fullmatch(line) for line in re.findall(rb"(?m)^;@tune((?:[ \t\r].*)?)$", source)]
    if None in found:
        raise ValueError
    ranges = [(match[1], *map(int, match.groups()[1:])) for match in found]
    names = {name for name, *_ in ranges}
    if len(names) < len(ranges) or len(names) > MOST_CONSTANTS or any(
            RESERVED.fullmatch(name) or abs(low) > MOST_VALUE or abs(high) > MOST_VALUE
            or step > MOST_VALUE for name, low, high, step, _ in ranges):
        raise ValueError
    return ranges


def read_records(path):
    """Returns the records of a comma-separated text; empty lines are not records."""
    text = pathlib.Path(path).read_bytes().decode("utf-8", "surrogateescape")
    lines = io.StringIO(text.removeprefix("\ufeff"), newline="")
    return [record for record in csv.reader(lines) if record]


def read_fight(row, record, fields, opponents, rules):
    """Returns the fight of a record that has to have `fields` fields. Its numbers may have leading
    zeros."""
    words = [word for column, word in enumerate(record) if column != 2]
    if len(record) != fields or not all(re.fullmatch("[0-9]{1,9}", word) for word in words):
        raise Refused(f"Schedule row {row} Malformed")
    opponent, position, weight = map(int, [*words, 1][:3])
    if not (opponent < opponents and rules.distance <= position <= rules.core - rules.distance
            and record[2] in ("c", "o") and 1 <= weight <= MOST_WEIGHT):
        raise Refused(f"Schedule row {row} NoFight")
    return Fight(opponent, position, record[2], weight)


def read_schedule(path, opponents, rules):
    """Returns the fights of a schedule. Without the field `weight` each weight is 1."""
    records = read_records(path)
    if not records or records[0] not in (HEADER, [*HEADER, "weight"]):
        raise Refused("Schedule row 0 Header")
    fights = []
    for row, record in enumerate(records[1:], 1):
        if row > MOST_FIGHTS:
            raise Refused(f"Schedule row {row} TooMany")
        fights.append(read_fight(row, record, len(records[0]), opponents, rules))
    if not fights:
        raise Refused("Schedule row 0 Empty")
    return fights


def read_decimal(row, word):
    """Returns a number of a certificate, which has no leading zero."""
    if not re.fullmatch("0|[1-9][0-9]{0,9}", word) or int(word) > MOST_NUMBER:
        raise Rejected(row, "Malformed")
    return int(word)


def read_items(row, text):
    """Returns the pairs of fight and points that a cap row lists."""
    items = [] if text == "-" else [item.split(":") for item in text.split(" ")]
    if any(len(item) != 2 or item[1] not in ("0", "1", "3") for item in items):
        raise Rejected(row, "Malformed")
    return [(read_decimal(row, fight), int(points)) for fight, points in items]


def read_row(row, record):
    """Returns the row of a setting: its kind, and what it refers to or lists."""
    if len(record) != 3 or read_decimal(row, record[1]) != row - 2:
        raise Rejected(row, "Malformed")
    kind, _, rest = record
    if kind == "refused" and rest == "-":
        return kind, None
    if kind == "same":
        return kind, read_decimal(row, rest)
    if kind == "cap":
        return kind, read_items(row, rest)
    raise Rejected(row, "Malformed")


def read_pair(row, records, word):
    """Returns the two numbers of a record that begins with a word."""
    if len(records) <= row or len(records[row]) != 3 or records[row][0] != word:
        raise Rejected(row, "Malformed")
    return [read_decimal(row, field) for field in records[row][1:]]


def read_certificate(path):
    """Returns version, number of settings, best setting, total, and the rows of a certificate."""
    records = read_records(path)
    version, count = read_pair(0, records, "cwcert")
    if version not in (1, 2):
        raise Rejected(0, "Malformed")
    best, total = read_pair(1, records, "best")
    rows = [read_row(row, record) for row, record in enumerate(records[2:], 2)]
    return version, count, best, total, rows


class Machine:
    """What a program of a `kind` assembles, and fights: `assembler` are the words for a text."""

    def ask(self, words, pattern, text="", refusal=None):
        """Returns the match of what words print, or None if their status is that of a refusal."""
        done = subprocess.run(words, input=text, capture_output=True, encoding="latin-1")
        found = re.search(pattern, done.stdout)
        if done.returncode != refusal and (done.returncode != 0 or not found):
            said = done.returncode and done.stderr.strip() or f"not the output of {self.kind}"
            raise Failed(f"{words[0]}: {said}")
        return found if done.returncode == 0 else None

    def assemble(self, text):
        """Returns the load file of a text, or None if it does not assemble."""
        with tempfile.NamedTemporaryFile(suffix=".red") as file:
            pathlib.Path(file.name).write_bytes(text)
            found = self.ask([*self.assembler, file.name], self.listing, refusal=self.refusal)
        return found and found[1]


class Cwtune(Machine):
    kind, refusal, listing = "cwtune", 1, r"(?s)\A(ORG .*)"

    def __init__(self, program, rules):
        self.program = program
        self.assembler = [program, "asm", *(f"--{name}={getattr(rules, name)}" for name in RULES)]
        self.rules = f"rules {' '.join(str(getattr(rules, name)) for name in RULES)}\n"

    def fight(self, candidate, opponent, position, first):
        """Returns the points of the candidate, 0, 1 or 3."""
        text = f"{self.rules}fight {position} {first}\ncandidate\n{candidate}opponent\n{opponent}"
        return int(self.ask([self.program, "fight"], r"\A\w+ ([013]) turns ", text)[1])


class Pmars(Machine):
    # Its listing is a text that it reads, too, after two lines with the name.
    kind, refusal, listing = "a pMARS server build", 3, r"(?s)\AProgram [^\n]*\n[^\n]*\n(.*)"

    def __init__(self, program, rules):
        self.core = rules.core
        pairs = [(option, str(getattr(rules, name))) for option, name in zip("scpld", RULES)]
        self.words = [program, *(word for option, value in pairs for word in (f"-{option}", value))]
        self.assembler = [*self.words, "-r", "0"]

    def fight(self, candidate, opponent, position, first):
        """Returns the points of the candidate, 0, 1 or 3."""
        # The first of two warriors is loaded at 0 and moves first: swapped, the other one does.
        sides = [candidate, opponent] if first == "c" else [opponent, candidate]
        pmars_position = str(position if first == "c" else self.core - position)
        with tempfile.TemporaryDirectory() as folder:
            files = [pathlib.Path(folder, name) for name in ("one.red", "two.red")]
            for file, side in zip(files, sides):
                file.write_text(side)
            found = self.ask([*self.words, "-b", "-r", "1", "-F", pmars_position, *map(str, files)],
                             r"Results: (\d+) (\d+) (\d+)")
        wins, losses, ties = map(int, found.groups())
        return 1 if ties else 3 * (wins if first == "c" else losses)


class Tuning:
    """A template, the fights that each of its settings plays, and the lead, `best`."""

    def __init__(self, asked):
        self.machine = (Pmars if asked.pmars else Cwtune)(asked.program, asked)
        self.points_of = functools.cache(self.machine.fight)
        self.rows, self.caps, self.best, self.total, self.played = {}, {}, None, None, 0
        try:
            self.read_template(pathlib.Path(asked.template).read_bytes())
        except ValueError:
            raise Refused("Template: a range line is malformed") from None
        texts = [pathlib.Path(opponent).read_bytes() for opponent in asked.opponents]
        self.opponents = [self.machine.assemble(text) for text in texts]
        if None in self.opponents:
            raise Refused(f"Opponent {self.opponents.index(None)}")
        self.fights = read_schedule(asked.schedule, len(self.opponents), asked)
        weights = [weight for *_, weight in self.fights]
        self.greatest, self.version = 3 * sum(weights), 1 if set(weights) == {1} else 2

    def read_template(self, source):
        """Keeps the settings; the first constant changes slowest."""
        ranges = read_ranges(source)
        spans = [range(low, high + 1, step) for _, low, high, step, _ in ranges]
        if math.prod(map(len, spans)) > MOST_SETTINGS:
            raise Refused(f"Template: more than {MOST_SETTINGS} settings")
        self.names = [name for name, *_ in ranges]
        self.settings = list(itertools.product(*spans))
        self.start = self.settings.index(tuple(start for *_, start in ranges))
        # The values become EQU lines after the header, which stays: without it a later `;redcode`
        # line would end another.
        *header, self.body = re.split(rb"(?im)^(;redcode.*\n)", source, maxsplit=1)
        self.header = b"".join(header)

    @functools.cache
    def load(self, setting):
        """Returns the load file of a setting, or None if it does not assemble."""
        values = zip(self.names, self.settings[setting])
        lines = b"".join(b"%s EQU (%d)\n" % pair for pair in values)
        return self.machine.assemble(self.header + lines + self.body)

    def fight(self, setting, fight):
        """Returns the points of a setting in a fight; the weight is not in them."""
        opponent, position, first, _ = self.fights[fight]
        return self.points_of(self.load(setting), self.opponents[opponent], position, first)

    def cap(self, items):
        """Returns the greatest total of a setting that has the points of `items`."""
        lost = ((3 - points) * self.fights[fight].weight for fight, points in items)
        return self.greatest - sum(lost)

    def beats(self, cap, setting):
        return self.best is None or (cap, -setting) > (self.total, -self.best)

    def play(self, setting, order):
        """Plays the fights of a setting in an order until its cap no longer beats the lead."""
        items = []
        for fight in order:
            if self.beats(self.cap(items), setting):
                items.append((fight, self.fight(setting, fight)))
        self.played += len(items)
        self.rows[setting], self.caps[setting] = ("cap", sorted(items)), self.cap(items)
        # A cap that still beats the lead counts all fights: it is the total.
        if self.beats(self.caps[setting], setting):
            self.best, self.total = setting, self.caps[setting]

    def search_backwards(self):
        """Finds the best setting from the last to the first."""
        known = {}
        for setting in reversed(range(len(self.settings))):
            load = self.load(setting)
            if load is None:
                self.rows[setting] = "refused", None
            elif load in known and not self.beats(self.caps[known[load]], setting):
                self.rows[setting] = "same", known[load]
            else:
                self.play(setting, reversed(range(len(self.fights))))
                known[load] = setting

    def search_like_tune(self, capacity):
        """Finds the best setting as `cwtune tune` does, with its cache."""
        cache = collections.OrderedDict()
        order = range(len(self.fights))
        for setting in sorted(range(len(self.settings)), key=lambda setting: setting != self.start):
            load = self.load(setting)
            if load is None:
                self.rows[setting] = "refused", None
            elif load in cache:
                cache.move_to_end(load)
                self.share(setting, cache[load])
            else:
                self.play(setting, order)
                cache[load] = setting
                if len(cache) > capacity:
                    cache.popitem(last=False)
            if setting == self.start and load is not None:
                order = sorted(order, key=dict(self.rows[setting][1]).get)

    def share(self, setting, twin):
        """Gives a setting the row of its twin, which makes the same warrior, or refers to it."""
        self.rows[setting] = "same", twin
        if self.beats(self.caps[twin], setting):
            self.rows[setting], self.best, self.total = self.rows[twin], setting, self.caps[twin]

    def records(self):
        """Returns the records of the certificate of the search."""
        yield ["cwcert", self.version, len(self.settings)]
        yield ["best", self.best, self.total]
        for setting in range(len(self.settings)):
            kind, rest = self.rows[setting]
            if kind == "cap":
                rest = " ".join(f"{fight}:{points}" for fight, points in rest)
            yield [kind, setting, "-" if rest in (None, "") else rest]

    def report(self):
        candidates = sum(kind != "refused" for kind, _ in self.rows.values())
        values = zip(self.names, self.settings[self.best])
        constants = " ".join(f"{name.decode()}={value}" for name, value in values) or "-"
        return (f"vectors {len(self.settings)}\ncandidates {candidates}\nbest {self.best}\n"
                f"constants {constants}\ntotal {self.total} of {self.greatest}\n"
                f"fights {self.played} of {candidates * len(self.fights)}\n")

    def check(self, path):
        """Returns the best setting and the total of a valid certificate."""
        version, count, self.best, self.total, rows = read_certificate(path)
        if version == 1 and self.version == 2:
            raise Rejected(0, "Version")
        if not count == len(self.settings) == len(rows):
            raise Rejected(0, "RowCount")
        kind, items = rows[self.best] if self.best < count else ("refused", None)
        whole = kind == "cap" and [fight for fight, _ in items] == list(range(len(self.fights)))
        if not whole or self.cap(items) != self.total:
            raise Rejected(1, "BestRow")
        for setting, (kind, rest) in enumerate(rows):
            if kind == "refused" and self.load(setting) is not None:
                raise Rejected(setting + 2, "NotRefused")
            if kind == "cap":
                self.check_cap(setting, rest)
        for setting, (kind, rest) in enumerate(rows):
            if kind == "same":
                self.check_same(setting, rest, rows)
        return self.best, self.total

    def check_cap(self, setting, items):
        """Checks that a cap row lists fights of a setting, with their points, and shows enough."""
        listed = [fight for fight, _ in items]
        if listed != sorted(set(listed)):
            raise Rejected(setting + 2, "RepeatedFight")
        are_there = all(fight < len(self.fights) for fight in listed)
        if self.load(setting) is None or not are_there or any(
                self.fight(setting, fight) != points for fight, points in items):
            raise Rejected(setting + 2, "WrongPoints")
        if setting != self.best and self.beats(self.cap(items), setting):
            raise Rejected(setting + 2, "CapTooHigh")

    def check_same(self, setting, twin, rows):
        """Checks that a setting and its twin make one warrior, and that the twin's cap row does."""
        if (self.load(setting) is None or twin == setting or twin >= len(rows)
                or rows[twin][0] != "cap" or self.load(twin) != self.load(setting)):
            raise Rejected(setting + 2, "NotSame")
        if self.beats(self.cap(rows[twin][1]), setting):
            raise Rejected(setting + 2, "CapTooHigh")


def read_words():
    parser = argparse.ArgumentParser(description=__doc__.split("\n\n")[0])
    for name, meaning in [("program", "cwtune, or with --pmars a server build of pMARS"),
                          ("template", "a Redcode text with range lines"),
                          ("schedule", "the fights of the tuning")]:
        parser.add_argument(name, metavar=name.upper(), help=meaning)
    parser.add_argument("opponents", nargs="+", metavar="OPPONENT",
                        help="the opponents, in the tuning's order")
    parser.add_argument("--pmars", action="store_true", help="PROGRAM is a server build of pMARS")
    parser.add_argument("--like-tune", action="store_true", help="search as `cwtune tune` does")
    parser.add_argument("--cache", type=int, default=4096, metavar="N",
                        help="the cache of that search [default: 4096]")
    parser.add_argument("--report", metavar="FILE", help="write the report to FILE too")
    parser.add_argument("--check", metavar="CERT", help="check CERT instead")
    for name, (value, meaning) in RULES.items():
        parser.add_argument(f"--{name}", type=int, default=value, metavar="N",
                            help=f"{meaning} [default: {value}]")
    return parser.parse_args()


def run(asked):
    """Prints the certificate, or the line of a check that accepts one."""
    tuning = Tuning(asked)
    if asked.check:
        print("accepted best {} total {}".format(*tuning.check(asked.check)))
        return
    if asked.like_tune:
        tuning.search_like_tune(asked.cache)
    else:
        tuning.search_backwards()
    if tuning.best is None:
        raise Refused("NoCandidate")
    csv.writer(sys.stdout, lineterminator="\n").writerows(tuning.records())
    if asked.report:
        pathlib.Path(asked.report).write_text(tuning.report())


def main():
    try:
        run(read_words())
    except Rejected as rejected:
        print("rejected row", *rejected.args)
        sys.exit(1)
    except Refused as refused:
        sys.exit(f"refused: {refused}")
    except Failed as failed:
        sys.exit(f"certify.py: {failed}")
    except KeyboardInterrupt:
        sys.exit(130)
    except OSError as error:
        print(f"failed: {error.filename or 'standard output'}: {error.strerror}", file=sys.stderr)
        sys.exit(3)


if __name__ == "__main__":
    main()
