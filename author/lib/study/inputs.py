"""Reads the words and files of `cwtune-study`, and refuses those that make no study."""
import argparse, hashlib, itertools, json, math, os, pathlib, re
from typing import NamedTuple

from .. import vary
from ..adapt import adapted_for, adapted_opponents, read_text
from ..endings import Fault, fault_of, quoted
from ..grid import Grid, is_range_line
from ..openings import opening_from
from ..program import EXPLAIN, rules_of, run_program
from ..series import refuse_distance, refuse_fights, refuse_seed
from ..tuning_files import MOST_OPPONENTS, MOST_WEIGHT
from ..writing import temporary_file

# The options that a study depends on.
OPTIONS = ["rounds", "seed", "exact", "box", "fresh", "fights", "minutes", "certify"]


class Inputs(NamedTuple):
    """The text of WARRIOR, as it was given and adapted; the template made of it, or the same text
    if it is one; and name and text of each opponent."""

    original: bytes
    warrior: bytes
    template: bytes
    opponents: list

    def fingerprint(self, args):
        """Returns a fingerprint of all that the study depends on, as JSON gives it back."""
        options = {f"--{name}": getattr(args, name) for name in OPTIONS}
        return json.loads(json.dumps({
            "program": sha256_of_text(pathlib.Path(args.program).read_bytes()),
            "template": [*map(sha256_of_text, (self.original, self.warrior, self.template))],
            "opponents": [[name, sha256_of_text(text)] for name, text in self.opponents],
            "weights": [pair for pair in enumerate(args.weights) if pair[1] != 1],
            "rules": rules_of(args)._asdict(), **options}))


def sha256_of_text(text):
    return hashlib.sha256(text).hexdigest()


def sort_words(parser, args):
    """Sorts the words of the command into the warrior, the opponents and the ranges."""
    words, args.ranges = [], []
    for word in [args.warrior, *args.opponents]:
        if not is_range(word):
            words.append(word)
            continue
        try:
            args.ranges.append(opening_from(word))
        except argparse.ArgumentTypeError as fault:
            parser.error(str(fault))
    if not words:
        parser.error("WARRIOR is missing: a template, or a warrior with words PLACE=VALUES")
    args.warrior, opponents = words[0], [opponents_named(parser, word) for word in words[1:]]
    args.opponents = [path for paths, _ in opponents for path in paths]
    if not opponents:
        parser.error("OPPONENT is missing: files, or a folder with files *.red")
    if len(args.opponents) > MOST_OPPONENTS:
        parser.error(f"{len(args.opponents)} opponents; at most {MOST_OPPONENTS}")
    args.weights = weights_of(parser, opponents, args.by_kind)


def is_range(word):
    """Returns whether a word is meant to be PLACE=VALUES: no file has its name, nor looks so."""
    place, equals, _ = word.partition("=")
    path, _, weight = word.rpartition("=")
    is_weighted = weight.isdecimal() and os.path.exists(path)
    return (equals and "/" not in place and not place.endswith(".red")
            and not os.path.exists(word) and not is_weighted)


def opponents_named(parser, word):
    """Returns the files of a word, a folder's *.red or itself, and its weight: N of `=N`, or 1."""
    path, _, weight = word.rpartition("=")
    if os.path.exists(word) or not os.path.exists(path):
        path, weight = word, "1"
    if not (re.fullmatch("[0-9]{1,4}", weight) and 1 <= int(weight) <= MOST_WEIGHT):
        parser.error(f"{word}: the weight of {path} is not 1 to {MOST_WEIGHT}")
    return paths_of(path), int(weight)


def weights_of(parser, opponents, by_kind):
    """Returns the weight of each opponent. With `by_kind`, the opponents of a word together weigh
    as much as those of another word with the same `=N`."""
    whole = math.lcm(*(len(paths) for paths, _ in opponents)) if by_kind else 1
    weights = [weight * whole // (len(paths) if by_kind else 1)
               for paths, weight in opponents for _ in paths]
    weights = [weight // math.gcd(*weights) for weight in weights] if by_kind else weights
    if max(weights) > MOST_WEIGHT:
        parser.error(f"--by-kind gives a fight the weight {max(weights)}, more than {MOST_WEIGHT}")
    return weights


def paths_of(word):
    if not os.path.isdir(word):
        return [word]
    # As a shell takes *.red: without hidden files, such as an editor's.
    names = sorted(name for name in os.listdir(word)
                   if name.endswith(".red") and not name.startswith("."))
    paths = [path for name in names if not os.path.isdir(path := os.path.join(word, name))]
    if not paths:
        raise Fault(f"{word}: no file *.red in this folder", 2)
    return paths


def settle_options(parser, args):
    """Sets the seed that was not given, and refuses options that do not fit together."""
    rules = rules_of(args)
    refuse_distance(parser, rules)
    if args.seed is None:
        low, count = rules.distance, rules.core - 2 * rules.distance + 1
        args.seed = low + (4321 - low) % count
        # A series that begins at the least position never leaves it.
        args.seed += args.seed == low and count > 1
    refuse_seed(parser, "--seed", args.seed, rules)
    refuse_fights(parser, "--rounds", args.rounds, len(args.opponents))
    refuse_fights(parser, "--fresh", args.fresh, len(args.opponents))


def read_inputs(parser, args):
    sort_words(parser, args)
    settle_options(parser, args)
    args.program = os.path.abspath(args.program)
    original = read_text(args.warrior)
    is_template = any(map(is_range_line, original.split(b"\n")))
    if args.ranges or not is_template:
        source = vary.source_of(parser, args)
        if not args.ranges:
            raise Fault(f"{args.warrior}: no range line: give words PLACE=VALUES too "
                        f"(`cwtune-vary {quoted(args.warrior)}` lists the places)")
        warrior = source.text.encode("latin-1")
        if warrior == original:
            refuse_text(args, args.warrior, "--", args.warrior)
        template = vary.checked(args, source).template()
    else:
        warrior = template = adapted_for(args, args.warrior, original)
        refuse_start(args, Grid(args.warrior, template))
    return Inputs(original, warrior, template, opponents_of(args))


def refuse_start(args, grid):
    """Refuses a template whose START does not assemble. START is made the only setting, since
    `cwtune` takes at most a million."""
    with temporary_file(args.warrior, grid.alone(grid.start_values)) as path:
        refuse_text(args, f"START of {args.warrior}", "--setting=start", "--",
                    os.path.basename(path), cwd=os.path.dirname(path))


def refuse_text(args, name, *words, **options):
    """Refuses a text that `cwtune asm` refuses, with its status. `name` says which text it is."""
    completed = run_program(args.program, "asm", *EXPLAIN, *rules_of(args).words(), *words,
                            **options)
    if completed.returncode:
        fault = fault_of(completed)
        raise Fault(f"{name} does not assemble: {fault}") if fault.status == 1 else fault


def opponents_of(args):
    """Returns names and texts of the opponents. A name that is taken gets a number."""
    for path in args.opponents:
        if "\n" in path or os.fsencode(path).decode(errors="replace") != path:
            raise Fault("the name of an opponent has a line end, or is not UTF-8: "
                        f"{quoted(path)}", 2)
    texts = {}
    for path, text, is_adapted in adapted_opponents(args, args.opponents):
        if not is_adapted:
            refuse_text(args, path, "--", path)
        texts[free_name(os.path.basename(path), texts)] = text
    return list(texts.items())


def free_name(name, taken):
    """Returns the name, or if it is taken the first of NAME-2, NAME-3 that is free."""
    root, end = os.path.splitext(name)
    numbered = (f"{root}-{number}{end}" for number in itertools.count(2))
    return next(one for one in itertools.chain([name], numbered) if one not in taken)
