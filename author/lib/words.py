"""Makes the parsers of the commands, with the files, options and numbers that several have."""
import argparse, json, os, re, shutil, sys

from .endings import escaped
from .program import BUILT, DEFAULT, HILLS, Rules, program_of

EXIT_STATUS = ("Exit status: 0 done; 1 a file is refused; 2 usage error, or two files do not fit "
               "together;\n3 I/O error, or a run without a result.")

# What the help of the commands says of each file, and of each rule.
FILE_HELP = {"template": "a Redcode text with range lines",
             "cert": "the certificate of a tuning", "schedule": "the fights of the tuning",
             "opponents": "the opponents, in the tuning's order (write ./*.red: a name in *.red "
             "may be an option)"}
MEANING = {"core": "the core size", "cycles": "the most cycles of a fight",
           "tasks": "the most tasks of a warrior", "length": "the most instructions of a warrior",
           "distance": "the least distance of two warriors"}


class Parser(argparse.ArgumentParser):
    """A parser to which names after `--` are files, also where files and options are mixed."""

    # What is put before a name with a dash while argparse reads it. No word of a command has it.
    FENCE = "\0"

    def parse_args(self):
        """Returns the words of the command, with options between files."""
        words = sys.argv[1:]
        if "--" in words:
            end = words.index("--")
            words[end:] = [self.FENCE * word.startswith("-") + word for word in words[end + 1:]]
        return self.parse_intermixed_args(words)

    def _get_value(self, action, arg_string):
        """Reads a word as argparse does, without the fence."""
        return super()._get_value(action, arg_string.removeprefix(self.FENCE))

    def error(self, message):
        super().error(escaped(message.replace(self.FENCE, "")))


def command_parser(docstring):
    """Returns the parser of a command, whose docstring is its help: the first paragraph says what
    the command does; the others, an example last, follow the options. The exit status is added if
    no paragraph has it."""
    about, *more, example = docstring.strip().split("\n\n")
    status = [] if "Exit status" in docstring else [EXIT_STATUS]
    return Parser(description=about, epilog="\n\n".join([*more, *status, example]),
                  allow_abbrev=False, formatter_class=argparse.RawDescriptionHelpFormatter)


def module_parser(module, docstring):
    """Returns the parser of a module that is run by `python3 -m`: its docstring is its help."""
    about, _, rest = docstring.strip().partition("\n\n")
    return argparse.ArgumentParser(prog=f"python3 -m {module}", description=about, epilog=rest,
                                   formatter_class=argparse.RawDescriptionHelpFormatter)


def number_from(low, high=None):
    """Returns a reader of the numbers from `low` to `high` for argparse."""
    limits = f"{low} or more" if high is None else f"{low} to {high}"

    def read(word):
        if not re.fullmatch("[+-]?[0-9]+", word):
            raise ValueError
        number = int(word)
        if number < low or high is not None and number > high:
            raise argparse.ArgumentTypeError(f"{word} is not {limits}")
        return number

    read.__name__ = "number"  # argparse says: invalid number value
    return read


def add_number(parser, name, metavar, default, about, low=1, high=None):
    """Adds an option that is a number, and says its default."""
    parser.add_argument(name, type=number_from(low, high), default=default, metavar=metavar,
                        help=f"{about} [default: {default}]")


def counted(number, noun):
    """Returns a number with its noun, as `1 setting` and `2 settings`."""
    return f"{number} {noun}{'s' * (number != 1)}"


def add_built(parser):
    parser.add_argument("program", nargs="?", default=BUILT, metavar="PROGRAM",
                        help="the program cwtune [default: the one built here]")


def program_word(module, docstring):
    """Reads the words of a module that takes a program alone. Returns the program."""
    parser = module_parser(module, docstring)
    add_built(parser)
    return program_of(parser.parse_args().program)


def add_files(parser, *names):
    for name in names:
        parser.add_argument(name, metavar=name.upper().removesuffix("S"), help=FILE_HELP[name],
                            nargs="+" if name == "opponents" else None)


# Options that several commands have.
SHARED = {
    "--anew": {"action": "store_true", "help": "throw away what is done, and begin again"},
    "--as-is": {"action": "store_true",
                "help": "do not adapt a text that pMARS reads otherwise (cwtune-adapt)"},
    "--jobs": {"type": number_from(1, 10000), "default": len(os.sched_getaffinity(0)),
               "metavar": "N", "help": "jobs that run side by side, on each host, 10000 at most "
               "[default: the processors of this one]"},
    "--json": {"action": "store_true",
               "help": "print one JSON object in place of lines (docs/FORMATS.md)"},
    "--schedule": {"metavar": "FILE", "help": "the schedule [default: that of the tuning]"},
}


def add_shared(parser, *names):
    for name in names:
        parser.add_argument(name, **SHARED[name])


def program_at(word):
    """Returns the path of a program that an option names: a name on the PATH, or a file."""
    return shutil.which(word) or (os.path.abspath(word) if os.path.isfile(word) else word)


def add_program(parser):
    parser.add_argument("--program", type=program_at, default=DEFAULT, metavar="FILE",
                        help="the program cwtune [default: the one built here, else on the PATH]")


def print_json(numbers):
    """Prints an object as JSON. A byte of a name that is not UTF-8 becomes an escape."""
    print(json.dumps(numbers, indent=1))


def add_hill(parser, default="94nop"):
    parser.add_argument("--hill", choices=HILLS, metavar="HILL",
                        help=f"the rules of this hill: {', '.join(HILLS)} [default: {default}]")


def add_cwtune(parser, of_tuning=False):
    """Adds the program and the rules. With `of_tuning` the tuning's are the defaults."""
    add_program(parser)
    group = parser.add_argument_group("rules")
    add_hill(group, "the rules of the tuning, else 94nop" if of_tuning else "94nop")
    whose = "that of the tuning" if of_tuning else "that of the hill"
    for name, number in Rules()._asdict().items():
        group.add_argument(f"--{name}", type=number_from(0), metavar="N",
                           help=f"{MEANING[name]} [default: {whose}, else {number}]")
