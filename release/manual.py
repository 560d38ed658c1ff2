"""Writes manual pages and completions for bash, zsh and fish into a folder.

Those of `cwtune` are made from what `cwtune --help` and `cwtune COMMAND --help` print, and those of
the commands for authors from their parsers, so they have the commands and options that there are:
for each name NAME.1, NAME.bash, _NAME (zsh) and NAME.fish. The completions are written by hand: the
kit has no `clap_complete`, and argparse makes none.
"""
import importlib, pathlib, re
from typing import NamedTuple

from author.lib.endings import Fault, run_tool
from author.lib.program import program_of, run_program
from author.lib.words import add_built, module_parser

NAME = "cwtune"
AUTHOR = pathlib.Path(__file__).resolve().parents[1] / "author"
# The commands for authors, and the modules of author/lib/ that they are made of.
COMMANDS = {path.name: path.name.removeprefix(f"{NAME}-")
            for path in sorted(AUTHOR.glob(f"{NAME}-*"))}
# The files for a command: its manual page, and its completions for bash, zsh and fish.
FILE_NAMES = ["{}.1", "{}.bash", "_{}", "{}.fish"]


class Item(NamedTuple):
    """A command, a word or an option, and what help says of it."""

    term: str
    text: str

    def option(self):
        """Returns the long name of an option, or nothing."""
        found = re.search(r"--([a-z][a-z-]*)", self.term)
        return found.group(1) if found else ""

    def takes_value(self):
        return " " in self.term.replace(", ", ",")


# What the files of a tuning look like, and where more is said.
FILES = [
    Item("TEMPLATE", "A Redcode text with up to 8 range lines, each at the very front of its line "
         "and without a comment: `;@tune NAME LOW HIGH STEP START`. The values of NAME are LOW, "
         "LOW + STEP and so on, up to HIGH; START, one of them, is tried first. LOW and HIGH are "
         "-65535 to 65535. There are at most 1000000 settings. If the text has an EQU for NAME, "
         "take it out"),
    Item("SCHEDULE", "The line `opponent,position,first`, then one for each fight, as `0,4000,c`: "
         "which opponent, from 0; in which cell it is loaded, the candidate being at 0; and who "
         "moves first, `c` the candidate or `o` the opponent. With a fourth field `weight` a fight "
         "counts 1 to 1000 times. At most 10000 fights; `cwtune-series` writes some"),
    Item("CERT", "The certificate, which `tune` replaces whole or not at all. A file that is "
         "also TEMPLATE, SCHEDULE or an OPPONENT, or a text that is not a certificate, is not "
         "overwritten"),
    Item("CERT.inputs", "Which inputs the certificate is for: rules, part, method, and the size "
         "and the SHA-256 digest of each file. The commands for authors read it, and `check`, to "
         "say after a rejection which inputs differ. No verdict depends on it"),
    Item(f"share/{NAME}/examples", "Below the prefix, /usr in the package: warriors, templates and "
         "scripts"),
    Item(f"share/doc/{NAME}/docs", "Below it, too: COMMANDS has every option and fault line, "
         "FORMATS every format, REDCODE the language, USING how many fights a tuning needs"),
]
FAULTS = ("A refusal is a line `refused: ..` on standard error with the names of the fault, and "
          "the line or the record at fault. At a terminal, or with --explain, more lines say what "
          "is wrong and what to write. If the certificate cannot be written, `found: ..` names the "
          "best setting.")
EXAMPLES = [
    ("Find the best setting of a template, and write its certificate:",
     "cwtune tune bomber.red fights.csv bomber.cert dwarf.red scanner.red"),
    ("Check the certificate:",
     "cwtune check bomber.red fights.csv bomber.cert dwarf.red scanner.red"),
    ("Print the load file of setting 16, the best:",
     "cwtune asm --setting 16 bomber.red"),
    ("Play one fight:", "cwtune fight dwarf.red scanner.red --position 4000"),
]


class HelpPage:
    """What `cwtune`, or a command of it, prints with `--help`.

    `about` is its first paragraph, `usage` the lines after `Usage:`, `parts` the items under each
    title, and `after` the paragraph without a title at the end.
    """

    def __init__(self, program, *command):
        done = run_program(program, *command, "--help", encoding="utf-8")
        if done.returncode != 0:
            raise Fault(f"{program} {' '.join(command)} --help: {done.stderr.strip()}", 3)
        self.about, *rest = done.stdout.strip().split("\n\n")
        self.usage, self.parts, self.after = [], {}, ""
        for part in rest:
            title, _, lines = part.partition("\n")
            if title.startswith("Usage: "):
                self.usage = [re.sub(r"^Usage: ", "", line).strip() for line in part.split("\n")]
            elif title.endswith(":"):
                self.parts[title[:-1]] = [item_of_line(line) for line in lines.split("\n")]
            else:
                self.after = part

    def options(self):
        return [item for title in ("Options", "Rules") for item in self.parts.get(title, [])]


def item_of_line(line):
    """Returns the item of a line of help, in which two blanks or more end the term."""
    term, _, text = line.strip().partition("  ")
    return Item(term, text.strip())


class Help:
    """All help pages of the program."""

    def __init__(self, path):
        self.top = HelpPage(path)
        self.commands = {item.term: HelpPage(path, item.term)
                         for item in self.top.parts["Commands"] if item.term != "help"}


class AuthorCommand:
    """What the parser of a command for authors says."""

    def __init__(self, name, module):
        parser = importlib.import_module(f"author.lib.{module}").make_parser()
        parser.prog = name
        about, _, rest = parser.description.partition("\n\n")
        self.name, self.about = name, " ".join(about.split())
        self.rest = "\n\n".join(filter(None, [rest, parser.epilog]))
        self.usage = " ".join(parser.format_usage().split()).removeprefix("usage: ")
        # argparse has no public calls for the arguments of a parser, nor for the term and the text
        # with which its help shows one: hence the private names here and in `item_of_action`.
        items = [(action, item_of_action(parser, action)) for action in parser._actions]
        self.words = [item for action, item in items if not action.option_strings]
        self.options = [item for action, item in items if action.option_strings]


def item_of_action(parser, action):
    """Returns the item of an argument of a parser, with the defaults put into its text."""
    formatter = parser._get_formatter()
    term = formatter._format_action_invocation(action)
    return Item(term, formatter._expand_help(action) if action.help else "")


def roff(text):
    """Returns a text as lines of a manual page."""
    text = text.replace("\\", "\\e").replace("-", "\\-").replace("`", "\\(ga")
    return re.sub(r"(?m)^([.'])", r"\\&\1", text)


def roff_items(items):
    return [line for item in items
            for line in (".TP", f".B {roff(item.term)}", roff(item.text) + ".")]


def roff_paragraphs(text):
    return [line for part in text.split("\n\n") if part for line in (".PP", roff(part))]


def see_also(name):
    """Returns the lines that name the other pages."""
    others = [other for other in [NAME, *COMMANDS] if other != name]
    return [".SH SEE ALSO", ", ".join(f"\\fB{roff(other)}\\fR(1)" for other in others)]


def man_page(program, version):
    """Returns the lines of the manual page of `cwtune`."""
    lines = [f'.TH CWTUNE 1 "" "{NAME} {version}" "User Commands"', ".SH NAME",
             f"{NAME} \\- tune Core War warriors, with a certificate of the answer", ".SH SYNOPSIS"]
    for page in program.commands.values():
        lines += [line for usage in page.usage for line in (".br", f".B {roff(usage)}")]
    lines += [".SH DESCRIPTION", roff(program.top.about)]
    for name, page in program.commands.items():
        lines += [f".SS {NAME} {name}", roff(page.about) + "."]
        lines += roff_items(page.parts.get("Arguments", []))
        lines += roff_items(item for item in page.parts["Options"] if item.option() != "help")
    rules = next(page.parts["Rules"] for page in program.commands.values() if "Rules" in page.parts)
    having = [name for name, page in program.commands.items() if "Rules" in page.parts]
    lines += [".SH RULES", f"The rules of a fight, options of {', '.join(having)}."]
    lines += roff_items(rules)
    lines += [".SH FILES", *roff_items(FILES), ".SH DIAGNOSTICS", roff(FAULTS)]
    lines += [".SH EXIT STATUS", roff(program.top.after.partition(": ")[2]), ".SH EXAMPLES"]
    for what, command in EXAMPLES:
        lines += [roff(what), ".PP", ".RS", ".nf", f".B {roff(command)}", ".fi", ".RE", ".PP"]
    return lines + see_also(NAME)


def author_man_page(command, version):
    """Returns the lines of the manual page of a command for authors."""
    about = command.about[0].lower() + command.about[1:].rstrip(".")
    lines = [f'.TH {command.name.upper()} 1 "" "{NAME} {version}" "User Commands"', ".SH NAME",
             f"{roff(command.name)} \\- {roff(about)}", ".SH SYNOPSIS",
             f".B {roff(command.usage)}", ".SH DESCRIPTION", roff(command.about)]
    lines += roff_paragraphs(command.rest)
    lines += roff_items(item for item in command.words if item.text)
    lines += [".SH OPTIONS", *roff_items(command.options)]
    return lines + see_also(command.name)


def bash_completion(name, parts):
    """Returns the lines of the completion of a command for bash. `parts` has the help and the
    options after each first word, or after '' if they are those of the whole command."""
    function, is_whole = "_" + name.replace("-", "_"), "" in parts
    lines = [f"# Completes the words of {name} in bash.", f"{function}() {{",
             "    local word=${COMP_WORDS[COMP_CWORD]} options=", "    COMPREPLY=()",
             "    case ${COMP_WORDS[1]} in",
             *(f'        {part or "*"}) options="{words_of(options)}" ;;'
               for part, (_, options) in parts.items()), "    esac"]
    if not is_whole:
        lines.append(f'    [[ $COMP_CWORD -eq 1 ]] && options="{" ".join(parts)} --help --version"')
    return [*lines, f"    if [[ {'' if is_whole else '$COMP_CWORD -eq 1 || '}$word == -* ]]; then",
            '        COMPREPLY=($(compgen -W "$options" -- "$word"))', "    fi", "}",
            "# With nothing to choose from, bash completes names of files.",
            f"complete -o default -F {function} {name}"]


def words_of(options):
    """Returns options as words, with blanks between them."""
    return " ".join(f"--{item.option()}" for item in options)


def without_quotes(text):
    """Returns a text without quotes, to stand in single quotes."""
    return text.replace("'", "").replace("`", "")


def quoted_for_zsh(text):
    """Returns such a text with brackets and colons escaped, as `_arguments` wants them."""
    return re.sub(r"[\[\]:]", lambda match: "\\" + match.group(), without_quotes(text))


def zsh_options(options, margin):
    return [f"{margin}'--{item.option()}[{quoted_for_zsh(item.text)}]"
            f"{':value:' if item.takes_value() else ''}' \\" for item in options]


def zsh_completion(name, parts):
    """Returns the lines of the completion of a command for zsh."""
    lines = [f"#compdef {name}", f"# Completes the words of {name} in zsh.", ""]
    if "" in parts:
        return [*lines, "_arguments \\", *zsh_options(parts[""][1], "    "), "    '*:file:_files'"]
    lines += ["local -a commands=(", *(f"    '{part}:{quoted_for_zsh(about)}'"
                                       for part, (about, _) in parts.items()),
              ")", "if (( CURRENT == 2 )); then", "    _describe command commands", "    return",
              "fi", "local command=$words[2]", "shift words", "(( CURRENT-- ))",
              "case $command in"]
    for part, (_, options) in parts.items():
        lines += [f"    {part}) _arguments \\", *zsh_options(options, "        "),
                  "        '*:file:_files' ;;"]
    return [*lines, "esac"]


def fish_completion(name, parts):
    """Returns the lines of the completion of a command for fish."""
    lines = [f"# Completes the words of {name} in fish."]
    for part, (about, options) in parts.items():
        start = f"complete -c {name}"
        if part:
            words = f"-f -a {part} -d '{without_quotes(about)}'"
            lines.append(f"{start} -n __fish_use_subcommand {words}")
            start += f" -n '__fish_seen_subcommand_from {part}'"
        lines += [f"{start} -l {item.option()}{' -x' if item.takes_value() else ''} "
                  f"-d '{without_quotes(item.text)}'" for item in options]
    return lines


def version_of(path):
    """Returns the version that a program prints, as 1.0.0."""
    done = run_program(path, "--version", encoding="utf-8")
    found = re.match(r"cwtune (\d+\.\d+\.\d+)\b", done.stdout)
    if not found:
        raise Fault(f"{path} --version prints no version", 3)
    return found.group(1)


def file_names(command):
    """Returns the names of the files for a command, in the order of FILE_NAMES."""
    return [name.format(command) for name in FILE_NAMES]


def write_files(folder, name, page, parts):
    """Writes the files for a command, in the order of FILE_NAMES: the page is given as lines."""
    texts = [page, *(make(name, parts) for make in (bash_completion, zsh_completion,
                                                    fish_completion))]
    for file, lines in zip(file_names(name), texts):
        (folder / file).write_text("\n".join(lines) + "\n", "utf-8")


def write(path, folder):
    """Writes the manual pages and the completions into a folder."""
    version, program = version_of(path), Help(path)
    write_files(folder, NAME, man_page(program, version),
                {name: (page.about, page.options()) for name, page in program.commands.items()})
    for name, module in COMMANDS.items():
        command = AuthorCommand(name, module)
        write_files(folder, name, author_man_page(command, version),
                    {"": (command.about, command.options)})


def main():
    parser = module_parser("release.manual", __doc__)
    parser.add_argument("folder", type=pathlib.Path, metavar="FOLDER", help="where they go")
    add_built(parser)
    args = parser.parse_args()
    path = program_of(args.program)
    args.folder.mkdir(parents=True, exist_ok=True)
    write(path, args.folder)


if __name__ == "__main__":
    run_tool(main)
