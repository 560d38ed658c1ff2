"""Finds the functions in a crate's sources, by the paths with which a check prints them."""
import re
from dataclasses import dataclass
from pathlib import Path

HEAD = re.compile(r"( *)(?:pub(?:\([a-z]+\))? )?(?:const )?(?:unsafe )?fn (\w+)")
OWNER = re.compile(r"(?:unsafe )?impl(?P<parameters><(?:[^<>]|<[^<>]*>)*>)? (?P<rest>[^{]*?) \{"
                   r"|(?:pub(?:\([a-z]+\))? )?trait (?P<trait>\w+).*")
CYCLE = re.compile(r" *#\[cycle\((\w+)\)\]")


@dataclass(frozen=True)
class Function:
    """A function with a body, by its lines in `file`, counted from 0.

    Line `head` has its name; its clauses follow, and then the body, from line `first` to line
    `last`, braces included. `cycle` names the functions that call one another with it and have
    one proof, or is ''.
    """

    path: str
    file: str
    head: int
    first: int
    last: int
    cycle: str
    calls_itself: bool


def named(text):
    """Returns the name of a type or a trait, and the names of what it is applied to."""
    name, _, rest = text.strip().partition("<")
    applied, depth = [""], 0
    for sign in rest.removesuffix(">"):
        depth += (sign == "<") - (sign == ">")
        if sign == "," and not depth:
            applied.append("")
        else:
            applied[-1] += sign
    names = [path.partition("<")[0].rpartition("::")[2].strip() for path in applied]
    return name.rpartition("::")[2], [given for given in names if given and given[0] != "'"]


def owner_of(line):
    """Returns how a check names the impl or trait that `line` opens, or None.

    An impl of Tr<X> for T is `TTrX`, and one of T<X> is `T+X`, unless X is a parameter of the impl.
    """
    found = OWNER.fullmatch(line)
    if not found:
        return None
    if found["trait"]:
        return found["trait"]
    parameters = re.findall(r"(?:<|, )(\w+)", found["parameters"] or "")
    of_trait, _, of_type = found["rest"].rpartition(" for ")
    trait, trait_given = named(of_trait)
    name, given = named(of_type)
    return "".join([name, *(f"+{path}" for path in given if path not in parameters),
                    trait, *(path for path in trait_given if path not in parameters)])


def body_of(lines, at, indent):
    """Returns the first and the last line of the body of the function at line `at`, or None."""
    for first in range(at, len(lines)):
        line = lines[first].removeprefix(indent)
        if lines[first] and not lines[first].startswith(indent):
            return None  # the end of a trait, after a function without a body
        if line[:1] in ("", " "):
            continue
        if line.endswith(";"):
            return None
        if line.endswith("}"):
            return first, first
        if line.endswith("{"):
            return first, lines.index(indent + "}", first)
        if first > at and line[0] not in ")>":
            return None
    return None


def functions_in(text, file_name, module):
    """Yields the functions of one source file, in their order."""
    lines, owner, cycle = text.split("\n"), None, ""
    for at, line in enumerate(lines):
        if line and line[0] not in " }/#":
            owner = owner_of(line)
        cycle = found[1] if (found := CYCLE.match(line)) else cycle
        head = HEAD.match(line)
        if not head or len(head[1]) != (4 if owner else 0):
            continue
        body = body_of(lines, at, head[1])
        if body:
            path = "::".join([*module, *([owner] if owner else []), head[2]])
            call = rf"\b[sS]elf(\.|::){head[2]}\(" if owner else rf"(?<![\w.:]){head[2]}\("
            inside = "\n".join(lines[max(body[0], at + 1) : body[1]])
            yield Function(path, file_name, at, *body, cycle, bool(re.search(call, inside)))
        cycle = ""


def functions_of(folder, crate):
    """Returns the functions of the crate in `folder` by their paths, without those of its tests."""
    found = {}
    for file in sorted(Path(folder, "src").rglob("*.rt")):
        below = file.relative_to(folder)
        module = [crate, *below.with_suffix("").parts[1:]]
        if "tests" in module:
            continue
        if module[-1] in ("lib", "main", "mod"):
            module.pop()
        for function in functions_in(file.read_text("utf-8"), str(below), module):
            found[function.path] = function
    return found
