"""Reads and writes CERT.inputs, which says beside a certificate what it is for: the program, the
rules, the part and the method of the tuning, the folder that it ran in, and the size and the
SHA-256 digest of each of its files. docs/FORMATS.md has it line by line.

A reader believes it only if the certificate has the digest that it names.
"""
import dataclasses, os, re
from typing import Annotated

from .endings import Fault, note
from .program import HILLS, Rules, fill_rules, rules_of
from .regular import NotRegular, digest_of, read_regular
from .schema import checked
from .tuning_files import MOST_OPPONENTS, Certificate, Template

# What follows CERT in the name of its file.
SUFFIX = ".inputs"
FILES = ["template", "schedule"]
KINDS = [*FILES, "opponent"]
# More than such a file has, with the longest names.
MOST_INPUTS_BYTES = 1 << 20
# A size and a SHA-256 digest as one text. `cwtune` reads no file above 1 GiB.
Digest = Annotated[str, re.compile(r"\d{1,10} [0-9a-f]{64}")]
# A file of the tuning: its size and digest, and its name.
File = tuple[Digest, Annotated[str, range(1, 1 << 16)]]


@dataclasses.dataclass
class CertInputs:
    """What a CERT.inputs says, but for the program."""

    rules: tuple[(Annotated[int, range(1 << 32)],) * len(Rules._fields)]
    part: Annotated[str, re.compile(r"\d{1,10}/\d{1,10}")]
    method: Annotated[str, re.compile(r"all|cache \d{1,10}")]
    cert: Digest
    folder: str
    template: Annotated[list[File], range(1, 2)]
    schedule: Annotated[list[File], range(1, 2)]
    opponent: Annotated[list[File], range(1, MOST_OPPONENTS + 1)]


def inputs_of(text):
    """Returns what the text of such a file says. Raises a ValueError if it is malformed."""
    # A name goes to the line feed, and may have other bytes at which `splitlines` would split.
    lines = [line.split(" ", 1) for line in os.fsdecode(text).removesuffix("\n").split("\n")]
    if lines[0] != ["cwtune", "inputs 1"]:
        raise ValueError
    fields = dict(lines) | {kind: [] for kind in KINDS}
    fields["rules"] = [int(number) if re.fullmatch("[0-9]{1,10}", number) else None
                       for number in dict(lines).get("rules", "").split()]
    for word, field in lines:
        if word in KINDS:
            size, sha256, name = field.split(" ", 2)
            fields[word].append([f"{size} {sha256}", name])
    return checked(CertInputs, fields)


def read(cert):
    """Returns which inputs a certificate is for, or a text that says why that is not known."""
    name = f"{cert}{SUFFIX}"
    try:
        inputs = inputs_of(read_regular(MOST_INPUTS_BYTES, name))
    except FileNotFoundError:
        return f"{name} is not there"
    except NotRegular as fault:
        return str(fault)
    except ValueError:
        return f"{name} is malformed"
    return inputs if is_file(cert, inputs.cert) else f"{name} is of another certificate"


def is_file(path, digest):
    """Returns whether a file is regular, and of this size and digest. It is read only then."""
    try:
        return os.path.getsize(path) == int(digest.split()[0]) and digest_of(path) == digest
    except NotRegular:
        return False


def settle(args):
    """Fills in the rules and the files that were not given, from CERT.inputs, and refuses those
    given that differ from it. Returns why CERT.inputs could not be used, or an empty text. A file
    that is not where it was stays None. A certificate that is not there ends the command."""
    os.stat(args.cert)
    inputs = read(args.cert)
    if getattr(args, "hill", None):
        fill_rules(args, HILLS[args.hill])
    if isinstance(inputs, str):
        fill_rules(args, Rules())
        return inputs
    fill_rules(args, Rules(*inputs.rules))
    refuse_other_rules(args, inputs.rules)
    for kind in FILES:
        if hasattr(args, kind):
            setattr(args, kind, settled_file(inputs, kind, 0, getattr(args, kind)))
    if hasattr(args, "opponents"):
        args.opponents = settled_opponents(inputs, args.opponents)
    return ""


def read_tuning(args):
    """Returns the certificate, its template or None, and why CERT.inputs is not used."""
    cert = Certificate(args.cert)
    why_unused = settle(args)
    template = Template(args.template).checked_for(cert) if args.template else None
    return cert, template, why_unused


def print_note(why_unused):
    """Notes on standard error that nothing was compared, and why, if `settle` returned that."""
    if why_unused:
        note(f"{why_unused}, so files and rules cannot be compared with the tuning's")


def refuse_other_tuning(args, cert, part, method):
    """Refuses `cert` if its CERT.inputs, if it is there, is malformed or of another tuning."""
    if not os.path.exists(f"{cert}{SUFFIX}"):
        return
    inputs = read(cert)
    if isinstance(inputs, str):
        raise Fault(inputs, 2)
    try:
        if inputs.part != part:
            raise Fault(f"it is of part {inputs.part}", 2)
        if inputs.method != method:
            raise Fault(f"its method is `{inputs.method}`, not `{method}`", 2)
        refuse_other_rules(rules_of(args), inputs.rules)
        for kind in FILES:
            settled_file(inputs, kind, 0, getattr(args, kind))
        settled_opponents(inputs, args.opponents)
    except Fault as fault:
        raise Fault(f"{cert} is not part {part} of this tuning: {fault}", 2) from None


def refuse_other_rules(given, rules):
    for name, number in Rules(*rules)._asdict().items():
        if getattr(given, name, number) != number:
            raise Fault(f"--{name} is {getattr(given, name)}, but the tuning had {number}", 2)


def settled_file(inputs, kind, index, given_path):
    """Returns the path of a file of the tuning: the one given, else where it was, or None."""
    digest, name = getattr(inputs, kind)[index]
    path = given_path if given_path is not None else os.path.join(inputs.folder, name)
    if given_path is None and not os.path.exists(path):
        return None
    if not is_file(path, digest):
        which = f"opponent {index}" if kind == "opponent" else f"the {kind}"
        raise Fault(f"{path} is not {which} of the tuning", 2)
    return path


def settled_opponents(inputs, given_paths):
    """Returns the paths of the opponents, or none if one of them is not where it was."""
    count = len(inputs.opponent)
    if given_paths and len(given_paths) != count:
        raise Fault(f"opponents given: {len(given_paths)}; of the tuning: {count}", 2)
    paths = [settled_file(inputs, "opponent", index, given_paths[index] if given_paths else None)
             for index in range(count)]
    return [] if None in paths else paths


def text_of(version, rules, method, cert, files):
    """Returns the text of CERT.inputs. `files`: the template, the schedule, the opponents."""
    if any("\n" in name for name in [*files, os.getcwd()]):
        raise ValueError
    kinds = FILES + ["opponent"] * (len(files) - 2)
    return "".join([
        f"cwtune inputs 1\nprogram {version}\nrules {' '.join(map(str, rules))}\npart 1/1\n",
        f"method {method}\ncert {digest_of(cert)}\nfolder {os.getcwd()}\n",
        *(f"{kind} {digest_of(path)} {path}\n" for kind, path in zip(kinds, files))])
