"""Tries the wrong bodies in crates/*/must-fail/: the prover has to refuse each.

A function's callers see its contract alone, so wrong bodies in different functions do not touch one
another. The edits of a crate are tried in rounds, at most one for each function, or for functions
that call one another. One check judges a round: it asks for the edited functions alone, and the
proof of every other function is a hole, unless it calls itself or is in a cycle of calls. An edit
is refused if a goal of the function that it changes stays open, or if one of that function's proof
files fails, and not only because the edit took a name away. If only a premise of a call that the
edit adds stays open, the round's line says so.

An edit that only a proof file refuses needs a line `breaks: CASE` (docs/PROVING.md). Each round
says how many of its edits a proof file refused, and --names says which.

An edit is a file in the format of `rt must-fail`, with a line `function: PATH`, as a check prints
the function. Each `old:` text occurs once in its file, in the name's line or in the body of that
function. Each round has the crate's edit in gate/harmless/, too, which must not be refused. With
--control each round is also checked without any edit, and then every function has to be proved.

The libraries under the crates must be built, but for those that an `rt ci` builds meanwhile: with
--beside a round waits for them, and takes only what processors and memory are left. A round that
was judged as it should be is kept in ~/.cache by a checksum of all that the verdict depends on, and
not tried again without --anew.
"""
import collections, contextlib, hashlib, importlib.util, itertools, os, pathlib, re, shutil
import subprocess, sys, tempfile

from author.lib.endings import Fault, run_tool
from author.lib.words import module_parser, number_from

from .functions import functions_of
from .lib.lanes import Proofs, in_lanes, lanes
from .lib.running import ROOT

PARTS = ("src", "specs", "proofs")
HOLE = """use Rattle.{crate}.proofs.{module}.Statement.{{statement}}

pub {name}_spec : {{M : Type 1}} → statement M
{name}_spec 𝓤 𝓛 𝓜 𝓡 w = ?
"""

# What a check says of a function: that a goal of its own is open, that a proof file failed, or that
# it is proved but for the holes and the functions that it calls.
OPEN = re.compile(r"no proof: expected answers in (?:[^;]*; `search` did not prove ([^;]*))?")
FAILED = re.compile(r"not proved")
CLOSED = re.compile(r"no holes|depends on a hole in")
CALLS = re.compile(r"no proof: it calls ")
ERROR = re.compile(r"(?m)^(?:\./)?([^\s:]+)(?::\d+:\d+)?: error(?:\[[\w-]+\])?: "
                   r"(?:`([^`]*)`: )?(.*)")
CALL = re.compile(r"(\w+)(?:::<[^()]*>)?\(")
# Such an error says that the edit took a name away, and nothing of the contract.
LOST_NAME = re.compile(r"is not in scope|has no field|can be named from here|was not checked")
# Such an error is of a hole for a function that the check calls by another name.
UNKNOWN = re.compile(r"has no function .* for this file to be the proof of")


class Edit:
    """A wrong body: texts of one function and what takes their place, one after the other."""

    def __init__(self, source, crate):
        self.name, self.source, self.pairs = source.stem, source, []
        fields = dict.fromkeys(["function", "file", "breaks", "old", "new"], "")
        for line in source.read_text("utf-8").removesuffix("\n").split("\n"):
            key, _, value = line.partition(":")
            if key not in fields:
                raise Fault(f"{source}: a line of no meaning: {line}")
            fields[key] = value.removeprefix(" ")
            if key == "new":
                self.pairs.append((fields["old"], fields["new"]))
        if not self.pairs:
            raise Fault(f"{source}: no line `new:`")
        self.breaks, path, file = fields["breaks"], fields["function"], fields["file"]
        self.function = crate.functions.get(path)
        if not self.function or self.function.file != file:
            raise Fault(f"{source}: no function `{path}` with a body in {file}")
        self.applied((crate.folder / file).read_text("utf-8").split("\n"))

    def applied(self, lines):
        """Returns the lines of the function with the texts replaced, its clauses as they were."""
        at, whole = self.function, "\n".join(lines)
        head, clauses = lines[at.head : at.first][:1], lines[at.head + 1 : at.first]
        parts = ["\n".join(part) for part in (head, lines[at.first : at.last + 1])]
        for old, new in self.pairs:
            if whole.count(old) != 1 or sum(part.count(old) for part in parts) != 1:
                raise Fault(f"{self.source}: `{old}` does not occur once in {at.path}")
            whole, *parts = (text.replace(old, new) for text in (whole, *parts))
        return [*parts[0].split("\n")[: len(head)], *clauses, *parts[1].split("\n")]


class Crate:
    """A crate, its functions by their paths, and its edits. `kit_crate` is what rtlib makes."""

    def __init__(self, kit, kit_crate):
        self.kit, self.kit_crate, self.name = kit, kit_crate, kit_crate.name
        self.folder = pathlib.Path(kit_crate.folder)
        self.functions = functions_of(self.folder, self.name)
        self.edits = [Edit(file, self) for file in sorted(self.folder.glob("must-fail/*.edit"))]
        harmless = ROOT / "gate" / "harmless" / f"{self.name}.edit"
        self.harmless = Edit(harmless, self) if self.edits else None
        if any(edit.function == self.harmless.function for edit in self.edits):
            raise Fault(f"{harmless}: `{self.harmless.function.path}` has an edit in must-fail/")

    def rounds(self):
        """Returns the edits in rounds, no two of one function or cycle of calls in a round."""
        groups = collections.defaultdict(list)
        for edit in self.edits:
            groups[edit.function.cycle or edit.function.path].append(edit)
        return [[*filter(None, edits)] for edits in itertools.zip_longest(*groups.values())]

    def command(self, edits):
        """Returns the command that checks the functions of these edits, past holes."""
        with open(os.devnull, "w") as self.kit_crate.out:
            words = self.kit_crate.words(["--jobs", "1"], keeps=False)
        only = [word for edit in edits for word in ("--only", path_below(edit.function))]
        return [self.kit.RATTLE, "check", *words, "--allow-holes", *only]


def path_below(function):
    """Returns a function's path below its crate."""
    return function.path.partition("::")[2]


def folder_of(function):
    """Returns the folder of a function's proof files."""
    return "proofs/" + path_below(function).replace("::", "/")


def write_edits(room, edits):
    """Applies the edits to the sources in `room`, each function's last lines first."""
    texts = {}
    for edit in sorted(edits, key=lambda edit: -edit.function.head):
        file, at = room / edit.function.file, edit.function
        written = file.read_text("utf-8").split("\n")
        lines = texts.setdefault(file, written[:])
        lines[at.head : at.last + 1] = edit.applied(written)
    for file, lines in texts.items():
        file.write_text("\n".join(lines), "utf-8")


def write_holes(crate, room, edits):
    """Puts a hole in place of the proof of each function that is not edited.

    Functions that call themselves or one another take no holes: their proofs stay.
    """
    edited = {edit.function.path for edit in edits}
    for function in crate.functions.values():
        if function.path in edited or function.cycle or function.calls_itself:
            continue
        folder, module = room / folder_of(function), path_below(function).replace("::", ".")
        for name in ("Answers.antt", "Invariants.antt"):
            (folder / name).unlink(missing_ok=True)
        folder.mkdir(parents=True, exist_ok=True)
        text = HOLE.format(crate=crate.name, module=module, name=module.rpartition(".")[2])
        (folder / "Proof.antt").write_text(text, "utf-8")


def check(crate, edits, changed, log=None):
    """Checks the functions of `edits` with those in `changed` applied. Returns what it said."""
    with tempfile.TemporaryDirectory(prefix="cwtune-edits-") as name:
        room = pathlib.Path(name)
        for part in PARTS:
            if (crate.folder / part).is_dir():
                shutil.copytree(crate.folder / part, room / part)
        write_holes(crate, room, edits)
        write_edits(room, changed)
        done = subprocess.run(crate.command(edits), cwd=room, stdin=subprocess.DEVNULL,
                              stdout=subprocess.PIPE, stderr=subprocess.STDOUT, encoding="utf-8")
    if log:
        log.write_text(done.stdout, "utf-8")
    return done.stdout


def read_check(text):
    """Returns what a check said of each function, and the file, goal and words of each error."""
    said = dict(re.findall(r"(?m)^fn (\S+): (.*)$", text))
    return said, [error for error in ERROR.findall(text) if not UNKNOWN.search(error[2])]


def words_on(edit, said):
    return said.get(edit.function.path, "the check does not name it")


def is_own(error, function):
    """Returns whether an error is in a proof file of the function; in a cycle, at its goal."""
    file, goal, _ = error
    if not function.cycle:
        return file.startswith(folder_of(function) + "/")
    folder, _, name = folder_of(function).rpartition("/")
    return file.startswith(f"{folder}/+{function.cycle}/") and goal.startswith(f"{name}-")


def is_refused(edit, said, errors):
    """Returns whether the prover refused an edit for a goal of its own function."""
    words, name = words_on(edit, said), edit.function.path.rpartition("::")[2]
    if OPEN.match(words):
        return not edit.function.cycle or f"`{name}-" in words
    own = [error[2] for error in errors if is_own(error, edit.function)]
    return bool(FAILED.match(words)) and not all(map(LOST_NAME.search, own))


def open_premises(edit, said):
    """Returns the goals that stay open if all of them are premises of calls that the edit adds, so
    that they show nothing of the contract."""
    old, new = (collections.Counter(CALL.findall(" ".join(texts))) for texts in zip(*edit.pairs))
    added = "|".join(new - old)
    found = OPEN.match(words_on(edit, said))
    goals = re.findall("`([^`]*)`", found and found[1] or "")
    is_premise = re.compile(rf"(.*-)?({added})-requires(-.*)?").fullmatch
    return goals if added and all(map(is_premise, goals)) else []


def faults_of(crate, edits, text):
    """Returns what is wrong with a round by what its check said: edits, and errors beside them."""
    said, errors = read_check(text)
    faults = [f"{edit.name}: NOT REFUSED: {edit.function.path}: {words_on(edit, said)}"
              for edit in edits if not is_refused(edit, said, errors)]
    words = words_on(crate.harmless, said)
    if not CLOSED.match(words) and not CALLS.match(words):
        faults.append(f"{crate.harmless.function.path}: a harmless edit was refused: {words}")
    return faults + [f"{file}: an error that no edit explains: {words}"
                     for file, goal, words in errors
                     if not any(is_own((file, goal, words), edit.function) for edit in edits)]


def faults_without_edits(edits, text):
    """Returns what a check without any edit says against the functions of a round."""
    said, errors = read_check(text)
    faults = [f"{edit.function.path}: without an edit: {words_on(edit, said)}"
              for edit in edits if not CLOSED.match(words_on(edit, said))]
    return faults + [f"{file}: without an edit: {words}" for file, _, words in errors]


def sum_of(crate, edits):
    """Returns a checksum of all that the verdict on a round depends on."""
    digest = hashlib.sha256()
    for file in (crate.kit.RATTLE, crate.kit.__file__):
        kit_file = os.stat(file)
        digest.update(f"{kit_file.st_size} {kit_file.st_mtime_ns} ".encode())
    files = [ROOT / "gate" / name for name in ("edits.py", "functions.py")]
    files += [edit.source for edit in [*edits, crate.harmless]]
    for kit_crate, part in itertools.product([crate.kit_crate, *crate.kit_crate.below()], PARTS):
        files += sorted(pathlib.Path(kit_crate.folder, part).rglob("*.*"))
    for file in files:
        text = file.read_bytes()
        digest.update(f"{file.relative_to(ROOT)} {len(text)} ".encode() + text)
    return digest.hexdigest()


def kept_at(key):
    cache = os.environ.get("XDG_CACHE_HOME") or os.path.expanduser("~/.cache")
    return pathlib.Path(cache, "cwtune-edits", key)


def keep(key, by_proofs):
    """Notes that a round was judged as it should be, and which of its edits a proof file refused.
    What cannot be noted is tried again."""
    with contextlib.suppress(OSError):
        kept_at(key).parent.mkdir(parents=True, exist_ok=True)
        kept_at(key).write_text(" ".join(by_proofs))


def judge(crate, number, edits, args):
    """Tries a round. Returns how many edits it has, what is wrong, and its name."""
    label, key = f"{crate.name}, round {number}: {len(edits)} edits", sum_of(crate, edits)
    if kept_at(key).exists() and not args.anew and not args.control:
        by_proofs = refused_by_proofs(kept_at(key).read_text().split(), args)
        return len(edits) + 1, [], f"{label}, judged before{by_proofs}"
    faults = faults_without_edits(edits, check(crate, edits, [])) if args.control else []
    log = args.logs and pathlib.Path(args.logs, f"{crate.name}-{number}.log")
    every = [*edits, crate.harmless]
    text = check(crate, every, every, log)
    faults += faults_of(crate, edits, text)
    said, errors = read_check(text)
    by_proofs = [edit for edit in edits if is_refused(edit, said, errors)
                 and not OPEN.match(words_on(edit, said))]
    faults += [f"{edit.name}: a proof file refused it: add a line `breaks: CASE` that says in "
               "which case it breaks the contract" for edit in by_proofs if not edit.breaks]
    by_proofs = [edit.name for edit in by_proofs]
    if not faults:
        keep(key, by_proofs)
    by_premises = "".join(f", {edit.name} only for a premise of a call that it adds: {goals}"
                          for edit in edits if (goals := " ".join(open_premises(edit, said))))
    return len(edits) + 1, faults, label + refused_by_proofs(by_proofs, args) + by_premises


def refused_by_proofs(names, args):
    """Returns how many edits a proof file refused, and with --names which."""
    shown = f": {' '.join(names)}" if args.names and names else ""
    return f", {len(names)} refused by a proof file{shown}"


def load_kit():
    """Returns the kit's module that knows the words of a check."""
    rt = shutil.which("rt")
    if not rt:
        raise Fault("no `rt` on the PATH", 2)
    file = pathlib.Path(rt).resolve().with_name("rtlib.py")
    spec = importlib.util.spec_from_file_location("rtlib", file)
    kit = importlib.util.module_from_spec(spec)
    sys.modules["rtlib"] = kit
    spec.loader.exec_module(kit)
    return kit


def crates_of(kit, names):
    """Returns the crates with edits, those above first, since their checks take longest."""
    every = kit.crates_below(str(ROOT))
    unknown = set(names) - {kit_crate.name for kit_crate in every}
    if unknown:
        raise Fault(f"no crate is called {min(unknown)}", 2)
    for harmless in sorted((ROOT / "gate/harmless").glob("*.edit")):
        if not any((ROOT / "crates" / harmless.stem / "must-fail").glob("*.edit")):
            raise Fault(f"{harmless}: its crate has no edits in must-fail/")
    crates = [Crate(kit, kit_crate) for kit_crate in every if not names or kit_crate.name in names]
    return [crate for crate in crates if crate.edits][::-1]


def make_parser():
    parser = module_parser("gate.edits", __doc__)
    parser.add_argument("crates", nargs="*", metavar="CRATE",
                        help="whose edits are tried [default: every crate]")
    parser.add_argument("--anew", action="store_true", help="try what was judged before, too")
    parser.add_argument("--beside", action="store_true", help="read what a running `rt ci` prints "
                        "from standard input, and run beside it at a low priority")
    parser.add_argument("--control", action="store_true",
                        help="check each round without its edits, too")
    parser.add_argument("--jobs", type=number_from(1), default=lanes(), metavar="N",
                        help="checks side by side [default: by processors and memory]")
    parser.add_argument("--logs", metavar="FOLDER", help="write what each check says there")
    parser.add_argument("--names", action="store_true",
                        help="name the edits that only a proof file refused")
    return parser


def main():
    args = make_parser().parse_args()
    os.chdir(ROOT)
    crates = crates_of(load_kit(), args.crates)
    if args.logs:
        os.makedirs(args.logs, exist_ok=True)
    rounds = [(crate, number, edits, args) for crate in crates
              for number, edits in enumerate(crate.rounds(), 1)]
    if args.beside:
        os.nice(19)
    passed = failed = 0
    proofs = Proofs(sys.stdin.readline if args.beside else None)
    for count, faults, label in in_lanes(rounds, judge, args.jobs, proofs):
        print("\n".join([label, *(f"  {fault}" for fault in faults)]), flush=True)
        passed, failed = passed + max(count - len(faults), 0), failed + len(faults)
    print(f"{passed} passed, {failed} failed")
    return 1 if failed or not passed else 0


if __name__ == "__main__":
    run_tool(main)
