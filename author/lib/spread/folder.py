"""Keeps in a folder what the jobs of `cwtune-spread` are made of, and what came of them.

    spread.json      what the folder is of: the number of pieces and of settings, and a fingerprint
                     of all inputs
    cwtune, t.red, s.csv, o0.red ..   copies of the program and of the inputs
    I.done           what came of piece I
    I.PID.*          what the run with that process id has written of piece I

A folder whose mark has no fingerprint is being made or removed, and is made anew. A copy that is
missing is put back from its input, once that is seen to have the digest of the mark.

A piece is a part of a tuning or a share of a check. It is done when `I.done` is there, which is
written once the piece has a result, so neither a kill nor a crash leaves half of one.
"""
import dataclasses, json, os, shutil, subprocess
from typing import Annotated, NamedTuple

from ..endings import STATUS_WORDS, Fault, fault_of, shown
from ..own_folder import OwnFolder
from ..regular import open_regular, read_regular, sha256_of
from ..schema import Malformed, NotJson
from ..tuning_files import MOST_SETTINGS

# More than a report has that ranks as many as `cwtune` keeps.
MOST_REPORT_BYTES = 1 << 20
# What the jobs of pieces have: their output, and on other hosts their archives, the inputs of all
# pieces, the hosts, what rsync has not ended, and what GNU parallel keeps while it runs.
JOB_FILES = (r"\d+\.\d+\.(report|fault|status|new|tar|taken|inputs[0-9a-f]{16}|hosts)|"
             r"\.\d+\.\d+\.tar\.\w{6}|par\w{5}\.(all|par|df)")


class Copy(NamedTuple):
    """An input: its kind, the name of its copy, which needs no quoting, and its path."""

    kind: str
    name: str
    source: str


@dataclasses.dataclass
class Mark:
    """What `spread.json` says: `parts` pieces, `count` settings, the fingerprint `of` inputs."""

    by: str
    piece: str
    parts: Annotated[int, range(1, MOST_SETTINGS + 1)] | None = None
    count: Annotated[int, range(1, MOST_SETTINGS + 1)] | None = None
    of: dict | None = None


def copies_of(args, *others):
    """Returns the inputs of a tuning, with `others` before the opponents."""
    return [Copy("program", "cwtune", args.program), Copy("template", "t.red", args.template),
            Copy("schedule", "s.csv", args.schedule), *others,
            *(Copy("opponents", f"o{index}.red", path)
              for index, path in enumerate(args.opponents))]


class Pieces:
    """The pieces of a tuning or a check: `piece_count` of them, with `setting_count` settings."""

    def settings(self, number):
        return range((number - 1) * self.setting_count // self.piece_count,
                     number * self.setting_count // self.piece_count)


class ClusterPieces(Pieces):
    """The pieces that the jobs of a cluster have written beside CERT, which stay there."""

    def __init__(self, args, setting_count):
        self.given_path, self.piece_count, self.keep = args.cert, args.merge, args.keep
        self.setting_count = setting_count

    def read(self, number, kind):
        return read_regular(MOST_REPORT_BYTES, f"{self.given_path}.{number}.{kind}").decode()

    def fault_in(self, kind, otherwise):
        """Returns the fault that a job wrote, `otherwise` if it wrote none, or where to look."""
        path = f"{self.given_path}.{kind}"
        try:
            with open_regular(path) as file:
                lines = file.read(MOST_REPORT_BYTES).decode(errors="replace").splitlines()
        except FileNotFoundError:
            return f"no {path}: see slurm-ARRAY.out where sbatch was called"
        words = tuple(f"{word}: " for word in STATUS_WORDS.values())
        said = [line for line in lines if line.startswith(words)] or lines
        return f"{path}: {shown(said[0])}" if said else otherwise

    def refuse_changed_inputs(self):
        """Does nothing: `result` takes only what is of CERT as it is now."""

    def clean_up(self):
        """Leaves the files of the jobs where they are."""


class SpreadFolder(Pieces, OwnFolder):
    """A folder that `cwtune-spread` made.

    Its subclasses say how a piece is called (`PIECE`), which files of the folder are its own
    (`OWN_FILES`), what else a kill may leave (`UNFINISHED_FILES`), and the kinds of files that a
    run of a piece reads beside the copies (`SENT_KINDS`) and writes (`RETURNED_KINDS`).
    `RESULT` is the schema of what is written of a piece that is done.
    """

    COMMAND, MARK, SCHEMA, VERSION = "cwtune-spread", "spread.json", Mark, 2
    RESULT = None
    SENT_KINDS = []

    def __init__(self, args, given_path, copies, options, piece_count, setting_count):
        """Opens or makes the folder. `copies` are its input files, `options` what else its pieces
        depend on, by kind. A folder that is not new keeps the counts of its mark."""
        super().__init__(given_path)
        self.copies, self.input_options, self.pid = copies, options, os.getpid()
        self.work = self.path  # what hosts keep of it is known by this name
        self.opponents = [copy.name for copy in copies if copy.kind == "opponents"]
        self.is_removed = False
        mark = self.read_mark()
        self.refuse_strange()
        is_whole = mark and mark.of is not None and mark.parts and mark.count
        if args.anew or not is_whole or self.is_useless(mark):
            mark = self.fill(piece_count, setting_count)
        self.refuse_other_inputs(mark.of, self.inputs_fingerprint(),
                                 f"{self.THROWN} in {given_path} are of other inputs")
        if mark.count != setting_count:
            raise Fault(f"{given_path}/{self.MARK}: count: not {setting_count}", 2)
        self.put_back_copies()
        self.refuse_other_inputs(mark.of, self.copies_fingerprint(),
                                 f"the copies in {given_path} were changed")
        self.top.remove(rf"{self.UNFINISHED_FILES}|({self.OWN_FILES})\.\d+\.new")
        self.piece_count, self.setting_count = mark.parts, mark.count

    def read_mark(self):
        """Returns the mark. Refuses one of other pieces, too."""
        mark = super().read_mark()
        if mark and mark.piece != self.PIECE:
            raise Fault(f"{self.given_path} has {mark.piece}s, and is not touched", 2)
        return mark

    def is_useless(self, mark):
        """Returns whether a folder of other inputs can be made anew, and need not be refused."""
        return False

    def rooms(self):
        return {"": f"{self.OWN_FILES}|{self.UNFINISHED_FILES}"}

    def inputs_fingerprint(self):
        return self.fingerprint(lambda copy: sha256_of(copy.source))

    def copies_fingerprint(self):
        return self.fingerprint(lambda copy: self.sha256(copy.name))

    def refuse_changed_inputs(self):
        """Refuses inputs that were changed while the pieces ran."""
        if self.inputs_fingerprint() != self.copies_fingerprint():
            raise Fault(f"an input was changed while the {self.PIECE}s ran: change it back and "
                        "repeat the command, or give --anew to begin again", 3)

    def fingerprint(self, digest_of_copy):
        """Returns a value for each kind of input that the pieces depend on."""
        digests = {}
        for copy in self.copies:
            digests.setdefault(copy.kind, []).append(digest_of_copy(copy))
        return digests | self.input_options

    def fill(self, piece_count, setting_count):
        """Makes the folder anew, its mark empty until all copies are there. Returns the mark."""
        mark = Mark(self.maker(), self.PIECE)
        self.write_mark(mark)
        self.remove_all()
        self.put_back_copies()
        mark.parts, mark.count, mark.of = piece_count, setting_count, self.copies_fingerprint()
        self.write_mark(mark)
        return mark

    def put_back_copies(self):
        for copy in self.copies:
            if not os.access(copy.name, os.F_OK, dir_fd=self.top.descriptor):
                with open_regular(copy.source) as source, self.whole_file(copy.name, "wb") as file:
                    shutil.copyfileobj(source, file)
                    if copy.name == "cwtune":
                        os.fchmod(file.fileno(), 0o755)

    def clean_up(self):
        """Removes the folder, but no file that somebody else put there."""
        self.is_removed = True
        self.write_mark(Mark(self.maker(), self.PIECE))
        self.remove_all()
        if os.listdir(self.top.descriptor) == [self.MARK]:
            os.unlink(self.MARK, dir_fd=self.top.descriptor)
            self.path.rmdir()

    def in_order(self, numbers):
        """Returns the numbers of pieces in the order in which they begin."""
        return numbers

    def prepare(self, number):
        """Writes what only this piece reads, the files of the kinds `SENT_KINDS`."""

    def file(self, number, kind):
        return self.path / f"{number}.{self.pid}.{kind}"

    def fault(self, number, status):
        stderr = self.file(number, "fault").read_bytes()
        return fault_of(subprocess.CompletedProcess(["cwtune"], status, b"", stderr))

    def write_done(self, number, result):
        with self.whole_file(f"{number}.done") as file:
            json.dump(result, file)

    def read_done(self, number):
        """Returns what is written of a piece, None if not done or cut. Refuses another form."""
        try:
            return self.load(f"{number}.done", self.RESULT)
        except (FileNotFoundError, NotJson):
            return None
        except Malformed as fault:
            raise Fault(f"{self.given_path}/{number}.done is malformed ({fault}): remove it to run "
                        f"{self.PIECE} {number} again", 2) from None
