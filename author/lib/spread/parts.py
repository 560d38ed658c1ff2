"""Says how `cwtune-spread` tunes each part, and reads what came of it: in the folder CERT.parts, or
beside CERT.

In the folder `I.cert` is the certificate of part I, and `I.done` has its report, empty without a
candidate, and the digest of the certificate: the part is done if the certificate has this digest.

START of a part is the setting in it that is the fewest steps from START of the template.

A part has a floor unless --all is given, or fewer than K totals are known when it begins (K of
--keep, or 1): the K-th best of these totals, or one more if the setting with this total comes
before the part. If no setting reaches the floor, the part's report and its certificate say so.
"""
import contextlib, dataclasses, os, pathlib, re, subprocess
from typing import Annotated, NamedTuple

from ..endings import Fault, end_with_parent
from ..pmars.tokens import NAME
from ..program import NO_CANDIDATE, rules_of
from ..regular import sha256_of
from ..schema import Sha256
from ..tuning_files import MOST_TEMPLATE_BYTES, Template
from ..writing import open_new
from .folder import JOB_FILES, ClusterPieces, SpreadFolder, copies_of
from .hosts import NUMBER

# A count that `cwtune` prints, and the values of a setting.
COUNT, CONSTANTS = r"\d{1,20}", rf"{NAME}=-?\d{{1,5}}(?: {NAME}=-?\d{{1,5}})*"
RANK = rf"rank {COUNT} setting ({COUNT}) total ({COUNT})(?: ({CONSTANTS}))?\n"
REPORT = re.compile(
    rf"vectors {COUNT}\ncandidates {COUNT}\n"
    rf"(?:best {COUNT}\nconstants (?:-|{CONSTANTS})\ntotal {COUNT}|"
    rf"best -\nconstants -\ntotal below [1-9]\d{{0,19}}) of {COUNT}\n"
    rf"fights {COUNT} of {COUNT}\n(?:{RANK})*")


class Part(NamedTuple):
    """What came of a part, its report by the lines' first words: empty without a candidate."""

    settings: range
    report: dict

    def is_below(self):
        """Returns whether its candidates are all below the floor that it had."""
        return bool(self.report) and self.report["best"] == "-"

    def has_best(self):
        return bool(self.report) and not self.is_below()

    def total(self):
        return int(self.report["total"].split()[0])

    def ranked(self):
        """Returns total and constants by setting of the whole template: all ranked, or the best."""
        if not self.has_best():
            return {}
        best = self.report["best"], self.report["total"].split()[0], self.report["constants"]
        ranks = self.report.get("ranks") or [best]
        return {self.settings.start + int(setting): (int(total), constants)
                for setting, total, constants in ranks}


def read_report(text):
    """Returns the lines of a report by their first words, of the lines `rank` a list; nothing for
    an empty text. Raises a ValueError if it is not a report, or was cut."""
    if not text:
        return {}
    if not REPORT.fullmatch(text):
        raise ValueError
    report = dict(line.split(" ", 1) for line in text.splitlines() if not line.startswith("rank "))
    ranks = [(setting, total, constants or "-")
             for setting, total, constants in re.findall(RANK, text)]
    return report | {"ranks": ranks} if ranks else report


@dataclasses.dataclass
class PartResult:
    """What `I.done` says: the report, and the digest of the certificate, if there is one."""

    report: Annotated[str, re.compile(f"(?:{REPORT.pattern})?")]
    cert: Sha256 | None


class ClusterParts(ClusterPieces):
    """Parts. Job I writes CERT.I, and what `tune` prints as CERT.I.report and CERT.I.fault."""

    PIECE = "part"

    def cert(self, number):
        return pathlib.Path(f"{self.given_path}.{number}")

    def result(self, number):
        try:
            fault, report = self.read(number, "fault"), read_report(self.read(number, "report"))
        except (FileNotFoundError, ValueError):
            return None
        if fault != ("" if report else NO_CANDIDATE):
            return None
        return Part(self.settings(number), report)

    def fault(self, number):
        return self.fault_in(f"{number}.fault", f"{self.cert(number)}.report is cut, or not there")

    def whole(self):
        """Returns where the whole certificate is put together: a file that only this run has."""
        return pathlib.Path(f"{self.given_path}.whole.{os.getpid()}.new")

    def writing_whole(self):
        return self.whole().open("x")


class Parts(SpreadFolder):
    """The folder CERT.parts."""

    PIECE, THROWN, INSTEAD = "part", "the parts", "CERT"
    RESULT = PartResult
    OWN_FILES = r"cwtune|[ts]\.(red|csv)|o\d+\.red|whole\.cert|\d+\.(cert|done)"
    # `tune` writes a certificate to a file beside it, and then CERT.inputs.
    UNFINISHED_FILES = (rf"(\d+|start)\.\d+\.(red|report|cert(\.inputs)?(\.unfinished-\d+)?)|"
                        f"{JOB_FILES}")
    SENT_KINDS = ["red"]
    RETURNED_KINDS = ["cert", "report", "fault"]

    def __init__(self, args, setting_count, tune_options):
        self.tune_options, self.args, self.template = tune_options, args, Template(args.template)
        # The totals that are known, by setting.
        self.totals = {}
        options = {"rules": rules_of(args)._asdict(), "cache": "all" if args.all else args.cache,
                   "keep": args.keep}
        part_count = min(setting_count, args.parts or 16 * args.jobs)
        super().__init__(args, f"{args.cert}.parts", copies_of(args), options, part_count,
                         setting_count)
        if self.piece_count > self.setting_count:
            raise Fault(f"{self.given_path}/{self.MARK}: more parts than settings", 2)
        if args.parts and min(args.parts, self.setting_count) != self.piece_count:
            raise Fault(f"{self.given_path} has {self.piece_count} parts: leave out --parts, or "
                        "give --anew to throw them away and begin again", 2)

    def in_order(self, numbers):
        """Returns the numbers, that of START first. Plays START alone if others need its total."""
        with_start = next(number for number in range(1, self.piece_count + 1)
                          if self.template.start in self.settings(number))
        others = [number for number in numbers if number != with_start]
        if others and not self.args.all and self.args.keep == 1 and not self.totals:
            self.play_start()
        return [number for number in numbers if number == with_start] + others

    def play_start(self):
        """Plays the fights of START alone, so that its total is known, if it assembles."""
        rules, name = rules_of(self.args).words(), f"start.{self.pid}"
        asm = ["asm", *rules, "--setting", "start", "t.red"]
        tune = ["tune", *rules, f"{name}.red", "s.csv", f"{name}.cert", *self.opponents]
        if self.run(asm, f"{name}.red") == 0 and self.run(tune, f"{name}.report") == 0:
            with contextlib.suppress(ValueError):
                report = read_report((self.path / f"{name}.report").read_text())
                self.totals[self.template.start] = Part(range(1), report).total()
        self.top.remove(self.UNFINISHED_FILES)

    def run(self, words, output_name):
        """Runs the program in the folder, with its output in a file there. Returns its status."""
        with open_new(self.top.descriptor, output_name, "wb") as output:
            return subprocess.run(["./cwtune", *words], cwd=self.path, stdin=subprocess.DEVNULL,
                                  stdout=output, stderr=subprocess.DEVNULL,
                                  preexec_fn=end_with_parent).returncode

    def floor(self, number):
        """Returns the floor of a part that begins now, as words of `tune`: the K-th best total that
        is known, or one more if the setting that has it comes before the part, since an equal total
        does not beat it."""
        ranked = sorted(self.totals, key=lambda setting: (-self.totals[setting], setting))
        if len(ranked) < self.args.keep or self.args.all:
            return []
        last_kept = ranked[self.args.keep - 1]
        is_before = number != NUMBER and last_kept < self.settings(number).start
        return [f"--floor={self.totals[last_kept] + is_before}"]

    def prepare(self, number):
        """Writes the template of a part: its START is the setting of the part that is the fewest
        steps from START. The other settings of the part first play the fights that this one lost,
        so they are dropped sooner. A text that would be too long stays as it is."""
        nearest = self.template.nearest_start(self.settings(number))
        text = self.template.with_start(nearest)
        if len(text) > MOST_TEMPLATE_BYTES:
            text = (self.path / "t.red").read_bytes()
        self.write(f"{number}.{self.pid}.red", text)

    def words(self, number):
        name = f"{number}.{self.pid}"
        return ["./cwtune", "tune", f"--part={number}/{self.piece_count}", *self.tune_options,
                *self.floor(number), f"{name}.red", "s.csv", f"{name}.cert", *self.opponents]

    def take_result(self, number, status):
        """Keeps what a run of a part wrote, if that is a result. Returns the fault if it is not."""
        fault = self.file(number, "fault").read_text(errors="surrogateescape")
        report, cert_digest = "", None
        if status == 0:
            report = self.file(number, "report").read_text(errors="replace")
            if not REPORT.fullmatch(report):
                return Fault("its report is cut, or not a report", 3)
            cert_digest = sha256_of(self.file(number, "cert"))
            self.file(number, "cert.inputs").unlink(missing_ok=True)
            self.file(number, "cert").replace(self.cert(number))
        elif (status, fault) != (1, NO_CANDIDATE):
            return self.fault(number, status)
        self.write_done(number, {"report": report, "cert": cert_digest})
        return None

    def cert(self, number):
        """Returns where the certificate of a part is, once the part is done."""
        return self.path / f"{number}.cert"

    def result(self, number):
        """Returns what came of a part, or None if it is not done. Notes its totals."""
        result = self.read_done(number)
        try:
            if (not result or bool(result.report) != bool(result.cert)
                    or result.cert and self.sha256(f"{number}.cert") != result.cert):
                return None
        except FileNotFoundError:
            return None
        part = Part(self.settings(number), read_report(result.report))
        self.totals |= {setting: total for setting, (total, _) in part.ranked().items()}
        return part

    def whole(self):
        return self.path / "whole.cert"

    def writing_whole(self):
        """Opens that file, which is there once it is whole."""
        return self.whole_file("whole.cert")
