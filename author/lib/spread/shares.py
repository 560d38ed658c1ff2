"""Says how `cwtune-spread` checks each share, and reads what came of it: in the folder CERT.shares,
or beside CERT.

Share I of K of a check looks at all of the certificate's form and, of the rows, only at those of
its own settings. A certificate is accepted exactly if all shares of one K accept it. `I.done` has
the line that the check of share I printed.
"""
import re
from typing import Annotated

from ..endings import Fault
from ..program import rules_of
from ..regular import sha256_of
from ..tuning_files import read_records
from .folder import JOB_FILES, ClusterPieces, Copy, SpreadFolder, copies_of
from .parts import COUNT, RANK

ACCEPTED = re.compile(rf"accepted share ({COUNT})/({COUNT}) best ({COUNT}) total ({COUNT})\n"
                      rf"(?P<ranks>({RANK})*)")
REJECTED = re.compile(rf"rejected row ({COUNT}) ([A-Za-z]+)\n")
# The reasons of the form of a certificate and of its best row, which all shares find alike.
REASONS_OF_ALL_SHARES = {"Malformed", "Version", "RowCount", "BestRow"}


def is_verdict(text, status, number, share_count, keep=1):
    """Returns whether a check of share `number` may print this text and end with this status. With
    `keep` above 1 a check that accepts also prints 1 to `keep` lines `rank`."""
    if accepted := ACCEPTED.fullmatch(text):
        ranks = accepted["ranks"].count("\n")
        return (status == 0 and accepted.group(1, 2) == (str(number), str(share_count))
                and (1 <= ranks <= keep if keep > 1 else ranks == 0))
    return status == 1 and REJECTED.fullmatch(text) is not None


def verdict_in(text, number, share_count, keep):
    """Returns a text that a share may have printed, or None."""
    status = 0 if ACCEPTED.fullmatch(text) else 1
    return text if is_verdict(text, status, number, share_count, keep) else None


def verdict_of(texts, cert):
    """Returns what the whole check prints, from the texts that all shares printed."""
    matches = filter(None, map(REJECTED.fullmatch, texts))
    rejections = [(int(match[1]), match[2]) for match in matches]
    if rejections:
        row, reason = first_rejection(rejections, cert)
        return f"rejected row {row} {reason}\n"
    answers = {ACCEPTED.fullmatch(text).group(3, 4, "ranks") for text in texts}
    if len(answers) != 1:
        raise Fault("the shares name different best settings", 3)
    best, total, ranks = answers.pop()
    return f"accepted best {best} total {total}\n{ranks}"


def first_rejection(rejections, cert):
    """Returns the rejection that a check of the whole finds first. It sees `same` rows last."""
    records = read_records(cert, "replace") if len(rejections) > 1 else ()
    same = {index for index, record in enumerate(records) if record[0] == "same"}

    def order(rejection):
        row, reason = rejection
        return reason not in REASONS_OF_ALL_SHARES, row in same, row

    return min(rejections, key=order)


def keep_words(keep):
    return [f"--keep={keep}"] if keep > 1 else []


class ClusterShares(ClusterPieces):
    """Shares. Job I writes CERT.I.check: the digest of CERT, what `check` prints, the digest."""

    PIECE = "share"

    def __init__(self, args, setting_count):
        super().__init__(args, setting_count)
        self.digest = sha256_of(args.cert)

    def result(self, number):
        """Returns what a share printed, or None if its job left nothing for this certificate."""
        try:
            lines = self.read(number, "check").splitlines(keepends=True)
        except (FileNotFoundError, ValueError):
            return None
        if len(lines) < 3 or lines[0] != lines[-1] or not lines[0].startswith(self.digest):
            return None
        return verdict_in("".join(lines[1:-1]), number, self.piece_count, self.keep)

    def fault(self, number):
        return self.fault_in(f"{number}.check.fault", f"{self.given_path}.{number}.check is cut, "
                             "or of another certificate, number of shares or --keep")


class Shares(SpreadFolder):
    """The folder CERT.shares, or another one."""

    PIECE, THROWN, INSTEAD = "share", "the shares", "folder by --work"
    OWN_FILES = r"cwtune|[ts]\.(red|csv)|o\d+\.red|c\.cert|\d+\.done"
    UNFINISHED_FILES = JOB_FILES
    RESULT = Annotated[str, re.compile(f"{ACCEPTED.pattern}|{REJECTED.pattern}")]
    RETURNED_KINDS = ["report", "fault"]

    def __init__(self, args, setting_count, cert):
        self.cert, self.rules, self.keep = cert, rules_of(args), args.keep
        self.is_of_tuning = not args.check_only
        copies = copies_of(args, Copy("certificate", "c.cert", cert))
        share_count = args.shares or min(setting_count, 8 * args.jobs)
        super().__init__(args, args.work or f"{args.cert}.shares", copies,
                         {"rules": self.rules._asdict(), "keep": args.keep}, share_count,
                         setting_count)
        if args.shares and args.shares != self.piece_count:
            # In a tuning --anew would throw the parts away, too.
            anew = "" if self.is_of_tuning else (", or give --anew to throw them away and begin "
                                                 "again")
            raise Fault(f"{self.given_path} has {self.piece_count} shares: leave out --shares"
                        f"{anew}", 2)

    def is_useless(self, mark):
        """Returns whether the shares are of other inputs than this tuning's, which replace them."""
        return self.is_of_tuning and mark.of != self.inputs_fingerprint()

    def words(self, number):
        return ["./cwtune", "check", f"--share={number}/{self.piece_count}",
                *keep_words(self.keep), *self.rules.words(), "t.red", "s.csv", "c.cert",
                *self.opponents]

    def take_result(self, number, status):
        """Keeps what a share printed, if that is a verdict. Returns the fault if it is not."""
        printed = self.file(number, "report").read_text(errors="replace")
        if is_verdict(printed, status, number, self.piece_count, self.keep):
            self.write_done(number, printed)
            return None
        return self.fault(number, status)

    def result(self, number):
        text = self.read_done(number)
        return text and verdict_in(text, number, self.piece_count, self.keep)
