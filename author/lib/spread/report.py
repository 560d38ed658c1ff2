"""Puts the parts of a tuning together: the report and the certificate of the whole template."""
import contextlib

from ..endings import Fault
from ..regular import open_regular, read_regular
from ..words import counted
from ..writing import naming
from .folder import MOST_REPORT_BYTES
from .parts import Part

# The most that `cwtune check` reads of a certificate.
MOST_CERT_BYTES = 1 << 30


def best_of(parts):
    """Returns the first of the parts with the greatest total, or None if none has a best one."""
    return max((part for part in parts if part.has_best()), key=Part.total, default=None)


def index_of(part):
    return part.settings.start + int(part.report["best"])


def summed(parts, name, index):
    """Returns the sum over all reports of the number at `index` in their line `name`."""
    return sum(int(part.report[name].split()[index]) for part in parts if part.report)


def ranks_of(parts, keep):
    """Returns the first `keep` lines `rank` of the whole template, none if `keep` is 1."""
    if keep == 1:
        return []
    ranked = {}
    for part in parts:
        ranked |= part.ranked()
    first = sorted(ranked, key=lambda setting: (-ranked[setting][0], setting))[:keep]
    return [rank_line(rank, setting, *ranked[setting]) for rank, setting in enumerate(first, 1)]


def rank_line(rank, setting, total, constants):
    values = f" {constants}" if constants != "-" else ""
    return f"rank {rank} setting {setting} total {total}{values}"


def report_lines(parts, setting_count):
    best = best_of(parts)
    return [
        f"vectors {setting_count}",
        f"candidates {summed(parts, 'candidates', 0)}",
        f"best {index_of(best)}",
        f"constants {best.report['constants']}",
        f"total {best.report['total']}",
        f"fights {summed(parts, 'fights', 0)} of {summed(parts, 'fights', 2)}",
    ]


@contextlib.contextmanager
def reading(folder, number):
    """Gives a block the path of the certificate of a part, and names it in its faults."""
    path = folder.cert(number)
    try:
        with naming(path):
            yield path
    except ValueError:
        raise Fault(f"{path} is not a certificate of part {number}", 3) from None


def rows_of(folder, number, part):
    """Yields a row for each setting of a part, with its index in the whole template."""
    first, count = part.settings.start, len(part.settings)
    if not part.report:
        yield from (f"refused,{setting},-" for setting in part.settings)
        return
    with reading(folder, number) as path:
        header, _, *rows = read_regular(MOST_CERT_BYTES, path).decode().splitlines()
        _, _, count_there = header.split(",")
        if {count_there, part.report["vectors"], str(len(rows))} != {str(count)}:
            raise Fault(f"the certificate of part {number} has {counted(len(rows), 'row')}, and "
                        f"the part has {counted(count, 'setting')}", 3)
        for row in rows:
            kind, setting, content = row.split(",")
            if kind == "same":
                content = str(int(content) + first)
            yield f"{kind},{int(setting) + first},{content}"


def write_whole(folder, parts):
    best = best_of(parts.values())
    number = next(number for number, part in parts.items() if part is best)
    with reading(folder, number) as path, open_regular(path) as file:
        _, version, _ = file.readline(MOST_REPORT_BYTES).decode().split(",")
    with folder.writing_whole() as file:
        file.write(f"cwcert,{version},{folder.setting_count}\n"
                   f"best,{index_of(best)},{best.total()}\n")
        for number, part in parts.items():
            file.writelines(f"{row}\n" for row in rows_of(folder, number, part))
