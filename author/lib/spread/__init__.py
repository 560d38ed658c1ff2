"""Tunes a template on many processors, or on many hosts, and puts the parts together.

The settings are split into parts, and each part is tuned by `cwtune tune --part`. Then the report
of the whole template is printed as `tune` prints it, and CERT is written, the certificate of the
whole template. Which fights its rows list depends on which part ends when; the best setting, the
ranking and the totals do not. `docs/TOOLS.md` says which floors parts get.

This command need not be trusted: `cwtune check` checks CERT. With --check that is done before CERT
is written, in shares by `cwtune check --share`, on the same processors or hosts. With --check-only
nothing is tuned, and a CERT that is there already, from wherever, is checked that way. A job of a
check holds the whole certificate in memory, 1 GiB of it at most.

What is done stays in the folders CERT.parts and CERT.shares until all is done. After Ctrl-C or a
crash repeat the command to run the rest, with any --jobs. --anew throws it away. A folder made of
other inputs is refused.

Exit status, as that of `cwtune`: 0 done; 1 an input is refused, or CERT rejected; 2 usage error, or
a folder is of other inputs; 3 a job has no result, or a file cannot be read or written.

Example: cwtune-spread --jobs 4 my.red fights.csv my.cert dwarf.red scanner.red
"""
import contextlib, itertools, os, shutil, sys

from .. import cert_inputs, tuning_files
from ..endings import Fault, end_as, tell
from ..program import EXPLAIN, reading_output, rules_of, run_program, version_of
from ..regular import NotRegular
from ..words import command_parser
from ..writing import naming, whole_file
from .folder import SpreadFolder
from .hosts import HostJobs
from .jobs import LocalJobs, ended
from .parts import ClusterParts, Part, Parts
from .progress import PartsProgress, SharesProgress
from .report import best_of, index_of, ranks_of, report_lines, write_whole
from .shares import ClusterShares, Shares, keep_words, verdict_of
from .words import MOST_PIECES, add_options, refuse_idle

NO_SUCH_PART = b"error: --part I/K: the template has fewer than K settings\n"


def make_parser():
    parser = command_parser(__doc__)
    add_options(parser)
    return parser


def refuse_faults(args):
    """Ends as `tune` ends if it refuses the words or an input, at a terminal with the explanation.

    A template has at most a million settings. So if nothing else is wrong, `tune` looks at all
    inputs, says that there is no such part, and plays no fight.
    """
    completed = run(args, "tune", args.cert, f"--part=1/{MOST_PIECES}", *tune_options(args))
    if NO_SUCH_PART not in completed.stderr:
        end_as(args.program, completed.returncode, completed.stderr)


def refuse_endless(paths):
    """Refuses what is there and can keep a reader waiting for ever."""
    for path in paths:
        if os.path.exists(path) and not (os.path.isfile(path) or os.path.isdir(path)):
            raise NotRegular(path)


def explain_words(args):
    return ["--explain"] if args.explain or EXPLAIN else []


def run(args, command, cert, *options):
    return run_program(args.program, command, *options, *explain_words(args), "--", args.template,
                       args.schedule, cert, *args.opponents)


def tune_options(args):
    return [*rules_of(args).words(), "--all" if args.all else f"--cache={args.cache}",
            *keep_words(args.keep)]


def method_of(args):
    """Returns how the tuning searches, in the words of CERT.inputs."""
    return "all" if args.all else f"cache {args.cache}"


def count_settings(args):
    """Returns the number of settings, as the program counts, and its notes, which are shown."""
    completed = run_program(args.program, "settings", *explain_words(args), "--", args.template)
    if completed.returncode != 0:
        end_as(args.program, completed.returncode, completed.stderr)
    sys.stderr.buffer.write(completed.stderr)
    sys.stderr.flush()
    with reading_output(args.program, "settings"):
        return int(completed.stdout.split()[1]), completed.stderr


def rejection_by_form(args, cert, notes):
    """Returns what `check` prints of a certificate that it rejects for its form or its best row,
    else an empty text. Ends as `check` ends if it refuses an input. The notes were shown before.

    The first of 4294967295 shares has no setting, so nothing else is looked at.
    """
    completed = run(args, "check", cert, f"--share=1/{MOST_PIECES}", *keep_words(args.keep),
                    *rules_of(args).words())
    new_stderr = completed.stderr.removeprefix(notes)
    if completed.returncode != 0 and not completed.stdout:
        end_as(args.program, completed.returncode, new_stderr)
    sys.stderr.buffer.write(new_stderr)
    return completed.stdout.decode() if completed.returncode else ""


def check(args, setting_count, notes, cert):
    """Checks a certificate in shares. Returns what the whole check prints, and its status."""
    if line := rejection_by_form(args, cert, notes):
        return line, 1
    shares = (ClusterShares(args, setting_count) if args.check_only and args.merge
              else Shares(args, setting_count, cert))
    progress = SharesProgress(shares, args.progress)
    with explaining_stop(shares, progress):
        refuse_missing(shares, progress, run_jobs(args, shares, progress))
        shares.refuse_changed_inputs()
        verdict = verdict_of(progress.done(), cert)
        shares.clean_up()
    return verdict, 0 if verdict.startswith("accepted") else 1


@contextlib.contextmanager
def explaining_stop(folder, progress):
    """Says after Ctrl-C what is done. Raises it with a word, so that outer blocks say nothing."""
    try:
        yield
    except KeyboardInterrupt as stop:
        if not stop.args and isinstance(folder, SpreadFolder):
            tell("stopped: " + ("repeat the command" if folder.is_removed
                                else how_to_go_on(folder, progress)))
        raise KeyboardInterrupt("said") from None


def run_jobs(args, folder, progress):
    """Runs the pieces left, unless a cluster did. Returns faults by number, None for no fault."""
    if not isinstance(folder, SpreadFolder):
        return {number: folder.fault(number) for number in progress.numbers_left()}
    faults = {}
    try:
        progress.show()
        numbers = folder.in_order(progress.numbers_left())
        jobs = (HostJobs if args.hosts else LocalJobs)(args, folder, numbers)
        for number, status in ended(jobs, progress.show):
            faults[number] = folder.take_result(number, status)
            progress.results[number] = folder.result(number)
        return faults | dict.fromkeys(jobs.waiting, jobs.fault)
    finally:
        progress.clear()


def how_to_go_on(folder, progress):
    return (f"{len(progress.done())} of {folder.piece_count} {folder.PIECE}s are done, and kept in "
            f"{folder.given_path}: repeat the command to run the others")


def refuse_missing(folder, progress, faults):
    """Ends if a piece has no result: as its `cwtune` if that refused an input, else with 3."""
    missing = progress.numbers_left()
    if not missing:
        return
    known = [faults[number] for number in missing if faults.get(number)]
    for fault in known:
        if isinstance(fault, Fault) and fault.status < 3:
            raise fault
    numbers = f"{'s' * (len(missing) > 1)} {', '.join(map(str, missing))} of {folder.piece_count}"
    why = f" ({known[0]})" if known else ""
    hint = f"\n{how_to_go_on(folder, progress)}" if isinstance(folder, SpreadFolder) else ""
    raise Fault(f"no result for {folder.PIECE}{numbers}{why}{hint}", 3)


def refuse_floors(parts):
    """Refuses parts whose floors were too great to show which setting is the best."""
    best = best_of(parts)
    # A floor of 0 hides nothing. Without a best setting any other may hide one.
    greatest, best_setting = (best.total(), index_of(best)) if best else (-1, 0)
    for part in filter(Part.is_below, parts):
        floor = int(part.report["total"].split()[1])
        first = part.settings.start
        if floor - 1 > greatest or floor - 1 == greatest and first < best_setting:
            raise Fault(f"the part from setting {first} on says only that it is below {floor}, and "
                        f"no other total is above {max(greatest, 0)}: it may hide the best", 2)


def refuse_ranking(args, cert, parts):
    """Refuses parts of a cluster that do not show the first of the ranking, or do not rank them."""
    if args.merge and args.keep > 1:
        found = tuning_files.Certificate(cert)
        found.path = args.cert  # which faults name
        full, dropped, exact = found.ranked(found.fights(args.schedule))
        ranked = {setting for part in parts for setting in part.ranked()}
        first = [setting for _, setting in full[:min(exact, args.keep)]]
        shown = len(list(itertools.takewhile(ranked.__contains__, first)))
        if shown < min(args.keep, len(full) + dropped):
            raise Fault(f"the parts show the first {shown} of the ranking, and not {args.keep}: "
                        f"were they tuned with --keep {args.keep}?", 2)


def finish(args, folder, progress, notes):
    """Puts the parts together, writes CERT and prints the report. Returns the status."""
    parts, whole = progress.done(), folder.whole()
    folder.refuse_changed_inputs()
    if not any(part.report for part in parts):  # no setting assembles, and `tune` says so
        folder.clean_up()
        completed = run(args, "tune", args.cert, f"--part=1/{folder.piece_count}",
                        *tune_options(args))
        end_as(args.program, completed.returncode, completed.stderr.removeprefix(notes))
    refuse_floors(parts)
    with naming(folder.given_path):
        write_whole(folder, progress.results)
    refuse_ranking(args, whole, parts)
    ranks = ranks_of(parts, args.keep)
    printed, status = check(args, folder.setting_count, notes, whole) if args.check else ("", 0)
    if status:
        print(printed, end="", flush=True)
        tell(f"{args.cert} is not written, and the parts stay")
        return status
    verdict, checked_ranks = printed.splitlines()[:1], printed.splitlines()[1:]
    if verdict and checked_ranks != ranks:
        raise Fault("the check names another ranking than the parts", 3)
    print_start(args, whole)
    with whole.open() as source, whole_file(args.cert) as file:
        shutil.copyfileobj(source, file)
    write_inputs(args)
    print(*report_lines(parts, folder.setting_count), *ranks, *verdict, sep="\n", flush=True)
    folder.clean_up()
    return 0


def write_inputs(args):
    """Writes CERT.inputs beside a regular CERT, but not to a FIFO or the like, nor over CERT, to
    which a link of that name may lead; if that fails, removes an older one."""
    name = f"{args.cert}{cert_inputs.SUFFIX}"
    if (not os.path.isfile(args.cert) or os.path.exists(name)
            and (not os.path.isfile(name) or os.path.samefile(name, args.cert))):
        return
    files = [args.template, args.schedule, *args.opponents]
    try:
        text = cert_inputs.text_of(version_of(args.program), rules_of(args), method_of(args),
                                   args.cert, files)
        with whole_file(name, "wb") as file:
            file.write(os.fsencode(text))
    except (Fault, OSError, ValueError):
        with contextlib.suppress(OSError):
            os.unlink(name)


def print_start(args, whole):
    """Says what START made by the certificate `whole`, if it played all and somebody asks."""
    if not explain_words(args):
        return
    cert, template = tuning_files.Certificate(whole), tuning_files.Template(args.template)
    total = cert.total_of(template.start, cert.fights(args.schedule))
    if total is not None:
        tell(f"  START, setting {template.start}, total {total} "
             f"{template.constants(template.start)}")


def tune(args, setting_count, notes):
    """Tunes in parts, or puts together what the jobs of a cluster wrote. Returns the status."""
    if args.merge and args.merge > setting_count:
        raise Fault(f"--merge {args.merge}: the template has fewer than {args.merge} settings", 2)
    folder = (ClusterParts(args, setting_count) if args.merge
              else Parts(args, setting_count, tune_options(args)))
    progress = PartsProgress(folder, args.progress)
    for number, result in progress.results.items() if args.merge else ():
        if result and result.report:  # else an older CERT.I may be there
            part = f"{number}/{args.merge}"
            cert_inputs.refuse_other_tuning(args, folder.cert(number), part, method_of(args))
    with explaining_stop(folder, progress):
        refuse_missing(folder, progress, run_jobs(args, folder, progress))
        try:
            return finish(args, folder, progress, notes)
        finally:
            folder.whole().unlink(missing_ok=True)


def main():
    parser = make_parser()
    args = parser.parse_args()
    refuse_idle(parser, args)
    refuse_endless([args.template, args.schedule, *args.opponents, *[args.cert] * args.check_only])
    if not args.check_only:
        refuse_faults(args)
        return tune(args, *count_settings(args))
    verdict, status = check(args, *count_settings(args), args.cert)
    print(verdict, end="", flush=True)
    return status
