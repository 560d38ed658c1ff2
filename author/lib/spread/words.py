"""Adds the options of `cwtune-spread` to its parser, and refuses those that do not fit together."""
from ..tuning_files import MOST_KEPT, MOST_SETTINGS
from ..words import add_cwtune, add_files, add_number, add_shared, number_from

# The most parts and the most shares that the program takes; more than settings do nothing.
MOST_PIECES = 2 ** 32 - 1


def add_options(parser):
    parser.add_argument("--progress", action="store_true",
                        help="print a line every 20 seconds on standard error, if it is not a "
                        "terminal")
    parser.add_argument("--explain", action="store_true",
                        help="explain a refusal, say what is ignored in the template, and print "
                        "the total of START, as at a terminal")
    add_search(parser)
    add_check(parser)
    add_pieces(parser)
    add_cwtune(parser)
    add_files(parser, "template", "schedule")
    parser.add_argument("cert", metavar="CERT", help="the file to which the certificate is "
                        "written, or with --check-only the certificate")
    add_files(parser, "opponents")


def add_pieces(parser):
    group = parser.add_argument_group("jobs")
    add_shared(group, "--jobs")
    group.add_argument("--parts", type=number_from(1), metavar="K",
                       help="parts to split the settings into [default: 16 for each job]")
    group.add_argument("--shares", type=number_from(1, MOST_SETTINGS), metavar="K",
                       help="shares to split a check into [default: 8 for each job]")
    group.add_argument("--hosts", metavar="FILE", help="run on these hosts, a line each, over "
                       "ssh (--sshloginfile of GNU parallel; `:` is this one)")
    add_shared(group, "--anew")
    group.add_argument("--merge", type=number_from(1, MOST_SETTINGS), metavar="K",
                       help="run nothing, and put together what K jobs of a cluster wrote: CERT.1 "
                       ".. CERT.K, or with --check-only CERT.1.check .. CERT.K.check")


def add_search(parser):
    group = parser.add_argument_group("search")
    add_number(group, "--keep", "K", 1, "find and check the first K of the ranking, as "
               "`cwtune tune --keep K`", high=MOST_KEPT)
    methods = group.add_mutually_exclusive_group()
    methods.add_argument("--all", action="store_true",
                         help="play every fight of every setting, as `cwtune tune --all`")
    add_number(methods, "--cache", "N", 4096, "how many settings are remembered in each part",
               low=0)  # `cwtune` refuses 0, with its own words


def add_check(parser):
    group = parser.add_argument_group("check")
    checks = group.add_mutually_exclusive_group()
    checks.add_argument("--check", action="store_true",
                        help="check the certificate, in shares, before it is written")
    checks.add_argument("--check-only", action="store_true",
                        help="tune nothing, and check CERT, in shares")
    group.add_argument("--work", metavar="FOLDER",
                       help="where the shares that are done stay [default: CERT.shares]")


def refuse_idle(parser, args):
    """Refuses some options that would do nothing beside the others."""
    pairs = [("--merge", name) for name in ["parts", "hosts"] if args.merge]
    pairs += [("--check-only", name) for name in ["parts", "all"] if args.check_only]
    pairs += [("--check-only --merge", name) for name in ["shares", "work"]
              if args.check_only and args.merge]
    for option, name in pairs:
        if getattr(args, name):
            parser.error(f"argument {option}: not allowed with argument --{name}")
    for name in ["shares", "work"]:
        if getattr(args, name) and not (args.check or args.check_only):
            parser.error(f"argument --{name}: needs --check or --check-only")
