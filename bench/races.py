"""Races searches of large templates, at equal processor time. pMARS judges what they find.

The search is `cwtune-seek`; it races `bench.naive`, and with --climb the climb of another
checkout, on the templates and opponents of `bench/races`. A run that is judged is a line of the
results, and is not repeated. The exit status is 3 if a search fails.
"""
import concurrent.futures, math, os, pathlib, re, subprocess, sys, tempfile, time
from typing import NamedTuple

from author.lib.endings import Fault, end_with_parent, run_tool
from author.lib.grid import Grid
from author.lib.program import Rules, output_of, program_of
from author.lib.series import series
from author.lib.tuning_files import Fight, schedule_text
from author.lib.warrior import equ_line
from author.lib.words import add_number, add_program, module_parser, number_from
from author.lib.writing import naming
from pmars.games import READING

from .races_table import SEARCHES, START, Measured, Race, Results, Run, table_of
from .searches import some_of

HERE = pathlib.Path(__file__).resolve().parent
TEMPLATES = {path.stem: path for path in sorted(HERE.glob("races/templates/*.red"))}
UNSEEN = ["compare-scanner", "gate-clear", "imp-paper", "imp-stone", "scissors", "trapper"]
OPPONENTS = [*sorted(HERE.glob("races/opponents/*.red")),
             *(HERE / "unseen" / f"{name}.red" for name in UNSEEN)]
# How pMARS judges.
JUDGE = ["-b", "-r", "500", "-F", "7001"]
COUNTS = re.compile(r"^Results: (\d+) (\d+) (\d+)$", re.M)
# What the search prints of its gain, if it found another setting than START.
SAID = re.compile(r"^over START: ([+-][0-9.]+)% \+- ([0-9.]+)", re.M)
# The climb has no end by time: it is stopped at this part of its budget, and gives the best so far.
CLIMB_PART = 0.97
# The climb's fights against each opponent: FEW, and with a budget of LONG seconds or more MANY.
FEW, MANY, LONG = 10, 20, 150
# The first position of its fights, which the seed moves.
FIRST_POSITION = 4320


class Command(NamedTuple):
    """The command of a search, and the processor seconds after which it is stopped."""

    words: list
    stop: float = math.inf


def command_of(args, race, folder):
    """Returns the command of a run. Writes the schedule that it reads."""
    template, program = TEMPLATES[race.template], f"--program={args.program}"
    schedule = folder / "schedule.csv"
    if race.search == "naive":
        return Command(["-m", "bench.naive", program, race.seconds, race.seed, template,
                        *OPPONENTS])
    if race.search == "climb":
        rounds = FEW if race.seconds < LONG else MANY
        schedule.write_text(schedule_text(series_of(FIRST_POSITION + race.seed, rounds)))
        return Command([args.climb / "cwtune-seek", program, template, schedule, *OPPONENTS],
                       CLIMB_PART * race.seconds)
    schedule.write_text(schedule_text(series_of(FIRST_POSITION, 1)))
    return Command([HERE.parent / "author/cwtune-seek", f"--minutes={race.seconds / 60:g}",
                    f"--seed={race.seed}", "--jobs=1", program, template, schedule, *OPPONENTS])


def series_of(seed, rounds):
    """Returns the fights of a series against each opponent."""
    rules = Rules()
    return [Fight(opponent, *fight) for opponent in range(len(OPPONENTS))
            for fight in series(seed, rounds, rules.core, rules.distance)]


def seconds_of(pid):
    """Returns the processor seconds of a process so far, with its children, but not theirs."""
    ticks = 0
    children = pathlib.Path(f"/proc/{pid}/task/{pid}/children").read_text().split()
    for process in [pid, *children]:
        try:
            stat = pathlib.Path(f"/proc/{process}/stat").read_text()
        except (FileNotFoundError, ProcessLookupError):
            continue
        ticks += sum(map(int, stat.rpartition(")")[2].split()[11:15]))
    return ticks / os.sysconf("SC_CLK_TCK")


def wait(process, stop):
    """Waits for the end of a process, which is asked to end after `stop` processor seconds.
    Returns those that it used with all its children.

    A child that it kills then, without waiting for it, counts as far as was seen.
    """
    seen = 0.0
    while True:
        pid, status, usage = os.wait4(process.pid, os.WNOHANG)
        if pid:
            process.returncode = os.waitstatus_to_exitcode(status)
            return max(seen, usage.ru_utime + usage.ru_stime)
        if seen < stop < math.inf:
            seen = seconds_of(process.pid)
            if seen >= stop:
                process.terminate()
        time.sleep(0.1)


def searched(args, race, folder):
    """Runs a search, which has to succeed. Returns its processor seconds and its errors; what it
    printed is the file `found.red` of the folder.

    It is in a session of its own, so that Ctrl-C does not end it with a result that is too early.
    """
    command, faults = command_of(args, race, folder), folder / "faults"
    with (folder / "found.red").open("wb") as found, faults.open("wb") as stderr:
        process = subprocess.Popen(
            [sys.executable, *map(str, command.words)], cwd=HERE.parent, stdin=subprocess.DEVNULL,
            stdout=found, stderr=stderr, env={**os.environ, "CWTUNE_CLOCK": "processor"},
            start_new_session=True, preexec_fn=end_with_parent)
        used = wait(process, command.stop)
    said = faults.read_text("utf-8", "replace")
    if process.returncode != 0:
        last = said.strip().rpartition("\n")[2]
        raise Fault(f"{race}: ended with status {process.returncode}: {last}", 3)
    return used, said


def values_found(race, grid, path):
    """Returns the values that the template in a file has as START."""
    try:
        found = Grid(path)
    except Fault:
        found = None
    if found is None or (found.names, found.ranges) != (grid.names, grid.ranges):
        raise Fault(f"{race}: it did not print the template", 3)
    return found.start_values


def gain_said(race, text):
    """Returns the gain that the search printed with its error."""
    match = SAID.search(text)
    if match is None:
        raise Fault(f"{race}: no line `over START: GAIN% +- ERROR`", 3)
    return Measured(*map(float, match.groups()))


def judge(pmars, grid, values, folder):
    """Returns the fights won, lost and tied by a setting against each opponent."""
    lines, path = list(grid.lines), folder / "warrior.red"
    for index, name, value in zip(grid.line_indices, grid.names, values):
        lines[index] = equ_line(name, value).encode("latin-1")
    path.write_bytes(b"\n".join(lines))
    printed = [COUNTS.search(output_of([pmars, *JUDGE, path, opponent], **READING))
               for opponent in OPPONENTS]
    if None in printed:
        raise Fault(f"{pmars}: not a pMARS server build", 3)
    return [tuple(map(int, counts.groups())) for counts in printed]


def play(args, race):
    """Returns the run of a race, searched and judged."""
    grid, used, said = Grid(TEMPLATES[race.template]), 0.0, None
    values = grid.start_values
    with tempfile.TemporaryDirectory() as name:
        folder = pathlib.Path(name)
        if race.search != START:
            used, text = searched(args, race, folder)
            values = values_found(race, grid, folder / "found.red")
        if race.search == "search" and values != grid.start_values:
            said = gain_said(race, text)
        return Run(race, used, said, values, judge(args.pmars, grid, values, folder))


def play_once(args, race):
    """Plays a race, unless it is in the results by now. Returns what is said of it."""
    results = Results(args.results)
    if race in results.runs:
        return f"{race}: played before"
    new = play(args, race)
    # One write of a line, so that several instances may append to one file.
    with naming(args.results), open(args.results, "a", encoding="utf-8") as file:
        file.write(new.line())
    if race.search == START:
        return f"{race}: {new.judged().value:.2f}%"
    return f"{race}: {results.gain(new)}, {new.used:.1f} s"


def races_of(args):
    """Returns the races that are asked for, in the order of playing."""
    return [Race(template, search, seconds, seed) for seconds in args.seconds
            for search in args.searches for seed in range(1, args.seeds + 1)
            for template in args.templates]


def play_all(args):
    """Plays START of each template, and then the races side by side. After a fault those under way
    are played to their ends."""
    for template in args.templates:
        print(play_once(args, Race(template, START, 0, 0)), flush=True)
    pool = concurrent.futures.ThreadPoolExecutor(args.jobs)
    playing = [pool.submit(play_once, args, race) for race in races_of(args)]
    try:
        for one in concurrent.futures.as_completed(playing):
            print(one.result(), flush=True)
    finally:
        pool.shutdown(wait=False, cancel_futures=True)


def budgets(word):
    """Reads a list of budgets for argparse."""
    return list(map(number_from(1), word.split(",")))


budgets.__name__ = "list of numbers"


def make_parser():
    parser = module_parser("bench.races", __doc__)
    add_program(parser)
    parser.add_argument("--pmars", metavar="PATH", help="a pMARS server build [default: the one "
                        "that pmars/pmars.sh builds]")
    parser.add_argument("--climb", type=pathlib.Path, metavar="FOLDER",
                        help="the folder `author` of a checkout whose cwtune-seek climbs")
    parser.add_argument("--searches", type=some_of(SEARCHES), metavar="SEARCH,..",
                        help=f"some of {', '.join(SEARCHES)} [default: each, climb with --climb]")
    parser.add_argument("--templates", type=some_of(TEMPLATES), default=list(TEMPLATES),
                        metavar="NAME,..", help="some of bench/races/templates [default: each]")
    parser.add_argument("--seconds", type=budgets, default=[60, 240], metavar="N,..",
                        help="budgets of processor time [default: 60,240]")
    add_number(parser, "--seeds", "N", 5, "runs of each, with the seeds 1 to N")
    add_number(parser, "--jobs", "N", 1, "runs side by side")
    parser.add_argument("--results", required=True, metavar="FILE",
                        help="what is appended to, a line of JSON for each run that was judged")
    parser.add_argument("--table", action="store_true",
                        help="print the table of the results, and play nothing")
    return parser


def settle(parser, args):
    """Finds the programs of the races, or refuses them."""
    args.searches = args.searches or SEARCHES[:3 if args.climb else 2]
    if "climb" in args.searches and not args.climb:
        parser.error("the climb needs --climb FOLDER")
    if args.climb and not (args.climb / "cwtune-seek").is_file():
        raise Fault(f"{args.climb}: no cwtune-seek in it", 2)
    args.climb = args.climb and args.climb.resolve()
    args.program = program_of(args.program)
    args.pmars = (program_of(args.pmars, "make pmars") if args.pmars
                  else output_of(["sh", HERE.parent / "pmars/pmars.sh"]).strip())


def main():
    parser = make_parser()
    args = parser.parse_args()
    if args.table and not os.path.exists(args.results):
        raise Fault(f"no results {args.results}", 2)
    if args.table:
        print("\n".join(table_of(Results(args.results))))
    else:
        settle(parser, args)
        play_all(args)


if __name__ == "__main__":
    run_tool(main)
