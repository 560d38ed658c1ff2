"""Prints what a certificate says of each opponent, of the best settings and of the constants.

Schedule, template and rules are those of the tuning, as CERT.inputs names them; without that file
give them.

Example: cwtune-scores my.cert
"""
import concurrent.futures, os

from . import cert_inputs, tuning_files
from .endings import Fault, note
from .program import assemble, rules_of
from .watching import watched
from .words import (add_cwtune, add_files, add_number, add_shared, command_parser, counted,
                    print_json)

# With more settings than this none is assembled, to save time.
MOST_ASSEMBLED = 2000


def scores_of(setting, cert, fights, template):
    """Returns a setting's total, None if dropped or refused, and scores, None if refused."""
    points = cert.points(setting)
    opponents = sorted({fight.opponent for fight in fights})
    return {"setting": setting, "values": template and template.values_by_name(setting),
            "total": cert.total_of(setting, fights),
            "opponents": None if points is None else [score_of(opponent, points, fights)
                                                      for opponent in opponents]}


def score_of(opponent, points, fights):
    scheduled = [(index, fight.weight) for index, fight in enumerate(fights)
                 if fight.opponent == opponent]
    played = [(points[index], weight) for index, weight in scheduled if index in points]
    outcomes = [fight_points for fight_points, _ in played]
    wins, ties, losses = map(outcomes.count, (3, 1, 0))
    return {"opponent": opponent, "wins": wins, "ties": ties, "losses": losses,
            "score": sum(fight_points * weight for fight_points, weight in played),
            "greatest": 3 * sum(weight for _, weight in scheduled),
            "not_played": len(scheduled) - len(played)}


def print_scores(title, scores):
    print(title)
    if scores["opponents"] is None:
        print("    does not assemble")
    for one in scores["opponents"] or ():
        left = f", {one['not_played']} not played" if one["not_played"] else ""
        print(f"    opponent {one['opponent']}: {one['wins']} wins {one['ties']} ties "
              f"{one['losses']} losses, {one['score']} of {one['greatest']}{left}")


def print_first(numbers, template, wanted):
    played_all, dropped = counted(numbers["played_all"], "setting"), numbers["dropped"]
    print(f"{played_all} played all fights, {dropped} {'was' if dropped == 1 else 'were'} dropped"
          if dropped else f"best of {played_all}")
    if dropped:
        print(f"    {tuning_files.exactness_text(numbers['exact'], wanted)}")
    for ranked in numbers["ranking"]:
        constants = f" {template.constants(ranked['setting'])}" if template else ""
        print(f"    setting {ranked['setting']}: total {ranked['total']}{constants}")


class Warriors:
    """Says whether settings make equal warriors: by their `same` rows, else by their load files."""

    def __init__(self, cert, args):
        self.cert, self.load_files = cert, {}
        if cert.count <= MOST_ASSEMBLED:
            try:
                self.read_load_files(args)
            except Fault as fault:
                note(str(fault))

    def read_load_files(self, args):
        """Assembles each setting whose row does not name another one with an equal warrior."""
        rules = rules_of(args).words()
        settings = list(filter(self.cert.lists_fights, range(self.cert.count)))

        def load_file(setting):
            return assemble(args.program, *rules, f"--setting={setting}", "--", args.template)[0]

        with concurrent.futures.ThreadPoolExecutor(len(os.sched_getaffinity(0))) as pool:
            self.load_files = dict(zip(settings, pool.map(load_file, settings)))

    def are_one(self, settings):
        """Returns whether these settings make one warrior, or None if that is not known."""
        if not all(map(self.cert.assembles, settings)):
            return False
        twins = {self.cert.twin(setting) for setting in settings}
        if len(twins) == 1:
            return True
        load_files = {self.load_files.get(twin) for twin in twins}
        return None if None in load_files or b"" in load_files else len(load_files) == 1


def idle_text(constant):
    if constant["values"] == 1:
        return "only one value"
    text = f"{constant['same']} of {constant['choices']}"
    if constant["not_known"]:
        return f"{text}, {constant['not_known']} not known"
    return text + ", changes nothing" * (constant["same"] == constant["choices"])


def constants_of(template, warriors):
    """Returns for each constant in how many choices of the others it changes nothing."""
    count, block, constants = len(template.values_of_settings), 1, []
    for name, values in reversed(list(zip(template.names, template.ranges))):
        step, block = block, block * len(values)
        groups = (range(first, first + block, step) for start in range(0, count, block)
                  for first in range(start, start + step))
        alike = [warriors.are_one(group)
                 for group in watched(groups, count // len(values), f"choices beside {name}")]
        constants.insert(0, {"name": name, "values": len(values), "choices": len(alike),
                             "same": alike.count(True), "not_known": alike.count(None)})
    return constants


def numbers_of(args, cert, fights, template):
    """Returns all that the command prints: the object of --json."""
    full, dropped, exact = cert.ranked(fights)
    first = full[:min(args.top, exact)]
    return {"greatest": fights.greatest, "best": scores_of(cert.best, cert, fights, template),
            "start": template and scores_of(template.start, cert, fights, template),
            "played_all": len(full), "dropped": dropped, "exact": exact,
            "ranking": [{"setting": setting, "total": total,
                         "values": template and template.values_by_name(setting)}
                        for total, setting in first],
            "constants": template and constants_of(template, Warriors(cert, args))}


def print_numbers(numbers, template, wanted):
    best = numbers["best"]
    constants = f" {template.constants(best['setting'])}" if template else ""
    print_scores(f"best setting {best['setting']}, total {best['total']} of {numbers['greatest']}"
                 f"{constants}", best)
    if template:
        start, total = numbers["start"], numbers["start"]["total"]
        less = "" if total is None else (
            f", total {total}, {best['total'] - total} less than the best")
        print_scores(f"START, setting {start['setting']}{less} "
                     f"{template.constants(start['setting'])}", start)
    print_first(numbers, template, wanted)
    if template:
        print("constants that change nothing: in how many choices of the others")
    for constant in numbers["constants"] or ():
        print(f"    {constant['name']}: {idle_text(constant)}")


def print_totals(cert, fights, template):
    """Prints a line for each setting, with commas: its total, or its cap if it was dropped."""
    names = template.names if template else []
    print(",".join(["setting", "row", "total", *names]))
    for setting in range(cert.count):
        row = ("refused" if not cert.assembles(setting)
               else "all" if cert.plays_all(setting, fights) else "dropped")
        total = "" if row == "refused" else cert.cap(setting, fights)
        values = template.values_of_settings[setting] if template else []
        print(",".join(map(str, [setting, row, total, *values])))


def make_parser():
    parser = command_parser(__doc__)
    add_files(parser, "cert")
    parser.add_argument("schedule", metavar="SCHEDULE", nargs="?",
                        help="the schedule [default: that of the tuning]")
    parser.add_argument("--template", metavar="FILE", help="the template, for the constants' names "
                        "and for START [default: that of the tuning]")
    add_number(parser, "--top", "K", 10, "how many of the best settings")
    output = parser.add_mutually_exclusive_group()
    add_shared(output, "--json")
    output.add_argument("--csv", action="store_true",
                        help="print the total of each setting, a line for each, with commas")
    add_cwtune(parser, of_tuning=True)
    return parser


def main():
    parser = make_parser()
    args = parser.parse_args()
    cert, template, why_unused = cert_inputs.read_tuning(args)
    if args.schedule is None:
        parser.error(f"give SCHEDULE: {why_unused or 'the schedule of the tuning is not there'}")
    fights = cert.fights(args.schedule)
    if args.csv:
        print_totals(cert, fights, template)
    else:
        numbers = numbers_of(args, cert, fights, template)
        print_json(numbers) if args.json else print_numbers(numbers, template, args.top)
    cert_inputs.print_note(why_unused)
