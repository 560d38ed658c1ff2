"""Plays the best settings of a certificate and START in fresh fights, and says what was gained.

A tuning picks the setting that was best in a few fights, and part of that is luck. Here START and
the K best of the settings that played the whole tuning play R fresh fights against each opponent.
The positions are random, and the same for all; who moves first alternates.

For each setting a line says its total in the tuning and in the fresh fights, the points as a part
of the greatest total, in percent, and the standard error of that. A line after these compares the
best one with START, or with the warrior of --against, such as the text that the template was made
of.

A setting has a rank if the certificate shows it: that of `cwtune tune --keep K` shows the first K.
Each opponent counts in the fresh fights as much as in the tuning.

Rules, schedule and opponents are those of the tuning, as CERT.inputs names them; without that file
give them.

Example: cwtune-holdout my.red my.cert
"""
import pathlib, random

from . import cert_inputs, tuning_files
from .endings import escaped, fault_of
from .gain import FreshPoints, gain_numbers, gain_text
from .program import EXPLAIN, rules_of, run_program
from .series import refuse_distance, refuse_fights
from .words import (FILE_HELP, add_cwtune, add_files, add_number, add_shared, command_parser,
                    counted, print_json)
from .writing import temporary_folder, write_bytes


def printed_by(*words):
    """Runs the program, and returns what it prints. Its fault is this command's."""
    completed = run_program(*words)
    if completed.returncode != 0:
        raise fault_of(completed)
    return completed.stdout


class Holdout:
    """The settings of a certificate, and what they make in fresh fights."""

    def __init__(self, args, cert, template):
        self.args, self.cert, self.template = args, cert, template
        self.fights = self.cert.fights(args.schedule)
        self.weights = tuning_files.weights_by_opponent(args.schedule, len(args.opponents))
        self.ranking = self.cert.ranked(self.fights)
        self.points = {}

    def schedule(self):
        """Returns the text of the schedule of the fresh fights, the same in each call."""
        args, dice = self.args, random.Random(self.args.seed)
        low, high = args.distance, args.core - args.distance
        return tuning_files.schedule_text(
            tuning_files.Fight(opponent, dice.randint(low, high), "co"[index % 2])
            for opponent in range(len(args.opponents)) for index in range(args.rounds))

    def play(self, *asm_words):
        """Returns what a warrior makes as the only setting of a template, at the same positions as
        all others. `asm_words` are the words of `cwtune asm` for it."""
        args, rules = self.args, rules_of(self.args).words()
        load_file = printed_by(args.program, "asm", *EXPLAIN, *rules, *asm_words)
        with temporary_folder() as folder:
            files = [pathlib.Path(folder, name) for name in ("t.red", "s.csv", "cert")]
            template, schedule, cert = files
            write_bytes(template, load_file)
            write_bytes(schedule, self.schedule().encode())
            printed_by(args.program, "tune", *EXPLAIN, *rules, "--", *files, *args.opponents)
            points = tuning_files.Certificate(cert).points(0)
        rounds = args.rounds
        return FreshPoints([[points[opponent * rounds + index] for index in range(rounds)]
                            for opponent in range(len(args.opponents))], self.weights)

    def fresh_points(self, setting):
        """Returns what a setting makes in the fresh fights, which it plays once."""
        if setting not in self.points:
            self.points[setting] = self.play(f"--setting={setting}", "--", self.args.template)
        return self.points[setting]

    def player(self, setting):
        """Returns a setting's numbers: rank None if not exact, total None if it was dropped."""
        total = self.cert.total_of(setting, self.fights)
        return {"setting": setting, "rank": self.ranking.rank_of(setting, total),
                "values": self.template.values_by_name(setting), "total": total,
                "fresh": self.fresh_points(setting).numbers()}

    def print_setting(self, name, player):
        total, greatest = player["total"], self.fights.greatest
        tuned = "dropped" if total is None else (
            f"{total} of {greatest} ({100 * total / greatest:.1f}%)")
        print(f"{name}: tuning {tuned}, fresh {self.fresh_points(player['setting'])} "
              f"{self.template.constants(player['setting'])}", flush=True)

    def first(self):
        for _, setting in self.ranking.full[:self.args.top]:
            yield self.player(setting)

    def print_first(self):
        for player in self.first():
            shown_rank = f", rank {player['rank']}" if player["rank"] else ""
            self.print_setting(f"setting {player['setting']}{shown_rank}", player)

    def other(self):
        """Returns the name of whom the best is compared with, and its fresh points or None."""
        args, start = self.args, self.template.start
        if args.against:
            return escaped(args.against), self.play("--", args.against)
        is_other = self.cert.assembles(start) and start != self.cert.best
        return "START", self.fresh_points(start) if is_other else None

    def print_comparison(self):
        start, (other, points) = self.template.start, self.other()
        if self.args.against:
            print(f"{other}: fresh {points}")
        elif points:
            self.print_setting(f"START, setting {start}", self.player(start))
        elif start == self.cert.best:
            print(f"setting {start} is START: the tuning found nothing better")
        else:
            print(f"START, setting {start}: does not assemble")
        if points:
            gain = self.fresh_points(self.cert.best).minus(points)
            print(f"over {other}, setting {self.cert.best}: {gain_text(gain_numbers(gain))}")

    def print_dropped(self):
        _, dropped, exact = self.ranking
        if dropped:
            verb = "was" if dropped == 1 else "were"
            so = ", so" if exact < self.args.top else ";"
            print(f"{counted(dropped, 'setting')} {verb} dropped{so} "
                  f"{tuning_files.exactness_text(exact, self.args.top)}")

    def numbers(self):
        players, (other, points) = list(self.first()), self.other()
        best, start = self.cert.best, self.template.start
        gain = points and self.fresh_points(best).minus(points)
        return {"greatest": self.fights.greatest, "players": players,
                "start": self.player(start) if self.cert.assembles(start) else None,
                "against": points.numbers() if self.args.against else None,
                "gain": gain and {"over": other, "setting": best, **gain_numbers(gain)},
                "dropped": self.ranking.dropped, "exact": self.ranking.exact}


def make_parser():
    parser = command_parser(__doc__)
    add_number(parser, "--top", "K", 5, "how many settings play, beside START")
    add_number(parser, "--rounds", "R", 100, "fights against each opponent")
    add_number(parser, "--seed", "S", 1, "another number gives other positions", low=0)
    add_shared(parser, "--schedule")
    parser.add_argument("--against", metavar="FILE",
                        help="compare with the warrior of this Redcode text, and not with START")
    add_shared(parser, "--json")
    add_cwtune(parser, of_tuning=True)
    add_files(parser, "template", "cert")
    parser.add_argument("opponents", metavar="OPPONENT", nargs="*", default=[],
                        help=FILE_HELP["opponents"] + " [default: those of the tuning]")
    return parser


def main():
    parser = make_parser()
    args = parser.parse_args()
    cert, template, why_unused = cert_inputs.read_tuning(args)
    if not args.opponents:
        reason = why_unused or "the opponents of the tuning are not there"
        parser.error(f"give OPPONENT..: {reason}")
    refuse_fights(parser, "--rounds", args.rounds, len(args.opponents))
    refuse_distance(parser, rules_of(args))
    holdout = Holdout(args, cert, template)
    if args.json:
        print_json(holdout.numbers())
    else:
        holdout.print_first()
        holdout.print_comparison()
        holdout.print_dropped()
    cert_inputs.print_note(why_unused)
