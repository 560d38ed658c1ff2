"""Collects what `cwtune-study` found: the numbers of `report.json`."""
import datetime, math, re

from .. import landscape
from ..gain import FreshPoints, gain_numbers, gain_of
from ..grid import Grid
from ..program import rules_of, run_program
from ..tuning_files import Certificate, Template, read_schedule
from .fresh import START
from .raced import is_replaced

FILES = ["template.red", "schedule.csv", "box.red", "best.cert", "winner.red"]


class Box:
    """The settings of the box, with their totals in the tuning."""

    def __init__(self, folder):
        self.template = Template(folder / "box.red")
        self.cert = Certificate(folder / "best.cert")
        self.fights = read_schedule(folder / "schedule.csv")
        self.ranking = self.cert.ranked(self.fights)
        self.schedule = {"fights": len(self.fights), "greatest": self.fights.greatest}
        # By setting, NaN for one that does not assemble.
        self.totals = landscape.Totals(self.template, self.cert, self.fights).totals

    def refused(self):
        return sum(not self.cert.assembles(setting) for setting in range(self.cert.count))

    def landscape(self, winner):
        """Returns the totals over the first two constants, the others held as the winner's: a list
        for each value of the first. Of one constant they are a list with one list."""
        template = self.template
        held = template.values_of_settings[winner][2:]
        totals = [None if math.isnan(total) else total
                  for values, total in zip(template.values_of_settings, self.totals)
                  if values[2:] == held]
        values = [list(whole) for whole in template.ranges[:2]]
        width = len(values[-1])
        return {"axes": template.names[:2], "values": values,
                "totals": [totals[first:first + width] for first in range(0, len(totals), width)]}

    def effects(self):
        effects = []
        for constant, name in enumerate(self.template.names):
            values, means, errors = landscape.effect_of(self.template, self.totals, constant)
            effects.append({"name": name, "values": values, "means": means, "errors": errors})
        return effects


def fresh_fights(points, study):
    """Returns the fresh fights of a player as the report has them, None if there are none."""
    if not points:
        return None
    fresh = FreshPoints.of_texts(points, study.args.weights)
    opponents = [{"name": name, "wins": text.count("3"), "ties": text.count("1"),
                  "losses": text.count("0"),
                  "percent": 100 * sum(map(int, text)) / (3 * len(text))}
                 for name, text in zip(study.names, points)]
    return {**fresh.numbers(), "opponents": opponents}


def gain(points, study):
    """Returns the gain over START, whole and by opponent, or None without points of both."""
    difference = points and gain_of(points, study.args.weights)
    if not difference:
        return None
    opponents = [{"name": name, **gain_numbers(FreshPoints([differences], [1]))}
                 for name, differences in zip(study.names, difference.by_opponent)]
    return {**gain_numbers(difference), "opponents": opponents}


def title_of(text, name):
    """Returns what the line `;name` of a text says, or the name of its file."""
    match = re.search(rb"(?im)^;name[ \t]+(.*\S)", text)
    return match[1].decode(errors="replace") if match else name


def constants_of(grid, winner_values, box):
    """Returns the constants: the ranges of the template, and the values of the box, if any."""
    ranges = box.template.ranges if box else [[]] * len(grid.names)
    return [{"name": name, "low": values[0], "high": values[-1], "step": values.step,
             "start": start, "best": winner_values[name], "box": list(box_values),
             "list": grid.lists.get(name)}
            for name, values, start, box_values in zip(grid.names, grid.ranges, grid.start_values,
                                                       ranges)]


def common_numbers(study, grid, box, winner_values, points):
    """Returns what each report has. `points` picked nothing: the winner's and START's, or None."""
    folder, args = study.folder, study.args
    version = run_program(args.program, "--version").stdout.decode(errors="replace").strip()
    winner_points, start_points = points or (None, None)
    digests = {name: folder.digest(name) for name in FILES}
    return {
        "title": title_of(study.inputs.template, study.title),
        "made": datetime.date.today().isoformat(), "program": version,
        "rules": rules_of(args)._asdict(), "seed": args.seed,
        "constants": constants_of(grid, winner_values, box), "settings": grid.count(),
        "opponents": [{"name": name, "digest": folder.digest(f"opponents/{name}"),
                       "weight": weight} for name, weight in zip(study.names, args.weights)],
        "start": {"values": dict(zip(grid.names, grid.start_values)),
                  "fresh": fresh_fights(start_points, study)},
        "winner": {"values": winner_values, "fresh": fresh_fights(winner_points, study)},
        "gain": gain(points, study),
        "commands": [entry["command"] for entry in folder.commands()],
        "files": [{"name": name, "digest": digest} for name, digest in digests.items() if digest],
        "winner_text": (folder.path / "winner.red").read_bytes().decode(errors="replace")}


def ranking_of(box, points, study):
    return [{"rank": rank, "setting": setting, "values": box.template.values_by_name(setting),
             "tuned": total, "fresh": fresh_fights(points[str(setting)], study)}
            for rank, (total, setting) in enumerate(box.ranking.full[:len(points)], 1)]


def tuned_numbers(study, results):
    folder, winner = study.folder.path, int(results["winner"])
    grid, box, last_points = Grid(folder / "template.red"), Box(folder), results["last_points"]
    report = common_numbers(study, grid, box, box.template.values_by_name(winner),
                            (last_points[results["winner"]], last_points[START]))
    ranking = ranking_of(box, results["points"], study)
    ranked_winner = next(ranked for ranked in ranking if ranked["setting"] == winner)
    start = box.template.values_of_settings.index(grid.start_values)
    report["winner"] = ranked_winner | report["winner"]
    report["start"]["tuned"] = box.cert.total_of(start, box.fights)
    return report | {
        "race": None, "box": None, "refused": box.refused(), "ranking": ranking,
        "schedule": box.schedule, "landscape": box.landscape(winner), "effects": box.effects(),
        **results["tuning"]}


def raced_numbers(study, results):
    folder, race = study.folder.path, results["race"]
    grid = Grid(folder / "template.red")
    numbers, box = results["box"], None
    if numbers:
        box = Box(folder)
        numbers = {**numbers, "refused": box.refused(), "first": box.ranking.exact,
                   "replaces": is_replaced(results["challenge"], study.args.weights),
                   "schedule": box.schedule}
    winner_values = dict(zip(grid.names, results["winner"]))
    report = common_numbers(study, grid, box, winner_values, results["points"])
    finalists = [{**one, "values": dict(zip(grid.names, one["values"]))}
                 for one in race["finalists"]]
    rise = race["rise"] and 100 * race["rise"]
    report |= {"race": {"settings": race["settings"], "fights": race["fights"], "rise": rise,
                        "finalists": finalists}, "box": numbers, "landscape": None, "effects": []}
    if box and numbers["check"]:
        winner = box.template.values_of_settings.index(tuple(results["winner"]))
        report |= {"landscape": box.landscape(winner), "effects": box.effects()}
    return report
