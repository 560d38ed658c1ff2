"""Makes up reports of studies, of which `reporting` makes pages."""
import itertools, random

HOSTILE = ['<script src="http://x">alert(1)</script>', "a & b &amp; 'c'", "\udcff\udc80.red",
           '"><img src=x onerror=y>', "]]></title></pre>", "line\nand\rline",
           "\x00\x1b[31m\u202ered"]
WARRIORS = ["dwarf", "imp-ring", "scanner", "replicator", "core-clear", "gate", "quick-scan",
            "stone"]
WINNER = 1012


def fresh_of(dice, names, fights, more_wins=0):
    """Returns fresh fights, `fights` against each opponent. `more_wins` is a percent of them."""
    opponents = []
    for name in names:
        wins = dice.randint(fights // 5, fights // 2) + more_wins * fights // 100
        ties = dice.randint(0, fights - wins) // 2
        opponents.append({"name": name, "wins": wins, "ties": ties, "losses": fights - wins - ties,
                          "percent": 100 * (3 * wins + ties) / (3 * fights)})
    points = sum(3 * opponent["wins"] + opponent["ties"] for opponent in opponents)
    all_fights = fights * len(names)
    return {"fights": all_fights, "points": points, "percent": 100 * points / (3 * all_fights),
            "error": 1.1 + dice.random() / 3, "opponents": opponents}


def box_of(sizes):
    """Returns for each size a constant with as many values."""
    names = ["STEP", "FIRST", "DECOY", "PLACE", "GATE"]
    return {name: [3005 + 1000 * constant + 4 * index for index in range(size)]
            for constant, (name, size) in enumerate(zip(names, sizes))}


def landscape_of(dice, box, best_values, best_total):
    """Returns a landscape with the greatest total. One setting does not assemble."""
    names = list(box)[:2]
    ranges = [box[name] for name in names]
    place = [values.index(best_values[name]) for name, values in zip(names, ranges)]
    losses = [[dice.randint(0, 20) for _ in values] for values in ranges]
    totals = [best_total - 3 - sum(pair) - dice.randint(0, 9)
              for pair in itertools.product(*losses)]
    totals[-1] = None
    width = len(ranges[-1])
    rows = [totals[first:first + width] for first in range(0, len(totals), width)]
    row, column = (0, *place)[-2:]
    rows[row][column] = best_total
    return {"axes": names, "values": ranges, "totals": rows}


def effects_of(dice, box, best_total):
    return [{"name": name, "values": values,
             "means": [best_total - dice.random() * 50 for _ in values],
             "errors": [dice.random() * 5 for _ in values]} for name, values in box.items()]


def ranking_of(dice, winner, other_values, names):
    """Returns ten of a ranking: the winner is the second, and the last has no fresh fights."""
    ranking = [{"rank": rank, "setting": 77 + rank, "values": other_values,
                "tuned": winner["tuned"] + 2 - rank,
                "fresh": fresh_of(dice, names, 200 if rank < 6 else 100)} for rank in range(1, 11)]
    ranking[-1]["fresh"] = None
    return [ranking[0], winner, *ranking[2:]]


def origin_of(names):
    """Returns the part of a report that says how it was made. `names` are the opponents'."""
    return {
        "title": "Open Stone", "made": "2026-11-27", "program": "cwtune 1.2.3",
        "rules": {"core": 8000, "cycles": 80000, "tasks": 8001, "length": 100, "distance": 101},
        "opponents": [{"name": name, "digest": f"{300 + index} {index:064x}",
                       "weight": 1 + index % 2} for index, name in enumerate(names)],
        "seed": 4321, "settings": 134421,
        "commands": ["cwtune-series 4321 20 8 > schedule.csv",
                     "cwtune-spread --all --jobs 4 box.red schedule.csv best.cert opponents/*.red",
                     f"cwtune-warrior --setting {WINNER} box.red > winner.red"],
        "files": [{"name": name, "digest": f"{size} {size:064x}"} for name, size in
                  [("template.red", 903), ("schedule.csv", 2091), ("best.cert", 81234)]],
        "winner_text": ";redcode-94\n;name Open Stone\nSTEP EQU 3017\n        MOV <1, >STEP\n"}


def sample(sizes, opponents=8):
    """Returns a report of as many constants as there are sizes of the box."""
    dice, box, best_total = random.Random(1), box_of(sizes), 250
    names = [f"{name}.red" for name in itertools.islice(itertools.cycle(WARRIORS), opponents)]
    best_values = {name: values[len(values) // 2] for name, values in box.items()}
    start = {"values": {name: values[0] for name, values in box.items()},
             "tuned": None if len(sizes) > 2 else 231, "fresh": fresh_of(dice, names, 400)}
    winner = {"rank": 2, "setting": WINNER, "values": best_values, "tuned": best_total,
              "fresh": fresh_of(dice, names, 400, 12)}
    constants = [{"name": name, "low": values[0] - 400, "high": values[-1] + 400, "step": 4,
                  "start": start["values"][name], "best": best_values[name], "box": values}
                 for name, values in box.items()]
    return {
        **origin_of(names), "start": start, "winner": winner, "constants": constants,
        "race": None, "box": None, "refused": 7, "fights": 400480,
        "check": f"accepted best {WINNER} total 350",
        "schedule": {"fights": 20 * len(names), "greatest": 60 * len(names)},
        "ranking": ranking_of(dice, winner, start["values"], names),
        "gain": gain_of(start["fresh"], winner["fresh"]),
        "landscape": landscape_of(dice, box, best_values, best_total),
        "effects": effects_of(dice, box, best_total)}


def gain_of(start, winner):
    """Returns the gain of a winner, and by opponent: every third is a loss."""
    opponents = [{"name": own["name"], "percent": own["percent"] - other["percent"],
                  "error": 2.5 + index / 10,
                  "words": ["a loss", "a gain", "no difference that these fights show"][index % 3]}
                 for index, (other, own) in enumerate(zip(start["opponents"],
                                                          winner["opponents"]))]
    return {"percent": winner["percent"] - start["percent"], "error": 1.23, "words": "a gain",
            "opponents": opponents}


def raced(sizes, box=None, has_totals=False):
    report = sample(sizes)
    winner, start = report["winner"], report["start"]
    for name in ["ranking", "fights", "check", "schedule", "refused"]:
        del report[name]
    for side in winner, start:
        for name in ["rank", "setting", "tuned"]:
            side.pop(name, None)
    if not has_totals:
        report |= {"landscape": None, "effects": []}
    finalists = [{"values": side["values"], "percent": 50.5 + place, "fights": 1200 + place}
                 for place, side in enumerate([winner, start])]
    return report | {"box": box, "race": {"settings": 1513, "fights": 51234, "rise": 17.25,
                                          "finalists": finalists}}


def renamed(piece, names):
    """Returns a piece of a report in which some words are replaced, as values and as keys."""
    if isinstance(piece, dict):
        return {names.get(name, name): renamed(value, names) for name, value in piece.items()}
    if isinstance(piece, list):
        return [renamed(value, names) for value in piece]
    return names.get(piece, piece) if isinstance(piece, str) else piece


def hostile():
    report = renamed(sample((3, 3, 2), opponents=len(HOSTILE)),
                     dict(zip(["STEP", "FIRST", "DECOY", "core"], HOSTILE)))
    report["title"] = report["winner_text"] = report["check"] = "\n".join(HOSTILE)
    report["commands"] = report["program"] = HOSTILE
    report["files"] = [{"name": name, "digest": name} for name in HOSTILE]
    for opponents in (report["opponents"], report["start"]["fresh"]["opponents"],
                      report["winner"]["fresh"]["opponents"], report["gain"]["opponents"]):
        for opponent, name in zip(opponents, HOSTILE):
            opponent["name"] = name
    return report


BOX = {"settings": 243, "refused": 31, "blocks": 12, "fights": 9876, "seconds": 3.2, "check": None,
       "first": 10, "replaces": False, "schedule": {"fights": 96, "greatest": 288}}
REPORTS = {
    "a race": raced((3, 5, 2, 4)),
    "a race and a box": raced((3, 5, 2, 4), BOX),
    "a race and a box that was checked": raced(
        (5, 5), BOX | {"check": "accepted best 7 total 99", "replaces": True}, has_totals=True),
    "one constant": sample((21,)), "two constants": sample((5, 5)),
    "four constants": sample((3, 5, 2, 4)), "a hostile report": hostile(),
    "one setting": sample((1,), opponents=1), "one value of a constant": sample((1, 7)),
    "many opponents": sample((2, 2, 2, 2, 2), opponents=64),
    "many settings": sample((51, 50), opponents=2), "many values": sample((10001,), opponents=2),
}
