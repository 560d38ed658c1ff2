"""Makes the page of a study's report: one HTML file that needs nothing else.

`html_of` takes what report.json says. Each number of the page is one of the report's, or is
computed from it: an opponent's standard error comes from its wins, ties and losses.
"""
import math

from ..gain import GAIN, LOSS
from . import charts, maps
from .page import (DASH, decimal, escaped, folded, fresh_percent, integer, page, source, table,
                   with_error)

WINNER_FILE = "winner.red"
START, WINNER = '<span class="start">START</span>', '<span class="winner">winner</span>'
OUTCOMES = "wins", "ties", "losses"
# With more totals, or more means, there is no table; of more values only the ends are shown; more
# commands are folded.
MOST_CELLS = 2500
MOST_VALUES = 24
MOST_COMMANDS = 12
ERROR_NOTE = "± is one standard error."
# The points of a fight of two equal warriors vary by about this (standard deviation).
LUCK_OF_FIGHT = 4 / 3


def html_of(report):
    return page(f"{report['title']}: a study by cwtune", [
        *opening(report),
        *section("What is proved, and what is measured", "<ul>", *(
            f"<li>{item}</li>"
            for item in (raced_items if report["race"] else tuned_items)(report)), "</ul>"),
        *comparison(report), *opponents(report),
        *(landscape(report) if report["landscape"] else ()),
        *(finalists(report) if report["race"] else ranking(report)),
        *making(report),
        *section(f"The winner's text: <code>{WINNER_FILE}</code>",
                 source(f"The text of {WINNER_FILE}", report["winner_text"]))])


def section(heading, *pieces):
    return [f"<h2>{heading}</h2>", *pieces]


def paragraph(piece, style=""):
    return f'<p class="{style}">{piece}</p>' if style else f"<p>{piece}</p>"


def has_rivals(report):
    """Returns whether settings were compared with START: a race of few fights may play none."""
    return not report["race"] or len(report["race"]["finalists"]) > 1


def opening(report):
    start, winner, gain = report["start"], report["winner"], report["gain"]
    title = f"<h1>{escaped(report['title'])}</h1>"
    if gain is None:
        sentence = ("No fights were left to measure the gain. Keep START."
                    if start["values"] != winner["values"]
                    else "Nothing better than START was found." if has_rivals(report)
                    else "No other setting has played in the race.")
        return [title, paragraph(sentence, "lead")]
    more = "more" if gain["percent"] >= 0 else "less"
    sentence = (
        f"In {integer(winner['fresh']['fights'])} fresh fights the winner made "
        f"{decimal(winner['fresh']['percent'])}% of the points and START "
        f"{decimal(start['fresh']['percent'])}%: <strong class=\"winner\">"
        f"{with_error(abs(gain['percent']), gain['error'])}</strong> percentage points {more}, "
        f"{escaped(gain['words'])}." + " Keep START." * (gain["words"] != GAIN))
    notes = ["These fights picked nothing: they were played once the winner was known.", ERROR_NOTE]
    if start["values"] == winner["values"]:
        notes.insert(0, "The winner is START itself.")
    return [title, paragraph(sentence, "lead"), paragraph(" ".join(notes), "soft")]


def tuned_items(report):
    left_out = f"{integer(report['refused'])} of them do not assemble; each other one"
    yield (f"<strong>Proved:</strong> the ranking of all {integer(report['settings'])} settings: "
           f"{left_out if report['refused'] else 'each'} played all "
           f"{integer(report['schedule']['fights'])} fights of the schedule, and the certificate "
           f"was checked: <code>{escaped(report['check'])}</code>.")
    yield ("<strong>Measured:</strong> the percent in fresh fights. The winner did best in the "
           "fresh fights of the ranking below; then it and START played others, which alone count "
           "here.")


# What came of the box, by whether one of its settings replaces the race's winner.
OF_BOX = {
    True: "In other fights one of them was better than the race's winner, and took its place.",
    False: "In other fights none of them was better than the race's winner.",
    None: "Too few fights were left to decide whether one of them replaces it."}


def raced_items(report):
    race, box, gain = report["race"], report["box"], report["gain"]
    yield (f"<strong>Measured:</strong> the winner. {integer(race['settings'])} of the template's "
           f"{integer(report['settings'])} settings raced, in {integer(race['fights'])} fights. A "
           "better one may be anywhere.")
    if box:
        checked = f": <code>{escaped(box['check'])}</code>" if box["check"] else ""
        left_out = f", of which {integer(box['refused'])} do not assemble" * bool(box["refused"])
        word = "Proved" if box["check"] else "Tuned, and not checked"
        yield (f"<strong>{word}:</strong> the first {integer(box['first'])} of the "
               f"{integer(box['settings'])} settings around the race's winner{left_out}, in "
               f"{integer(box['schedule']['fights'])} fights each{checked}. "
               f"{OF_BOX[box['replaces']]}")
    if gain and race["rise"] is not None and not (box and box["replaces"]):
        yield (f"<strong>Luck:</strong> in the fights that picked it, the winner was "
               f"{decimal(race['rise'])} percentage points over START; "
               f"{decimal(race['rise'] - gain['percent'])} of these were luck.")


def lists_of(report):
    """Returns the lists of constants that are indices of one, with `-` for what is not written."""
    return {constant["name"]: [text or "-" for text in constant["list"]]
            for constant in report["constants"] if constant.get("list")}


def shown_values(report, values):
    """Returns the values of a setting by names, and of an index what is in its list."""
    lists = lists_of(report)
    return {name: lists[name][value] if name in lists else value for name, value in values.items()}


def value_cells(report, values):
    return map(escaped, shown_values(report, values).values())


def fresh_counts(report):
    """Returns what is counted of fresh fights: points only if all opponents count the same."""
    return ["points"] * (len({one["weight"] for one in report["opponents"]}) == 1) + ["fights"]


def comparison(report):
    start, winner = sides = report["start"], report["winner"]
    rows = list(map(list, zip(map(escaped, winner["values"]),
                              *(value_cells(report, side["values"]) for side in sides))))
    notes = []
    if not report["race"]:
        greatest, totals = report["schedule"]["greatest"], [side["tuned"] for side in sides]
        percents = [DASH if total is None else f"{decimal(100 * total / greatest)}%"
                    for total in totals]
        rows += [[f"tuned total, of {integer(greatest)}", *map(integer, totals)],
                 ["tuned percent", *percents]]
        notes = [paragraph(f"The winner is setting {escaped(winner['setting'])}, of rank "
                           f"{escaped(winner['rank'])} in the tuning.", "soft")]
    if report["gain"]:
        rows += [[f"fresh {key}", *(integer(side["fresh"][key]) for side in sides)]
                 for key in reversed(fresh_counts(report))]
        rows.append(["fresh percent", *(fresh_percent(side["fresh"]) for side in sides)])
    return section("START and the winner",
                   table("Values and fights", ["", START, WINNER], rows), *notes)


def opponent_row(gain, sides):
    lost = " (lost)" if gain["words"] == LOSS else ""
    signed = ("+" if gain["percent"] >= 0 else "") + with_error(gain["percent"], gain["error"])
    percents = (f"{decimal(side['percent'])}%" for side in sides)
    return [escaped(gain["name"]), signed + lost, *percents,
            *(integer(side[name]) for side in sides for name in OUTCOMES)]


def opponents(report):
    if not report["gain"]:
        return []
    start, winner = (report[side]["fresh"]["opponents"] for side in ("start", "winner"))
    lines = sorted(zip(report["gain"]["opponents"], zip(start, winner)),
                   key=lambda line: -line[0]["percent"])
    heads = ["opponent", "gain", START, WINNER, *OUTCOMES, *OUTCOMES]
    rows = [opponent_row(gain, sides) for gain, sides in lines]
    bars = charts.draw_bars(*zip(*(sides for _, sides in lines)))
    return section(
        "Opponent by opponent", f"<figure>{bars}</figure>",
        table("Fresh fights against each opponent", heads, rows,
              marked=[index for index, (gain, _) in enumerate(lines) if gain["words"] == LOSS],
              groups=[("", 1), ("percent", 3), (START, 3), (WINNER, 3)]),
        paragraph("Marked: the winner lost against this opponent, by more than two standard "
                  "errors.", "soft"))


def landscape(report):
    names, ranges, totals = (report["landscape"][key] for key in ("axes", "values", "totals"))
    box = maps.Landscape(names, ranges, totals, lists_of(report))
    start_values, winner_values = (report[side]["values"] for side in ("start", "winner"))
    is_small = box.count() <= MOST_CELLS
    step, picture = maps.draw_landscape(box, start_values, winner_values, is_small)
    notes = [f"{escaped(name)} is held at {escaped(value)}, the winner's value."
             for name, value in shown_values(report, winner_values).items()
             if name not in box.names]
    if step > 1:
        shown = "point" if len(box.names) == 1 else "square"
        notes.append(f"Each {shown} is the greatest total among {step} values of each constant.")
    if maps.is_outside(start_values, winner_values, box):
        shown = values_text(shown_values(report, start_values))
        notes.append(f"START is not in this picture: {shown}.")
    if all(opponent["weight"] == 1 for opponent in report["opponents"]):
        schedule = (report["box"] if report["race"] else report)["schedule"]
        luck = LUCK_OF_FIGHT * math.sqrt(schedule["fights"])
        notes.insert(0, f"Luck alone moves a total by about {luck:.0f} points, so totals that "
                     "differ by less may be equal, and one that stands out may be luck.")
    tuned = "all settings" if not report["race"] else "the settings around the race's winner"
    return section("Landscape", paragraph(f"Totals of {tuned}, in the fights of the schedule."),
                   f"<figure>{picture}</figure>",
                   *([paragraph(" ".join(notes), "soft")] if notes else []),
                   totals_table(box, is_small), *effects(report))


def values_text(values):
    return ", ".join(f"{escaped(name)} {escaped(value)}" for name, value in values.items())


def totals_table(box, is_small):
    if not is_small:
        return paragraph("The totals are in <code>report.json</code>.", "soft")
    names, ranges, totals = box.names, box.shown_ranges(), box.totals
    if len(names) == 1:
        heads = [escaped(names[0]), "tuned total"]
        rows = [[escaped(value), integer(total)] for value, total in zip(ranges[0], totals[0])]
    else:
        heads = [escaped(" / ".join(names)), *map(escaped, ranges[1])]
        rows = [[escaped(value), *map(integer, row)] for value, row in zip(ranges[0], totals)]
    note = paragraph(f"{DASH}: the setting does not assemble.", "soft")
    return folded("The totals as a table", table("Tuned totals", heads, rows)
                  + note * (len(box.known_totals()) < box.count()))


def effects(report):
    """Returns the main effects. Of one constant they are the landscape itself."""
    of_constants, lists = report["effects"], lists_of(report)
    if len(of_constants) < 2:
        return []
    pictures = "".join(
        f"<figure>{picture}</figure>"
        for picture in charts.draw_effects(of_constants, report["winner"]["values"], lists))
    pieces = ["<h3>What each constant does</h3>", paragraph(
        "The mean tuned total of each value, over all tuned settings that have it, with its "
        f"standard error. A filled mark is the winner's value. {ERROR_NOTE}"),
        f'<div class="charts">{pictures}</div>']
    rows = [[escaped(effect["name"]), *value_cells(report, {effect["name"]: value}),
             with_error(mean, error)]
            for effect in of_constants
            for value, mean, error in zip(effect["values"], effect["means"], effect["errors"])]
    if len(rows) <= MOST_CELLS:
        pieces.append(folded("The means as a table", table(
            "Mean tuned totals", ["constant", "value", "mean"], rows)))
    return pieces


def ranking_row(report, ranked, is_winner):
    fresh = ranked["fresh"]
    return [escaped(ranked["rank"]) + (f" {WINNER}" if is_winner else ""),
            escaped(ranked["setting"]), *value_cells(report, ranked["values"]),
            integer(ranked["tuned"]), fresh_percent(fresh),
            *(integer(fresh and fresh[key]) for key in fresh_counts(report))]


def ranking(report):
    names, first, counts = list(report["winner"]["values"]), report["ranking"], fresh_counts(report)
    heads = ["rank", "setting", *map(escaped, names), "tuned total", "percent", *counts]
    marked = [index for index, ranked in enumerate(first)
              if ranked["setting"] == report["winner"]["setting"]]
    rows = [ranking_row(report, ranked, index in marked) for index, ranked in enumerate(first)]
    return section(f"The first {len(first)} of the ranking" if len(first) > 1 else "The ranking",
                   paragraph("In order of the tuned total. In fresh fights the better half went on "
                             "each time, so some played more of them than others.", "soft"),
                   table("The first of the ranking", heads, rows, marked=marked,
                         groups=[("", 3 + len(names)), ("in fresh fights", 1 + len(counts))]))


def finalists(report):
    names, found = list(report["winner"]["values"]), report["race"]["finalists"]
    marked = [index for index, one in enumerate(found)
              if one["values"] == report["winner"]["values"]]
    rows = [[str(rank) + (f" {WINNER}" if rank - 1 in marked else "")
             + (f" {START}" if one["values"] == report["start"]["values"] else ""),
             *value_cells(report, one["values"]),
             f"{decimal(one['percent'])}%", integer(one["fights"])]
            for rank, one in enumerate(found, 1)]
    return section("The final of the race", paragraph(
        "Fresh fights picked the winner among these. The better ones played more, so the percents "
        "of the first are too high by some luck, and are no gain.", "soft"),
        table("The final of the race", ["rank", *map(escaped, names), "percent", "fights"], rows,
              marked=marked))


def some_of(values):
    """Returns values as words, only the ends of many."""
    shown = list(map(escaped, values))
    if len(shown) > MOST_VALUES:
        return f"{shown[0]}, {shown[1]}, .. {shown[-1]} ({integer(len(shown))} values)"
    return ", ".join(shown)


def constant_row(constant, texts):
    """Returns the range of a constant, as cells. `texts` is its list, or None."""
    ends, players, box = ([texts[value] if texts else value for value in values] for values in (
        [constant["low"], constant["high"]], [constant["start"], constant["best"]],
        constant["box"]))
    step = "a list" if texts else constant["step"]
    return [*map(escaped, [constant["name"], *ends, step, *players]),
            f'<div class="wide">{some_of(box)}</div>']


def facts(report):
    race, box = report["race"], report["box"]
    if race:
        fights = [f"{integer(race['fights'])} in the race"]
        fights += [f"{integer(box['fights'])} for the settings around its winner"] if box else []
    else:
        fights = [f"{integer(report['fights'])} for the ranking"]
    opponents = ", ".join(escaped(opponent["name"]) + (
        f" (counts {integer(opponent['weight'])} times)" if opponent["weight"] != 1 else "")
                          for opponent in report["opponents"])
    pairs = [
        ("Made", f"{escaped(report['made'])} by {escaped(report['program'])}"),
        ("Rules", values_text(report["rules"])), ("Opponents", opponents),
        ("Settings", integer(report["settings"])), ("Seed", escaped(report["seed"])),
        ("Fights", ", ".join(fights))]
    items = (f"<dt>{name}</dt><dd>{meaning}</dd>" for name, meaning in pairs)
    return f"<dl>{''.join(items)}</dl>"


def digests(caption, files):
    rows = []
    for file in files:
        size, _, sha256 = str(file["digest"]).rpartition(" ")
        rows.append([escaped(file["name"]), f"<code>{escaped(sha256)}</code>", escaped(size)])
    return table(caption, ["name", "SHA-256", "bytes"], rows, texts=2)


def commands(lines):
    piece = source("Commands", "\n".join(lines))
    return folded(f"The {len(lines)} commands", piece) if len(lines) > MOST_COMMANDS else piece


def making(report):
    heads = ["constant", "lowest", "highest", "step", "START", "winner", "tuned values"]
    rows = [constant_row(constant, lists_of(report).get(constant["name"]))
            for constant in report["constants"]]
    return section("How it was made", facts(report),
                   table("Constants of the template", heads, rows), "<h3>Commands</h3>",
                   paragraph("Each can be typed in the folder of this report.", "soft"),
                   commands(report["commands"]), "<h3>Digests</h3>",
                   digests("Opponents", report["opponents"]), digests("Files", report["files"]))
