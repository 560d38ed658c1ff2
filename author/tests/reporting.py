"""Makes pages of reports, and reads them as a browser would."""
import contextlib, copy, html.parser, io, re
from xml.etree import ElementTree

from author.lib.gain import gain_text
from author.lib.study import charts, maps, page as pieces, print_fresh
from author.lib.study.report import html_of

from .report_samples import HOSTILE, REPORTS
from .trial import Trial

# The tags and the attributes of which a page may be made.
TAGS = set("html head meta title style body main h1 h2 h3 p strong span ul li code div table "
           "caption thead tbody tr th td dl dt dd pre details summary figure svg text path rect "
           "circle".split())
ATTRIBUTES = set("lang charset name content class role tabindex aria-label aria-labelledby scope "
                 "colspan id viewbox x y width height cx cy r d".split())
UNCLOSED_TAGS = {"meta"}


class Reader(html.parser.HTMLParser):
    """Reads a page: notes what is wrong with it, its words, the levels of its headings, its ids."""

    def __init__(self, page):
        super().__init__()
        self.open_tags, self.wrong, self.words, self.levels, self.ids = [], [], [], [], []
        self.feed(page)
        self.close()
        self.wrong += [f"<{tag}> is not closed" for tag in self.open_tags]

    def handle_starttag(self, tag, attrs):
        self.wrong += [f"<{tag}>"] * (tag not in TAGS)
        self.wrong += [f"{name}= in <{tag}>" for name, _ in attrs if name not in ATTRIBUTES]
        self.wrong += ["a head without a scope"] * (tag == "th" and "scope" not in dict(attrs))
        self.ids += [value for name, value in attrs if name == "id"]
        self.levels += [int(tag[1])] if tag in ("h1", "h2", "h3") else []
        if tag not in UNCLOSED_TAGS:
            self.open_tags.append(tag)

    def handle_endtag(self, tag):
        if not self.open_tags or self.open_tags.pop() != tag:
            self.wrong.append(f"</{tag}>")

    def handle_data(self, data):
        if self.open_tags[-1:] != ["style"]:
            self.words.append(data)


def words_of(report):
    return " ".join(Reader(html_of(report)).words)


def numbers_of(piece, left_out=()):
    """Yields the numbers of a report as the page spells them, but those of the keys `left_out`."""
    if isinstance(piece, dict):
        for name, value in piece.items():
            yield from () if name in left_out else numbers_of(value, left_out)
    elif isinstance(piece, list):
        for value in piece:
            yield from numbers_of(value, left_out)
    elif isinstance(piece, float):
        yield f"{piece:.1f}"
    elif isinstance(piece, int) and not isinstance(piece, bool):
        yield str(piece)


def missing(report, words):
    """Returns the numbers of a report that are not among the words of its page."""
    shown = {number.replace(",", "")
             for number in re.findall(r"-?[0-9][0-9,]*(?:\.[0-9]+)?", words)}
    # The effects of one constant are its landscape.
    left_out = ["ranking"] + ["effects"] * (len(report["effects"]) == 1)
    weighted = ["points"] * (len({one["weight"] for one in report["opponents"]}) > 1)
    # The page has neither how a box was tuned, nor its greatest total; a weight of 1 goes unsaid.
    left_out += ["blocks", "seconds", "weight", *weighted] + ["schedule"] * bool(report["race"])
    left_out += ["rise"] * bool(report["box"] and report["box"]["replaces"])
    # Of the ranking the page shows the sums.
    expected = {*numbers_of(report, left_out),
                *numbers_of(report.get("ranking", []), ["opponents", *weighted])}
    return [f"{number} is not on the page" for number in sorted(expected - shown)]


def pictures(page):
    """Reads the pictures of a page as XML. Returns how many there are, and what was wrong."""
    svgs, wrong = re.findall(r"<svg .*?</svg>", page, re.DOTALL), []
    for svg in svgs:
        try:
            tree = ElementTree.fromstring(svg)
        except ElementTree.ParseError as error:
            wrong.append(f"a picture is not XML: {error}")
            continue
        title = tree.find("title")
        if tree.get("role") != "img" or title is None or not title.text:
            wrong.append("a picture without role or title")
        elif title.get("id") != tree.get("aria-labelledby"):
            wrong.append("a picture that its title does not name")
        for name, value in (pair for part in tree.iter() for pair in part.items()):
            if name not in ("class", "id") and re.search(r"nan|inf|None|e-", value):
                wrong.append(f"{name}={value} in a picture")
    return len(svgs), wrong


def faults_of(page, reader):
    levels, ids = reader.levels, reader.ids
    return [*reader.wrong, *pictures(page)[1],
            *(f"h{level} after h{before}" for before, level in zip(levels, levels[1:])
              if level > before + 1),
            *["not one h1 at the top"] * (levels.count(1) != 1 or levels[0] != 1),
            *["an id twice"] * (len(set(ids)) != len(ids)),
            *["bytes that are not UTF-8"] * bool(re.search(r"[\ud800-\udfff]", page)),
            *(word for word in ("url(", "@import") if word in page.lower())]


class Reporting(Trial):
    def says(self, report, *wanted, **changes):
        """Compares the page of a changed report with sentences that it has to have."""
        words = re.sub(" +", " ", words_of(report | changes))
        for sentence in wanted:
            self.wrong(f"the page says: {sentence}", [] if sentence in words else [words[:1500]])

    def test_pages(self):
        for name, report in REPORTS.items():
            page, constants = html_of(report), len(report["effects"])
            reader = Reader(page)
            self.wrong(f"the page of {name}", faults_of(page, reader))
            expected = 1 + bool(report["landscape"]) + (constants if constants > 1 else 0)
            self.same(f"the pictures of {name}", expected, pictures(page)[0])
            # Of many totals the page has the picture alone.
            if name not in ("many settings", "many values"):
                self.wrong(f"the numbers of {name}", missing(report, " ".join(reader.words)))

    def test_nothing_fetched(self):
        """Looks for what a page would fetch. The words of a report are text, and may name it."""
        for name in ("one constant", "two constants", "four constants"):
            page = html_of(REPORTS[name]).lower()
            self.wrong(f"{name}: nothing to fetch", [
                word for word in ("http", "src=", "href", "<script", "<link") if word in page])
        page = html_of(REPORTS["a hostile report"])
        self.wrong("nothing hostile is a tag", [
            word for word in ("<script", "<img", "\x1b", "\u202e", "\r") if word in page])
        words = words_of(REPORTS["a hostile report"])
        self.wrong("hostile names are shown", [
            name for name in HOSTILE[:2] + HOSTILE[3:5] if words.count(name) < 5])

    def test_sentences(self):
        report = copy.deepcopy(REPORTS["two constants"])
        start, winner_values = report["start"], report["winner"]["values"]
        for percent, error, words, sentence in [
                (12.34, 1.23, "a gain", "12.3 ± 1.2 percentage points more, a gain."),
                (-0.45, 1.2, "a loss", "0.5 ± 1.2 percentage points less, a loss. Keep START.")]:
            gain = report["gain"] | {"percent": percent, "error": error, "words": words}
            self.says(report, sentence, gain=gain)
        nothing = {"percent": -0.04, "error": 0.1, "words": "no difference"}
        self.same("a loss of nothing", "+0.0% +- 0.1, no difference", gain_text(nothing))
        self.says(report, "The winner is START itself.", start=start | {"values": winner_values})
        self.says(report, "START is not in this picture: STEP 1, FIRST 4013.",
                  start=start | {"values": winner_values | {"STEP": 1}})
        self.says(report, "Proved: the ranking of all 134,421 settings: 7 of them do not "
                  "assemble; each other one played all 160 fights",
                  "–: the setting does not assemble.", "(lost)", "Marked: the winner lost "
                  "against this opponent", "dwarf.red ", "imp-ring.red (counts 2 times)")
        self.says(REPORTS["many values"], "Each point is the greatest total among 2 values",
                  "(10,001 values)", "The totals are in report.json")
        race = REPORTS["a race"]
        luck = f"{17.25 - race['gain']['percent']:.1f} of these were luck."
        self.says(race, "1513 of the template's 134,421 settings raced, in 51,234 fights.", luck)
        self.says(race, "No fights were left to measure the gain. Keep START.", gain=None)
        self.says(race, "Nothing better than START was found.", gain=None, winner=race["start"])
        self.says(REPORTS["a race and a box"], "Tuned, and not checked: the first 10 of the 243 "
                  "settings around the race's winner, of which 31 do not assemble, in 96 fights "
                  "each.", "none of them was better")
        self.says(REPORTS["a race and a box that was checked"], "Proved: the first 10 of the 243",
                  "accepted best 7 total 99", "took its place")
        self.says(REPORTS["one setting"], "fresh points", "percent points fights", "may be luck.")
        # With different weights the points would not fit the percent.
        self.says(report, "fresh fights 3200 3200 fresh percent", "tuned total percent fights")
        with contextlib.redirect_stdout(io.StringIO()) as out:
            print_fresh("START", start, report)
        self.same("points with weights", False, " of " in out.getvalue())

    def test_lists(self):
        """Makes pages of constants that are indices of lists: no page shows an index."""
        for name in ["one constant", "two constants", "four constants"]:
            report = copy.deepcopy(REPORTS[name]) | {"winner_text": ""}
            for constant in report["constants"]:
                constant["list"] = [f"v{value}" for value in range(7000)]
                constant["list"][constant["box"][-1]] = ""
            page, values = html_of(report), report["landscape"]["values"]
            self.wrong(f"{name}: no index is shown", [
                str(value) for constant in report["constants"] for value in constant["box"]
                if re.search(rf"(?<![v0-9.#]){value}(?![0-9])", page)])
            self.same(f"{name}: what is in the lists is shown", (True, True), (
                f">v{values[-1][0]}<" in page, ">-<" in page))
        self.says(report, "PLACE is held at v6013", "START is not in this picture: STEP v3005")

    def test_landscapes(self):
        landscape = maps.Landscape(["A", "B"], [[1, 2, 3], [4, 5]],
                                   [[1, 2], [3, None], [None, None]], {})
        step, thin = maps.thinned(landscape, 2)
        self.same("thinned", (2, [[3], [None]], [[1, 3], [4]]), (step, thin.totals, thin.ranges))
        self.same("places", [(1, 1), None],
                  [landscape.place({"A": 2, "B": 5}), landscape.place({"A": 9, "B": 5})])
        self.same("shades", [0, 3, 6], [maps.shade_of(total, 10, 80) for total in (10, 45, 80)])

    def test_numbers(self):
        self.same("escaped", "&lt;&amp;&quot;&#x27;\ufffd\n", pieces.escaped("<&\"'\udcff\r\n"))
        self.same("counts", ["–", "0", "9999", "10,000", "-20"],
                  list(map(pieces.integer, [None, 0, 9999, 10000, -20])))
        self.same("decimals", ["–", "–", "0.0", "-1.5", "12,345.7"],
                  list(map(pieces.decimal, [None, float("nan"), 0, -1.5, 12345.67])))
        # Of 3, 3, 1 and 0 points the variance is 2.25, and the error of the mean 0.75.
        self.same("an error", "25.0", pieces.decimal(
            charts.error_of({"wins": 2, "ties": 1, "losses": 1})))
        self.same("ticks", [[3000, 3020, 3040], [0.5], [-1, 0, 1]],
                  [charts.Scale(*ends, 0, 9).ticks()
                   for ends in [(2990, 3055), (0.5, 0.5), (-1.2, 1.9)]])
