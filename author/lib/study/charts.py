"""Draws bars and lines as SVG, without a script, in the styles of `style.css`.

A picture is 360 units wide, as much as a phone shows, and its letters are 11 units high. A table
beside it has the same numbers. Coordinates are in units, from the left upper corner.
"""
import math
from typing import NamedTuple

from ..gain import error_of_mean
from .page import decimal, escaped

WIDTH = 360
# Where an axis from left to right begins and ends.
LEFT, RIGHT = 44, 350
# A line with more points than these has no dots.
MOST_DOTS = 120
# If an axis has at most these values, each has a tick.
MOST_TICKS = 7
# The height of two bars with a name above them.
OPPONENT_HEIGHT = 52
# The most letters of a name.
MOST_LETTERS = 46


class Scale(NamedTuple):
    """An axis: it takes the values `low` to `high` to the coordinates `begin` to `end`."""

    low: float
    high: float
    begin: float
    end: float

    def coordinate(self, value):
        part = (value - self.low) / (self.high - self.low) if self.high > self.low else 0.5
        return round(self.begin + part * (self.end - self.begin), 2)

    def ticks(self):
        """Returns at most six round values of the scale."""
        if self.high <= self.low:
            return [self.low]
        least_step = (self.high - self.low) / 5
        power = 10 ** math.floor(math.log10(least_step))
        step = next(digit * power for digit in (1, 2, 5, 10) if digit * power >= least_step * 0.999)
        first, last = math.ceil(self.low / step - 1e-9), math.floor(self.high / step + 1e-9)
        return [multiple * step for multiple in range(first, last + 1)]


class Axis(NamedTuple):
    """The constant of a picture: its name, its values, and the list of which they are indices."""

    name: str
    values: list
    texts: list | None

    def scale(self):
        return Scale(min(self.values), max(self.values), LEFT + 10, RIGHT - 10)

    def shown(self, tick):
        return self.texts[round(tick)] if self.texts else tick_text(tick)

    def ticks(self):
        """Returns the ticks: at most MOST_TICKS values have one each, of more only round ones, and
        as many from left to right as do not touch."""
        ticks = self.values if len(self.values) <= MOST_TICKS else self.scale().ticks()
        longest = max(len(self.shown(tick)) for tick in ticks)
        return ticks[::math.ceil(len(ticks) * (6.5 * longest + 8) / (RIGHT - LEFT))]


def svg(identifier, title, height, elements):
    """Returns a picture. `identifier` is its own among those of the page."""
    return (f'<svg role="img" aria-labelledby="{identifier}" viewBox="0 0 {WIDTH} {height}">'
            f'<title id="{identifier}">{escaped(title)}</title>{"".join(elements)}</svg>')


def label(x, y, words, style=""):
    return f'<text x="{x}" y="{y}" class="{style}">{escaped(words)}</text>'


def path(pen_moves, style):
    return f'<path d="{pen_moves}" class="{style}"/>'


def rect(x, y, width, height, style, title=None):
    end = f"><title>{escaped(title)}</title></rect>" if title else "/>"
    return f'<rect x="{x}" y="{y}" width="{width}" height="{height}" class="{style}"{end}'


def circle(x, y, radius, style):
    return f'<circle cx="{x}" cy="{y}" r="{radius}" class="{style}"/>'


def tick_text(value):
    return f"{value:g}" if abs(value) < 1e6 else f"{value:.3g}"


def shortened(words, most=MOST_LETTERS):
    return words if len(words) <= most else words[: most - 1] + "…"


def error_of(opponent):
    """Returns the standard error of the percent against an opponent, from wins, ties and losses."""
    points = [3] * opponent["wins"] + [1] * opponent["ties"] + [0] * opponent["losses"]
    return 100 / 3 * error_of_mean(points) if points else 0.0


def draw_bar(x_scale, opponent, y, style):
    """Yields a bar for the percent against an opponent, its error, and the percent as a label."""
    percent, error = opponent["percent"], error_of(opponent)
    end = x_scale.coordinate(percent)
    low = x_scale.coordinate(min(100, max(0, percent - error)))
    high = x_scale.coordinate(min(100, max(0, percent + error)))
    yield rect(x_scale.begin, y, round(end - x_scale.begin, 2), 10, style)
    yield path(f"M{low} {y + 5}H{high}M{low} {y + 2.5}v5M{high} {y + 2.5}v5", "stroke")
    yield label(max(end, high) + 5, y + 9, f"{decimal(percent)}%")


def draw_bars(start_opponents, winner_opponents):
    x_scale, y = Scale(0, 100, 0, 300), 40
    elements = [rect(0, 3, 12, 9, "other"), label(17, 11, "START"), rect(70, 3, 12, 9, "own"),
                label(87, 11, "winner"), path("M146 7.5h16M146 5v5M162 5v5", "stroke"),
                label(167, 11, "± one standard error")]
    bottom = 22 + OPPONENT_HEIGHT * len(winner_opponents)
    for tick in (0, 25, 50, 75, 100):
        x = x_scale.coordinate(tick)
        elements.append(path(f"M{x} 24V{bottom}", "rule"))
        elements.append(label(x, bottom + 14, f"{tick}%", "soft" + (" middle" if tick else "")))
    for of_start, of_winner in zip(start_opponents, winner_opponents):
        elements.append(label(0, y, shortened(of_winner["name"])))
        elements += draw_bar(x_scale, of_start, y + 5, "other")
        elements += draw_bar(x_scale, of_winner, y + 17.5, "own")
        y += OPPONENT_HEIGHT
    return svg("bars", "Percent of the points in fresh fights against each opponent, of START and "
               "of the winner", bottom + 20, elements)


def draw_axes(axis, y_scale):
    """Yields the lines and labels of two axes. The values of a constant go from left to right."""
    x_scale = axis.scale()
    for tick in y_scale.ticks():
        y = y_scale.coordinate(tick)
        yield path(f"M{LEFT} {y}H{RIGHT}", "rule")
        yield label(LEFT - 6, y + 4, tick_text(tick), "soft end")
    bottom = y_scale.begin
    for tick in axis.ticks():
        x = x_scale.coordinate(tick)
        yield path(f"M{x} {bottom}v4", "rule")
        yield label(x, bottom + 16, axis.shown(tick), "soft middle")
    yield label((LEFT + RIGHT) / 2, bottom + 32, shortened(axis.name), "middle")


def points_of(axis, y_scale, heights):
    """Returns the point of each value: its x, and its y, None if it has no height."""
    x_scale = axis.scale()
    return [(x_scale.coordinate(value), None if height is None else y_scale.coordinate(height))
            for value, height in zip(axis.values, heights)]


def curve(points):
    pen_moves, pen = [], "M"
    for x, y in points:
        if y is not None:
            pen_moves.append(f"{pen}{x} {y}")
        pen = "M" if y is None else "L"
    return path("".join(pen_moves), "curve")


def dots(points):
    known = [point for point in points if point[1] is not None]
    if len(known) <= MOST_DOTS:
        yield from (circle(x, y, 2.5, "dot") for x, y in known)


def marks(points, start_index, winner_index):
    for index, radius, style in [(start_index, 5.5, "mark-start"), (winner_index, 5, "own")]:
        if index is not None and points[index][1] is not None:
            yield circle(*points[index], radius, style)


def y_scale_of(heights, bottom):
    """Returns the scale of a picture for the heights that are numbers. `bottom` is its lowest y."""
    known = [height for height in heights if height is not None] or [0]
    low, high = min(known), max(known)
    room = (high - low) * 0.06 or 1
    return Scale(low - room, high + room, bottom, 12)


def draw_line(axis, totals, start_index, winner_index):
    y_scale = y_scale_of(totals, 210)
    points = points_of(axis, y_scale, totals)
    elements = [*draw_axes(axis, y_scale), curve(points), *dots(points),
                *marks(points, start_index, winner_index),
                *legend_of_line(start_index is not None)]
    return svg("landscape", f"Tuned totals over {axis.name}", 272, elements)


def legend_of_line(with_start):
    yield circle(50, 260, 5, "own") + label(60, 264, "winner")
    if with_start:
        yield circle(126, 260, 5.5, "mark-start") + label(137, 264, "START")
    yield label(RIGHT, 264, "height: tuned total", "soft end")


def draw_effect(index, effect, y_scale, winner_value, texts):
    """Draws the mean totals of a constant's values with errors. `index` makes its id."""
    name, values, means, errors = (effect[key] for key in ("name", "values", "means", "errors"))
    axis = Axis(name, values, texts)
    points = points_of(axis, y_scale, means)
    winner_index = values.index(winner_value) if winner_value in values else None
    error_lines = (f"M{x} {y_scale.coordinate(mean - error)}V{y_scale.coordinate(mean + error)}"
                   for (x, _), mean, error in zip(points, means, errors) if mean is not None)
    elements = [*draw_axes(axis, y_scale), curve(points), path("".join(error_lines), "stroke"),
                *dots(points), *marks(points, None, winner_index)]
    return svg(f"effect{index}", f"Mean tuned totals of the values of {name}", 182, elements)


def draw_effects(effects, winner_values, lists):
    """Draws the effects of all constants to one scale. Returns a picture for each."""
    means = [pair for effect in effects for pair in zip(effect["means"], effect["errors"])]
    ends = [mean + sign * error for mean, error in means if mean is not None for sign in (-1, 1)]
    y_scale = y_scale_of(ends, 140)
    return [draw_effect(index, effect, y_scale, winner_values[effect["name"]],
                        lists.get(effect["name"]))
            for index, effect in enumerate(effects)]
