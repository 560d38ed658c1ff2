"""Draws the totals of a box as SVG: a line over one constant, a map of shades over two.

The totals are a list for each value of the first constant, with a total for each value of the
second: the second constant goes from left to right and the first one upwards, as in
`cwtune-landscape`. Of one constant they are a list with one list. A setting that does not assemble
has no total, None. Here the values of a setting are a dict by the names of the constants. If a
value is an index of a list in the author's text, the pictures show what is in the list.
"""
import math
from typing import NamedTuple

from . import charts
from .page import integer

SHADES = 7
MOST_SQUARES = 10000
# The y at which a map begins.
TOP = 8
# The least height of a square that shows its number, and the least size of a mark.
LEAST_HEIGHT = 16
LEAST_MARK = 9
# The first of the shades on which a number has the style `high`.
FIRST_DARK = 4


class Landscape(NamedTuple):
    """Totals over one or two constants, and the lists of those that are indices, by name."""

    names: list
    ranges: list
    totals: list
    lists: dict

    def place(self, values):
        """Returns row and column of the setting with these values, or None if it is not here."""
        try:
            indices = [whole.index(values[name]) for name, whole in zip(self.names, self.ranges)]
        except ValueError:
            return None
        return (0, *indices)[-2:]

    def known_totals(self):
        return [total for row in self.totals for total in row if total is not None]

    def least_and_greatest(self):
        totals = self.known_totals() or [0]
        return min(totals), max(totals)

    def title(self, row, column):
        upwards, across = self.shown_ranges()
        return (f"{self.names[0]} {upwards[row]}, {self.names[1]} {across[column]}: "
                f"{self.totals[row][column]}")

    def shown_ranges(self):
        """Returns the ranges, with what is in the lists in place of indices."""
        return [[self.lists[name][value] for value in values] if name in self.lists else values
                for name, values in zip(self.names, self.ranges)]

    def count(self):
        return sum(map(len, self.totals))


def greatest(totals):
    return max((total for total in totals if total is not None), default=None)


def thinned(landscape, most=MOST_SQUARES):
    """Returns the step of thinning to `most` squares, and the landscape of greatest totals."""
    step, totals = 1, landscape.totals
    while math.ceil(len(totals) / step) * math.ceil(len(totals[0]) / step) > most:
        step += 1
    rows, columns = range(0, len(totals), step), range(0, len(totals[0]), step)
    thin_totals = [[greatest(total for row in totals[first_row:first_row + step]
                             for total in row[first_column:first_column + step])
                    for first_column in columns] for first_row in rows]
    thin_ranges = [values[::step] for values in landscape.ranges]
    return step, landscape._replace(ranges=thin_ranges, totals=thin_totals)


def is_outside(values, winner_values, landscape):
    """Returns whether a value is not in the box, or is not the winner's where that is held."""
    held = [name for name in winner_values if name not in landscape.names]
    return landscape.place(values) is None or any(
        values[name] != winner_values[name] for name in held)


def shade_of(total, least, most):
    if most == least:
        return SHADES // 2
    return min(SHADES - 1, int(SHADES * (total - least) / (most - least)))


class Squares(NamedTuple):
    """The squares of a map: how many rows and columns, and the size of a square in units."""

    rows: int
    columns: int
    width: float
    height: float

    def corner(self, place):
        """Returns the left upper corner of the square in a row and column. Row 0 is lowest."""
        row, column = place
        return (round(charts.LEFT + column * self.width, 2),
                round(TOP + (self.rows - 1 - row) * self.height, 2))

    def bottom(self):
        return round(TOP + self.rows * self.height, 2)


def draw_square(squares, place, total, shade, title):
    """Yields a square, and its total if there is room. Without a total it is a cross."""
    (x, y), width, height = squares.corner(place), squares.width, squares.height
    middle_x, middle_y = round(x + width / 2, 2), round(y + height / 2, 2)
    if total is None:
        arm = min(3, width / 4, height / 4)
        yield charts.path(f"M{middle_x - arm:.2f} {middle_y - arm:.2f}l{2 * arm:.2f} {2 * arm:.2f}"
                          f"m0 {-2 * arm:.2f}l{-2 * arm:.2f} {2 * arm:.2f}", "curve")
        return
    # A little larger, so that no line of the page shows between two squares.
    yield charts.rect(x, y, round(width + 0.3, 2), round(height + 0.3, 2), f"q{shade}", title)
    if width >= 7 * len(integer(total)) + 4 and height >= LEAST_HEIGHT:
        yield charts.label(middle_x, middle_y + 4, integer(total),
                           "middle " + ("high" if shade >= FIRST_DARK else "low"))


def draw_squares(landscape, squares, titled):
    least, most = landscape.least_and_greatest()
    for row, totals in enumerate(landscape.totals):
        for column, total in enumerate(totals):
            shade = None if total is None else shade_of(total, least, most)
            title = landscape.title(row, column) if titled else None
            yield from draw_square(squares, (row, column), total, shade, title)


def draw_mark(squares, place, style):
    """Returns a mark around a square, a line of the page's colour, so that it can be read."""
    (x, y), width, height = squares.corner(place), squares.width, squares.height

    def frame(room, frame_style):
        frame_width, frame_height = (max(LEAST_MARK, side) + room for side in (width, height))
        return charts.rect(round(x + (width - frame_width) / 2, 2),
                           round(y + (height - frame_height) / 2, 2), round(frame_width, 2),
                           round(frame_height, 2), frame_style)

    return frame(7, "halo") + frame(3, style)


def draw_ticks(squares, landscape):
    upwards, across = landscape.shown_ranges()
    every = math.ceil(squares.columns * 40 / max(1, round(squares.columns * squares.width)))
    for column in range(0, squares.columns, every):
        x, _ = squares.corner((0, column))
        yield charts.label(round(x + squares.width / 2, 2), squares.bottom() + 15,
                           across[column], "soft middle")
    every = math.ceil(squares.rows * 14 / max(1, round(squares.rows * squares.height)))
    for row in range(0, squares.rows, every):
        _, y = squares.corner((row, 0))
        yield charts.label(charts.LEFT - 5, round(y + squares.height / 2 + 4, 2),
                           upwards[row], "soft end")


def legend(landscape, top, with_start):
    least, most = map(integer, landscape.least_and_greatest())
    yield charts.label(0, top + 11, f"tuned total {least}")
    left = 76 + 7 * len(least)
    for shade in range(SHADES):
        yield charts.rect(round(left + 14 * shade, 2), top + 1, 14, 12, f"q{shade}")
    yield charts.label(round(left + 14 * SHADES + 6, 2), top + 11, most)
    yield charts.rect(2, top + 23, 10, 10, "mark") + charts.label(19, top + 32, "winner")
    if with_start:
        yield charts.rect(76, top + 23, 10, 10, "mark-start")
        yield charts.label(93, top + 32, "START")
    if len(landscape.known_totals()) < landscape.count():
        yield charts.path(f"M148 {top + 25}l6 6m0 -6l-6 6", "curve")
        yield charts.label(161, top + 32, "does not assemble")


def draw_map(landscape, start_place, winner_place, titled):
    rows, columns = len(landscape.totals), len(landscape.totals[0])
    width = min(60, (charts.RIGHT - charts.LEFT) / columns)
    squares = Squares(rows, columns, width, min(width, 306 / rows))
    bottom, (upwards, across) = squares.bottom(), landscape.names
    elements = [*draw_squares(landscape, squares, titled), *draw_ticks(squares, landscape)]
    elements += [draw_mark(squares, place, style) for place, style in
                 [(start_place, "mark-start"), (winner_place, "mark")] if place is not None]
    elements.append(charts.label(charts.LEFT, bottom + 32,
                                 f"across: {charts.shortened(across, 20)}, "
                                 f"upwards: {charts.shortened(upwards, 20)}"))
    elements += legend(landscape, bottom + 46, start_place is not None)
    return charts.svg("landscape", f"Tuned totals over {upwards} and {across}",
                      round(bottom + 84), elements)


def draw_landscape(landscape, start_values, winner_values, titled=True):
    """Draws the totals of a box. Returns how many values became one, and the picture."""
    step, thin = thinned(landscape)

    def thin_place(values):
        if is_outside(values, winner_values, landscape):
            return None
        return tuple(index // step for index in landscape.place(values))

    start_place, winner_place = thin_place(start_values), thin_place(winner_values)
    if len(thin.names) > 1:
        return step, draw_map(thin, start_place, winner_place, titled)
    start_index, winner_index = (place and place[1] for place in (start_place, winner_place))
    axis = charts.Axis(thin.names[0], thin.ranges[0], thin.lists.get(thin.names[0]))
    return step, charts.draw_line(axis, thin.totals[0], start_index, winner_index)
