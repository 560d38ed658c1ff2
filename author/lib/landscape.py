"""Draws the totals of a tuning over its constants, as an SVG or a PNG file by the name's end.

Of one constant it is a line, of two a map of colours, of more a map for each choice of the others.
The best setting is a star, and START a ring. A setting that does not assemble is white. One that
was dropped is grey: in a map a square, the lighter the more it might total; on a line a triangle at
the most that it might total. A second picture shows for each constant the mean total of each of its
values, with its standard error, to one scale; it needs every total, so a certificate of
`cwtune tune --all`. Needs matplotlib (Debian: python3-matplotlib).

Example: cwtune-landscape my.red my.cert totals.png --effects effects.png
"""
import contextlib, itertools, math, os, sys

from . import cert_inputs, tuning_files
from .endings import Fault, quoted
from .gain import error_of_mean
from .watching import watched
from .words import add_files, add_shared, command_parser, number_from
from .writing import whole_file

MOST_MAPS = 36
GREY = "#cccccc"
# How matplotlib lays out the squares of a map.
MAP_SCALE = {"origin": "lower", "aspect": "auto"}
# How a map marks START and the best setting.
START_MARK = {"marker": "o", "markersize": 13, "color": "none", "markeredgecolor": "red",
              "markeredgewidth": 2}
BEST_MARK = {"marker": "*", "markersize": 16, "color": "red", "markeredgecolor": "white"}


def load_pyplot():
    # Settings of a file would change the picture, and one in the current folder may be anybody's.
    os.environ["MATPLOTLIBRC"] = os.devnull
    try:
        with contextlib.chdir("/"):
            import matplotlib
            matplotlib.use("Agg")
            import matplotlib.pyplot
    except ModuleNotFoundError:
        raise Fault("no matplotlib for this Python; on Debian: apt-get install python3-matplotlib, "
                    f"then /usr/bin/python3 {quoted(sys.argv[0])} ..", 3) from None
    except ImportError as error:
        raise Fault(f"matplotlib cannot be loaded: {error}", 3) from None
    matplotlib.rcParams.update({"svg.hashsalt": "cwtune", "svg.fonttype": "none",
                                "text.parse_math": False})
    return matplotlib.pyplot


class Totals:
    """The totals of the settings that played all fights, and the caps of those that were dropped.

    For each setting one of `totals` and `caps` is a number and the other NaN; both are NaN if it
    does not assemble. `best` is the setting of the certificate. With an `opponent` only the fights
    against that one count.
    """

    def __init__(self, template, cert, fights, opponent=None):
        self.template, self.best, self.totals, self.caps = template, cert.best, [], []
        counted = {index for index, fight in enumerate(fights)
                   if opponent in (None, fight.opponent)}
        # The other fights weigh nothing.
        fights = tuning_files.Fights(fight if index in counted else fight._replace(weight=0)
                                     for index, fight in enumerate(fights))
        for setting in watched(range(cert.count), cert.count, "totals"):
            points = cert.points(setting)
            cap = math.nan if points is None else tuning_files.cap(points.items(), fights)
            has_total = points is not None and counted <= points.keys()
            self.totals.append(cap if has_total else math.nan)
            self.caps.append(math.nan if has_total else cap)

    def greys(self):
        """Returns the scale of the greys of dropped settings, or nothing if there are none."""
        caps = [cap for cap in self.caps if not math.isnan(cap)]
        if not caps:
            return {}
        low, high = min(caps), max(caps)
        # The least cap is a middle grey, and the greatest a light one.
        span = max(1, high - low)
        return {"vmin": low - 2 * span, "vmax": low + 2 * span, "cmap": "Greys_r"}


def draw_line(plot, totals):
    figure, axes = plot.subplots(figsize=(8, 4.5))
    template, best = totals.template, totals.best
    values = template.ranges[0]
    axes.plot(values, totals.totals, color="C0", linewidth=1, zorder=1)
    for heights, marker, colour, label in [(totals.totals, "o", "C0", "total"),
                                           (totals.caps, "v", GREY, "dropped: at most this total")]:
        if not all(map(math.isnan, heights)):
            axes.scatter(values, heights, marker=marker, color=colour, label=label, zorder=2)
    axes.scatter([values[best]], [totals.totals[best]], marker="*", s=220, color="C3",
                 label=f"best: {template.constants(best)}", zorder=3)
    start = template.start
    height = totals.caps[start] if math.isnan(totals.totals[start]) else totals.totals[start]
    axes.scatter([values[start]], [height], marker="o", s=120, facecolors="none",
                 edgecolors="black", zorder=4, label=f"START: {template.constants(start)}")
    label_values(axes, template, 0)
    axes.set_ylabel("points")
    axes.locator_params(axis="y", integer=True)
    axes.legend()
    return figure


def label_values(axes, template, constant):
    """Labels the axis from left to right, of an index of a list with what is in the list."""
    name, values = template.names[constant], template.ranges[constant]
    axes.set_xlabel(name)
    if name in template.lists:
        axes.set_xticks(list(values), [template.shown_value(name, value) for value in values])


def maps_of(totals, x, y, others):
    """Returns totals and caps as arrays: maps over y and x, for each choice of the `others`."""
    import numpy
    sizes = [len(values) for values in totals.template.ranges]
    arrays = (numpy.array(heights).reshape(sizes).transpose([*others, y, x])
              for heights in (totals.totals, totals.caps))
    return [array.reshape(-1, sizes[y], sizes[x]) for array in arrays]


def label_ticks(set_ticks, values, most):
    indices = range(0, len(values), math.ceil(len(values) / most))
    set_ticks(list(indices), [str(values[index]) for index in indices])


def inches_across(columns):
    return max(8 / columns, 3.6)


def grid_of(plot, count, **sharing):
    """Returns a figure with room for `count` maps, their axes, and those of the whole grid."""
    if count > MOST_MAPS:
        raise Fault(f"{count} maps, one for each choice of the other constants; at most "
                    f"{MOST_MAPS}: tune a template with fewer of them")
    columns = math.ceil(math.sqrt(count))
    rows = math.ceil(count / columns)
    figure, grid = plot.subplots(rows, columns, squeeze=False, layout="constrained", **sharing,
                                 figsize=(columns * inches_across(columns), max(5, 3 * rows)))
    for axes in grid.flat[count:]:
        axes.axis("off")
    return figure, list(grid.flat[:count]), grid


def draw_maps(plot, totals, x, y):
    template, greys = totals.template, totals.greys()
    others = [constant for constant in range(len(template.names)) if constant not in (x, y)]
    total_maps, cap_maps = maps_of(totals, x, y, others)
    figure, axes_of_maps, grid = grid_of(plot, len(total_maps))
    numbers = [total for total in totals.totals if not math.isnan(total)]
    scale = {"cmap": "viridis", "vmin": min(numbers), "vmax": max(numbers), **MAP_SCALE}
    choices = itertools.product(*(template.ranges[constant] for constant in others))
    for axes, choice, total_map, cap_map in zip(axes_of_maps, choices, total_maps, cap_maps):
        if greys:
            axes.imshow(cap_map, **greys, **MAP_SCALE)
        image = axes.imshow(total_map, **scale)
        held = dict(zip(others, choice))
        label_map(axes, template, x, y, held, inches_across(grid.shape[1]))
        mark_settings(axes, totals, x, y, held)
    label = "total (star: best, ring: START" + (", grey: dropped)" if greys else ")")
    figure.colorbar(image, ax=grid, label=label).locator.set_params(integer=True)
    return figure


def label_map(axes, template, x, y, held, inches):
    """Labels a map of width `inches`. `held` has the values of the other constants."""
    names = template.names
    across, upwards = ([template.shown_value(names[constant], value)
                        for value in template.ranges[constant]] for constant in (x, y))
    longest = max(len(str(value)) for value in across)
    # How many values have room from left to right.
    most_across = max(1, min(8, int(inches * 72 * 0.7 // (7 * longest + 8))))
    label_ticks(axes.set_xticks, across, most_across)
    label_ticks(axes.set_yticks, upwards, 8)
    title = " ".join(f"{names[constant]}={template.shown_value(names[constant], value)}"
                     for constant, value in held.items())
    axes.set_title(title, fontsize=9)
    axes.set_xlabel(names[x])
    axes.set_ylabel(names[y])


def mark_settings(axes, totals, x, y, held):
    """Marks START and the best setting in the map that they are in."""
    template = totals.template
    for setting, style in [(template.start, START_MARK), (totals.best, BEST_MARK)]:
        values = template.values_of_settings[setting]
        if all(values[constant] == value for constant, value in held.items()):
            axes.plot([template.ranges[x].index(values[x])],
                      [template.ranges[y].index(values[y])], **style)


def effect_of(template, totals, constant):
    """Returns the values of a constant that assemble, their mean totals, and standard errors."""
    groups = {value: [] for value in template.ranges[constant]}
    for total, values in zip(totals, template.values_of_settings):
        if not math.isnan(total):
            groups[values[constant]].append(total)
    groups = {value: group for value, group in groups.items() if group}
    means = [sum(group) / len(group) for group in groups.values()]
    return list(groups), means, list(map(error_of_mean, groups.values()))


def draw_effects(plot, totals):
    if totals.greys():
        raise Fault("settings were dropped: the means need a certificate of `cwtune tune --all`")
    template = totals.template
    # One scale, so that the effects can be compared.
    figure, grid, _ = grid_of(plot, len(template.names), sharey=True)
    for constant, axes in enumerate(grid):
        axes.errorbar(*effect_of(template, totals.totals, constant), marker="o", linewidth=1,
                      capsize=2)
        label_values(axes, template, constant)
        axes.set_ylabel("mean total")
    return figure


def axes_of(parser, args, names):
    """Returns the indices of the constants of the axes: from left to right, then upwards."""
    if args.axes is None:
        return len(names) - 1, len(names) - 2
    axes = args.axes.split(",")
    if len(axes) != 2 or axes[0] == axes[1] or not set(axes) <= set(names):
        parser.error(f"--axes takes two of the constants {', '.join(names)}, as in A,B")
    return names.index(axes[0]), names.index(axes[1])


def refuse_opponent(parser, args, fights):
    """Refuses an opponent whose fights are not known, or that has none."""
    if args.opponent is None:
        return
    if not args.schedule:
        parser.error("--opponent needs --schedule")
    opponents = sorted({fight.opponent for fight in fights})
    if args.opponent not in opponents:
        parser.error(f"--opponent {args.opponent}: the opponents of the schedule are "
                     f"{', '.join(map(str, opponents))}")


def make_parser():
    parser = command_parser(__doc__)
    add_files(parser, "template", "cert")
    parser.add_argument("picture", metavar="PICTURE", help="a name that ends with .png or .svg")
    add_shared(parser, "--schedule")
    parser.add_argument("--axes", metavar="A,B", help="the constants from left to right and "
                        "upwards [default: the last two, the last from left to right]")
    parser.add_argument("--opponent", type=number_from(0), metavar="N",
                        help="count the fights against opponent N alone")
    parser.add_argument("--effects", metavar="PICTURE",
                        help="draw the mean total of each value of each constant, too")
    return parser


def save(figure, title, path):
    figure.suptitle(title, fontsize=11)
    kind = path[-3:]
    date = {"Date": None} if kind == "svg" else None
    with whole_file(path, "wb") as file:
        figure.savefig(file, format=kind, dpi=110, metadata=date)


def main():
    parser = make_parser()
    args = parser.parse_args()
    for picture in filter(None, [args.picture, args.effects]):
        if picture[-4:] not in (".png", ".svg"):
            parser.error(f"the picture's name has to end with .png or .svg: {picture}")
    if args.effects and os.path.realpath(args.effects) == os.path.realpath(args.picture):
        parser.error(f"both pictures would be {args.picture}")
    cert, template, why_unused = cert_inputs.read_tuning(args)
    if not template.names:
        parser.error("the template has no constants to draw")
    fights = cert.fights(args.schedule)
    refuse_opponent(parser, args, fights)
    axes = axes_of(parser, args, template.names)
    totals, plot = Totals(template, cert, fights, args.opponent), load_pyplot()
    title = (f"best setting {cert.best}: {template.constants(cert.best)}, total {cert.total} of "
             f"{fights.greatest}")
    if args.opponent is not None:
        title += f"\nthe fights against opponent {args.opponent}"
    is_line = len(template.names) == 1
    figure = draw_line(plot, totals) if is_line else draw_maps(plot, totals, *axes)
    effects = draw_effects(plot, totals) if args.effects else None
    save(figure, title, args.picture)
    if effects:
        save(effects, title, args.effects)
    cert_inputs.print_note(why_unused)
