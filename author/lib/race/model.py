"""Guesses what a setting makes from what others made: an additive model of the constants.

A guess is the mean of all settings, plus what each value of the setting adds. What a value adds is
the height of a smooth curve over the constant's values, plus a part of its own; the less a value
was played, the nearer its own part is to 0. The constants are fitted in turn, each to what the
others leave over.
"""
import math

# The width of a curve's kernel, as a part of the range, and the most cells of a curve.
WIDTH, MOST_CELLS = 0.03, 200
# After PRIOR_BLOCKS an estimate is half way between the guess and the rate. So are a curve after
# CURVE_PRIOR settings and the own part of a value after OWN_PRIOR, between 0 and their mean.
PRIOR_BLOCKS, CURVE_PRIOR, OWN_PRIOR = 6, 2, 4


class Constant:
    """What the values of one constant add: `curve` by cell, and `own` by value."""

    def __init__(self, values):
        self.cell_of = {value: index * min(len(values), MOST_CELLS) // len(values)
                        for index, value in enumerate(values)}
        cells = min(len(values), MOST_CELLS)
        width = max(0.6, WIDTH * cells)
        self.kernel = [math.exp(-(distance / width) ** 2 / 2)
                       for distance in range(int(2.5 * width) + 1)]
        self.curve, self.own = [0.0] * cells, {}

    def part(self, value):
        return self.curve[self.cell_of[value]] + self.own.get(value, 0.0)

    def fit(self, values, weights, rates):
        sums = Sums(zip(map(self.cell_of.get, values), weights, rates))
        self.curve = [self.smooth(sums, cell) for cell in range(len(self.curve))]
        left = (rate - self.curve[self.cell_of[value]] for value, rate in zip(values, rates))
        by_value = Sums(zip(values, weights, left))
        self.own = {value: total / (by_value.weights[value] + OWN_PRIOR)
                    for value, total in by_value.totals.items()}

    def smooth(self, sums, cell):
        """Returns the mean of the cells around a cell, the nearer the more."""
        total = weight = 0.0
        reach = len(self.kernel)
        for near in range(max(0, cell - reach + 1), min(len(self.curve), cell + reach)):
            if near in sums.totals:
                total += self.kernel[abs(near - cell)] * sums.totals[near]
                weight += self.kernel[abs(near - cell)] * sums.weights[near]
        return total / (weight + CURVE_PRIOR)


class Sums:
    """Weighted sums by key, and the sums of their weights."""

    def __init__(self, entries):
        self.totals, self.weights = {}, {}
        for key, weight, number in entries:
            self.totals[key] = self.totals.get(key, 0.0) + weight * number
            self.weights[key] = self.weights.get(key, 0.0) + weight


class Model:
    """What settings make, as was seen of some contenders."""

    def __init__(self, ranges, contenders):
        known = [contender for contender in contenders if contender.blocks]
        weights = [contender.blocks / (contender.blocks + PRIOR_BLOCKS) for contender in known]
        rates = [contender.rate() for contender in known]
        self.mean = math.fsum(map(math.prod, zip(weights, rates))) / math.fsum(weights)
        self.constants = [Constant(values) for values in ranges]
        left = [rate - self.mean for rate in rates]
        columns = list(zip(*(contender.values for contender in known)))
        for constant, column in 2 * list(zip(self.constants, columns)):
            left = [rest + constant.part(value) for rest, value in zip(left, column)]
            constant.fit(column, weights, left)
            left = [rest - constant.part(value) for rest, value in zip(left, column)]

    def guess(self, values):
        return self.mean + math.fsum(constant.part(value)
                                     for constant, value in zip(self.constants, values))
