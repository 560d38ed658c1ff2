"""Computes points in fresh fights with their errors, and what one setting gains over another."""
import math
from typing import NamedTuple

GAIN, LOSS = "a gain", "a loss"


def error_of_mean(numbers):
    """Returns the standard error of the mean of some numbers; 0 if there is only one."""
    mean = sum(numbers) / len(numbers)
    squares = sum((number - mean) ** 2 for number in numbers)
    return math.sqrt(squares / max(1, len(numbers) - 1) / len(numbers))


class FreshPoints(NamedTuple):
    """The points of fresh fights, a list for each opponent, and how much each opponent counts."""

    by_opponent: list
    opponent_weights: list

    @classmethod
    def of_texts(cls, texts, weights):
        """Returns the points that a text has for each opponent, a digit for each fight."""
        return cls([list(map(int, text)) for text in texts], weights)

    def mean(self):
        """Returns the points as a part of the greatest total, in percent."""
        means = (sum(points) / (3 * len(points)) for points in self.by_opponent)
        weights = self.opponent_weights
        return 100 * sum(map(math.prod, zip(means, weights))) / sum(weights)

    def error(self):
        """Returns the standard error of the mean, in percent."""
        weights = self.opponent_weights
        errors = map(math.prod, zip(map(error_of_mean, self.by_opponent), weights))
        return 100 / 3 * math.hypot(*errors) / sum(weights)

    def numbers(self):
        return {"points": sum(map(sum, self.by_opponent)),
                "fights": sum(map(len, self.by_opponent)), "percent": self.mean(),
                "error": self.error()}

    def minus(self, other):
        pairs = zip(self.by_opponent, other.by_opponent)
        return FreshPoints([[more - less for more, less in zip(*pair)] for pair in pairs],
                           self.opponent_weights)

    def __str__(self):
        return fresh_text(self.numbers(), self.opponent_weights)


def fresh_text(numbers, weights):
    """Returns the points and their percentage, or the percentage alone if weights differ."""
    percentage = f"{numbers['percent']:.1f}% +- {numbers['error']:.1f}"
    if len(set(weights)) != 1:
        return percentage
    return f"{numbers['points']} of {3 * numbers['fights']} ({percentage})"


def gain_of(points, weights):
    """Returns the differences of two players' points, given as texts, or None without fights."""
    first, second = (FreshPoints.of_texts(texts, weights) for texts in points)
    return first.minus(second) if first.by_opponent else None


def gain_numbers(difference):
    """Returns a gain in percentage points, its error, and in words, by two standard errors."""
    percent, error = difference.mean(), difference.error()
    # A single fight has no error that could be known.
    is_shown = abs(percent) > 2 * error and min(map(len, difference.by_opponent)) > 1
    words = (GAIN if percent > 0 else LOSS) if is_shown else "no difference that these fights show"
    return {"percent": percent, "error": error, "words": words}


def gain_text(gain):
    return f"{gain['percent']:+z.1f}% +- {gain['error']:.1f}, {gain['words']}"
