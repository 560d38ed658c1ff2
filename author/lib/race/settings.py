"""Makes settings for a race: spread evenly, or near others."""

# How often a child has a value of its second parent; how often a child of two parents is changed,
# too; and how often a changed value comes from anywhere in its range.
SECOND_PARENT, CHANGED, REDRAWN = 0.3, 0.5, 0.3


def spread_evenly(ranges, count, dice):
    """Returns settings that spread each constant evenly over its range (a Latin hypercube)."""
    columns = []
    for values in ranges:
        column = [values[int((index + dice.random()) * len(values) / count)]
                  for index in range(count)]
        dice.shuffle(column)
        columns.append(column)
    return list(zip(*columns))


def child(parents, ranges, reach, dice):
    """Returns a setting near one of `parents`, which are sorted with the best first. Some of its
    values are a second parent's, or are moved by about `reach` of their range, or both."""
    first, second = dice.choice(parents[:max(2, len(parents) // 2)]), dice.choice(parents)
    values = [other if dice.random() < SECOND_PARENT else own for own, other in zip(first, second)]
    if tuple(values) == first or dice.random() < CHANGED:
        for constant in dice.sample(range(len(values)), min(dice.choice([1, 1, 2]), len(values))):
            values[constant] = moved(values[constant], ranges[constant], reach, dice)
    return tuple(values)


def moved(value, values, reach, dice):
    """Returns another value of a range: mostly one that is near, now and then any."""
    if dice.random() < REDRAWN:
        return dice.choice(values)
    steps = max(1, round(abs(dice.gauss(0, reach * len(values))))) * dice.choice([-1, 1])
    return values[min(max(values.index(value) + steps, 0), len(values) - 1)]
