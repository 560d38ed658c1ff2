"""Finds a good setting of a template of any size by a race in fresh fights.

The method is iterated racing, as in irace: few fights for many settings, and many for few. In a
*round* new settings race against the survivors of the round before. Its *heats* get longer; in each
all play the same fights, at positions that nobody played before while there are any, and the worse
part leaves. So nothing is picked by the same fights for long, and luck does not last.

    exploring   settings from everywhere, spread evenly over the ranges
    rounds      new settings, most of them near the survivors, against these
    final       the best few in fresh fights; what they made before does not count
    gain        the winner and START in fights that picked nothing

START plays in each round and in the final. A *block* is one fight against each opponent, and a
*play* is one setting in one block.
"""
import itertools, math, random
from typing import NamedTuple

from ..endings import Fault
from .model import PRIOR_BLOCKS, Model
from .settings import child, spread_evenly

# Which part of the budget is used when exploring, the rounds and the final end.
EXPLORED, RACED, DECIDED = 0.33, 0.70, 0.88
# The blocks of the first heat of a round, and of its longest. Each heat is twice as long as the one
# before.
FIRST_HEAT, LONGEST_HEAT = 2, 8
# Which part of the settings of a heat goes on to the next. At least SURVIVORS do, and a round ends
# when no more are left beside START.
GOES_ON, SURVIVORS = 0.34, 8
# How many new settings a round has, and how many of these come from anywhere. For each, TRIES are
# made, of which the model takes one.
NEW_SETTINGS, FROM_ANYWHERE, TRIES = 48, 8, 8
# How far a value moves from a survivor's, as a part of its range: in the first and the last round.
FAR, NEAR = 0.15, 0.005
# How many play in each heat of the final, beside START.
FINALISTS = 16, 6, 2
# How many settings, or blocks, play before the budget is looked at again.
SETTINGS_AT_ONCE, BLOCKS_AT_ONCE = 48, 16
# The most settings that are kept in memory. If there are more, the older half is forgotten.
MOST_CONTENDERS = 400_000


class Contender:
    """A setting in the race: its values, and the blocks that it played. A rate is the points as a
    part of the greatest total. `guess` is what the setting was thought to make before it played."""

    __slots__ = "values", "guess", "assembles", "blocks", "sum_of_rates"

    def __init__(self, values, guess=0.0):
        self.values, self.guess, self.assembles = values, guess, True
        self.blocks, self.sum_of_rates = 0, 0.0

    def add(self, rates):
        if rates is None:
            self.assembles = False
        else:
            self.blocks += len(rates)
            self.sum_of_rates += math.fsum(rates)

    def rate(self):
        return self.sum_of_rates / self.blocks if self.blocks else 0.0

    def estimate(self):
        """Returns the rate, drawn to the guess: the more, the less the setting played."""
        known = self.sum_of_rates + PRIOR_BLOCKS * self.guess
        return known / (self.blocks + PRIOR_BLOCKS)


class Outcome(NamedTuple):
    """What a race found.

    `finalists` were in the final, the best first, each with the final's blocks alone. `rise` is by
    how much the winner's rate was above START's in all fights that picked it. `points` are those of
    the winner and of START in fights that picked nothing, a text for each opponent with a digit for
    each fight. `rise` and `points` are None if the winner is START, or if START does not assemble.
    """

    winner: tuple
    finalists: list
    rise: float | None
    points: tuple | None


class Race:
    """A race in the settings of a grid, which uses a part of an arena's budget."""

    def __init__(self, grid, arena, seed, budget_part=1):
        self.grid, self.arena, self.dice = grid, arena, random.Random(seed)
        self.start = Contender(grid.start_values)
        self.contenders = {grid.start_values: self.start}
        self.budget_part, self.survivors, self.model = budget_part, [], None
        # How many settings were forgotten, and with how many the next model is fitted.
        self.forgotten, self.fit_at = 0, 0

    def run(self):
        self.start.add(self.arena.rates([self.start], self.arena.timed_blocks())[0])
        self.start.guess = self.start.rate()
        if self.start.assembles:
            self.arena.tell_estimate(f"a race of {self.grid.count()} settings")
        self.explore()
        for number in itertools.count(1):
            if not self.improve(number):
                break
        self.survivors = finalists = self.decide()
        winner = finalists[0].values
        if winner == self.start.values or not self.start.assembles:
            return Outcome(winner, finalists, None, None)
        rise = self.contenders[winner].rate() - self.start.rate()
        self.tell("gain")
        return Outcome(winner, finalists, rise, self.measure(winner, self.start.values, 1))

    def tell(self, news):
        """Has the lines of progress say what is played from now on."""
        self.arena.news = f"{news}, {self.count()} settings"

    def count(self):
        """Returns how many settings have entered."""
        return self.forgotten + len(self.contenders)

    def leader(self):
        """Returns the values of the best setting, by what is known so far."""
        return (self.survivors or [self.start])[0].values

    def enter(self, settings):
        """Enters those of some settings that did not enter before. Returns them."""
        entered = []
        for values in settings:
            if values not in self.contenders:
                guess = self.model.guess(values) if self.model else 0.0
                self.contenders[values] = Contender(values, guess)
                entered.append(self.contenders[values])
        return entered

    def play(self, contenders, count, limit):
        """Plays the first of `count` new blocks, in the part `limit` of the race's budget. Returns
        who played and assembles."""
        blocks, played = self.arena.new_blocks(min(count, BLOCKS_AT_ONCE)), []
        for first in range(0, len(contenders), SETTINGS_AT_ONCE):
            some = contenders[first:first + SETTINGS_AT_ONCE]
            if not self.arena.has_room(len(some) * len(blocks), limit * self.budget_part):
                break
            self.arena.hosts.play_ahead(contenders[first:], blocks, count, limit * self.budget_part)
            for contender, rates in zip(some, self.arena.rates(some, blocks)):
                contender.add(rates)
            played += some
        return [contender for contender in played if contender.assembles]

    def plays_until(self, limit):
        return self.arena.plays_until(limit * self.budget_part)

    def explore(self):
        count = int(min(MOST_CONTENDERS / 2, self.plays_until(EXPLORED) / plays_of_exploring()))
        new = self.enter(spread_evenly(self.grid.ranges, count, self.dice))
        self.tell("exploring")
        played = self.play(new, FIRST_HEAT, EXPLORED)
        for one in new:
            if one.assembles and not one.blocks:  # there was no time left for it
                del self.contenders[one.values]
        mean = math.fsum(map(Contender.rate, played)) / max(1, len(played))
        for contender in played:
            contender.guess = mean
        self.race(played, EXPLORED)

    def improve(self, number):
        """Runs a round. Returns whether the budget had room for it, and a new setting was found."""
        has_room = self.arena.has_room(NEW_SETTINGS * FIRST_HEAT, RACED * self.budget_part)
        if not self.survivors or not has_room:
            return False
        if len(self.contenders) > MOST_CONTENDERS:
            self.forget()
        self.fit()
        new = self.enter(self.choices())
        self.tell(f"round {number}")
        self.race(self.play(new, FIRST_HEAT, RACED), RACED)
        return bool(new)

    def forget(self):
        """Forgets the older half of the settings, but START and the survivors. A forgotten setting
        may enter again."""
        newer = itertools.islice(self.contenders.values(), len(self.contenders) // 2, None)
        kept = {one.values: one for one in [self.start, *self.survivors, *newer]}
        self.forgotten += len(self.contenders) - len(kept)
        self.contenders, self.fit_at = kept, 0

    def fit(self):
        """Fits the model anew: in each round up to some 7000 settings, then for each 5 percent more
        at most, since a fit takes longer than a round."""
        if len(self.contenders) >= self.fit_at:
            self.model = Model(self.grid.ranges, self.contenders.values())
            self.fit_at = 1.05 * len(self.contenders) - 300

    def race(self, new, limit):
        """Races the new ones of a round against the survivors of the last. Sets the survivors."""
        runners, length = self.best([*new, *self.survivors]), FIRST_HEAT
        while length < LONGEST_HEAT or len(runners) > SURVIVORS + 1:
            length = min(2 * length, LONGEST_HEAT)
            played = self.play(runners, length, limit)
            runners = self.best(runners)
            if not played:
                break
        self.survivors = runners

    def best(self, contenders):
        count = max(SURVIVORS, math.ceil(GOES_ON * len(contenders)))
        ranked = sorted(contenders, key=Contender.estimate, reverse=True)
        return self.with_start(ranked[:count])

    def with_start(self, contenders):
        has_start = any(one.values == self.start.values for one in contenders)
        return contenders + [self.start] * (self.start.assembles and not has_start)

    def choices(self):
        """Yields the values of new settings: for each the best of a few tries, by the model."""
        part = (self.arena.used() / self.budget_part - EXPLORED) / (RACED - EXPLORED)
        reach = FAR * (NEAR / FAR) ** min(1, max(0, part))
        parents = [survivor.values for survivor in self.survivors]
        for index in range(NEW_SETTINGS):
            tries = [tuple(map(self.dice.choice, self.grid.ranges)) if index < FROM_ANYWHERE
                     else child(parents, self.grid.ranges, reach, self.dice)
                     for _ in range(TRIES)]
            yield max(tries, key=self.model.guess)

    def decide(self):
        """Plays the final. Returns who were in it, the winner first."""
        known = [one for one in self.contenders.values() if one.blocks and one is not self.start]
        known.sort(key=Contender.estimate, reverse=True)
        finalists = [one.values for one in self.with_start(known[:FINALISTS[0]])]
        if not finalists:
            raise Fault("no setting that was tried assembles; `cwtune asm --setting start` says "
                        "why of START")
        self.tell("final")
        ranked = self.knock_out(finalists, FINALISTS, self.start.values, DECIDED)
        for finalist in ranked:
            self.contenders[finalist.values].add([finalist.rate()] * finalist.blocks)
        return ranked

    def knock_out(self, settings, counts, kept, limit):
        """Plays settings in heats of fresh blocks, which alone count: in each the best so far, by
        `counts`, and `kept`. Returns the settings as new contenders, the best first."""
        players, out = [Contender(values) for values in settings], []
        for heat, count in enumerate(counts if len(players) > 1 else ()):
            out = [player for player in players[count:] if player.values != kept] + out
            players = [player for player in players if player not in out]
            plays = self.plays_until(limit) / (len(counts) - heat)
            most = min(int(plays / len(players)), self.arena.different_blocks())
            for to_come in range(most, 0, -BLOCKS_AT_ONCE):
                self.play(players, to_come, limit)
            players.sort(key=Contender.rate, reverse=True)
        return players + out

    def measure(self, first, second, limit):
        """Plays two settings in fresh blocks, in the part `limit` of the race's budget, and in no
        block twice. Returns for each a text per opponent, with a digit for each block."""
        pair, points = [Contender(first), Contender(second)], ([], [])
        left, limit = self.arena.different_blocks(), limit * self.budget_part
        while (count := min(BLOCKS_AT_ONCE, left)) and self.arena.has_room(2 * count, limit):
            blocks = self.arena.new_blocks(count)
            self.arena.hosts.play_ahead(pair, blocks, left, limit)
            left -= count
            for player_points, of_blocks in zip(points, self.arena.play(pair, blocks)):
                player_points.extend(of_blocks)
        return tuple(["".join(column) for column in zip(*of_player)] for of_player in points)


def plays_of_exploring():
    """Returns how many plays the heats of exploring take for each new setting."""
    runners, length, plays = 1.0, FIRST_HEAT, FIRST_HEAT
    while runners > 0.03:
        runners, length = GOES_ON * runners, min(2 * length, LONGEST_HEAT)
        plays += runners * length
    return plays
