"""Random matches, as `check --play` plays and reports them."""
import itertools

from .dice import Dice, Spent
from .match import Endless, Match
from .runs import Crowded

MOST_ACTIONS = 4_096
SELDOM = 16


class Report:
    """What became of some matches."""

    def __init__(self, game):
        self.of = game.of
        self.won, self.ends, self.actions, self.ended_turns = [0] * game.of.most, {}, [], 0
        self.offered, self.made = [0] * len(game.of.moves), [0] * len(game.of.moves)
        self.refused = {}

    def add(self, end, actions):
        if end[0] == "winner":
            self.won[end[1]] += 1
        else:
            self.ends[end[0]] = self.ends.get(end[0], 0) + 1
        self.actions.append(actions)

    def text(self):
        count, total = len(self.actions), sum(self.actions)
        lines = [f"{count} random matches"] + [f"won by seat {seat}: {won}" for seat, won in enumerate(self.won)]
        words = {"draw": "drawn", "ended": "ended with no winner", "stuck": "nobody could act", "long": "not ended in time", "no start": "not begun"}
        lines += [f"{word}: {self.ends.get(end, 0)}" for end, word in words.items()]
        lines.append(f"actions: {min(self.actions)} at least, {total // count}.{total % count * 10 // count} on the mean, {max(self.actions)} at most")
        lines += [f"offered and {why}: {many}" for why, many in self.refused.items()]
        if self.ended_turns:
            lines.append(f"turns ended by a player: {self.ended_turns}")
        for name, offered, made in zip(self.of.tables["move"], self.offered, self.made):
            lines.append(f"move {name}: offered {offered} times, made {made}" if offered else f"move {name}: never offered")
        return "\n".join(lines)


class Play:
    """One random match: its words are those of the seed's stream 0, its choices those of stream 1, its seats those of stream 2."""

    def __init__(self, game, number, report):
        self.game, self.report = game, report
        self.seed = number.to_bytes(8, "little") + bytes(24)
        self.chooser = Dice(self.seed, 1)
        least, most = game.of.least, game.of.most
        self.seats = least + (Dice(self.seed, 2).below(most - least + 1) if most > least else 0)
        self.may_end = "endTurn" in game.of.events

    def run(self):
        try:
            match = Match(self.game, self.seats, self.seed)
        except (Spent, Crowded, Endless):
            return self.report.add(["no start"], 0)
        for _ in range(MOST_ACTIONS):
            if match.over or match.actions >= MOST_ACTIONS:
                break
            after = self.step(match)
            if after is None:
                return self.report.add(["stuck"], match.actions)
            match = after
        return self.report.add(match.over or ["long"], match.actions)

    def step(self, match):
        """The match after a random action; nothing where none can be made."""
        offers = []
        for seat in range(self.seats):
            found = match.offers(seat)
            for place, _ in itertools.groupby(found, lambda offer: offer[0]):
                self.report.offered[place] += 1
            offers += [(seat, *offer) for offer in found]
        if not offers:
            seat = next((seat for seat in range(self.seats) if match.is_active(seat)), None)
            after = self.end_turn(match, seat) if self.may_end and seat is not None else match
            return None if after is match else after
        seat, place, arguments = offers[self.chooser.below(len(offers))]
        if self.may_end and self.chooser.below(SELDOM) == 0:
            return self.end_turn(match, seat)
        return self.make(match, seat, place, arguments)

    def make(self, match, seat, place, arguments):
        after = match.copied()
        try:
            after.move(seat, place, arguments)
        except Spent:
            return self.refuse(match, "too many words")
        except (Crowded, Endless):
            return self.refuse(match, "too many events")
        self.report.made[place] += 1
        return after

    def refuse(self, match, why):
        self.report.refused[why] = self.report.refused.get(why, 0) + 1
        return match

    def end_turn(self, match, seat):
        """The match after a seat has ended its turn, or the same one."""
        if match.context["moves"] < match.turn()[0].least:
            return match
        after = match.copied()
        after.dice.begin()
        after.tasks = [("endTurn", None, seat)]
        try:
            after.settle()
        except (Spent, Crowded, Endless):
            return match
        after.actions += 1
        self.report.ended_turns += 1
        return after


def play(game, count, first=0):
    """The report of so many random matches, by the numbers of their seeds."""
    report = Report(game)
    for number in range(first, first + count):
        Play(game, number, report).run()
    return report
