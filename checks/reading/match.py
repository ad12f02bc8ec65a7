"""The flow of a match of a described game, as docs/RULES.md has it. Undo, redo and the rules of lines are left out."""
import copy

from .dice import Dice
from .runs import Run

MOST_TASKS = 64


class Endless(Exception):
    """A 65th task would begin."""


class Row:
    """Where a seat stands on the map of active players: its stage, its count of moves, and the least and the greatest."""

    def __init__(self, stage, least=0, most=None):
        self.stage, self.count, self.least, self.most = stage, 0, least, most


class Match:
    """A match with its state, its context, the map of active players, and the tasks that are to come."""

    def __init__(self, game, seats, seed):
        self.game, self.of, self.dice = game, game.of, Dice(seed)
        self.context = {"seats": seats, "turn": 0, "current": 0, "order": list(range(seats)), "pos": 0, "phase": None, "moves": 0}
        self.map, self.follower, self.kept = None, None, []
        self.over, self.actions, self.tasks = None, 0, []
        self.state = game.first_state(seats)
        self.dice.begin()
        game.run(game.setup, self.state, self.context, self.dice)
        self.enter(next((place for place, phase in enumerate(self.of.phases) if phase.start), None), at_start=True)
        self.settle()

    def copied(self):
        """A match that stands as this one does, of the same game."""
        other = copy.copy(self)
        other.state, other.context, other.map, other.kept = (copy.deepcopy(it) for it in (self.state, self.context, self.map, self.kept))
        other.dice, other.tasks = copy.copy(self.dice), []
        return other

    # What is in force.

    def turn(self):
        """The turn of the phase, or of the sheet, with its code."""
        phase = self.context["phase"]
        if phase is not None and self.of.phases[phase].turn:
            return self.of.phases[phase].turn, self.game.turns[phase]
        return self.of.turn, self.game.turn

    def is_active(self, seat):
        return seat == self.context["current"] if self.map is None else seat in self.map

    def moves_of(self, seat):
        """The moves that an active seat has."""
        stage, phase = self.map[seat].stage if self.map is not None else None, self.context["phase"]
        for moves in (None if stage is None else self.of.stages[stage].moves, None if phase is None else self.of.phases[phase].moves):
            if moves is not None:
                return moves
        return self.of.base

    def offers(self, seat):
        if self.over or not self.is_active(seat):
            return []
        return self.game.offers(self.state, self.context, seat, self.moves_of(seat))

    # A move, and what follows.

    def move(self, seat, place, arguments):
        """Makes a move, if it is allowed: whether it was made."""
        if not self.game.allowed(self.state, self.context, seat, place, arguments):
            return False
        self.dice.begin()
        events = self.game.run(self.game.moves[place][2], self.state, self.context, self.dice, seat, arguments)
        if not self.of.moves[place].no_limit:
            self.count(seat)
        self.tasks = [(kind, given, seat) for kind, given in events]
        self.hook(self.turn()[1].move, seat)
        self.settle()
        self.actions += 1
        return True

    def count(self, seat):
        if seat == self.context["current"]:
            self.context["moves"] += 1
        if self.map is not None and seat in self.map:
            row = self.map[seat]
            row.count += 1
            if row.most is not None and row.most <= row.count:
                self.leave_stage(seat)

    def hook(self, deeds, seat=None):
        """Runs a hook, whose events go to the end of the tasks."""
        events = self.game.run(deeds, self.state, self.context, self.dice, seat)
        self.tasks += [(kind, given, seat) for kind, given in events]

    def settle(self):
        """Runs tasks until none is left, or the match is over."""
        left, after = MOST_TASKS, False
        while self.over is None:
            task = None if after else self.automatic()
            if task is None:
                if not self.tasks:
                    return
                task = self.tasks.pop(0)
            if left == 0:
                raise Endless
            left -= 1
            after = self.run(*task)

    def automatic(self):
        """The task that comes by itself, if one does."""
        outcome, phase, (turn, code) = self.game.outcome(self.state, self.context), self.context["phase"], self.turn()
        if outcome:
            return "over", outcome, None
        if phase is not None and self.holds(self.game.phases[phase][2]):
            return "endPhase", None, None
        is_full = turn.most is not None and turn.most <= self.context["moves"] and self.map is None
        if self.context["moves"] >= turn.least and (self.holds(code.end_if) or is_full):
            return "endTurn", None, None
        return None

    def holds(self, condition):
        return condition(Run(self.state, self.context))

    def run(self, kind, given, seat):
        """Runs a task: whether it was a turn's end that put a phase's end in front."""
        if kind == "endTurn":
            return self.end_turn(given)
        if kind in ("win", "draw", "end", "over"):
            self.over = {"win": ["winner", given], "draw": ["draw"], "end": ["ended"]}.get(kind, given)
            self.hook(self.game.on_end)
            self.tasks = []
        elif kind == "endPhase" and self.context["phase"] is not None:
            self.leave(self.of.phases[self.context["phase"]].next)
        elif kind == "setPhase":
            self.leave(given)
        elif kind == "setActive":
            self.set_spec(given)
        elif kind == "setStage":
            self.set_stage(self.context["current"] if seat is None else seat, given)
        elif kind == "endStage":
            self.end_stage(self.context["current"] if seat is None else seat)
        return False

    # Turns and phases.

    def end_turn(self, seat):
        (turn, code), order = self.turn(), self.context["order"]
        if self.context["moves"] < turn.least or seat is not None and seat not in order:
            return False
        place = self.context["pos"] + 1 if seat is None else order.index(seat)
        if place == len(order):
            if turn.order == "once":
                self.tasks.insert(0, ("endPhase", None, None))
                return True
            place = 0
        self.hook(code.end)
        self.begin_turn(place)
        return False

    def begin_turn(self, place):
        context = self.context
        context["turn"] += 1
        context["current"], context["pos"], context["moves"] = context["order"][place], place, 0
        self.clear_map()
        turn, code = self.turn()
        if turn.active is not None:
            self.set_spec(turn.active)
        self.hook(code.begin)

    def leave(self, phase):
        """The turn and the phase in hand end, and another phase, or none, begins."""
        self.hook(self.turn()[1].end)
        if self.context["phase"] is not None:
            self.hook(self.game.phases[self.context["phase"]][1])
        self.enter(phase)

    def enter(self, phase, at_start=False):
        self.context["phase"] = phase
        if phase is not None:
            self.hook(self.game.phases[phase][0])
        turn, _ = self.turn()
        order, place = self.play_order(turn), self.context["pos"]
        self.context["order"] = order
        if turn.order == "default":
            place = 0 if at_start else (place + 1) % len(order)
        elif turn.order == "continue":
            place %= len(order)
        else:
            place = 0
        self.begin_turn(place)

    def play_order(self, turn):
        if isinstance(turn.order, list):
            return list(turn.order)
        seats = range(self.context["seats"])
        if isinstance(turn.order, dict):
            order = [seat for seat in self.state["common"][turn.order["slot"]] if isinstance(seat, int) and seat in seats]
            return order if 1 <= len(order) <= 64 else list(seats)
        return list(seats)

    # The map of active players.

    def clear_map(self):
        self.map, self.follower, self.kept = None, None, []

    def spec_rows(self, spec):
        """The rows of a spec; of a seat the last one counts."""
        rows, order, current = {}, self.context["order"], self.context["current"]
        placed = [(spec.current, [current]), (spec.others, [seat for seat in order if seat != current]), (spec.all, order)]
        placed += [(place, [seat]) for seat, place in spec.seats]
        if spec.slot:
            found = self.state["common"][spec.slot]
            found = found if isinstance(found, list) else [found]
            placed.append((spec.slot_place, sorted(seat for seat in set(found) if isinstance(seat, int) and 0 <= seat < self.context["seats"])))
        for place, seats in placed:
            for seat in seats if place else []:
                rows[seat] = Row(place[0], spec.least, spec.most)
        return rows

    def plan(self, place):
        """The rows of a spec, or of the first that follows and has some, its follower, and whether the map before it is kept."""
        keeps = True
        while True:
            spec = self.of.specs[place]
            rows, keeps = self.spec_rows(spec), keeps and spec.revert
            if rows or spec.next is None:
                return rows, spec.next, keeps
            place = spec.next

    def set_spec(self, place):
        rows, follower, keeps = self.plan(place)
        if not keeps:
            self.kept = []
        elif self.map:
            self.kept.insert(0, (self.map, self.follower))
        self.stand(rows, follower)

    def stand(self, rows, follower):
        """Takes these rows; without any the map that was kept last comes back, or none."""
        if rows:
            self.map, self.follower = rows, follower
        elif self.kept:
            self.map, self.follower = self.kept.pop(0)
        else:
            self.clear_map()

    def set_stage(self, seat, stage):
        if self.map is None:
            self.clear_map()
            self.map = {}
        self.map[seat] = Row(stage)

    def end_stage(self, seat):
        if self.map is not None and seat in self.map and self.map[seat].count >= self.map[seat].least:
            self.leave_stage(seat)

    def leave_stage(self, seat):
        """The seat goes to the stage that follows, or leaves the map."""
        stage = self.map[seat].stage
        after = None if stage is None else self.of.stages[stage].next
        rows = {other: row for other, row in self.map.items() if other != seat}
        if after is not None:
            rows[seat] = Row(after)
        if rows or self.follower is None:
            self.stand(rows, self.follower)
            return
        rows, follower, keeps = self.plan(self.follower)
        if not keeps:
            self.kept = []
        self.stand(rows, follower)
