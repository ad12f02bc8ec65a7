#!/usr/bin/env python3
"""Makes rows of described games by the second reading of docs/LANGUAGE.md, for `board_server ask`: see docs/ROWS.md, and checks/try_rows.py.

    checks/make_rows.py [--games FOLDER] [--into FOLDER] [NAME ..]

Of each description some random matches are played, and of each function a few states of them are kept, each with what the game gives there. The same
description gives the same rows.
"""
import argparse
import copy
import json
import random
import sys
from pathlib import Path

from descriptions import DESCRIPTIONS, TOP
from reading.dice import Dice
from reading.match import Match
from reading.runs import Game, Run

INTO = TOP / "checks/rows"

# How many matches are played, how many actions of each, and how many rows of each function (and of each move) are kept.
MATCHES = 3
ACTIONS = 120
KEPT = 2
# Longer rows, and longer lists of offers, are left out.
LONGEST = 6_000
MOST_OFFERS = 60


class Rows:
    """The rows of a game, by what they ask."""

    def __init__(self, name, text):
        self.game, self.rng, self.found = Game(text), random.Random(name), {}
        self.of, self.name = self.game.of, name

    def add(self, function, gives, **members):
        text = json.dumps({"f": function, "gives": gives, **members}, sort_keys=True, separators=(",", ":"), ensure_ascii=False)
        if len(text) <= LONGEST:
            self.found.setdefault((function, members.get("move", "")), []).append(text)

    def state(self, state, viewer=None, is_whole=True):
        """A state as JSON; not whole, as a viewer sees it."""
        parts, form = self.of.parts, {}
        if parts["common"]:
            form["common"] = state["common"]
        if parts["players"]:
            form["players"] = [slots if is_whole or seat == viewer else None for seat, slots in enumerate(state["players"])]
        if parts["secret"]:
            form["secret"] = state["secret"] if is_whole else None
        return copy.deepcopy(form)

    def context(self, match):
        names, context = self.of.tables["phase"], dict(match.context)
        context["phase"] = None if context["phase"] is None else names[context["phase"]]
        return copy.deepcopy(context)

    def made(self, match, deeds, seat=None, arguments=()):
        """What statements make of the state of a match, with the words that come next."""
        state, dice = copy.deepcopy(match.state), Dice(match.dice.seed, 0, match.dice.place)
        events = self.game.run(deeds, state, match.context, dice, seat, arguments)
        return {"events": [event_form(*event) for event in events], "g": self.state(state)}

    def play(self):
        for number in range(MATCHES):
            seed = random.Random(f"{self.name} {number}").randbytes(32)
            seats = self.rng.randint(self.of.least, self.of.most)
            self.add_setup(seats, seed)
            self.play_match(Match(self.game, seats, seed))

    def add_setup(self, seats, seed):
        state = self.game.first_state(seats)
        self.game.run(self.game.setup, state, {"seats": seats}, Dice(seed))
        self.add("setup", {"events": [], "g": self.state(state)}, seats=seats, seed=seed.hex())

    def play_match(self, match):
        for _ in range(ACTIONS):
            offers = [(seat, *offer) for seat in range(match.context["seats"]) for offer in match.offers(seat)]
            if match.over or not offers:
                break
            at = {"g": self.state(match.state), "ctx": self.context(match)}
            drawn = {"seed": match.dice.seed.hex(), "place": match.dice.place}
            if self.rng.random() < 0.3:
                self.add_facts(match, at)
                self.add_options(match, at, offers)
                self.add_hooks(match, at, drawn)
            seat, place, arguments = self.rng.choice(offers)
            self.add("play", self.made(match, self.game.moves[place][2], seat, arguments),
                     seat=seat, move=self.of.moves[place].name, args=arguments, **at, **drawn)
            self.add_refused(match, at, seat)
            match.move(seat, place, arguments)
        self.add("view", self.state(match.state, None, False), g=self.state(match.state), ctx=self.context(match), viewer=None)

    def add_facts(self, match, at):
        run, phase, (turn, code) = Run(match.state, match.context), match.context["phase"], match.turn()
        self.add("end_if", self.game.outcome(match.state, match.context), **at)
        self.add("turn_end_if", bool(code.end_if(run)), **at)
        if phase is not None:
            self.add("phase_end_if", bool(self.game.phases[phase][2](run)), **at)
        if isinstance(turn.order, dict):
            self.add("play_order", match.play_order(turn), **at)
        viewer = self.rng.randrange(match.context["seats"])
        self.add("view", self.state(match.state, viewer, False), viewer=viewer, **at)

    def add_options(self, match, at, offers):
        seat = self.rng.choice(sorted({offer[0] for offer in offers}))
        names = [move.name for move in self.of.moves]
        found = [[names[place], arguments] for of, place, arguments in offers if of == seat]
        if len(found) <= MOST_OFFERS:
            self.add("options", found, seat=seat, may=True, moves=[names[place] for place in match.moves_of(seat)], **at)

    def add_hooks(self, match, at, drawn):
        turn, code = match.turn()
        seat, phase = match.context["current"], match.context["phase"]
        for function, piece, deeds in (("turn_begin", turn.begin, code.begin), ("turn_end", turn.end, code.end), ("game_end", self.of.on_end, self.game.on_end)):
            if piece.block:
                self.add(function, self.made(match, deeds), **at, **drawn)
        if turn.move.block:
            self.add("on_move", self.made(match, code.move, seat), seat=seat, **at, **drawn)
        for function, piece, place in (("phase_begin", "begin", 0), ("phase_end", "end", 1)) if phase is not None else ():
            if getattr(self.of.phases[phase], piece).block:
                self.add(function, self.made(match, self.game.phases[phase][place]), of=at["ctx"]["phase"], **at, **drawn)

    def add_refused(self, match, at, seat):
        """A move with random arguments, if it isn't allowed."""
        place = self.rng.randrange(len(self.of.moves))
        move = self.of.moves[place]
        arguments = ["x" if row.kind == "text" else self.rng.randint(row.least, row.greatest) for row in move.arguments]
        if not self.game.allowed(match.state, match.context, seat, place, arguments):
            self.add("play", "invalid", seat=seat, move=move.name, args=arguments, **at)

    def kept(self):
        """Some rows of each function, and of each move."""
        return [row for what in sorted(self.found) for row in self.rng.sample(self.found[what], min(KEPT, len(self.found[what])))]


def event_form(kind, given):
    """An event, as rows have it."""
    if kind == "win":
        return ["endGame", ["winner", given]]
    if kind in ("draw", "end"):
        return ["endGame", ["draw" if kind == "draw" else "ended"]]
    return [kind, given]


def main():
    parser = argparse.ArgumentParser(description="Makes rows of described games by the second reading of docs/LANGUAGE.md.")
    parser.add_argument("names", nargs="*")
    parser.add_argument("--games", default=str(DESCRIPTIONS))
    parser.add_argument("--into", default=str(INTO))
    words = parser.parse_args()
    into = Path(words.into)
    into.mkdir(parents=True, exist_ok=True)
    for file in sorted(Path(words.games).glob("*.toml")):
        if not words.names or file.stem in words.names:
            rows = Rows(file.stem, file.read_text())
            rows.play()
            kept = rows.kept()
            (into / f"{file.stem}.jsonl").write_text("".join(f"{row}\n" for row in kept))
            print(f"{file.stem}: {len(kept)} rows", flush=True)
    return 0


if __name__ == "__main__":
    sys.exit(main())
