#!/usr/bin/env python3
"""page/test/tables.py [NAME ..]: records states of described games for the play `tables` of the page's test.

Each NAME, or each game of page/table/hints, is played at random by the second reading of docs/LANGUAGE.md, checks/reading, with the same words each time.
page/test/tables/NAME.json has its description without its code, and for some of its states, each of them with the one before it, what the server would tell:
`states`, of which each has `number`, `ctx`, `g` with the parts of all seats, and `offers`, what each seat is offered. The page is told its own seat's part
alone, and the offers of its own seat. It wants Python 3.11."""
import json
import sys
import tomllib
from pathlib import Path

HERE = Path(__file__).resolve().parent
TOP = HERE.parent.parent
sys.path.insert(0, str(TOP / "checks"))
sys.dont_write_bytecode = True

from reading.dice import Dice  # noqa: E402
from reading.match import Match  # noqa: E402
from reading.runs import Game  # noqa: E402

# How many sit, and at how many actions the states are taken; -1 is the end.
HOW = {
    "agents": (4, [0, 1, 6]), "cheat": (4, [9]), "checkers": (2, [7, 30]), "chess": (2, [6]), "court": (4, [3]), "crazy-eights": (3, [1, -1]),
    "five-dice": (3, [40, 42]), "fleet": (2, [4, 40]), "four-in-a-row": (2, [8, -1]), "go": (2, [40]), "hearts": (4, [2, 23]),
    "hex": (2, [36]), "holdem": (4, [6]), "kalah": (2, [12]), "liars-dice": (4, [2, 9]), "nim": (2, [1]),
    "nine-mens-morris": (2, [8, 24]), "reversi": (2, [20]), "rock-paper-scissors": (2, [1]), "three-tricks": (3, [2]),
}
MOST, MOST_OFFERS = 400, 140
RULES = ("args", "undoable", "about", "redact")


def drawn(description):
    """What of a description says how it is drawn."""
    kept = {name: description[name] for name in ("game", "seats", "about", "scores", "const", "common", "players", "events", "show") if name in description}
    kept["const"] = {name: value for name, value in kept.get("const", {}).items() if isinstance(value, int)}
    kept["moves"] = {name: {it: move[it] for it in RULES if it in move} for name, move in description["moves"].items()}
    if "minMoves" in description.get("turn", {}):
        kept["turn"] = {"minMoves": description["turn"]["minMoves"]}
    return kept


def state_of(match):
    """A state as a snapshot has it, with the parts of all seats and what each is offered."""
    context, of = match.context, match.of
    stages = list(of.tables["stage"])
    active = None if match.map is None else {str(seat): None if row.stage is None else stages[row.stage] for seat, row in sorted(match.map.items())}
    over = None if match.over is None else {"winner": match.over[1]} if match.over[0] == "winner" else {match.over[0]: True}
    ctx = {"activePlayers": active if match.over is None else None, "currentPlayer": context["current"], "gameover": over, "numMoves": context["moves"],
           "numPlayers": context["seats"], "phase": None if context["phase"] is None else list(of.tables["phase"])[context["phase"]],
           "playOrder": context["order"], "playOrderPos": context["pos"], "turn": context["turn"]}
    names = list(of.tables["move"])
    offers = {str(seat): [[names[place], list(row)] for place, row in match.offers(seat)] for seat in range(context["seats"])}
    thinned = {seat: rows[::1 + len(rows) // MOST_OFFERS] for seat, rows in offers.items() if rows}
    g = {"common": match.state["common"], "players": match.state["players"]}
    return {"number": match.actions, "ctx": ctx, "g": json.loads(json.dumps(g)), "offers": thinned}


def play(name):
    """The states of a random match, and the actions that led to them."""
    seats, wanted = HOW[name]
    text = (TOP / f"games/{name}.toml").read_text()
    match, chooser = Match(Game(text), seats, bytes([7]) + bytes(31)), Dice(bytes([9]) + bytes(31), 1)
    states, log, moves = [state_of(match)], [], list(match.of.tables["move"])
    while match.over is None and match.actions < (MOST if -1 in wanted else max(wanted)):
        offers = [(seat, *offer) for seat in range(seats) for offer in match.offers(seat)]
        if not offers:
            break
        # A pass, or a turn of resigning, would end most games early.
        kept = [it for it in offers if moves[it[1]] not in ("resign", "pass", "fold")] or offers
        seat, place, row = kept[chooser.below(len(kept))]
        entry = {"act": {"args": list(row), "kind": "move", "move": moves[place]}, "number": match.actions, "phase": None, "seat": seat,
                 "turn": match.context["turn"]}
        if match.move(seat, place, row):
            states.append(state_of(match))
            log.append(entry)
    return tomllib.loads(text), states, log


def main(names):
    for name in names or sorted(path.stem for path in (HERE.parent / "table/hints").glob("*.json")):
        description, states, log = play(name)
        wanted = sorted({len(states) - 1 if at < 0 else min(at, len(states) - 1) for at in HOW[name][1]})
        taken = [{"before": states[at - 1] if at else None, "state": states[at], "log": log[max(0, at - 4):at]} for at in wanted]
        out = HERE / f"tables/{name}.json"
        lines = ",\n".join(json.dumps(it, ensure_ascii=False, separators=(",", ":")) for it in taken)
        head = json.dumps(drawn(description), ensure_ascii=False, separators=(",", ":"))
        out.write_text(f'{{"description":{head},\n"states":[\n{lines}\n]}}\n')
        print(name, wanted, len(states), out.stat().st_size)


if __name__ == "__main__":
    main(sys.argv[1:])
