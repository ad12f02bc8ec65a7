#!/usr/bin/env python3
"""Plays each of the six games to its end by processes of examples/client.py: two players and a spectator.

    bench/clients.py PROGRAM [SEED]

It starts the server itself. Players act by chance, with undo where the game has it. Each act must be accepted, each update must reach all three,
and at the end a client that begins anew must see the state that they hold.
"""
import json
import os
import random
import subprocess
import sys

CLIENT = os.path.join(os.path.dirname(os.path.abspath(__file__)), "../examples/client.py")
GAMES = ["tic-tac-toe", "countdown", "pig", "high-hand", "blind-bid", "captions"]
CAPTIONS = ["two words", "12", "a  b", " a", "a ", "--5", "²", "żółć"]


def run(address, *words):
    """What a command of the client prints."""
    done = subprocess.run([sys.executable, CLIENT, address, *words], capture_output=True, text=True, check=True)
    return json.loads(done.stdout)


class Client:
    """A process of the client that plays or looks on."""

    def __init__(self, address, *words):
        self.process = subprocess.Popen(
            [sys.executable, CLIENT, address, "play", *words], stdin=subprocess.PIPE, stdout=subprocess.PIPE, text=True
        )
        self.view = self.read()

    def read(self):
        return json.loads(self.process.stdout.readline())

    def follow(self):
        """Reads a line of the stream, and goes on with an update."""
        line = self.read()
        if line["type"] == "update":
            log = self.view["log"] + [line["entry"]]
            self.view = {"ctx": line["ctx"], "g": line["g"], "log": log, "number": line["number"]}
        return line["type"]

    def say(self, words):
        self.process.stdin.write(words + "\n")
        self.process.stdin.flush()

    def close(self):
        self.process.stdin.close()
        self.process.stdout.close()
        self.process.wait(10)


def seats_of(ctx):
    """The seats that may act."""
    if ctx["gameover"] is not None:
        return []
    active = ctx["activePlayers"]
    return [ctx["currentPlayer"]] if active is None else [int(seat) for seat in active]


def words_of(game, view, seat, chance):
    """What a seat that may act does, as a line of the client's."""
    ctx, g = view["ctx"], view["g"]
    if game == "tic-tac-toe":
        return "clickCell %d" % chance.choice([cell for cell, owner in enumerate(g["cells"]) if owner is None])
    if game == "countdown":
        if ctx["numMoves"] == 1 and chance.random() < 0.4:
            return chance.choice(["endTurn", "undo"])
        return "wild" if chance.random() < 0.3 else "take %d" % chance.randint(1, min(3, g["heap"]))
    if game == "pig":
        return "hold" if g["pot"] and chance.random() < 0.3 else "roll"
    if game == "high-hand":
        if ctx["phase"] == "draw":
            return "draw"
        if g["common"]["table"][seat] is None:
            return "lay %d" % chance.randrange(len(g["players"][seat]["hand"]))
        return chance.choice(["endTurn", "endTurn", "undo"])
    if game == "blind-bid":
        return chance.choice(["boast %d" % chance.randint(0, 9), "bid %d" % chance.randint(1, 100)])
    return "write " + chance.choice(CAPTIONS)


def play(address, game, chance):
    match = run(address, "create", game, "2")["match"]
    keys = [run(address, "join", match, str(seat), "p%d" % seat)["key"] for seat in range(2)]
    clients = [Client(address, match, str(seat), keys[seat]) for seat in range(2)] + [Client(address, match)]
    acts = 0
    while seats := seats_of(clients[2].view["ctx"]):
        seat = chance.choice(seats)
        words = words_of(game, clients[seat].view, seat, chance)
        clients[seat].say(words)
        # the actor is sent the update and the verdict, everybody else the update
        said = [clients[seat].follow(), clients[seat].follow()] + [other.follow() for other in clients if other is not clients[seat]]
        if said != ["update", "ok", "update", "update"]:
            sys.exit(f"{game}: {words!r} of seat {seat} was answered {said}")
        acts += 1
    for held, words in zip(clients, [(match, "0", keys[0]), (match, "1", keys[1]), (match,)]):
        again = Client(address, *words)
        if again.view != held.view:
            sys.exit(f"{game}: {words[1:2] or 'a spectator'} holds another state than the server")
        again.close()
        held.close()
    print(f"{game}: {acts} acts, {json.dumps(clients[2].view['ctx']['gameover'])}")


def main(program, seed="0"):
    server = subprocess.Popen([program, "serve", "--listen", "127.0.0.1:0", "--links", "16"], stderr=subprocess.PIPE, text=True)
    try:
        said = server.stderr.readline()
        if not said.startswith("listening on "):
            sys.exit(f"the server says: {said}")
        for game in GAMES:
            play(said.split()[-1], game, random.Random(f"{seed} {game}"))
    finally:
        server.kill()
        server.wait()


if __name__ == "__main__":
    main(*sys.argv[1:3]) if sys.argv[1:] else sys.exit(__doc__)
