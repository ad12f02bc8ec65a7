#!/usr/bin/env python3
"""Plays against a served port over sockets, and compares. It starts the server itself, on a free port.

  served.py same PROGRAM ACTS           Eight players in four matches at a time make so many actions in all, over sockets and all at
                                        once. What each of them read must be, byte for byte, what the same history prints as a script.

`same` plays the games that draw no random words, so that it needs to know nothing of the server's seed. Behind `same`, `zeros` plays
all games: it starts the server where /dev/urandom reads as zeros, for which it has to be root.
"""
import json
import random
import socket
import struct
import subprocess
import sys
import threading

WORDLESS = ["tic-tac-toe", "countdown", "blind-bid", "captions"]
GAMES = WORDLESS + ["pig", "high-hand"]
MATCHES = 4
SEATS = 2
# How many actions a player makes in a match.
EACH = 250


def compact(message):
    return json.dumps(message, separators=(",", ":"), sort_keys=True)


class Server:
    """A server on a free port."""

    def __init__(self, program, workers, zeros):
        words = [program, "serve", "--listen", "127.0.0.1:0", "--workers", str(workers)]
        if zeros:
            mount = 'mount --bind /dev/zero /dev/urandom && exec "$@"'
            words = ["unshare", "--mount", "sh", "-c", mount, "sh"] + words
        self.process = subprocess.Popen(words, stderr=subprocess.PIPE, text=True)
        said = self.process.stderr.readline()
        if not said.startswith("listening on "):
            sys.exit(f"the server says: {said}")
        host, port = said.split()[-1].rsplit(":", 1)
        self.address = (host, int(port))

    def stop(self):
        self.process.kill()
        self.process.wait()


class Session:
    """A connection, with the lines that were read from it."""

    def __init__(self, server):
        self.socket = socket.create_connection(server.address)
        self.socket.setsockopt(socket.IPPROTO_TCP, socket.TCP_NODELAY, 1)
        self.file = self.socket.makefile("rb")
        self.read = []

    def say(self, message):
        self.socket.sendall(compact(message).encode() + b"\n")

    def hear(self):
        line = self.file.readline()
        if not line:
            raise EOFError
        self.read.append(line.decode().rstrip("\n"))
        return json.loads(line)

    def hear_until(self, kinds):
        while True:
            message = self.hear()
            if message["type"] in kinds:
                return message

    def ask(self, message, kind):
        self.say(message)
        return self.hear_until([kind])

    def close(self):
        self.file.close()
        self.socket.close()


class Player(threading.Thread):
    """A player at a seat, who acts so often, each time as soon as the verdict came."""

    def __init__(self, server, game, name, seat, key, acts, seed):
        super().__init__()
        self.session = Session(server)
        self.game, self.name, self.seat, self.key = game, name, seat, key
        self.acts, self.draw = acts, random.Random(seed)
        self.made = []
        self.number = 0
        self.fault = None

    def run(self):
        try:
            self.play()
        except (OSError, EOFError, ValueError, KeyError) as fault:
            self.fault = fault

    def play(self):
        sync = {"key": self.key, "match": self.name, "seat": self.seat, "type": "sync"}
        self.number = self.session.ask(sync, "sync")["snapshot"]["number"]
        self.made.append((self.number, True, sync))
        for ticket in range(self.acts):
            given = self.number if self.draw.random() < 0.95 else self.draw.randrange(4)
            act = {"act": some_act(self.game, self.draw), "key": self.key, "match": self.name}
            act |= {"number": given, "ticket": ticket, "type": "act"}
            self.session.say(act)
            message = self.hear()
            while message["type"] not in ("ok", "no"):
                message = self.hear()
            # An action that was accepted stands before all that fell at the number that it made.
            self.made.append((message["number"], message["type"] == "no", act))

    def hear(self):
        message = self.session.hear()
        self.number = message.get("number", self.number)
        return message

    def leave(self, last):
        """Leaves, once every update up to the last has come: the answer would else stand before some of them or behind."""
        while self.number < last:
            self.hear()
        leave = {"key": self.key, "match": self.name, "seat": self.seat, "type": "leave"}
        self.session.ask(leave, "bye")
        self.session.close()


def some_act(game, draw):
    """An act that the game may or may not allow."""

    def move(name, *args):
        return {"args": list(args), "kind": "move", "move": name}

    def event(name):
        return {"event": name, "kind": "event", "to": None}

    seldom = draw.random()
    if seldom < 0.05:
        return {"kind": "undo"}
    if seldom < 0.08:
        return {"kind": "redo"}
    if seldom < 0.12:
        return event(draw.choice(["endTurn", "endPhase", "endStage"]))
    if game == "tic-tac-toe":
        return move("clickCell", draw.randrange(10))
    if game == "countdown":
        return move("take", draw.randrange(5))
    if game == "pig":
        return move(draw.choice(["roll", "hold"]))
    if game == "high-hand":
        return draw.choice([move("draw"), move("lay", draw.randrange(3)), event("endTurn")])
    if game == "blind-bid":
        return move("boast", draw.randrange(11)) if draw.random() < 0.99 else move("bid", draw.randrange(102))
    return move("write", "c" * draw.randrange(1, 65)) if draw.random() < 0.1 else move("boast")


def same(program, acts, zeros):
    server = Server(program, MATCHES * SEATS + 1, zeros)
    try:
        rounds = played(server, acts, GAMES if zeros else WORDLESS)
    finally:
        server.stop()
    total = sum(len(player.made) - 1 for players in rounds for player in players)
    print(f"{total} actions over sockets, in {len(rounds) * MATCHES} matches")
    compare(program, rounds, range(MATCHES * SEATS + 1) if zeros else [None])


def played(server, acts, games):
    """Rounds of matches, until there were so many actions: the players of each."""
    host = Session(server)
    rounds = []
    while acts > 0:
        turn = len(rounds)
        round_games = [games[(turn * MATCHES + place) % len(games)] for place in range(MATCHES)]
        names = [host.ask({"game": game, "seats": SEATS, "type": "create"}, "created")["match"] for game in round_games]
        players = []
        for game, name in zip(round_games, names):
            for seat in range(SEATS):
                key = host.ask(join_of(name, seat), "joined")["key"]
                players.append(Player(server, game, name, seat, key, EACH, turn * MATCHES * SEATS + len(players)))
        for player in players:
            player.start()
        for player in players:
            player.join()
            if player.fault:
                raise player.fault
        for player in players:
            player.leave(max(other.number for other in players if other.name == player.name))
        rounds.append(players)
        acts -= len(players) * EACH
    host.close()
    return rounds


def join_of(name, seat):
    return {"match": name, "name": f"p{seat}", "seat": seat, "type": "join"}


def compare(program, rounds, streams):
    """Plays the same history as a script, and compares what each player read. Of each stream, the host may have drawn its words."""
    for stream in streams:
        script, expected = script_of(rounds, stream)
        done = subprocess.run([program, "script"], input="\n".join(script) + "\n", capture_output=True, text=True)
        if done.returncode != 0:
            sys.exit(f"the script ends with {done.returncode}: {done.stderr}")
        printed = [[] for _ in expected]
        for line in done.stdout.splitlines():
            session, _, text = line.partition(" ")
            if session.isdigit() and int(session) < len(expected):
                printed[int(session)].append(text)
        different = first_difference(printed, expected)
        if different is None:
            lines = sum(map(len, expected))
            size = sum(len(line) + 1 for texts in expected for line in texts)
            print(f"the same bytes as by script: {lines} lines, {size} bytes")
            return
    session, place, one, other = different
    sys.exit(f"session {session}, line {place}\n script {one}\n server {other}")


def first_difference(printed, expected):
    for session, (ours, theirs) in enumerate(zip(printed, expected)):
        for place in range(max(len(ours), len(theirs))):
            one = ours[place] if place < len(ours) else None
            other = theirs[place] if place < len(theirs) else None
            if one != other:
                return session, place, one, other
    return None


def script_of(rounds, stream):
    """The script of the rounds, and what each session must be told by it. A session of the script is a player's place in the round."""
    per_round = MATCHES * (8 + SEATS * 4)
    theirs = words_of(stream, len(rounds) * per_round)
    # The script draws no seeds, since each is given, and the keys of those who join.
    ours = words_of(0, len(rounds) * MATCHES * SEATS * 4)
    script = []
    expected = [[] for _ in range(MATCHES * SEATS)]
    for players in rounds:
        for match in range(MATCHES):
            script.append("seed " + hex_of(theirs, 8))
            script.append("s31 " + compact({"game": players[match * SEATS].game, "seats": SEATS, "type": "create"}))
        for player in players:
            hex_of(theirs, 4)
            player.script_key = hex_of(ours, 4)
            script.append("s31 " + compact(join_of(player.name, player.seat)))
        for match in range(MATCHES):
            script += lines_of_match(players, range(match * SEATS, (match + 1) * SEATS))
        for session, player in enumerate(players):
            leave = {"key": player.script_key, "match": player.name, "seat": player.seat, "type": "leave"}
            script += [f"t{session}", f"s{session} " + compact(leave), f"t{session}"]
        for session, player in enumerate(players):
            expected[session] += player.session.read
    return script, expected


def lines_of_match(players, sessions):
    """What the players of a match said, in the order in which the room heard it."""
    made = [(number, late, session, place, said) for session in sessions for place, (number, late, said) in enumerate(players[session].made)]
    made.sort(key=lambda one: one[:4])
    for _, _, session, _, said in made:
        yield f"s{session} " + compact(said | {"key": players[session].script_key})
        yield f"t{session}"


def hex_of(words, count):
    return b"".join(struct.pack("<I", next(words)) for _ in range(count)).hex()


def words_of(stream, count):
    """The first words of ChaCha20 with a key of zeros and this stream; for no stream, zeros."""
    return iter([0] * count if stream is None else chacha_words(stream, count))


def chacha_words(stream, count):
    def rotate(x, n):
        return ((x << n) | (x >> (32 - n))) & 0xFFFFFFFF

    def quarter(s, a, b, c, d):
        s[a] = (s[a] + s[b]) & 0xFFFFFFFF
        s[d] = rotate(s[d] ^ s[a], 16)
        s[c] = (s[c] + s[d]) & 0xFFFFFFFF
        s[b] = rotate(s[b] ^ s[c], 12)
        s[a] = (s[a] + s[b]) & 0xFFFFFFFF
        s[d] = rotate(s[d] ^ s[a], 8)
        s[c] = (s[c] + s[d]) & 0xFFFFFFFF
        s[b] = rotate(s[b] ^ s[c], 7)

    words = []
    block = 0
    while len(words) < count:
        start = [0x61707865, 0x3320646E, 0x79622D32, 0x6B206574] + [0] * 8
        start += [block & 0xFFFFFFFF, block >> 32, stream & 0xFFFFFFFF, stream >> 32]
        s = start[:]
        for _ in range(10):
            for place in range(4):
                quarter(s, place, 4 + place, 8 + place, 12 + place)
            for place in range(4):
                quarter(s, place, 4 + (place + 1) % 4, 8 + (place + 2) % 4, 12 + (place + 3) % 4)
        words += [(x + y) & 0xFFFFFFFF for x, y in zip(s, start)]
        block += 1
    return words[:count]


def main(words):
    match words:
        case ["same", program, acts]:
            same(program, int(acts), False)
        case ["same", "zeros", program, acts]:
            same(program, int(acts), True)
        case _:
            sys.exit(__doc__)


if __name__ == "__main__":
    main(sys.argv[1:])
