#!/usr/bin/env python3
"""Starts servers with bots, and looks on. It starts each server itself, on a free port.

  bots.py PROGRAM    Matches of tic-tac-toe by two bots, one after another: how long each took from the start of the process to its
                     end. Then each of the six games, with a spectator who checks that it is sent every update in step. Then a person
                     takes a bot's seat over in the middle of High Hand, and plays on. Last, bots that wait between two moves: none comes before
                     somebody connects, and a person plays tic-tac-toe against one of them.

One worker serves, so that the spectator has its turn between those of the bots; with several the bots may be done before it is heard. The
spectator connects as soon as the port listens. It prints at which state number it came in.
"""
import json
import socket
import statistics
import subprocess
import sys
import time

# Each game, and with how many bots it is played.
GAMES = [("tic-tac-toe", 2), ("countdown", 2), ("pig", 3), ("high-hand", 3), ("blind-bid", 3), ("captions", 3)]

# How many matches are timed.
MATCHES = 50

# Of the bots that wait: for how many seconds, how many moves are timed, and how many seconds a wait may be shorter or longer.
PACE = 3
MOVES = 3
SHORTER = 0.1
LONGER = 4

# How long an answer may take, and how long no update means that no bot moves any more.
PATIENCE = 20
STANDS = 3


def free_port():
    """A port that nobody listens at."""
    with socket.socket() as probe:
        probe.bind(("127.0.0.1", 0))
        return probe.getsockname()[1]


def start(program, port, *words):
    """A server at this port."""
    words = [program, "serve", "--listen", f"127.0.0.1:{port}", *words]
    return subprocess.Popen(words, stdout=subprocess.PIPE, stderr=subprocess.PIPE, text=True)


def stop(server):
    server.kill()
    server.wait()
    server.stdout.close()
    server.stderr.close()


class Session:
    """A connection to a port that may not listen yet."""

    def __init__(self, port):
        until = time.monotonic() + PATIENCE
        while True:
            try:
                self.socket = socket.create_connection(("127.0.0.1", port), timeout=PATIENCE)
                break
            except ConnectionRefusedError:
                if time.monotonic() > until:
                    raise
        self.lines = self.socket.makefile("rb")

    def say(self, *messages):
        said = b"".join(json.dumps(message, separators=(",", ":")).encode() + b"\n" for message in messages)
        self.socket.sendall(said)

    def hear(self):
        line = self.lines.readline()
        if not line:
            raise EOFError("the server closed the connection")
        return json.loads(line)

    def hear_until_it_stands(self):
        """The next line, or None where none comes for a while."""
        self.socket.settimeout(STANDS)
        try:
            return self.hear()
        except TimeoutError:
            return None
        finally:
            self.socket.settimeout(PATIENCE)

    def close(self):
        self.lines.close()
        self.socket.close()


def look():
    return {"match": "0-1", "type": "look"}


def sync(seat=None, key=None):
    return {"key": key, "match": "0-1", "seat": seat, "type": "sync"}


def act(what, key, number):
    return {"act": what, "key": key, "match": "0-1", "number": number, "ticket": 1, "type": "act"}


def timed(program):
    """How long so many matches of tic-tac-toe took, in milliseconds."""
    took = []
    for _ in range(MATCHES):
        begun = time.monotonic()
        server = start(program, free_port(), "--workers", "3", "--sessions", "2", "--bots", "tic-tac-toe", "--seats", "2")
        report, _ = server.communicate(timeout=PATIENCE)
        took.append((time.monotonic() - begun) * 1000)
        check(server.returncode == 0 and report.startswith("sessions 2\nroom 0 serial 1 number "), f"it ended so: {report!r}")
    return took


def check(holds, otherwise):
    if not holds:
        sys.exit(f"bots.py: {otherwise}")


def watched(program, game, seats):
    """A spectator looks on until the match is over or no bot moves any more: where it came in, where the match then is, and whether it is over.

    In High Hand a player has to end the turn after a card, which bots, who make moves alone, don't.
    """
    port = free_port()
    server = start(program, port, "--workers", "1", "--links", "16", "--bots", game, "--seats", str(seats))
    session = Session(port)
    session.say(sync())
    first = session.hear()
    check(first["type"] == "sync", f"a sync was answered so: {first}")
    shown = first["snapshot"]
    came, number, over = shown["number"], shown["number"], shown["ctx"]["gameover"]
    check(len(shown["log"]) <= number, "the log has more entries than there were actions")
    while over is None:
        told = session.hear_until_it_stands()
        if told is None:
            break
        check(told["type"] == "update", f"in the stream stands {told}")
        check(told["number"] == number + 1, f"update {told['number']} came after {number}")
        number, over = told["number"], told["ctx"]["gameover"]
    session.close()
    stop(server)
    return came, number, over


def names(session):
    """The names at the match's seats."""
    session.say(look())
    row = session.hear()
    check(row["type"] == "match", f"a look was answered so: {row}")
    return [player["name"] for player in row["row"]["players"]]


def sit_down(session, seat):
    """A person asks a bot for its seat and takes it: the seat's key."""
    session.say({"match": "0-1", "seat": seat, "type": "takeover"})
    asked = session.hear()
    check(asked["type"] == "asked", f"a takeover was answered so: {asked}")
    until = time.monotonic() + PATIENCE
    while names(session)[seat] is not None:
        check(time.monotonic() < until, "the bot keeps its seat")
        time.sleep(0.01)
    session.say({"match": "0-1", "name": "ann", "seat": seat, "type": "join"})
    joined = session.hear()
    check(joined["type"] == "joined", f"a join was answered so: {joined}")
    return joined["key"]


def taken_over(program):
    """A person looks on at a match of High Hand until it stands, takes seat 0 over, and plays on: where the match stood, and who sits there."""
    port = free_port()
    server = start(program, port, "--workers", "1", "--links", "16", "--bots", "high-hand", "--seats", "3")
    looker = Session(port)
    looker.say(sync())
    stood = looker.hear()["snapshot"]["number"]
    while (told := looker.hear_until_it_stands()) is not None:
        stood = told["number"]
    looker.close()
    session = Session(port)
    key = sit_down(session, 0)
    sit = names(session)
    session.say({"match": "0-1", "seat": 0, "type": "takeover"})
    refused = session.hear()
    check(refused.get("reason") == "not-a-bot", f"a person's seat was asked for, and the answer was: {refused}")
    session.say(sync(0, key))
    shown = session.hear()["snapshot"]
    hands = shown["g"]["players"]
    check(hands[0] is not None and hands[1:] == [None, None], f"the person is shown these hands: {hands}")
    check(shown["number"] == stood, f"the match stood at {stood}, and stands at {shown['number']}")
    end = {"event": "endTurn", "kind": "event", "to": None}
    session.say(act(end, key, stood))
    told = [session.hear() for _ in range(3)]
    check([line["type"] for line in told] == ["update", "ok", "update"], f"the turn ended so: {told}")
    check(told[2]["entry"]["seat"] == 1, f"after the person played {told[2]}")
    session.close()
    stop(server)
    return stood, sit


def moved(looker, number):
    """When the next move came, after so many."""
    told = looker.hear()
    check((told["type"], told["number"]) == ("update", number + 1), f"after {number} moves the spectator was sent {told}")
    return time.monotonic()


def play_on(session, looker, seat, key):
    """A person plays tic-tac-toe to its end, and takes the first free cell: how it ended, and how long the bot took for each answer."""
    session.say(sync(seat, key))
    shown = session.hear()["snapshot"]
    took, acted = [], None
    while shown["ctx"]["gameover"] is None:
        if shown["ctx"]["currentPlayer"] == seat:
            cell = shown["g"]["cells"].index(None)
            session.say(act({"args": [cell], "kind": "move", "move": "clickCell"}, key, shown["number"]))
            acted = time.monotonic()
        lines = [session.hear()]
        while lines[-1]["type"] != "update":
            lines.append(session.hear())
        shown = lines[-1]
        if shown["entry"]["seat"] != seat and acted is not None:
            took.append(time.monotonic() - acted)
    looker.say(look())
    while (told := looker.hear())["type"] != "match":
        pass
    check(told["row"]["over"], f"the spectator is told of the match {told}")
    return shown["ctx"]["gameover"], took


def paced(program):
    """Two bots wait until somebody is there, and between two moves; a person takes seat 1 over after some: how long each move took."""
    port = free_port()
    server = start(program, port, "--workers", "4", "--links", "16", "--bots", "tic-tac-toe", "--seats", "2", "--pace", str(PACE))
    server.stderr.readline()
    time.sleep(3 * PACE)
    looker = Session(port)
    begun = time.monotonic()
    looker.say(sync())
    shown = looker.hear()["snapshot"]
    check(shown["number"] == 0, f"before anybody connected there were {shown['number']} moves")
    times = [begun] + [moved(looker, number) for number in range(MOVES)]
    gaps = [after - before for before, after in zip(times, times[1:])]
    session = Session(port)
    end, took = play_on(session, looker, 1, sit_down(session, 1))
    check(all(PACE - SHORTER <= gap <= PACE + LONGER for gap in gaps + took), f"the moves came after {gaps}, and the answers after {took} seconds")
    session.close()
    looker.close()
    stop(server)
    return gaps, took, end


def main():
    if len(sys.argv) != 2:
        sys.exit(__doc__)
    program = sys.argv[1]
    took = timed(program)
    print(f"tic-tac-toe by two bots, {len(took)} matches: {statistics.median(took):.2f} ms in the middle, {min(took):.2f} ms at least, {max(took):.2f} ms at most")
    for game, seats in GAMES:
        came, number, over = watched(program, game, seats)
        end = "where it stands" if over is None else f"gameover {json.dumps(over)}"
        print(f"{game} by {seats} bots: the spectator came in at {came}, and was sent every update up to {number}, {end}")
    stood, sit = taken_over(program)
    print(f"high-hand by 3 bots: a person took seat 0 over at {stood}, saw that hand alone, and played on; now sit there {', '.join(sit)}")
    gaps, took, end = paced(program)
    seconds = lambda all_of: ", ".join(f"{one:.1f}" for one in all_of)
    print(f"tic-tac-toe at a pace of {PACE} s: nothing moved before the spectator came, then a move after each of {seconds(gaps)} s; a person")
    print(f"took seat 1 over, was answered after {seconds(took)} s, and the match ended with {json.dumps(end)}")


if __name__ == "__main__":
    main()
