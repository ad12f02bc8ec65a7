#!/usr/bin/env python3
"""Looks at which matches a server with `--idle 1` clears, and when. It takes some two minutes, and starts the server itself, on a free port.

    bench/idle.py PROGRAM [--short] [-- WORDS]

One match is made and never joined; the player of another one vanishes; a player stays attached to a third, and a spectator to a fourth. Then one
connection asks for a thousand matches, which fill the other rooms. After a minute or so all are gone but those that somebody looks at.
With --short the last of them are looked at after five seconds more, in place of thirty.
"""
import subprocess
import sys
import time

from served import Session, join_of

ROOMS = 16
GAME = "pig"


class Server:
    def __init__(self, program, more):
        words = [program, "serve", "--listen", "127.0.0.1:0", "--rooms", str(ROOMS), "--links", "16", "--idle", "1"] + more
        self.process = subprocess.Popen(words, stderr=subprocess.PIPE, text=True)
        for line in self.process.stderr:
            if line.startswith("listening on "):
                host, port = line.split()[-1].rsplit(":", 1)
                self.address = (host, int(port))
                return
        sys.exit("idle.py: the server doesn't listen")


def check(holds, why):
    if not holds:
        sys.exit("idle.py: " + why)


def ask(session, message):
    session.say(message)
    return session.hear()


def create(session):
    return ask(session, {"game": GAME, "seats": 2, "type": "create"})


def sit(server):
    """A match with a player at its first seat, who is attached: the match, and the session."""
    session = Session(server)
    match = create(session)["match"]
    key = ask(session, join_of(match, 0))["key"]
    check(ask(session, {"key": key, "match": match, "seat": 0, "type": "sync"})["type"] == "sync", "a player isn't attached")
    return match, session


def standing(session):
    return {row["match"] for row in ask(session, {"game": GAME, "type": "matches"})["matches"]}


def main():
    program = sys.argv[1]
    server = Server(program, sys.argv[sys.argv.index("--") + 1 :] if "--" in sys.argv else [])
    try:
        looks = Session(server)
        first = time.monotonic()
        empty = create(looks)["match"]
        left, vanishes = sit(server)
        vanishes.close()
        kept, player = sit(server)
        watched = create(looks)["match"]
        spectator = Session(server)
        check(ask(spectator, {"key": None, "match": watched, "seat": None, "type": "sync"})["type"] == "sync", "a spectator isn't attached")
        greedy = Session(server)
        made = [answer["match"] for answer in (create(greedy) for _ in range(1_000)) if answer["type"] == "created"]
        began = time.monotonic()
        check(len(made) == ROOMS - 4, f"{len(made)} matches were made, of {ROOMS - 4} rooms")
        check(create(looks)["reason"] == "full", "there is a room still")
        check(standing(looks) == {empty, left, kept, watched, *made}, "not all matches stand")
        time.sleep(max(0, first + 45 - time.monotonic()))
        still = standing(looks)
        # Where making them took so long that the first of them may have been cleared already, this tells nothing.
        check(time.monotonic() - first > 58 or still == {empty, left, kept, watched, *made}, "a match was cleared before its time")
        while standing(looks) != {kept, watched}:
            check(time.monotonic() - began < 90, f"after 90 seconds these stand: {standing(looks)}")
            time.sleep(0.5)
        took = time.monotonic() - began
        time.sleep(5 if "--short" in sys.argv else 30)
        check(standing(looks) == {kept, watched}, "a match was cleared at which somebody looks")
        check(create(looks)["type"] == "created", "there is no room")
        check(server.process.poll() is None, "the server has ended")
        for session in (player, spectator):
            session.say({"type": "games"})
            check(session.hear()["type"] == "games", "a session that looked on was ended")
    finally:
        server.process.kill()
        server.process.wait()
    print(f"{len(made) + 2} matches that nobody looked at were gone after {took:.0f} s; two at which somebody looked stayed")


if __name__ == "__main__":
    main()
