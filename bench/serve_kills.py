#!/usr/bin/env python3
"""Kills a server that keeps its rooms, at random moments under load, and looks at what its clients find after each restart.

    bench/serve_kills.py PROGRAM [KILLS] [SEED]

Eight players in four matches act all at once, and one client more makes matches, joins them and leaves them. After up to 150 ms the server is
killed and started anew over the same folder. Each player then comes back with its key: the match's number must be at least the last that it was
told, its log up to there the same, and where the number is the same, the state too. Each match that was made, joined or left by an answered line
must be as that line left it. Where a server took an answered key with it, its match stays; once they fill the rooms, the folder is begun anew.
"""
import os
import random
import subprocess
import sys
import tempfile
import threading
import time

from served import MATCHES, SEATS, Session, join_of, some_act

GAMES = ["tic-tac-toe", "countdown", "pig", "high-hand", "blind-bid", "captions"]
ROOMS = 32
# A match that is over, or has so many actions, is left, and another one begins.
LONG = 400


class Server:
    """A server over a folder, on a free port."""

    def __init__(self, program, folder):
        words = [program, "serve", "--listen", "127.0.0.1:0", "--rooms", str(ROOMS), "--workers", "4"]
        words += ["--links", str(MATCHES * SEATS + 2), "--keep", folder]
        self.process = subprocess.Popen(words, stderr=subprocess.PIPE, text=True)
        self.said = []
        for line in self.process.stderr:
            if line.startswith("listening on "):
                host, port = line.split()[-1].rsplit(":", 1)
                self.address = (host, int(port))
                return
            self.said.append(line)
        sys.exit(f"the server says: {self.said}, and ends with {self.process.wait()}")

    def kill(self):
        self.process.kill()
        self.process.wait()
        self.process.stderr.close()


def check(holds, why):
    if not holds:
        sys.exit("serve_kills.py: " + why)


def ask(session, message, *kinds):
    """The answer to a request, of one of these types."""
    session.say(message)
    return session.hear_until(kinds)


def state_of(snapshot):
    return {name: snapshot[name] for name in ("ctx", "g")}


class Player:
    """A player at a seat, with all that it was told of its match."""

    def __init__(self, match, game, seat, key, chance):
        self.match, self.game, self.seat, self.key, self.chance = match, game, seat, key, chance
        self.log, self.state, self.ticket = [], None, 0
        self.session = self.thread = self.fault = None

    def come_back(self, server):
        """Syncs with the key, and compares with what was told before the kill."""
        self.session = Session(server)
        sync = {"key": self.key, "match": self.match, "seat": self.seat, "type": "sync"}
        snapshot = ask(self.session, sync, "sync")["snapshot"]
        where = f"seat {self.seat} of match {self.match}"
        check(snapshot["number"] >= len(self.log), f"{where}: number {snapshot['number']}, and {len(self.log)} was told")
        check(snapshot["log"][: len(self.log)] == self.log, f"{where}: another log than was told")
        if self.state is not None and snapshot["number"] == len(self.log):
            check(state_of(snapshot) == self.state, f"{where}: another state than was told")
        kept = snapshot["number"] - len(self.log)
        self.log, self.state = snapshot["log"], state_of(snapshot)
        return kept

    def act(self):
        """Acts until the connection is gone."""
        self.thread = threading.Thread(target=self.run)
        self.thread.start()

    def run(self):
        try:
            while True:
                self.ticket += 1
                act = {"act": some_act(self.game, self.chance), "key": self.key, "match": self.match}
                act |= {"number": len(self.log), "ticket": self.ticket, "type": "act"}
                self.session.say(act)
                while self.hear()["type"] not in ("ok", "no"):
                    pass
        except (OSError, EOFError, ValueError):
            pass
        except Exception as fault:
            self.fault = fault

    def hear(self):
        message = self.session.hear()
        if message["type"] == "update":
            if message["number"] != len(self.log) + 1:
                raise RuntimeError(f"update {message['number']} behind {len(self.log)}")
            self.log, self.state = self.log + [message["entry"]], state_of(message)
        return message


class Visitor:
    """A client that makes a match, joins it and leaves it, again and again."""

    def __init__(self):
        self.match = self.key = self.thread = self.session = self.waits = None
        self.done, self.is_full = 0, False

    def come_back(self, server):
        """Looks at the match of the last answered line, unless the next line was under way."""
        self.session = Session(server)
        if self.match is not None:
            answer = ask(self.session, {"match": self.match, "type": "look"}, "match", "refused")
            if self.waits == "leave" and answer["type"] == "refused":
                self.match = self.key = None
            else:
                check(answer["type"] == "match", f"match {self.match} is gone")
                seated = answer["row"]["players"][0]["name"] == "visitor"
                check(seated or self.key is None, f"nobody sits at match {self.match}")
                if seated and self.key is None:
                    check(self.waits == "join", f"somebody sits at match {self.match}")
                    # its key went with the server, so this match stays
                    self.match = None
        self.waits = None

    def act(self):
        self.thread = threading.Thread(target=self.run)
        self.thread.start()

    def say(self, message, kind):
        self.waits = message["type"]
        answer = ask(self.session, message, kind, "refused")
        self.waits = None
        self.done += 1
        return answer

    def run(self):
        try:
            while True:
                if self.match is None:
                    answer = self.say({"game": "captions", "seats": SEATS, "type": "create"}, "created")
                    if answer["type"] == "refused":
                        self.is_full = True
                        return
                    self.match = answer["match"]
                if self.key is None:
                    self.key = self.say(join_of(self.match, 0) | {"name": "visitor"}, "joined")["key"]
                leave = {"key": self.key, "match": self.match, "seat": 0, "type": "leave"}
                self.say(leave, "left")
                self.match = self.key = None
        except (OSError, EOFError, ValueError):
            pass


def seat_players(server, game, chance):
    """A new match, with its players."""
    host = Session(server)
    match = ask(host, {"game": game, "seats": SEATS, "type": "create"}, "created")["match"]
    players = []
    for seat in range(SEATS):
        key = ask(host, join_of(match, seat), "joined")["key"]
        players.append(Player(match, game, seat, key, random.Random(chance.random())))
    host.close()
    return players


def leave(player):
    message = {"key": player.key, "match": player.match, "seat": player.seat, "type": "leave"}
    player.session.say(message)
    while player.session.hear()["type"] != "left":
        pass
    player.session.close()


def main():
    program = os.path.abspath(sys.argv[1])
    kills = int(sys.argv[2]) if len(sys.argv) > 2 else 1_000
    chance = random.Random(int(sys.argv[3]) if len(sys.argv) > 3 else 1)
    visitor, players, games, further, folders, slowest = Visitor(), [], 0, 0, 1, 0.0
    with tempfile.TemporaryDirectory() as folder:
        for number in range(kills):
            began = time.monotonic()
            server = Server(program, folder)
            slowest = max(slowest, time.monotonic() - began)
            for player in players:
                further += player.come_back(server)
            visitor.come_back(server)
            stay = []
            for match in dict.fromkeys(player.match for player in players):
                ours = [player for player in players if player.match == match]
                if any(len(player.log) >= LONG or player.state["ctx"]["gameover"] is not None for player in ours):
                    for player in ours:
                        leave(player)
                else:
                    stay += ours
            players = stay
            while len(players) < MATCHES * SEATS:
                added = seat_players(server, GAMES[games % len(GAMES)], chance)
                games += 1
                for player in added:
                    player.come_back(server)
                players += added
            for actor in [*players, visitor]:
                actor.act()
            time.sleep(chance.random() * 0.15)
            server.kill()
            for actor in [*players, visitor]:
                actor.thread.join()
            for player in players:
                if player.fault:
                    raise player.fault
            for actor in [*players, visitor]:
                actor.session.close()
            if visitor.is_full:
                visitor.match = visitor.key = visitor.waits = None
                visitor.is_full, players, folders = False, [], folders + 1
                for name in os.listdir(folder):
                    os.remove(os.path.join(folder, name))
    told = sum(len(player.log) for player in players)
    print(f"{kills} kills over {folders} folders, {games} matches, {visitor.done} lines of the lobby; {told} entries in the last matches; all that was told was found")
    print(f"{further} entries were kept that nobody had been told; the slowest start took {slowest:.2f} s")


if __name__ == "__main__":
    main()
