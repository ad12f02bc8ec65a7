#!/usr/bin/env python3
"""Measures `serve` under many sessions. It starts the server itself, on a free port, with the words that stand behind `--`.

  load.py latency PROGRAM SESSIONS SECONDS [-- WORDS]  Rooms of up to 32 sessions, a player and spectators. In each room the player boasts
                                                       every 400 ms. Prints how long it took until the others had the update.
  load.py speed PROGRAM SESSIONS ACTS [-- WORDS]       So many players make so many actions each, two to four in a match, or up to eight for
                                                       more than 256 players, of whom there are at most 512; every one as soon
                                                       as the verdict on the last one came. Prints how many actions a second were answered.
  load.py rest PROGRAM SESSIONS SECONDS [-- WORDS]     So many sessions that look on and say nothing. Prints the processor time that the
                                                       server took meanwhile, and its memory a session.
  load.py crowd PROGRAM CONNECTIONS FILES [-- WORDS]   So many connections to a server that may have so many files open. When those that it
                                                       took have left, the others have to be answered, and new ones too.
  load.py chain PROGRAM CONNECTIONS [-- WORDS]         So many connections, one after another, each with one request.
"""
import heapq
import json
import os
import resource
import select
import socket
import statistics
import subprocess
import sys
import time

# How many sessions there are in a room, and how long its player waits between two actions.
IN_A_ROOM = 32
PAUSE = 0.4


class Server:
    """A server on a free port, with files for its sessions unless it is to have fewer."""

    def __init__(self, program, words, files=65_536):
        words = [program, "serve", "--listen", "127.0.0.1:0"] + words
        self.process = subprocess.Popen(words, stderr=subprocess.PIPE, text=True, preexec_fn=lambda: allow(files))
        said = self.process.stderr.readline()
        if not said.startswith("listening on "):
            sys.exit(f"the server says: {said}")
        host, port = said.split()[-1].rsplit(":", 1)
        self.address = (host, int(port))

    def ticks(self):
        """The seconds of processor time that it has taken."""
        with open(f"/proc/{self.process.pid}/stat") as file:
            fields = file.read().rpartition(")")[2].split()
        return (int(fields[11]) + int(fields[12])) / os.sysconf("SC_CLK_TCK")

    def memory(self):
        """The bytes that it holds."""
        with open(f"/proc/{self.process.pid}/statm") as file:
            return int(file.read().split()[1]) * os.sysconf("SC_PAGE_SIZE")

    def stop(self):
        self.process.kill()
        self.process.wait()


def allow(files):
    """Lets this process have so many files open, or as many as the system lets it."""
    most = resource.getrlimit(resource.RLIMIT_NOFILE)[1]
    files = min(files, most)
    resource.setrlimit(resource.RLIMIT_NOFILE, (files, files if files < 65_536 else most))


class Session:
    """A connection that reads lines."""

    def __init__(self, address, timeout=30):
        self.socket = socket.create_connection(address, timeout=timeout)
        self.socket.setsockopt(socket.IPPROTO_TCP, socket.TCP_NODELAY, 1)
        self.held = b""

    def say(self, **message):
        self.socket.sendall(json.dumps(message, separators=(",", ":")).encode() + b"\n")

    def come(self):
        """The whole lines that one read brings."""
        piece = self.socket.recv(262_144)
        if not piece:
            raise EOFError("the server closed a connection")
        *lines, self.held = (self.held + piece).split(b"\n")
        return lines

    def ask(self, **message):
        """The answer to a request, the first line that comes after it."""
        self.say(**message)
        lines = []
        while not lines:
            lines = self.come()
        return json.loads(lines[0])

    def close(self):
        self.socket.close()


def rooms_with_players(address, rooms):
    """Matches of Blind Bid, with the key of seat 0 of each."""
    host = Session(address)
    made = []
    for _ in range(rooms):
        match = host.ask(type="create", game="blind-bid", seats=2)["match"]
        made.append((match, host.ask(type="join", match=match, seat=0, name="ann")["key"]))
    host.close()
    return made


def seated(address, sessions):
    """Sessions in rooms: of each room its player's session, and those that look on."""
    matches = rooms_with_players(address, (sessions + IN_A_ROOM - 1) // IN_A_ROOM)
    rooms = []
    for match, key in matches:
        player = Session(address)
        player.match, player.key = match, key
        player.ask(type="sync", match=match, seat=0, key=key)
        others = []
        for _ in range(min(IN_A_ROOM, sessions - len(rooms) * IN_A_ROOM) - 1):
            other = Session(address)
            other.ask(type="sync", match=match, seat=None, key=None)
            others.append(other)
        rooms.append((player, others))
    return rooms


def latency(program, sessions, seconds, words):
    server = Server(program, words)
    rooms = seated(server.address, sessions)
    poll = select.epoll()
    by_file = {}
    for place, (player, others) in enumerate(rooms):
        player.number, player.begun = 0, None
        for session in [player] + others:
            session.place, session.is_player = place, session is player
            session.socket.setblocking(False)
            by_file[session.socket.fileno()] = session
            poll.register(session.socket.fileno(), select.EPOLLIN)
    begun = [None] * len(rooms)
    told, answered = [], []
    start = time.monotonic()
    spent = server.ticks()
    due = [(start + PAUSE * (place + 1) / len(rooms), place) for place in range(len(rooms))]
    heapq.heapify(due)
    while (now := time.monotonic()) < start + seconds:
        while due and due[0][0] <= now:
            at, place = heapq.heappop(due)
            player = rooms[place][0]
            begun[place] = time.monotonic()
            boast(player, player.number, 0)
            heapq.heappush(due, (at + PAUSE, place))
        for file, _ in poll.poll(max(0, due[0][0] - time.monotonic())):
            session = by_file[file]
            lines = session.come()
            came = time.monotonic()
            for line in lines:
                if session.is_player:
                    if b'"type":"ok"' in line:
                        answered.append(came - begun[session.place])
                        session.number += 1
                elif b'"type":"update"' in line:
                    told.append(came - begun[session.place])
    spent = server.ticks() - spent
    server.stop()
    print(f"{sessions} sessions in {len(rooms)} rooms, {len(answered)} actions in {seconds} s:")
    print(f"  the verdict at the player after {of(answered)}")
    print(f"  the update at the others after {of(told)}, {len(told)} updates")
    print(f"  the server took {100 * spent / seconds:.0f} per cent of a processor")


def of(times):
    """The median and 99 of 100, in milliseconds."""
    times.sort()
    if not times:
        return "no time: nothing came"
    return f"{1000 * statistics.median(times):.2f} ms (99 of 100 within {1000 * times[len(times) * 99 // 100]:.2f})"


def boast(player, number, ticket):
    act = {"args": [ticket % 10], "kind": "move", "move": "boast"}
    player.say(type="act", act=act, key=player.key, match=player.match, number=number, ticket=ticket)


def speed(program, sessions, acts, words):
    server = Server(program, words)
    host = Session(server.address)
    players = []
    # There are 64 rooms at most.
    seats = max(2, (sessions + 63) // 64)
    for place in range(sessions):
        if place % seats == 0:
            match = host.ask(type="create", game="blind-bid", seats=seats)["match"]
        key = host.ask(type="join", match=match, seat=place % seats, name="ann")["key"]
        players.append((match, place % seats, key))
    host.close()
    # As many clients as leave the server processors of its own.
    clients = max(1, min(sessions, (os.cpu_count() or 2) // 2))
    ready, begin = os.pipe(), os.pipe()
    for client in range(clients):
        if os.fork() == 0:
            play(server.address, players[client::clients], acts, ready[1], begin[0])
            os._exit(0)
    for _ in range(clients):
        os.read(ready[0], 1)
    start = time.monotonic()
    os.write(begin[1], b"." * clients)
    for _ in range(clients):
        os.wait()
    spent = time.monotonic() - start
    server.stop()
    print(f"{sessions} sessions: {sessions * acts} actions in {spent:.2f} s, {sessions * acts / spent:.0f} a second")


def play(address, players, acts, ready, begin):
    """Plays for these players, in a process of its own."""
    poll = select.epoll()
    by_file = {}
    for match, seat, key in players:
        player = Session(address)
        player.match, player.key, player.number, player.ticket = match, key, 0, 0
        player.ask(type="sync", match=match, seat=seat, key=key)
        by_file[player.socket.fileno()] = player
        poll.register(player.socket.fileno(), select.EPOLLIN)
    os.write(ready, b".")
    os.read(begin, 1)
    for player in by_file.values():
        boast(player, 0, 0)
    left = len(by_file)
    while left:
        for file, _ in poll.poll():
            player = by_file[file]
            for line in player.come():
                message = json.loads(line)
                player.number = message.get("number", player.number)
                if message["type"] not in ("ok", "no"):
                    continue
                player.ticket += 1
                if player.ticket == acts:
                    left -= 1
                    continue
                boast(player, player.number, player.ticket)


def rest(program, sessions, seconds, words):
    server = Server(program, words)
    match, _ = rooms_with_players(server.address, 1)[0]
    before = server.memory()
    looking = []
    for _ in range(sessions):
        session = Session(server.address)
        session.ask(type="sync", match=match, seat=None, key=None)
        looking.append(session)
    held = server.memory() - before
    spent = server.ticks()
    time.sleep(seconds)
    spent = server.ticks() - spent
    server.stop()
    print(f"{sessions} sessions that say nothing: {1000 * spent:.0f} ms of processor time in {seconds} s, {held / sessions / 1024:.1f} KB a session")


def crowd(program, connections, files, words):
    server = Server(program, words, files)
    sessions = []
    for _ in range(connections):
        sessions.append(Session(server.address, 5))
        sessions[-1].say(type="games")
    time.sleep(1)
    answered = [session for session in sessions if has_come(session, 0)]
    print(f"{connections} connections to a server of {files} files: {len(answered)} are answered at once")
    waiting = [session for session in sessions if session not in answered]
    for session in answered:
        session.close()
    later = 0
    end = time.monotonic() + 30
    while waiting and time.monotonic() < end:
        came = [session for session in waiting if has_come(session, 0)]
        later += len(came)
        for session in came:
            session.close()
        waiting = [session for session in waiting if session not in came]
        time.sleep(0.1)
    print(f"when those have left, {later} of the others are answered, and {len(waiting)} are not")
    last = Session(server.address, 5)
    print("a new connection is answered:", last.ask(type="games")["type"])
    server.stop()


def has_come(session, wait):
    """Whether an answer came. A connection that was reset is not answered."""
    try:
        return bool(select.select([session.socket], [], [], wait)[0]) and bool(session.come())
    except (OSError, EOFError):
        return False


def chain(program, connections, words):
    server = Server(program, words)
    start = time.monotonic()
    for _ in range(connections):
        session = Session(server.address, 5)
        session.ask(type="games")
        session.close()
    spent = time.monotonic() - start
    server.stop()
    print(f"{connections} connections one after another in {spent:.2f} s, {1000 * spent / connections:.2f} ms each")


def main(words):
    at = words.index("--") if "--" in words else len(words)
    words, theirs = words[:at], words[at + 1:]
    allow(65_536)
    match words:
        case ["latency", program, sessions, seconds]:
            latency(program, int(sessions), float(seconds), theirs)
        case ["speed", program, sessions, acts]:
            speed(program, int(sessions), int(acts), theirs)
        case ["rest", program, sessions, seconds]:
            rest(program, int(sessions), float(seconds), theirs)
        case ["crowd", program, connections, files]:
            crowd(program, int(connections), int(files), theirs)
        case ["chain", program, connections]:
            chain(program, int(connections), theirs)
        case _:
            sys.exit(__doc__)


if __name__ == "__main__":
    main(sys.argv[1:])
