#!/usr/bin/env python3
"""Looks at what a server with `--status` tells from outside. It takes some ten seconds, and starts servers itself, on free ports.

    bench/status.py PROGRAM

A few sessions make a match, sit down, move, look on and leave, while the status is asked for: each member must be what the script knows, and the
bytes those that its sessions sent and read. Other paths, other methods, broken requests and slow peers are tried too. No key and no name of a player
may stand in any answer.
"""
import http.client
import json
import socket
import subprocess
import sys
import tempfile
import time

from served import Session, compact

ROOMS = 5
GAME = "tic-tac-toe"
NAMES = ["Xanthippe", "Quillfeather"]
MEMBERS = ["rooms", "open", "links", "bots", "refused", "received", "sent"]
EMPTY = {"game": None, "number": None, "over": None, "seats": 0, "taken": 0}


def check(holds, why):
    if not holds:
        sys.exit("status.py: " + why)


def address_in(line, before):
    check(line.startswith(before), f"the server says: {line}")
    host, port = line.split()[-1].rsplit(":", 1)
    return (host, int(port))


class Server:
    """A server with a status, on free ports."""

    def __init__(self, program, more):
        words = [program, "serve", "--listen", "127.0.0.1:0", "--status", "127.0.0.1:0", "--rooms", str(ROOMS), "--links", "16"] + more
        self.process = subprocess.Popen(words, stderr=subprocess.PIPE, text=True)
        self.address = address_in(self.process.stderr.readline(), "listening on ")
        self.asked = address_in(self.process.stderr.readline(), "status on ")
        self.answers = []

    def request(self, request):
        """The status line, the headers and the body of what is answered to these bytes, once the connection is closed."""
        with socket.create_connection(self.asked) as asks:
            asks.settimeout(10)
            asks.sendall(request)
            answer = b""
            while more := asks.recv(65_536):
                answer += more
        self.answers.append(answer)
        head, body = answer.split(b"\r\n\r\n", 1)
        first, *lines = head.decode().split("\r\n")
        headers = {name.lower(): text.strip() for name, text in (line.split(":", 1) for line in lines)}
        check(headers["connection"] == "close", f"the connection isn't said to close: {head}")
        check(int(headers["content-length"]) == len(body), f"another length is said: {head}")
        return first, headers, body

    def status(self, target="/status", version="HTTP/1.1"):
        first, headers, body = self.request(f"GET {target} {version}\r\nHost: a\r\n\r\n".encode())
        check(first == "HTTP/1.1 200 OK", f"the status is answered by {first}")
        check(headers["content-type"] == "application/json", f"another type: {headers}")
        check(headers["cache-control"] == "no-store", f"it may be kept: {headers}")
        check(body.count(b"\n") == 1 and body.endswith(b"\n"), "it isn't one line")
        status = json.loads(body)
        check(list(status) == MEMBERS, f"other members: {list(status)}")
        check([row["room"] for row in status["rooms"]] == list(range(ROOMS)), "other rooms")
        return status

    def comes_to(self, holds, why):
        """The status, once this holds of it: what a session did is counted a moment later."""
        began = time.monotonic()
        while True:
            status = self.status()
            if holds(status):
                return status
            check(time.monotonic() - began < 5, f"{why}: {status}")
            time.sleep(0.05)

    def stop(self):
        self.process.kill()
        self.process.wait()


class Counted(Session):
    """A session that counts the bytes of its lines."""

    def __init__(self, server):
        super().__init__(server)
        self.socket.settimeout(10)
        self.said, self.heard = 0, 0

    def say(self, message):
        super().say(message)
        self.said += len(compact(message)) + 1

    def hear(self):
        message = super().hear()
        self.heard += len(self.read[-1].encode()) + 1
        return message


def room_0(status):
    return {member: value for member, value in status["rooms"][0].items() if member != "room"}


def play(server, secrets):
    """Plays a little, and compares each member with what is known."""
    status = server.status()
    check(all(row == {"room": row["room"], "serial": 0, "sessions": 0, **EMPTY} for row in status["rooms"]), f"rooms are there already: {status}")
    check([status[member] for member in MEMBERS[1:]] == [True] + [0] * 5, f"something is counted already: {status}")

    ann, bob, looks = Counted(server), Counted(server), Counted(server)
    server.comes_to(lambda status: status["links"] == 3, "three connections are open")
    match = ann.ask({"game": GAME, "seats": 2, "type": "create"}, "created")["match"]
    stands = {"game": GAME, "serial": 1, "number": 0, "over": False, "seats": 2}
    check(room_0(server.status()) == {**stands, "taken": 0, "sessions": 0}, f"a match was made: {server.status()}")

    keys = []
    for seat, session in enumerate((ann, bob)):
        key = session.ask({"match": match, "name": NAMES[seat], "seat": seat, "type": "join"}, "joined")["key"]
        keys.append(key)
        session.ask({"key": key, "match": match, "seat": seat, "type": "sync"}, "sync")
    looks.ask({"key": None, "match": match, "seat": None, "type": "sync"}, "sync")
    check(room_0(server.status()) == {**stands, "taken": 2, "sessions": 3}, f"two sit, and one looks on: {server.status()}")

    act = {"args": [4], "kind": "move", "move": "clickCell"}
    ann.ask({"act": act, "key": keys[0], "match": match, "number": 0, "ticket": 1, "type": "act"}, "ok")
    for session in (bob, looks):
        session.hear_until(["update"])
    check(room_0(server.status()) == {**stands, "number": 1, "taken": 2, "sessions": 3}, f"a move was made: {server.status()}")

    sessions = (ann, bob, looks)
    said, heard = sum(session.said for session in sessions), sum(session.heard for session in sessions)
    status = server.comes_to(lambda status: status["received"] == said, f"{said} bytes were sent")
    check(status["sent"] == heard, f"{heard} bytes were read: {status}")
    check(status["links"] == 3 and status["bots"] == 0 and status["refused"] == 0, f"other counts: {status}")

    long = Session(server)
    long.socket.sendall(b"x" * 70_000 + b"\n")
    status = server.comes_to(lambda status: status["refused"] == 1 and status["links"] == 3, "a line was too long")
    check(status["received"] == said, f"what is too long is no line: {status}")

    looks.close()
    server.comes_to(lambda status: status["links"] == 2 and status["rooms"][0]["sessions"] == 2, "one looks on no more")
    for seat, session in enumerate((ann, bob)):
        session.ask({"key": keys[seat], "match": match, "seat": seat, "type": "leave"}, "bye")
    check(room_0(server.status()) == {"serial": 1, "sessions": 0, **EMPTY}, f"no match stands: {server.status()}")
    check(server.status()["refused"] == 1, "who leaves is refused")
    secrets += keys


def requests(server):
    """Requests of all kinds."""
    server.status("/status?", "HTTP/1.0")
    server.status("/status?a=/other&b=%20?c")
    for request, wanted in [
        (b"GET / HTTP/1.1\r\n\r\n", "404"),
        (b"GET /status/ HTTP/1.1\r\n\r\n", "404"),
        (b"POST /rooms HTTP/1.1\r\nContent-Length: 2\r\n\r\n{}", "404"),
        (b"POST /status HTTP/1.1\r\nContent-Length: 2\r\n\r\n{}", "405"),
        (b"HEAD /status HTTP/1.1\r\n\r\n", "405"),
        (b"GET /status\r\n\r\n", "400"),
        (b"GET /status HTTP/2.0\r\n\r\n", "400"),
        (b"\xff\xfe\r\n\r\n", "400"),
        (b"GET /status HTTP/1.1\r\nA: " + b"x" * 5_000, "400"),
        (b"GET /status HTTP/1.1\r\nA: " + b"x" * 4_071, "400"),
        (b"GET /status HTTP/1.1\r\nA: " + b"x" * 4_067 + b"\r\n\r\n", "200"),
    ]:
        first, _, _ = server.request(request)
        check(first.split()[1] == wanted, f"{request[:40]} is answered by {first}")
    asks = http.client.HTTPConnection(*server.asked, timeout=10)
    asks.request("GET", "/status")
    check(asks.getresponse().status == 200, "a client of HTTP isn't answered")
    asks.close()


def slow(server):
    """Slow peers hold nobody up, and are let go after a second; for a ninth the oldest is let go at once."""
    silent = [socket.create_connection(server.asked) for _ in range(7)]
    for peer in silent:
        peer.settimeout(10)
        peer.sendall(b"GET /status HT")
    began = time.monotonic()
    server.status()
    took = time.monotonic() - began
    check(took < 0.5, f"slow peers held another up for {took:.1f} s")
    for peer in silent:
        check(peer.recv(1) == b"", "a slow peer was answered")
        peer.close()
    began = time.monotonic()
    crowd = [socket.create_connection(server.asked) for _ in range(9)]
    crowd[0].settimeout(10)
    check(crowd[0].recv(1) == b"" and time.monotonic() - began < 0.8, "the oldest of nine wasn't let go at once")
    for peer in crowd:
        peer.close()
    server.status()
    return took


def numbers(server):
    """The metrics are what the status says, and the server says that it is well."""
    first, headers, body = server.request(b"GET /healthz HTTP/1.1\r\n\r\n")
    check(first == "HTTP/1.1 200 OK" and body == b"ok\n", f"the health is answered by {first} {body}")
    first, headers, body = server.request(b"GET /metrics HTTP/1.1\r\n\r\n")
    check(first == "HTTP/1.1 200 OK" and headers["content-type"].startswith("text/plain"), f"the metrics are answered by {first} {headers}")
    rows = dict(line.rsplit(" ", 1) for line in body.decode().splitlines() if not line.startswith("#"))
    status = server.status()
    check(int(rows["sarpuntxe_open"]) == status["open"], f"another word on whether links are taken: {rows}")
    for name, member in [("links", "links"), ("received_bytes_total", "received"), ("sent_bytes_total", "sent")]:
        check(int(rows[f"sarpuntxe_{name}"]) == status[member], f"another number of {member}: {rows}")
    free = sum(row["game"] is None for row in status["rooms"])
    check(int(rows['sarpuntxe_rooms{state="free"}']) == free, f"{free} rooms are free: {rows}")
    refused = sum(int(rows['sarpuntxe_sessions_ended_total{end="%s"}' % end]) for end in ("too-long", "fault", "no-memory"))
    check(refused == status["refused"], f"another number of refused sessions: {rows}")


def ends(program, words):
    ended = subprocess.run([program, "serve", "--listen", "127.0.0.1:0"] + words, stdin=subprocess.DEVNULL, capture_output=True, text=True, timeout=20)
    return ended.stderr


def main():
    program = sys.argv[1]
    secrets = list(NAMES)
    server = Server(program, [])
    try:
        play(server, secrets)
        requests(server)
        numbers(server)
        took = slow(server)
        taken = ends(program, ["--status", "%s:%d" % server.asked])
        check(server.process.poll() is None, "the server has ended")
    finally:
        server.stop()
    check(taken.startswith("%s:%d: " % server.asked) and "door fault" in taken, f"at an address that is taken the program says: {taken}")
    formless = ends(program, ["--status", "here"])
    check(formless.startswith("here: ") and "door fault" in formless, f"at an address in no form the program says: {formless}")
    answers = server.answers

    server = Server(program, ["--bots", GAME, "--seats", "2"])
    try:
        status = server.comes_to(lambda status: status["rooms"][0]["taken"] == 2, "two bots sit")
        check(status["bots"] == 2 and status["links"] == 0, f"two bots, and nobody else: {status}")
    finally:
        server.stop()
    answers += server.answers
    secrets += ["bot0", "bot1"]

    with tempfile.TemporaryDirectory() as folder:
        server = Server(program, ["--keep", folder, "--ws"])
        try:
            check(server.status()["links"] == 0, "nobody came")
        finally:
            server.stop()
    answers += server.answers

    for secret in secrets:
        check(not any(secret.encode() in answer for answer in answers), f"an answer has {secret}")
    print(f"{len(answers)} answers were right, and none has a key or a name; beside seven slow peers one was answered after {took:.1f} s")


if __name__ == "__main__":
    main()
