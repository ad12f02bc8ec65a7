"""A client of the match server, with the standard library alone. README.md beside it says how it is used.

Calls wait for their answers. Addresses are `tcp://HOST:PORT`, `ws://HOST:PORT/` or `wss://HOST/`, or HOST:PORT for TCP.
"""
import base64
import hashlib
import json
import os
import random
import socket
import time
from urllib.parse import urlsplit

FIRST_PAUSE, LONGEST_PAUSE = 0.25, 5.0
ANSWER_SECONDS = 20.0
AGAIN_PAUSE, AGAIN_TIMES = 0.4, 8
# Before Python 3.10 a socket has an error of its own for this.
TIMEOUTS = (TimeoutError, socket.timeout)

# ---- words

REFUSALS = {
    "bad-message": "The server did not understand that.",
    "no-game": "The server does not play that game.",
    "full": "The server has no room for another match now.",
    "bad-seats": "The game is not played by so many.",
    "no-start": "The game could not begin.",
    "no-match": "There is no such match on this server.",
    "no-seat": "The match has no such seat, or nobody sits there.",
    "seat-taken": "Somebody sits there already.",
    "bad-name": "A name has 1 to 32 bytes, and no control characters.",
    "unauthorized": "That seat is not yours: its key is another one.",
    "already-attached": "This connection follows a match already.",
    "not-attached": "This connection follows no match.",
    "not-a-bot": "No bot sits there that could be asked to leave.",
}

REASONS = {
    "no-match": "That was meant for another match.",
    "unauthorized": "You may not act here: this is not your seat.",
    "game-over": "The match is over.",
    "match-full": "The match has as many actions as a match can have. It cannot go on.",
    "cannot-undo-now": "Nothing can be undone or redone now: others may act too, or it is not your turn.",
    "not-active": "It is not your turn.",
    "unknown-move": "That is not possible at this point of the game.",
    "wrong-number": "The match had moved on before that arrived. Look again, and choose anew.",
    "nothing-to-undo": "There is nothing to undo in this turn.",
    "nothing-to-redo": "There is nothing to redo.",
    "not-yours": "That was another player's action.",
    "not-undoable": "This game does not let that be undone.",
    "invalid-move": "The rules of the game do not allow that.",
    "too-early": "The turn cannot end yet: make a move first.",
    "too-many-words": "That would draw more random numbers than one action may.",
    "too-many-events": "That would lead to more events than one action may.",
}

FAULTS = {
    "again": "The server is out of memory, or cannot keep that room. It did nothing; try again later.",
    "cut": "The connection broke before that had counted. Look at the match, and choose anew.",
    "silent": "The server does not answer: as many may be connected as it serves at once.",
    "unreachable": "The server cannot be reached.",
    "left": "The seat was given up, or the match was removed.",
    "replaced": "Another match has this name now: the server was started anew.",
}

# The moves whose number the server ignores, so that they may stand further on in the log.
IGNORING = {"blind-bid": ["bid"], "captions": ["write"], "tic-tac-toe": [], "countdown": [], "pig": [], "high-hand": []}


class SarpuntxeError(Exception):
    """`kind` is `refused`, `no`, `fault` or `ended`; `reason` is the server's word, or one of FAULTS; the text is for people."""

    def __init__(self, kind, reason, field=None, number=None):
        words = {"refused": REFUSALS, "no": REASONS}.get(kind, FAULTS)
        super().__init__(words.get(reason, f"The server says: {reason}."))
        self.kind, self.reason, self.field, self.number = kind, reason, field, number


def error_of(line):
    """The error that a line stands for, or None if it is no refusal."""
    if line["type"] == "refused":
        return SarpuntxeError("refused", line["reason"], field=line["field"])
    if line["type"] == "no":
        return SarpuntxeError("no", line["reason"], number=line["number"])
    if line["type"] == "again":
        return SarpuntxeError("fault", "again")
    return None


# ---- actions and views


def move(name, *args):
    return {"args": list(args), "kind": "move", "move": name}


def event(name, to=None):
    return {"event": name, "kind": "event", "to": to}


def end_turn(to=None):
    return event("endTurn", to)


UNDO = {"kind": "undo"}
REDO = {"kind": "redo"}


def active_seats(ctx):
    """The seats that may act, each with its stage. Nobody may once the match is over."""
    if ctx["gameover"] is not None:
        return {}
    if ctx["activePlayers"] is None:
        return {ctx["currentPlayer"]: None}
    return {int(seat): stage for seat, stage in ctx["activePlayers"].items()}


def next_view(view, line):
    """The view after a line of the stream, or None if a line between is missing."""
    if line["number"] != view["number"] + 1:
        return None
    log = view["log"] + [line["entry"]]
    if line["type"] == "update":
        return {"ctx": line["ctx"], "g": line["g"], "log": log, "number": line["number"]}
    g = {name: value for name, value in view["g"].items() if name not in line["g"]["gone"]}
    return {"ctx": {**view["ctx"], **line["ctx"]}, "g": {**g, **line["g"]["put"]}, "log": log, "number": line["number"]}


# ---- connections


def moment(timeout):
    """The moment that is so many seconds away, or None for None."""
    return None if timeout is None else time.monotonic() + timeout


def left(end):
    """How many seconds there are until a moment, or None for None. One that has passed is a millisecond away, so that what is there is taken."""
    return None if end is None else max(0.001, end - time.monotonic())


class Lines:
    """Lines over TCP. A read that comes to no line in time raises TimeoutError, and what came of the line stays for the next one."""

    def __init__(self, host, port, timeout):
        self.socket = socket.create_connection((host, port), timeout)
        if self.socket.getsockname() == self.socket.getpeername():
            # (where nobody listens at a port from which connections are made, TCP may connect a socket to itself)
            self.socket.close()
            raise ConnectionError("nobody listens there")
        self.socket.setsockopt(socket.IPPROTO_TCP, socket.TCP_NODELAY, 1)
        self.bytes = bytearray()

    def send(self, text):
        self.write(text.encode() + b"\n")

    def write(self, data):
        """Writes all of it. How long the last read was to wait says nothing of it."""
        self.socket.settimeout(ANSWER_SECONDS)
        self.socket.sendall(data)

    def ready(self):
        """Whether a line is here already, which no select on the socket would tell."""
        return b"\n" in self.bytes

    def read(self, timeout):
        end = moment(timeout)
        while b"\n" not in self.bytes:
            self.fill(end)
        at = self.bytes.index(b"\n")
        line = bytes(self.bytes[:at])
        del self.bytes[: at + 1]
        return line.decode()

    def fill(self, end):
        """Reads what is there, or waits until this moment for some."""
        self.socket.settimeout(left(end))
        piece = self.socket.recv(65_536)
        if not piece:
            raise ConnectionError("the server closed the connection")
        self.bytes += piece

    def close(self):
        self.socket.close()


class WebSocket(Lines):
    """Lines as messages of a WebSocket, RFC 6455."""

    def __init__(self, url, timeout):
        end = moment(timeout)
        super().__init__(url.hostname, url.port or (443 if url.scheme == "wss" else 80), timeout)
        # What came of a message that is in fragments.
        self.message = b""
        try:
            self.greet(url, end)
        except BaseException:
            self.close()
            raise

    def greet(self, url, end):
        """Makes the handshake, until this moment at most."""
        if url.scheme == "wss":
            import ssl  # (it takes a while to load, and most don't need it)

            self.socket = ssl.create_default_context().wrap_socket(self.socket, server_hostname=url.hostname)
        key = base64.b64encode(os.urandom(16)).decode()
        path = (url.path or "/") + (f"?{url.query}" if url.query else "")
        head = [f"GET {path} HTTP/1.1", f"Host: {url.netloc}", "Upgrade: websocket", "Connection: Upgrade"]
        head += [f"Sec-WebSocket-Key: {key}", "Sec-WebSocket-Version: 13", "", ""]
        self.write("\r\n".join(head).encode())
        while b"\r\n\r\n" not in self.bytes:
            self.fill(end)
        answer, _, rest = bytes(self.bytes).partition(b"\r\n\r\n")
        self.bytes = bytearray(rest)
        wanted = base64.b64encode(hashlib.sha1((key + "258EAFA5-E914-47DA-95CA-C5AB0DC85B11").encode()).digest())
        if not answer.startswith(b"HTTP/1.1 101") or wanted not in answer:
            raise ConnectionError("the server makes no WebSocket: " + answer.split(b"\r\n")[0].decode(errors="replace"))

    def send(self, text):
        self.frame(1, text.encode())

    def frame(self, kind, payload):
        mask, size = os.urandom(4), len(payload)
        long = size.to_bytes(2, "big") if 125 < size < 65_536 else size.to_bytes(8, "big") if size >= 65_536 else b""
        short = size if size < 126 else 126 if size < 65_536 else 127
        masked = bytes(byte ^ mask[at % 4] for at, byte in enumerate(payload))
        self.write(bytes([0x80 | kind, 0x80 | short]) + long + mask + masked)

    def ready(self):
        return self.whole() is not None or bool(getattr(self.socket, "pending", lambda: 0)())

    def whole(self):
        """The length of the head and of the payload of the frame that is here, or None if it isn't whole."""
        if len(self.bytes) < 2:
            return None
        size = self.bytes[1] & 127
        head = {126: 4, 127: 10}.get(size, 2)
        size = int.from_bytes(self.bytes[2:head], "big") if head > 2 else size
        return (head, size) if len(self.bytes) >= head + size else None

    def read(self, timeout):
        end = moment(timeout)
        while True:
            while not (found := self.whole()):
                self.fill(end)
            head, size = found
            first, payload = self.bytes[0], bytes(self.bytes[head : head + size])
            del self.bytes[: head + size]
            if first & 15 == 8:
                raise ConnectionError("the server closed the connection")
            if first & 15 == 9:
                self.frame(10, payload)
            if first & 15 in (0, 1, 2):
                self.message += payload
                if first & 128:
                    message, self.message = self.message, b""
                    return message.decode()


def open_link(address, timeout=ANSWER_SECONDS):
    url = urlsplit(address if "://" in address else f"tcp://{address}")
    if url.scheme in ("ws", "wss"):
        return WebSocket(url, timeout)
    return Lines(url.hostname, url.port, timeout)


class Session:
    """One connection, which follows at most one match. What is asked is answered in order."""

    def __init__(self, address, timeout=ANSWER_SECONDS):
        """`timeout` is for how many seconds to wait until the connection stands, and for each answer."""
        self.timeout = timeout
        try:
            self.link = open_link(address, timeout)
        except TIMEOUTS:
            raise SarpuntxeError("fault", "silent") from None
        except OSError as why:
            raise SarpuntxeError("fault", "unreachable") from why

    def send(self, line):
        try:
            self.link.send(json.dumps(line))
        except OSError as why:
            raise SarpuntxeError("fault", "cut") from why

    def read(self, timeout=None):
        """The next line, or None if none has come in time."""
        try:
            return json.loads(self.link.read(timeout))
        except TIMEOUTS:
            return None
        except OSError as why:
            raise SarpuntxeError("fault", "cut") from why

    def ask(self, **line):
        """The answer to a request. It raises what the request is refused with."""
        for times in range(1, AGAIN_TIMES + 1):
            self.send(line)
            answer = self.read(self.timeout)
            if answer is None:
                raise SarpuntxeError("fault", "silent")
            if answer["type"] != "again" or times == AGAIN_TIMES:
                break
            time.sleep(AGAIN_PAUSE * times)
        error = error_of(answer)
        if error:
            raise error
        return answer

    def close(self):
        self.link.close()


# ---- the server's lobby


class Server:
    """A server: its games and matches, and the seats of these. It holds one connection, which a call opens anew if it has broken."""

    def __init__(self, address):
        self.address, self.session = address, None

    def ask(self, **line):
        self.session = self.session or Session(self.address)
        try:
            return self.session.ask(**line)
        except SarpuntxeError as why:
            if why.kind == "fault" and why.reason != "again":
                self.close()
            raise

    def close(self):
        if self.session:
            self.session.close()
        self.session = None

    def __enter__(self):
        return self

    def __exit__(self, *_):
        self.close()

    def games(self):
        return self.ask(type="games")["games"]

    def matches(self, game):
        return self.ask(type="matches", game=game)["matches"]

    def lobby(self):
        """All games, each with the rows of its matches."""
        return {game: self.matches(game) for game in self.games()}

    def look(self, match):
        return self.ask(type="look", match=match)["row"]

    def create(self, game, seats):
        return self.ask(type="create", game=game, seats=seats)["match"]

    def join(self, match, seat, name):
        """Takes a seat, or the first free one for None, and returns the place: `match`, `seat` and `key`."""
        if seat is not None:
            key = self.ask(type="join", match=match, seat=seat, name=name)["key"]
            return {"match": match, "seat": seat, "key": key}
        for player in self.look(match)["players"]:
            if player["name"] is None:
                try:
                    return self.join(match, player["seat"], name)
                except SarpuntxeError as why:
                    if why.reason != "seat-taken":
                        raise
        raise SarpuntxeError("refused", "seat-taken")

    def rename(self, place, name):
        self.ask(type="rename", name=name, **place)

    def leave(self, place):
        self.ask(type="leave", **place)

    def takeover(self, match, seat):
        self.ask(type="takeover", match=match, seat=seat)

    def follow(self, place, **options):
        """Follows a match on a connection of its own: at a seat, or as a spectator by `{"match": NAME}`."""
        return Match(self.address, place, **options)


def connect(address):
    """A server to which there is a connection."""
    server = Server(address)
    server.session = Session(address)
    return server


# ---- a match


class Match:
    """A match that is followed. `view` is what the server has said: `ctx`, `g`, `log` and `number`. Calls connect anew after a cut."""

    def __init__(self, address, place, protocol=2, patience=60.0):
        """`patience` is for how many seconds a call tries to connect anew."""
        self.address, self.place = address, {"seat": None, "key": None, **place}
        self.protocol, self.patience = protocol, patience
        self.session, self.view, self.game, self.ticket, self.waiting = None, None, None, 0, None
        self.connect()

    @property
    def seat(self):
        return self.place["seat"]

    @property
    def over(self):
        return self.view["ctx"]["gameover"] is not None

    @property
    def may_act(self):
        return self.seat in active_seats(self.view["ctx"])

    def close(self):
        if self.session:
            self.session.close()
        self.session = None

    def __enter__(self):
        return self

    def __exit__(self, *_):
        self.close()

    def fileno(self):
        """For `select`; but look at `ready()` first."""
        return self.session.link.socket.fileno()

    def ready(self):
        """Whether a line can be read at once."""
        return self.session.link.ready()

    # ---- what a player does

    def move(self, name, *args):
        return self.act(move(name, *args))

    def end_turn(self, to=None):
        return self.act(end_turn(to))

    def undo(self):
        return self.act(UNDO)

    def redo(self):
        return self.act(REDO)

    def act(self, act):
        """Acts, and returns the number of the state that the action made. It raises if the action does not count."""
        for times in range(1, AGAIN_TIMES + 1):
            try:
                self.send(act)
                line = self.read(ANSWER_SECONDS)
                while line is not None and line["type"] in ("update", "change"):
                    line = self.read(ANSWER_SECONDS)
                if line is None:
                    raise SarpuntxeError("fault", "cut")
            except SarpuntxeError as why:
                if why.reason != "cut":
                    raise
                return self.settled()
            if line["type"] == "ok":
                return line["number"]
            if line["type"] != "again" or times == AGAIN_TIMES:
                raise error_of(line)
            time.sleep(AGAIN_PAUSE * times)

    def settled(self):
        """Connects anew. The number of the state that the waiting action made, if the log has it."""
        number = self.connect()
        if number is None:
            raise SarpuntxeError("fault", "cut")
        return number

    def leave(self):
        """Gives up the seat. The match is followed no more."""
        with Server(self.address) as server:
            server.leave(self.place)
        self.close()

    # ---- what the server says

    def wait(self, timeout=None):
        """Waits for the next change, and returns whether there was one. Connecting anew after a cut takes no longer than that, either."""
        before, end = self.view["number"], moment(timeout)
        while self.view["number"] == before:
            if end is not None and time.monotonic() >= end:
                return False
            try:
                self.read(left(end))
            except SarpuntxeError as why:
                if why.reason != "cut":
                    raise
                if not self.connects(end):
                    return False
        return True

    def connects(self, end):
        """Connects anew, and returns whether that was done before this moment. None is as long as the match's patience."""
        try:
            self.connect(left(end))
            return True
        except SarpuntxeError as why:
            if why.kind != "fault" or end is None or time.monotonic() < end:
                raise
            return False

    def until(self, holds, timeout=None):
        """Waits until `holds(match)` is true, and returns whether it is."""
        end = moment(timeout)
        while not holds(self):
            if not self.wait(left(end)):
                return False
        return True

    def send(self, act):
        """Sends an action and does not wait: its verdict is a line that `read` returns."""
        if self.session is None:
            raise SarpuntxeError("fault", "cut")
        number = self.view["number"]
        self.ticket += 1
        self.waiting = (number, act)
        line = {"act": act, "key": self.place["key"], "match": self.place["match"], "number": number, "ticket": self.ticket}
        self.session.send({**line, "type": "act"})

    def read(self, timeout=None):
        """Takes in the next line and returns it, or None if none comes in time. It raises `cut` if the connection has broken."""
        if self.session is None:
            raise SarpuntxeError("fault", "cut")
        line = self.session.read(timeout)
        if line is None:
            return None
        if line["type"] in ("update", "change"):
            view = next_view(self.view, line)
            if view is None:
                raise SarpuntxeError("fault", "cut")
            self.view = view
        elif line["type"] in ("ok", "no", "again", "refused"):
            self.waiting = None
        elif line["type"] == "bye":
            self.close()
            raise SarpuntxeError(*(("ended", "left") if line["why"] == "left" else ("fault", "cut")))
        return line

    def connect(self, patience=None):
        """Begins the stream anew. If an action waited for its verdict: the number of the state that it made, or None if it has not counted.

        It tries for so many seconds, and for no longer than the match's own patience.
        """
        self.close()
        pause, end = FIRST_PAUSE, moment(self.patience if patience is None else min(patience, self.patience))
        while True:
            try:
                self.begin(min(ANSWER_SECONDS, left(end)))
                break
            except SarpuntxeError as why:
                self.close()
                if why.kind != "fault" or time.monotonic() >= end:
                    raise
            time.sleep(min(pause * random.uniform(0.75, 1), left(end)))
            pause = min(LONGEST_PAUSE, 2 * pause)
        waiting, self.waiting = self.waiting, None
        return waiting and self.found(*waiting)

    def begin(self, timeout):
        """Begins the stream on a connection of which each answer comes within so many seconds."""
        self.session = Session(self.address, timeout)
        game = self.session.ask(type="look", match=self.place["match"])["row"]["game"]
        asked = {"type": "sync", **self.place}
        try:
            answer = self.session.ask(**asked, **({"protocol": 2} if self.protocol == 2 else {}))
        except SarpuntxeError as why:
            if why.field != "protocol":
                raise
            self.protocol = 1
            answer = self.session.ask(**asked)
        before, self.view = self.view, answer["snapshot"]
        if before and (self.game != game or self.view["log"][: len(before["log"])] != before["log"]):
            raise SarpuntxeError("ended", "replaced")
        self.game = game

    def found(self, number, act):
        """Most actions fit one state only; a move that ignores the number may stand further on."""
        log = self.view["log"]
        ignores = act.get("move") in IGNORING.get(self.game, [act.get("move")])
        for at in range(number, len(log) if ignores else min(number + 1, len(log))):
            if log[at]["seat"] == self.seat and log[at]["act"] == act:
                return at + 1
        return None
