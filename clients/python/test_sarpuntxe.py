#!/usr/bin/env python3
"""Tries sarpuntxe.py against servers of a few words, and plays by it against the program: SARPUNTXE_PROGRAM, or the one that `make program`
builds. Without one those plays are skipped.

    python3 clients/python/test_sarpuntxe.py
"""
import base64
import hashlib
import json
import os
import random
import re
import select
import socket
import subprocess
import sys
import tempfile
import threading
import time
import unittest

HERE = os.path.dirname(os.path.abspath(__file__))
sys.path.insert(0, HERE)
import sarpuntxe  # noqa: E402

PROGRAM = os.environ.get("SARPUNTXE_PROGRAM") or os.path.join(HERE, "../../crates/board_server/out/board_server")
GAMES = ["blind-bid", "captions", "countdown", "high-hand", "pig", "tic-tac-toe"]


class Program:
    """The program, serving on a port."""

    def __init__(self, *words, port=0):
        listen = ["serve", "--listen", f"127.0.0.1:{port}", "--links", "32", "--rooms", "32"]
        self.process = subprocess.Popen([PROGRAM, *listen, *words], stderr=subprocess.PIPE, text=True)
        for said in self.process.stderr:
            if said.startswith("listening on "):
                self.port = int(said.rsplit(":", 1)[1])
                return
        raise AssertionError(f"the server ended with status {self.process.wait()}")

    def stop(self):
        self.process.kill()
        self.process.wait()
        self.process.stderr.close()


class Relay:
    """Passes bytes on to a port until it is cut. It drops what the client says while it is `mute`, and what the server says while it is `deaf`."""

    def __init__(self, port):
        self.far, self.mute, self.deaf, self.lock, self.sockets, self.threads = port, False, False, threading.Lock(), [], []
        self.listener = socket.create_server(("127.0.0.1", 0))
        self.port = self.listener.getsockname()[1]
        self.server = threading.Thread(target=self.serve, daemon=True)
        self.server.start()

    def serve(self):
        while True:
            try:
                near = self.listener.accept()[0]
                far = socket.create_connection(("127.0.0.1", self.far))
            except OSError:
                return
            pumps = [threading.Thread(target=self.pump, args=words, daemon=True) for words in ((near, far, "mute"), (far, near, "deaf"))]
            with self.lock:
                self.sockets += [near, far]
                self.threads += pumps
                for one in pumps:
                    one.start()

    def pump(self, source, sink, word):
        try:
            while piece := source.recv(65_536):
                if not getattr(self, word):
                    sink.sendall(piece)
            sink.shutdown(socket.SHUT_WR)
        except OSError:
            pass

    def cut(self):
        """Breaks all connections. A socket is closed when nothing reads of it any more, since another may have its number right afterwards."""
        with self.lock:
            sockets, threads, self.sockets, self.threads = self.sockets, self.threads, [], []
        for one in sockets:
            try:
                one.shutdown(socket.SHUT_RDWR)
            except OSError:
                pass
        for one in threads:
            one.join()
        for one in sockets:
            one.close()

    def stop(self):
        self.listener.shutdown(socket.SHUT_RDWR)
        self.server.join()
        self.listener.close()
        self.cut()


class Scripted:
    """A server that hands each connection, with its number from 0 on, to a function."""

    def __init__(self, serve):
        self.listener, self.open = socket.create_server(("127.0.0.1", 0)), []
        self.address = f"127.0.0.1:{self.listener.getsockname()[1]}"
        self.thread = threading.Thread(target=self.run, args=(serve,), daemon=True)
        self.thread.start()

    def run(self, serve):
        while True:
            try:
                near = self.listener.accept()[0]
            except OSError:
                return
            self.open.append(near)
            try:
                serve(near, len(self.open) - 1)
            except OSError:
                pass

    def stop(self):
        for one in (self.listener, *self.open):
            try:
                one.shutdown(socket.SHUT_RDWR)
            except OSError:
                pass
        self.thread.join()
        for one in (self.listener, *self.open):
            one.close()


def greet(near):
    """Makes the handshake of a WebSocket."""
    head = b""
    while b"\r\n\r\n" not in head:
        head += near.recv(65_536)
    key = re.search(rb"Sec-WebSocket-Key: (\S+)", head)[1]
    accept = base64.b64encode(hashlib.sha1(key + b"258EAFA5-E914-47DA-95CA-C5AB0DC85B11").digest())
    near.sendall(b"HTTP/1.1 101 Switching Protocols\r\nSec-WebSocket-Accept: " + accept + b"\r\n\r\n")


VIEW = {"ctx": {"activePlayers": None, "currentPlayer": 0, "gameover": None}, "g": {"pot": 0}, "log": [], "number": 0}


def answer(near, count):
    """Answers so many lines as a server would, for a match that nobody plays."""
    with near.makefile("rw", newline="\n") as lines:
        for _ in range(count):
            asked = json.loads(lines.readline())
            if asked["type"] == "look":
                said = {"row": {"game": "pig", "match": asked["match"], "over": False, "players": []}, "type": "match"}
            else:
                said = {"match": asked["match"], "seat": None, "snapshot": VIEW, "type": "sync"}
            lines.write(json.dumps(said) + "\n")
            lines.flush()


class Timed(unittest.TestCase):
    """A time-out is kept, and nothing that came is lost by one."""

    def serve(self, serve):
        server = Scripted(serve)
        self.addCleanup(server.stop)
        return server.address

    def within(self, seconds, call, *args):
        began = time.monotonic()
        made = call(*args)
        self.assertLess(time.monotonic() - began, seconds)
        return made

    def session(self, address):
        session = sarpuntxe.Session(address)
        self.addCleanup(session.close)
        return session

    def test_a_line_that_comes_byte_by_byte_takes_no_longer_than_it_may(self):
        def drip(near, _):
            for byte in b'{"type":"games","games":[' + b" " * 60 + b"]}\n":
                near.sendall(bytes([byte]))
                time.sleep(0.02)

        session = self.session(self.serve(drip))
        self.assertIsNone(self.within(1, session.read, 0.2))
        self.assertEqual(session.read(10), {"type": "games", "games": []})

    def test_no_time_at_all_takes_what_is_there(self):
        told = threading.Event()

        def serve(near, _):
            told.wait(10)
            near.sendall(b'{"type":"bye"}\n')

        session = self.session(self.serve(serve))
        self.assertIsNone(session.read(0))
        told.set()
        select.select([session.link.socket], [], [], 10)
        self.assertEqual(session.read(0), {"type": "bye"})

    def test_a_message_in_fragments_outlasts_a_time_out(self):
        told = threading.Event()

        def serve(near, _):
            greet(near)
            near.sendall(b"\x01\x08" + b'{"type":')
            told.wait(10)
            near.sendall(b"\x89\x00" + b"\x80\x06" + b'"bye"}')

        session = self.session("ws://" + self.serve(serve))
        self.assertIsNone(session.read(0.1))
        told.set()
        self.assertEqual(session.read(10), {"type": "bye"})

    def test_a_short_read_cuts_no_later_send_short(self):
        came = []

        def serve(near, _):
            time.sleep(0.3)
            while piece := near.recv(1 << 20):
                came.append(len(piece))
            near.sendall(b'{"type":"bye"}\n')

        session = self.session(self.serve(serve))
        self.assertIsNone(session.read(0.01))
        session.link.socket.setsockopt(socket.SOL_SOCKET, socket.SO_SNDBUF, 65_536)
        session.send({"name": "x" * 1_000_000})
        session.link.socket.shutdown(socket.SHUT_WR)
        self.assertEqual(session.read(20), {"type": "bye"})
        self.assertEqual(sum(came), len(json.dumps({"name": ""})) + 1_000_001)

    def test_waiting_ends_in_time_also_where_the_server_is_silent_after_a_cut(self):
        # The first connection is served and broken, the next one hears nothing, and the third is served again.
        def serve(near, number):
            if number != 1:
                answer(near, 2)
            if number == 0:
                near.shutdown(socket.SHUT_RDWR)

        match = sarpuntxe.Match(self.serve(serve), {"match": "0-1"})
        self.addCleanup(match.close)
        self.assertFalse(self.within(5, match.wait, 0.5))
        self.assertFalse(self.within(5, match.wait, 0.5))
        self.assertIsNotNone(match.session)
        self.assertFalse(self.within(5, match.until, lambda held: held.over, 0.2))


def choose(game, view, seat, chance):
    """What a seat that may act does."""
    ctx, g = view["ctx"], view["g"]
    if game == "tic-tac-toe":
        return sarpuntxe.move("clickCell", chance.choice([cell for cell, owner in enumerate(g["cells"]) if owner is None]))
    if game == "countdown":
        if ctx["numMoves"] == 1 and chance.random() < 0.4:
            return chance.choice([sarpuntxe.end_turn(), sarpuntxe.UNDO])
        return sarpuntxe.move("take", chance.randint(1, min(3, g["heap"]))) if chance.random() < 0.7 else sarpuntxe.move("wild")
    if game == "pig":
        return sarpuntxe.move("hold" if g["pot"] and chance.random() < 0.3 else "roll")
    if game == "high-hand":
        if ctx["phase"] == "draw":
            return sarpuntxe.move("draw")
        if g["common"]["table"][seat] is None:
            return sarpuntxe.move("lay", chance.randrange(len(g["players"][seat]["hand"])))
        return chance.choice([sarpuntxe.end_turn(), sarpuntxe.UNDO])
    if game == "blind-bid":
        return chance.choice([sarpuntxe.move("boast", chance.randint(0, 9)), sarpuntxe.move("bid", chance.randint(1, 100))])
    return sarpuntxe.move("write", chance.choice(["two words", "żółć", "猫"]))


@unittest.skipUnless(os.path.exists(PROGRAM), f"there is no program {PROGRAM}: build it, or set SARPUNTXE_PROGRAM")
class Play(unittest.TestCase):
    @classmethod
    def setUpClass(cls):
        cls.line, cls.web = Program(), Program("--ws")
        cls.addresses = [f"127.0.0.1:{cls.line.port}", f"ws://127.0.0.1:{cls.web.port}/"]

    @classmethod
    def tearDownClass(cls):
        cls.line.stop()
        cls.web.stop()

    def program(self, *words, port=0):
        server = Program(*words, port=port)
        self.addCleanup(server.stop)
        return server

    def raises(self, kind, reason, call, *args):
        with self.assertRaises(sarpuntxe.SarpuntxeError) as seen:
            call(*args)
        self.assertEqual((seen.exception.kind, seen.exception.reason), (kind, reason))
        return seen.exception

    def table(self, address, game):
        with sarpuntxe.connect(address) as server:
            match = server.create(game, 2)
            places = [server.join(match, 0, "ann"), server.join(match, None, "bob"), {"match": match}]
        return places

    def test_each_game_is_played_to_its_end(self):
        for address in self.addresses:
            for game in GAMES:
                with self.subTest(game=game, address=address):
                    self.play(address, game, random.Random(f"{game} 1"))

    def play(self, address, game, chance):
        places = self.table(address, game)
        follows = [sarpuntxe.Match(address, place, protocol=protocol) for place, protocol in zip(places, (1, 2, 2))]
        while not follows[2].over:
            seat = chance.choice(list(sarpuntxe.active_seats(follows[2].view["ctx"])))
            number = follows[seat].act(choose(game, follows[seat].view, seat, chance))
            for one in follows:
                self.assertTrue(one.until(lambda match: match.view["number"] >= number, 10))
        for place, held, protocol in zip(places, follows, (2, 1, 1)):
            with sarpuntxe.Match(address, place, protocol=protocol) as anew:
                self.assertEqual(anew.view, held.view)
        self.assertFalse(follows[0].may_act)
        follows[0].leave()
        follows[1].leave()
        self.raises("ended", "left", follows[2].wait, 10)

    def test_refusals_have_their_words(self):
        with sarpuntxe.connect(self.addresses[1]) as server:
            self.assertEqual(server.games(), GAMES)
            match = server.create("countdown", 2)
            place = server.join(match, 0, "ann")
            self.assertIn(match, [row["match"] for row in server.lobby()["countdown"]])
            server.rename(place, "eve")
            self.assertEqual(server.look(match)["players"][0]["name"], "eve")
            self.raises("refused", "no-game", server.matches, "chess")
            self.raises("refused", "bad-seats", server.create, "pig", 9)
            self.raises("refused", "seat-taken", server.join, match, 0, "bob")
            self.raises("refused", "bad-name", server.join, match, 1, "")
            self.raises("refused", "unauthorized", server.leave, {**place, "key": "0" * 32})
            self.raises("refused", "not-a-bot", server.takeover, match, 0)
            self.assertEqual(self.raises("refused", "bad-message", server.look, "nonsense").field, "match")
            with server.follow(place) as ann:
                self.raises("no", "too-early", ann.end_turn)
                self.raises("no", "nothing-to-undo", ann.undo)
                self.raises("no", "invalid-move", ann.move, "take", 9)
                ann.move("take", 3)
                ann.undo()
                ann.redo()
                self.assertEqual(ann.view["g"]["heap"], 18)
                self.assertFalse(ann.wait(0.05))
                ann.leave()
            self.raises("refused", "no-match", server.look, match)
        with socket.socket() as bound:
            # (nobody else can listen at a port that is bound)
            bound.bind(("127.0.0.1", 0))
            self.raises("fault", "unreachable", sarpuntxe.connect, "127.0.0.1:%d" % bound.getsockname()[1])

    def test_after_a_cut_the_log_says_what_has_counted(self):
        for server, scheme in ((self.line, "tcp"), (self.web, "ws")):
            relay = Relay(server.port)
            address = f"{scheme}://127.0.0.1:{server.port}/"
            places = self.table(address, "pig")
            ann = sarpuntxe.Match(f"{scheme}://127.0.0.1:{relay.port}/", places[0])
            with sarpuntxe.Match(address, places[0]) as other:
                relay.deaf = True
                ann.send(sarpuntxe.move("roll"))
                self.assertTrue(other.wait(10))
                relay.cut()
                relay.deaf = False
                self.raises("fault", "cut", ann.read, 10)
                self.assertEqual(ann.connect(), 1)
                self.assertEqual(ann.view, other.view)
                relay.mute = True
                ann.send(sarpuntxe.move("roll"))
                relay.cut()
                relay.mute = False
                self.raises("fault", "cut", ann.read, 10)
                self.assertIsNone(ann.connect())
            ann.close()
            relay.stop()

    def test_a_server_that_keeps_its_rooms_comes_back(self):
        with tempfile.TemporaryDirectory() as rooms:
            server = self.program("--keep", rooms)
            address = f"127.0.0.1:{server.port}"
            ann, bob, eve = [sarpuntxe.Match(address, place) for place in self.table(address, "tic-tac-toe")]
            ann.move("clickCell", 4)
            bob.wait(10)
            server.stop()
            server = self.program("--keep", rooms, port=server.port)
            self.raises("fault", "cut", bob.move, "clickCell", 0)
            self.assertEqual(bob.move("clickCell", 0), 2)
            for one in (ann, eve):
                self.assertTrue(one.until(lambda match: match.view["number"] == 2, 10))
            server.stop()
            server = self.program(port=server.port)
            self.table(address, "tic-tac-toe")
            self.raises("refused", "unauthorized", ann.wait, 10)
            self.raises("ended", "replaced", eve.wait, 10)
            server.stop()


if __name__ == "__main__":
    unittest.main()
