#!/usr/bin/env python3
"""Peers of WebSockets that never end a message. It starts a server itself, on a free port, and takes some ten seconds.

    bench/attacks/endless_messages.py PROGRAM [--peers 12]

Each peer sends one text message of a line's limit and one byte more: whole, with a header alone that says so, in fragments, and in fragments
between pings. Promised: each is closed with 1009 as soon as the header that passes 65,536 bytes was sent, whatever comes after it; a message
of just 65,536 bytes is answered; the server grows by less than a MiB a peer; and somebody else is served meanwhile.
"""
import argparse
import base64
import json
import os
import socket
import struct
import subprocess
import sys
import time

LINE = 65_536
FIRST, LAST, TEXT, CLOSE, PING, PONG = 0x00, 0x80, 0x1, 0x8, 0x9, 0xA
PART = 4_096


def check(holds, why):
    if not holds:
        sys.exit("endless_messages.py: " + why)


class Server:
    def __init__(self, program, links):
        words = [program, "serve", "--listen", "127.0.0.1:0", "--ws", "--workers", "2", "--links", str(links)]
        self.process = subprocess.Popen(words, stderr=subprocess.PIPE, text=True)
        said = self.process.stderr.readline()
        check(said.startswith("listening on "), f"the server says: {said}")
        host, port = said.split()[-1].rsplit(":", 1)
        self.address = (host, int(port))

    def kibibytes(self):
        """What the server has in memory."""
        with open(f"/proc/{self.process.pid}/status", encoding="ascii") as status:
            return next(int(line.split()[1]) for line in status if line.startswith("VmRSS:"))

    def stop(self):
        self.process.kill()
        self.process.wait()


class Peer:
    """A WebSocket by hand, so that a message can be left open."""

    def __init__(self, server):
        self.socket = socket.create_connection(server.address)
        self.socket.settimeout(10)
        key = base64.b64encode(os.urandom(16)).decode()
        head = f"GET / HTTP/1.1\r\nHost: a\r\nUpgrade: websocket\r\nConnection: Upgrade\r\nSec-WebSocket-Version: 13\r\nSec-WebSocket-Key: {key}\r\n\r\n"
        self.socket.sendall(head.encode())
        self.came = b""
        while b"\r\n\r\n" not in self.came:
            self.came += self.some()
        answer, self.came = self.came.split(b"\r\n\r\n", 1)
        check(b" 101 " in answer.split(b"\r\n")[0], f"the handshake is answered by {answer}")

    def some(self):
        more = self.socket.recv(65_536)
        check(more, "the server closed without a close frame")
        return more

    def header(self, code, length, last=True):
        """The header of a frame under the mask 0, by which bytes stay as they are."""
        first = bytes([(LAST if last else FIRST) | code])
        if length < 126:
            return first + bytes([0x80 | length]) + bytes(4)
        if length < LINE:
            return first + bytes([0x80 | 126]) + struct.pack(">H", length) + bytes(4)
        return first + bytes([0x80 | 127]) + struct.pack(">Q", length) + bytes(4)

    def send(self, code, payload, last=True):
        try:
            self.socket.sendall(self.header(code, len(payload), last) + payload)
            return True
        except (BrokenPipeError, ConnectionResetError):
            return False

    def frame(self):
        """The next frame: its kind and what it holds."""
        while True:
            if len(self.came) >= 2:
                length, at = self.came[1] & 0x7F, 2
                if length == 126 and len(self.came) >= 4:
                    length, at = struct.unpack(">H", self.came[2:4])[0], 4
                if (length < 126 or at > 2) and len(self.came) >= at + length:
                    kind, payload, self.came = self.came[0] & 0x0F, self.came[at:at + length], self.came[at + length:]
                    return kind, payload
            self.came += self.some()

    def close_code(self):
        """The code of the close frame by which the server ends the session."""
        while True:
            kind, payload = self.frame()
            if kind == CLOSE:
                return struct.unpack(">H", payload[:2])[0]


def whole(peer):
    peer.send(TEXT, b"x" * (LINE + 1))


def header_alone(peer):
    peer.socket.sendall(peer.header(TEXT, 1 << 40))


def fragments(peer):
    peer.send(TEXT, b"x" * PART, last=False)
    for _ in range(LINE // PART):
        if not peer.send(0, b"x" * PART, last=False):
            return


def fragments_and_pings(peer):
    peer.send(TEXT, b"x" * PART, last=False)
    for _ in range(LINE // PART):
        if not (peer.send(PING, b"") and peer.send(0, b"x" * PART, last=False)):
            return


def open_message(peer):
    """All but the last byte of the largest message, which is then held."""
    peer.send(TEXT, b"x" * PART, last=False)
    for _ in range(LINE // PART - 2):
        peer.send(0, b"x" * PART, last=False)
    peer.send(0, b"x" * (PART - 1), last=False)


def is_served(server):
    """How long somebody else waits for an answer, in seconds."""
    began = time.monotonic()
    peer = Peer(server)
    peer.send(TEXT, b'{"type":"games"}')
    kind, payload = peer.frame()
    check(kind == TEXT and json.loads(payload)["type"] == "games", f"another session is answered {payload}")
    peer.socket.close()
    return time.monotonic() - began


def main():
    arguments = argparse.ArgumentParser()
    arguments.add_argument("program")
    arguments.add_argument("--peers", type=int, default=12)
    asked = arguments.parse_args()
    server = Server(asked.program, asked.peers + 4)
    try:
        before = server.kibibytes()
        for attack in (whole, header_alone, fragments, fragments_and_pings):
            peer = Peer(server)
            attack(peer)
            code = peer.close_code()
            check(code == 1009, f"{attack.__name__} is closed with {code}")
            peer.socket.close()
            print(f"{attack.__name__}: closed with 1009")
        just = Peer(server)
        just.send(TEXT, b" " * (LINE - 16) + b'{"type":"games"}')
        check(json.loads(just.frame()[1])["type"] == "games", "a message of just the limit isn't answered")
        held = [Peer(server) for _ in range(asked.peers)]
        for peer in held:
            open_message(peer)
        waited = is_served(server)
        grown = server.kibibytes() - before
        check(grown < 1_024 * asked.peers, f"{asked.peers} peers take {grown} KiB")
        print(f"{asked.peers} open messages: {grown} KiB in all, and another session is answered after {waited * 1000:.1f} ms")
    finally:
        server.stop()


main()
