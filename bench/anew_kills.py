#!/usr/bin/env python3
"""Kills a server at random moments while it begins a room's file anew, and looks at what is left.

    bench/anew_kills.py PROGRAM [KILLS]

A first server makes matches in its one room that are all left again, and is killed. Then servers are started over that very file, and each is killed
within 30 ms. Each time the file must be the old one or the one that begins anew, byte for byte.
"""
import os
import random
import subprocess
import sys
import tempfile
import time

from served import Session, join_of

MATCHES = 40
RENAMES = 8


class Server:
    """A server of one room over a folder, on a free port."""

    def __init__(self, program, folder, waits):
        words = [program, "serve", "--listen", "127.0.0.1:0", "--rooms", "1", "--workers", "1", "--links", "2", "--keep", folder]
        self.process = subprocess.Popen(words, stderr=subprocess.PIPE, text=True)
        while waits:
            line = self.process.stderr.readline()
            if not line:
                sys.exit(f"the server ends with {self.process.wait()}")
            if line.startswith("listening on "):
                host, port = line.split()[-1].rsplit(":", 1)
                self.address = (host, int(port))
                return

    def kill(self):
        self.process.kill()
        self.process.wait()
        self.process.stderr.close()


def bytes_of(path):
    with open(path, "rb") as file:
        return file.read()


def play(server):
    """Makes matches, joins each, changes the name often, and leaves it."""
    session = Session(server)
    for _ in range(MATCHES):
        name = session.ask({"game": "pig", "seats": 2, "type": "create"}, "created")["match"]
        key = session.ask(join_of(name, 0), "joined")["key"]
        for number in range(RENAMES):
            session.ask({"key": key, "match": name, "name": f"n{number}", "seat": 0, "type": "rename"}, "renamed")
        session.ask({"key": key, "match": name, "seat": 0, "type": "leave"}, "left")
    session.close()


def main(program, kills):
    with tempfile.TemporaryDirectory() as folder:
        path = os.path.join(folder, "room-0.journal")
        server = Server(program, folder, True)
        play(server)
        server.kill()
        old = bytes_of(path)
        Server(program, folder, True).kill()
        new = bytes_of(path)
        if 2 * len(new) > len(old):
            sys.exit(f"anew_kills.py: {len(old)} bytes became {len(new)}")
        anew = 0
        for kill in range(kills):
            with open(path, "wb") as file:
                file.write(old)
            server = Server(program, folder, False)
            time.sleep(random.uniform(0, 0.03))
            server.kill()
            left = bytes_of(path)
            if left not in (old, new):
                sys.exit(f"anew_kills.py: after kill {kill} the file has {len(left)} bytes that are neither")
            anew += left == new
    print(f"{kills} kills: {anew} left the new file of {len(new)} bytes, the others the old one of {len(old)}")


if __name__ == "__main__":
    main(os.path.abspath(sys.argv[1]), int(sys.argv[2]) if len(sys.argv) > 2 else 200)
