#!/usr/bin/env python3
"""Times how long a server takes until it listens, where each of its rooms has a match with so many actions in its journal.

  bench/starts.py PROGRAM [ROOMS] [ACTIONS]      (64 and 4,096 unless said)
"""
import os
import subprocess
import sys
import tempfile
import time

program = os.path.abspath(sys.argv[1])
rooms = int(sys.argv[2]) if len(sys.argv) > 2 else 64
actions = sys.argv[3] if len(sys.argv) > 3 else "4096"
maker = os.path.join(os.path.dirname(os.path.abspath(__file__)), "journal.py")
journal = subprocess.run([sys.executable, maker, actions], stdout=subprocess.PIPE, check=True).stdout

with tempfile.TemporaryDirectory() as folder:
    for room in range(rooms):
        with open(os.path.join(folder, f"room-{room}.journal"), "wb") as file:
            file.write(journal)
    words = [program, "serve", "--listen", "127.0.0.1:0", "--rooms", str(rooms), "--keep", folder]
    began = time.monotonic()
    server = subprocess.Popen(words, stderr=subprocess.PIPE, text=True)
    said = []
    for line in server.stderr:
        if line.startswith("listening on "):
            break
        said.append(line)
    took = time.monotonic() - began
    with open(f"/proc/{server.pid}/stat") as file:
        fields = file.read().rpartition(")")[2].split()
    with open(f"/proc/{server.pid}/statm") as file:
        held = int(file.read().split()[1]) * os.sysconf("SC_PAGE_SIZE")
    spent = (int(fields[11]) + int(fields[12])) / os.sysconf("SC_CLK_TCK")
    server.kill()
    server.wait()
    if said != [f"room {room} serial 1 number {actions}\n" for room in range(rooms)]:
        sys.exit(f"the server says: {said}")
print(f"{rooms} rooms of {actions} actions each: {took:.1f} s, {spent:.1f} s of processor time, {held / 2**20:.0f} MiB")
