#!/usr/bin/env python3
"""Writes a journal on standard output: one match of Blind Bid with eight players, who make so many boasts in turn.

  bench/journal.py [BOASTS] > FILE      (4,096 unless said)
  time board_server replay < FILE
"""
import json
import sys

boasts = int(sys.argv[1]) if len(sys.argv) > 1 else 4096


def record(**members):
    text = json.dumps(members, separators=(",", ":"), sort_keys=True).encode()
    return b"\x01" + len(text).to_bytes(4, "little") + text


out = sys.stdout.buffer
out.write(record(game="blind-bid", kind="create", seats=8, seed="00" * 32))
for seat in range(8):
    out.write(record(key=f"{seat:032x}", kind="join", name=f"p{seat}", seat=seat))
for number in range(boasts):
    act = {"args": [number % 10], "kind": "move", "move": "boast"}
    out.write(record(act=act, kind="act", seat=number % 8))
out.write(b"\x00")
