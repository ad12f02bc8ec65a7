#!/usr/bin/env python3
"""A client of `board_server serve` at the command line, on the client of clients/python.

  client.py ADDRESS games
  client.py ADDRESS create GAME SEATS
  client.py ADDRESS join MATCH SEAT NAME
  client.py ADDRESS play MATCH SEAT KEY   acts by lines of standard input, as `clickCell 4`, `endTurn` or `undo`
  client.py ADDRESS play MATCH            watches as a spectator

ADDRESS is HOST:PORT, or ws://HOST:PORT/ for a server with --ws.
"""
import json
import os
import select
import sys

sys.path.insert(0, os.path.join(os.path.dirname(os.path.abspath(__file__)), "../clients/python"))
from sarpuntxe import REDO, UNDO, Match, SarpuntxeError, Session, end_turn, move  # noqa: E402


def act_of(words):
    """The act that a line of standard input asks for."""
    name, _, rest = words.rstrip("\r\n").partition(" ")
    if name == "endTurn":
        return end_turn()
    # a caption is one text, even if it is of digits; the other moves take numbers
    args = [rest] if name == "write" else [int(word) if is_number(word) else word for word in rest.split()]
    return {"undo": UNDO, "redo": REDO}.get(name) or move(name, *args)


def is_number(word):
    return word.isascii() and word.removeprefix("-").isdigit()


def show(line):
    """Prints a line as JSON. Names and captions may hold control characters, which no terminal should see."""
    print("".join(c if c.isprintable() else "?" for c in json.dumps(line, ensure_ascii=False)), flush=True)


def play(match):
    """Acts and follows the match, and connects anew after a cut, until standard input ends. One act at a time waits for its verdict."""
    commands = open(0, "rb", buffering=0)
    show(match.view)
    while True:
        try:
            if match.ready() or match in select.select([match] if match.waiting else [match, commands], [], [])[0]:
                show(match.read())
                continue
            words = commands.readline().decode()
            if not words:
                return
            match.send(act_of(words))
        except SarpuntxeError as why:
            if why.reason != "cut":
                raise
            print("the connection broke: connecting anew", file=sys.stderr)
            waited = match.waiting
            number = match.connect()
            if waited:
                show({"act": waited[1], "accepted": number is not None})
            show(match.view)


def main(address, command, *words):
    if command == "play":
        place = {"match": words[0], **({"seat": int(words[1]), "key": words[2]} if words[1:] else {})}
        play(Match(address, place, protocol=1))
    elif command == "create":
        show(Session(address).ask(type=command, game=words[0], seats=int(words[1])))
    elif command == "join":
        show(Session(address).ask(type=command, match=words[0], seat=int(words[1]), name=words[2]))
    else:
        show(Session(address).ask(type=command))


if __name__ == "__main__":
    try:
        main(*sys.argv[1:]) if sys.argv[2:] else sys.exit(__doc__)
    except SarpuntxeError as why:
        sys.exit(f"{why.reason}: {why}")
