#!/usr/bin/env python3
"""Compares a built program with the second reading of docs/LANGUAGE.md in checks/reading: both play the same random matches of each description.

    checks/try_reading.py PROGRAM [--plays 3] [--first 0] [--games FOLDER] [NAME ..]
    checks/try_reading.py --alone [--plays 3] [--first 0] [--games FOLDER] [NAME ..]

For each NAME, or each description of the folder, the lines of `board_server check FILE --play N` from the count of matches on have to be those of the
reading. `--first` is the number of the first match, as the program counts them. With `--alone` the reading's lines are printed.
The reading is slow: a match of Go or Chess takes it seconds. It wants Python 3.11. The status is 1 if something differs.
"""
import argparse
import itertools
import os
import sys
import time
from pathlib import Path

from descriptions import DESCRIPTIONS, check
from reading.code import Fault
from reading.plays import play
from reading.runs import Game

# How long `check` may take.
PATIENCE = 600


def report(file, words):
    """The lines of the reading."""
    return play(Game(file.read_text()), words.plays, words.first).text().splitlines()


def told(program, file, plays):
    """The lines of the program from the count of matches on, or why there are none."""
    status, said = check(program, file, "--play", str(plays), seconds=PATIENCE)
    lines = said.splitlines()
    head = f"{plays} random matches"
    if status != 0 or head not in lines:
        return [f"status {status}: {(lines or ['it said nothing'])[-1]}"]
    return lines[lines.index(head):]


def compare(file, words):
    """Tells what differs: whether something does."""
    began = time.monotonic()
    try:
        ours = report(file, words)
    except Fault as fault:
        print(f"FAILED {file.stem}: the reading refuses it: {fault}", flush=True)
        return True
    if words.alone:
        print(f"{file.stem}\n" + "".join(f"  {line}\n" for line in ours), end="", flush=True)
        return False
    theirs = told(words.program, file, words.plays)
    other = next(((one, two) for one, two in itertools.zip_longest(theirs, ours, fillvalue="nothing") if one != two), None)
    if other:
        print(f"FAILED {file.stem}: the program says `{other[0]}`, the reading `{other[1]}`", flush=True)
        return True
    actions = next(line for line in ours if line.startswith("actions: "))
    print(f"ok {file.stem}: {actions} ({time.monotonic() - began:.0f} seconds)", flush=True)
    return False


def main():
    parser = argparse.ArgumentParser(description="Compares a built program with the second reading of docs/LANGUAGE.md.")
    parser.add_argument("program", nargs="?")
    parser.add_argument("names", nargs="*")
    parser.add_argument("--plays", type=int, default=3)
    parser.add_argument("--first", type=int, default=0)
    parser.add_argument("--games", default=str(DESCRIPTIONS))
    parser.add_argument("--alone", action="store_true")
    words = parser.parse_intermixed_args()
    if words.alone and words.program:
        words.names.insert(0, words.program)
    elif not words.alone and not words.program:
        parser.error("a built program is wanted, or --alone")
    else:
        words.program = None if words.alone else os.path.abspath(words.program)
    files = sorted(file for file in Path(words.games).glob("*.toml") if not words.names or file.stem in words.names)
    if not files:
        sys.exit(f"{words.games} has no such descriptions")
    failed = [compare(file, words) for file in files]
    print(f"{failed.count(False)} of {len(failed)} played alike" if not words.alone else f"{len(failed)} played")
    return 1 if any(failed) else 0


if __name__ == "__main__":
    sys.exit(main())
