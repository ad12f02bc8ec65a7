#!/usr/bin/env python3
"""Compares a built program with what is known of described games: rows by `ask`, and descriptions that load or are refused by `check`.

    checks/try_rows.py PROGRAM [--games FOLDER] [--rows FOLDER] [--refused FOLDER] [--unasked] [NAME ..]

  --games FOLDER     descriptions NAME.toml, each of which must load
  --rows FOLDER      rows NAME.jsonl, each a line that says what the game NAME gives, see docs/ROWS.md
  --refused FOLDER   descriptions that are refused: ERROR.toml by the error of this name
  --unasked          a row that the program can't ask yet is counted, and is no failure
  NAME ..            these games alone

Where `--games` isn't said the folders are games/, checks/rows/ and checks/refused/; checks/make_rows.py makes the rows.

It prints a line for each game and a tally, and of what differs the first lines. The status is 1 if something differs.
"""
import argparse
import collections
import os
import re
import sys
import tempfile
from pathlib import Path

from descriptions import DESCRIPTIONS, TOP, check, error_in, known_names, run, status_of_refusal

# How long `ask` may take with the rows of a game, and `check` with a description.
PATIENCE = 600
LOADS = 60
# Of what differs in a game so many lines are told.
TOLD = 5
TALLY = re.compile(r"(\d+) rows as they say, (\d+) otherwise, (\d+) not asked, (\d+) without gives$")
UNASKED = re.compile(r"line \d+ is not asked: (.*)")


class Outcome:
    """Counts of all games."""

    def __init__(self, unasked):
        self.unasked_pass = unasked
        self.same = self.other = self.unasked = self.loaded = self.refused = self.failed = 0
        self.reasons = collections.Counter()

    def fail(self, what):
        self.failed += 1
        print(f"FAILED {what}", flush=True)

    def end(self):
        for reason, count in self.reasons.most_common():
            print(f"not asked, {reason}: {count}")
        print(f"{self.loaded} descriptions loaded, {self.refused} refused as they should be; "
              f"{self.same} rows as they say, {self.other} otherwise, {self.unasked} not asked; {self.failed} failed")
        return 1 if self.failed else 0


def try_game(program, file, outcome):
    """A description must load."""
    status, said = check(program, file, seconds=LOADS)
    if status == 0:
        outcome.loaded += 1
    else:
        outcome.fail(f"{file.name}: status {status}: {said.strip()[:300]}")


def try_rows(program, game, rows, outcome):
    """Each row of a game must be answered by `ok`, and the last line counts them all."""
    given = rows.read_bytes()
    count = sum(1 for line in given.split(b"\n") if line.strip() and not line.startswith(b"#"))
    _status, said = run([program, "ask", str(game)], given, PATIENCE)
    lines = said.splitlines()
    # Where a row isn't as it says, a line of standard error follows.
    tally = next(filter(None, map(TALLY.search, reversed(lines))), None)
    if not tally:
        return outcome.fail(f"{rows.name}: no tally: {(lines or ['it said nothing'])[0][:200]}")
    same, other, unasked, answers = map(int, tally.groups())
    outcome.same, outcome.other, outcome.unasked = outcome.same + same, outcome.other + other, outcome.unasked + unasked
    outcome.reasons.update(match[1] for match in map(UNASKED.match, lines) if match)
    print(f"{rows.stem}: {tally[0]}", flush=True)
    if same + other + unasked + answers != count or answers:
        return outcome.fail(f"{rows.name}: has {count} rows, each with `gives`")
    if other or unasked and not outcome.unasked_pass:
        outcome.fail(f"{rows.name}")
        for line in [line for line in lines if line.startswith("line ")][:TOLD]:
            print(f"  {line[:300]}")
    return None


def try_refused(program, file, refusal, names, outcome):
    """A description must be refused by the error whose name the file has."""
    status, said = check(program, file, seconds=LOADS)
    name = error_in(said, names)
    if status == refusal and name == file.stem:
        outcome.refused += 1
    else:
        outcome.fail(f"{file.name}: status {status}, {name or 'no name'}: {said.strip()[:300]}")


def files(folder, form, names):
    found = sorted(file for file in Path(folder).glob(form) if not names or file.stem in names)
    if not found and not names:
        sys.exit(f"{folder} has no {form}")
    return found


def main():
    parser = argparse.ArgumentParser(description="Compares a built program with what is known of described games.")
    parser.add_argument("program")
    parser.add_argument("names", nargs="*")
    parser.add_argument("--games")
    parser.add_argument("--rows")
    parser.add_argument("--refused")
    parser.add_argument("--unasked", action="store_true")
    words = parser.parse_intermixed_args()
    if not words.games:
        words.games, words.rows, words.refused = DESCRIPTIONS, words.rows or TOP / "checks/rows", words.refused or TOP / "checks/refused"
    program = os.path.abspath(words.program)
    outcome = Outcome(words.unasked)
    for file in files(words.games, "*.toml", words.names):
        try_game(program, file, outcome)
    for file in files(words.rows, "*.jsonl", words.names) if words.rows else []:
        game = Path(words.games) / f"{file.stem}.toml"
        if game.is_file():
            try_rows(program, game, file, outcome)
        else:
            outcome.fail(f"{file.name}: there is no {game}")
    if words.refused:
        with tempfile.TemporaryDirectory() as folder:
            refusal = status_of_refusal(program, folder)
        for file in files(words.refused, "*.toml", []):
            try_refused(program, file, refusal, known_names(), outcome)
    return outcome.end()


if __name__ == "__main__":
    sys.exit(main())
