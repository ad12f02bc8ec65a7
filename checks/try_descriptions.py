#!/usr/bin/env python3
"""Changes descriptions of games at random, and looks what `check` of a built program does with each.

    checks/try_descriptions.py PROGRAM [--count 100000] [--seed 1] [--first 0] [--jobs 4] [--games FOLDER] [--plays SECONDS]
    checks/try_descriptions.py --show NUMBER [--seed 1] [--games FOLDER]

A description of games/ is taken, and lines or tokens of it are dropped, doubled, swapped or taken from another description, numbers are put in place
of others, and bytes are turned. Each number of a seed gives the same description, which `--show` prints.
Each must load, or be refused by a name that is known, within a second; a process that ends in any other way has failed.
What loads is played: one random match, which is stopped after some seconds (`--plays`), since a match may have 4,096 actions, each of them dear.
A failure is a line with its number. The status is 1 if there is one.
"""
import argparse
import collections
import concurrent.futures
import os
import random
import re
import sys
import tempfile
import time
from pathlib import Path

from descriptions import DESCRIPTIONS, check, error_in, known_names, status_of_refusal

# How long `check` may take with a description, without a play.
PATIENCE = 1.0
# Of the failures so many are told one by one.
TOLD = 20
# Words, numbers and signs of TOML and of code, blanks left out.
TOKEN = re.compile(rb"[A-Za-z_]\w*|\d+|\"\"\"|'''|\.\.<|\.\.|==|!=|<=|>=|=>|&&|\|\||\+=|-=|\S")
NUMBERS = [b"0", b"1", b"2", b"3", b"7", b"9", b"16", b"17", b"63", b"64", b"65", b"255", b"256", b"1000", b"1024", b"1025", b"4096", b"65536",
           b"999999", b"2147483647", b"2147483648", b"4294967296", b"99999999999999999999"]


def lines_of(text):
    return text.split(b"\n")


def tokens_of(text):
    """The tokens of a text, and what stands between them."""
    return [(match.start(), match.end()) for match in TOKEN.finditer(text)]


def change_lines(rng, text, _other):
    """Drops, doubles, swaps or moves lines."""
    lines = lines_of(text)
    one, two = rng.randrange(len(lines)), rng.randrange(len(lines))
    how = rng.randrange(4)
    if how == 0:
        del lines[one]
    elif how == 1:
        lines.insert(two, lines[one])
    elif how == 2:
        lines[one], lines[two] = lines[two], lines[one]
    else:
        lines.insert(two, lines.pop(one))
    return b"\n".join(lines)


def change_tokens(rng, text, _other):
    """Drops, doubles or swaps tokens; two that are swapped often stand side by side."""
    tokens = tokens_of(text)
    if len(tokens) < 2:
        return text
    one = rng.randrange(len(tokens) - 1)
    two = one + 1 if rng.random() < 0.5 else rng.randrange(len(tokens))
    (a, b), (c, d) = sorted([tokens[one], tokens[two]])
    how = rng.randrange(3)
    if how == 0 or a == c:
        return text[:a] + text[b:]
    if how == 1:
        return text[:a] + text[a:b] + b" " + text[a:]
    return text[:a] + text[c:d] + text[b:c] + text[a:b] + text[d:]


def change_token(rng, text, other):
    """Puts a token of this or another description in place of one."""
    tokens, others = tokens_of(text), tokens_of(other)
    if not tokens or not others:
        return text
    (a, b), (c, d) = rng.choice(tokens), rng.choice(others)
    return text[:a] + other[c:d] + text[b:]


def change_number(rng, text, _other):
    """Puts another number in place of one."""
    numbers = [match.span() for match in re.finditer(rb"\d+", text)]
    if not numbers:
        return text
    a, b = rng.choice(numbers)
    number = rng.choice(NUMBERS) if rng.random() < 0.7 else str(int(text[a:b]) + rng.choice([-1, 1])).encode()
    return text[:a] + number + text[b:]


def change_bytes(rng, text, _other):
    """Turns bits of a byte, or puts a byte in, or takes one out."""
    if not text:
        return text
    at = rng.randrange(len(text))
    how = rng.randrange(3)
    if how == 0:
        return text[:at] + bytes([text[at] ^ (1 << rng.randrange(8))]) + text[at + 1:]
    if how == 1:
        return text[:at] + bytes([rng.randrange(256)]) + text[at:]
    return text[:at] + text[at + 1:]


def take_line(rng, text, other):
    """Puts a line of another description in."""
    lines = lines_of(text)
    lines.insert(rng.randrange(len(lines) + 1), rng.choice(lines_of(other)))
    return b"\n".join(lines)


CHANGES = [change_lines, change_tokens, change_tokens, change_tokens, change_token, change_token, change_number, change_number, change_bytes, take_line]


def description(texts, seed, number):
    """The description with this number."""
    rng = random.Random(f"{seed} {number}")
    text, other = rng.choice(texts), rng.choice(texts)
    for _ in range(rng.choice([1, 1, 1, 2, 2, 3, 5, 8])):
        text = rng.choice(CHANGES)(rng, text, other)
    return text


class Tried:
    """What became of a description: how it ended, a name or a word, whether that is a failure, and how long `check` took."""

    def __init__(self, number, end, took, failed=""):
        self.number, self.end, self.took, self.failed = number, end, took, failed


class Trial:
    def __init__(self, words, texts, folder):
        self.words, self.texts, self.folder = words, texts, folder
        self.names = known_names()
        self.refusal = status_of_refusal(words.program, folder)

    def one(self, number):
        """Tries the description with this number."""
        file = os.path.join(self.folder, f"{number}.toml")
        with open(file, "wb") as out:
            out.write(description(self.texts, self.words.seed, number))
        try:
            return self.load(number, file)
        finally:
            os.remove(file)

    def load(self, number, file):
        began = time.monotonic()
        status, said = check(self.words.program, file, seconds=10 * PATIENCE)
        took = time.monotonic() - began
        if status is None or took > PATIENCE:
            return Tried(number, "slow", took, f"took {'more than ' if status is None else ''}{took:.2f} seconds")
        if status == 0:
            return self.play(number, file, took)
        name = error_in(said, self.names)
        if status != self.refusal:
            return Tried(number, "crashed", took, f"status {status}: {last_line(said)}")
        if name is None:
            return Tried(number, "nameless", took, f"is refused without a name: {last_line(said)}")
        return Tried(number, name, took)

    def play(self, number, file, took):
        status, said = check(self.words.program, file, "--play", "1", seconds=self.words.plays)
        if status is None:
            return Tried(number, "stopped", took)
        if status != 0:
            return Tried(number, "crashed", took, f"--play 1: status {status}: {last_line(said)}")
        return Tried(number, "played", took)


def last_line(said):
    lines = [line for line in said.splitlines() if line.strip()]
    return lines[-1][:200] if lines else "it said nothing"


def texts_of(folder):
    """The descriptions of a folder, in the order of their names."""
    texts = [file.read_bytes() for file in sorted(Path(folder).glob("*.toml"))]
    if not texts:
        sys.exit(f"{folder} has no descriptions")
    return texts


def numbers_in_parts(first, count, part=1000):
    for begin in range(first, first + count, part):
        yield range(begin, min(begin + part, first + count))


def try_all(words, texts):
    """Tries them all, and tells what became of them."""
    ends, failures, slowest = collections.Counter(), 0, None
    with tempfile.TemporaryDirectory() as folder, concurrent.futures.ThreadPoolExecutor(words.jobs) as pool:
        trial = Trial(words, texts, folder)
        for numbers in numbers_in_parts(words.first, words.count):
            for tried in pool.map(trial.one, numbers):
                ends[tried.end] += 1
                if slowest is None or tried.took > slowest.took:
                    slowest = tried
                if tried.failed:
                    failures += 1
                    if failures <= TOLD:
                        print(f"number {tried.number}: {tried.failed}", flush=True)
    tell(words, ends, failures, slowest)
    return 1 if failures else 0


def tell(words, ends, failures, slowest):
    names = known_names()
    for name in sorted(names & set(ends), key=lambda name: (-ends[name], name)):
        print(f"{name}: {ends[name]}")
    refused = sum(ends[name] for name in names)
    print(f"seed {words.seed}, numbers {words.first} to {words.first + words.count - 1}: {refused} refused by {len(names & set(ends))} of {len(names)} names, "
          f"{ends['played']} loaded and played, {ends['stopped']} loaded and stopped, {failures} failed")
    if slowest:
        print(f"the slowest took {slowest.took:.3f} seconds: number {slowest.number}")


def main():
    parser = argparse.ArgumentParser(description="Changes descriptions of games at random, and looks what `check` does with each.")
    parser.add_argument("program", nargs="?")
    parser.add_argument("--count", type=int, default=100_000)
    parser.add_argument("--seed", type=int, default=1)
    parser.add_argument("--first", type=int, default=0)
    parser.add_argument("--jobs", type=int, default=os.cpu_count() or 1)
    parser.add_argument("--games", default=str(DESCRIPTIONS))
    parser.add_argument("--plays", type=float, default=2.0)
    parser.add_argument("--show", type=int)
    words = parser.parse_args()
    texts = texts_of(words.games)
    if words.show is not None:
        sys.stdout.buffer.write(description(texts, words.seed, words.show))
        return 0
    if not words.program or words.count < 1:
        parser.error("a built program is wanted, and a count from 1 on")
    words.program = os.path.abspath(words.program)
    return try_all(words, texts)


if __name__ == "__main__":
    sys.exit(main())
