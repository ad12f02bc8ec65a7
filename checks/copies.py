"""A copy of some crates and of those below them, in a repository of its own, in which `rt ci` runs. Whatever it proves there is kept on this machine
for every other `rt ci`, and what those have proved it takes."""
import contextlib
import os
import re
import shutil
import subprocess
import tempfile

from toolchain import ROOT


def listed():
    """Returns, by crate, its line of crates.txt, and all words after the colon."""
    lines = {}
    with open(f"{ROOT}/crates.txt", encoding="utf-8") as file:
        for line in file:
            head, colon, below = line.partition("#")[0].partition(":")
            if colon:
                lines[head.split()[0]] = line, below.split()
    return lines


@contextlib.contextmanager
def copied(names):
    """Gives a folder with a copy of these crates and of those below them, without their edits, and removes it in the end."""
    lines, wanted, left = listed(), set(), [*names]
    while left:
        name = left.pop()
        if name in lines and name not in wanted:
            wanted.add(name)
            left += lines[name][1]
    with tempfile.TemporaryDirectory(prefix="sarpuntxe-") as room:
        # rt ci wants the top of a repository.
        os.mkdir(f"{room}/.git")
        shutil.copyfile(f"{ROOT}/HANDLES", f"{room}/HANDLES")
        with open(f"{room}/crates.txt", "w", encoding="utf-8") as file:
            file.writelines(line for name, (line, _) in lines.items() if name in wanted)
        for name in wanted:
            shutil.copytree(f"{ROOT}/crates/{name}", f"{room}/crates/{name}", ignore=shutil.ignore_patterns("out", "must-fail"))
        print(f"{len(wanted)} crates", flush=True)
        yield room


def gate(room, hears=lambda line: None):
    """Runs `rt ci` in the copy, prints what it says in brief, gives each of its lines to hears, and returns its status. What a check says of a crate is
    printed only if the crate is not proved."""
    with subprocess.Popen(["rt", "ci"], cwd=room, stdout=subprocess.PIPE, stderr=subprocess.STDOUT, text=True, errors="replace") as ran:
        try:
            for line in in_brief(ran.stdout, hears):
                print(line.replace(room, ROOT), end="", flush=True)
        except BaseException:
            ran.terminate()
            raise
    return ran.returncode


def in_brief(lines, hears):
    """Gives each line to hears, and yields it, but of a crate that is proved only the line that says so."""
    held = None
    for line in lines:
        hears(line)
        if line.startswith("== "):
            held = []
        if held is None:
            yield line
            continue
        held.append(line)
        ended = re.match(r"rt: \w+(: its tests are)? (NOT PROVED|proved)$", line)
        if ended:
            yield from held if ended[2] != "proved" else held[-1:]
            held = None
    yield from held or []
