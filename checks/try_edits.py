#!/usr/bin/env python3
"""try_edits.py [NAME..]: tries the edits of edits/NAME/*.edit, or of all NAMEs. The prover has to refuse each.

It runs `rt ci` over a copy of these crates and of those below them, which proves what the gate has not proved on this machine. Over their libraries it
then checks the functions that an edit changes, with those that they call, and nothing else. If these are proved, the edit may still break a function
above them: then the whole crate is checked. Without the edit the functions have to be proved, or it says nothing.

The last line counts the edits. The status is 0 only if each was refused: one that can't be applied or read, or that was not tried, fails here."""
import concurrent.futures
import importlib.machinery
import importlib.util
import os
import re
import shutil
import sys

from copies import copied, gate, listed
from toolchain import KIT, ROOT, rtlib

# What a check takes that loads the libraries of the highest crates.
BYTES_A_CHECK = 4_000_000_000
COUNTED = re.compile(r"only=(\d+) proved=(\d+)")


def command_rt():
    """Returns the toolchain's command rt as a module: it reads edits, and checks a crate with other texts."""
    loader = importlib.machinery.SourceFileLoader("rt", f"{KIT}/bin/rt")
    module = importlib.util.module_from_spec(importlib.util.spec_from_loader("rt", loader))
    loader.exec_module(module)
    return module


rt = command_rt()


def function_at(lines, number):
    """Returns the name below its file's module of the function that a line stands in, with the type that it is a method of, or None."""
    name, deep = None, len(lines[number])
    for line in reversed(lines[: number + 1]):
        indent = len(line) - len(line.lstrip())
        if not line.strip() or indent >= deep and name:
            continue
        found = re.match(r"\s*(?:pub(?:\([^)]*\))? )?(?:const )?(?:unsafe )?fn (\w+)", line)
        if found and not name:
            name, deep = found[1], indent
            continue
        block = re.match(r"(?:unsafe )?impl(?:<[^{]*?>)?(?: .* for)? &?(?:mut )?(?:\w+::)*(\w+)", line)
        if block and name and indent < deep:
            return f"{block[1]}::{name}"
        if indent == 0 and name and deep == 0:
            return name
    return name


def changed(edit, folder):
    """Returns the functions that an edit changes, by the ends of their names, or none if it changes something else too."""
    names, file = [], None
    with open(edit, encoding="utf-8") as it:
        rows = it.read().split("\n")
    for row in rows:
        word, _, rest = row.partition(": ")
        if word == "file":
            file = rest.strip()
        elif word == "old":
            module = re.fullmatch(r"src/(.*)\.rt", file)
            with open(f"{folder}/{file}", encoding="utf-8") as it:
                lines = it.read().split("\n")
            number = next((at for at, line in enumerate(lines) if rest.strip() in line), None)
            name = function_at(lines, number) if module and number is not None else None
            if not name:
                return []
            path = [] if module[1] in ("lib", "main") else module[1].split("/")
            names.append("::".join([*path, name]))
    return list(dict.fromkeys(names))


def counts(ran):
    """Returns how many functions were asked for and how many proved, by the last line of a check of some functions."""
    found = COUNTED.fullmatch(ran.stdout.rstrip("\n").split("\n")[-1])
    return found and (int(found[1]), int(found[2]))


def stands(crate, names):
    """Returns whether these functions are proved as they stand."""
    count = counts(rt.checked(crate, {}, only(names), None))
    return bool(count) and count[0] == count[1] > 0


def only(names):
    return ["--jobs", "1", *[f"--only={it}" for it in names]]


def tried(crate, edit):
    """Returns what an edit came to, and what is said of it."""
    names = changed(edit, crate.folder)
    texts, why = rt.read_edit(edit, crate.folder)
    if names and not why and stands(crate, names):
        ran = rt.checked(crate, texts, only(names), None)
        lines, count = ran.stdout.split("\n"), counts(ran)
        if count and count[1] < count[0] and not any(rt.unread(it, texts) for it in lines):
            return rt.REFUSED, f"refused: {', '.join(names)}"
    return rt.must_fail(crate, edit, ["--jobs", "1"])


def at_once():
    """Returns how many checks run side by side, by processors and free memory."""
    with open("/proc/meminfo", encoding="ascii") as it:
        free = int(re.search(r"MemAvailable: +(\d+) kB", it.read())[1]) * 1024
    return max(1, min(len(os.sched_getaffinity(0)), free // BYTES_A_CHECK))


def main(names):
    have = sorted(os.listdir(f"{ROOT}/edits"))
    names = names or have
    for name in names:
        if name not in have or name not in listed():
            sys.exit(f"try_edits.py: there are no edits of a crate {name}: there are those of {' '.join(have)}")
    came = {}
    with copied(names) as room:
        # The libraries of a run are proved, or the edits over them say nothing.
        if gate(room):
            sys.exit("try_edits.py: not all of these crates are proved")
        with concurrent.futures.ThreadPoolExecutor(at_once()) as workers:
            known, asked = {}, {}
            for name in names:
                crate = rtlib.Crate(f"{room}/crates/{name}", room, known)
                for it in sorted(os.listdir(f"{ROOT}/edits/{name}")):
                    asked[workers.submit(tried, crate, f"{ROOT}/edits/{name}/{it}")] = f"{name}/{it}"
            for done in concurrent.futures.as_completed(asked):
                kind, said = done.result()
                came[asked[done]] = kind
                print(f"{asked[done]}: {said}", flush=True)
    wrong = [f"{edit}: {kind}" for edit, kind in sorted(came.items()) if kind != rt.REFUSED]
    print("".join(f"{it}\n" for it in wrong), end="")
    many = [*came.values()].count
    counted = f"{many(rt.REFUSED)} refused, {many(rt.AT_LIMIT)} at a limit, {many(rt.MISSED)} not refused, {many(rt.BAD)} bad, {many(rt.UNSURE)} not tried"
    print(f"{len(came)} edits: {counted}")
    return 1 if wrong or not came else 0


sys.exit(main(sys.argv[1:]))
