#!/usr/bin/env python3
"""quick_test.py [programs | tests] [--all] [--keep FOLDER]: builds the programs and the tests without a proof, and runs them all.

Two programs are built, side by side, each once. `quick_tests` is the tests of all crates of crates.txt that have some, and of checks/tests, each of them
a module of one crate. `quick_programs` is board_server, and any other program, of crates.txt or checks/tests, where its first word is `as:NAME`.
Then every test is run, every program on its own stdin, whose output must be its stdout, and each FILE of examples/ that has a FILE.out beside it, which
must be what it prints.

Tests that checks/tests/slow.txt names are left out, but for --all. --keep leaves what was built in a folder. What is built has its run-time checks in: an
index out of bounds, an overflow or a failed prove! ends it. Nothing is proved here: a run that passes says nothing of a contract, which the gate does."""
import argparse
import concurrent.futures
import os
import re
import shutil
import subprocess
import sys
import tempfile
import time

from toolchain import KIT, ROOT, rtlib
from unproved import build, libraries, run_words

MOVED = f"{ROOT}/checks/tests"
# What a program is run on and what it gives, beside its source in checks/tests.
RUN_BY = ("args", "stdin", "stdout", "status")
HEAD = "#![tactic(auto)]\n\n"
# How board_server's main begins, before whose body the other programs are put.
MAIN = "fn main(rt: HostRuntime) -> ExitCode {\n"
ARMS = """    if let Ok(given) = words(&rt) {{
        let first = match given.as_slice() {{
            [_, first, ..] => first.as_str(),
            _ => "",
        }};
        match first {{
{arms}            _ => {{}}
        }}
    }}
"""


class Moved:
    """A crate in checks/tests, of tests or, with a main.rt.in, a program: its name, its files, and what it stands on. The gate does not know it."""

    def __init__(self, name, folder, of_kit, deps):
        self.name, self.folder, self.of_kit, self.deps = name, folder, ["std", *of_kit], deps
        self.is_program = os.path.isfile(f"{folder}/main.rt.in")

    def below(self):
        found = []
        for dep in self.deps:
            found += [it for it in [*dep.below(), dep] if it not in found]
        return found


def content(path, other=b""):
    if not os.path.isfile(path):
        return other
    with open(path, "rb") as file:
        return file.read()


def moved(crates):
    """Returns the crates in checks/tests, as checks/tests/tests.txt lists them."""
    by_name, found = {it.name: it for it in crates}, []
    for line in content(f"{MOVED}/tests.txt").decode().splitlines():
        head, colon, below = line.partition("#")[0].partition(":")
        if not colon:
            continue
        name, below = head.split()[0], below.split()
        if name in by_name:
            sys.exit(f"quick_test.py: {name} stands in crates.txt and in checks/tests/tests.txt")
        if not any(os.path.isfile(f"{MOVED}/{name}/{top}.rt.in") for top in ("lib", "main")):
            sys.exit(f"quick_test.py: checks/tests/tests.txt lists {name}, and there is no lib.rt.in and no main.rt.in in checks/tests/{name}")
        for it in below:
            if it not in by_name and not os.path.isdir(f"{KIT}/rlibs/{it}.rlib"):
                sys.exit(f"quick_test.py: checks/tests/tests.txt: {it} is no crate and no library of the toolchain")
        found.append(Moved(name, f"{MOVED}/{name}", [it for it in below if it not in by_name], [by_name[it] for it in below if it in by_name]))
    listed = {it.name for it in found}
    for name in sorted(os.listdir(MOVED)) if os.path.isdir(MOVED) else []:
        if os.path.isdir(f"{MOVED}/{name}") and name not in listed:
            sys.exit(f"quick_test.py: checks/tests/tests.txt does not list {name}")
    return found


def main_of(crate):
    """Returns the text of a program's main.rt."""
    return content(f"{crate.folder}/main.rt.in" if isinstance(crate, Moved) else f"{crate.folder}/src/main.rt").decode()


def as_module(crate, to):
    """Copies a crate as a module of another one: its root becomes a file NAME.rt, and the rest the folder NAME."""
    top = "main.rt" if crate.is_program else "lib.rt"
    source = crate.folder if isinstance(crate, Moved) else f"{crate.folder}/src"
    for at, _, names in os.walk(source):
        for name in names:
            if at == source and crate.is_program and name in RUN_BY:
                continue
            inside = os.path.relpath(f"{at}/{name}", source).removesuffix(".in")
            if not inside.endswith(".rt"):
                sys.exit(f"quick_test.py: {at}/{name} is no file of Rattle")
            text = content(f"{at}/{name}").decode()
            text = re.sub(r"\bcrate::", f"crate::{crate.name}::", text)
            if inside == top:
                text = re.sub(r"(?m)^#!\[.*\]\n", "", text)
                text = re.sub(r"(?m)^fn main\(", "pub fn main(", text)
            # What a proof is helped by is not read here.
            text = re.sub(r"(?m)^\s*#\[tactic\(.*\)\]\n", "", text)
            target = f"{to}/{crate.name}.rt" if inside == top else f"{to}/{crate.name}/{inside}"
            os.makedirs(os.path.dirname(target), exist_ok=True)
            with open(target, "w", encoding="utf-8") as file:
                file.write(text)


def all_tests(crates, to):
    for crate in crates:
        as_module(crate, to)
    with open(f"{to}/lib.rt", "w", encoding="utf-8") as file:
        file.write(HEAD + "".join(f"mod {it.name};\n" for it in crates))


def all_programs(server, others, to):
    """Makes of board_server a program that is another one where its first word says so. Threads are main's to give, so board_server's main stays."""
    arms = ""
    for crate in others:
        as_module(crate, to)
        text = main_of(crate)
        if "env::args" in text:
            sys.exit(f"quick_test.py: {crate.name} reads its words, of which the first is taken here")
        call = f"{crate.name}::main(rt)"
        gives_code = re.search(r"^fn main\(rt: HostRuntime\) -> ExitCode", text, re.M)
        body = call if gives_code else f"match {call} {{ Ok(()) => ExitCode::from(0), Err(_) => ExitCode::from(1) }}"
        arms += f'            "as:{crate.name}" => return {body},\n'
    shutil.copytree(f"{server.folder}/src", to, dirs_exist_ok=True)
    text = content(f"{to}/main.rt").decode()
    if text.count(MAIN) != 1 or not re.search(r"^fn words\(rt: &HostRuntime\) -> io::Result<Vec<String>>", text, re.M):
        sys.exit("quick_test.py: board_server's main.rt has no longer the line `fn main(rt: HostRuntime) -> ExitCode {` and the function `words`, "
                 "between which this script writes: change MAIN and ARMS")
    mods = "".join(f"mod {it.name};\n" for it in others)
    with open(f"{to}/main.rt", "w", encoding="utf-8") as file:
        file.write(text.replace(MAIN, f"{mods}\n{MAIN}{ARMS.format(arms=arms)}"))


def case(program, label, words, given, wanted, status, where):
    """Runs the program once, and returns the label and what is wrong, or ''. No wanted output is any output."""
    os.makedirs(where)
    env = {"PATH": "/usr/bin:/bin", "HOME": where, "TMPDIR": where, "LANG": "C.UTF-8"}
    try:
        ran = subprocess.run([*run_words(program), *words], cwd=where, input=given, capture_output=True, env=env, timeout=600)
    except subprocess.TimeoutExpired:
        return label, "had not ended after 600 seconds"
    why = []
    if ran.returncode != status:
        why.append(f"ended with status {ran.returncode}, and not {status}: {ran.stderr.decode(errors='replace')[-300:]}")
    if wanted is not None and ran.stdout != wanted:
        at = next((i for i, (a, b) in enumerate(zip(ran.stdout, wanted)) if a != b), min(len(ran.stdout), len(wanted)))
        why.append(f"wrote something else, first at line {wanted[:at].count(10) + 1}")
    return label, "; ".join(why)


def program_runs(programs):
    """Returns the runs of programs: the label, the words, what is given, what is wanted and the status."""
    runs = []
    for it in programs:
        words = ["as:" + it.name] * (it.name != "board_server") + content(f"{it.folder}/args").decode().splitlines()
        status = int(content(f"{it.folder}/status", b"0"))
        runs.append((it.name, words, content(f"{it.folder}/stdin"), content(f"{it.folder}/stdout"), status))
    for name in sorted(os.listdir(f"{ROOT}/examples")):
        kind = name.rpartition(".")[2]
        if kind in ("script", "world"):
            wanted = content(f"{ROOT}/examples/{name}.out", b"there is no such file")
            runs.append((f"examples/{name}", [kind], content(f"{ROOT}/examples/{name}"), wanted, 0))
    return runs


def test_runs(program, is_all):
    """Returns the runs of tests, and the names of those that are left out."""
    said = subprocess.run([*run_words(program), "--list"], stdin=subprocess.DEVNULL, capture_output=True, text=True, check=True).stdout
    names = [it.removesuffix(": test") for it in said.splitlines() if it.endswith(": test")]
    slow = [it for it in content(f"{MOVED}/slow.txt").decode().splitlines() if it and not it.startswith("#")]
    for it in slow:
        if it not in names:
            sys.exit(f"quick_test.py: checks/tests/slow.txt names {it}, and there is no such test")
    left_out = [] if is_all else slow
    return [(f"test {it}", [it], b"", None, 0) for it in names if it not in left_out], left_out


def main():
    asked = argparse.ArgumentParser(description=__doc__, formatter_class=argparse.RawDescriptionHelpFormatter)
    asked.add_argument("part", nargs="?", choices=["programs", "tests"])
    asked.add_argument("--all", action="store_true")
    asked.add_argument("--keep", metavar="FOLDER")
    asked = asked.parse_args()
    began = time.time()
    crates = rtlib.crates_below(f"{ROOT}/crates")
    beside = moved(crates)
    programs = sorted((it for it in [*crates, *beside] if it.is_program), key=lambda it: it.name)
    server = next(it for it in programs if it.name == "board_server")
    tests = [*(it for it in crates if it.has_tests()), *(it for it in beside if not it.is_program)]
    failed, passed = [], 0
    with tempfile.TemporaryDirectory(prefix="sarpuntxe-") as room, concurrent.futures.ThreadPoolExecutor(2 + (os.cpu_count() or 2)) as pool:

        def begun(part, name, make, given):
            """Begins to build a part, unless another one alone was asked for."""
            if asked.part not in (None, part):
                return None
            source = f"{room}/{part}-source"
            os.makedirs(f"{source}/src")
            make(*given, f"{source}/src")
            used = tests if part == "tests" else programs
            return pool.submit(build, source, name, libraries(used), f"{room}/{name}", tests=part == "tests")

        parts = [
            ("programs", "quick_programs", begun("programs", "quick_programs", all_programs, (server, [it for it in programs if it is not server]))),
            ("tests", "quick_tests", begun("tests", "quick_tests", all_tests, (tests,))),
        ]
        for part, name, built in parts:
            why = built.result() if built else None
            if why is None:
                continue
            if why:
                print(why, flush=True)
                failed.append(f"the {part} were not built")
                continue
            print(f"{part} built after {time.time() - began:.0f} seconds", flush=True)
            runs, left_out = (program_runs(programs), []) if part == "programs" else test_runs(f"{room}/{name}", asked.all)
            ways = [pool.submit(case, f"{room}/{name}", *run, f"{room}/run-{part}-{at}") for at, run in enumerate(runs)]
            for way in ways:
                label, why = way.result()
                passed += not why
                if why:
                    failed.append(label)
                    print(f"{label}: {why}", flush=True)
            print(f"{part} run: {len(runs)}" + "".join(f"; left out: {it}" for it in left_out), flush=True)
            if asked.keep:
                os.makedirs(asked.keep, exist_ok=True)
                shutil.copy2(f"{room}/{name}", asked.keep)
    if failed:
        print("failed: " + ", ".join(failed))
    print(f"{passed} passed, {len(failed)} failed in {time.time() - began:.0f} seconds; nothing was proved")
    return 1 if failed else 0


sys.exit(main())
