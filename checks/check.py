#!/usr/bin/env python3
"""Tries what no proof says, in some minutes and without a proof: the lints, all cases and examples, and the checks of bench/ and of the page
over a server that is built without proofs.

    checks/check.py                      all of it
    checks/check.py NAME ..              these alone, as `--list` names them
    checks/check.py --program FILE ..    over a server that is there already, in place of building one

Each check prints a line: `ok NAME (S seconds)`, `FAILED NAME: why`, or `left out NAME: why`. The status is 1 if one failed.
What a check wrote is left in out/check/NAME.log.
The page is played where Chromium is installed; plays of the client that guesses want page/page_program.wasm, which `make page` builds.
"""
import concurrent.futures
import os
import shutil
import subprocess
import sys
import tempfile
import time

ROOT = os.path.dirname(os.path.dirname(os.path.abspath(__file__)))
KEPT = f"{ROOT}/out/check"
PROGRAMS = f"{KEPT}/quick_programs"
PLAY = ["node", "--experimental-websocket", "--no-warnings", "page/test/play.mjs"]
SERVER = "SERVER"

# Each check that wants a server: its name, its words, and how many seconds it may take.
CHECKS = {
    "idle": (["bench/idle.py", SERVER, "--short"], 240),
    "served": (["bench/served.py", "same", SERVER, "2000"], 240),
    "clients": (["bench/clients.py", SERVER], 240),
    "status": (["bench/status.py", SERVER], 120),
    "bots": (["bench/bots.py", SERVER], 300),
    "serve_kills": (["bench/serve_kills.py", SERVER, "8"], 240),
    "anew_kills": (["bench/anew_kills.py", SERVER, "20"], 240),
    "endless_messages": (["bench/attacks/endless_messages.py", SERVER], 120),
    "lines": (["clients/check_lines.py"], 120),
    "client_js": (["npm", "--prefix", "clients/js", "test"], 240),
    "client_python": (["python3", "clients/python/test_sarpuntxe.py"], 240),
    "page": (PLAY, 900),
}
# What a check wants on the PATH. Where it isn't, the check is left out.
WANTED = {"client_js": ["node", "npm"], "page": ["node", os.environ.get("CHROMIUM", "chromium")]}
# It mostly waits, so it runs beside the others.
BESIDE = "idle"


class Outcome:
    def __init__(self):
        self.passed, self.failed, self.left_out = 0, 0, []

    def tell(self, name, why, took):
        if why:
            self.failed += 1
            print(f"FAILED {name}: {why}", flush=True)
        else:
            self.passed += 1
            print(f"ok {name} ({took:.0f} seconds)", flush=True)

    def leave_out(self, name, why):
        self.left_out.append(name)
        print(f"left out {name}: {why}", flush=True)

    def end(self):
        out = f", {len(self.left_out)} left out: {', '.join(self.left_out)}" if self.left_out else ""
        print(f"{self.passed} passed, {self.failed} failed{out}; nothing was proved")
        return 1 if self.failed else 0


def run(name, words, seconds, server=""):
    """Runs a check: why it failed, or nothing, and how long it took. A check that hangs is ended with all that it started."""
    began = time.monotonic()
    words = [server if word == SERVER else word for word in words]
    with open(f"{KEPT}/{name}.log", "w+", encoding="utf-8", errors="replace") as log:
        ran = subprocess.Popen(
            words, cwd=ROOT, stdin=subprocess.DEVNULL, stdout=log, stderr=subprocess.STDOUT, start_new_session=True,
            env={**os.environ, "SARPUNTXE_PROGRAM": server},
        )
        try:
            status = ran.wait(seconds)
            why = f"status {status}" if status else ""
        except subprocess.TimeoutExpired:
            why = f"it had not ended after {seconds} seconds"
        finally:
            end_all(ran)
        log.seek(0)
        said = [line.strip() for line in log if line.strip()]
    if why and said:
        told = [line for line in said if line.startswith(("FAILED", "lint:")) or line.endswith(" failed")]
        why += f", {(told or said)[-1][:200]} (out/check/{name}.log)"
    return why, time.monotonic() - began, said


def end_all(ran):
    """Ends what a check has started and not ended: its session is its own."""
    try:
        os.killpg(ran.pid, 9)
    except ProcessLookupError:
        pass
    ran.wait()


def as_command(program, folder):
    """A command that runs the program as it stands, or by the toolchain's own loader where it was built for that."""
    try:
        if subprocess.run([program, "script"], stdin=subprocess.DEVNULL, capture_output=True, check=False).returncode == 0:
            return os.path.abspath(program)
    except OSError:
        pass
    from unproved import run_words
    words = " ".join(f"'{word}'" for word in run_words(os.path.abspath(program)))
    command = os.path.join(folder, "board_server")
    with open(command, "w", encoding="utf-8") as file:
        file.write(f'#!/bin/sh\nexec {words} "$@"\n')
    os.chmod(command, 0o755)
    return command


def why_left_out(name):
    missing = [program for program in WANTED.get(name, ()) if not shutil.which(program)]
    return f"there is no {missing[0]}" if missing else ""


def main(words):
    program = None
    if words[:1] == ["--list"]:
        print("\n".join(["lint", "cases", *CHECKS]))
        return 0
    if words[:1] == ["--program"]:
        program, words = words[1], words[2:]
    wanted = words or ["lint", *([] if program else ["cases"]), *CHECKS]
    unknown = [name for name in wanted if name not in ("lint", "cases", *CHECKS)]
    if unknown:
        sys.exit(f"check.py: no check is named {', '.join(unknown)}")
    os.makedirs(KEPT, exist_ok=True)
    outcome = Outcome()
    if "lint" in wanted:
        outcome.tell("lint", *run("lint", ["checks/lint.py"], 600)[:2])
    checks = [name for name in CHECKS if name in wanted]
    if "cases" in wanted or checks and not program:
        if os.path.exists(PROGRAMS):
            os.remove(PROGRAMS)
        outcome.tell("cases", *run("cases", ["checks/quick_test.py", "programs", "--keep", KEPT], 1800)[:2])
        program = program or PROGRAMS
    if checks and not os.path.exists(program):
        for name in checks:
            outcome.leave_out(name, f"there is no {program}")
        return outcome.end()
    with tempfile.TemporaryDirectory(prefix="sarpuntxe-") as folder, concurrent.futures.ThreadPoolExecutor(1) as pool:
        server = as_command(program, folder) if checks else ""
        beside = pool.submit(run, BESIDE, *CHECKS[BESIDE], server) if BESIDE in checks else None
        for name in checks:
            if name == BESIDE:
                continue
            if why_left_out(name):
                outcome.leave_out(name, why_left_out(name))
                continue
            why, took, said = run(name, *CHECKS[name], server)
            outcome.tell(name, why, took)
            for line in said if name == "page" else ():
                if line.startswith("skipped "):
                    play, _, reason = line.removeprefix("skipped ").partition(": ")
                    outcome.leave_out(f"page's {play}", reason)
        if beside:
            outcome.tell(BESIDE, *beside.result()[:2])
    return outcome.end()


if __name__ == "__main__":
    sys.exit(main(sys.argv[1:]))
