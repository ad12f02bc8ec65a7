#!/usr/bin/env python3
"""try_server.py LISTEN WORD..: runs `board_server serve --listen LISTEN WORD..` by a server that is built without a proof, and says where to play once it
serves.

The server is kept in out/try of the repository, with a sum of all that it was built of, so that a second start builds nothing, and what is out of date is
never started."""
import hashlib
import os
import subprocess
import sys
import threading
import time

from toolchain import KIT, ROOT, rtlib
from unproved import build, libraries, run_words

KEPT = f"{ROOT}/out/try"


def content(path):
    with open(path, "rb") as file:
        return file.read()


def sum_of(crates):
    """Returns a sum of what the server is built of: its sources and those below, crates.txt, the toolchain and these scripts."""
    files = [f"{ROOT}/crates.txt", f"{KIT}/KIT-ID", *[f"{ROOT}/checks/{it}.py" for it in ("toolchain", "unproved", "try_server")]]
    for crate in crates:
        for at, folders, names in os.walk(f"{crate.folder}/src"):
            folders.sort()
            files += [f"{at}/{name}" for name in sorted(names)]
    made = hashlib.sha256()
    for it in files:
        made.update(repr((os.path.relpath(it, ROOT), content(it))).encode())
    return made.hexdigest()


def kept(stamp):
    """Returns whether the server that is kept is whole and was built of the same."""
    try:
        return content(f"{KEPT}/stamp").decode() == stamp + hashlib.sha256(content(f"{KEPT}/board_server")).hexdigest()
    except OSError:
        return False


def made(crate, stamp):
    """Builds the server, says now and then that it still does, and returns what was said if it could not."""
    os.makedirs(KEPT, exist_ok=True)
    began, over = time.time(), threading.Event()

    def tells():
        while not over.wait(10):
            print(f"Still building, {time.time() - began:.0f} seconds.", flush=True)

    print("Building the server without proofs, once: a minute or two.", flush=True)
    threading.Thread(target=tells, daemon=True).start()
    why = build(crate.folder, crate.name, libraries([crate]), f"{KEPT}/board_server", sanitizes=False)
    over.set()
    if not why:
        with open(f"{KEPT}/stamp", "w", encoding="utf-8") as file:
            file.write(stamp + hashlib.sha256(content(f"{KEPT}/board_server")).hexdigest())
        print(f"Built in {time.time() - began:.0f} seconds.", flush=True)
    return why


def main(listen, *words):
    crate = next(it for it in rtlib.crates_below(f"{ROOT}/crates") if it.name == "board_server")
    stamp = sum_of([crate, *crate.below()])
    why = "" if kept(stamp) else made(crate, stamp)
    if why:
        sys.exit(f"{why}\nThe server was not built.")
    # What changes while it is built may be in it or not, so the stamp is asked for again.
    if sum_of([crate, *crate.below()]) != stamp:
        os.remove(f"{KEPT}/stamp")
        sys.exit("The sources changed while the server was built: start again.")
    call = [*run_words(f"{KEPT}/board_server"), "serve", "--listen", listen, *words]
    with subprocess.Popen(call, cwd=ROOT, stdin=subprocess.DEVNULL, stderr=subprocess.PIPE, text=True, errors="replace") as server:
        try:
            for line in server.stderr:
                print(line, end="", file=sys.stderr, flush=True)
                if line.startswith("listening on "):
                    print(f"Play at http://{line.split()[-1]}/ (not proved: `make play` serves the proved server). Ctrl-C ends it.", flush=True)
        finally:
            server.terminate()
    return server.returncode


try:
    sys.exit(main(*sys.argv[1:]))
except KeyboardInterrupt:
    sys.exit(130)
