#!/usr/bin/env python3
"""prove_program.py NAME.. [--module NAME]: proves these programs and the crates below them as the gate does, builds and runs them, and leaves each at
crates/NAME/out/NAME.

It runs `rt ci` over a copy of these crates alone, without their edits. So the longest chain of crates goes first, and what is proved is kept on this
machine: a later `rt ci` proves none of it again, and after an `rt ci` nothing is proved here.

With --module, that program is compiled once more, over the libraries that were just proved, and the module that the prover hands to clang is left at
crates/NAME/out/NAME.bc, beside the program that was made of it."""
import argparse
import os
import shutil
import subprocess
import sys
import tempfile

from copies import copied, gate, listed
from toolchain import KIT, ROOT, SYSTEM, rtlib, with_other

CLANG = """#!/bin/sh
[ -f module.bc ] && cp module.bc "{kept}"
exec "{kit}/toolchain/bin/clang" "$@"
"""


def handed_on(made, name):
    """Puts a file of the copy, or nothing if there is none, in its place in the crate's out/, at once."""
    if not os.path.isfile(made):
        sys.exit(f"prove_program.py: all is proved, but there is no {os.path.basename(made)}")
    place = f"{ROOT}/crates/{name}/out/{os.path.basename(made)}"
    os.makedirs(os.path.dirname(place), exist_ok=True)
    shutil.copy2(made, f"{place}.new")
    os.replace(f"{place}.new", place)
    print(os.path.relpath(place, ROOT), flush=True)


def compiled(room, name):
    """Proves the program of the copy once more over its proved libraries, compiles it by LLVM and links it, and keeps the module that clang is given."""
    crate = next(it for it in rtlib.crates_below(f"{room}/crates") if it.name == name)
    program = f"{crate.folder}/out/{name}"
    for old in (program, f"{program}.bc"):
        if os.path.exists(old):
            os.remove(old)
    with tempfile.TemporaryDirectory(prefix="sarpuntxe-") as tools:
        with_other(f"{tools}/kit", clang=CLANG.format(kept=f"{program}.bc", kit=KIT))
        build = [rtlib.RATTLE, "build", *crate.words(["--jobs", "1"], keeps=False), "--backend", "llvm"]
        build += ["--toolchain", f"{tools}/kit", "-o", f"{program}.o"]
        link = [f"{KIT}/bin/rattle-link", "--target", "x86_64-unknown-linux-gnu", "--toolchain", f"{KIT}/toolchain"]
        link += ["-o", program, f"{program}.o", *SYSTEM]
        for call in (build, link):
            ran = subprocess.run(call, cwd=crate.folder, stdin=subprocess.DEVNULL, capture_output=True, text=True, errors="replace")
            if ran.returncode:
                sys.exit(f"prove_program.py: {name} was proved, but not compiled:\n{ran.stdout[-2000:]}{ran.stderr[-2000:]}")


def main():
    asked = argparse.ArgumentParser(description=__doc__, formatter_class=argparse.RawDescriptionHelpFormatter)
    asked.add_argument("names", nargs="+", metavar="NAME")
    asked.add_argument("--module", metavar="NAME")
    asked = asked.parse_args()
    names = [*dict.fromkeys([*asked.names, *filter(None, [asked.module])])]
    for name in names:
        if name not in listed() or not os.path.isfile(f"{ROOT}/crates/{name}/src/main.rt"):
            sys.exit(f"prove_program.py: crates.txt lists no program {name}")
    with copied(names) as room:
        status = gate(room)
        if status:
            return status
        if asked.module:
            compiled(room, asked.module)
            handed_on(f"{room}/crates/{asked.module}/out/{asked.module}.bc", asked.module)
        for name in names:
            handed_on(f"{room}/crates/{name}/out/{name}", name)
    return 0


sys.exit(main())
