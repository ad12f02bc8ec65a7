#!/usr/bin/env python3
"""Looks the repository over in some seconds, without a proof and without a build, for what proofs and tests don't tell:
names that nothing names, functions that no program reaches, edits of what doesn't run, dependencies that aren't used,
clauses that are too wide, heads that are too long, and documents that have fallen behind.

    checks/lint.py            all lints
    checks/lint.py --list     what each looks for
    checks/lint.py WORD ..    those whose names have one of these words

A finding is a line `FILE:LINE what is wrong`. The status is 1 if there is one.
The lists in checks/ (unreached.txt, long_heads.txt, wide.txt) say what is left as it is; an entry that is no longer true is a finding too.
"""
import inspect
import sys
import time

from lints import documents, edits, heads, names, proved, reached

LINTS = {
    "names of definitions and lemmas": names.definitions_and_lemmas,
    "names of functions and types": names.functions,
    "dependencies": names.dependencies,
    "unreached functions": reached.lint,
    "edits": edits.lint,
    "long heads": heads.long_heads,
    "wide clauses": heads.wide,
    "clauses in PROVED": proved.lint,
    "links": documents.links,
    "lists of games": documents.same_games,
    "descriptions of games": documents.descriptions,
    "errors of descriptions": documents.errors_of_descriptions,
    "names of crates": documents.names_of_crates,
    "the page's client": documents.same_client,
    "versions": documents.versions,
    "files of the page": documents.files_of_the_page,
}


def main(words):
    if words == ["--list"]:
        for name, lint in LINTS.items():
            print(f"{name}\n    {inspect.getdoc(lint)}\n".replace("\n\n    ", "\n    "))
        return 0
    if words == ["--times"]:
        words, timed = [], True
    else:
        timed = False
    count = 0
    for name, lint in LINTS.items():
        if words and not any(word in name for word in words):
            continue
        start = time.monotonic()
        for file, line, what in lint():
            print(f"{file}:{line} {what}")
            count += 1
        if timed:
            print(f"# {name}: {time.monotonic() - start:.1f} seconds")
    print(f"lint: {count} findings" if count else "lint: nothing found")
    return 1 if count else 0


if __name__ == "__main__":
    sys.exit(main(sys.argv[1:]))
