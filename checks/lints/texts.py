"""The repository's files as texts: crates, sources and definitions without their comments."""
import functools
import os
import re
from pathlib import Path

TOP = Path(os.environ.get("SARPUNTXE_TOP") or Path(__file__).resolve().parents[2])
CRATES = TOP / "crates"
MOVED = TOP / "checks/tests"
WORD = re.compile(r"[A-Za-z_][A-Za-z0-9_']*(?:-[A-Za-z0-9_']+)*")
PLAIN_WORD = re.compile(r"[A-Za-z_][A-Za-z0-9_]*")
BESIDE = ("out", "data", ".git", "__pycache__", "node_modules")


@functools.cache
def read(path):
    return path.read_text()


def under(folder, suffix):
    """All files below a folder that end so, sorted; what `rt` makes, and cases' data, are left out."""
    found = []
    for place, folders, names in os.walk(folder):
        folders[:] = sorted(name for name in folders if name not in BESIDE)
        found += [Path(place) / name for name in sorted(names) if name.endswith(suffix)]
    return found


@functools.cache
def files(suffix):
    return under(CRATES, suffix)


@functools.cache
def sources():
    """All sources: of the crates, and of the tests that stand in checks/tests."""
    return files(".rt") + under(MOVED, ".rt.in")


def edits():
    """The edits that the prover must refuse, each with its crate: in a crate's must-fail/, or in edits/CRATE/ at the top."""
    beside = TOP / "edits"
    return [(path, crate_of(path)) for path in files(".edit")] + [
        (path, path.relative_to(beside).parts[0]) for path in under(beside, ".edit")
    ]


def shown(path):
    return str(path.relative_to(TOP))


def crate_of(path):
    return path.relative_to(MOVED if path.is_relative_to(MOVED) else CRATES).parts[0]


def line_at(text, place):
    return text.count("\n", 0, place) + 1


@functools.cache
def listed(name="crates.txt"):
    """crates.txt: each crate with what it stands on and its line."""
    found = {}
    for number, line in enumerate(read(TOP / name).splitlines() if (TOP / name).exists() else (), 1):
        head, colon, rest = line.partition(":")
        if colon and not line.startswith("#"):
            found[head.split()[0]] = (rest.split(), number)
    return found


@functools.cache
def stands_on(crate):
    """What a crate stands on, as crates.txt or that of checks/tests says."""
    return (listed().get(crate) or listed("checks/tests/tests.txt").get(crate, ((), 0)))[0]


@functools.cache
def below(crate):
    """The crates of the repository that a crate stands on, itself among them."""
    found = {crate}
    for other in stands_on(crate):
        if other in listed():
            found |= below(other)
    return frozenset(found)


def entries(name):
    """A list of checks/: each line's first word, with the rest of the line and its number."""
    path = TOP / "checks" / name
    lines = read(path).splitlines() if path.exists() else []
    found = {}
    for number, line in enumerate(lines, 1):
        if line.strip() and not line.startswith("#"):
            word, _, rest = line.partition(" ")
            found[word] = (rest.strip(), f"checks/{name}:{number}")
    return found


def blank(text):
    return re.sub(r"[^\n]", " ", text)


ANTT_COMMENT = re.compile(r"(?m)(?:^|(?<=\s))--(?=\s|$).*$")
RUST_TOKEN = re.compile(
    r"//[^\n]*|/\*.*?\*/"
    r'|b?r(?P<hash>\#*)".*?"(?P=hash)|b?"(?:\\.|[^"\\])*"'
    r"|b?'(?:\\x[0-9a-fA-F]{2}|\\u\{[0-9a-fA-F]+\}|\\.|[^'\\\n])'"
    r"|[A-Za-z0-9_]+",
    re.S,
)


@functools.cache
def antt(path):
    """A file of definitions or proofs with blanks for its comments."""
    return ANTT_COMMENT.sub(lambda match: blank(match.group()), read(path))


def without(text, strings):
    def change(match):
        token = match.group()
        if token.startswith("/"):
            return blank(token)
        if strings and token[-1] in "\"'#":
            return token[0] + re.sub(r"[^\n]", "_", token[1:-1]) + token[-1]
        return token

    return RUST_TOKEN.sub(change, text)


@functools.cache
def code(path):
    """A source with blanks for its comments, and `_` for what its texts say; every place stays where it is."""
    return without(read(path), True)


@functools.cache
def uncommented(path):
    """A source with blanks for its comments; its texts stay, since `println!` names values in them."""
    return without(read(path), False)
