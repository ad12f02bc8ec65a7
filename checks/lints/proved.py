"""The tables of docs/PROVED*.md against the functions and clauses that they name."""
import collections
import functools
import re

from . import texts
from .functions import closing, everywhere
from .reached import PROGRAMS, is_law, reached

PLAIN = re.compile(r"[a-z][a-z0-9_]*")
TICKED = re.compile(r"`([^`]*)`")


HEAD = ["crate", "function", "clause", "reached by"]
REACHED = {(): "neither", ("board_server",): "server", ("page_program",): "page", PROGRAMS: "both"}


def rows(path):
    """The rows of tables of promises: (line, crate, function cell, clause cell, what reaches it); a crate that is left out is that of the row above."""
    crate, inside, found = "", False, []
    for number, line in enumerate(texts.read(path).splitlines(), 1):
        cells = [cell.strip() for cell in re.split(r"(?<!\\)\|", line.strip().strip("|"))] if line.startswith("|") else []
        if len(cells) != 5:
            inside = False
        elif cells[1:] == HEAD:
            inside, crate = True, ""
        elif inside and not set(cells[0]) <= set("-: "):
            crate = cells[1] or crate
            found.append((number, TICKED.findall(crate), *cells[2:]))
    return found


def reached_by(groups):
    """What reaches a row of these groups of functions: a program does if it reaches one of each group, and in part if one of some."""
    groups = [found for found in groups if found]
    if groups and all(is_law(f) for found in groups for f in found):
        return "law"
    seen = {p: [any(id(f) in reached(programs=(p,)) for f in found) for found in groups] for p in PROGRAMS}
    programs = tuple(p for p in PROGRAMS if all(seen[p]))
    return REACHED[programs] if programs or not any(map(any, seen.values())) else "in part"


@functools.cache
def by_crate():
    found = collections.defaultdict(list)
    for f in everywhere():
        found[f.crate].append(f)
    return found


def meant(crates, cell):
    """What a cell names: (name, the functions of the crates that it may mean). `Type::one`, `two` names `two` of the same type, or else a free one."""
    here = [f for crate in crates for f in by_crate()[crate]]
    owner = ""
    for name in TICKED.findall(cell):
        name = name.partition("<")[0]
        if "::" in name:
            owner, _, last = name.rpartition("::")
            owner = owner.split("::")[-1]
        else:
            last = name
        if re.fullmatch(r"[A-Z]\w*", last):
            yield name, [f for f in here if last in (f.owner, f.trait)]
            continue
        all_named = [f for f in here if f.name == last]
        of_owner = [f for f in all_named if owner in (f.owner, f.trait)]
        yield name, of_owner if "::" in name else of_owner or all_named


@functools.cache
def ghosts():
    """The ghost members that each trait declares, which are clauses of what implements it."""
    found = collections.defaultdict(set)
    for path in texts.sources():
        text = texts.code(path)
        for match in re.finditer(r"\btrait\s+(\w+)[^{;]*\{", text):
            block = text[match.end():closing(text, match.end() - 1)]
            found[match[1]] |= set(re.findall(r"\bghost\s+(\w+)\s*[:=]", block))
    return found


def clauses_of(functions):
    """The names of their clauses, with those of the traits that they implement."""
    names = {name for f in functions for kind, name in f.clauses if name} | {f.name for f in functions}
    traits = {f.trait for f in functions if f.trait}
    for f in everywhere() if traits else ():
        if f.declares and f.trait in traits and f.name in names:
            names |= {name for kind, name in f.clauses if name}
    return names.union(*(ghosts()[trait] for trait in traits))


def lint():
    """Each row of a table of promises names a crate, functions of it, and clauses that one of them has.

    A clause is a plain word between commas; what stands behind `:` or in brackets is a part of one, and other words are prose.
    The last column says which program reaches the functions, the server, the page's client, both or neither; that some of them
    aren't reached; or that it is a law.
    """
    for path in sorted((texts.TOP / "docs").glob("PROVED*.md")):
        for line, crates, cell, clause_cell, said in rows(path):
            for crate in crates:
                if crate not in texts.listed():
                    yield texts.shown(path), line, f"there is no crate {crate}"
            functions, groups = [], []
            for name, found in meant(crates, cell):
                functions += found
                groups.append(found)
                if not found and name not in own_types():
                    yield texts.shown(path), line, f"{', '.join(crates)} has no {name}"
            by = reached_by(groups)
            if said != by:
                yield texts.shown(path), line, f"the row is reached by {by}, and says {said or 'nothing'}"
            has = clauses_of(functions)
            for part in re.sub(r"\([^)]*\)", "", clause_cell).split(";"):
                for word in part.partition(":")[0].split(","):
                    word = word.strip().partition(" of ")[0]
                    if PLAIN.fullmatch(word) and word not in has and functions:
                        yield texts.shown(path), line, f"no function of the row has a clause {word}"


@functools.cache
def own_types():
    return {match[1] for path in texts.sources() for match in re.finditer(r"\b(?:struct|enum|trait)\s+(\w+)", texts.code(path))}
