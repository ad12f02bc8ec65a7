"""What the programs reach: a graph of calls by name, from the two `main`s over the crates that they stand on."""
import collections
import functools
import re

from . import texts
from .functions import everywhere, parts

PROGRAMS = ("board_server", "page_program")
CALL = re.compile(r"(?P<before>\.|(?:\b(?P<owner>\w+)(?:::<[^()]*?>|<[^()]*?>)?::)|)(?P<name>\b[a-z_]\w*)(?P<opens>\s*(?:::<[^;{}]*?>)?\()?")
TYPE_WORD = re.compile(r"\b[A-Z]\w*")


def is_beside(crate):
    """Tests and cases are no part of the program."""
    return crate.startswith("test_") or crate.endswith("_cases") or crate == "case_rows"


def is_law(function):
    """A law does nothing: it has no parameters that live as it runs, answers nothing, and calls nothing but laws."""
    return function.body is not None and not function.result and not any("&mut" in p or "self" in p for p in function.parameters) and not re.search(
        r"\b(?:for|while|if|match|let mut)\b|[\w)]\?|println!", function.body)


@functools.cache
def reached(tests=False, programs=PROGRAMS):
    """The functions that these programs reach, or also those that tests, cases and laws reach.

    A name in a body stands for each function of that name that the body's crate can see: `x.name(..)` for methods,
    `Type::name` for those of the type, of a trait, or of what a type parameter stands for, a bare `name` for free functions.
    A method of a trait of the repository is reached in every impl once it is reached in one or in the trait;
    an impl of a trait of the kit is reached with its type.
    A method counts only once a reached function outside its type names the type: who never names it has no value of it.
    """
    everything = [*texts.listed(), *texts.listed("checks/tests/tests.txt")]
    roots = [crate for crate in everything if tests or crate in programs]
    inside = frozenset().union(*(texts.below(crate) for crate in roots))
    functions = [f for f in everywhere() if f.crate in inside]
    by_name = collections.defaultdict(list)
    for f in functions:
        by_name[f.name].append(f)
    types = {f.owner for f in functions if f.owner} - set(aliases())
    found, named, parked = {}, set(), collections.defaultdict(list)
    waits = [
        f for f in functions
        if f.name == "main" and f.crate in roots or f.trait and f.trait not in own_traits() or tests and ("#[test]" in f.marks or is_law(f))
    ]
    while waits:
        f = waits.pop()
        if id(f) in found:
            continue
        if f.owner in own_types() and f.owner not in named and not f.declares:
            parked[f.owner].append(f)
            continue
        found[id(f)] = f
        text = texts.uncommented(f.path)[f.first:f.last]
        for word in set(TYPE_WORD.findall(text)) - {f.owner}:
            for name in aliases().get(word, {word}):
                named.add(name)
                waits += parked.pop(name, ())
        waits += called(f, text, by_name, types) if f.body else ()
        if f.trait in own_traits():
            waits += [other for other in by_name[f.name] if other.trait == f.trait]
    return found


@functools.cache
def own_types():
    return {match[1] for path in texts.sources() for match in re.finditer(r"\b(?:struct|enum)\s+(\w+)", texts.code(path))}


@functools.cache
def own_traits():
    return {match[1] for path in texts.sources() for match in re.finditer(r"\btrait\s+(\w+)", texts.code(path))}


@functools.cache
def aliases():
    """Names that stand for types: each with the words of what it stands for."""
    found = collections.defaultdict(set)
    for path in texts.sources():
        for match in re.finditer(r"(?m)^(?:pub(?:\([^)]*\))? )?type (\w+)([^;]*);", texts.code(path)):
            found[match[1]] |= set(TYPE_WORD.findall(match[2])) | {match[1]}
    return found


USE = re.compile(r"(?m)^[ \t]*(?:pub(?:\([^)]*\))? )?use ([^;]+);")


def flat(text):
    """The paths of a `use`: `a::{b, c::d}` is `a::b` and `a::c::d`."""
    before, brace, rest = text.partition("{")
    if not brace:
        return [text.strip()]
    return [before.strip() + path for part in parts(rest.rpartition("}")[0]) for path in flat(part)]


@functools.cache
def brought(path):
    """The names that a file brings in: each with the crate that it comes from, and its name there."""
    found = {}
    for match in USE.finditer(texts.code(path)):
        for item in flat(match[1]):
            whole, _, here = item.partition(" as ")
            words = whole.split("::")
            crate = texts.crate_of(path) if words[0] in ("crate", "self", "super") else words[0]
            found[here.strip() or words[-1].strip()] = crate, words[-1].strip()
    return found


def called(function, text, by_name, types):
    """The functions that a body may mean by its names."""
    sees = texts.below(function.crate)
    names = brought(function.path)
    for match in CALL.finditer(text):
        name, owner = match["name"], match["owner"]
        if match["before"] == ".":
            if match["opens"]:
                yield from (f for f in by_name[name] if f.owner and (f.crate in sees or f.trait))
        elif owner and owner[0].isupper():
            owner = function.owner if owner == "Self" else names.get(owner, ("", owner))[1]
            yield from (f for f in by_name[name] if f.owner and (owner not in types or owner in (f.owner, f.trait)) and (f.crate in sees or f.trait))
        else:
            crate, there = names.get(owner or name, (owner if owner in texts.listed() else "", name))
            free = [f for f in by_name[name if owner else there] if not f.owner and f.crate in sees]
            near = [] if owner else [f for f in free if f.path == function.path]
            yield from near or [f for f in free if f.crate == crate] or (free if match["opens"] else ())


def unreached():
    """Public functions that the programs don't reach, and all that tests, cases and laws don't reach either: (function, whether nothing calls it).

    Of a method of a trait of the repository the trait's own declaration is told, once.
    """
    by_program, by_anything = reached(), reached(True)
    for f in everywhere():
        if is_law(f) or is_beside(f.crate) or f.trait in own_traits() and not f.declares:
            continue
        if id(f) not in by_anything:
            yield f, True
        elif f.public and id(f) not in by_program:
            yield f, False


def waits(crate):
    """Whether checks/unreached.txt says of a whole crate, as `crate::*`, that no program stands on it yet."""
    return f"{crate}::*" in texts.entries("unreached.txt")


def lint():
    """Each public function is reached from `board_server` or `page_program`, and each other one by tests or cases at least,
    or it stands in checks/unreached.txt with a reason, or its whole crate does, as long as no program stands on that."""
    reasons = texts.entries("unreached.txt")
    titles = set()
    below = frozenset().union(*({program, *texts.below(program)} for program in PROGRAMS))
    for f, is_dead in unreached():
        if waits(f.crate):
            continue
        titles.add(f.title)
        if f.title not in reasons:
            who = "nothing calls" if is_dead else "no program reaches"
            yield texts.shown(f.path), f.line, f"{who} {f.title}: remove it, or give checks/unreached.txt a reason"
    known = {f.title for f in everywhere()}
    for title, (reason, place) in reasons.items():
        if title.endswith("::*"):
            crate = title.removesuffix("::*")
            if crate in below or crate not in texts.listed():
                yield *place.split(":"), f"{crate} is {'below a program now' if crate in below else 'gone'}: remove this line"
        elif "::" in title and title not in titles:
            yield *place.split(":"), f"{title} is {'reached now' if title in known else 'gone'}: remove this line"
        if not reason:
            yield *place.split(":"), f"{title} has no reason"
