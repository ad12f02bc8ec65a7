"""Long heads and wide clauses: what a reader has to hold at once. Both have lists of what there is today, which may only shrink."""
import collections

from . import texts
from .functions import everywhere
from .reached import own_traits

MOST_PARAMETERS = 8
MOST_CLAUSES = 8
MOST_COLUMNS = 160


def long_heads():
    """No function has more than 8 parameters or more than 8 clauses but those of checks/long_heads.txt, with no more than it says there.

    A method that implements a trait of the repository has the trait's head, which counts once, in the trait.
    """
    budget = texts.entries("long_heads.txt")
    found = {}
    for f in everywhere():
        size = len(f.parameters), len(f.clauses)
        if (size[0] > MOST_PARAMETERS or size[1] > MOST_CLAUSES) and (f.declares or f.trait not in own_traits()):
            most = found.get(f.title, (0, 0, f))
            found[f.title] = max(most[0], size[0]), max(most[1], size[1]), f
    for title, (parameters, clauses, f) in sorted(found.items()):
        has = [int(word) for word in budget.get(title, ("0 0", ""))[0].split()]
        if has == [0, 0]:
            yield texts.shown(f.path), f.line, f"{title} has {parameters} parameters and {clauses} clauses: at most 8 and 8"
        elif parameters > has[0] or clauses > has[1]:
            yield texts.shown(f.path), f.line, f"{title} has {parameters} parameters and {clauses} clauses, and had {has[0]} and {has[1]}"
        elif [parameters, clauses] != has:
            yield *budget[title][1].split(":"), f"{title} has {parameters} parameters and {clauses} clauses now: write that here"
    for title, (_, place) in budget.items():
        if title not in found:
            yield *place.split(":"), f"{title} is gone or short now: remove this line"


def wide_counts():
    """How many lines above 160 columns each crate has in specs/, comments not counted, with the first of them."""
    counts, first = collections.Counter(), {}
    for path in texts.files(".antt"):
        if path.relative_to(texts.CRATES).parts[1] == "specs":
            for number, line in enumerate(texts.read(path).splitlines(), 1):
                if len(line) > MOST_COLUMNS and not line.startswith("use "):
                    counts[texts.crate_of(path)] += 1
                    first.setdefault(texts.crate_of(path), (texts.shown(path), number))
    return counts, first


def wide():
    """No crate has more lines above 160 columns in specs/ than checks/wide.txt says, nor fewer: then its number is lowered."""
    budget = texts.entries("wide.txt")
    counts, first = wide_counts()
    for crate, count in sorted(counts.items()):
        most = int(budget.get(crate, ("0", ""))[0])
        if count > most:
            yield *first[crate], f"{crate} has {count} lines above {MOST_COLUMNS} columns in specs/, and checks/wide.txt allows {most}: the first is here"
    for crate, (most, place) in budget.items():
        if counts[crate] < int(most):
            what = "lower its number" if counts[crate] else "remove this line"
            yield *place.split(":"), f"{crate} has {counts[crate]} wide lines in specs/ now: {what}"
