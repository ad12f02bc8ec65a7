"""The edits that the prover must refuse: where they stand, and whether the program has what they change."""
from . import texts
from .functions import in_file
from .reached import is_beside, is_law, reached, waits


def pairs(path):
    """The pairs of an edit: (line, file, old, new)."""
    found, file, old = [], "", ""
    for number, line in enumerate(texts.read(path).splitlines(), 1):
        word, _, rest = line.partition(": ")
        if word == "file":
            file = rest.strip()
        elif word == "old":
            old, place = rest, number
        elif word == "new":
            found.append((place, file, old, rest))
    return found


def lint():
    """Each edit names a file of its crate, its old text stands there once, and some function that it changes is reached by the
    program or a law: what is refused in code that nothing runs tells nothing. checks/unreached.txt may excuse one by `crate/name.edit`."""
    reasons = texts.entries("unreached.txt")
    there = reached()
    named = set()
    for path, crate in texts.edits():
        title = f"{crate}/{path.name}"
        changed, runs = {}, False
        if not pairs(path):
            yield texts.shown(path), 1, "no `file:`, `old:` and `new:`"
        for line, file, old, new in pairs(path):
            source = texts.CRATES / crate / file
            if not source.exists():
                yield texts.shown(path), line, f"{crate} has no {file}"
                break
            text = changed.get(source, texts.read(source))
            if text.count(old) != 1:
                yield texts.shown(path), line, f"its old text stands {text.count(old)} times in {file}"
                break
            place = text.index(old)
            changed[source] = text.replace(old, new)
            row = texts.line_at(text, place)
            around = [f for f in in_file(source) if f.line <= row <= texts.line_at(texts.read(source), f.last)]
            runs = runs or not around or any(id(f) in there or is_law(f) for f in match(around))
        else:
            if pairs(path) and not runs and not is_beside(crate) and not waits(crate):
                named.add(title)
                if title not in reasons:
                    yield texts.shown(path), 1, "changes only what no program reaches: let it change what runs"
    for title, (reason, place) in reasons.items():
        if title.endswith(".edit") and title not in named:
            yield *place.split(":"), f"{title} is gone, or what it changes is reached: remove this line"


def match(functions):
    """The same functions as the graph has them."""
    from .functions import everywhere
    lines = {(f.path, f.line) for f in functions}
    return [f for f in everywhere() if (f.path, f.line) in lines]
