"""Names that nothing names: definitions and lemmas of specs/ and proofs/, functions and types of src/, and crates in crates.txt."""
import collections
import re
from dataclasses import dataclass
from pathlib import Path

from . import texts
from .functions import everywhere
from .reached import is_law, waits

SIGNATURE = re.compile(r"(?P<indent> *)(?:(?:pub|abbrev|unfoldable) +)*(?P<name>[A-Za-z_][\w']*(?:-[\w']+)*) :(?: |$)")
TYPE = re.compile(r"(?P<indent> *)(?:pub +)?(?:record|data) +(?P<name>[A-Za-z_][\w']*)(?![\w'])(?=.*\b(?:where|:)|$)")
FIRST_WORD = re.compile(r" *(?P<name>[A-Za-z_][\w']*(?:-[\w']+)*)(?![\w'-])")
USE = re.compile(r"(?ms)^[ \t]*(?:ghost +)?use +(?P<path>[\w.]+?)(?:\.\{(?P<names>[^}]*)\}|(?: as (?P<alias>[\w◌]+))?);?[ \t]*$")
# Files whose public definitions answer goals: the toolchain names these.
GOALS = ("Answers.antt", "Invariants.antt", "Proof.antt")
GOAL = re.compile(r": goal\.|:\s*$")


@dataclass
class Definition:
    path: Path
    name: str
    first: int  # the index of its first line
    last: int  # and of its last one


def depth(line):
    return len(line) - len(line.lstrip(" "))


def definitions(path):
    """The definitions and lemmas of a file, each with its lines: those of its signature, and its equations down to the last."""
    lines = texts.antt(path).split("\n")
    found = []
    for at, line in enumerate(lines):
        match = SIGNATURE.match(line) or TYPE.match(line)
        if not match or path.name in GOALS and GOAL.search(line) or match.re is TYPE and "=" in line.split("{")[0]:
            continue
        indent, name = len(match["indent"]), match["name"]
        last = at if match.re is TYPE else None
        for place in range(at + 1, len(lines)):
            text = lines[place]
            if not text.strip():
                continue
            if depth(text) > indent:
                last = place if last is not None else None
                continue
            word = FIRST_WORD.match(text)
            is_equation = depth(text) == indent and word and word["name"] == name and not SIGNATURE.match(text)
            if is_equation or last is not None and text.strip()[0] in "})]":
                last = place
            elif last is not None or not text.lstrip().startswith("unfolding "):
                break
        if last is not None:
            found.append(Definition(path, name, at, last))
    return found


def module_of(path):
    return "Rattle." + ".".join(path.relative_to(texts.CRATES).with_suffix("").parts)


def imports(text):
    """What a file brings in: (module, name there, name here), and (module, None, alias)."""
    for match in USE.finditer(text):
        if match["names"] is None:
            yield match["path"], None, match["alias"]
        for word in (match["names"] or "").replace("\n", " ").split(","):
            name, _, here = word.strip().partition(" as ")
            if name:
                yield match["path"], name.strip(), (here or name).strip()


def words(text):
    found = texts.WORD.findall(text)
    return found + [part for word in found if "-" in word for part in word.split("-")]


def dead():
    """Definitions and lemmas that nothing names outside themselves, and those that only such name."""
    left = [definition for path in texts.files(".antt") for definition in definitions(path)]
    lines, counts, importers, pointed = {}, {}, collections.defaultdict(list), collections.Counter()
    for path in texts.files(".antt") + texts.sources():
        text = texts.antt(path) if path.suffix == ".antt" else texts.uncommented(path)
        for module, name, here in imports(text):
            importers[module].append((path, name, here))
        body = USE.sub(lambda match: texts.blank(match.group()), text)
        lines[path], counts[path] = body.split("\n"), collections.Counter(words(body))
        if path.suffix != ".antt":
            pointed.update(re.findall(r"(?:proofs|specs)::(?:\w+::)*([\w']+)", body))
    changed = collections.Counter(word for path, _ in texts.edits() for word in words(texts.read(path)))
    within = collections.defaultdict(list)
    for module in importers:
        parts = module.split(".")
        for count in range(1, len(parts) + 1):
            within[".".join(parts[:count])].append(module)

    def is_named(definition, own):
        if counts[definition.path][definition.name] > own[definition.name] or pointed[definition.name] or changed[definition.name]:
            return True
        return any(
            counts[path][here if name else definition.name]
            for module in within[module_of(definition.path)] for path, name, here in importers[module]
            if name in (definition.name, None) and path != definition.path
        )

    gone, more = [], True
    while more:
        more = False
        for definition in list(left):
            own = collections.Counter(words("\n".join(lines[definition.path][definition.first:definition.last + 1])))
            if not is_named(definition, own):
                gone.append(definition)
                left.remove(definition)
                counts[definition.path] -= own
                more = True
    return sorted(gone, key=lambda definition: (definition.path, definition.first))


def definitions_and_lemmas():
    """Each definition and lemma of specs/ and proofs/ is named outside itself by more than an import: by another, a clause, an edit or a
    `using(..)`. The goals of proofs/FILE/FUNCTION are the toolchain's names and are passed over. What only unnamed ones name is told too.
    A crate on which no program stands yet has lemmas for those above it, and checks/unreached.txt may excuse a file by `crate/File.antt`."""
    reasons, excused = texts.entries("unreached.txt"), set()
    for definition in dead():
        crate = texts.crate_of(definition.path)
        title = f"{crate}/{definition.path.name}"
        excused.add(title)
        if not waits(crate) and title not in reasons:
            yield texts.shown(definition.path), definition.first + 1, f"nothing names {definition.name}"
    for title, (_, place) in reasons.items():
        if title.endswith(".antt") and title not in excused:
            yield *place.split(":"), f"{title} has no name that nothing names: remove this line"


def functions():
    """Each function, type and constant of src/ is named by some other text of src/ than where it is declared; laws are passed over."""
    counts, declared, found = collections.Counter(), collections.Counter(), []
    by_name = {(f.path, f.line): f for f in everywhere()}
    for path in texts.sources():
        text = texts.uncommented(path)
        counts.update(texts.PLAIN_WORD.findall(text))
        for match in re.finditer(r"\b(?:fn|const|static|struct|enum|trait|type)\s+([A-Za-z_]\w+)", texts.code(path)):
            declared[match[1]] += 1
            found.append((path, match.start(1), match[1]))
    for path, place, name in found:
        if counts[name] <= declared[name] and name != "main":
            line = texts.line_at(texts.read(path), place)
            function = by_name.get((path, line))
            if waits(texts.crate_of(path)) or function and function.title in texts.entries("unreached.txt"):
                continue
            if not function or not is_law(function) and "#[test]" not in function.marks:
                yield texts.shown(path), line, f"nothing names {name}"


def dependencies():
    """Each crate that crates.txt gives to another is named somewhere in that one's src/, specs/ or proofs/."""
    named = collections.defaultdict(set)
    for path in texts.sources() + texts.files(".antt"):
        text = texts.antt(path) if path.suffix == ".antt" else texts.uncommented(path)
        named[texts.crate_of(path)].update(texts.PLAIN_WORD.findall(text))
    for crate, (stands_on, number) in texts.listed().items():
        for other in stands_on:
            if other not in named[crate]:
                yield "crates.txt", number, f"{crate} never names {other}"
