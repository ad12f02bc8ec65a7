"""The functions of src/: whose they are, their parameters, clauses and bodies, found by a scanner that knows comments and texts."""
import functools
import re
from dataclasses import dataclass, field
from pathlib import Path

from . import texts

FUNCTION = re.compile(r"(?m)^[ \t]*(?P<before>(?:pub(?:\([^)]*\))?\s+)?(?:const\s+|unsafe\s+|ghost\s+)*)fn\s+(?P<name>\w+)")
BLOCK = re.compile(r"(?m)^[ \t]*(?:pub(?:\([^)]*\))?\s+)?(?:unsafe\s+)?(?P<kind>impl|trait)\b(?P<head>[^{;]*)\{")
CLAUSE = re.compile(r"\b(?P<kind>requires|ensures|sure|decreases|raises|may)\s*(?P<name>\w+)?\s*$")
CLOSES = {"(": ")", "[": "]", "{": "}"}


@dataclass
class Function:
    path: Path
    line: int
    name: str
    public: bool
    owner: str  # the type or trait in whose block it stands, or ""
    trait: str  # the trait that the block implements or declares, or ""
    declares: bool  # it stands in the trait itself
    parameters: list
    result: str
    clauses: list  # (kind, name or None)
    body: str
    first: int  # places in the file
    last: int
    marks: str
    children: list = field(default_factory=list)

    @property
    def crate(self):
        return texts.crate_of(self.path)

    @property
    def title(self):
        return f"{self.crate}::{self.owner + '::' if self.owner else ''}{self.name}"


def closing(text, place):
    """Where the bracket at a place is closed."""
    depth, opens, closes = 0, text[place], CLOSES[text[place]]
    for match in re.compile(re.escape(opens) + "|" + re.escape(closes)).finditer(text, place):
        depth += 1 if match.group() == opens else -1
        if depth == 0:
            return match.start()
    return len(text) - 1


def past_angles(text, place):
    """Past the `<..>` that begins at a place, in which `->` and `=>` close nothing."""
    depth = 0
    while place < len(text):
        if text[place] == "<":
            depth += 1
        elif text[place] == ">" and text[place - 1] not in "-=":
            depth -= 1
            if depth == 0:
                return place + 1
        place += 1
    return place


def parts(text):
    """The parts between the commas that stand in no bracket."""
    depth, found, begin = 0, [], 0
    for place, sign in enumerate(text):
        if sign in "([{<":
            depth += 1
        elif sign in ")]}" or sign == ">" and text[place - 1] not in "-=":
            depth -= 1
        elif sign == "," and depth == 0:
            found.append(text[begin:place])
            begin = place + 1
    return [part.strip() for part in found + [text[begin:]] if part.strip()]


def first_name(text):
    """The name of a type, without what stands around and behind it: `Bench` of `&mut bench::Bench<B>`."""
    text = re.sub(r"^(?:\s|&|mut\b|dyn\b|'\w+)+", "", text)
    match = re.match(r"\w+(?:::\w+)*", text)
    return match.group().split("::")[-1] if match else ""


def blocks(text):
    """The impl and trait blocks of a file: (first, last, owner, trait, whether it is the trait)."""
    found = []
    for match in BLOCK.finditer(text):
        head = match["head"]
        if head.startswith("<"):
            head = head[past_angles(head, 0):]
        last = closing(text, match.end() - 1)
        head = re.split(r"\bwhere\b", head)[0].strip()
        if match["kind"] == "trait":
            found.append((match.start(), last, first_name(head), first_name(head), True))
        else:
            trait, _, owner = head.rpartition(" for ")
            found.append((match.start(), last, first_name(owner), first_name(trait), False))
    return found


def in_file(path):
    text = texts.code(path)
    around = blocks(text)
    found = []
    for match in FUNCTION.finditer(text):
        place = match.end()
        if text[place] == "<":
            place = past_angles(text, place)
        opens = text.index("(", place)
        closes = closing(text, opens)
        place, clauses, body, begin = closes + 1, [], "", None
        result = re.match(r"\s*->\s*([^{;]*?)(?=\s+(?:requires|ensures|sure|decreases|raises|may|where)\b|\s*[{;])", text[place:])
        while place < len(text) and text[place] != ";":
            if text[place] in "([":
                place = closing(text, place)
            elif text[place] == "{":
                end = closing(text, place)
                clause = CLAUSE.search(text, max(0, place - 120), place)
                if not clause:
                    begin, body, place = place, text[place + 1:end], end
                    break
                clauses.append((clause["kind"], clause["name"]))
                place = end
            place += 1
        block = next((b for b in reversed(around) if b[0] < match.start() < b[1]), None)
        marks = re.search(r"((?:^[ \t]*(?:#\[[^\n]*)?\n)*)\Z", text[:match.start()], re.M)
        found.append(Function(
            path, texts.line_at(text, match.start("name")), match["name"], match["before"].startswith("pub"),
            block[2] if block else "", block[3] if block else "", bool(block and block[4]), parts(text[opens + 1:closes]),
            result[1].strip() if result else "", clauses, body if begin is not None else None, match.start(), place,
            marks[1].strip() if marks else "",
        ))
    return found


@functools.cache
def everywhere():
    return [function for path in texts.sources() for function in in_file(path)]
