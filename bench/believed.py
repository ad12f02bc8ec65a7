#!/usr/bin/env python3
"""Counts what a reader of some definitions has to believe: follows every name in them through all `specs/`, and counts the lines of the definitions
that are reached, without comments, blank lines and `use` lines. Types that are declared in code, and the definitions of the kit, are not counted.

  believed.py                 of the clauses of `run`
  believed.py NAME ..         of these definitions, as `world_script.specs.WorldPlay.world_play`
"""
import re
import sys
from pathlib import Path

CRATES = Path(__file__).resolve().parent.parent / "crates"
OF_RUN = ["board_commands.specs.Run." + name for name in ("RunsAs", "IfUnread", "IfNothing", "Stream")] + ["board_commands.specs.Words.command_of"]
HEAD = re.compile(r"(?:(?:abbrev|unfoldable|pub) )*(?:(data|record) )?([^\s({:]+)[^=]*?:(?:\s|$)")
WORD = re.compile(r"[^\s(){}\[\],;]+")


def without_comment(line):
    return line.split("--", 1)[0].rstrip()


class Module:
    """A file of specs: its definitions, each with its lines, the constructors of its types, and what its `use` lines bring."""

    def __init__(self, path):
        self.lines, self.makers, self.brought, self.aliases = {}, {}, {}, {}
        scopes, name, kind = [], None, None
        for line in map(without_comment, path.read_text().split("\n")):
            text, depth = line.strip(), len(line) - len(line.lstrip())
            if not text or text.startswith("pub mod "):
                continue
            if re.match(r"(pub )?use ", text):
                self.use(text.split("use ", 1)[1])
                continue
            while scopes and depth <= scopes[-1][0]:
                scopes.pop()
            if text.startswith("module "):
                scopes.append((depth, text))
                continue
            if depth <= (scopes[-1][0] + 2 if scopes else 0):
                head, first = HEAD.match(text), WORD.match(text)
                if head and head.group(2) not in self.lines:
                    kind, name = head.groups()
                    self.lines[name] = [scope for _, scope in scopes], []
                elif first and first.group() in self.lines:
                    name = first.group()
            elif kind == "data" and name:
                member = re.match(r"(?:pub )?(\S+)\s*:", text)
                if member:
                    self.makers[member.group(1)] = name
            if name:
                self.lines[name][1].append(text)

    def use(self, what):
        listed = re.match(r"(\S+?)\.\{(.*)\}$", what)
        if listed:
            for one in listed.group(2).split(","):
                name, _, other = one.strip().partition(" as ")
                self.brought[other or name] = listed.group(1).removeprefix("Rattle."), name
        elif " as " in what:
            whole, _, alias = what.partition(" as ")
            self.aliases[alias] = whole.removeprefix("Rattle.")


def named_in(text):
    """The names that a line has, those that it binds too; of a name with dots its first part, and its first two together."""
    for word in WORD.findall(re.sub(r"\b\w+ = ", " = ", text) if "record" in text else text):
        first, _, rest = word.partition(".")
        if rest:
            yield first, rest.split(".")[0]
        yield first, None


def main():
    modules = {".".join(path.relative_to(CRATES).with_suffix("").parts): Module(path) for path in CRATES.glob("*/specs/**/*.antt")}

    def found(module, name, depth=0):
        if module not in modules:
            above, _, type_name = module.rpartition(".")
            return (above, type_name) if above in modules and type_name in modules[above].lines else None
        here = modules[module]
        if name in here.lines:
            return module, name
        if name in here.makers:
            return module, here.makers[name]
        return found(*here.brought[name], depth + 1) if name in here.brought and depth < 8 else None

    def cited(module, name):
        here = modules[module]
        scopes, lines = here.lines[name]
        words = set()
        for text in scopes + lines:
            words.update(named_in(text))
        plain = {first for first, rest in words if rest is None}
        for first, rest in words:
            yield found(here.aliases[first], rest) if rest and first in here.aliases else found(module, first) if rest is None else None
        for known in list(here.brought) + list(here.lines):
            parts = [part for part in known.split("◌") if part]
            if "◌" in known and parts and all(part in plain for part in parts):
                yield found(module, known)

    todo = [tuple(name.rsplit(".", 1)) for name in sys.argv[1:] or OF_RUN]
    reached = set()
    while todo:
        one = todo.pop()
        if one and one not in reached:
            reached.add(one)
            todo.extend(cited(*one))
    counts = {}
    for module, name in reached:
        crate = counts.setdefault(module.split(".")[0], [0, 0])
        crate[0] += 1
        crate[1] += len(modules[module].lines[name][1])
    for crate, (definitions, lines) in sorted(counts.items(), key=lambda row: -row[1][1]):
        print(f"{lines:6} lines {definitions:5} definitions  {crate}")
    print(f"{sum(c[1] for c in counts.values()):6} lines {len(reached):5} definitions")


main()
