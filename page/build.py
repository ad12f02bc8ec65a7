#!/usr/bin/env python3
"""Packs the page into few files, which a browser fetches once: page/build.py [FOLDER]

FOLDER is out/page of the repository if none is given. `--page FOLDER` serves it. In it are

    index.html                    the page itself, which names the others; a browser asks for it at each visit
    icon.SUM.svg
    style.SUM.css.gz              packed by gzip
    page.SUM.js.gz                all modules in one
    page_program.SUM.wasm.gz      the client that guesses ahead, where page/page_program.wasm is built

SUM is of what a file holds, so a browser keeps it for good. The same files give the same bytes. It needs Python 3 alone.
"""
import hashlib
import os
import re
import struct
import sys
import zlib

PAGE = os.path.dirname(os.path.abspath(__file__))
OUT = os.path.join(os.path.dirname(PAGE), "out", "page")
ENTRY, INDEX, STYLE, ICON, PROGRAM = "main.js", "index.html", "style.css", "icon.svg", "page_program.wasm"
# What an earlier run has made in a folder.
MADE = re.compile(r"(?:icon|style|page|page_program)\.[0-9a-f]{16}\.(?:svg|css\.gz|js\.gz|wasm\.gz)")

IMPORT = re.compile(r'import (?P<what>\* as \w+|\w+|\{ [^{}]+ \}) from "(?P<path>\.\.?/[\w./-]+)";')
PASSED_ON = re.compile(r'export \{ (?P<names>[\w, ]+) \} from "(?P<path>\.\.?/[\w./-]+)";')
EXPORT = re.compile(r"export (?P<rest>(?:(?:async )?function|class|const) (?P<name>\w+)\b.*)")
DEFAULT = re.compile(r"export default (?P<rest>.*)")


class Unfit(Exception):
    """A file that this can't pack."""


class Module:
    """A module of the page: its code without comments, in which what it takes from others and gives to them is still to be written."""

    def __init__(self, name, text):
        self.name, self.lines, self.stands_on, self.gives = name, [], [], {}
        for number, line in enumerate(without_comments(name, text), 1):
            try:
                self.add(line)
            except Unfit as why:
                raise Unfit(f"page/{name}: {why}: {line}") from None
            if line.count("`") % 2 or line.endswith("\\"):
                raise Unfit(f"page/{name}: line {number} of its code goes on in the next one: {line}")

    def add(self, line):
        if found := IMPORT.fullmatch(line):
            self.lines.append(f"const {taken(found['what'])} = {self.other(found['path'], wanted(found['what']))};")
        elif found := PASSED_ON.fullmatch(line):
            names = found["names"].split(", ")
            self.lines.append(f"const {{ {found['names']} }} = {self.other(found['path'], names)};")
            self.gives |= {one: one for one in names}
        elif found := DEFAULT.fullmatch(line):
            self.lines.append(f"const $default = {found['rest']}")
            self.gives["default"] = "default: $default"
        elif found := EXPORT.fullmatch(line):
            self.lines.append(found["rest"])
            self.gives[found["name"]] = found["name"]
        elif re.match(r"(?:import|export)\b(?![(.])", line):
            raise Unfit("this form is not known")
        elif re.search(r"\$[A-Za-z_]", line):
            raise Unfit("a name with a dollar may be one of the bundle's")
        else:
            self.lines.append(line)

    def other(self, path, names):
        """What another module gives, of which these names are wanted."""
        name = os.path.normpath(os.path.join(os.path.dirname(self.name), path))
        self.stands_on.append((name, names))
        return called(name)

    def code(self):
        """A call that runs the module and gives what it exports, so that its own names are its own."""
        if not self.gives:
            return "{\n" + "\n".join(self.lines) + "\n}\n"
        return f"const {called(self.name)} = (() => {{\n" + "\n".join(self.lines) + f"\nreturn {{ {', '.join(self.gives.values())} }};\n}})();\n"


def called(name):
    """The name of a module in the bundle."""
    return "$" + re.sub(r"\W", "_", name.removesuffix(".js"))


def taken(what):
    """The names that an import makes, as a `const` has them."""
    if what.startswith("*"):
        return what.removeprefix("* as ")
    return what.replace(" as ", ": ") if what.startswith("{") else f"{{ default: {what} }}"


def wanted(what):
    """The names that an import wants of its module; none of one that takes the module whole."""
    if what.startswith("*"):
        return []
    return [one.split(" as ")[0] for one in what.strip("{ }").split(", ")] if what.startswith("{") else ["default"]


def without_comments(name, text):
    """The lines of code, without the lines that only comment, and without blanks at their ends."""
    text = re.sub(r"(?ms)^[ \t]*/\*.*?\*/[ \t]*$", "", text)
    return [line.strip() for line in text.splitlines() if line.strip() and not line.strip().startswith("//")]


def bundled(files):
    """All modules in one, each behind those that it imports."""
    modules, begun = {}, []

    def put(name):
        if name in begun and name not in modules:
            raise Unfit(f"page/{name} imports itself, by way of others")
        if name in modules:
            return
        if name not in files:
            raise Unfit(f"there is no page/{name}")
        begun.append(name)
        module = Module(name, files[name].decode())
        for other, names in module.stands_on:
            put(other)
            for one in names:
                if one not in modules[other].gives:
                    raise Unfit(f"page/{name} wants {one} of page/{other}, which doesn't give it")
        modules[name] = module

    put(ENTRY)
    left = sorted(name for name in files if name.endswith(".js") and name not in modules)
    if left:
        raise Unfit(f"nothing imports page/{left[0]}")
    return "".join(module.code() for module in modules.values())


def replaced(text, old, new, where):
    """The text with the one place of `old` replaced."""
    if text.count(old) != 1:
        raise Unfit(f"{where} has {old} {text.count(old)} times")
    return text.replace(old, new)


def packed(content):
    """The bytes of a gzip file that says neither when nor where it was made."""
    deflate = zlib.compressobj(9, zlib.DEFLATED, -zlib.MAX_WBITS, 9)
    body = deflate.compress(content) + deflate.flush()
    return b"\x1f\x8b\x08\0\0\0\0\0\x02\xff" + body + struct.pack("<II", zlib.crc32(content), len(content) & 0xFFFFFFFF)


def summed(stem, content, kind):
    """The name of a file with its sum."""
    return f"{stem}.{hashlib.sha256(content).hexdigest()[:16]}.{kind}"


def pack(files):
    """The packed page of these files of page/, both by their names."""
    made, code = {}, bundled(files)
    if PROGRAM in files:
        name = summed("page_program", files[PROGRAM], "wasm")
        made[f"{name}.gz"] = packed(files[PROGRAM])
        code = replaced(code, f'"{PROGRAM}"', f'"{name}"', "the code")
    style = re.sub(r"(?s)/\*.*?\*/", "", files[STYLE].decode())
    style = "\n".join(line.strip() for line in style.splitlines() if line.strip()) + "\n"
    names = {ICON: summed("icon", files[ICON], "svg")}
    made[names[ICON]] = files[ICON]
    for old, stem, content, kind in ((STYLE, "style", style.encode(), "css"), (ENTRY, "page", code.encode(), "js")):
        names[old] = summed(stem, content, kind)
        made[f"{names[old]}.gz"] = packed(content)
    index = re.sub(r'<link rel="modulepreload" [^>]*>\n', "", files[INDEX].decode())
    for old, new in names.items():
        index = replaced(index, f'"{old}"', f'"{new}"', INDEX)
    made[INDEX] = index.encode()
    return made


def sources():
    """The files of page/ that make it up, by their names."""
    found = {}
    for part in ("", "boards/", "table/"):
        for name in sorted(os.listdir(f"{PAGE}/{part}")):
            if name.endswith((".js", ".html", ".css", ".svg", ".wasm")):
                with open(f"{PAGE}/{part}{name}", "rb") as file:
                    found[part + name] = file.read()
    return found


def main(folder=OUT):
    made = pack(sources())
    os.makedirs(folder, exist_ok=True)
    for name in os.listdir(folder):
        if MADE.fullmatch(name) and name not in made:
            os.remove(f"{folder}/{name}")
    # The page itself comes last, so that it never names what isn't there.
    for name in sorted(made, key=lambda one: one == INDEX):
        with open(f"{folder}/{name}.new", "wb") as file:
            file.write(made[name])
        os.replace(f"{folder}/{name}.new", f"{folder}/{name}")
    return made


if __name__ == "__main__":
    if len(sys.argv) > 2 or sys.argv[1:2] and sys.argv[1].startswith("-"):
        sys.exit(__doc__)
    try:
        for one, held in sorted(main(*sys.argv[1:]).items()):
            print(f"{one} {len(held)} bytes")
    except Unfit as why:
        sys.exit(f"build.py: {why}")
