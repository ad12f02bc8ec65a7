"""The documents against the tree: links, lists of games, names of crates, the version, and the files of the page."""
import re

from . import texts

LINK = re.compile(r"(?<!\\)\[(?:[^\]\[]|\[[^\]]*\])*\]\((?P<to>[^)\s]+)\)")
QUOTED = re.compile(r'"([a-z][a-z-]*)"')


def pages():
    return [path for path in texts.under(texts.TOP, ".md")]


def prose(path):
    """A page's lines, those between fences left blank."""
    inside, found = False, []
    for line in texts.read(path).splitlines():
        fence = line.lstrip(" >").startswith("```")
        found.append("" if inside or fence else line)
        inside = inside != fence
    return found


def anchors(path):
    """The anchors of a page's headings, as sites make them: small letters, hyphens for blanks, no other signs."""
    found = set()
    for line in prose(path):
        if re.match(r"#+ ", line):
            slug = re.sub(r"[^\w\- ]", "", re.sub(r"^#+ ", "", line).strip().lower()).replace(" ", "-")
            while slug in found:
                slug += "-1"
            found.add(slug)
    return found


def links():
    """Each relative link of a page leads to a file or folder that is there, and its anchor to a heading."""
    for path in pages():
        for number, line in enumerate(prose(path), 1):
            for match in LINK.finditer(re.sub(r"`[^`]*`", lambda code: "`" * len(code.group()), line)):
                to, _, anchor = match["to"].partition("#")
                if re.match(r"[a-z]+:", to):
                    continue
                target = (path.parent / to).resolve() if to else path
                if not target.exists():
                    yield texts.shown(path), number, f"{match['to']} leads nowhere"
                elif anchor and target.suffix == ".md" and anchor not in anchors(target):
                    yield texts.shown(path), number, f"{match['to']}: no heading makes this anchor"


def lists_of_games():
    """Where all games are listed: (what, file, line, the names there)."""
    def lines(name):
        path = texts.TOP / name
        return list(enumerate(texts.read(path).splitlines(), 1)) if path.exists() else []

    def within(name, begins, ends):
        inside, first, found = False, 0, []
        for number, line in lines(name):
            if re.search(begins, line) and not inside:
                inside, first = True, number
            elif inside and re.search(ends, line):
                break
            found += [line] if inside else []
        return first, "\n".join(found)

    for what, name, begins, ends in (
        ("all_names", "crates/any_game/specs/Names.antt", r"^all_names =", r"^\s*$"),
        ("may_open", "crates/any_game/src/names.rt", r"fn may_open", r"^}"),
        ("by_name", "crates/any_game/src/choice.rt", r"fn by_name", r"^}"),
        ("the boards", "page/boards/index.js", r"^const known", r"^};"),
        ("the answer to `games`", "docs/PROTOCOL.md", r'"games":\[', r"^```"),
    ):
        first, text = within(name, begins, ends)
        yield what, name, first, [word for word in QUOTED.findall(text) if word not in ("games", "type")]
    for what, name, begins in (("its games", "README.md", r"plays these games:"),):
        first, text = within(name, begins, r"^[A-Z]")
        yield what, name, first, [word.lower().replace(" ", "-") for word in re.split(r", | and |\.", text.partition(":")[2].replace("\n", "")) if word]
    first, text = within("docs/RULES.md", r"^## The games", r"^## (?!The games)")
    yield "its headings", "docs/RULES.md", first, [title.lower().replace(" ", "-") for title in re.findall(r"(?m)^### (.*)$", text)]
    table, begin = [], 0
    for number, line in lines("docs/PROTOCOL.md") + [(0, "")]:
        cell = re.match(r"\| `([a-z-]+)` \|", line)
        if cell:
            begin, table = begin or number, table + [cell[1]]
        elif table and not line.startswith("|"):
            if set(table) & set(games()):
                yield "a table of games", "docs/PROTOCOL.md", begin, table
            table, begin = [], 0
    for folder in ("bench", "checks"):
        for path in sorted((texts.TOP / folder).glob("*.py")):
            text = texts.read(path)
            place = re.search(r"(?m)^GAMES = ", text)
            if place:
                rows = re.findall(r"(?m)^(?:GAMES|WORDLESS) = .*$", text)
                yield "GAMES", texts.shown(path), texts.line_at(text, place.start()), QUOTED.findall("\n".join(rows))
    yield "the page's files", "page/index.html", 1, [
        name for name in re.findall(r'"boards/([a-z-]+)\.js"', texts.read(texts.TOP / "page/index.html")) if name in games()
    ]


def games():
    """The games that the program plays, as `game_names` of any_game lists them."""
    text = texts.read(texts.CRATES / "any_game/src/names.rt")
    return QUOTED.findall(text[text.index("fn game_names"):].partition("];")[0])


def same_games():
    """The lists of games agree with `game_names`: definitions and code of any_game, the page's boards and files, README's sentence,
    RULES' headings, PROTOCOL's answer and tables, and the `GAMES` of the scripts that play each game."""
    for what, name, line, found in lists_of_games():
        for game in sorted(set(games()) - set(found)):
            yield name, line, f"{what}: {game} is missing"
        for game in sorted(set(found) - set(games())):
            yield name, line, f"{what}: no game is named {game}"


DESCRIBED = re.compile(r"\]\((?P<to>[^)\s]*games/[a-z-]+\.toml)\):?\s*$")


def descriptions():
    """A description that a page shows whole, in a fence `toml` behind a line that ends with a link to its file, is that file;
    and the table of games/README.md has each file of games/, and no other."""
    for path in pages():
        lines = texts.read(path).splitlines()
        for number, line in enumerate(lines, 1):
            match = DESCRIBED.search(line)
            if match and lines[number:number + 2] == ["", "```toml"]:
                shown = lines[number + 2:]
                shown = shown[:shown.index("```")] if "```" in shown else shown
                file = (path.parent / match["to"]).resolve()
                if file.exists() and shown != texts.read(file).splitlines():
                    yield texts.shown(path), number, f"{match['to']} is another one than the page shows"
    readme = texts.TOP / "games/README.md"
    if readme.exists():
        rows = {match[1]: number for number, line in enumerate(texts.read(readme).splitlines(), 1)
                for match in [re.match(r"\| \[([a-z-]+)\]\(\1\.toml\) \|", line)] if match}
        files = {path.stem for path in texts.under(texts.TOP / "games", ".toml")}
        for name in sorted(files - set(rows)):
            yield texts.shown(readme), 1, f"no row for {name}"
        for name in sorted(set(rows) - files):
            yield texts.shown(readme), rows[name], f"there is no {name}.toml"


def errors_of_descriptions():
    """Each error of a description has a row in docs/LANGUAGE.md, under "Errors", and a description in checks/refused/ that it refuses."""
    source, page, folder = texts.CRATES / "game_syntax/src/fault_name.rt", texts.TOP / "docs/LANGUAGE.md", texts.TOP / "checks/refused"
    names = set(re.findall(r'=> "([a-z-]+)"', texts.read(source)))
    lines = texts.read(page).splitlines()
    begin = lines.index("## Errors") + 1
    rows = {}
    for number, line in enumerate(lines[begin:], begin + 1):
        match = re.match(r"\| `([a-z-]+)` \|", line)
        if match:
            rows[match[1]] = number
        if line.startswith("## "):
            break
    files = {path.stem for path in texts.under(folder, ".toml")}
    for name in sorted(names - set(rows)):
        yield texts.shown(page), begin, f"no row for the error {name}"
    for name in sorted(set(rows) - names):
        yield texts.shown(page), rows[name], f"no error is named {name}"
    for name in sorted(names - files):
        yield texts.shown(folder), 1, f"no description that {name} refuses"
    for name in sorted(files - names):
        yield texts.shown(folder / f"{name}.toml"), 1, f"no error is named {name}"


def names_of_crates():
    """crates.txt, the folders of crates/ and crates/README.md have the same crates; each `use` names a crate that crates.txt gives it,
    and each path `crates/NAME` of a page, a script or the Makefile is there."""
    listed = texts.listed()
    for crate, (_, number) in listed.items():
        if not (texts.CRATES / crate).is_dir():
            yield "crates.txt", number, f"there is no folder crates/{crate}"
    for folder in sorted(texts.CRATES.iterdir()):
        if folder.is_dir() and (folder / "src").is_dir() and folder.name not in listed:
            yield texts.shown(folder), 1, "crates.txt doesn't list it"
    readme = texts.CRATES / "README.md"
    rows = {}
    for number, line in enumerate(texts.read(readme).splitlines(), 1):
        for name in re.findall(r"\[`(\w+)`\]\(\w+\)", line):
            rows[name] = number
    for name in sorted(set(listed) - set(rows)):
        yield texts.shown(readme), 1, f"no row for {name}"
    for name in sorted(set(rows) - set(listed)):
        yield texts.shown(readme), rows[name], f"crates.txt has no {name}"
    for path in texts.sources():
        own = {texts.crate_of(path), "crate", "self", "super", "std", "core", "alloc"} | set(texts.stands_on(texts.crate_of(path)))
        modules = set(re.findall(r"(?m)^\s*(?:pub(?:\([^)]*\))? )?mod (\w+)", texts.code(path)))
        for match in re.finditer(r"(?m)^(?:pub )?use ([a-z]\w*)::", texts.code(path)):
            if match[1] not in own | modules:
                yield texts.shown(path), texts.line_at(texts.code(path), match.start()), f"uses {match[1]}, which crates.txt doesn't give it"
    scripts = pages() + [texts.TOP / "Makefile"] + [p for folder in ("bench", "checks", "page", ".ci") for s in (".py", ".sh", ".mjs", "run")
                                                     for p in texts.under(texts.TOP / folder, s)]
    for path in scripts:
        for number, line in enumerate(texts.read(path).splitlines(), 1):
            for name in re.findall(r"\bcrates/([a-z]\w*)\b(?![.*])", line):
                if name not in listed and not (texts.CRATES / name).exists():
                    yield texts.shown(path), number, f"there is no crates/{name}"


def versions():
    """Wherever the version is said it is that of VERSION: the program's line for `--version`, the newest heading of CHANGELOG.md,
    and the package of the JavaScript client, which has a third number behind it."""
    version = texts.read(texts.TOP / "VERSION").strip()
    for name, pattern in (
        ("crates/board_commands/src/page.rt", r'(?m)^pub const VERSION: &str = "board_server (\S+)\\n";$'),
        ("CHANGELOG.md", r"(?m)^## ([^\s,]+)"),
        ("clients/js/package.json", r'(?m)^  "version": "(\d+\.\d+)\.\d+",$'),
    ):
        text = texts.read(texts.TOP / name)
        said = re.search(pattern, text)
        if not said:
            yield name, 1, "no version is found here"
        elif said[1] != version:
            yield name, texts.line_at(text, said.start()), f"the version is {said[1]} here, and {version} in VERSION"


def files_of_the_page():
    """page/index.html names each file of page/, page/boards and page/table, and no other; a server hands out no further folder, but for tests, hints and
    what makes WebAssembly there is none."""
    name = "page/index.html"
    text = texts.read(texts.TOP / name)
    page = texts.TOP / "page"
    named = set(re.findall(r'(?:href|src)="([^"#]+\.[a-z]+)"', text))
    there = {str(path.relative_to(page)) for suffix in (".js", ".css", ".svg") for path in texts.under(page, suffix)}
    for file in sorted(there - named):
        yield name, 1, f"it doesn't name page/{file}"
    for file in sorted(named - there):
        yield name, texts.line_at(text, text.index(f'"{file}"')), f"there is no page/{file}"
    for file in sorted(there):
        if "/" in file.removeprefix("boards/").removeprefix("table/"):
            yield f"page/{file}", 1, "a server hands out the files of page/, page/boards and page/table alone"


def same_client():
    """The page's client, page/sarpuntxe.js, is that of clients/js, byte for byte: a page is served from one folder."""
    one, other = texts.TOP / "clients/js/sarpuntxe.mjs", texts.TOP / "page/sarpuntxe.js"
    if other.is_symlink() or one.read_bytes() != other.read_bytes():
        yield texts.shown(other), 1, "it isn't a copy of clients/js/sarpuntxe.mjs"
