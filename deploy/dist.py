#!/usr/bin/env python3
"""Makes the release of the version in VERSION: an archive, a Debian package, and their checksums, in out/dist.

    deploy/dist.py                    of the program that `make program` proved and built, and the page with its client, if `make page` made it
    deploy/dist.py --unproved FILE    of another program, to try this script; the names and BUILD then say so

Two runs over one commit and one program make the same bytes: files are sorted, all times are the commit's, all owners are root.
It takes the committed files alone, and packs the page. It needs git, rt and dpkg-deb.
"""
import gzip
import hashlib
import io
import os
import re
import subprocess
import sys
import tarfile
import tempfile

TOP = os.path.dirname(os.path.dirname(os.path.abspath(__file__)))
sys.path.insert(0, f"{TOP}/page")
import build  # noqa: E402

OUT = f"{TOP}/out/dist"
PROGRAM = f"{TOP}/crates/board_server/out/board_server"
WASM = "page_program.wasm"
# What of the committed files is in a release.
FOLDERS = ("clients/", "deploy/", "docs/", "examples/", "page/")
FILES = ("README.md", "CHANGELOG.md", "SECURITY.md", "LICENSE", "VERSION")
LEFT_OUT = ("page/test/", "page/wasm/", "page/build.py", "deploy/dist.py", "deploy/try_dist.py", "clients/check_lines.py")


def said(*words):
    return subprocess.run(words, cwd=TOP, check=True, capture_output=True, text=True).stdout.strip()


def content(path):
    with open(path, "rb") as file:
        return file.read()


def committed():
    """The files of a release as they are committed, by name."""
    names = [name for name in said("git", "ls-files").splitlines() if name.startswith(FOLDERS) or name in FILES]
    changed = said("git", "status", "--porcelain", "--untracked-files=no")
    if changed:
        sys.exit(f"dist.py: these files are changed and not committed:\n{changed}")
    return {name: content(f"{TOP}/{name}") for name in names if not name.startswith(LEFT_OUT)}


def packed(files):
    """The same files, the page packed, with the client that guesses ahead where it was made."""
    page = {name.removeprefix("page/"): held for name, held in files.items() if name.startswith("page/")}
    if os.path.isfile(f"{TOP}/page/{WASM}"):
        page[WASM] = content(f"{TOP}/page/{WASM}")
    others = {name: held for name, held in files.items() if not name.startswith("page/")}
    return others | {f"page/{name}": held for name, held in build.pack(page).items()}


def licences():
    """The licences of the kit's crates: the program may have any of them in it."""
    kit = os.path.dirname(said("rt", "doc"))
    found = {}
    for crate in sorted(os.listdir(f"{kit}/rattle")):
        folder = f"{kit}/rattle/{crate}"
        for name in sorted(os.listdir(folder)) if os.path.isdir(folder) else ():
            if name.upper().startswith(("LICENSE", "COPYING", "NOTICE")):
                found[f"licences/{crate}/{name}"] = content(f"{folder}/{name}")
    return found


def crates_below(name):
    """The repository's crates that a crate stands on, itself among them."""
    stands = {}
    with open(f"{TOP}/crates.txt", encoding="utf-8") as file:
        for line in file:
            head, colon, rest = line.partition(":")
            if colon and not line.startswith("#"):
                stands[head.split()[0]] = rest.split()
    found, left = set(), [name]
    while left:
        one = left.pop()
        if one in stands and one not in found:
            found.add(one)
            left += stands[one]
    return sorted(found)


def built(program, files, proved):
    """What BUILD says."""
    lines = [
        f"commit: {said('git', 'rev-parse', 'HEAD')}",
        f"toolchain: {said('rt', 'version')}",
        f"program: {subprocess.run([program, '--version'], check=True, capture_output=True, text=True).stdout.strip()}",
        f"sha256 of board_server: {hashlib.sha256(content(program)).hexdigest()}",
        f"needs: glibc {newest_symbol(content(program))} or later, on Linux and x86-64",
    ]
    if proved:
        lines.append(f"proved crates: {' '.join(crates_below('board_server'))}")
    else:
        lines.append("NOT PROVED: this program was built without its proofs. It is no release.")
    lines.append(f"the page's client that guesses ahead: {'in page/, proved' if guesses(files) else 'not in this archive'}")
    lines += ["", "To make the same bytes again, with that toolchain, at that commit:", "", "    make program page", "    make dist", ""]
    return "\n".join(lines).encode()


def guesses(files):
    return any(name.startswith("page/page_program.") for name in files)


def newest_symbol(program):
    found = {tuple(map(int, one.split(b"."))) for one in re.findall(rb"GLIBC_(2\.\d+)", program)}
    return ".".join(map(str, max(found, default=(2, 0))))


def archive(path, top, files, time):
    """A gzipped tar whose bytes depend on nothing but these."""
    folders = sorted({"/".join(name.split("/")[:at]) for name in files for at in range(1, name.count("/") + 1)})
    raw = io.BytesIO()
    with tarfile.open(fileobj=raw, mode="w", format=tarfile.USTAR_FORMAT) as tar:
        for name in ["", *sorted([*folders, *files])]:
            entry = tarfile.TarInfo(f"{top}/{name}".rstrip("/"))
            entry.mtime, entry.uname, entry.gname = time, "root", "root"
            if name in files:
                entry.size, entry.mode = len(files[name]), mode(name)
                tar.addfile(entry, io.BytesIO(files[name]))
            else:
                entry.type, entry.mode = tarfile.DIRTYPE, 0o755
                tar.addfile(entry)
    with open(path, "wb") as file, gzip.GzipFile(filename="", mode="wb", compresslevel=9, fileobj=file, mtime=0) as packed:
        packed.write(raw.getvalue())


def mode(name):
    return 0o755 if name in ("board_server", "host.sh") or name.endswith((".sh", "client.py", "try_proxies.py")) else 0o644


def package(path, version, files, time):
    """A Debian package: the program, the page, the units, the clients and the documents."""
    places = {"usr/lib/sarpuntxe/board_server": "board_server", "usr/bin/sarpuntxe-host": "host.sh"}
    for name in files:
        if name.startswith("page/"):
            places[f"usr/share/sarpuntxe/{name}"] = name
        elif name.startswith(("clients/", "docs/", "deploy/", "examples/", "licences/")) or name in (*FILES, "BUILD"):
            places[f"usr/share/doc/sarpuntxe/{name}"] = name
        if name.endswith(".service"):
            places[f"usr/lib/systemd/system/{os.path.basename(name)}"] = name
    places["usr/share/doc/sarpuntxe/copyright"] = "LICENSE"
    size = sum(len(files[name]) for name in places.values()) // 1024 + 1
    control = (
        f"Package: sarpuntxe\nVersion: {version}\nArchitecture: amd64\nSection: games\nPriority: optional\nInstalled-Size: {size}\n"
        f"Depends: libc6 (>= {newest_symbol(files['board_server'])}), libgcc-s1\n"
        "Maintainer: Sarpuntxe maintainers <maintainers@users.noreply.sarpuntxe.example>\n"
        "Description: match server for turn-based games, with proofs of its rules\n"
        " Six games for the browser, a server that keeps its matches over restarts,\n and units of systemd. Start it by: systemctl enable --now sarpuntxe\n"
    )
    with tempfile.TemporaryDirectory() as room:
        put(f"{room}/DEBIAN/control", control.encode(), 0o644)
        for place, name in places.items():
            put(f"{room}/{place}", files[name], mode(name))
        for at, folders, names in os.walk(room):
            os.chmod(at, 0o755)
            for one in (*folders, *names, "."):
                os.utime(os.path.join(at, one), (time, time))
        subprocess.run(
            ["dpkg-deb", "--root-owner-group", "-Zxz", "--build", room, path], check=True, stdout=subprocess.DEVNULL,
            env={**os.environ, "SOURCE_DATE_EPOCH": str(time)},
        )


def put(path, data, bits):
    os.makedirs(os.path.dirname(path), exist_ok=True)
    with open(path, "wb") as file:
        file.write(data)
    os.chmod(path, bits)


def sums(files):
    return "".join(f"{hashlib.sha256(data).hexdigest()}  {name}\n" for name, data in sorted(files.items())).encode()


def main(*words):
    if words and (len(words) != 2 or words[0] != "--unproved"):
        sys.exit(__doc__)
    proved, program = not words, words[1] if words else PROGRAM
    if not os.path.isfile(program):
        sys.exit(f"dist.py: there is no {os.path.relpath(program, TOP)}: a release is of the proved program, which `make program` makes")
    with open(f"{TOP}/VERSION", encoding="utf-8") as file:
        version = file.read().strip()
    files, time = packed(committed()), int(said("git", "log", "-1", "--format=%ct"))
    files["board_server"] = content(program)
    files["host.sh"] = files["deploy/host.sh"]
    files |= licences()
    files["BUILD"] = built(program, files, proved)
    files["SHA256SUMS"] = sums(files)
    end = "" if proved else "-unproved"
    top = f"sarpuntxe-{version}-linux-x86_64{end}"
    names = [f"{top}.tar.gz", f"sarpuntxe_{version}_amd64{end}.deb"]
    os.makedirs(OUT, exist_ok=True)
    archive(f"{OUT}/{names[0]}", top, files, time)
    package(f"{OUT}/{names[1]}", version, files, time)
    made = {name: content(f"{OUT}/{name}") for name in names}
    put(f"{OUT}/SHA256SUMS", sums(made), 0o644)
    for name, data in made.items():
        print(f"out/dist/{name} {len(data)} bytes, sha256 {hashlib.sha256(data).hexdigest()}")


if __name__ == "__main__":
    main(*sys.argv[1:])
