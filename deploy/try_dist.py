#!/usr/bin/env python3
"""Tries a release on a Debian that has nothing else: in a fresh root, which debootstrap makes and which is removed at the end.

    deploy/try_dist.py [ARCHIVE PACKAGE]

ARCHIVE and PACKAGE are those of out/dist if they aren't named. It wants to be root, and debootstrap, whose packages come from DEBIAN_MIRROR
(http://deb.debian.org/debian if that isn't set). SUITE is the release of Debian, bookworm if that isn't set.

First the archive: its sums are compared, its program is started as nobody, the page and each file that it names are fetched, and a match is begun
over WebSockets. The program is stopped and started anew, without WebSockets now, and a client by lines plays that match to its end.
Then the package: it is installed, its program does the same, and it is removed, which leaves none of its files.
"""
import glob
import hashlib
import os
import re
import shutil
import subprocess
import sys
import tarfile
import tempfile
import time
import urllib.request

HERE = os.path.dirname(os.path.abspath(__file__))
TOP = os.path.dirname(HERE)
MIRROR = os.environ.get("DEBIAN_MIRROR", "http://deb.debian.org/debian")
SUITE = os.environ.get("SUITE", "bookworm")
NAMED = re.compile(r'(?:href|src)="([^"#:]+\.[a-z]+)"')
# Cells that end a match of tic-tac-toe: seat 0 takes the upper row.
CELLS = [0, 3, 1, 4, 2]


def client(folder):
    """The Python client of the release itself."""
    sys.path.insert(0, f"{folder}/clients/python")
    import sarpuntxe
    return sarpuntxe


class Running:
    """The program in the root, as nobody, on a free port."""

    def __init__(self, root, program, *words):
        call = ["chroot", "--userspec=65534:65534", root, program, "serve", "--listen", "127.0.0.1:0", *words]
        self.process = subprocess.Popen(call, stdin=subprocess.DEVNULL, stderr=subprocess.PIPE, text=True)
        said = []
        for line in self.process.stderr:
            said.append(line)
            if line.startswith("listening on "):
                self.port = int(line.rsplit(":", 1)[1])
                return
        sys.exit(f"try_dist.py: {program} ended with status {self.process.wait()}: {''.join(said)}")

    def stop(self):
        self.process.terminate()
        self.process.wait(10)
        self.process.stderr.close()


def fetch(port, path):
    with urllib.request.urlopen(f"http://127.0.0.1:{port}/{path}", timeout=20) as answer:
        return answer.read()


def tries(root, program, page, sarpuntxe):
    """Fetches the page, begins a match, starts the program anew, and plays the match to its end."""
    rooms = "/srv/rooms"
    os.makedirs(root + rooms)
    os.chown(root + rooms, 65534, 65534)
    server = Running(root, program, "--ws", "--page", page, "--keep", rooms, "--links", "64")
    names = NAMED.findall(fetch(server.port, "").decode())
    for name in names:
        packed = f"{root}{page}/{name}.gz"
        with open(packed if os.path.exists(packed) else packed.removesuffix(".gz"), "rb") as file:
            assert fetch(server.port, name) == file.read(), f"{name} is another one"
    assert len(names) == 3, f"the page names {len(names)} files"
    address = f"ws://127.0.0.1:{server.port}/"
    with sarpuntxe.connect(address) as lobby:
        match = lobby.create("tic-tac-toe", 2)
        places = [lobby.join(match, seat, name) for seat, name in enumerate(("ann", "bob"))]
    play(sarpuntxe, address, places, CELLS[:3])
    server.stop()
    server = Running(root, program, "--keep", rooms)
    ended = play(sarpuntxe, f"127.0.0.1:{server.port}", places, CELLS[3:])
    assert ended == {"winner": 0}, ended
    server.stop()
    shutil.rmtree(root + rooms)
    return len(names)


def play(sarpuntxe, address, places, cells):
    """Takes these cells, and returns how the match has ended, if it has."""
    seats = [sarpuntxe.Match(address, place) for place in places]
    for cell in cells:
        seat = next(one for one in seats if one.may_act)
        number = seat.move("clickCell", cell)
        for one in seats:
            assert one.until(lambda held, made=number: held.view["number"] >= made, 20), "an update didn't come"
    for one in seats:
        one.close()
    return seats[0].view["ctx"]["gameover"]


def tries_archive(root, archive):
    with tarfile.open(archive) as tar:
        top = tar.getnames()[0]
        tar.extractall(f"{root}/opt", filter="data")
    folder = f"{root}/opt/{top}"
    with open(f"{folder}/SHA256SUMS", encoding="utf-8") as sums:
        for line in sums:
            digest, name = line.rstrip("\n").split("  ", 1)
            with open(f"{folder}/{name}", "rb") as file:
                assert hashlib.sha256(file.read()).hexdigest() == digest, f"the sum of {name} is another one"
    sarpuntxe = client(folder)
    count = tries(root, f"/opt/{top}/board_server", f"/opt/{top}/page", sarpuntxe)
    shutil.rmtree(folder)
    print(f"ok the archive: its sums, the page and {count} files, a match over WebSockets, a new start, and the match by lines", flush=True)
    return sarpuntxe


def in_root(root, *words):
    return subprocess.run(["chroot", root, *words], check=True, capture_output=True, text=True, env={"PATH": "/usr/sbin:/usr/bin:/sbin:/bin"}).stdout


def tries_package(root, package, sarpuntxe):
    shutil.copy(package, f"{root}/srv/sarpuntxe.deb")
    in_root(root, "dpkg", "--install", "/srv/sarpuntxe.deb")
    files = [name for name in in_root(root, "dpkg", "--listfiles", "sarpuntxe").splitlines() if not os.path.isdir(root + name)]
    assert not in_root(root, "dpkg", "--verify", "sarpuntxe"), "a file isn't as the package has it"
    count = tries(root, "/usr/lib/sarpuntxe/board_server", "/usr/share/sarpuntxe/page", sarpuntxe)
    in_root(root, "dpkg", "--purge", "sarpuntxe")
    left = [name for name in files if os.path.lexists(root + name)]
    assert not left, f"these files are left: {left}"
    print(f"ok the package: {len(files)} files, the page and {count} of them fetched, the same matches, and nothing is left", flush=True)


def mounted_below(folder):
    with open("/proc/mounts", encoding="utf-8") as mounts:
        return [place for place in (line.split()[1] for line in mounts) if place.startswith(f"{folder}/")]


def remove(room):
    """Removes the root, unless the system still has something mounted there, which is none of it."""
    for place in reversed(mounted_below(room)):
        subprocess.run(["umount", place], check=False)
    if mounted_below(room):
        sys.exit(f"try_dist.py: something is mounted below {room}, so it is left")
    shutil.rmtree(room)


def main(*words):
    if os.geteuid() or not shutil.which("debootstrap"):
        sys.exit("try_dist.py: it wants to be root, and debootstrap")
    names = words or [*glob.glob(f"{TOP}/out/dist/*.tar.gz")[:1], *glob.glob(f"{TOP}/out/dist/*.deb")[:1]]
    if len(names) != 2:
        sys.exit(__doc__)
    archive, package = names
    room = tempfile.mkdtemp(prefix="sarpuntxe-root-", dir="/var/tmp")
    root, began = f"{room}/root", time.monotonic()
    try:
        made = subprocess.run(
            ["debootstrap", "--variant=minbase", SUITE, root, MIRROR], stdout=subprocess.PIPE, stderr=subprocess.STDOUT, text=True, check=False
        )
        if made.returncode:
            sys.exit(f"try_dist.py: no root was made:\n{made.stdout[-2000:]}")
        print(f"ok a root of {SUITE} ({time.monotonic() - began:.0f} seconds)", flush=True)
        tries_package(root, package, tries_archive(root, archive))
    finally:
        remove(room)


if __name__ == "__main__":
    main(*sys.argv[1:])
