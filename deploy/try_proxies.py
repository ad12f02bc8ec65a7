#!/usr/bin/env python3
"""Tries the configurations of this folder with real proxies, on free ports and with a certificate of its own.

    deploy/try_proxies.py PROGRAM [caddy | nginx | haproxy] ..

It changes nothing in them but ports, paths and names. Through each proxy it fetches the packed page and its files, plays a match of Pig over TLS,
restarts the server, which keeps its rooms, and plays on. It needs openssl, and the proxies that it is to try.
"""
import os
import re
import shutil
import signal
import socket
import subprocess
import sys
import tempfile
import time
import urllib.error
import urllib.request

HERE = os.path.dirname(os.path.abspath(__file__))
sys.path.insert(0, os.path.join(HERE, "../clients/python"))
sys.path.insert(0, os.path.join(HERE, "../page"))
import build  # noqa: E402
import sarpuntxe  # noqa: E402

LINK = re.compile(r'(?:src|href)="([^"?#:]+\.(?:js|css|svg))"')


def free_port():
    with socket.create_server(("127.0.0.1", 0)) as one:
        return one.getsockname()[1]


def started(words, port, **more):
    process = subprocess.Popen(words, **more)
    for _ in range(200):
        try:
            socket.create_connection(("127.0.0.1", port), 0.2).close()
            return process
        except OSError:
            if process.poll() is not None:
                break
            time.sleep(0.1)
    sys.exit(f"{words[0]} did not start")


def serve(program, port, rooms):
    os.makedirs(rooms, exist_ok=True)
    words = [program, "serve", "--listen", f"127.0.0.1:{port}", "--ws", "--page", build.OUT, "--keep", rooms, "--rooms", "64", "--links", "64"]
    return started(words, port, stderr=subprocess.DEVNULL)


def changed(name, changes):
    with open(os.path.join(HERE, name), encoding="utf-8") as file:
        text = file.read()
    for old, new in changes:
        if old not in text:
            sys.exit(f"{name} has no {old!r}")
        text = text.replace(old, new)
    return text


def caddy(room, inner, outer):
    text = changed("Caddyfile", [("play.example.org {", f"localhost:{outer} {{\n\ttls {room}/cert.pem {room}/key.pem"), ("7000", str(inner))])
    text = "{\n\tadmin off\n\tauto_https disable_redirects\n}\n" + text
    write(f"{room}/Caddyfile", text)
    return ["caddy", "run", "--config", f"{room}/Caddyfile", "--adapter", "caddyfile"], "/"


def nginx(room, inner, outer):
    text = changed("nginx.conf", [
        ("listen 443 ssl;", f"listen 127.0.0.1:{outer} ssl;"), ("  listen [::]:443 ssl;\n", ""), ("play.example.org;", "localhost;"),
        ("/etc/letsencrypt/live/play.example.org/fullchain.pem", f"{room}/cert.pem"),
        ("/etc/letsencrypt/live/play.example.org/privkey.pem", f"{room}/key.pem"), ("127.0.0.1:7000", f"127.0.0.1:{inner}"),
    ])
    temporary = "".join(f"{kind}_temp_path {room}/{kind};\n" for kind in ("client_body", "proxy", "fastcgi", "uwsgi", "scgi"))
    head = f"daemon off; pid {room}/pid; error_log {room}/nginx.log; events {{}}\nhttp {{\naccess_log off;\n{temporary}"
    write(f"{room}/nginx.conf", f"{head}{text}}}\n")
    return ["nginx", "-c", f"{room}/nginx.conf", "-e", f"{room}/nginx.log"], "/"


def haproxy(room, inner, outer):
    text = changed("haproxy.cfg", [
        ("bind :443", f"bind 127.0.0.1:{outer}"), ("  bind :80\n", ""), ("/etc/haproxy/sarpuntxe.pem", f"{room}/both.pem"),
        ("maxconn 20000 ", "maxconn 200 "), ("add(7400)", f"add({inner - 7})"),
    ])
    write(f"{room}/haproxy.cfg", text)
    return ["haproxy", "-f", f"{room}/haproxy.cfg"], "/r/07/"


def write(path, text):
    with open(path, "w", encoding="utf-8") as file:
        file.write(text)


def fetch(url):
    with urllib.request.urlopen(url, timeout=10) as answer:
        return answer.read(), answer.geturl()


def play(address, places, most):
    """Plays Pig for so many actions, or to its end. Each player has to see what the other one does."""
    players = [sarpuntxe.Match(address, place) for place in places]
    for _ in range(most):
        if players[0].over:
            break
        actor = next(player for player in players if player.may_act)
        number = actor.move("hold" if actor.view["g"]["pot"] >= 6 else "roll")
        for player in players:
            assert player.until(lambda match: match.view["number"] >= number, 10), "an update is missing"
    return players


def tried(name, program, room, made):
    inner, outer = free_port(), free_port()
    words, path = globals()[name](room, inner, outer)
    server = serve(program, inner, f"{room}/rooms")
    proxy = started(words, outer, env={**os.environ, "HOME": room}, stderr=subprocess.DEVNULL, stdout=subprocess.DEVNULL)
    # (OpenSSL takes what it trusts from here)
    os.environ["SSL_CERT_FILE"] = f"{room}/cert.pem"
    base = f"https://localhost:{outer}{path}"
    try:
        page = fetch(base)[0].decode()
        files = LINK.findall(page)
        assert "Sarpuntxe" in page and len(files) == 3, "no page"
        for file in files:
            assert fetch(base + file)[0] == made.get(file, made.get(f"{file}.gz")), f"{file} is another one"
        if path != "/":
            assert fetch(base.rstrip("/"))[1] == base, "no slash is added"
        try:
            fetch(f"https://localhost:{outer}/none")
            raise AssertionError("a path that leads nowhere is answered")
        except urllib.error.HTTPError as why:
            assert why.code == 404, why.code
        address = f"wss://localhost:{outer}{path}"
        with sarpuntxe.connect(address) as lobby:
            match = lobby.create("pig", 2)
            places = [lobby.join(match, seat, "ann") for seat in range(2)]
        players = play(address, places, 3)
        server.kill()
        server.wait()
        server = serve(program, inner, f"{room}/rooms")
        began = time.monotonic()
        for player in players:
            player.connect()
        away = time.monotonic() - began
        assert players[0].view["number"] == 3, "a move was lost"
        for player in players:
            player.close()
        players = play(address, places, 500)
        print(f"ok {name}: the page and {len(files)} files, and {players[0].view['number']} actions, {away:.1f} seconds to come back after a kill")
    finally:
        for process in (proxy, server):
            process.send_signal(signal.SIGTERM)
            process.wait()


def main(program, *names):
    made = build.main()
    for name in names or ("caddy", "nginx", "haproxy"):
        if not shutil.which(name):
            print(f"left out {name}: it is not installed")
            continue
        with tempfile.TemporaryDirectory(prefix="sarpuntxe-") as room:
            subprocess.run(
                ["openssl", "req", "-x509", "-newkey", "rsa:2048", "-nodes", "-days", "2", "-subj", "/CN=localhost", "-addext",
                 "subjectAltName=DNS:localhost", "-keyout", f"{room}/key.pem", "-out", f"{room}/cert.pem"], check=True, capture_output=True)
            with open(f"{room}/both.pem", "wb") as both:
                for part in ("cert", "key"):
                    with open(f"{room}/{part}.pem", "rb") as file:
                        both.write(file.read())
            os.chmod(room, 0o755)
            tried(name, os.path.abspath(program), room, made)


if __name__ == "__main__":
    main(*sys.argv[1:]) if sys.argv[1:] else sys.exit(__doc__)
