#!/usr/bin/env python3
"""Times how long the page takes to load through a relay that delays what passes, and prints a table.

    bench/loading.py PROGRAM [--times N] [MILLISECONDS ..]

The round trips are of 0, 50, 100 and 200 ms if none are named. Each time is the least of N visits, 5 if that isn't said, since whatever else
the machine does can only add to it.
It packs the page, and starts a server with the packed one, another with the plain files of page/, and headless Chromium (CHROMIUM names another).
A first visit is one of a browser that keeps nothing yet. A page is there once it shows the games of the lobby, or the board of a match;
a lobby is whole once it shows the matches, too. Times count from the navigation on. Connections and bytes, each way, are those of a whole lobby.
"""
import asyncio
import json
import os
import re
import shutil
import signal
import subprocess
import sys
import tempfile
import threading
import time

HERE = os.path.dirname(os.path.abspath(__file__))
sys.path[:0] = [os.path.join(HERE, "../clients/python"), os.path.join(HERE, "../page")]
import build  # noqa: E402
import sarpuntxe  # noqa: E402

TRIPS = [0, 50, 100, 200]
PATIENCE = 60.0
# Notes when the first element of each selector is there.
WATCH = """(() => {
  const wanted = %s;
  window.shownAfter = wanted.map(() => null);
  const look = () => wanted.forEach((one, at) => {
    if (window.shownAfter[at] === null && document.querySelector(one)) window.shownAfter[at] = performance.now();
  });
  new MutationObserver(look).observe(document, { subtree: true, childList: true, attributes: true });
})()"""
LOBBY, MATCH = [".game", ".matches li"], [".match:not([hidden]) .board > *"]


class Relay:
    """Passes bytes on to a port, each way half a round trip later. A connection stands a round trip after it was asked for."""

    def __init__(self, far, trip):
        self.far, self.trip, self.connections, self.bytes = far, trip, 0, 0
        self.loop, ready = asyncio.new_event_loop(), threading.Event()
        threading.Thread(target=self.run, args=(ready,), daemon=True).start()
        ready.wait()

    def run(self, ready):
        asyncio.set_event_loop(self.loop)
        server = self.loop.run_until_complete(asyncio.start_server(self.serve, "127.0.0.1", 0))
        self.port = server.sockets[0].getsockname()[1]
        ready.set()
        self.loop.run_forever()

    async def serve(self, reader, writer):
        self.connections += 1
        stands = self.loop.time() + self.trip
        try:
            far_reader, far_writer = await asyncio.open_connection("127.0.0.1", self.far)
            await asyncio.gather(self.pump(reader, far_writer, stands), self.pump(far_reader, writer, stands))
            far_writer.close()
        except OSError:
            pass
        writer.close()

    async def pump(self, source, sink, stands):
        """Reads what comes at once, and writes it when it has arrived. An empty piece is the end."""
        queue = asyncio.Queue()

        async def deliver():
            piece = b"."
            while piece:
                arrives, piece = await queue.get()
                await asyncio.sleep(max(0.0, arrives - self.loop.time()))
                if piece:
                    sink.write(piece)
                else:
                    sink.write_eof()

        delivers = self.loop.create_task(deliver())
        piece = b"."
        while piece:
            try:
                piece = await source.read(65_536)
            except OSError:
                piece = b""
            self.bytes += len(piece)
            queue.put_nowait((max(self.loop.time(), stands) + self.trip / 2, piece))
        try:
            await delivers
        except OSError:
            pass


class Browser:
    """A headless Chromium, driven over its DevTools protocol."""

    def __init__(self):
        self.profile, self.number = tempfile.mkdtemp(prefix="page-loading-"), 0
        words = ["--headless", "--no-sandbox", "--disable-gpu", "--remote-debugging-port=0", "--remote-allow-origins=*"]
        self.process = subprocess.Popen(
            [os.environ.get("CHROMIUM", "chromium"), *words, f"--user-data-dir={self.profile}", "about:blank"],
            stdout=subprocess.DEVNULL, stderr=subprocess.PIPE, text=True, errors="replace",
        )
        for line in self.process.stderr:
            if place := re.search(r"DevTools listening on (ws:\S+)", line):
                break
        else:
            sys.exit(f"loading.py: the browser ended with status {self.process.wait()}")
        threading.Thread(target=self.process.stderr.read, daemon=True).start()
        self.link = sarpuntxe.open_link(place[1])

    def call(self, method, session=None, **params):
        self.number += 1
        line = {"id": self.number, "method": method, "params": params, **({"sessionId": session} if session else {})}
        self.link.send(json.dumps(line))
        while (said := json.loads(self.link.read(PATIENCE))).get("id") != self.number:
            pass
        if "error" in said:
            sys.exit(f"loading.py: {method}: {said['error']['message']}")
        return said["result"]

    def visits(self, url, selectors, count, seen=lambda: None):
        """Opens a page so many times in a browser that kept nothing before, and returns how many milliseconds each took until each selector was
        there. It calls `seen` after each."""
        context = self.call("Target.createBrowserContext")["browserContextId"]
        target = self.call("Target.createTarget", url="about:blank", browserContextId=context)["targetId"]
        session = self.call("Target.attachToTarget", targetId=target, flatten=True)["sessionId"]
        self.call("Page.enable", session)
        self.call("Page.addScriptToEvaluateOnNewDocument", session, source=WATCH % json.dumps(selectors))
        took = []
        for _ in range(count):
            self.call("Page.navigate", session, url=url)
            took.append(self.shown_after(session, url))
            seen()
            self.call("Page.navigate", session, url="about:blank")
        self.call("Target.disposeBrowserContext", browserContextId=context)
        return took

    def shown_after(self, session, url):
        end = time.monotonic() + PATIENCE
        while time.monotonic() < end:
            found = self.call("Runtime.evaluate", session, expression="window.shownAfter ?? null", returnByValue=True)["result"].get("value")
            if found and None not in found:
                return found
            time.sleep(0.02)
        sys.exit(f"loading.py: {url} was not there after {PATIENCE:.0f} seconds")

    def close(self):
        self.process.kill()
        self.process.wait()
        shutil.rmtree(self.profile, ignore_errors=True)


def start(program, folder):
    """The server with the page of a folder, and its port."""
    words = ["serve", "--listen", "127.0.0.1:0", "--ws", "--page", folder, "--links", "128"]
    process = subprocess.Popen([program, *words], stderr=subprocess.PIPE, text=True)
    for line in process.stderr:
        if line.startswith("listening on "):
            return process, int(line.rsplit(":", 1)[1])
    sys.exit(f"loading.py: the server ended with status {process.wait()}")


def row(browser, port, match, trip, times):
    """A row of the table: what visits through a relay of this round trip take, and how many connections and bytes the first two take."""
    relay = Relay(port, trip / 1_000)
    page, lobbies, matches, counts = f"http://127.0.0.1:{relay.port}/", [], [], []

    def seen():
        time.sleep(0.3 + 3 * trip / 1_000)
        counts[-1].append((relay.connections, relay.bytes))

    for _ in range(times):
        counts.append([(relay.connections, relay.bytes)])
        lobbies.append(browser.visits(page, LOBBY, 2, seen))
        matches += browser.visits(f"{page}?match={match}", MATCH, 1)
    took = [min(one[visit][at] for one in lobbies) for visit in (0, 1) for at in (0, 1)] + [min(one[0] for one in matches)]
    least = [[min(one[visit + 1][at] - one[visit][at] for one in counts) for visit in (0, 1)] for at in (0, 1)]
    return " | ".join([
        f"{trip} ms", *[f"{one / 1_000:.2f} s" for one in took],
        f"{least[0][0]}, then {least[0][1]}", f"{least[1][0] / 1_024:.0f} KB, then {least[1][1] / 1_024:.0f} KB",
    ])


def measured(browser, program, folder, trips, times):
    """A line of the table for each round trip, of a server with the page of a folder."""
    process, port = start(program, folder)
    try:
        with sarpuntxe.connect(f"ws://127.0.0.1:{port}/") as server:
            match = server.create("tic-tac-toe", 2)
        # The first page of a browser that has just begun takes longer than any other.
        browser.visits(f"http://127.0.0.1:{port}/", LOBBY, 1)
        for trip in trips:
            yield row(browser, port, match, trip, times)
    finally:
        process.kill()
        process.wait()


def main(program, *words):
    times, trips = 5, []
    words = list(words)
    while words:
        word = words.pop(0)
        if word == "--times":
            times = int(words.pop(0))
        else:
            trips.append(int(word))
    # Whoever stops it stops the server and the browser, too.
    signal.signal(signal.SIGTERM, lambda *_: sys.exit(143))
    build.main()
    browser = Browser()
    try:
        print("| files | round trip | the lobby, first visit | with its matches | the lobby, once more | with its matches | a match by its link "
              "| connections | bytes |")
        print("|---|---|---|---|---|---|---|---|---|")
        for what, folder in (("packed", build.OUT), ("plain", build.PAGE)):
            for line in measured(browser, program, folder, trips or TRIPS, times):
                print(f"| {what} | {line} |", flush=True)
    finally:
        browser.close()


if __name__ == "__main__":
    main(*sys.argv[1:]) if sys.argv[1:] else sys.exit(__doc__)
