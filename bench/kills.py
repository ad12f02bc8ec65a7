#!/usr/bin/env python3
"""Kills a run of `kept` at random moments, and looks at the file that is left.

    bench/kills.py PROGRAM [ROUNDS] [SEED]

Each round runs a script of many matches over a file that is empty or that an earlier round has left, line by line. After a random number of
lines and up to 3 ms the process is killed. Then `replay` must read the file: its records are the first of the list that a run without a kill
makes, all of those whose lines were printed, and none beyond the line that was being run. Every tenth round the run goes on over the file.
At last a run is killed while it opens its file, files of one byte are opened, and two programs are given one file.
"""
import os, random, subprocess, sys, tempfile, time

KEYS = ["%032x" % seat for seat in range(2)]
MARK = "s31 ?"
MARKED = b"31 "


def act(session, match, number, cell):
    return (
        's%d {"act":{"args":[%d],"kind":"move","move":"clickCell"},"key":"%s","match":"%s","number":%d,"ticket":1,"type":"act"}'
        % (session, cell, KEYS[session], match, number)
    )


def script_of(chance, matches):
    """The lines, and how many changes each makes."""
    lines = []
    for serial in range(1, matches + 1):
        match = "0-%d" % serial
        # a seed of its own, since a run that goes on draws its words anew
        lines += [("seed %064x" % serial, 0), ("open tic-tac-toe 2", 3)]
        for seat in range(2):
            lines.append(('s%d {"key":"%s","match":"%s","seat":%d,"type":"sync"}' % (seat, KEYS[seat], match, seat), 0))
        # a full board of cells that gives nobody a line before the last
        cells = [0, 1, 2, 4, 3, 5, 7, 6, 8][: chance.randint(1, 7)]
        for number, cell in enumerate(cells):
            lines.append((act(number % 2, match, number, cell), 1))
        for seat in range(2):
            lines.append(('s%d {"key":"%s","match":"%s","seat":%d,"type":"leave"}' % (seat, KEYS[seat], match, seat), 1))
        lines += [("t0", 0), ("t1", 0)]
    return lines


def records_of(data):
    """The payloads of a journal."""
    records, at = [], 0
    while len(data) > 1 and data[at] == 1:
        count = int.from_bytes(data[at + 1 : at + 5], "little")
        records.append(data[at + 5 : at + 5 + count])
        at += 5 + count
    return records


def journal_of(records):
    return b"".join(b"\1" + len(r).to_bytes(4, "little") + r for r in records) + b"\0"


class Run:
    """A run of `kept`, line by line."""

    def __init__(self, program, path):
        self.process = subprocess.Popen(
            [program, "kept", path], stdin=subprocess.PIPE, stdout=subprocess.PIPE, stderr=subprocess.PIPE, bufsize=0
        )
        self.seen = b""

    def feed(self, line):
        self.process.stdin.write((line + "\n" + MARK + "\n").encode())

    def wait(self):
        """Waits for the answer to the mark behind a line; false where the run has ended."""
        while True:
            while b"\n" in self.seen:
                line, self.seen = self.seen.split(b"\n", 1)
                if line.startswith(MARKED):
                    return True
            more = os.read(self.process.stdout.fileno(), 65536)
            if not more:
                return False
            self.seen += more

    def end(self):
        self.process.stdin.close()
        self.process.stdout.read()
        return self.process.wait()

    def kill(self):
        self.process.kill()
        self.process.wait()
        for pipe in (self.process.stdin, self.process.stdout, self.process.stderr):
            pipe.close()


def replay(program, data):
    done = subprocess.run([program, "replay"], input=data, capture_output=True)
    return done.returncode, done.stdout


def check(holds, why):
    if not holds:
        sys.exit("kills.py: " + why)


def main():
    program = sys.argv[1]
    rounds = int(sys.argv[2]) if len(sys.argv) > 2 else 10_000
    chance = random.Random(int(sys.argv[3]) if len(sys.argv) > 3 else 1)
    lines = script_of(chance, 12)
    texts = {}
    with tempfile.TemporaryDirectory() as folder:
        path = os.path.join(folder, "room.journal")

        def remove():
            if os.path.exists(path):
                os.remove(path)

        def read():
            with open(path, "rb") as file:
                return file.read()

        run = Run(program, path)
        for line, _ in lines:
            run.feed(line)
            check(run.wait(), "a run without a kill has ended early")
        check(run.end() == 0, "a run without a kill didn't end with 0")
        whole = records_of(read())
        check(len(whole) == sum(changes for _, changes in lines), "a run without a kill has other records than its lines make")

        def text_of(count):
            if count not in texts:
                texts[count] = replay(program, journal_of(whole[:count]))[1]
            return texts[count]

        kept_at = 0
        remove()
        for number in range(rounds):
            if kept_at >= len(lines) or chance.random() < 0.2:
                kept_at = 0
                remove()
            start = kept_at
            wanted = chance.randint(0, min(25, len(lines) - start))
            run = Run(program, path)
            answered = 0
            for line, _ in lines[start : start + wanted]:
                run.feed(line)
                check(run.wait(), "round %d: the run has ended by itself" % number)
                answered += 1
            at = start + answered
            if at < len(lines):
                run.feed(lines[at][0])
            time.sleep(chance.random() * 0.003)
            run.kill()
            data = read() if os.path.exists(path) else b""
            status, text = replay(program, data)
            check(status == 0, "round %d: replay ends with %d" % (number, status))
            records = records_of(data)
            least = sum(changes for _, changes in lines[:at])
            most = least + (lines[at][1] if at < len(lines) else 0)
            check(least <= len(records) <= most, "round %d: %d records, where %d to %d are due" % (number, len(records), least, most))
            check(records == whole[: len(records)], "round %d: other records than those of the lines" % number)
            check(text == text_of(len(records)), "round %d: replay shows another match" % number)
            # sessions are gone with their process, so a run goes on at the beginning of a match
            kept_at = 0
            if number % 10 == 9:
                for begin in range(at, len(lines)):
                    if lines[begin][0].startswith("seed") and sum(c for _, c in lines[:begin]) == len(records):
                        kept_at = begin
                        break
            if kept_at == 0:
                remove()
        print("%d kills, each file had its records" % rounds)

        remove()
        with open(path, "wb") as file:
            file.write(journal_of(whole))
        for _ in range(min(rounds, 200)):
            run = Run(program, path)
            time.sleep(chance.random() * 0.02)
            run.kill()
            check(records_of(read()) == whole, "a kill while the file is opened changes its records")
        print("kills while the file is opened leave its records")

        for value in range(256):
            with open(path, "wb") as file:
                file.write(bytes([value]))
            run = Run(program, path)
            check(run.end() == 0, "a file of the byte %d isn't opened" % value)
            check(records_of(read()) == [], "a file of the byte %d has records" % value)
        print("files of one byte have no records")

        remove()
        first = Run(program, path)
        for line, _ in lines[:2]:
            first.feed(line)
            check(first.wait(), "the first program on a file has ended early")
        second = Run(program, path)
        check(second.end() == 14, "a second program is let at the file")
        check(first.end() == 0, "the first program on a file didn't end with 0")
        check(records_of(read()) == whole[:3], "a second program changed the file")
        print("a second program isn't let at the file")


main()
