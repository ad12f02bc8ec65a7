#!/usr/bin/env python3
"""Times how long it takes to keep records, with one or with several behind a gate.

    bench/gates.py [RECORDS [FOLDER]]

It makes the calls that a journal's `append_all` makes: the frames and a closed gate behind the end, a sync, the gate that opens, a sync. The
records are acts of Blind Bid as `kept` writes them. The file stands in FOLDER, or in the folder of temporary files. A program that writes a
whole journal this way does no more than wait for these calls, so they are what a kept action costs.
"""
import os, sys, tempfile, time

PAYLOAD = b'{"act":{"args":[],"kind":"move","move":"boast"},"kind":"act","seat":3}'


def frame(count):
    """So many records as they stand behind the first one's gate, and a closed gate."""
    record = len(PAYLOAD).to_bytes(4, "little") + PAYLOAD
    return b"\1".join([record] * count) + b"\0"


def keep(file, records, each):
    """Keeps the records, so many behind a gate; gives the seconds of each gate."""
    end, took = 0, []
    os.pwrite(file, b"\0", 0)
    os.fsync(file)
    for first in range(0, records, each):
        text = frame(min(each, records - first))
        began = time.perf_counter()
        os.pwrite(file, text, end + 1)
        os.fsync(file)
        os.pwrite(file, b"\1", end)
        os.fsync(file)
        took.append(time.perf_counter() - began)
        end += len(text)
    return took


def main():
    records = int(sys.argv[1]) if len(sys.argv) > 1 else 2048
    folder = sys.argv[2] if len(sys.argv) > 2 else None
    print("records a gate   a record   a gate, middle   a gate, longest")
    for each in (1, 8, 32):
        with tempfile.NamedTemporaryFile(dir=folder) as file:
            took = sorted(keep(file.fileno(), records, each))
        print("%14d %7.3f ms %13.2f ms %14.2f ms" % (each, 1e3 * sum(took) / records, 1e3 * took[len(took) // 2], 1e3 * took[-1]))


main()
