#!/usr/bin/env python3
"""Tells how long a packet of a live run waits for its record while a desk saves and activates editions.

    bench/longest_wait.py FOLDER FEED DESK PROGRAM..

Each program runs `live FOLDER pipe DESK` with a pipe as its feed: a packet of FEED is written, and the next when its record stands on
the output, until the desk's last reply has come. So the time from a packet to its record is that of its stamp, its decoding and its
printing, and the longest of them is at least the longest gap that the desk makes between two stamps. The same is run once more with an
empty desk, over as many packets. Prints the median, the longest but one in a thousand, and the longest, in microseconds.
"""
import os
import subprocess
import sys
import tempfile
import threading
import time


def packets(octets):
    at = 0
    while at + 7 <= len(octets):
        size = 7 + int.from_bytes(octets[at + 4:at + 6], "big")
        yield octets[at:at + size]
        at += size


def waits(program, folder, feed, desk, most):
    """The time to the record of each packet, and how many packets there were until the desk's end."""
    with tempfile.TemporaryDirectory() as home:
        pipe = os.path.join(home, "feed")
        os.mkfifo(pipe)
        lines = sum(1 for line in open(desk) if line.strip() and not line.startswith("#"))
        run = subprocess.Popen([program, "live", folder, pipe, desk], stdout=subprocess.PIPE, stderr=subprocess.PIPE)
        replies = [0]

        def drain():
            for _ in run.stderr:
                replies[0] += 1

        reader = threading.Thread(target=drain)
        reader.start()
        times = []
        with open(pipe, "wb", buffering=0) as sink:
            for packet in packets(open(feed, "rb").read()):
                begun = time.perf_counter()
                sink.write(packet)
                text = os.read(run.stdout.fileno(), 1 << 20)
                times.append(time.perf_counter() - begun)
                if not text or len(times) == most or (most is None and replies[0] >= lines):
                    break
        while os.read(run.stdout.fileno(), 1 << 20):
            pass
        reader.join()
        code = run.wait()
    return code, times


def told(label, code, times):
    ordered = sorted(times)
    at = lambda share: 1e6 * ordered[min(len(ordered) - 1, int(share * len(ordered)))]
    print(f"{label}: status {code}, {len(times)} packets, median {at(0.5):.0f} us, 0.999 {at(0.999):.0f} us, longest {1e6 * ordered[-1]:.0f} us")


def main():
    folder, feed, desk, *programs = sys.argv[1:]
    with tempfile.NamedTemporaryFile("w", suffix=".desk") as silent:
        for program in programs:
            code, beside = waits(program, folder, feed, desk, None)
            told(f"{program} beside the desk", code, beside)
            code, alone = waits(program, folder, feed, silent.name, len(beside))
            told(f"{program} alone", code, alone)


main()
