#!/usr/bin/env python3
"""Shows that a record of a slow feed is printed before the next packet comes.

    bench/slow_feed.py PROGRAM [SECONDS]

Starts `PROGRAM decode DIR -` with a pipe as its standard input and another as its standard output, over tables of its
own. It writes a packet every SECONDS (1 by default): whole, in two pieces with a pause between them, and two at once.
Each record has to be there before the next octets are written. Ends with status 1 where one isn't.
"""
import os
import select
import struct
import subprocess
import sys
import tempfile
import time


def packet(count, value):
    """A packet of APID 100 and types 3/25 with one value of 16 bits."""
    return struct.pack(">HHHBBBBH", 0x0864, 0xC000 + count, 5, 0x10, 3, 25, 0, value)


def record(number, count, value):
    return f"PKT {number} APID 100 COUNT {count} TYPE 3/25 SPID 1\n  V {value}\n".encode()


def write_tables(folder):
    tables = {"pcf": "V\t\t\t\t3\t12\n", "pid": "3\t25\t100\t\t\t1\n", "plf": "V\t1\t10\t0\n"}
    for name, text in tables.items():
        with open(os.path.join(folder, name + ".dat"), "w") as file:
            file.write(text)


def read_for(stream, seconds):
    """What the stream gives within so many seconds."""
    given, end = b"", time.monotonic() + seconds
    while (rest := end - time.monotonic()) > 0:
        if not select.select([stream], [], [], rest)[0]:
            break
        piece = os.read(stream.fileno(), 65536)
        if not piece:
            break
        given += piece
    return given


def steps():
    """Pairs of the octets to write and the records that have to be there then."""
    yield packet(0, 7), record(1, 0, 7)
    yield packet(1, 8), record(2, 1, 8)
    whole = packet(2, 9)
    yield whole[:5], b""
    yield whole[5:], record(3, 2, 9)
    yield packet(3, 10) + packet(4, 11), record(4, 3, 10) + record(5, 4, 11)
    yield packet(5, 12) + packet(6, 13)[:9], record(6, 5, 12)
    yield packet(6, 13)[9:], record(7, 6, 13)


def main():
    program, seconds = sys.argv[1], float((sys.argv[2:] or ["1"])[0])
    with tempfile.TemporaryDirectory() as folder:
        write_tables(folder)
        words = [os.path.abspath(program), "decode", folder, "-"]
        with subprocess.Popen(words, stdin=subprocess.PIPE, stdout=subprocess.PIPE, bufsize=0) as run:
            late = 0
            for octets, expected in steps():
                run.stdin.write(octets)
                given = read_for(run.stdout, seconds)
                if given != expected:
                    late += 1
                    print(f"wrote {octets.hex()}: expected {expected!r}, got {given!r}")
            run.stdin.close()
            status = run.wait()
    print(f"{late} late, status {status}")
    return 1 if late or status else 0


if __name__ == "__main__":
    sys.exit(main())
