#!/usr/bin/env python3
"""Checks that nothing is asked of an object behind its fault: no read of a feed or a desk that failed, no write of an output or of
replies that failed, no retry. It looks at the calls of the kernel by strace (Debian).

    checks/behind_faults.py PROGRAM [WORKERS ..]

The line of the status stands on standard error behind all replies; where the replies failed it is the one write that may come.
"""
import re
import shutil
import sys
import tempfile

from failing_objects import DESK, FEED, Hanging, Place, Tries

# A call and its result; or, where another thread's call came in between, its begin and its end.
LINE = re.compile(r"^(\d+) +(?:read|write)\((\d+),.*= (-?\d+)(?: E\w+)?")
BEGUN = re.compile(r"^(\d+) +(?:read|write)\((\d+),.*<unfinished \.\.\.>$")
ENDED = re.compile(r"^(\d+) +<\.\.\. (?:read|write) resumed>.*= (-?\d+)(?: E\w+)?")


# What sets a limit for the size of files in the traced program alone, and becomes it.
LIMITED = """import os, resource, signal, sys
signal.signal(signal.SIGXFSZ, signal.SIG_IGN)
resource.setrlimit(resource.RLIMIT_FSIZE, (int(sys.argv[1]), int(sys.argv[1])))
os.execv(sys.argv[2], sys.argv[2:])
"""


def results(lines):
    """The file and the result of each call, in the order in which they ended."""
    begun = {}
    for line in lines:
        whole, begins, ends = LINE.match(line), BEGUN.match(line.rstrip("\n")), ENDED.match(line)
        if whole:
            yield int(whole[2]), int(whole[3])
        elif begins:
            begun[begins[1]] = int(begins[2])
        elif ends and ends[1] in begun:
            yield begun.pop(ends[1]), int(ends[2])


def calls(place, number):
    """Of a file's calls: how many failed, and how many came behind the first that did."""
    failed, behind = 0, 0
    with open(f"{place.room}/calls", encoding="latin-1") as lines:
        for file, result in results(lines):
            if file == number:
                behind += failed > 0
                failed += result < 0
    return failed, behind


def traced(tries, place, words, most=None, **given):
    program, tries.program = tries.program, shutil.which("strace")
    begun = [] if most is None else [sys.executable, "-c", LIMITED, str(most)]
    try:
        return tries.run(["-f", "-o", "calls", "-e", "trace=read,write", *begun, program, *words], place, **given)
    finally:
        tries.program = program


def main():
    tries, workers = Tries(sys.argv[1]), sys.argv[2:] or ["1", "4"]
    if not shutil.which("strace"):
        sys.exit("strace isn't there")
    with tempfile.TemporaryDirectory() as room:
        place = Place(room)
        place.write("long", FEED * 2000)
        for number in workers:
            for octets in (0, 5, 12, 30):
                feed = Hanging(FEED[:octets])
                traced(tries, place, ["live", "mib", "-", "desk", "--workers", number], stdin=feed.side)
                feed.close()
                tries.is_so(f"the feed behind {octets} octets, {number} workers", calls(place, 0), (1, 0))
            for octets in (0, 7, 30, 41):
                desk = Hanging(DESK[:octets])
                traced(tries, place, ["live", "mib", "feed", "-", "--workers", number], stdin=desk.side)
                desk.close()
                tries.is_so(f"the desk behind {octets} octets, {number} workers", calls(place, 0), (1, 0))
            for octets in (0, 60, 185, 70000, 200000):
                for command in (["live", "mib", "long", "desk"], ["decode", "mib", "long"]):
                    with open(f"{place.room}/out", "wb") as out:
                        traced(tries, place, [*command, "--workers", number], most=octets, stdout=out)
                    tries.is_so(f"{command[0]}: the output behind {octets} octets, {number} workers", calls(place, 1), (1, 0))
            for octets in (0, 6, 21):
                with open(f"{place.room}/told", "wb") as told:
                    traced(tries, place, ["live", "mib", "feed", "desk", "--workers", number], most=octets, stderr=told)
                failed, behind = calls(place, 2)
                tries.is_so(f"the replies behind {octets} octets, {number} workers", (failed, behind), (2, 1))
    print(f"{tries.made} tries, {tries.wrong} wrong")
    return 1 if tries.wrong else 0


if __name__ == "__main__":
    sys.exit(main())
