#!/usr/bin/env python3
"""Compares `PROGRAM decode` with the interpreter of reference.py over random sound missions, with 1 to 16 workers.

    checks/random_decodes.py PROGRAM [RUNS [SEED]]

Prints each run that differs, which it leaves in the folder differs_SEED, and how many were run and refused.
"""
import os
import random
import subprocess
import sys
import tempfile

import random_missions
import reference

# So many packets has a feed; of the long ones several workers draw many ahead.
PACKETS = (40, 40, 40, 40, 800)


def run(program, seed, folder):
    """A word of what came of a run: equal, refused or differs."""
    rng = random.Random(seed)
    mission = random_missions.Mission(rng)
    tables, feed = os.path.join(folder, "tables"), os.path.join(folder, "feed")
    random_missions.write_folder(tables, mission.tables)
    octets = mission.feed(rng.choice(PACKETS))
    with open(feed, "wb") as file:
        file.write(octets)
    workers = str(rng.choice([1, 1, 2, 4, 16]))
    done = subprocess.run([program, "decode", tables, feed, "--workers", workers], stdout=subprocess.PIPE, stderr=subprocess.PIPE)
    if done.returncode == 3:
        return "refused " + done.stderr.decode().strip()
    expected = reference.output({1: reference.read_folder(tables)}, lambda number: 1, octets).encode("latin-1")
    status = 5 if reference.cut(octets)[1] else 0
    return "equal" if (done.stdout, done.returncode) == (expected, status) else "differs"


def main():
    program = os.path.abspath(sys.argv[1])
    runs, first = (int(word) for word in (sys.argv[2:] + ["1000", "1"][len(sys.argv) - 2:])[:2])
    counts = {}
    for seed in range(first, first + runs):
        with tempfile.TemporaryDirectory() as folder:
            found = run(program, seed, folder)
            if found == "differs":
                os.makedirs("differs_%d" % seed, exist_ok=True)
                subprocess.run(["cp", "-r", folder + "/.", "differs_%d" % seed])
        if found != "equal":
            print(seed, found)
        counts[found.split()[0]] = counts.get(found.split()[0], 0) + 1
    print(", ".join("%d %s" % (count, word) for word, count in sorted(counts.items())))
    sys.exit(1 if counts.get("differs") or not counts.get("equal") else 0)


if __name__ == "__main__":
    main()
