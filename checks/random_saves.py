#!/usr/bin/env python3
"""Checks editions that `PROGRAM live` amends against those compiled from nothing: a random mission is edited and saved up to 12
times before any packet, each edition is used for 12 packets, and what was printed has to be what the interpreter of reference.py
gives from the rows of each edition alone; the plans that a save tells are counted anew by live_reference.py.

    checks/random_saves.py PROGRAM [PAIRS [SEED]]
"""
import os
import random
import subprocess
import sys
import tempfile

import live_reference
import random_missions
import reference
from random_lives import Script

SAVES, PACKETS = 12, 12


def edit(script):
    """A line that changes the draft."""
    if script.rng.random() < 0.15:
        return script.deleted()
    table, row = script.changed()
    return "put %s\t%s" % (table, random_missions.line_of(row))


def lines(rng, mission):
    """Edits and saves, each edition in use for some packets, and then the start of the feed."""
    script, made = Script(rng, mission), []
    for _ in range(SAVES):
        made += [edit(script) for _ in range(rng.choice([1, 1, 2, 3]))] + ["save", "drop"]
    made += ["use %d from %d" % (i + 2, 1 + PACKETS * (i + 1)) for i in range(SAVES)]
    return made + ["go"]


def run(program, seed, folder):
    """A word of what came of a run, and how many editions were saved in it."""
    rng = random.Random(seed)
    mission = random_missions.Mission(rng)
    script, octets = lines(rng, mission), mission.feed(PACKETS * (SAVES + 1))
    tables, feed, desk = (os.path.join(folder, name) for name in ("tables", "feed", "desk"))
    random_missions.write_folder(tables, mission.tables)
    with open(feed, "wb") as file:
        file.write(octets)
    with open(desk, "wb") as file:
        file.write("".join(line + "\n" for line in script).encode("latin-1"))
    done = subprocess.run([program, "live", tables, feed, desk, "--workers", str(rng.choice([1, 1, 4]))],
                          stdout=subprocess.PIPE, stderr=subprocess.PIPE)
    replies = done.stderr.decode("latin-1").splitlines()
    if done.returncode == 3:
        return "refused", 0
    rest = reference.cut(octets)[1]
    if done.returncode != (5 if rest else 0):
        return "differs in status %d" % done.returncode, 0
    try:
        expected = live_reference.output(reference.read_folder(tables), octets, script, replies[:-1] if rest else replies)
    except live_reference.Differs as why:
        return "differs: %s" % why, 0
    saved = sum(1 for reply in replies if reply.startswith("SAVED "))
    return ("equal" if done.stdout.decode("latin-1") == expected else "differs in text"), saved


def main():
    program = os.path.abspath(sys.argv[1])
    wanted, seed = (int(word) for word in (sys.argv[2:] + ["10000", "1"][len(sys.argv) - 2:])[:2])
    runs = pairs = differ = 0
    while pairs < wanted and differ == 0:
        with tempfile.TemporaryDirectory() as folder:
            found, saved = run(program, seed, folder)
            if found.startswith("differs"):
                subprocess.run(["cp", "-r", folder, "differs_%d" % seed])
        if found.startswith("differs"):
            print(seed, found)
            differ += 1
        runs, pairs, seed = runs + 1, pairs + saved, seed + 1
    print("%d saves in %d runs, %d differ" % (pairs, runs, differ))
    sys.exit(1 if differ else 0)


if __name__ == "__main__":
    main()
