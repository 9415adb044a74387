#!/usr/bin/env python3
"""Prints how long a save takes in folders of 10,000, 100,000 and 1,500,000 rows, and in further folders.

    bench/saves.py FOLDER PROGRAM [MORE..]

Makes in FOLDER what bench/generate.py makes, where it isn't there. For each folder a desk of SAVES cycles puts one row, which
has one field changed, into one of five tables in turn and saves; the feed is empty. The time of the same run with no cycle is
taken off, the best of REPEATS each. The rest by the number of cycles is a save with its put, in milliseconds.
"""
import os
import random
import subprocess
import sys
import time

import generate

SAVES = 50
REPEATS = int(os.environ.get("REPEATS", "3"))
# Which field of a row of each table becomes which text in cycle k.
CHANGES = {
    "ocp": (3, lambda k: f"-{k + 1}"),
    "cap": (2, lambda k: f"{k}.125"),
    "pcf": (14, lambda k: str(k % 6 + 1)),
    "mcf": (2, lambda k: f"{k}.75"),
    "ocf": (1, lambda k: str(k % 9 + 3)),
}


def rows_of(folder, table):
    with open(os.path.join(folder, table + ".dat"), encoding="latin-1") as file:
        return [line.rstrip("\n").split("\t") for line in file]


def cycles(folder, rng):
    """The lines of a desk that puts a changed row and saves, over and over."""
    tables = {table: rows for table in CHANGES if (rows := rows_of(folder, table))}
    # A soft limit of numbers can be moved; an ocp row of another kind may not have a number there.
    tables["ocp"] = [row for row in tables["ocp"] if row[2] == "S"]
    for k in range(SAVES):
        table = list(CHANGES)[k % len(CHANGES)]
        place, text = CHANGES[table]
        row = list(rng.choice(tables[table]))
        row += [""] * (place + 1 - len(row))
        row[place] = text(k)
        yield "\t".join([f"put {table}", *row])
        yield "save"


def seconds(program, folder, feed, lines):
    """Best time of a live run, and how many of its lines were replied to with a save."""
    with open(feed + ".desk", "w", encoding="latin-1") as file:
        file.writelines(line + "\n" for line in ["go", *lines])
    best, said = float("inf"), b""
    for _ in range(REPEATS):
        start = time.perf_counter()
        run = subprocess.run([program, "live", folder, feed, feed + ".desk"], stdout=subprocess.PIPE, stderr=subprocess.PIPE)
        best = min(best, time.perf_counter() - start)
        said = run.stdout + run.stderr
    return best, said.count(b"SAVED")


def main():
    top, program, more = sys.argv[1], sys.argv[2], sys.argv[3:]
    subprocess.run([sys.executable, os.path.join(os.path.dirname(__file__), "generate.py"), top], check=True)
    feed = os.path.join(top, "empty.feed")
    open(feed, "wb").close()
    print("| folder | saves | milliseconds a save |\n|---|---|---|")
    for folder in [*(os.path.join(top, f"rows_{count}") for count in generate.ROWS), *more]:
        empty, _ = seconds(program, folder, feed, [])
        full, saved = seconds(program, folder, feed, list(cycles(folder, random.Random(1))))
        print(f"| {os.path.basename(os.path.normpath(folder))} | {saved} | {(full - empty) / SAVES * 1000:.2f} |", flush=True)


if __name__ == "__main__":
    main()
