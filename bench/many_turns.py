#!/usr/bin/env python3
"""Lets four threads take 10,000,000 turns at one sum, and compares what comes of it with the exact numbers.

    bench/many_turns.py FOLDER

Lays out in FOLDER the crate turn_cell, the one below it, and the program in bench/many_turns, proves, builds and runs it there, and
runs it once more for the clock. Prints the number of turns, the sum, and the seconds. The reply to a turn is the sum before it,
so it is never below the sum that the caller's own turn before had left: the program counts the replies that are, and those above
it, where other callers had come between. Ends with status 1 where the turns, the sum or the replies below aren't the exact ones.
"""
import os
import shutil
import subprocess
import sys
import time

TURNS_OF_EACH = 2_500_000
AMOUNTS = (1, 3, 5, 7)

HERE = os.path.dirname(os.path.abspath(__file__))
TOP = os.path.dirname(HERE)
CRATES = ("histories", "turn_cell")
CRATE = "many_turns may_wait=5: turn_cell anyhow\n"
TEXTS = (
    ("src/main.rt", "program.txt"),
    ("specs/Callers.antt", "callers.txt"),
    ("proofs/take_turns/Invariants.antt", "invariants.txt"),
    ("proofs/main/Answers.antt", "answers.txt"),
)


def lay_out(folder):
    for name in CRATES:
        source, place = (os.path.join(top, "crates", name) for top in (TOP, folder))
        shutil.copytree(source, place, ignore=shutil.ignore_patterns("out"))
    shutil.copy(os.path.join(TOP, "HANDLES"), folder)
    with open(os.path.join(TOP, "crates.txt")) as file:
        lines = [line for line in file if any(line.startswith((name + ":", name + " ")) for name in CRATES)]
    with open(os.path.join(folder, "crates.txt"), "w") as file:
        file.writelines(lines + [CRATE])
    crate = os.path.join(folder, "crates", "many_turns")
    for place, name in TEXTS:
        path = os.path.join(crate, place)
        os.makedirs(os.path.dirname(path), exist_ok=True)
        shutil.copy(os.path.join(HERE, "many_turns", name), path)
    with open(os.path.join(crate, "specs", "Lib.antt"), "w") as file:
        file.write("pub mod Callers\n")
    open(os.path.join(crate, "proofs", "Lib.antt"), "w").close()
    return crate


def main():
    folder = os.path.abspath(sys.argv[1])
    crate = lay_out(folder)
    subprocess.run(["rt", "run", "--jobs", "2"], cwd=crate, stdout=subprocess.DEVNULL, check=True)
    started = time.monotonic()
    run = subprocess.run([os.path.join(crate, "out", "many_turns")], stdout=subprocess.PIPE, check=True)
    seconds = time.monotonic() - started
    turns, total, below, above = (int(word) for word in run.stdout.split())
    print(f"{turns:,} turns, sum {total:,}, {below:,} replies below and {above:,} above the caller's own last sum, {seconds:.1f} s")
    exact = (len(AMOUNTS) * TURNS_OF_EACH, sum(AMOUNTS) * TURNS_OF_EACH, 0)
    if (turns, total, below) != exact:
        print("exact: {:,} turns, sum {:,}, {:,} replies below".format(*exact))
        sys.exit(1)


main()
