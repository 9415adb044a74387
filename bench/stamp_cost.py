#!/usr/bin/env python3
"""Times a stamp of a register beside a lock and unlock of a mutex, neither of them contended.

    bench/stamp_cost.py FOLDER

Lays out this repository in FOLDER with one crate more, the program in bench/stamp_cost, proves and builds it there, and
prints its seven rounds of 1,000,000 calls each and their medians, in nanoseconds. Each round times both, one behind the other.
"""
import os
import shutil
import statistics
import subprocess
import sys

CALLS = 1_000_000

HERE = os.path.dirname(os.path.abspath(__file__))
TOP = os.path.dirname(HERE)
CRATE = "stamp_cost may_wait=2: edition_register mib_model turn_cell anyhow\n"


def lay_out(folder):
    shutil.copytree(os.path.join(TOP, "crates"), os.path.join(folder, "crates"), ignore=shutil.ignore_patterns("out"))
    shutil.copy(os.path.join(TOP, "HANDLES"), folder)
    with open(os.path.join(TOP, "crates.txt")) as file:
        lines = file.read()
    with open(os.path.join(folder, "crates.txt"), "w") as file:
        file.write(lines + CRATE)
    crate = os.path.join(folder, "crates", "stamp_cost")
    for place, name in (("src/main.rt", "program.txt"), ("proofs/stamp_all/Invariants.antt", "invariants.txt")):
        path = os.path.join(crate, place)
        os.makedirs(os.path.dirname(path), exist_ok=True)
        shutil.copy(os.path.join(HERE, "stamp_cost", name), path)
    open(os.path.join(crate, "proofs", "Lib.antt"), "w").close()
    return crate


def main():
    folder = os.path.abspath(sys.argv[1])
    crate = lay_out(folder)
    subprocess.run(["rt", "run", "--jobs", "2"], cwd=crate, stdout=subprocess.DEVNULL, check=True)
    text = subprocess.run([os.path.join(crate, "out", "stamp_cost")], stdout=subprocess.PIPE, check=True).stdout.decode()
    rounds = [tuple(int(word) / CALLS for word in line.split()) for line in text.splitlines()]
    for stamp, lock in rounds:
        print(f"stamp {stamp:.1f} ns, lock and unlock {lock:.1f} ns")
    stamp, lock = (statistics.median(column) for column in zip(*rounds))
    print(f"medians: stamp {stamp:.1f} ns, lock and unlock {lock:.1f} ns, {stamp - lock:.1f} ns more")


main()
