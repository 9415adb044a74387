#!/usr/bin/env python3
"""Compares the summaries of generated runs with those of a second generator and count.

    checks/drill.py PROGRAM [SEED [RUNS]]

RUNS seeds, 0, 1 and 2^64 - 1 among them, are drawn by SEED. For each of them the feed is generated here, by "The generated
run" of docs/FORMATS.md, its packets are told apart and its alarms counted by that page, and the eleven lines are compared
with what `PROGRAM drill` prints. Of the first, tables and feed are written as files too, which `PROGRAM decode` is to print
with the same counts.
"""
import os
import random
import struct
import subprocess
import sys
import tempfile

PACKETS, KINDS = 20_000, 8
LOW, HIGH, IN_A_ROW = 1000, 60000, 2


def draws(state):
    while True:
        state = (state * 6364136223846793005 + 1442695040888963407) % 2**64
        yield state // 2**32


def packets(seed):
    """APID, index and both values of each packet."""
    numbers = draws(seed)
    for index in range(PACKETS):
        kind = next(numbers) % 9
        yield 300 if kind == 8 else 100 + kind, index, next(numbers) % 65536, next(numbers) % 65536


def octets(apid, index, first, second):
    return struct.pack(">HHHBBBBHH", 0x0800 + apid, 0xC000 + index % 16384, 7, 0x10, 3, 25, 0, first, second)


class Check:
    """Soft limits of a parameter, told at the second sample in a row that is outside them."""

    def __init__(self):
        self.outside, self.told = 0, False

    def sample(self, number):
        """1 where an alarm is told, -1 where it is taken back, else 0."""
        if LOW <= number <= HIGH:
            change = -1 if self.told else 0
            self.outside, self.told = 0, False
            return change
        self.outside += 1
        if self.told or self.outside < IN_A_ROW:
            return 0
        self.told = True
        return 1


def summary(kinds, unknown, alarms, clears):
    lines = [f"SPID {i} COUNT {kinds[i]}\n" for i in range(1, KINDS + 1)]
    return "".join(lines + [f"UNKNOWN {unknown}\n", f"ALARMS {alarms}\n", f"CLEARS {clears}\n"])


def expected(seed):
    kinds, unknown = dict.fromkeys(range(1, KINDS + 1), 0), 0
    checks, changes = [Check() for _ in range(2 * KINDS)], []
    for apid, _, first, second in packets(seed):
        if apid == 300:
            unknown += 1
            continue
        spid = apid - 99
        kinds[spid] += 1
        changes += [checks[2 * spid - 2].sample(first), checks[2 * spid - 1].sample(second)]
    return summary(kinds, unknown, changes.count(1), changes.count(-1))


def write_tables(folder):
    numbers = range(2 * KINDS)
    rows = {
        "pcf": [f"D{j}||||3|12||||N|R|{'' if j % 2 else 'CV'}" for j in numbers],
        "pid": [f"3|25|{99 + i}|||{i}" for i in range(1, KINDS + 1)],
        "plf": [f"D{j}|{j // 2 + 1}|{12 if j % 2 else 10}|0" for j in numbers],
        "caf": ["CV||R|U|D|||F"],
        "cap": ["CV|0|0", "CV|65535|1000"],
        "ocf": [f"D{j}|{IN_A_ROW}||U" for j in numbers],
        "ocp": [f"D{j}|1|S|{LOW}|{HIGH}" for j in numbers],
    }
    os.mkdir(folder)
    for table, lines in rows.items():
        with open(os.path.join(folder, table + ".dat"), "w") as file:
            file.write("".join(line.replace("|", "\t") + "\n" for line in lines))


def counted(text):
    """The summary of a decoded text's lines."""
    lines = text.splitlines()
    heads = [line for line in lines if line.startswith("PKT ")]
    kinds = {i: sum(line.endswith(f" SPID {i}") for line in heads) for i in range(1, KINDS + 1)}
    unknown = sum(line.endswith(" UNKNOWN") for line in heads)
    alarms = sum(line.startswith("  ALARM ") for line in lines)
    return summary(kinds, unknown, alarms, sum(line.startswith("  CLEAR ") for line in lines))


def run(*words):
    return subprocess.run(words, stdout=subprocess.PIPE, check=True).stdout.decode()


def main():
    program = os.path.realpath(sys.argv[1])
    seed, runs = (int(word) for word in (sys.argv[2:] + ["1", "100"][len(sys.argv) - 2:])[:2])
    drawn = random.Random(seed)
    seeds = ([0, 1, 2**64 - 1] + [drawn.randrange(2**64) for _ in range(runs)])[:runs]
    for each in seeds:
        if run(program, "drill", str(each)) != expected(each):
            sys.exit(f"drill {each} differs")
    with tempfile.TemporaryDirectory() as scratch:
        tables, feed = os.path.join(scratch, "mib"), os.path.join(scratch, "feed")
        write_tables(tables)
        with open(feed, "wb") as file:
            file.write(b"".join(octets(*packet) for packet in packets(seeds[0])))
        if counted(run(program, "decode", tables, feed)) != expected(seeds[0]):
            sys.exit(f"the tables and the feed of {seeds[0]}, decoded as files, differ")
    print(f"the summaries of {len(seeds)} generated runs agree (seed {seed})")


if __name__ == "__main__":
    main()
