#!/usr/bin/env python3
"""Prints how many instructions a packet or a value takes, by callgrind, which is repeatable where times are not.

    bench/instructions.py FOLDER PROGRAM [PROGRAM..]

Makes in FOLDER what bench/generate.py makes, where it isn't there. Each program decodes the first FEW and the first MANY packets
of a feed, and the difference is divided by the packets between, or by their values, so that opening doesn't count. For a feed of
many kinds the first packets of each kind are behind it. Takes `valgrind`.
"""
import concurrent.futures
import os
import re
import subprocess
import sys
import tempfile

import generate

# Name, folder, feed, packets before and in all, octets and counted things of a packet.
CASES = [
    ("a packet of two values of 16 bits by three tables", "fixed", "fixed.feed", 1_000, 6_000, 14, 1),
    ("a packet of 20 values of all types, 1,500 kinds", "typed_1500", "typed_1500.feed", 8_000, 10_000, None, 1),
] + [(f"a value by {name}", f"curve_{name}", "curves.feed", 1_000, 6_000, 10 + 2 * generate.CURVE_VALUES, generate.CURVE_VALUES) for name in generate.CURVES]


def first_packets(feed, count, size):
    """The octets of the first packets of a feed, each of `size` octets where that is known."""
    with open(feed, "rb") as file:
        if size:
            return file.read(count * size)
        pieces = []
        for _ in range(count):
            head = file.read(6)
            pieces.append(head + file.read(int.from_bytes(head[4:6], "big") + 1))
        return b"".join(pieces)


def instructions(program, folder, feed, count, size):
    """How many instructions a program takes to decode the first packets of a feed."""
    with tempfile.NamedTemporaryFile() as part:
        part.write(first_packets(feed, count, size))
        part.flush()
        call = ["valgrind", "--tool=callgrind", "--callgrind-out-file=/dev/null", program, "decode", folder, part.name]
        said = subprocess.run(call, stdout=subprocess.DEVNULL, stderr=subprocess.PIPE, text=True, check=True).stderr
    return int(re.search(r"Collected : (\d+)", said).group(1))


def main():
    top, programs = sys.argv[1], sys.argv[2:]
    subprocess.run([sys.executable, os.path.join(os.path.dirname(__file__), "generate.py"), top], check=True)
    print("| instructions |" + "".join(f" {os.path.basename(p)} |" for p in programs))
    print("|---|" + "---|" * len(programs))
    with concurrent.futures.ThreadPoolExecutor(os.cpu_count()) as pool:
        counts = {}
        for name, folder, feed, few, many, size, _ in CASES:
            for program in programs:
                for count in (few, many):
                    words = (program, os.path.join(top, folder), os.path.join(top, feed), count, size)
                    counts[name, program, count] = pool.submit(instructions, *words)
        for name, _, _, few, many, _, values in CASES:
            each = [(counts[name, p, many].result() - counts[name, p, few].result()) / (many - few) / values for p in programs]
            print(f"| {name} |" + "".join(f" {count:,.0f} |" for count in each))


if __name__ == "__main__":
    main()
