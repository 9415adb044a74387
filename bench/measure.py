#!/usr/bin/env python3
"""Prints the tables of docs/SPEED.md.

    bench/measure.py FOLDER PROGRAM [PROGRAM..]

Makes in FOLDER what bench/generate.py makes, where it isn't there, and runs the programs in turn, REPEATS rounds: the
best time from start to end and the greatest resident set count; a set below some 18 MB is the script's own. Further
programs have to have the same command line; their columns are followed by the time as a multiple of theirs. What they
print has to be the same.
"""
import hashlib
import os
import subprocess
import sys
import time

import generate

REPEATS = int(os.environ.get("REPEATS", "5"))


def cases(top):
    """Pairs of a name and the words of a call."""
    for count in generate.ROWS:
        yield f"check, {count:,} rows", ["check", os.path.join(top, f"rows_{count}")]
    yield "check, as large as a mission's", ["check", os.path.join(top, "mission")]
    for count in generate.NESTED:
        yield f"check, a structure of {count:,} rows", ["check", os.path.join(top, f"nested_{count}")]
    yield f"decode, {generate.PACKETS:,} packets", ["decode", os.path.join(top, "fixed"), os.path.join(top, "fixed.feed")]
    for kinds in generate.KINDS:
        yield f"decode, {generate.TYPED_PACKETS:,} packets of {kinds:,} kinds", ["decode", os.path.join(top, f"typed_{kinds}"), os.path.join(top, f"typed_{kinds}.feed")]
    for name in generate.CURVES:
        feed = os.path.join(top, "curves.feed")
        yield f"decode, {generate.CURVE_PACKETS * generate.CURVE_VALUES:,} values by {name}", ["decode", os.path.join(top, f"curve_{name}"), feed]
    for name in generate.WALKS:
        yield f"decode, {generate.WALK_PACKETS} packets by {name}", ["decode", os.path.join(top, f"walk_{name}"), os.path.join(top, f"walk_{name}.feed")]


def timed(program, words):
    """Seconds and the peak of memory in MB of a call, whose output is dropped."""
    start = time.perf_counter()
    child = subprocess.Popen([program, *words], stdout=subprocess.DEVNULL)
    _, status, usage = os.wait4(child.pid, 0)
    seconds = time.perf_counter() - start
    if status:
        sys.exit(f"{program} {' '.join(words)}: status {os.waitstatus_to_exitcode(status)}")
    return seconds, usage.ru_maxrss / 1024


def digest(program, words):
    """The sum of what a call prints."""
    with subprocess.Popen([program, *words], stdout=subprocess.PIPE) as run:
        total = hashlib.sha256()
        while piece := run.stdout.read(1 << 20):
            total.update(piece)
    return total.hexdigest()


def main():
    top, programs = sys.argv[1], sys.argv[2:]
    subprocess.run([sys.executable, os.path.join(os.path.dirname(__file__), "generate.py"), top], check=True)
    heads = "".join(f" {os.path.basename(p)}: seconds | peak memory |" for p in programs)
    print(f"| work |{heads}" + (" times as long |" * (len(programs) - 1)))
    print("|---|" + "---|---|" * len(programs) + "---|" * (len(programs) - 1))
    for name, words in cases(top):
        best = [(float("inf"), 0.0)] * len(programs)
        for _ in range(REPEATS):
            for i, program in enumerate(programs):
                seconds, memory = timed(program, words)
                best[i] = min(best[i][0], seconds), max(best[i][1], memory)
        if len({digest(program, words) for program in programs}) > 1:
            sys.exit(f"{name}: the programs print different texts")
        row = "".join(f" {seconds:.3f} | {memory:.0f} MB |" for seconds, memory in best)
        row += "".join(f" {best[0][0] / seconds:.2f} |" for seconds, _ in best[1:])
        print(f"| {name} |{row}")


if __name__ == "__main__":
    main()
