#!/usr/bin/env python3
"""Writes the asks of printed packets, so that `mibtm build` makes packets with their numbers.

    tools/asks.py RECORDS > ASKS        RECORDS is what `decode` or `live` printed, - is standard input

Of each identified packet whose values end whole there is a line with its SPID, its sequence count, names and raw numbers; texts, octets, reals and
times have the number 0, as `build` wants it. For each other packet stands a comment. Where a parameter has the name of a line behind a packet's
values (SHORT, MANY, NOSTRUCTURE, NOPARAMETER), its value at a packet's end is taken for such a line. Not part of what is proved.
"""
import re
import sys

import helper_words

HEAD = re.compile(r"PKT (\d+) APID \d+ COUNT (\d+) (?:TYPE \d+/\d+ SPID (\d+))?")
ALARM = re.compile(r"  (ALARM|CLEAR) \S+ (HARD|STATUS|DELTA|SOFT)$")
EARLY = re.compile(r"  (SHORT \S+|MANY|NOSTRUCTURE -?\d+|NOPARAMETER -?\d+)$")
NUMBER = re.compile(r"-?\d+$")


def item(line):
    """The name and the raw number of a value's line."""
    name, raw = line[2:].split(" ", 2)[:2]
    return f"{name} {raw if NUMBER.match(raw) else 0}"


def ask(head, values):
    number, count, spid = HEAD.match(head).groups()
    if spid is None:
        return f"# packet {number} isn't identified"
    if values and EARLY.match(values[-1]):
        return f"# packet {number} ends early"
    return " ".join([spid, count, *map(item, values)])


def asks(lines):
    head, values = None, []
    for line in lines:
        if line.startswith("PKT "):
            if head:
                yield ask(head, values)
            head, values = line, []
        elif line.startswith("  ") and not ALARM.match(line):
            values.append(line.rstrip("\n"))
    if head:
        yield ask(head, values)


def main(given):
    with sys.stdin if given.records == "-" else open(given.records, encoding="latin-1") as lines:
        for line in asks(lines):
            print(line)


if __name__ == "__main__":
    words = helper_words.reader(__doc__)
    words.add_argument("records", metavar="RECORDS", help="printed records, or - for standard input")
    helper_words.run(words, main)
