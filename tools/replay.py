#!/usr/bin/env python3
"""Makes of a live run's script and its replies the script that prints the records of that run again.

    tools/replay.py DESK REPLIES > AGAIN
    mibtm live MIB ARCHIVE AGAIN > RECORDS

Edits and saves come first, then each activation that took effect, by the packet from which it did, then `go`. At most 16
activations may be to come at once, so a run with more is refused here, with status 1. Not part of what is proved.
"""
import sys

import helper_words

MOST = 16


def lines_of(text):
    """The lines of a script that have a reply."""
    lines = text[:-1].split(b"\n") if text.endswith(b"\n") else text.split(b"\n")
    lines = [it[:-1] if it.endswith(b"\r") else it for it in lines]
    return [it for it in lines if it and not it.startswith(b"#")]


def replayed(script, replies):
    """The lines that make the same editions, and the (packet, edition) of each activation that took effect."""
    kept, schedule = [], {}
    for line, reply in zip(lines_of(script), replies.split(b"\n")):
        if reply in (b"WANT", b"BADLINE", b"TOOLONG", b"BADTABLE"):
            continue
        if line.startswith((b"put ", b"del ")) or line in (b"save", b"drop"):
            kept.append(line)
        elif line.startswith(b"use ") and reply.startswith(b"USED "):
            edition, first = int(reply.split()[1]), int(reply.split()[3])
            if line.count(b" ") == 1:
                schedule = {packet: it for packet, it in schedule.items() if packet < first}
            schedule[first] = edition
    return kept, sorted(schedule.items())


def main(given):
    with open(given.desk, "rb") as script, open(given.replies, "rb") as replies:
        kept, schedule = replayed(script.read(), replies.read())
    if len(schedule) > MOST:
        sys.exit(f"{len(schedule)} activations took effect, and at most {MOST} can be to come at once")
    for line in [*kept, *[b"use %d from %d" % (edition, packet) for packet, edition in schedule], b"go"]:
        sys.stdout.buffer.write(line + b"\n")


if __name__ == "__main__":
    words = helper_words.reader(__doc__)
    words.add_argument("desk", metavar="DESK", help="the script of the live run")
    words.add_argument("replies", metavar="REPLIES", help="what stood on its standard error")
    helper_words.run(words, main)
