#!/usr/bin/env python3
"""Writes the packets of a feed one by one, with a pause behind each: a receiver for a rehearsal of a live run.

    tools/pace.py FEED SECONDS | mibtm live MIB - /dev/tty > RECORDS        FEED - is standard input

Packets are cut by their length fields. A rest that is no whole packet is written as it is, and told with status 1. Not part of what
is proved.
"""
import sys
import time

import helper_words

HEADER = 6


def packets(feed):
    """The packets of a feed, and a rest that is none."""
    while head := feed.read(HEADER):
        yield head + feed.read(int.from_bytes(head[4:], "big") + 1 if len(head) == HEADER else 0)


def is_whole(packet):
    return len(packet) > HEADER and len(packet) == HEADER + int.from_bytes(packet[4:HEADER], "big") + 1


def main(given):
    with sys.stdin.buffer if given.feed == "-" else open(given.feed, "rb") as feed:
        for packet in packets(feed):
            sys.stdout.buffer.write(packet)
            sys.stdout.buffer.flush()
            if not is_whole(packet):
                sys.exit(f"the feed ends inside a packet: {len(packet)} octets are left")
            time.sleep(given.seconds)


def pause(text):
    if not 0 <= float(text) < 1e6:
        raise ValueError
    return float(text)


if __name__ == "__main__":
    words = helper_words.reader(__doc__)
    words.add_argument("feed", metavar="FEED", help="a file of packets, or - for standard input")
    words.add_argument("seconds", metavar="SECONDS", type=pause, help="the pause behind each packet, as 0.5")
    helper_words.run(words, main)
