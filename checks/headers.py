#!/usr/bin/env python3
"""Compares the heads of records with tshark's dissector of CCSDS space packets.

    checks/headers.py PROGRAM [SEED]

Random packets are decoded by PROGRAM with empty tables and dissected by tshark: the cut, version, type, APID and count
have to agree, and with them BAD VERSION, BAD TELECOMMAND and IDLE.
"""
import os
import random
import struct
import subprocess
import sys
import tempfile

PACKETS = 5_000
LINK_TYPE = 147
FIELDS = ["frame.len", "ccsds.version", "ccsds.type", "ccsds.secheader", "ccsds.apid", "ccsds.seqnum", "ccsds.length"]
USER_DLT = 'uat:user_dlts:"User 0 (DLT=147)","ccsds","0","","0",""'


def packet(rng):
    """A packet of a random header, most of them telemetry of version 0."""
    version = rng.choice([0, 0, 0, 0, rng.randrange(8)])
    kind = rng.choice([0, 0, 0, 1])
    apid = rng.choice([2047, rng.randrange(2048), rng.randrange(2048)])
    body = bytes(rng.getrandbits(8) for _ in range(rng.randint(1, 60)))
    first = version << 13 | kind << 12 | rng.getrandbits(1) << 11 | apid
    return struct.pack(">HHH", first, rng.getrandbits(16), len(body) - 1) + body


def dissected(path, packets):
    """What tshark shows of each packet."""
    with open(path, "wb") as file:
        file.write(struct.pack("<IHHiIII", 0xA1B2C3D4, 2, 4, 0, 0, 262144, LINK_TYPE))
        for octets in packets:
            file.write(struct.pack("<IIII", 0, 0, len(octets), len(octets)) + octets)
    words = ["tshark", "-r", path, "-o", USER_DLT, "-T", "fields"]
    for field in FIELDS:
        words += ["-e", field]
    shown = subprocess.run(words, stdout=subprocess.PIPE, stderr=subprocess.DEVNULL, check=True).stdout.decode()
    return [[int(x, 0) for x in line.split("\t")] for line in shown.splitlines()]


def head(number, fields):
    """The first line of a record, as far as the primary header decides it."""
    size, version, kind, secondary, apid, count, length = fields
    if size != length + 7:
        sys.exit(f"packet {number}: {size} octets, and a length of {length}")
    start = f"PKT {number} APID {apid} COUNT {count} "
    if version != 0:
        return start + "BAD VERSION"
    if kind == 1:
        return start + "BAD TELECOMMAND"
    if apid == 2047:
        return start + "IDLE"
    if secondary and size < 9:
        return start + "BAD SHORT"
    return start + "TYPE "


def main():
    program, seed = sys.argv[1], int(sys.argv[2]) if len(sys.argv) > 2 else 1
    rng = random.Random(seed)
    packets = [packet(rng) for _ in range(PACKETS)]
    with tempfile.TemporaryDirectory() as top:
        mib, feed = os.path.join(top, "mib"), os.path.join(top, "feed")
        os.mkdir(mib)
        with open(feed, "wb") as file:
            file.write(b"".join(packets))
        printed = subprocess.run([program, "decode", mib, feed], stdout=subprocess.PIPE, check=True).stdout.decode().splitlines()
        shown = dissected(os.path.join(top, "feed.pcap"), packets)
    if len(printed) != len(packets) or len(shown) != len(packets):
        sys.exit(f"{len(packets)} packets, {len(printed)} records, {len(shown)} frames")
    for number, (line, fields) in enumerate(zip(printed, shown), 1):
        expected = head(number, fields)
        if not (line.startswith(expected) if expected.endswith("TYPE ") else line == expected):
            sys.exit(f"{line!r} is printed, {expected!r} expected")
    print(f"{len(packets)} headers agree with tshark")


main()
