#!/usr/bin/env python3
"""Compares printed raw values with the package python3-bitstruct.

    checks/raw_values.py PROGRAM [SEED]

For every type of parameter with a fixed width and every bit at which a value may start in an octet there is a parameter
with a place in one packet. Feeds of random packets are decoded by PROGRAM, and each line is compared with what bitstruct
unpacks of the packet's octets. Fields of times are compared field by field.
"""
import os
import random
import subprocess
import sys
import tempfile

import bitstruct

HEADER = bytes([0x08, 0x64, 0xC0, 0x00])
FIELD_HEADER = bytes([0x10, 3, 25, 0])
PACKETS = 40


def integer_width(pfc):
    return pfc + 4 if pfc <= 12 else {13: 24, 14: 32, 15: 48, 16: 64}[pfc]


def types():
    """Triples of a type, a format and the widths of the fields of its values, with the letter of their form."""
    yield 1, 0, [("u", 1)]
    for pfc in range(1, 33):
        yield 2, pfc, [("u", pfc)]
    for pfc in range(17):
        yield 3, pfc, [("u", integer_width(pfc))]
        yield 4, pfc, [("s", integer_width(pfc))]
    for pfc, width in ((1, 32), (2, 64), (3, 32), (4, 48)):
        yield 5, pfc, [("real", width)]
    for pfc in range(1, 65):
        yield 6, pfc, [("u", pfc)]
    for pfc in (1, 2, 3, 17, 1024):
        yield 7, pfc, [("octets", 8 * pfc)]
        yield 8, pfc, [("chars", 8 * pfc)]
    yield 9, 1, [("time", 16), ("time", 32)]
    yield 9, 2, [("time", 16), ("time", 32), ("time", 16)]
    for ptc in (9, 10):
        for pfc in range(3, 19):
            coarse, fine = (pfc + 1) // 4, (pfc + 1) % 4
            yield ptc, pfc, [("time", 8 * coarse)] + ([("time", 8 * fine)] if fine else [])


def quoted(octets):
    shown = "".join(chr(o) if 0x20 <= o <= 0x7E and o not in (0x22, 0x5C) else f"\\x{o:02X}" for o in octets)
    return f'"{shown}"'


def swapped(octets):
    return octets[::-1]


def text(fields, packet, at, little):
    """The raw text of a value at a bit, by bitstruct."""
    form, width = fields[0]
    if form in ("u", "s"):
        octets, start = packet, at
        if little:
            bits = bitstruct.unpack_from(f"r{width}", packet, at)[0]
            octets, start = swapped(bits[: width // 8]), 0
        return str(bitstruct.unpack_from(f"{form}{width}", octets, start)[0])
    raw = [bitstruct.unpack_from(f"r{w}", packet, at + sum(x for _, x in fields[:i]))[0] for i, (_, w) in enumerate(fields)]
    if form == "real":
        octets = swapped(raw[0]) if little else raw[0]
        return "REAL:" + octets.hex().upper()
    if form == "octets":
        return "HEX:" + raw[0].hex().upper()
    if form == "chars":
        return quoted(raw[0])
    return "TIME:" + ":".join(str(int.from_bytes(octets, "big")) for octets in raw)


def may_be_little(fields):
    form, width = fields[0]
    return form in ("u", "s", "real") and width % 8 == 0


def cases():
    """Each type at each bit of an octet, in both orders of octets where it has two."""
    for ptc, pfc, fields in types():
        for bit in range(8):
            for little in (False, True) if may_be_little(fields) else (False,):
                yield ptc, pfc, fields, bit, little


def main():
    program, seed = sys.argv[1], int(sys.argv[2]) if len(sys.argv) > 2 else 1
    rng = random.Random(seed)
    compared = 0
    everything = list(cases())
    with tempfile.TemporaryDirectory() as top:
        mib = os.path.join(top, "mib")
        os.mkdir(mib)
        size = 1200
        places = []
        with open(os.path.join(mib, "pcf.dat"), "w") as pcf, open(os.path.join(mib, "plf.dat"), "w") as plf:
            for i, (ptc, pfc, fields, bit, little) in enumerate(everything):
                width = sum(w for _, w in fields)
                octet = rng.randint(10, size - (width + 7) // 8 - 1)
                columns = [f"V{i}", "", "", "", ptc, pfc, "", "", "", "N", "R"] + [""] * 11 + ["L" if little else "B"]
                pcf.write("\t".join(map(str, columns)) + "\n")
                plf.write(f"V{i}\t1\t{octet}\t{bit}\n")
                places.append((f"V{i}", fields, 8 * octet + bit, little))
        with open(os.path.join(mib, "pid.dat"), "w") as pid:
            pid.write("3\t25\t100\t\t\t1\n")
        packets = []
        for _ in range(PACKETS):
            body = FIELD_HEADER + bytes(rng.getrandbits(8) for _ in range(size - 10))
            packets.append(HEADER + (len(body) - 1).to_bytes(2, "big") + body)
        feed = os.path.join(top, "feed")
        with open(feed, "wb") as file:
            file.write(b"".join(packets))
        printed = subprocess.run([program, "decode", mib, feed], stdout=subprocess.PIPE, check=True).stdout.decode("latin-1").split("\n")
        lines = iter(printed)
        for number, packet in enumerate(packets, 1):
            head = next(lines)
            expected = f"PKT {number} APID 100 COUNT 0 TYPE 3/25 SPID 1"
            if head != expected:
                sys.exit(f"{head!r} is printed, {expected!r} expected")
            for name, fields, at, little in places:
                line, expected = next(lines), f"  {name} {text(fields, packet, at, little)}"
                if line != expected:
                    sys.exit(f"packet {number}, bit {at}: {line!r} is printed, {expected!r} expected")
                compared += 1
    print(f"{compared} values of {len(everything)} types at all bits of an octet agree with bitstruct")


main()
