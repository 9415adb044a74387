#!/usr/bin/env python3
"""Makes the folders and feeds that docs/SPEED.md speaks of.

    bench/generate.py FOLDER

Below FOLDER come `rows_N`, a sound folder of N rows for each N of ROWS, `nested_N`, one structure of N rows whose groups
are nested to half its depth, for each N of NESTED, `mission`, a sound folder whose tables are as large as a mission's,
most of them places of parameters, and `fixed` with `fixed.feed`, PACKETS packets of two values of 16
bits by three tables, `typed_N` with `typed_N.feed` for each N of KINDS, packets told apart by discriminants with a value of each
type, `walk_NAME` with `walk_NAME.feed` for each NAME of WALKS, WALK_PACKETS packets of one structure or, for `flat`, of one
layout, each with the most values that a packet may have, and `curve_NAME` for each NAME of CURVES, one kind of packet with
CURVE_VALUES values of 16 bits that are calibrated by such a curve, all by the feed `curves.feed`. What is there already is kept.
"""
import os
import random
import struct
import sys

ROWS = (10_000, 100_000, 1_500_000)
NESTED = (8_192, 32_768)
PACKETS = 1_000_000
KINDS = (15, 1_500)
TYPED_PACKETS = 200_000
WALK_PACKETS = 20
CURVE_PACKETS = 200_000
CURVE_VALUES = 20
MOST_VALUES = 8_192
TABLES = 15


def write_tables(folder, tables, rng=None):
    """A file for each table, its rows in random order where there is a generator."""
    os.makedirs(folder, exist_ok=True)
    for name, rows in tables.items():
        if rng:
            rng.shuffle(rows)
        with open(os.path.join(folder, name + ".dat"), "w") as file:
            file.writelines("\t".join(map(str, row)) + "\n" for row in rows)


def parameter(i):
    return f"P{i:07d}"


def curve(i):
    return f"C{i:07d}"


def even_tables(count):
    """Sound tables of so many rows each, which refer to one another in all directions."""
    halves = max(count // 2, 1)
    each = range(count)
    rows = {}
    rows["pcf"] = [(parameter(i), "", "", "", 3, 12, "", parameter(i * 7 % count) if i % 3 == 0 else "",
                    "", "N", "R", curve(i % halves) if i % 2 == 0 else "") for i in each]
    rows["pid"] = [(3, 25, i % 2047, i // 2047, 0, i + 1, "", "", i // 2 + 1 if i % 2 == 0 else -1, 10) for i in each]
    rows["pic"] = [(i % 256, i // 256 % 256, 10, 16, -1, 0, i // 65536) for i in each]
    rows["tpcf"] = [(i + 1, f"packet {i + 1}") for i in each]
    rows["plf"] = [(parameter(i), i % halves * 2 + 2, 12, 0) for i in each]
    # Structure 1 has the rows of half of the table, in groups that are nested to half its depth; the others have one row.
    deep = max(min(halves, 60_000), 2)
    rows["vpd"] = nested_rows(1, deep) + [(2 + i, 0, parameter(i)) for i in range(count - deep)]
    rows["cur"] = [(parameter(i | 1), i % 2 + 1, parameter(i * 3 % count), 1, curve(i % halves)) for i in each if i | 1 < count]
    rows["caf"] = [(curve(i), "", "R", "U", "D", "", "", "P" if i % 2 else "F") for i in range(halves)]
    rows["cap"] = [(curve(i // 2), i % 2 * 10, f"{i}.5") for i in range(2 * halves)]
    rows["txf"] = [(f"T{i:07d}", "", "U") for i in each]
    rows["txp"] = [(f"T{i:07d}", 0, 9, "ON") for i in each]
    rows["mcf"] = [(f"M{i:07d}", "", "1.5", "0.25") for i in each]
    rows["lgf"] = [(f"L{i:07d}",) for i in each]
    rows["ocf"] = [(parameter(i), 2, "", "U") for i in each]
    rows["ocp"] = [(parameter(i), 1, "S", 0, 1000) for i in each]
    return rows


def nested_rows(structure, count):
    """Rows of a structure in falling order of POS: the first half opens groups, each inside the one before."""
    half = count // 2
    rows = [(structure, i, parameter(i % 2), count - 1 - i if i < half else 0, 0) for i in range(count)]
    return rows[::-1]


def nested_tables(count):
    """One packet with one structure of so many rows."""
    return {
        "pcf": [(parameter(i), "", "", "", 3, 12) for i in range(2)],
        "pid": [(3, 25, 100, "", "", 1, "", "", 1, 10)],
        "vpd": nested_rows(1, count),
    }


def mission_tables():
    """Sound tables of the sizes that a mission's have: 20,000 parameters at 69,000 places in 1,500 packets, a third of
    them checked, and 300 curves of each kind."""
    parameters, packets, curves = 20_000, 1_500, 300
    each = range(parameters)
    return {
        "pcf": [(parameter(i), "a parameter", i, "", 3, 12, "", "", "", "S" if i % 7 == 0 else "N", "R",
                 f"T{i % curves:07d}" if i % 7 == 0 else curve(i % curves) if i % 3 == 1 else "") for i in each],
        "pid": [(3, 25, i % 2047, i // 2047, 0, i + 1, "a packet", "", -1, 10) for i in range(packets)],
        "pic": [(i, 25, 10, 16, -1, 0) for i in range(7)],
        "tpcf": [(i + 1, f"packet {i + 1}") for i in range(packets)],
        "plf": [(parameter(i * 7 % parameters), i // 46 + 1, 16 + i % 46 * 2, 0) for i in range(46 * packets)],
        "vpd": [(i // 5 + 1, i % 5, parameter(i % parameters)) for i in range(1_300)],
        "cur": [(parameter(i * 7 + 3), 1, parameter(i), 1, curve(i % curves)) for i in range(450) if (i * 7 + 3) % 3 != 1 and (i * 7 + 3) % 7],
        "caf": [(curve(i), "", "R", "U", "D", "", "", "P" if i % 2 else "F") for i in range(curves)],
        "cap": [(curve(i // 9), i % 9 * 10, f"{i}.5") for i in range(9 * curves)],
        "txf": [(f"T{i:07d}", "", "U") for i in range(curves)],
        "txp": [(f"T{i // 5:07d}", i % 5 * 10, i % 5 * 10 + 9, f"STATE {i % 5}") for i in range(5 * curves)],
        "mcf": [(f"M{i:07d}", "", "1.5", "0.25") for i in range(curves)],
        "lgf": [(f"L{i:07d}",) for i in range(curves)],
        "ocf": [(parameter(i * 3), 2, "", "U") for i in range(6_600)],
        "ocp": [(parameter(i // 2 * 3), i % 2 + 1, "SH"[i % 2], -10 * (i % 2), 1000) for i in range(13_200)],
    }


def fixed_tables():
    """Eight packets of two values each."""
    return {
        "pcf": [(f"D{j}", "", "", "", 3, 12) for j in range(16)],
        "pid": [(3, 25, 99 + i, "", "", i) for i in range(1, 9)],
        "plf": [(f"D{2 * i - 2 + k}", i, 10 + 2 * k, 0) for i in range(1, 9) for k in (0, 1)],
    }


def write_fixed_feed(path, count):
    """Packets of the eight kinds, and of a ninth that no row knows."""
    rng = random.Random(1)
    pack = struct.Struct(">HHHBBBBHH").pack
    with open(path, "wb") as file:
        for i in range(count):
            kind = rng.randrange(9)
            apid = 100 + kind if kind < 8 else 300
            file.write(pack(0x0800 | apid, 0xC000 | i % 16384, 7, 0x10, 3, 25, 0, rng.randrange(65536), rng.randrange(65536)))


# Types of all sorts, with their widths in bits.
TYPES = [(3, 4, 8), (3, 12, 16), (3, 14, 32), (3, 16, 64), (4, 4, 8), (4, 12, 16), (4, 14, 32), (1, 0, 1), (2, 3, 3), (3, 8, 12),
         (5, 1, 32), (5, 2, 64), (7, 4, 32), (8, 8, 64), (9, 1, 48), (9, 2, 64), (10, 18, 56), (10, 15, 32), (3, 13, 24), (6, 48, 48)]


def typed_tables(count):
    """Kinds of packets of one APID, told apart by two discriminants, with a value of each type."""
    bits = [13 * 8 + sum(width for _, _, width in TYPES[:i]) for i in range(len(TYPES))]
    return {
        "pcf": [(f"V{i}", "", "", "", ptc, pfc, "", "", "", "N", "R") for i, (ptc, pfc, _) in enumerate(TYPES)],
        "pid": [(3, 25, 100, i, i % 7, i + 1) for i in range(count)],
        "pic": [(3, 25, 10, 16, 12, 8)],
        "plf": [(f"V{k}", i + 1, bit // 8, bit % 8) for i in range(count) for k, bit in enumerate(bits)],
    }


def write_typed_feed(path, kinds, count):
    """Packets of these kinds."""
    rng = random.Random(3)
    size = (sum(width for _, _, width in TYPES) + 7) // 8
    pack = struct.Struct(">HHHBBBBHB").pack
    with open(path, "wb") as file:
        for i in range(count):
            kind = rng.randrange(kinds)
            file.write(pack(0x0864, 0xC000 | i % 16384, 6 + size, 0x10, 3, 25, 0, kind, kind % 7) + rng.randbytes(size))


def walk_tables(vpd):
    """One kind of packet with values of one and of two bits, by the rows of one structure, or by a layout where there are none."""
    return {
        "pcf": [("BIT", "", "", "", 1, 0), ("PAIR", "", "", "", 2, 2)],
        "pid": [(3, 25, 100, "", "", 1, "", "", 1 if vpd else -1, 4)],
        "plf": [] if vpd else [("BIT", 1, 10, 0, MOST_VALUES, 1)],
        "vpd": vpd,
    }


def value_rows(start, count):
    """Rows of structure 1, a value of one bit each."""
    return [(1, start + i, "BIT", 0, 0) for i in range(count)]


def nested_groups(depth, inside):
    """Groups of structure 1, each inside the one before and walked twice, round so many rows that stand behind them."""
    return [(1, i, "BIT", depth - 1 - i + inside, 2) for i in range(depth)]


def counted_groups(start, depth):
    """Groups of structure 1, each inside the one before and walked as often as its own value of two bits says."""
    return [(1, start + i, "PAIR", depth - i, 0) for i in range(depth)] + value_rows(start + depth, 1)


# Rows of one structure by name: none at all (a layout), a value a row, short groups, and groups nested as deep as may be.
WALKS = {
    "flat": [],
    "rows": value_rows(0, MOST_VALUES),
    "long": [(1, 7 * i + j, "BIT", 6 - j, 1 if j < 6 else 0) for i in range(8_571) for j in range(7)],
    "short": [row for i in range(MOST_VALUES // 8) for row in [(1, 2 * i, "BIT", 1, 8), (1, 2 * i + 1, "BIT", 0, 0)]],
    "deep": nested_groups(16_384, 1) + value_rows(16_384, 1),
    "deep_counted": nested_groups(16_384, 16_385) + counted_groups(16_384, 16_384),
}


def write_walk_feed(path, count):
    """Packets whose bits are all 1."""
    size = (2 * MOST_VALUES + 7) // 8
    with open(path, "wb") as file:
        for i in range(count):
            file.write(struct.pack(">HHHBBBB", 0x0864, 0xC000 | i % 16384, 3 + size, 0x10, 3, 25, 0) + b"\xff" * size)


def sixteen_points():
    """Sixteen points over all numbers of 16 bits, in rising order."""
    rng = random.Random(5)
    xs = sorted(rng.sample(range(1, 65_535), 14) + [0, 65_535])
    return [("C", x, f"{7.37 * i - 50 + rng.random():.4f}") for i, x in enumerate(xs)]


# Category, and the rows of the one curve of each parameter by the table's name: none at all for `none`.
CURVES = {
    "none": ("N", {}),
    "line": ("N", {"caf": [("C", "", "R", "U", "D", "", "", "F")], "cap": [("C", 0, "-10.5"), ("C", 65_535, "400.25")]}),
    "points": ("N", {"caf": [("C", "", "R", "U", "D", "", "", "F")], "cap": sixteen_points()}),
    "polynomial": ("N", {"mcf": [("C", "", "-12.5", "0.0125", "3.5E-7")]}),
    "texts": ("S", {"txf": [("C", "", "U")], "txp": [("C", 8_192 * k, 8_192 * k + 8_191, f"STATE_{k}_ON") for k in range(8)]}),
}


def curve_tables(name):
    """One kind of packet, whose values have this curve."""
    category, rows = CURVES[name]
    each = range(CURVE_VALUES)
    return {
        "pcf": [(f"V{i}", "", "", "", 3, 12, "", "", "", category, "R", "C" if rows else "") for i in each],
        "pid": [(3, 25, 100, "", "", 1)],
        "plf": [(f"V{i}", 1, 10 + 2 * i, 0) for i in each],
        **rows,
    }


def write_curves_feed(path, count):
    """Packets of random numbers of 16 bits."""
    rng = random.Random(9)
    size = 2 * CURVE_VALUES
    with open(path, "wb") as file:
        for i in range(count):
            file.write(struct.pack(">HHHBBBB", 0x0864, 0xC000 | i % 16384, 3 + size, 0x10, 3, 25, 0) + rng.randbytes(size))


def main():
    top = sys.argv[1]
    for count in ROWS:
        folder = os.path.join(top, f"rows_{count}")
        if not os.path.isdir(folder):
            write_tables(folder, even_tables(count // TABLES), random.Random(count))
    for count in NESTED:
        folder = os.path.join(top, f"nested_{count}")
        if not os.path.isdir(folder):
            write_tables(folder, nested_tables(count))
    mission = os.path.join(top, "mission")
    if not os.path.isdir(mission):
        write_tables(mission, mission_tables(), random.Random(2))
    feed = os.path.join(top, "fixed.feed")
    if not os.path.isfile(feed):
        write_tables(os.path.join(top, "fixed"), fixed_tables())
        write_fixed_feed(feed, PACKETS)
    for name, rows in WALKS.items():
        feed = os.path.join(top, f"walk_{name}.feed")
        if not os.path.isfile(feed):
            write_tables(os.path.join(top, f"walk_{name}"), walk_tables(rows))
            write_walk_feed(feed, WALK_PACKETS)
    for kinds in KINDS:
        feed = os.path.join(top, f"typed_{kinds}.feed")
        if not os.path.isfile(feed):
            write_tables(os.path.join(top, f"typed_{kinds}"), typed_tables(kinds))
            write_typed_feed(feed, kinds, TYPED_PACKETS)
    feed = os.path.join(top, "curves.feed")
    if not os.path.isfile(feed):
        for name in CURVES:
            write_tables(os.path.join(top, f"curve_{name}"), curve_tables(name))
        write_curves_feed(feed, CURVE_PACKETS)


if __name__ == "__main__":
    main()
