#!/usr/bin/env python3
"""Compares calibrated values with exact fractions of Python.

    checks/curves.py PROGRAM [SEED [CURVES]]

Random curves of points and of texts and random polynomials, each for one parameter of one packet; feeds of random raw
numbers, half of them at or beside the points of their curves, are decoded by PROGRAM, and each line is compared with what
`fractions.Fraction` gives: halves go away from zero, at the twelfth decimal and again at the printed one, and a magnitude
that reaches its bound is OVER.
"""
import os
import random
import subprocess
import sys
import tempfile
from fractions import Fraction

HEADER = bytes([0x08, 0x64, 0xC0, 0x00])
FIELD_HEADER = bytes([0x10, 3, 25, 0])
PACKETS = 20
BOUND, RESULT_BOUND = 10**37, 10**36
UNIT = 10**12


def half(value):
    """The nearest whole number; a half goes away from zero."""
    shifted = abs(value) + Fraction(1, 2)
    whole = shifted.numerator // shifted.denominator
    return -whole if value < 0 else whole


def count(m, e):
    value = half(Fraction(m) * Fraction(10) ** (e + 12))
    return value if abs(value) < BOUND else (BOUND if m > 0 else -BOUND)


def shown(value, decimals):
    decimals = min(decimals, 12)
    step = 10 ** (12 - decimals)
    rounded = half(Fraction(value, step))
    sign = "-" if rounded < 0 else ""
    whole, rest = divmod(abs(rounded), 10**decimals)
    return f"{sign}{whole}" + (f".{rest:0{decimals}d}" if decimals else "")


def by_points(points, inside, raw):
    points = sorted(points)
    if not points[0][0] <= raw <= points[-1][0] and inside:
        return " ! OUTSIDE"
    at = max((i for i in range(len(points) - 1) if points[i][0] <= raw), default=0)
    (xp, yp), (xq, yq) = points[at], points[at + 1]
    rise, run = yq - yp, xq - xp
    product = (raw - xp) * rise
    if abs(rise) >= BOUND or abs(product) >= BOUND:
        return " ! OVER"
    result = yp + half(Fraction(product, run))
    return " ! OVER" if abs(result) >= RESULT_BOUND else result


def by_polynomial(coefficients, raw):
    scale = max(max(0, -e) for _, e in coefficients)
    wide = [m * 10 ** (e + scale) if m else 0 for m, e in coefficients]
    if any(abs(c) >= BOUND for c in wide):
        return " ! OVER"
    degree = max((i for i, c in enumerate(wide) if c), default=0)
    power, total = 1, 0
    for i in range(degree + 1):
        power = power * raw if i else 1
        term = wide[i] * power
        total += term
        if max(abs(power), abs(term), abs(total)) >= BOUND:
            return " ! OVER"
    result = half(Fraction(total) * Fraction(10) ** (12 - scale))
    return " ! OVER" if abs(result) >= RESULT_BOUND else result


def by_texts(texts, raw):
    return next((f' = "{text}"' for low, high, text in texts if low <= raw <= high), " ! NOTEXT")


def decimal_text(rng, m, e):
    return f"{m}E{e}" if rng.random() < 0.7 else f"{m}e{e:+d}"


def random_decimal(rng):
    digits = rng.choice((1, 2, 4, 8, 15, 17))
    m = rng.randint(-(10**digits) + 1, 10**digits - 1)
    while m and m % 10 == 0:
        m //= 10
    return m, (rng.choice((-20, -12, -9, -6, -3, -2, -1, 0, 0, 0, 1, 3, 10)) if m else 0)


def make(rng, i):
    """A curve's rows by table, the category, what it makes of a raw number, and raw numbers of interest."""
    name = f"C{i}"
    kind = rng.choice(("points", "points", "polynomial", "texts"))
    low, high = rng.choice(((0, 255), (0, 65535), (-32768, 32767), (0, 2**32 - 1), (0, 2**64 - 1), (-(2**63), 2**63 - 1)))
    if kind == "points":
        xs = set()
        while len(xs) < rng.choice((2, 3, 5, 20)):
            xs.add(rng.randint(low, high) if rng.random() < 0.7 or low < 0 else min(high, rng.randint(0, 100)))
            if len(xs) > high - low:
                break
        xs = [x for x in xs if abs(x) < 10**17] or [0, 1]
        if len(xs) < 2:
            xs = [0, 1]
        rng.shuffle(xs)
        decimals = [random_decimal(rng) for _ in xs]
        inside = rng.random() < 0.5
        rows = {"caf": [[name, "", "R", rng.choice("IU"), "D", "", "", "F" if inside else "P"]],
                "cap": [[name, x, decimal_text(rng, *d)] for x, d in zip(xs, decimals)]}
        points = [(x, count(*d)) for x, d in zip(xs, decimals)]
        return "N", rows, lambda raw: by_points(points, inside, raw), [x + d for x in xs for d in (-1, 0, 1)], low, high
    if kind == "polynomial":
        coefficients = [random_decimal(rng) if rng.random() < 0.7 else (0, 0) for _ in range(5)]
        rows = {"mcf": [[name, "", *(decimal_text(rng, *c) for c in coefficients)]]}
        return "N", rows, lambda raw: by_polynomial(coefficients, raw), [0, 1, -1, 10, 1000], low, high
    texts = []
    for j, start in enumerate(rng.sample(range(60001), rng.choice((1, 2, 5, 20)))):
        texts.append((start, start + rng.choice((0, 0, 1, 10, 5000)), f"TEXT {j}"))
    rows = {"txf": [[name, "", "U"]], "txp": [[name, a, b, text] for a, b, text in texts]}
    return "S", rows, lambda raw: by_texts(texts, raw), [v + d for a, b, _ in texts for v in (a, b) for d in (-1, 0, 1)], low, high


WIDTHS = {(0, 255): (3, 4, 8), (0, 65535): (3, 12, 16), (-32768, 32767): (4, 12, 16), (0, 2**32 - 1): (3, 14, 32),
          (0, 2**64 - 1): (3, 16, 64), (-(2**63), 2**63 - 1): (4, 16, 64)}
WIDTHS[(0, 2**32 - 1)] = (2, 32, 32)


def main():
    program, seed = sys.argv[1], int(sys.argv[2]) if len(sys.argv) > 2 else 1
    curves = int(sys.argv[3]) if len(sys.argv) > 3 else 5000
    rng = random.Random(seed)
    tables = {name: [] for name in ("pcf", "pid", "plf", "caf", "cap", "txf", "txp", "mcf")}
    tables["pid"].append([3, 25, 100, "", "", 1])
    parameters, octet = [], 10
    for i in range(curves):
        category, rows, apply, interest, low, high = make(rng, i)
        ptc, pfc, width = WIDTHS[low, high]
        decimals = rng.randint(0, 13)
        for table, lines in rows.items():
            tables[table] += lines
        tables["pcf"].append([f"V{i}", "", "", "", ptc, pfc, "", "", "", category, "R", f"C{i}", "", "", decimals])
        tables["plf"].append([f"V{i}", 1, octet, 0])
        parameters.append((f"V{i}", width, low, high, apply, interest, decimals))
        octet += width // 8
    if octet > 65000 or curves > 8192:
        sys.exit("too many curves for a packet")
    compared = 0
    with tempfile.TemporaryDirectory() as top:
        mib = os.path.join(top, "mib")
        os.mkdir(mib)
        for name, rows in tables.items():
            with open(os.path.join(mib, name + ".dat"), "w") as file:
                file.writelines("\t".join(map(str, row)) + "\n" for row in rows)
        feed, expected = os.path.join(top, "feed"), []
        with open(feed, "wb") as file:
            for number in range(1, PACKETS + 1):
                body = bytearray(FIELD_HEADER)
                expected.append(f"PKT {number} APID 100 COUNT 0 TYPE 3/25 SPID 1")
                for name, width, low, high, apply, interest, decimals in parameters:
                    raw = rng.randint(low, high)
                    if rng.random() < 0.5:
                        raw = min(high, max(low, rng.choice(interest)))
                    body += raw.to_bytes(width // 8, "big", signed=low < 0)
                    given = apply(raw)
                    tail = given if isinstance(given, str) else f" = {shown(given, decimals)}"
                    expected.append(f"  {name} {raw}{tail}")
                    compared += 1
                file.write(HEADER + (len(body) - 1).to_bytes(2, "big") + body)
        printed = subprocess.run([program, "decode", mib, feed], stdout=subprocess.PIPE, check=True).stdout.decode("latin-1").split("\n")
    for line, wanted in zip(printed, expected + [""], strict=True):
        if line != wanted:
            sys.exit(f"{line!r} is printed, {wanted!r} expected")
    print(f"{compared} values of {curves} curves agree with exact fractions")


main()
