#!/usr/bin/env python3
"""Checks that the first fault which tools/mib_lint.py tells of a folder is the one that `PROGRAM check` tells, over random folders of
which most have faults: fields changed, dropped, exchanged, rows doubled or dropped, files cut or marked.

    checks/lints.py PROGRAM [FOLDERS [SEED]]
"""
import os
import random
import subprocess
import sys
import tempfile

import random_missions

HERE = os.path.dirname(os.path.abspath(__file__))
LINT = os.path.join(HERE, "..", "tools", "mib_lint.py")
FIELDS = ["", "0", "1", "2", "-1", "7", "11", "255", "256", "65536", "4294967296", "X", "Y", "N", "S", "R", "L", "U", "A B", " 3 ", "1,5", "1.5", "-2E3",
          "12345678901234567890", "123456789012345678901", "x" * 33, "x" * 65, "C1", "P1", "T1", "\x80", "FF", "9.0", "+4", "1E31", "8E", ".", "\x0b5"]


def spoil_type(rng, tables):
    """Changes a column whose rules need other rows: types, groups, widths, selections."""
    table, column, values = rng.choice([
        ("pcf", 5, ["1", "2", "5", "7", "9", "11", "12"]), ("pcf", 6, ["0", "1", "13", "17", "64", "65"]), ("pcf", 7, ["1", "3", "8"]), ("pcf", 11, ["D", "H"]),
        ("pcf", 12, ["C1", "P1", ""]), ("pcf", 23, ["L"]), ("vpd", 4, ["1", "2", "60"]), ("vpd", 5, ["1", "3"]), ("vpd", 6, ["Y"]), ("vpd", 7, ["Y"]),
        ("pid", 9, ["1", "77"]), ("caf", 4, ["R", "I"]), ("caf", 5, ["H", "O"]), ("cur", 5, ["C1", "X1"]), ("ocp", 3, ["C", "D", "H"])])
    if not tables.get(table):
        return
    row = rng.choice(tables[table])
    tables[table][tables[table].index(row)] = [*row, *[""] * (column - len(row))]
    at = next(at for at, it in enumerate(tables[table]) if it[:len(row)] == row)
    tables[table][at] = list(tables[table][at])
    tables[table][at][column - 1] = rng.choice(values)


def spoil(rng, tables):
    """Changes a folder's rows in one or a few places."""
    for _ in range(rng.choice([0, 1, 1, 1, 2, 4])):
        table = rng.choice([it for it in tables if tables[it]] or ["pcf"])
        rows = tables[table]
        if not rows:
            continue
        if rng.random() < 0.35:
            spoil_type(rng, tables)
            continue
        at, way = rng.randrange(len(rows)), rng.random()
        row = list(rows[at])
        if way < 0.5 and row:
            row[rng.randrange(len(row))] = rng.choice(FIELDS)
            rows[at] = row
        elif way < 0.6:
            rows.append(row)
        elif way < 0.7:
            del rows[at]
        elif way < 0.8:
            rows[at] = row[:rng.randint(1, len(row))]
        elif way < 0.9:
            other = rng.choice(rows)
            column = rng.randrange(len(row))
            row[column] = other[column] if column < len(other) else ""
            rows[at] = row
        else:
            one, two = rng.randrange(len(row)), rng.randrange(len(row))
            row[one], row[two] = row[two], row[one]
            rows[at] = row


def first_told(program, folder):
    """The fault of `check`, or none."""
    done = subprocess.run([program, "check", folder], stdout=subprocess.DEVNULL, stderr=subprocess.PIPE)
    return done.stderr.decode("latin-1").strip().removeprefix("BADMIB ") if done.returncode == 3 else "" if done.returncode == 0 else "status"


def first_linted(folder):
    sys.path.insert(0, os.path.dirname(LINT))
    import mib_lint
    lint = mib_lint.Lint(folder)
    lint.read()
    if not lint.faults:
        lint.sound()
        lint.warn_all()
    if not lint.faults:
        return ""
    table, at, word, place = lint.faults[0][:4]
    return f"{table} {at} {word}" + (f" {place}" if place is not None else "")


def main():
    program = os.path.abspath(sys.argv[1])
    folders, first = (int(word) for word in (sys.argv[2:] + ["5000", "1"][len(sys.argv) - 2:])[:2])
    faults, wrong = {}, 0
    for seed in range(first, first + folders):
        rng = random.Random(seed)
        tables = random_missions.Mission(rng).tables
        spoil(rng, tables)
        with tempfile.TemporaryDirectory() as folder:
            random_missions.write_folder(folder, tables)
            if rng.random() < 0.02:
                with open(os.path.join(folder, "pcf.dat"), "r+b") as file:
                    text = file.read()
                    file.seek(0)
                    file.write(b"\xef\xbb\xbf" + text)
            told, linted = first_told(program, folder), first_linted(folder)
        word = told.split(" ")[2] if told.count(" ") >= 2 else "none"
        faults[word] = faults.get(word, 0) + 1
        if told != linted:
            wrong += 1
            print(f"{seed}: check {told!r}, lint {linted!r}")
    print(", ".join(f"{count} {word}" for word, count in sorted(faults.items())), f"; {wrong} differ")
    sys.exit(1 if wrong or len(faults) < 5 else 0)


if __name__ == "__main__":
    main()
