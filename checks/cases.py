#!/usr/bin/env python3
"""Runs the cases of samples/cases over a built program: what it prints and says is compared with the file, and its status with the line that it says.

    checks/cases.py PROGRAM
"""
import pathlib
import re
import subprocess
import sys
import tempfile
import tomllib

TOP = pathlib.Path(__file__).resolve().parent.parent
PROGRAM = pathlib.Path(sys.argv[1]).resolve()
TABLES = {"pcf": "T1||||3|12||||N|R\n", "pid": "3|25|100|||4001\n", "plf": "T1|4001|10|0\n"}
STATUS = {"USAGE": 2, "BADMIB": 3, "CUT": 5}


def octets(text):
    return text.replace("|", "\t").encode("latin-1")


def repeated(text):
    """What stands in brackets is repeated as often as the number behind them says."""
    return re.sub(r"\(([^()]+)\)(\d+)", lambda it: it[1] * int(it[2]), text)


def differs(case, folder, more):
    words = [str(PROGRAM), *case["words"].split(), *more]
    ran = subprocess.run(words, cwd=folder, stdin=subprocess.DEVNULL, capture_output=True, timeout=60)
    said = case.get("says", "").lstrip("\n")
    wanted = repeated(case.get("prints", "").lstrip("\n")).encode("latin-1"), (said + "\n" * bool(said)).encode(), STATUS.get(said.split(" ")[0], 0)
    came = ran.stdout, ran.stderr, ran.returncode
    return [f"{case['name']}, {' '.join(words[1:])}: {a!r}, wanted {b!r}" for a, b in zip(came, wanted) if a != b]


def faults(case):
    with tempfile.TemporaryDirectory() as room:
        folder = pathlib.Path(room)
        (folder / "mib").mkdir()
        for name, text in (TABLES | case.get("tables", {})).items():
            (folder / "mib" / f"{name}.dat").write_bytes(octets(repeated(text)))
        (folder / "feed").write_bytes(bytes.fromhex(repeated(case.get("feed", ""))))
        (folder / "desk").write_bytes(octets(case.get("desk", "").lstrip("\n")))
        options = [["--workers", number] for number in "124"] if case.get("desk") else [[]]
        return [it for more in options for it in differs(case, folder, more)]


count, found = 0, []
for path in sorted((TOP / "samples/cases").glob("*.toml")):
    words = None
    for case in tomllib.loads(path.read_text())["case"]:
        words = case.setdefault("words", words)
        found += faults(case)
        count += 1
print("\n".join([*found, f"{count} cases, {len(found)} differ"]))
sys.exit(bool(found) or not count)
