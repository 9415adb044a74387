#!/usr/bin/env python3
"""Compares the rooms of crates.txt with the table of docs/ARCHITECTURE.md: each crate stands in one room, behind all that it stands on.

    checks/rooms.py
"""
import pathlib
import re
import sys

TOP = pathlib.Path(__file__).resolve().parent.parent


def listed():
    """The rooms of crates.txt with their crates, and what each crate stands on."""
    rooms, stands = {}, {}
    room = None
    for line in (TOP / "crates.txt").read_text().splitlines():
        if line.startswith("# ") and not line.endswith("."):
            room = line[2:]
            rooms[room] = []
        elif ":" in line and not line.startswith("#"):
            name = line.split()[0].rstrip(":")
            stands[name] = line.split(":")[1].split()
            rooms.setdefault(room, []).append(name)
    return rooms, stands


def pictured():
    """The rooms of the page with their crates."""
    rows = [line.split("|") for line in (TOP / "docs/ARCHITECTURE.md").read_text().splitlines() if line.startswith("|")]
    last = next(n for n, row in enumerate(rows) if row[1].strip() == "tests")
    return {row[1].strip(): re.findall(r"`(\w+)`", row[2]) for row in rows[2 : last + 1]}


rooms, stands = listed()
page = pictured()
order = [name for names in rooms.values() for name in names]
faults = [f"{name} stands above the first room" for name in rooms.get(None, [])]
faults += [f"{name} has no folder" for name in order if not (TOP / "crates" / name).is_dir()]
faults += [f"{path.name} isn't in crates.txt" for path in (TOP / "crates").iterdir() if path.name not in stands]
faults += [] if [*rooms] == [*page] else [f"the rooms are {', '.join(rooms)} here and {', '.join(page)} on the page"]
faults += [f"the room {room} differs on the page" for room in rooms if rooms[room] != page.get(room)]
for at, name in enumerate(order):
    faults += [f"{name} stands on {low}, which comes behind it" for low in stands[name] if low in order[at:]]
print("\n".join(faults) if faults else f"{len(order)} crates in {len(rooms)} rooms, each behind those that it stands on")
sys.exit(1 if faults else 0)
