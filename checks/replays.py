#!/usr/bin/env python3
"""Checks tools/replay.py and `tools/mib_row.py apply` over random live runs whose lines come while packets are read: the script
that is made of a run's script and replies prints its records again, equal to the octet; `decode` with the tables of a saved edition
prints what `live` prints where that edition is in use from the first packet on; and `check` tells of a draft's tables the fault
for which the run's last UNSOUND save was refused.

    checks/replays.py PROGRAM [RUNS [SEED]]
"""
import os
import random
import subprocess
import sys
import tempfile

import random_lives
import random_missions

TOOLS = os.path.join(os.path.dirname(os.path.abspath(__file__)), "..", "tools")


def called(*words):
    done = subprocess.run(words, stdout=subprocess.PIPE, stderr=subprocess.PIPE)
    return done.returncode, done.stdout, done.stderr


def replies_of(told, status):
    """The replies of a run: what stands on standard error without the line of its status."""
    return told if status == 0 else told[:told[:-1].rfind(b"\n") + 1]


def unsound_draft(program, mib, desk, told, folder):
    """How many drafts were looked at, and what is told of the draft behind the last UNSOUND reply, where that is another fault than the reply's."""
    with open(told, "rb") as file:
        lines = file.read().split(b"\n")
    at = max((at for at, it in enumerate(lines) if it.startswith(b"UNSOUND ")), default=None)
    if at is None:
        return 0, None
    front, draft = os.path.join(folder, "front"), os.path.join(folder, "draft")
    with open(front, "wb") as file:
        file.write(b"".join(it + b"\n" for it in lines[:at + 1]))
    made, _, why = called(sys.executable, f"{TOOLS}/mib_row.py", "apply", mib, desk, front, "draft", draft)
    fault = called(program, "check", draft)[2].strip()
    return 1, None if made == 0 and fault == lines[at].replace(b"UNSOUND", b"BADMIB") else f"{lines[at]}, {fault}, {why}"


def tried(program, seed, folder):
    rng = random.Random(seed)
    mission = random_missions.Mission(rng)
    script = random_lives.Script(rng, mission).lines()
    mib, feed, desk, told, again = (os.path.join(folder, it) for it in ("mib", "feed", "desk", "replies", "again"))
    random_missions.write_folder(mib, mission.tables)
    for path, octets in ((feed, mission.feed(300)), (desk, "".join(f"{it}\n" for it in script).encode("latin-1"))):
        with open(path, "wb") as file:
            file.write(octets)
    status, records, replies = called(program, "live", mib, feed, desk, "--workers", rng.choice(["1", "4"]))
    if status not in (0, 5):
        return "refused", 0, 0
    with open(told, "wb") as file:
        file.write(replies_of(replies, status))
    made, text, _ = called(sys.executable, f"{TOOLS}/replay.py", desk, told)
    if made:
        return "too many activations", 0, 0
    with open(again, "wb") as file:
        file.write(text)
    if called(program, "live", mib, feed, again)[1] != records:
        return "differs", 0, 0
    drafts, unsound = unsound_draft(program, mib, desk, told, folder)
    if unsound:
        return f"draft differs {unsound}", 0, drafts
    editions = [int(it.split()[1]) for it in replies.split(b"\n") if it.startswith(b"SAVED ")]
    for edition in editions:
        new = os.path.join(folder, f"new_{edition}")
        made, _, why = called(sys.executable, f"{TOOLS}/mib_row.py", "apply", mib, desk, told, str(edition), new)
        lines = [it for it in text.split(b"\n") if it and not it.startswith(b"use ")][:-1]
        with open(again, "wb") as file:
            file.write(b"".join(it + b"\n" for it in [*lines, b"use %d from 1" % edition, b"go"]))
        live = called(program, "live", mib, feed, again)[1].removeprefix(b"EDITION %d\n" % edition)
        if made or called(program, "decode", new, feed)[1] != live:
            return f"edition {edition} differs {why.decode()}", 0, drafts
    return "equal", len(editions), drafts


def main():
    program = os.path.abspath(sys.argv[1])
    runs, first = (int(word) for word in (sys.argv[2:] + ["200", "1"][len(sys.argv) - 2:])[:2])
    counts, editions, drafts = {}, 0, 0
    for seed in range(first, first + runs):
        with tempfile.TemporaryDirectory() as folder:
            found, saved, drafted = tried(program, seed, folder)
        if "differs" in found:
            print(seed, found)
        counts[found.split()[0]] = counts.get(found.split()[0], 0) + 1
        editions, drafts = editions + saved, drafts + drafted
    print(", ".join(f"{count} {word}" for word, count in sorted(counts.items())) + f"; tables of {editions} editions and of {drafts} drafts")
    sys.exit(1 if set(counts) - {"equal", "refused", "too"} or not counts.get("equal") or not editions or not drafts else 0)


if __name__ == "__main__":
    main()
