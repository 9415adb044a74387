#!/usr/bin/env python3
"""Checks the words of the helpers in tools/, and those whose answers no other check sees: faults and rows of nothing, a row with other values, packets with a
pause, spans of alarms at a change of edition.

    checks/helpers.py PROGRAM

Wrong words have a usage line and status 2, a missing thing a line and status 1, and none a traceback.
"""
import os
import shutil
import subprocess
import sys
import tempfile
import time

TOP = os.path.dirname(os.path.dirname(os.path.abspath(__file__)))
SAMPLE, TOOLS = f"{TOP}/samples/suihtal_1", f"{TOP}/tools"
MIB, FEED, DESK, REPLIES = (f"{SAMPLE}/{it}" for it in ("mib", "feed", "desk", "replies.txt"))
HELPERS = ["asks.py", "mib_lint.py", "mib_row.py", "pace.py", "plot.py", "replay.py", "replay_archive.py"]
# a helper's words, its status, and a piece of what it says
CASES = [
    *[((it,), 2, b"usage: ") for it in HELPERS], *[((it, "--help"), 0, b"usage: ") for it in HELPERS], *[((it, "nosuch", "--never"), 2, b"usage: ") for it in HELPERS],
    (("mib_lint.py", "nosuch"), 1, b"0 rows: is nosuch the folder?"), (("mib_lint.py", MIB), 0, b"warning: pcf: column 2"), (("mib_lint.py", DESK), 2, b"Not a directory"),
    (("mib_row.py", "show", "nosuch", "pcf"), 1, b"no row"), (("mib_row.py", "show", MIB, "nope"), 2, b"invalid choice"), (("mib_row.py", "show", MIB, "pcf", "NOPE"), 1, b"NOPE"),
    (("mib_row.py", "edit", MIB, "ocp", "EPS_VBAT", "1", "LVALU=7.0"), 0, b"EPS_VBAT\t1\tS\t7.0\t8.3\n"), (("mib_row.py", "edit", MIB, "ocp", "EPS_VBAT", "LVALU=7.0"), 1, b"(NAME, POS)"),
    (("mib_row.py", "edit", MIB, "ocp", "EPS_VBAT", "1", "LVAL=7.0"), 1, b"LVALU"), (("mib_row.py", "row", "pcf", "DECIM"), 1, b"isn't COLUMN=VALUE"),
    (("mib_row.py", "apply", MIB, DESK, REPLIES, "2", SAMPLE), 2, b"File exists"), (("mib_row.py", "apply", MIB, DESK, REPLIES, "7", "never"), 1, b"edition 7"),
    (("plot.py", f"{SAMPLE}/live.txt", "never.pdf", "EPS_VBAT"), 2, b"usage: "), (("plot.py", "nosuch", "never.svg", "EPS_VBAT"), None, b"nosuch"),
    (("plot.py", f"{SAMPLE}/live.txt", "never.svg", "NOPE"), 1, b"NOPE"), (("replay.py", DESK, "nosuch"), 2, b"nosuch"),
    (("replay_archive.py", "summary", "nosuch"), 2, b"nosuch"), (("replay_archive.py", "parallel", "nosuch"), 2, b"nosuch"), (("pace.py", FEED, "-1"), 2, b"usage: "),
    (("show_pages.py", "--help"), 0, b"usage: "), (("show_pages.py", "nosuch"), 2, b"nosuch"), (("show_pages.py", "--web", "70000"), 2, b"usage: "),
]


def helper(*words, octets=None):
    python = "/usr/bin/python3" if words[0] == "plot.py" else sys.executable
    done = subprocess.run([python, f"{TOOLS}/{words[0]}", *words[1:]], input=octets, stdout=subprocess.PIPE, stderr=subprocess.STDOUT)
    return done.returncode, done.stdout


def words_are_told():
    wrong = []
    for words, status, piece in CASES:
        found, said = helper(*words)
        if b"Traceback" in said or piece not in said or found != status and (status is not None or found == 0):
            wrong.append(f"{' '.join(words)}: {found}, {said.decode('latin-1')[:200]}")
    return wrong


def asks_build_their_packets(folder, program):
    """The packets that are built of the sample's printed records, but for those whose time lies on their header, have the printed numbers."""
    status, lines = helper("asks.py", f"{SAMPLE}/decoded.txt")
    lines = [it for it in lines.splitlines(True) if not it.startswith((b"#", b"9 "))]
    with open(f"{folder}/asks", "wb") as file:
        file.writelines(lines)
    with open(f"{folder}/built", "wb") as built:
        subprocess.run([program, "build", MIB, f"{folder}/asks"], stdout=built, check=False)
    with open(f"{folder}/again", "wb") as again:
        subprocess.run([program, "decode", MIB, f"{folder}/built"], stdout=again, check=False)
    found = helper("asks.py", f"{folder}/again")
    return [] if status == 0 and len(lines) > 200 and found == (0, b"".join(lines)) else [f"asks: {len(lines)} lines, {found[1][:200]}"]


def an_edited_row_is_whole(folder):
    """Each row of the sample with nothing changed is itself, and with another value differs there alone."""
    sys.path.insert(0, TOOLS)
    import mib_tables
    wrong = []
    for table in mib_tables.TABLES:
        for _, text in mib_tables.lines_of(mib_tables.read(MIB, table))[:3]:
            key = [it or "" for it in map(str, mib_tables.key_of(table, text.split("\t")))]
            if helper("mib_row.py", "edit", MIB, table, *key) != (0, f"{text}\n".encode("latin-1")):
                wrong.append(f"edit {table} {key}")
    with open(f"{folder}/desk", "wb") as file:
        row = helper("mib_row.py", "edit", MIB, "plf", "EPS_VBAT", "2001", "OFFBY=18")[1]
        file.write(b"put plf\t" + row + b"put plf\tNOPE\t2001\t10\t0\nsave\n")
    return wrong


def a_draft_is_written(folder, program):
    """The tables of a draft have the fault for which it wasn't saved."""
    with open(f"{folder}/replies", "wb") as replies:
        subprocess.run([program, "live", MIB, FEED, f"{folder}/desk"], stdout=subprocess.DEVNULL, stderr=replies)
    with open(f"{folder}/replies", "rb") as replies:
        told = replies.read().splitlines()
    helper("mib_row.py", "apply", MIB, f"{folder}/desk", f"{folder}/replies", "draft", f"{folder}/draft")
    fault = subprocess.run([program, "check", f"{folder}/draft"], stdout=subprocess.DEVNULL, stderr=subprocess.PIPE).stderr.strip()
    right = told[:2] == [b"REPLACED", b"ADDED"] and told[2].startswith(b"UNSOUND plf ") and fault == told[2].replace(b"UNSOUND", b"BADMIB")
    return [] if right else [f"the draft: {told}, {fault}"]


def faults_of_form_come_first(folder):
    """A comma in a number, a row twice and a name that isn't there: the first alone, and once it is mended both others and the warnings."""
    shutil.copytree(MIB, f"{folder}/wrong")
    with open(f"{MIB}/ocp.dat", "rb") as file:
        limits = file.read()
    with open(f"{folder}/wrong/plf.dat", "ab") as file:
        file.write(b"NOPE\t2001\t10\t0\n")
    with open(f"{folder}/wrong/ocp.dat", "wb") as file:
        file.write(limits + limits.split(b"\n")[0].replace(b"7.2", b"7,2") + b"\n")
    first = helper("mib_lint.py", f"{folder}/wrong")
    with open(f"{folder}/wrong/ocp.dat", "wb") as file:
        file.write(limits + limits.split(b"\n")[0] + b"\n")
    then = helper("mib_lint.py", f"{folder}/wrong")
    right = first[0] == then[0] == 1 and first[1].count(b"\n") == 1 and b" BADNUMBER 4 " in first[1] and b" NOREF 1 " in then[1] and b" TWICE 1 " in then[1] and b"warning: " in then[1]
    return [] if right else [f"mib_lint.py: {first}, {then}"]


def packets_come_with_a_pause():
    """All octets of the feed, whole; and a packet at once, the next one behind the pause."""
    with open(FEED, "rb") as file:
        feed = file.read()
    wrong = [] if helper("pace.py", FEED, "0") == (0, feed) and helper("pace.py", "-", "0", octets=feed) == (0, feed) else ["pace.py: other octets"]
    status, said = helper("pace.py", "-", "0", octets=feed[:-1])
    wrong += [] if status == 1 and said.startswith(feed[:-1]) else ["pace.py: a rest"]
    began = time.time()
    with subprocess.Popen([sys.executable, f"{TOOLS}/pace.py", FEED, "0.7"], stdout=subprocess.PIPE) as pace:
        size = 7 + int.from_bytes(feed[4:6], "big")
        first, one = os.read(pace.stdout.fileno(), 65536), time.time()
        os.read(pace.stdout.fileno(), 65536)
        two = time.time()
        pace.kill()
    return wrong + ([] if first == feed[:size] and one - began < 30 and two - one > 0.5 else ["pace.py: no pause"])


def a_span_ends_at_an_edition(folder, program):
    """An alarm whose limits are edited has no CLEAR; one that isn't touched goes on."""
    sys.path.insert(0, TOOLS)
    import plot
    with open(f"{folder}/limits", "wb") as file:
        file.write(b"put ocp\tEPS_VBAT\t1\tS\t7.1\t8.3\nsave\nuse 2 from 150\ngo\n")
    records = subprocess.run([program, "live", MIB, FEED, f"{folder}/limits"], stdout=subprocess.PIPE, stderr=subprocess.DEVNULL).stdout.decode("latin-1").splitlines()
    drawn, editions, last = plot.read(records, ["EPS_VBAT"])
    spans, wrong = drawn["EPS_VBAT"].spans, []
    if editions != [(150, "2")] or (146, 150, "SOFT") not in spans or any(begun < 150 < ended for begun, ended, _ in spans):
        wrong.append(f"plot.py: {editions}, {spans}")
    lines = ["PKT 1", "  ALARM A SOFT", "  ALARM B HARD", "EDITION 2", "PKT 2", "  CLEAR A SOFT", "PKT 3"]
    drawn, _, _ = plot.read(lines, ["A", "B"])
    if drawn["A"].spans != [(1, 2, "SOFT")] or drawn["B"].spans != [(1, 2, "HARD")]:
        wrong.append("plot.py: a span at an edition")
    return wrong


def main():
    program = os.path.abspath(sys.argv[1])
    with tempfile.TemporaryDirectory() as folder:
        os.chdir(folder)
        wrong = words_are_told() + an_edited_row_is_whole(folder) + a_draft_is_written(folder, program) + faults_of_form_come_first(folder)
        wrong += packets_come_with_a_pause() + a_span_ends_at_an_edition(folder, program) + asks_build_their_packets(folder, program)
    print(*wrong, f"{len(CASES)} calls of {len({it[0][0] for it in CASES})} helpers, {len(wrong)} wrong", sep="\n")
    return 1 if wrong else 0


if __name__ == "__main__":
    sys.exit(main())
