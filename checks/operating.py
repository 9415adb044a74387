#!/usr/bin/env python3
"""Runs each block of commands of docs/OPERATING.md over the sample mission, and looks at what it left.

    checks/operating.py PROGRAM

Blocks run in a new folder with `mib`, `feed`, `desk` and `lines` of the sample, `receiver` as a program that writes the feed, and a
terminal of their own; those with sockets have a client beside them. A block that no test below knows is a fault, and so is a test
without its block. `socat`, `nc`, `mawk` and `xxd` are asked for; a block whose program isn't there is told as left out. The command of
the service's unit is run over fifos of its own.
"""
import os
import pty
import re
import select
import shutil
import socket
import subprocess
import sys
import tempfile
import threading
import time

HERE = os.path.dirname(os.path.abspath(__file__))
TOP = os.path.dirname(HERE)
SAMPLE = f"{TOP}/samples/suihtal_1"
SECONDS = 120


def read(path):
    with open(path, "rb") as it:
        return it.read()


class Room:
    """A folder in which blocks run, with the sample's files and programs on the path."""

    def __init__(self, folder, program):
        self.folder = folder
        shutil.copytree(f"{SAMPLE}/mib", f"{folder}/mib")
        for name in ("feed", "desk"):
            shutil.copyfile(f"{SAMPLE}/{name}", f"{folder}/{name}")
        os.symlink(f"{TOP}/tools", f"{folder}/tools")
        self.write("lines", read(f"{SAMPLE}/desk").replace(b"\t", b"|"))
        self.write("mib/vdf.dat", b"what isn't read")
        self.write("cut", read(f"{SAMPLE}/feed") + read(f"{SAMPLE}/feed")[:7])
        os.mkdir(f"{folder}/bin")
        os.symlink(os.path.abspath(program), f"{folder}/bin/mibtm")
        self.write("bin/receiver", f"#!/bin/sh\nexec cat {folder}/feed\n".encode())
        os.chmod(f"{folder}/bin/receiver", 0o755)
        self.environment = {**os.environ, "PATH": f"{folder}/bin:{os.environ['PATH']}"}

    def write(self, name, octets):
        with open(f"{self.folder}/{name}", "wb") as it:
            it.write(octets)

    def read(self, name):
        return read(f"{self.folder}/{name}")

    def clear(self):
        for name in ("records", "replies", "alarms", "gaps", "vbat.csv", "archive", "again", "records.again", "replies.again", "console", "link", "feed.fifo", "status", "places",
                     "behind", "damaged", "records.1"):
            if os.path.lexists(f"{self.folder}/{name}"):
                os.remove(f"{self.folder}/{name}")
        shutil.rmtree(f"{self.folder}/new", ignore_errors=True)
        shutil.copyfile(f"{SAMPLE}/desk", f"{self.folder}/desk")

    def run(self, block, typed=b"", beside=None):
        """(status, screen) of a block in a terminal in which this is typed."""
        child, side = pty.fork()
        if child == 0:
            os.chdir(self.folder)
            os.execvpe("bash", ["bash", "-c", block], self.environment)
        if beside:
            threading.Thread(target=beside, daemon=True).start()
        screen, begun = b"", time.time()
        for line in typed.splitlines(True):
            os.write(side, line)
        while time.time() - begun < SECONDS:
            ready, _, _ = select.select([side], [], [], 0.2)
            if ready:
                try:
                    octets = os.read(side, 65536)
                except OSError:
                    octets = b""
                if not octets:
                    break
                screen += octets
        os.close(side)
        _, status = os.waitpid(child, 0)
        return os.waitstatus_to_exitcode(status), screen


def sends(port):
    """A client that connects as soon as it can, and sends the feed."""
    def run():
        for _ in range(200):
            try:
                with socket.create_connection(("127.0.0.1", port)) as it:
                    it.sendall(read(f"{SAMPLE}/feed"))
                return
            except OSError:
                time.sleep(0.05)
    return run


LIVE, REPLIES = read(f"{SAMPLE}/live.txt"), read(f"{SAMPLE}/replies.txt")
DECODED = read(f"{SAMPLE}/decoded.txt")


def called(room, *words, octets=None):
    """What the program prints, and its status."""
    done = subprocess.run([f"{room.folder}/bin/mibtm", *words], cwd=room.folder, input=octets, stdout=subprocess.PIPE, stderr=subprocess.DEVNULL)
    return done.stdout, done.returncode


def checked(room, block):
    status, screen = room.run(block)
    return status == 0 and b"pcf 86" in screen and b"vdf" not in screen and called(room, "check", "nosuch")[0].startswith(b"pcf 0\n")


def typed_live(room, block):
    status, screen = room.run(block, read(f"{SAMPLE}/desk") + b"\x04")
    told = [it for it in screen.replace(b"\r", b"").split(b"\n") if it in REPLIES.split(b"\n") and it]
    return status == 0 and room.read("records") == LIVE and told == REPLIES.split(b"\n")[:-1]


def plain_live(room, block, beside=None):
    status, _ = room.run(block, beside=beside)
    return status == 0 and room.read("records") == LIVE and room.read("replies") == REPLIES


def fifo_live(room, block):
    status, _ = room.run(block)
    return status == 0 and room.read("replies") == b"REPLACED\nSAVED 2 PLANS 1\nUSED 2 FROM 80\nGO\n" and b"\nEDITION 2\nPKT 80 " in room.read("records")


def replayed(room, block):
    shutil.copyfile(f"{room.folder}/feed", f"{room.folder}/archive")
    room.write("records", LIVE)
    room.write("replies", REPLIES)
    status, _ = room.run(block)
    return status == 0 and room.read("records.again") == LIVE and room.read("again").endswith(b"use 2 from 80\nuse 3 from 216\ngo\n")


def edited(room, block):
    """The records are those of the sample's rows written out, with the changes alone."""
    row = next(it.split(b"\t") for it in room.read("mib/pcf.dat").split(b"\n") if it.startswith(b"EPS_VBAT\t"))
    room.write("desk", b"put ocp\tEPS_VBAT\t1\tS\t7.0\t8.3\nput pcf\t" + b"\t".join([*row[:14], b"2", *row[15:]]) + b"\nsave\nuse 2\n")
    wanted, _ = called(room, "live", "mib", "feed", "desk")
    status, _ = room.run(block)
    return status == 0 and room.read("records") == wanted and b"  EPS_VBAT 7700 = 7.70\n" in wanted and room.read("replies") == b"REPLACED\nREPLACED\nSAVED 2 PLANS 1\nUSED 2 FROM 1\n"


def drafted(room, block):
    room.write("desk", b"put ocp\tEPS_VBAT\t1\tS\t9\t8\nsave\nput ocp\tEPS_VBAT\t1\tS\t99\t8\n")
    room.write("replies", b"REPLACED\nSAVED 2 PLANS 1\nREPLACED\n")
    status, screen = room.run(block)
    return status == 0 and b"LVALU 99 is above HVALU 8" in screen and called(room, "check", "new")[1] == 0


def twice_live(room, block):
    """The feed twice in one run, as one feed that has both."""
    room.write("feed.twice", room.read("feed") * 2)
    wanted, _ = called(room, "live", "mib", "feed.twice", "desk")
    status, _ = room.run(block.replace("sleep 1", "sleep 5"))
    parts = [room.read(it) for it in ("records.1", "records") if os.path.exists(f"{room.folder}/{it}")]
    return status == 0 and b"".join(parts) == wanted and all(parts) and room.read("replies") == REPLIES and b"\nPKT 590 " in wanted


def kept_live(room, block):
    status, _ = room.run(block, read(f"{SAMPLE}/desk") + b"\x04")
    return status == 0 and (room.read("records"), room.read("replies"), room.read("desk"), room.read("archive"), room.read("status")) == (
        LIVE, REPLIES, read(f"{SAMPLE}/desk"), room.read("feed"), b"0\n")


def lines_of_alarms(records):
    """Alarms and editions by the packet from which they stand."""
    lines, number = [], 0
    for line in records.decode("latin-1").split("\n"):
        if line.startswith("PKT "):
            number = int(line.split()[1])
        elif line.startswith(("  ALARM ", "  CLEAR ")):
            lines.append(f"{number} {line}\n")
        elif line.startswith("EDITION "):
            lines.append(f"{number + 1} {line}\n")
    return "".join(lines)


def audited(room, block):
    shutil.copyfile(f"{room.folder}/feed", f"{room.folder}/archive")
    came = []
    for records in (LIVE, LIVE.replace(b" EPS_VBAT 7700", b" EPS_VBAT 7701")):
        room.write("records", records)
        came.append(room.run(block))
    return came == [(0, b"SAME\r\n"), (13, b"DIFFERS %d\r\n" % (1 + LIVE[:LIVE.index(b" EPS_VBAT 7700")].count(b"\n")))]


def alarms(room, block):
    """The log at the end, and that it grows while the feed is still open."""
    status, _ = room.run(block)
    right = status == 0 and room.read("records") == LIVE and LIVE.count(b"ALARM") > 5 and room.read("alarms").decode("latin-1") == lines_of_alarms(LIVE)
    os.mkfifo(f"{room.folder}/feed.fifo")
    with subprocess.Popen(["bash", "-c", block.replace(" feed ", " feed.fifo ")], cwd=room.folder, env=room.environment) as run, open(f"{room.folder}/feed.fifo", "wb") as feed:
        feed.write(room.read("feed"))
        feed.flush()
        begun, early = time.time(), b""
        while early.count(b"\n") < 5 and time.time() - begun < SECONDS:
            time.sleep(0.1)
            early = room.read("alarms")
        waits = run.poll() is None
    return right and waits and early.count(b"\n") >= 5


def one_parameter(room, block):
    """Of a parameter with decimals, of one with texts, and of one whose raw numbers are texts."""
    room.write("records", DECODED)
    status, _ = room.run(block)
    wanted = [f"{n},{raw},{value}\n" for n, raw, value in
              re.findall(r"^PKT (\d+)(?:(?!^PKT)[\s\S])*?^  EPS_VBAT (\d+) = ([\d.]+)$", DECODED.decode("latin-1"), re.M)]
    right = status == 0 and len(wanted) > 20 and room.read("vbat.csv").decode() == "".join(wanted)
    room.write("records", b'PKT 1 APID 1 COUNT 1 TYPE 1/1 SPID 1\n  A 1 = "POWER ON"\n  A 7 ! NOTEXT\n  B "a = b, c" ? INVALID\nPKT 2 APID 1 COUNT 2 TYPE 1/1 UNKNOWN\n  A 2 ? INVALID\n  B ""\n')
    room.run(block.replace("EPS_VBAT", "A"))
    right = right and room.read("vbat.csv") == b'1,1,"POWER ON"\n1,7,\n2,2,\n'
    room.run(block.replace("EPS_VBAT", "B"))
    return right and room.read("vbat.csv") == b'1,"a = b, c",\n2,"",\n'


def gaps(room, block):
    """Each packet in turn is left out, and its gap is told; the sample itself may have gaps of its own."""
    records = re.findall(rb"^PKT .*\n(?:(?!PKT).*\n)*", DECODED, re.M)
    found = []
    for left_out in (None, 0, 40, 100):
        room.write("records", b"".join(it for at, it in enumerate(records) if at != left_out))
        room.run(block)
        found.append(room.read("gaps").count(b"\n"))
    return found[2] == found[0] + 1 and found[3] == found[0] + 1


def lost(room, block):
    status, screen = room.run(block)
    return status == 0 and b"CUT 7" in screen and room.read("feed")[:7].hex().encode() in screen.replace(b" ", b"")


def packets_of(feed):
    """The packets of a feed by their octets."""
    at = 0
    while at < len(feed):
        size = 7 + int.from_bytes(feed[at + 4:at + 6], "big")
        yield at, feed[at:at + size]
        at += size


def found_again(room, block):
    """The packet of APID 20 and count 12 loses an octet; the next of its APID is found, and all behind it decoded."""
    feed = room.read("feed")
    places = {(int.from_bytes(it[:2], "big") % 2048, int.from_bytes(it[2:4], "big") % 16384): at for at, it in packets_of(feed)}
    lost, wanted = places[20, 12] + 9, feed[places[20, 13]:]
    room.write("damaged", feed[:lost] + feed[lost + 1:])
    status, _ = room.run(block)
    right = called(room, "decode", "mib", "-", octets=wanted)[0]
    return status == 0 and int(room.read("places").split()[0]) == places[20, 13] - 1 and room.read("behind") == right and right.startswith(b"PKT 1 APID 20 COUNT 13 ")


def unit(room, page):
    """The service's command over fifos here: three writers of packets and two of lines, one run that ends by SIGTERM."""
    command = re.search(r"^ExecStart=/bin/sh -c '(.*)'$", page, re.M)[1].replace("/usr/local/bin/", "").replace("/etc/suihtal/", "").replace("/run/suihtal/", "")
    room.clear()
    room.write("feed.thrice", room.read("feed") * 3)
    wanted, _ = called(room, "decode", "mib", "feed.thrice")
    with tempfile.TemporaryDirectory() as folder:
        os.symlink(f"{room.folder}/mib", f"{folder}/mib")
        for it in ("feed", "console"):
            os.mkfifo(f"{folder}/{it}")
        with open(f"{folder}/records", "wb") as records, open(f"{folder}/replies", "wb") as replies, subprocess.Popen(
                ["/bin/sh", "-c", command], cwd=folder, env=room.environment, stdout=records, stderr=replies) as run:
            subprocess.run(["sh", "-c", "echo save > console; echo go > console; receiver > feed; receiver > feed; receiver > feed"], cwd=folder, env=room.environment, timeout=SECONDS)
            begun = time.time()
            while os.stat(f"{folder}/records").st_size < len(wanted) and time.time() - begun < SECONDS:
                time.sleep(0.1)
            run.terminate()
        return run.returncode == -15 and read(f"{folder}/records") == wanted and read(f"{folder}/replies") == b"SAVED 2 PLANS 0\nGO\n"


# a test for each block, in their order
TESTS = [checked, typed_live, plain_live, fifo_live, edited, drafted, plain_live, twice_live, lambda room, block: plain_live(room, block, sends(5017)),
         lambda room, block: plain_live(room, block, sends(5018)),
         lambda room, block: plain_live(room, block) and room.read("archive") == room.read("feed") and room.read("status") == b"0\n", kept_live, replayed, audited, alarms, one_parameter, gaps,
         lost, found_again, twice_live]
NEEDS = {8: "socat", 9: "nc", 14: "mawk", 17: "xxd"}


def main():
    program = sys.argv[1]
    with open(f"{TOP}/docs/OPERATING.md", encoding="utf-8") as page:
        text = page.read()
    blocks = re.findall(r"^```sh\n(.*?)^```", text, re.M | re.S)
    wrong = 0 if len(blocks) == len(TESTS) else 1
    if wrong:
        print(f"{len(blocks)} blocks and {len(TESTS)} tests")
    with tempfile.TemporaryDirectory() as folder:
        room = Room(folder, program)
        for at, (block, test) in enumerate(zip(blocks, TESTS)):
            if at in NEEDS and not shutil.which(NEEDS[at]):
                print(f"left out, as {NEEDS[at]} isn't there: {block.strip()}")
                continue
            room.clear()
            if not test(room, block):
                wrong += 1
                print(f"differs:\n{block}")
        if not unit(room, text):
            wrong += 1
            print("the unit's command")
    print(f"{len(blocks)} blocks, {wrong} wrong")
    return 1 if wrong else 0


if __name__ == "__main__":
    sys.exit(main())
