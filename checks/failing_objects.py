#!/usr/bin/env python3
"""Checks what `PROGRAM live` and `PROGRAM decode` leave where a real object fails: a terminal that hangs up behind so many octets,
a file that may grow no further, a full device, a closed pipe, a folder in place of a file, too little memory, a signal.

    checks/failing_objects.py PROGRAM [WORKERS ..]

Three packets are read, behind whose first a better curve is used; what is expected at each place is reckoned here from the lines
of the whole run. Some parts ask for root (a full file system, a file that may not be read);
elsewhere they are told as left out.
"""
import os
import pty
import resource
import shutil
import signal
import subprocess
import sys
import tempfile
import termios
import threading
import time
import tty

PACKET = bytes.fromhex("0864c00000051003190007d0")
FEED = PACKET * 3
DESK = b"put cap\tC1\t2000\t100\nsave\nuse 2 from 2\ngo\n"
REPLIES = [b"ADDED\n", b"SAVED 2 PLANS 1\n", b"USED 2 FROM 2\n", b"GO\n"]
TABLES = {
    "caf.dat": "C1\t\tR\tU\tD\t\t\tF\n",
    "cap.dat": "C1\t0\t-50\nC1\t4000\t150\n",
    "pcf.dat": "T1\t\t\t\t3\t12\t\t\t\tN\tR\tC1\n",
    "pid.dat": "3\t25\t100\t\t\t4001\n",
    "plf.dat": "T1\t4001\t10\t0\n",
}
SECONDS = 60


def records(edition_of, values):
    """The records of the packets, by the edition of each and by the value of T1 in each edition."""
    found, before = [], 1
    for number, edition in enumerate(edition_of, 1):
        line = b"EDITION %d\n" % edition if edition != before else b""
        before = edition
        found.append(line + b"PKT %d APID 100 COUNT 0 TYPE 3/25 SPID 4001\n  T1 2000 = %d\n" % (number, values[edition]))
    return found


NEW = records([1, 2, 2], {1: 50, 2: 100})
OLD = records([1, 1, 1], {1: 50})


class Hanging:
    """A terminal whose other side writes so many octets and then hangs up: what is read behind them is a fault."""

    def __init__(self, octets):
        self.side, self.other = pty.openpty()
        tty.setraw(self.other)
        self.octets = octets
        self.thread = threading.Thread(target=self.run)
        self.thread.start()

    def run(self):
        if self.octets:
            os.write(self.other, self.octets)
        os.close(self.other)

    def close(self):
        self.thread.join()
        os.close(self.side)


def limited(octets):
    """Has files of the process grow to so many octets and no further."""
    def begin():
        signal.signal(signal.SIGXFSZ, signal.SIG_IGN)
        resource.setrlimit(resource.RLIMIT_FSIZE, (octets, octets))
    return begin


class Place:
    """A folder with tables, a feed and a script."""

    def __init__(self, room):
        self.room = room
        os.mkdir(f"{room}/mib")
        for name, text in TABLES.items():
            self.write(f"mib/{name}", text.encode())
        self.write("feed", FEED)
        self.write("desk", DESK)

    def write(self, name, octets):
        with open(f"{self.room}/{name}", "wb") as it:
            it.write(octets)

    def read(self, name):
        with open(f"{self.room}/{name}", "rb") as it:
            return it.read()


class Tries:
    def __init__(self, program):
        self.program, self.made, self.wrong = os.path.abspath(program), 0, 0

    def is_so(self, what, found, wanted):
        self.made += 1
        if found != wanted:
            self.wrong += 1
            print(f"{what}\n  found  {found}\n  wanted {wanted}")

    def run(self, words, place, **given):
        """(status, output, standard error) of a run; those that are handed a file are read from it."""
        given = {"stdin": subprocess.DEVNULL, "stdout": subprocess.PIPE, "stderr": subprocess.PIPE, **given}
        done = subprocess.run([self.program, *words], cwd=place.room, timeout=SECONDS, **given)
        return done.returncode, done.stdout, done.stderr


def replied(octets):
    """The replies to the lines whose LF is among so many octets of the script."""
    return b"".join(REPLIES[:DESK[:octets].count(b"\n")])


def feeds(tries, place, workers):
    for octets in range(len(FEED) + 1):
        feed = Hanging(FEED[:octets])
        found = tries.run(["live", "mib", "-", "desk", "--workers", workers], place, stdin=feed.side)
        feed.close()
        tries.is_so(f"the feed hangs up behind {octets} octets, {workers} workers", found,
                    (7, b"".join(NEW[:octets // 12]), b"".join(REPLIES) + b"FAULT FEED\n"))
    feed = Hanging(FEED[:30])
    found = tries.run(["decode", "mib", "-", "--workers", workers], place, stdin=feed.side)
    feed.close()
    tries.is_so("the feed of decode hangs up", found, (7, b"".join(OLD[:2]), b"FAULT FEED\n"))


def outputs(tries, place, workers):
    text = b"".join(NEW)
    for octets in range(len(text)):
        with open(f"{place.room}/out", "wb") as out:
            status, _, told = tries.run(["live", "mib", "feed", "desk", "--workers", workers], place, stdout=out, preexec_fn=limited(octets))
        tries.is_so(f"the output takes {octets} octets, {workers} workers", (status, place.read("out"), told),
                    (9, text[:octets], b"".join(REPLIES) + b"FAULT OUT\n"))
    with open("/dev/full", "wb") as out:
        tries.is_so("the output is a full device", tries.run(["live", "mib", "feed", "desk", "--workers", workers], place, stdout=out),
                    (9, None, b"".join(REPLIES) + b"FAULT OUT\n"))
    for words in (["check", "mib"], ["decode", "mib", "feed", "--workers", workers], ["drill", "1"]):
        with open("/dev/full", "wb") as out:
            tries.is_so(f"{words[0]}: a full device", tries.run(words, place, stdout=out), (9, None, b"FAULT OUT\n"))
        one, other = os.pipe()
        os.close(one)
        tries.is_so(f"{words[0]}: a closed pipe", tries.run(words, place, stdout=other, restore_signals=False), (9, None, b"FAULT OUT\n"))
        os.close(other)
        tries.is_so(f"{words[0]}: no standard output", tries.run(words, place, stdout=None, preexec_fn=lambda: os.close(1)),
                    (9, None, b"FAULT OUT\n"))


def replies(tries, place, workers):
    text = b"".join(REPLIES)
    for octets in range(len(text)):
        with open(f"{place.room}/told", "wb") as told:
            status, out, _ = tries.run(["live", "mib", "feed", "desk", "--workers", workers], place, stderr=told, preexec_fn=limited(octets))
        tries.is_so(f"the replies take {octets} octets, {workers} workers", (status, out, place.read("told")),
                    (10, b"".join(OLD if octets < 22 else NEW), text[:octets]))


def desks(tries, place, workers):
    for octets in range(len(DESK) + 1):
        desk = Hanging(DESK[:octets])
        found = tries.run(["live", "mib", "feed", "-", "--workers", workers], place, stdin=desk.side)
        desk.close()
        tries.is_so(f"the desk hangs up behind {octets} octets, {workers} workers", found,
                    (8, b"".join(OLD if octets < 38 else NEW), replied(octets) + b"FAULT DESK\n"))


def files(tries, place):
    """Folders, links and files that may not be read in place of tables, a feed or a script."""
    commands = (["check", "mib"], ["decode", "mib", "feed"], ["live", "mib", "feed", "desk"])

    def each(what, tables, feed, desk):
        for words, status in zip(commands, (tables, tables or feed, tables or feed or desk)):
            found = tries.run(words, place)
            line = {6: b"FAULT TABLES\n", 7: b"FAULT FEED\n", 8: b"FAULT DESK\n", 4: b"NOFILE " + (b"FEED\n" if feed else b"DESK\n")}
            if status in line:
                begun = b"" if status != 8 or feed else None
                told = found[2] if begun is None else found[2]
                tries.is_so(f"{words[0]}: {what}", (found[0], told[-len(line[status]):]), (status, line[status]))

    for name in TABLES:
        was = place.read(f"mib/{name}")
        os.remove(f"{place.room}/mib/{name}")
        os.mkdir(f"{place.room}/mib/{name}")
        each(f"{name} is a folder", 6, 0, 0)
        os.rmdir(f"{place.room}/mib/{name}")
        os.symlink(name, f"{place.room}/mib/{name}")
        each(f"{name} is a link to itself", 6, 0, 0)
        os.remove(f"{place.room}/mib/{name}")
        place.write(f"mib/{name}", was)
    for name, status in (("feed", (0, 7, 0)), ("desk", (0, 0, 8))):
        was = place.read(name)
        os.remove(f"{place.room}/{name}")
        os.mkdir(f"{place.room}/{name}")
        each(f"the {name} is a folder", *status)
        os.rmdir(f"{place.room}/{name}")
        os.symlink(name, f"{place.room}/{name}")
        each(f"the {name} is a link to itself", *status)
        os.remove(f"{place.room}/{name}")
        each(f"the {name} isn't there", *[4 if it else 0 for it in status])
        place.write(name, was)
    if os.geteuid() == 0:
        as_nobody = {"user": 65534, "group": 65534}
        os.chmod(place.room, 0o755)
        for name, line in (("mib/pcf.dat", b"FAULT TABLES\n"), ("feed", b"FAULT FEED\n"), ("desk", b"FAULT DESK\n")):
            os.chmod(f"{place.room}/{name}", 0)
            status, _, told = tries.run(["live", "mib", "feed", "desk"], place, **as_nobody)
            tries.is_so(f"{name} may not be read", (status, told[-len(line):]), ({b"TABL": 6, b"FEED": 7, b"DESK": 8}[line[6:10]], line))
            os.chmod(f"{place.room}/{name}", 0o644)
    else:
        print("left out, as not root: files that may not be read")


def disks(tries, place):
    """A file system that is full behind so many octets."""
    if os.geteuid() != 0:
        print("left out, as not root: a full disk")
        return
    disk = f"{place.room}/disk"
    os.mkdir(disk)
    if subprocess.run(["mount", "-t", "tmpfs", "-o", "size=65536", "none", disk], stderr=subprocess.DEVNULL).returncode:
        print("left out, as nothing can be mounted: a full disk")
        return
    try:
        place.write("long", PACKET * 20000)
        with open(f"{disk}/out", "wb") as out:
            status, _, told = tries.run(["decode", "mib", "long"], place, stdout=out)
        whole = b"".join(records([1] * 2000, {1: 50}))
        with open(f"{disk}/out", "rb") as it:
            written = it.read()
        tries.is_so("a full disk", (status, told, written == whole[:len(written)], len(written) > 60000), (9, b"FAULT OUT\n", True, True))
    finally:
        subprocess.run(["umount", disk], check=True)


def growing(tries, place):
    """A pipe that gets packets one by one: each record is there before the next packet is."""
    one, other = os.pipe()
    run = subprocess.Popen([tries.program, "decode", "mib", "-"], cwd=place.room, stdin=one, stdout=subprocess.PIPE, stderr=subprocess.PIPE)
    os.close(one)
    for number in range(1, 4):
        os.write(other, PACKET)
        found = run.stdout.readline() + run.stdout.readline()
        tries.is_so(f"packet {number} of a feed that grows", found, OLD[number - 1])
    os.close(other)
    run.stdout.close()
    tries.is_so("the end of a feed that grew", (run.wait(SECONDS), run.stderr.read()), (0, b""))
    run.stderr.close()


def signals(tries, place):
    """SIGTERM in the middle: whole records alone have been handed on."""
    for command in (["decode", "mib", "-"], ["live", "mib", "-", "desk"]):
        one, other = os.pipe()
        run = subprocess.Popen([tries.program, *command], cwd=place.room, stdin=one, stdout=subprocess.PIPE, stderr=subprocess.DEVNULL)
        os.close(one)
        os.write(other, PACKET * 2 + PACKET[:5])
        wanted = b"".join((OLD if command[0] == "decode" else NEW)[:2])
        found = os.read(run.stdout.fileno(), 65536)
        while len(found) < len(wanted):
            found += os.read(run.stdout.fileno(), 65536)
        run.send_signal(signal.SIGTERM)
        tries.is_so(f"{command[0]} is ended by a signal", (run.wait(SECONDS), found + run.stdout.read()), (-signal.SIGTERM, wanted))
        run.stdout.close()
        os.close(other)


def memory(tries, place):
    """From too little memory to begin with up to what is enough, in 40 steps: nothing and 12, WANT for a line, or the whole."""
    whole = (0, b"".join(NEW), b"".join(REPLIES))

    def run(mega):
        def begin():
            resource.setrlimit(resource.RLIMIT_AS, (mega << 20, mega << 20))
        try:
            return tries.run(["live", "mib", "feed", "desk"], place, preexec_fn=begin)
        except (OSError, subprocess.SubprocessError):
            return None

    least = next((it for it in range(1, 4096) if is_begun(run(it))), None)
    enough = next(it for it in range(least, 8192, 8) if run(it) == whole)
    kinds = {"12": 0, "want": 0, "whole": 0}
    for step in range(40):
        mega = least + (enough - least) * step // 39
        found = run(mega)
        if found == whole:
            kinds["whole"] += 1
        elif found == (12, b"", b"MEMORY\n"):
            kinds["12"] += 1
        elif b"WANT\n" in found[2] and found[0] == 0:
            kinds["want"] += 1
        else:
            tries.is_so(f"with {mega} MB", found, "12 and nothing written, WANT, or the whole")
    tries.is_so("steps of memory", sum(kinds.values()), 40)
    print(f"memory from {least} to {enough} MB: {kinds}")


def is_begun(found):
    """Whether the program itself answered: not its loader."""
    return found is not None and found[0] >= 0 and found[0] != 127


def main():
    tries, workers = Tries(sys.argv[1]), sys.argv[2:] or ["1", "4"]
    with tempfile.TemporaryDirectory() as room:
        place = Place(room)
        for number in workers:
            for part in (feeds, outputs, replies, desks):
                part(tries, place, number)
        for part in (files, disks, growing, signals, memory):
            part(tries, place)
    print(f"{tries.made} tries, {tries.wrong} wrong")
    return 1 if tries.wrong else 0


if __name__ == "__main__":
    sys.exit(main())
