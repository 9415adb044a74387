#!/usr/bin/env python3
"""Checks `PANEL panel` over random missions and scripts of one to four desks: from the scripts, the records and all replies one order of lines and packets is
found that docs/FORMATS.md allows, and what was printed has to be what the interpreter of reference.py gives over it. With one desk a panel has to print and
reply what `MIBTM live` does, but for the desk's number.

    checks/panels.py PANEL MIBTM [RUNS [SEED]]

Beside them: four operators who save at once and take the newest edition until all are in, or until no edition has room; a desk without `go`; a desk that hangs up
behind each octet while another goes on; a desk that is answered while the feed waits; each request for memory refused; a desk that isn't there; words.
"""
import collections
import os
import queue
import random
import re
import signal
import subprocess
import sys
import tempfile
import threading

import boards
import failing_objects
import panel_reference
import random_lives
import random_missions
import reference
import refused_memory

SECONDS = 120
PUT, TOLD = "put tpcf\t%d\t%s", re.compile(r"DESK (\d) (.*)")
THIRD = ["put cap\tC1\t2000\t60", "save", "use 3 from 3"]


class Script(random_lives.Script):
    """Lines of a desk among several."""

    def line(self):
        return self.rng.choice(["take", "take", "take x"]) if self.rng.random() < 0.12 else super().line()

    def activation(self):
        """A changed row, saved on the newest edition or on an older one, and the use of some edition."""
        rng = self.rng
        table, row = self.changed()
        number = rng.randint(1, 7)
        begin = rng.choice(["", "", " from %d" % rng.randint(1, 40)])
        return rng.choice([["take"], ["take"], []]) + ["put %s\t%s" % (table, random_missions.line_of(row)), "save", "use %d%s" % (number, begin)]


class Panel:
    """A mission and scripts in a folder."""

    def __init__(self, rng, folder, desks, script=Script):
        self.rng, self.folder, self.desks = rng, folder, desks
        mission = random_missions.Mission(rng)
        self.octets = mission.feed(300)
        self.packets, self.rest = reference.cut(self.octets)
        random_missions.write_folder(self.path("tables"), mission.tables)
        self.write("feed", self.octets)
        self.scripts = [script(rng, mission).lines() for _ in range(desks)]
        for number, lines in enumerate(self.scripts, 1):
            self.write("desk%d" % number, "".join(line + "\n" for line in lines).encode("latin-1"))

    def path(self, name):
        return os.path.join(self.folder, name)

    def write(self, name, octets):
        with open(self.path(name), "wb") as file:
            file.write(octets)

    def words(self, command="panel", feed=None, desks=None):
        desks = desks or [self.path("desk%d" % number) for number in range(1, self.desks + 1)]
        return [command, self.path("tables"), feed or self.path("feed"), *desks, "--workers", str(self.rng.choice([1, 1, 2, 4, 16]))]

    def why(self, status, out, told, ended=None, wanted=None):
        """Why these aren't what a run leaves, or None; the status and its line are those of the feed's rest where no others are wanted."""
        replies, others = panel_reference.replies_of(told, self.desks)
        ended = ended or (["CUT %d" % self.rest] if self.rest else [])
        if status != (wanted or (5 if self.rest else 0)) or others != ended:
            return "status %d, and %s at the end" % (status, others)
        return panel_reference.why(reference.read_folder(self.path("tables")), self.octets, self.scripts, replies, out)


def ran(program, panel, words, feed):
    """The status, the output and the replies of a run, whose feed comes in pieces with pauses or at once."""
    given = {"stdin": subprocess.PIPE} if feed == "-" else {}
    with boards.begun(program, words, **given) as run:
        out = []
        threads = [threading.Thread(target=lambda: out.append(boards.gathered(run.stdout.fileno())))]
        threads += [threading.Thread(target=boards.fed, args=(panel, run.stdin))] if feed == "-" else []
        for it in threads:
            it.start()
        told = boards.gathered(run.stderr.fileno())
        for it in threads:
            it.join()
        run.stdin = None
    return run.returncode, out[0], told


def random_run(program, panel):
    feed = panel.rng.choice([None, "-"])
    status, out, told = ran(program, panel, panel.words(feed=feed), feed)
    panel.write("out", out.encode("latin-1"))
    panel.write("told", told.encode("latin-1"))
    return panel.why(status, out, told), len(TOLD.findall(told))


def single(program, live, panel):
    """A panel of one desk whose script ends with its first `go` prints and replies what a live run does."""
    lines = [line for line in panel.scripts[0] if line not in ("go", "take")] + ["go"]
    panel.write("desk1", "".join(line + "\n" for line in lines).encode("latin-1"))
    status, out, told = ran(program, panel, panel.words(), None)
    done = subprocess.run([live, *panel.words("live")], stdin=subprocess.DEVNULL, stdout=subprocess.PIPE, stderr=subprocess.PIPE, check=False)
    replies = TOLD.sub(r"\2", told)
    wanted = done.returncode, done.stdout.decode("latin-1"), done.stderr.decode("latin-1")
    right = (status, out, replies) == wanted and told.count("DESK 1 ") == len(told.splitlines()) - (status != 0)
    return None if right else "a panel of one desk: %r" % told[:300], len(lines)


class Operator(threading.Thread):
    """Writes lines to a desk of a panel, each behind the reply to the one before. A line that is saved in vain is tried again on the newest edition."""

    def __init__(self, panel, number, most):
        super().__init__()
        self.panel, self.number, self.most, self.replies = panel, number, most, queue.Queue()
        self.lines, self.saved, self.stale, self.last = panel.scripts[number - 1], 0, 0, ""

    def say(self, desk, line):
        self.lines.append(line)
        desk.write(line + "\n")
        desk.flush()
        self.last = self.replies.get(timeout=SECONDS)
        return self.last

    def run(self):
        with open(self.panel.path("desk%d" % self.number), "w", encoding="latin-1") as desk:
            self.say(desk, "go")
            while self.saved < self.most and not self.last.startswith("FULL"):
                self.say(desk, PUT % (4001 + self.number, "S%d" % self.saved))
                if self.say(desk, "save").startswith("SAVED"):
                    self.saved += 1
                    self.say(desk, "use %s" % self.last.split()[1])
                elif self.last.startswith("STALE"):
                    self.stale += 1
                    self.say(desk, "take")


def operated(program, panel, most):
    """Four operators who save so often each, or until no edition has room."""
    for number in range(1, 5):
        os.mkfifo(panel.path("desk%d" % number))
    operators = [Operator(panel, number, most) for number in range(1, 5)]
    for it in operators:
        it.start()
    with boards.begun(program, panel.words(feed="-"), stdin=subprocess.PIPE) as run:
        out, told = [], []
        threads = [threading.Thread(target=lambda: out.append(boards.gathered(run.stdout.fileno()))), threading.Thread(target=boards.fed, args=(panel, run.stdin))]
        for it in threads:
            it.start()
        for line in run.stderr:
            told.append(line.decode("latin-1"))
            found = TOLD.match(told[-1])
            if found:
                operators[int(found[1]) - 1].replies.put(found[2])
        for it in threads + operators:
            it.join()
        run.stdin = None
    found = panel.why(run.returncode, out[0], "".join(told))
    saved, full = sum(it.saved for it in operators), [it.last for it in operators]
    if most * 4 < 63:
        found = found or (None if saved == most * 4 else "%d editions were saved" % saved)
    else:
        found = found or (None if saved == 63 and full == ["FULL EDITIONS 64"] * 4 else "%d editions were saved, and %s" % (saved, full))
    return found, "%d saved, %d stale" % (saved, sum(it.stale for it in operators))


class Empty:
    """A script of no line, for a desk that is operated."""

    def __init__(self, rng, mission):
        pass

    def lines(self):
        return []


def bare(rng, folder, desks):
    """A sound mission without scripts."""
    panel = Panel(rng, folder, desks, Empty)
    for number in range(1, desks + 1):
        os.remove(panel.path("desk%d" % number))
    return panel


def failing_desks(program, folder):
    """A desk that hangs up behind each octet of its script ends alone: the other handles all of its lines, and the packets are printed."""
    place, wrong, text = failing_objects.Place(folder), [], failing_objects.DESK
    other = ["put cap\tC1\t2000\t60", "go", "save", "take", "put cap\tC1\t0\t-60", "save"]
    place.write("other", "".join(line + "\n" for line in other).encode())
    tables = reference.read_folder(os.path.join(folder, "mib"))
    for octets in range(len(text) + 1):
        hanging = failing_objects.Hanging(text[:octets])
        words = ["panel", "mib", "feed", *(["-", "other"] if octets % 2 else ["other", "-"])]
        done = subprocess.run([program, *words], cwd=folder, stdin=hanging.side, stdout=subprocess.PIPE, stderr=subprocess.PIPE, timeout=SECONDS, check=False)
        hanging.close()
        replies, others = panel_reference.replies_of(done.stderr.decode(), 2)
        cut = text[:octets].decode().splitlines()[: text[:octets].count(b"\n")]
        found = panel_reference.why(tables, failing_objects.FEED, [cut, other] if octets % 2 else [other, cut], replies, done.stdout.decode())
        if found or (done.returncode, others) != (8, ["FAULT DESK"]):
            wrong.append("a desk that hangs up behind %d octets: %s, %d, %s" % (octets, found, done.returncode, others))
    return wrong


def refused_memory_of(program, folder):
    """Each request for memory of a run with two desks that collide is refused in turn: the run ends with 12 and nothing written, or a line is
    answered WANT and all is that of the others."""
    failing_objects.Place(folder)
    tries, scripts = refused_memory.Tries(program, folder), [["put cap\tC1\t2000\t100", "save", "use 2 from 2", "go"], ["put cap\tC1\t2000\t60", "save", "take", *THIRD, "go"]]
    for number, lines in enumerate(scripts, 1):
        with open(os.path.join(folder, "desk%d" % number), "w", encoding="latin-1") as file:
            file.write("".join(line + "\n" for line in lines))
    tables = reference.read_folder(os.path.join(folder, "mib"))

    def is_allowed(found):
        replies, others = panel_reference.replies_of(found[2].decode(), 2)
        return found == (12, b"", b"MEMORY\n") or found[0] == 0 and not others and not panel_reference.why(tables, failing_objects.FEED, scripts, replies, found[1].decode())

    words = ["panel", "mib", "feed", "desk1", "desk2"]
    _, number = tries.run(words)
    for at in range(1, number + 1):
        tries.is_so("request %d of %d" % (at, number), tries.run(words, at)[0], is_allowed)
    return ["refused memory: %d of %d" % (tries.wrong, tries.made)] if tries.wrong else []


def waiting_feed(program, folder):
    """The second of two desks is answered while the feed waits behind its first packet."""
    place = failing_objects.Place(folder)
    place.write("first", b"go\n")
    os.mkfifo(os.path.join(folder, "second"))
    with subprocess.Popen([program, "panel", "mib", "-", "first", "second"], cwd=folder, stdin=subprocess.PIPE, stdout=subprocess.PIPE, stderr=subprocess.PIPE) as run:
        with open(os.path.join(folder, "second"), "wb", buffering=0) as desk, run.stdin as feed:
            desk.write(b"go\n")
            feed.write(failing_objects.PACKET)
            feed.flush()
            records = run.stdout.readline() + run.stdout.readline()
            desk.write(b"use 1\n")
            told = run.stderr.readline() + run.stderr.readline() + run.stderr.readline()
            feed.write(failing_objects.PACKET)
        run.stdin = None
        records, told = records + run.stdout.read(), told + run.stderr.read()
    right = (run.returncode, records, told) == (0, b"".join(failing_objects.OLD[:2]), b"DESK 1 GO\nDESK 2 GO\nDESK 2 USED 1 FROM 2\n")
    return [] if right else ["a feed that waits: %d, %r, %r" % (run.returncode, records, told)]


def refused(program, folder):
    """Words, and desks that aren't there: nothing is printed, and nothing of what stands behind is opened."""
    place = failing_objects.Place(folder)
    os.mkdir(os.path.join(folder, "none"))
    cases = [
        ([], 2, "USAGE COMMAND"), (["live", "mib", "feed", "desk"], 2, "USAGE COMMAND"), (["panels"], 2, "USAGE COMMAND"), (["panel"], 2, "USAGE WORDS"),
        (["panel", "mib", "feed"], 2, "USAGE WORDS"), (["panel", "mib", "feed", "desk", "desk", "desk", "desk", "desk"], 2, "USAGE WORDS"),
        (["panel", "mib", "-", "desk", "-"], 2, "USAGE WORDS"), (["panel", "mib", "feed", "-", "desk", "-"], 2, "USAGE WORDS"),
        (["panel", "mib", "feed", "desk", "--workers", "17"], 2, "USAGE WORDS"), (["panel", "mib", "feed", "desk", "-v"], 2, "USAGE WORDS"),
        (["panel", "mib", "nosuch", "nosuch"], 4, "NOFILE FEED"), (["panel", "mib", "feed", "desk", "nosuch", "other"], 4, "NOFILE DESK"),
        (["panel", "mib", "feed", "desk", "desk", "desk", "nosuch"], 4, "NOFILE DESK"),
    ]
    wrong = []
    for words, status, line in cases:
        done = subprocess.run([program, *words], cwd=place.room, stdin=subprocess.DEVNULL, stdout=subprocess.PIPE, stderr=subprocess.PIPE, timeout=SECONDS, check=False)
        if (done.returncode, done.stdout, done.stderr) != (status, b"", line.encode() + b"\n"):
            wrong.append("%s: %d, %r" % (" ".join(words), done.returncode, done.stderr))
    return wrong


def named(program, seed):
    """What is wrong with the cases that aren't random, and a line of what they came to."""
    wrong, said = [], []
    with tempfile.TemporaryDirectory() as folder:
        wrong += failing_desks(program, folder)
    with tempfile.TemporaryDirectory() as folder:
        wrong += refused(program, folder)
    with tempfile.TemporaryDirectory() as folder:
        wrong += refused_memory_of(program, folder)
    with tempfile.TemporaryDirectory() as folder:
        signal.alarm(SECONDS)
        wrong += waiting_feed(program, folder)
    for most in (1, 4, 64):
        rng, came = random.Random(seed), "refused"
        while came == "refused":
            with tempfile.TemporaryDirectory() as folder:
                signal.alarm(SECONDS)
                panel = bare(rng, folder, 4)
                if is_sound(program, panel):
                    found, came = operated(program, panel, most)
                    wrong += ["four operators: %s" % found] if found else []
        said.append("%d by each of four operators: %s" % (most, came))
    return wrong, "; ".join(said)


def is_sound(program, panel):
    words = ["panel", panel.path("tables"), os.devnull, os.devnull]
    return subprocess.run([program, *words], stdout=subprocess.DEVNULL, stderr=subprocess.DEVNULL, check=False).returncode != 3


def run(program, live, seed, folder):
    """How many desks there were, a word of what came of a run and why, and how many replies there were."""
    rng = random.Random(seed)
    desks = rng.choice([1, 2, 2, 2, 3, 3, 4, 4])
    panel = Panel(rng, folder, desks)
    if not is_sound(program, panel):
        return desks, "refused", 0
    differs, replies = single(program, live, panel) if desks == 1 else random_run(program, panel)
    return desks, "differs: %s" % differs if differs else "equal", replies


def main():
    program, live = map(os.path.abspath, sys.argv[1:3])
    runs, first = (int(word) for word in (sys.argv[3:] + ["1000", "1"][len(sys.argv) - 3:])[:2])
    counts, ways, seen = collections.Counter(), collections.Counter(), 0
    wrong, said = named(program, first)
    for line in wrong:
        print(line)
    for seed in range(first, first + runs):
        with tempfile.TemporaryDirectory() as folder:
            signal.alarm(SECONDS)  # a run that never ends ends the check
            desks, found, replies = run(program, live, seed, folder)
            if found.startswith("differs"):
                subprocess.run(["cp", "-r", folder, "differs_%d" % seed], check=False)
        if found not in ("equal", "refused"):
            print(seed, desks, found)
        counts[found.split()[0].rstrip(":")] += 1
        ways[desks] += 1
        seen += replies
    print(said)
    print(", ".join("%d %s" % (count, word) for word, count in sorted(counts.items())) + ", of which "
          + ", ".join("%d of %d desks" % (count, desks) for desks, count in sorted(ways.items())) + "; %d replies" % seen)
    sys.exit(1 if wrong or counts["differs"] or not counts["equal"] else 0)


if __name__ == "__main__":
    main()
