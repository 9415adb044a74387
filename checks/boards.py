#!/usr/bin/env python3
"""Checks `PROGRAM board` over random missions, scripts and pages: what was printed has to be what the interpreter of reference.py gives over the schedule
that the replies show, each page what it keeps after the page's packet, their numbers have to rise, and the last page is that of the last packet.

    checks/boards.py PROGRAM [RUNS [SEED]]

A run's screen is read at once or slowly, is full until all records were read, or fails; or the page's file can't be used. Workers are 1, 2, 4 or 16.
"""
import collections
import fcntl
import os
import random
import re
import signal
import subprocess
import sys
import tempfile
import threading
import time

import failing_objects
import live_reference
import random_lives
import random_missions
import reference

SECONDS = 120
ROOM = 4096  # octets that a pipe keeps
HEAD = re.compile(r"PAGE (\d+) EDITION \d+\n")
WAYS = ["at once"] * 8 + ["slow"] * 3 + ["full"] * 3 + ["failing screen"] * 3 + ["failing page"] * 3


class Board:
    """A mission, a script and names of a page in a folder."""

    def __init__(self, rng, folder, script):
        self.rng, self.folder = rng, folder
        mission = random_missions.Mission(rng)
        self.script = random_lives.Script(rng, mission).lines() if script else []
        self.octets = mission.feed(300)
        self.packets, self.rest = reference.cut(self.octets)
        names = mission.names + ["DEDUCED"] + ["NOPE%d" % at for at in range(60)]
        self.names = rng.sample(names[: rng.choice([4, 12, len(names)])], rng.randint(0, 4)) if rng.random() < 0.8 else rng.sample(names, min(64, len(names)))
        random_missions.write_folder(self.path("tables"), mission.tables)
        self.write("feed", self.octets)
        self.write("desk", "".join(line + "\n" for line in self.script).encode("latin-1"))
        self.write("page", "".join(rng.choice(["", "\r\n"]) + it + rng.choice(["\n", "\r\n", "\n\n"]) for it in self.names).encode())
        self.kept = {}

    def path(self, name):
        return os.path.join(self.folder, name)

    def write(self, name, octets):
        with open(self.path(name), "wb") as file:
            file.write(octets)

    def words(self, **other):
        files = [other.get(it, self.path(it)) for it in ("tables", "feed", "desk", "page")]
        return ["board", *files, "--workers", str(self.rng.choice([1, 2, 4, 16]))]

    def text(self, replies):
        """What has to be printed; what is kept behind each packet stands in `kept` then."""
        def told(number, interpreter):
            self.kept[number] = interpreter.edition, dict(interpreter.memory)
        return live_reference.output(reference.read_folder(self.path("tables")), self.octets, self.script, replies, told=told)

    def page(self, number):
        edition, memory = self.kept[number]
        states = [memory.get(name, reference.NOTHING) for name in self.names]
        cells = ["  %s %s %s\n" % (name, "-" if it.raw is None else it.raw, it.spoken or "-") for name, it in zip(self.names, states)]
        return "PAGE %d EDITION %d\n%s" % (number, edition, "".join(cells))

    def status(self):
        return 5 if self.rest else 0


def parted(told):
    """The pages, each as its number and its text, and the other lines."""
    pages, others = [], []
    for line in told.splitlines(keepends=True):
        head = HEAD.fullmatch(line)
        if head:
            pages.append([int(head[1]), line])
        elif line.startswith(" ") and pages:
            pages[-1][1] += line
        else:
            others.append(line.rstrip("\n"))
    return pages, others


def why_pages(board, pages, is_cut=False):
    """Why these aren't pages of the run, or None; the last one may be cut, and is else that of the last packet."""
    numbers = [number for number, _ in pages]
    if any(one >= other for one, other in zip(numbers, numbers[1:])) or any(number not in board.kept for number in numbers):
        return "the pages are %s of %d" % (numbers, len(board.packets))
    if not is_cut and numbers[-1:] != ([len(board.packets)] if board.packets else []):
        return "the last page is %s of %d" % (numbers[-1:], len(board.packets))
    for number, text in pages:
        wanted = board.page(number)
        if text != wanted and not (is_cut and number == numbers[-1] and wanted.startswith(text)):
            return "the page %d is %r" % (number, text)
    return None


def why(board, status, out, told):
    """Why these aren't what a run with a whole screen leaves, or None."""
    pages, others = parted(told)
    ended = ["CUT %d" % board.rest] if board.rest else []
    if status != board.status() or others[len(others) - len(ended):] != ended:
        return "status %d, and %s at the end" % (status, others[-1:])
    try:
        text = board.text(others[: len(others) - len(ended)])
    except live_reference.Differs as differs:
        return str(differs)
    return why_pages(board, pages) if out == text else "the records"


def gathered(stream, most=None, size=1 << 16, pause=0.0):
    """What a stream gives up to its end, or to so many octets."""
    pieces, left = [], most
    while left != 0:
        piece = os.read(stream, size if left is None else min(left, size))
        if not piece:
            break
        pieces.append(piece)
        left = None if left is None else left - len(piece)
        time.sleep(pause)
    return b"".join(pieces).decode("latin-1")


def begun(program, words, **given):
    return subprocess.Popen([program, *words], stdout=subprocess.PIPE, **{"stdin": subprocess.DEVNULL, "stderr": subprocess.PIPE, **given})


def fed(board, stream):
    """Writes the feed in pieces of some packets with a pause behind each."""
    with stream:
        for at in range(0, len(board.packets), 10):
            stream.write(b"".join(board.packets[at : at + 10]))
            stream.flush()
            time.sleep(0.005)
        stream.write(board.octets[len(board.octets) - board.rest :])


def read_screen(program, board, **how):
    """A run whose screen is read, at once or slowly; of some the feed comes slowly."""
    is_fed = board.rng.random() < 0.5
    given = {"stdin": subprocess.PIPE} if is_fed else {}
    with begun(program, board.words(**({"feed": "-"} if is_fed else {})), **given) as run:
        fcntl.fcntl(run.stderr, fcntl.F_SETPIPE_SZ, ROOM)
        out = []
        threads = [threading.Thread(target=lambda: out.append(gathered(run.stdout.fileno())))]
        threads += [threading.Thread(target=fed, args=(board, run.stdin))] if is_fed else []
        for it in threads:
            it.start()
        told = gathered(run.stderr.fileno(), **how)
        for it in threads:
            it.join()
        run.stdin = None
    return why(board, run.returncode, out[0], told), parted(told)[0]


def slow_screen(program, board):
    return read_screen(program, board, size=256, pause=0.001)


def full_screen(program, board):
    """A run whose screen takes nothing until all records were read: the run ends before its screen goes on."""
    one, other = os.pipe()
    fcntl.fcntl(other, fcntl.F_SETPIPE_SZ, ROOM)
    os.write(other, b"#" * ROOM)
    with begun(program, board.words(), stderr=other) as run:
        os.close(other)
        wanted = board.text([])
        out = gathered(run.stdout.fileno(), len(wanted))
        waits = run.poll() is None
        told = gathered(one)[ROOM:]
        out += gathered(run.stdout.fileno())
    os.close(one)
    found = why(board, run.returncode, out, told)
    return found if found or waits or not board.packets else "it didn't wait for its screen", parted(told)[0]


def failing_screen(program, board):
    """A run whose screen is a file that may grow no further, or a full device: all is printed, and the file has a front of pages."""
    wanted = board.text([])
    least = len(board.page(len(board.packets))) if board.packets else 0
    room = board.rng.randint(0, least + 40)
    place = board.rng.choice([board.path("told"), board.path("told"), "/dev/full"])
    with open(place, "wb") as told, begun(program, board.words(), stderr=told, preexec_fn=failing_objects.limited(room)) as run:
        out = gathered(run.stdout.fileno())
    with open(board.path("told") if place != "/dev/full" else os.devnull, encoding="latin-1") as file:
        told = file.read()
    room = room if place != "/dev/full" else 0
    if run.returncode != 13:
        must = board.packets and room < least
        ended = run.returncode == board.status() and out == wanted
        return None if ended and not must else "status %d with room for %d" % (run.returncode, room), []
    pages, others = parted(told)
    begun_head = others.pop() if others and "PAGE ".startswith(others[-1][:5]) else ""
    if out != wanted or len(told) != room or others or not board.packets:
        return "a screen of %d octets: %s" % (room, others), pages
    if begun_head and not any(board.page(number).startswith(begun_head) for number in board.kept):
        return "a front %r of no page" % begun_head, pages
    return why_pages(board, pages, True), pages


def bad_page(board):
    """Writes a page of some names with a fault behind them; the line for which it is refused."""
    rng = board.rng
    names = "".join("N%d\n" % at for at in range(rng.randint(0, 40)))
    at = names.count("\n") + 1
    text, line = rng.choice([
        (names + rng.choice(["A B\n", " \n", "a" * 33, "\tA\n", "\x80\n"]) + "N0\n", at),
        ("M\n" + names + "\r\nM\r\n\x80", at + 1),
        ("".join("N%d\n" % it for it in range(65)), 65),
        ("\x80\n" + names + "\n" * 65536, 0),
    ])
    board.write("page", text.encode("latin-1"))
    return line


def failing_page(program, board):
    """A run whose page can't be used opens nothing, and prints nothing; what stands before its page is told before."""
    found, given, words = board.rng.choice(["folder", "missing", "hangs up", "a line", "a line", "a line", "no feed", "no desk", "words"]), {}, board.words()
    if found in ("a line", "no feed", "no desk"):
        wanted = 15, "BADPAGE %d" % bad_page(board)
    if found in ("folder", "missing"):
        os.remove(board.path("page"))
        wanted = 4, "NOFILE PAGE"
    if found in ("folder", "hangs up"):
        wanted = 14, "FAULT PAGE"
    if found == "folder":
        os.mkdir(board.path("page"))
    if found == "hangs up":
        hanging = failing_objects.Hanging(b"N\n" * board.rng.randint(0, 1) + b"M")
        words, given["stdin"] = board.words(page="-"), hanging.side
    if found in ("no feed", "no desk"):
        words, wanted = board.words(**{found[3:]: board.path("none")}), (4, "NOFILE " + found[3:].upper())
    if found == "words":
        words, wanted = words[: board.rng.randint(1, 4)], (2, "USAGE WORDS")
    with begun(program, words, **given) as run:
        told, out = gathered(run.stderr.fileno()), gathered(run.stdout.fileno())
    if found == "hangs up":
        hanging.close()
    right = (run.returncode, told, out) == (wanted[0], wanted[1] + "\n", "")
    return None if right else "%s: status %d, %r" % (found, run.returncode, told), []


def run(program, seed, folder):
    """How the screen was treated, a word of what came of a run and why, and its pages."""
    rng = random.Random(seed)
    way = rng.choice(WAYS)
    board = Board(rng, folder, way in ("at once", "slow"))
    nothing = [os.devnull] * 3
    if subprocess.run([program, "board", board.path("tables"), *nothing], stdout=subprocess.DEVNULL, stderr=subprocess.DEVNULL).returncode == 3:
        return way, "refused", []
    does = {"at once": read_screen, "slow": slow_screen, "full": full_screen, "failing screen": failing_screen, "failing page": failing_page}
    differs, pages = does[way](program, board)
    return way, "differs: %s" % differs if differs else "equal", pages


def main():
    program = os.path.abspath(sys.argv[1])
    runs, first = (int(word) for word in (sys.argv[2:] + ["1000", "1"][len(sys.argv) - 2:])[:2])
    counts, ways, seen = collections.Counter(), collections.Counter(), 0
    for seed in range(first, first + runs):
        with tempfile.TemporaryDirectory() as folder:
            signal.alarm(SECONDS)  # a run that never ends ends the check
            way, found, pages = run(program, seed, folder)
            if found.startswith("differs"):
                subprocess.run(["cp", "-r", folder, "differs_%d" % seed], check=False)
        if found != "equal":
            print(seed, way, found)
        counts[found.split()[0].rstrip(":")] += 1
        ways[way] += 1
        seen += len(pages)
    print(", ".join("%d %s" % (count, word) for word, count in sorted(counts.items())) + ", of which "
          + ", ".join("%d %s" % (count, way) for way, count in sorted(ways.items())) + "; %d pages" % seen)
    sys.exit(1 if counts["differs"] or not counts["equal"] else 0)


if __name__ == "__main__":
    main()
