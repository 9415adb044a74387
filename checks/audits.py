#!/usr/bin/env python3
"""Compares `PROGRAM audit` with a second reckoning of what an audit finds, over random missions.

    checks/audits.py PROGRAM [RUNS [SEED [CHANGES]]]

What `decode` prints of each mission, with an empty script, and what `live` prints of a random script are audited: SAME. Then each text is changed
CHANGES times in one of seven ways: an octet is another, a line is dropped, doubled or moved, a line of an edition is moved or shows
another edition, or the text is cut short. The line that is told has to be the one in which the changed text differs from what the
interpreter of reference.py gives for the editions that it shows.
"""
import os
import random
import subprocess
import sys
import tempfile

import live_reference
import random_lives
import random_missions
import reference

LF = b"\n"


def lines_of(text):
    """Lines with their LF; the last may have none."""
    *whole, last = text.split(LF)
    return [line + LF for line in whole] + [last] * (last != b"")


class Audit:
    """The tables of the editions, and a feed."""

    def __init__(self, editions, octets):
        self.editions, self.octets, self.known = editions, octets, {}

    def expected(self, shown, last):
        """The lines that are expected, by the editions of packets and of those behind them."""
        key = tuple(shown), last
        if key not in self.known:
            text = reference.output(self.editions, lambda n: shown[n - 1] if n <= len(shown) else last, self.octets)
            self.known[key] = lines_of(text.encode("latin-1"))
        return self.known[key]

    def found(self, text):
        """What is printed of a text, and the status."""
        lines, shown, edition = lines_of(text), [], 1
        numbers = {b"%d" % number: number for number in self.editions}
        for place, line in enumerate(lines, 1):
            if line.startswith(b"EDITION "):
                word = line[8:-1] if line.endswith(LF) else line[8:]
                if word not in numbers:
                    return b"NOEDITION %d COUNT %d\n" % (place, len(numbers)), 14
                edition = numbers[word]
            elif line.startswith(b"PKT "):
                shown.append(edition)
        expected = self.expected(shown, edition)
        for place, (line, wanted) in enumerate(zip(lines, expected), 1):
            if line != wanted:
                return b"DIFFERS %d\n" % place, 13
        if len(lines) != len(expected):
            return b"DIFFERS %d\n" % (min(len(lines), len(expected)) + 1), 13
        return b"SAME\n", 0


def changed(rng, text, most):
    """The name of a change, and the text with it."""
    lines = lines_of(text)
    editions = [place for place, line in enumerate(lines) if line.startswith(b"EDITION ")]
    place = rng.randrange(len(lines))
    kind = rng.choice(["octet", "dropped", "doubled", "moved", "cut"] + ["edition moved", "edition changed"] * (3 if editions else 0))
    if kind == "octet":
        at = rng.randrange(len(text))
        other = rng.choice([rng.randrange(256), 10, 32, text[at] ^ 1])
        return kind, text[:at] + bytes([other]) + text[at + 1:]
    if kind == "cut":
        return kind, text[:rng.randrange(len(text))]
    if kind == "dropped":
        del lines[place]
    elif kind == "doubled":
        lines.insert(place, lines[place])
    elif kind == "edition changed":
        word = rng.choice([b"%d" % rng.randint(0, most + 1), b"01", b"", b"1 ", b"2\r"])
        lines[rng.choice(editions)] = b"EDITION " + word + LF
    else:
        line = lines.pop(rng.choice(editions) if kind == "edition moved" else place)
        lines.insert(rng.randint(0, len(lines)), line)
    return kind, b"".join(lines)


def call(program, *words):
    done = subprocess.run([program, *words], stdout=subprocess.PIPE, stderr=subprocess.PIPE)
    return done.stdout, done.stderr, done.returncode


def check(program, seed, folder, changes, counts):
    """Audits what is printed of a mission, and changes of it; none where its tables are refused."""
    rng = random.Random(seed)
    mission = random_missions.Mission(rng)
    script, octets = random_lives.Script(rng, mission).lines(), mission.feed(rng.choice([40, 200]))
    tables, feed, desk, none, text = (os.path.join(folder, name) for name in ("tables", "feed", "desk", "none", "text"))
    random_missions.write_folder(tables, mission.tables)
    for name, content in ((feed, octets), (none, b""), (desk, "".join(line + "\n" for line in script).encode("latin-1"))):
        with open(name, "wb") as file:
            file.write(content)

    def audited(printed, by, audit, what):
        with open(text, "wb") as file:
            file.write(printed)
        found, wanted = call(program, "audit", tables, feed, by, text), audit.found(printed)
        if found != (wanted[0], b"", wanted[1]):
            return sys.exit("mission %d, %s: %r in place of %r; the text is left in audited_%d" % (
                seed, what, found, wanted, os.system("cp %s audited_%d" % (text, seed)) or seed))
        word = wanted[0].split()[0].decode()
        counts[what, word] = counts.get((what, word), 0) + 1

    decoded, _, status = call(program, "decode", tables, feed)
    if status == 3:
        return
    first = reference.read_folder(tables)
    audited(decoded, none, Audit({1: first}, octets), "decode")
    lived, replies, _ = call(program, "live", tables, feed, desk)
    told, packets = replies.decode("latin-1").splitlines(), reference.cut(octets)[0]
    follower, given = live_reference.Desk(first, len(packets)), iter(told)
    for line in script:
        follower.line(line, given)
    audit = Audit(follower.editions, octets)
    audited(lived, desk, audit, "live")
    for _ in range(changes if lived else 0):
        kind, other = changed(rng, lived, len(audit.editions))
        audited(other, desk, audit, kind)


def main():
    program = os.path.realpath(sys.argv[1])
    runs, first, changes = (int(word) for word in (sys.argv[2:] + ["1000", "1", "30"][len(sys.argv) - 2:])[:3])
    counts = {}
    for seed in range(first, first + runs):
        with tempfile.TemporaryDirectory() as folder:
            check(program, seed, folder, changes, counts)
    told = ["%d %s %s" % (count, what, word) for (what, word), count in sorted(counts.items())]
    if not counts or any(word != "SAME" for what, word in counts if what in ("decode", "live")):
        sys.exit("a text that was printed isn't the same: " + ", ".join(told))
    print(", ".join(told))


if __name__ == "__main__":
    main()
