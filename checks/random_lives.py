#!/usr/bin/env python3
"""Checks `PROGRAM live` over random missions and random scripts of a desk, most of which go on after `go`: from the script and
its replies a schedule of packets is found, and what was printed has to be what the interpreter of reference.py gives over it.

    checks/random_lives.py PROGRAM [RUNS [SEED]]
"""
import os
import random
import subprocess
import sys
import tempfile

import live_reference
import random_missions
import reference


class Script:
    """Lines of a desk over a mission."""

    def __init__(self, rng, mission):
        self.rng, self.mission = rng, mission

    def changed(self):
        """A row that may stand in place of another, or beside it."""
        rng, tables = self.rng, self.mission.tables
        table = rng.choice(["pcf", "pcf", "ocp", "ocp", "ocf", "ocf", "mcf", "txp", "cap", "tpcf", "plf", "cur", "vpd", "pid"])
        if not tables[table]:
            return "tpcf", ["1", "ELSE"]
        row = list(rng.choice(tables[table]))
        if table == "pcf":
            row[14] = rng.choice(["", "1", "3"])
            row[17] = rng.choice([row[17], "1"])
        elif table == "ocp":
            row = self.mission.limit(row[0], row[1])
        elif table == "ocf":
            row[1] = rng.choice(["1", "2", "3"])
        elif table == "mcf":
            row[2] = random_missions.decimal(rng)
        elif table in ("txp", "cap"):
            row[-1] = rng.choice(["1", "2", "3.5"])
        elif table == "tpcf":
            row[1] = rng.choice(["NEW", "", "NAME"])
        elif table == "plf":
            row[2] = str(rng.choice([10, 11, 13]))
        elif table == "cur":
            row[3] = str(rng.choice(random_missions.SMALL))
        elif table == "vpd":
            row[-1] = rng.choice(["", "8", "0"])
        else:
            row[9] = rng.choice(["4", "5"])
        return table, row

    def deleted(self):
        rng = self.rng
        table = rng.choice(["ocp", "tpcf", "plf", "cur", "cap", "txp", "ocf"])
        if not self.mission.tables[table]:
            return "del tpcf\t77"
        row = rng.choice(self.mission.tables[table])
        columns = {name: at for at, name, _, _ in reference.TABLES[table]}
        return "del %s\t%s" % (table, "\t".join(row[columns[name] - 1] for name in reference.KEYS[table]))

    def line(self):
        rng = self.rng
        draw = rng.random()
        if draw < 0.4:
            table, row = self.changed()
            return "put %s\t%s" % (table, random_missions.line_of(row))
        if draw < 0.48:
            return self.deleted()
        if draw < 0.7:
            return "save"
        if draw < 0.9:
            edition = rng.choice([1, 2, 2, 3, 4, 0, 9])
            return rng.choice(["use %d" % edition, "use %d" % edition, "use %d from %d" % (edition, rng.randint(1, 40))])
        return rng.choice(["drop", "# a note", "", "sav", "use x", "go ", "drop\r"])

    def activation(self):
        """A changed row, a new edition and its use."""
        rng = self.rng
        self.saves += 1
        table, row = self.changed()
        begin = rng.choice(["", "", " from %d" % (rng.randint(1, 8) + 6 * self.saves)])
        return ["put %s\t%s" % (table, random_missions.line_of(row)), "save", "use %d%s" % (self.saves + 1, begin)]

    def lines(self):
        rng, self.saves = self.rng, 0
        made = []
        for _ in range(rng.choice([0, 3, 8, 12])):
            made += self.activation() if rng.random() < 0.5 else [self.line()]
        if rng.random() < 0.9:
            made.insert(rng.choice([0, rng.randint(0, len(made)), min(4, len(made))]), "go")
        return made


def run(program, seed, folder):
    """A word of what came of a run: equal, refused or differs, and why."""
    rng = random.Random(seed)
    mission = random_missions.Mission(rng)
    script = Script(rng, mission).lines()
    octets = mission.feed(300)
    tables, feed, desk = (os.path.join(folder, name) for name in ("tables", "feed", "desk"))
    random_missions.write_folder(tables, mission.tables)
    with open(feed, "wb") as file:
        file.write(octets)
    with open(desk, "wb") as file:
        file.write("".join(line + "\n" for line in script).encode("latin-1"))
    done = subprocess.run([program, "live", tables, feed, desk, "--workers", str(rng.choice([1, 1, 2, 4, 16]))],
                          stdout=subprocess.PIPE, stderr=subprocess.PIPE)
    replies = done.stderr.decode("latin-1").splitlines()
    if done.returncode == 3:
        return "refused"
    rest = reference.cut(octets)[1]
    if done.returncode != (5 if rest else 0):
        return "differs in status %d" % done.returncode
    try:
        expected = live_reference.output(reference.read_folder(tables), octets, script, replies[:-1] if rest else replies)
    except live_reference.Differs as why:
        return "differs: %s" % why
    return "equal" if done.stdout.decode("latin-1") == expected else "differs in text"


def main():
    program = os.path.abspath(sys.argv[1])
    runs, first = (int(word) for word in (sys.argv[2:] + ["1000", "1"][len(sys.argv) - 2:])[:2])
    counts = {}
    for seed in range(first, first + runs):
        with tempfile.TemporaryDirectory() as folder:
            found = run(program, seed, folder)
            if found.startswith("differs"):
                subprocess.run(["cp", "-r", folder, "differs_%d" % seed])
        if found != "equal":
            print(seed, found)
        counts[found.split()[0].rstrip(":")] = counts.get(found.split()[0].rstrip(":"), 0) + 1
    print(", ".join("%d %s" % (count, word) for word, count in sorted(counts.items())))
    sys.exit(1 if counts.get("differs") or not counts.get("equal") else 0)


if __name__ == "__main__":
    main()
