"""A second desk and register, written from docs/FORMATS.md and the printed replies alone: from a script and its replies it
finds the edition of each packet, and then what a live run has to print."""
import copy

import reference
from reference import KEYS, curve_of, first, limits_of, read_row, structure

MOST_EDITIONS, MOST_PENDING = 64, 16


class Differs(Exception):
    """A reply that no schedule of packets can bring about."""


# ---- plans

def curve_rows(tables, parameter, name):
    found = curve_of(tables, {**parameter, "curtx": name}, {}) if name is not None else None
    if found is None:
        return []
    table, row = found
    points = {"caf": "cap", "txf": "txp"}.get(table)
    return [table, row] + ([r for r in tables[points] if r["numbr"] == row["numbr"]] if points else [])


def type_items(tables, names):
    return [{c: first(tables["pcf"], name=n)[c] for c in ("name", "ptc", "pfc", "width", "natur", "endian")} for n in names]


def plans(tables):
    """The rows that each plan depends on, by the plan's kind and name."""
    made = {("ident", 0): [tables["pid"], tables["pic"]]}
    for parameter in tables["pcf"]:
        if parameter["natur"] != "R" or parameter["ptc"] == 11:
            continue
        name = parameter["name"]
        selections = sorted((r for r in tables["cur"] if r["pname"] == name), key=lambda r: r["pos"])
        curves = [parameter["curtx"]] if parameter["curtx"] is not None else [r["select"] for r in selections]
        made["param", name] = [parameter, selections, [curve_rows(tables, parameter, c) for c in curves],
                               first(tables["ocf"], name=name), limits_of(tables, name)]
    for row in tables["pid"]:
        if row["tpsd"] < 1:
            places = [r for r in tables["plf"] if r["spid"] == row["spid"]]
            made["layout", row["spid"]] = [row, places, type_items(tables, [r["name"] for r in places])]
    for tpsd in {r["tpsd"] for r in tables["vpd"]}:
        rows = structure(tables, tpsd)
        made["structure", tpsd] = [rows, type_items(tables, [r["name"] for r in rows])]
    return made


def touched(old, new):
    before, after = plans(old), plans(new)
    return sum(1 for name in after if name not in before or before[name] != after[name])


# ---- the desk

def key_of(table, row):
    return [row[column] for column in KEYS[table]]


def read_key(table, text):
    fields = text.split("\t")
    columns = {name: (form, default) for _, name, form, default in reference.TABLES[table]}
    read = [reference.read_field(fields[i] if i < len(fields) else "", *columns[name]) for i, name in enumerate(KEYS[table])]
    return read


class Desk:
    """Follows a script by its replies. `low` is the least number that the next packet can have."""

    def __init__(self, tables, packets):
        self.editions, self.draft, self.base = {1: tables}, copy.deepcopy(tables), 1
        self.schedule, self.low, self.packets, self.gone = [(0, 1)], 1, packets, False

    def edition_of(self, number):
        return [edition for start, edition in self.schedule if start <= number][-1]

    def expect(self, reply, wanted):
        if reply != wanted:
            raise Differs("%r instead of %r" % (reply, wanted))

    def put(self, table, text, reply):
        row = read_row(table, text)
        rows = self.draft[table]
        at = next((i for i, r in enumerate(rows) if key_of(table, r) == key_of(table, row)), None)
        self.expect(reply, "ADDED" if at is None else "REPLACED")
        if at is None:
            rows.append(row)
        else:
            rows[at] = row

    def delete(self, table, text, reply):
        rows, key = self.draft[table], read_key(table, text)
        at = next((i for i, r in enumerate(rows) if key_of(table, r) == key), None)
        self.expect(reply, "NOROW" if at is None else "DELETED")
        if at is not None:
            del rows[at]

    def save(self, reply):
        if reply.startswith("UNSOUND "):
            return
        if len(self.editions) == MOST_EDITIONS:
            return self.expect(reply, "FULL EDITIONS 64")
        new = len(self.editions) + 1
        self.expect(reply, "SAVED %d PLANS %d" % (new, touched(self.editions[self.base], self.draft)))
        self.editions[new], self.base = copy.deepcopy(self.draft), new

    def nexts(self):
        """The numbers that the next packet can have here."""
        return range(self.low, self.packets + 2) if self.gone else [1]

    def use_reply(self, number, edition, start):
        """The reply where the next packet has this number."""
        if not 1 <= edition <= len(self.editions):
            return "NOEDITION %d" % len(self.editions)
        if start is None:
            return "USED %d FROM %d" % (edition, number)
        pending = [p for p in self.schedule if p[0] >= number]
        if start < number:
            return "LATE %d" % number
        if pending and pending[-1][0] >= start:
            return "DISORDER %d" % pending[-1][0]
        if len(pending) == MOST_PENDING:
            return "FULL PENDING 16"
        return "USED %d FROM %d" % (edition, start)

    def use(self, edition, start, reply):
        if edition >= 1 << 32:
            edition = 0
        fitting = [n for n in self.nexts() if self.use_reply(n, edition, start) == reply]
        if not fitting:
            raise Differs("%r where the next packet is %d or later" % (reply, self.low))
        self.low = fitting[0]
        if reply.startswith("USED"):
            begin = int(reply.split()[3])
            kept = [p for p in self.schedule if p[0] < begin] if start is None else self.schedule
            self.schedule = kept + [(begin, edition)]

    def line(self, line, replies):
        line = line[:-1] if line.endswith("\r") else line
        if line == "" or line.startswith("#"):
            return
        reply = next(replies, "no reply")
        words = line.split(" ")
        if line.startswith("put ") and "\t" in line:
            return self.put(*line[4:].split("\t", 1), reply)
        if line.startswith("del ") and "\t" in line:
            return self.delete(*line[4:].split("\t", 1), reply)
        if line == "save":
            return self.save(reply)
        if line == "go":
            self.gone = True
            return self.expect(reply, "GO")
        if line == "drop":
            self.draft = copy.deepcopy(self.editions[self.base])
            return self.expect(reply, "DROPPED")
        if words[0] == "use" and len(words) in (2, 4) and all(word.isdigit() for word in words[1::2]):
            return self.use(int(words[1]), int(words[3]) if len(words) == 4 else None, reply)
        self.expect(reply, "BADLINE")


def output(tables, octets, script, replies, **told):
    """What a live run has to print, by a schedule that its replies allow; `told` is that of reference.output."""
    packets = len(reference.cut(octets)[0])
    desk = Desk(tables, packets)
    given = iter(replies)
    for line in script:
        desk.line(line, given)
    if next(given, None) is not None:
        raise Differs("replies to no line")
    return reference.output(desk.editions, desk.edition_of, octets, **told)
