#!/usr/bin/env python3
"""Compares `PROGRAM build` with a second writer of packets, whose bits are packed by the package python3-bitstruct.

    checks/builds.py PROGRAM [PACKETS [SEED [DRILLS]]]

The packets of DRILLS generated runs are built again from their SPID, sequence count and raw numbers: each has its octets. Then
packets of random missions are asked for until PACKETS are built, some by asks that are to be refused. What is written, the
line that tells a refusal and the status are compared with the second writer's. Each packet is read by the interpreter of
reference.py: it is of its SPID, and its values, to its end, are the items.
"""
import os
import random
import subprocess
import sys
import tempfile

import bitstruct

import drill
import random_missions
import reference

MOST_OCTETS = 65_542


class Refused(Exception):
    pass


def has_number(shape, number):
    if shape.sort == "unsigned":
        return 0 <= number < 1 << shape.width
    if shape.sort == "signed":
        return -(1 << shape.width - 1) <= number < 1 << shape.width - 1
    return number == 0


class Laying:
    """Items at the places that the walks of reference.py come to. `items` are pairs of a name and a raw number; where there are
    none, `draw` makes them."""

    def __init__(self, items, draw=None):
        self.items, self.draw, self.writes = items, draw, []

    def give(self, _packet, parameter, at):
        place = len(self.writes)
        shape = reference.shape_of(parameter["ptc"], parameter["pfc"])
        if self.draw:
            self.items.append((parameter["name"], self.draw(shape)))
        if place >= len(self.items) or self.items[place][0] != parameter["name"]:
            raise Refused("ITEMS %d" % (place + 1))
        number = self.items[place][1]
        if at < 0:
            raise Refused("ENDS")
        if not has_number(shape, number):
            raise Refused("RANGE %d" % (place + 1))
        little = parameter["endian"] == "L" and shape.sort in ("unsigned", "signed", "real")
        self.writes.append((at, shape.width, number, little))
        return reference.Value(parameter, shape, number)


def values_of(tables, row, packet, value_at=reference.value_at):
    if row["tpsd"] < 1:
        return reference.fixed_values(tables, row["spid"], packet, value_at)
    return reference.walk(tables, row, packet, value_at)


def lay(tables, row, items):
    laying = Laying(items)
    _, ended = values_of(tables, row, None, laying.give)
    if ended:
        raise Refused("ENDS")
    if len(items) > len(laying.writes):
        raise Refused("ITEMS %d" % (len(laying.writes) + 1))
    return laying.writes


def criterion(tables, row):
    found = [reference.first(tables["pic"], type=row["type"], stype=row["stype"], apid=apid) for apid in (row["apid"], None)]
    return found[0] or found[1]


def discriminants(tables, row):
    pic = criterion(tables, row)
    columns = [(pic["off1"], pic["wid1"]), (pic["off2"], pic["wid2"])] if pic else [(-1, 0), (-1, 0)]
    for (offset, width), value in zip(columns, (row["pi1"], row["pi2"])):
        if value and (offset == -1 or value >> width):
            raise Refused("DISCRIMINANT")
    return [(8 * offset, width, value, False) for (offset, width), value in zip(columns, (row["pi1"], row["pi2"]))
            if offset >= 0 and width]


def pack(writes, size):
    """The octets that writes leave. Each is packed into octets of its own, beside the bits that it has."""
    octets, mask = 0, 0
    for at, width, number, little in writes:
        if width == 0:
            continue
        mine, bits = bytearray(size), bytearray(size)
        if little:
            number = int.from_bytes((number % (1 << width)).to_bytes(width // 8, "little"), "big")
        bitstruct.pack_into("%s%d" % ("u" if number >= 0 else "s", width), mine, at, number)
        bitstruct.pack_into("u%d" % width, bits, at, (1 << width) - 1)
        mine, bits = int.from_bytes(mine, "big"), int.from_bytes(bits, "big")
        if (octets ^ mine) & mask & bits:
            raise Refused("CLASH")
        octets, mask = octets | mine, mask | bits
    return octets.to_bytes(size, "big")


def build(tables, spid, count, items):
    row = reference.first(tables["pid"], spid=spid)
    if row is None:
        raise Refused("NOSPID")
    if row["apid"] > 2046:
        raise Refused("APID")
    told = discriminants(tables, row)
    laid = lay(tables, row, items)
    head = [(0, 3, 0), (3, 1, 0), (4, 1, 1), (5, 11, row["apid"]), (16, 2, 3), (18, 14, count)]
    head += [(48, 8, 0x10), (56, 8, row["type"]), (64, 8, row["stype"])]
    writes = [(*write, False) for write in head] + told + laid
    size = max([9, 6 + row["dfhsize"]] + [(at + width + 7) // 8 for at, width, _, _ in writes])
    if size > MOST_OCTETS:
        raise Refused("LONG")
    return pack(writes + [(32, 16, size - 7, False)], size)


# ---- asks of random missions

def draw_number(rng):
    def draw(shape):
        if not reference.is_number(shape):
            return 0
        low = -(1 << shape.width - 1) if shape.sort == "signed" else 0
        near = [n for n in (rng.choice(random_missions.SMALL), rng.randint(-3, 6)) if has_number(shape, n)]
        return rng.choice(near + [0, rng.randint(low, low + (1 << shape.width) - 1)])
    return draw


def spoiled(rng, spid, count, items):
    """An ask with a mistake, as a line."""
    words = [str(spid), str(count)] + [word for name, number in items for word in (name, str(number))]
    kind = rng.randrange(9)
    if kind == 0 and items:
        del words[-2:]
    elif kind == 1:
        words += ["P0", "0"]
    elif kind == 2 and items:
        words[-1] = rng.choice(["65536", "-129", "1", "99999999999999999999"])
    elif kind == 3 and items:
        words[-2] = "X" + words[-2]
    elif kind == 4:
        words[1] = rng.choice(["16384", "-1", "", "1x"])
    elif kind == 5:
        words[0] = rng.choice(["4294967296", "77777", "000000000000000000001", "+1"])
    elif kind == 6 and items:
        words[-1] = rng.choice(["123456789012345678901", "1.0", "--1", "-"])
    elif kind == 7:
        words.append("P0")
    else:
        words.insert(2, "")
    return " ".join(words)


def asked(line):
    """The SPID, the count and the items of a line, or the refusal of one that isn't an ask."""
    def number(word):
        if not (1 <= len(word) <= 20 and all("0" <= c <= "9" for c in word)):
            raise Refused("ASK")
        return int(word)
    words = line.split(" ")
    if len(words) < 2 or len(words) % 2 or len(line) > 4096:
        raise Refused("ASK")
    spid, count = number(words[0]), number(words[1])
    if count >= 16384:
        raise Refused("ASK")
    items = []
    for name, raw in zip(words[2::2], words[3::2]):
        if not (1 <= len(name) <= 32 and all("!" <= c <= "~" for c in name)):
            raise Refused("ASK")
        items.append((name, -number(raw[1:]) if raw.startswith("-") else number(raw)))
    return spid, count, items


def is_built(tables, line):
    try:
        return bool(build(tables, *asked(line)))
    except Refused:
        return False


def random_ask(rng, tables):
    """A line that asks for a packet; of ten one may be refused."""
    lines = [random_line(rng, tables) for _ in range(12)]
    return lines[0] if rng.random() < 0.1 else next((line for line in lines if is_built(tables, line)), "")


def random_line(rng, tables):
    row = rng.choice(tables["pid"])
    laying = Laying([], draw_number(rng))
    try:
        values_of(tables, row, None, laying.give)
    except Refused:
        pass
    items, count = laying.items[:400], rng.randint(0, 16383)
    if rng.random() < 0.1:
        return spoiled(rng, row["spid"], count, items)
    return " ".join([str(row["spid"]), str(count)] + ["%s %d" % item for item in items])


def expected(tables, lines):
    """The packets of lines up to the first that is refused, and how the run ends."""
    packets = []
    for place, line in enumerate(lines, 1):
        if line == "" or line.startswith("#"):
            continue
        try:
            ask = asked(line)
            packets.append((ask, build(tables, *ask)))
        except Refused as why:
            return packets, place, "REFUSED %d %s\n" % (place, why), 13
    return packets, len(lines), "", 0


def is_read(tables, ask, packet):
    spid, _, items = ask
    row = reference.identify(tables, packet)
    if isinstance(row, str) or row["spid"] != spid:
        return False
    values, ended = values_of(tables, row, packet)
    return ended is None and [(v.parameter["name"], v.number if reference.is_number(v.shape) else 0) for v in values] == items


def run(program, tables, lines, scratch):
    asks = os.path.join(scratch, "asks")
    with open(asks, "w", encoding="latin-1", newline="\n") as file:
        file.write("".join(line + "\n" for line in lines))
    done = subprocess.run([program, "build", tables, asks], stdout=subprocess.PIPE, stderr=subprocess.PIPE)
    return done.stdout, done.stderr.decode(), done.returncode


def check_drill(program, seed, scratch):
    folder = os.path.join(scratch, "drill_%d" % seed)
    drill.write_tables(folder)
    packets = [packet for packet in drill.packets(seed) if packet[0] != 300]
    lines = []
    for apid, index, one, two in packets:
        spid = apid - 99
        lines.append("%d %d D%d %d D%d %d" % (spid, index % 16384, 2 * spid - 2, one, 2 * spid - 1, two))
    if run(program, folder, lines, scratch) != (b"".join(drill.octets(*packet) for packet in packets), "", 0):
        sys.exit("the packets of drill %d differ" % seed)
    return len(packets)


def check_mission(program, seed, scratch, counts):
    rng = random.Random(seed)
    mission = random_missions.Mission(rng)
    folder = os.path.join(scratch, "tables_%d" % seed)
    random_missions.write_folder(folder, mission.tables)
    if run(program, folder, [], scratch)[2] == 3:
        return 0
    tables = reference.read_folder(folder)
    lines = [rng.choice(["", "# a note"]) if rng.random() < 0.05 else random_ask(rng, tables) for _ in range(60)]
    built = 0
    while lines:
        packets, handled, told, status = expected(tables, lines)
        found = run(program, folder, lines, scratch)
        if found != (b"".join(packet for _, packet in packets), told, status):
            sys.exit("mission %d: %r in place of %r, for %r" % (seed, found[1:], (told, status), lines[handled - 1]))
        for ask, packet in packets:
            if not is_read(tables, ask, packet):
                sys.exit("mission %d: what is built of %r isn't read again" % (seed, ask))
        if told:
            word = told.split()[2]
            counts[word] = counts.get(word, 0) + 1
        built, lines = built + len(packets), lines[handled:]
    return built


def main():
    program = os.path.realpath(sys.argv[1])
    most, seed, drills = (int(word) for word in (sys.argv[2:] + ["10000", "1", "20"][len(sys.argv) - 2:])[:3])
    counts = {}
    with tempfile.TemporaryDirectory() as scratch:
        drilled = sum(check_drill(program, seed + each, scratch) for each in range(drills))
        built, mission = 0, seed
        while built < most:
            built += check_mission(program, mission, scratch, counts)
            mission += 1
    told = ", ".join("%d %s" % (count, word) for word, count in sorted(counts.items()))
    print("%d packets of %d generated runs and %d of %d missions agree; refused: %s" % (drilled, drills, built, mission - seed, told))


if __name__ == "__main__":
    main()
