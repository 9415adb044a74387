#!/usr/bin/env python3
"""A second interpreter of telemetry, written from docs/FORMATS.md alone and slow on purpose: it searches the rows anew for
each packet. It takes tables to be sound.

    checks/reference.py DIR FEED        prints what `mibtm decode DIR FEED` has to print
"""
import os
import sys
from collections import namedtuple
from fractions import Fraction

UNIT = 10 ** 12  # engineering values are whole counts of 10^-12
HELD = 10 ** 37
OVER = 10 ** 36
MOST_VALUES = 8192

# table: columns as (position, name, form, default); forms: n number, s name, t text, d decimal, c code
TABLES = {
    "pcf": [(1, "name", "s", None), (3, "pid", "n", None), (5, "ptc", "n", 0), (6, "pfc", "n", 0), (7, "width", "n", 0),
            (8, "valid", "s", None), (10, "categ", "c", "N"), (11, "natur", "c", "R"), (12, "curtx", "s", None),
            (15, "decim", "n", 0), (18, "valpar", "n", 1), (23, "endian", "c", "B")],
    "pid": [(1, "type", "n", None), (2, "stype", "n", None), (3, "apid", "n", None), (4, "pi1", "n", 0), (5, "pi2", "n", 0),
            (6, "spid", "n", None), (9, "tpsd", "n", -1), (10, "dfhsize", "n", 0)],
    "pic": [(1, "type", "n", None), (2, "stype", "n", None), (3, "off1", "n", -1), (4, "wid1", "n", 0), (5, "off2", "n", -1),
            (6, "wid2", "n", 0), (7, "apid", "n", None)],
    "tpcf": [(1, "spid", "n", None), (2, "name", "t", "")],
    "plf": [(1, "name", "s", None), (2, "spid", "n", None), (3, "offby", "n", None), (4, "offbi", "n", None),
            (5, "nbocc", "n", 1), (6, "lgocc", "n", 0)],
    "vpd": [(1, "tpsd", "n", None), (2, "pos", "n", None), (3, "name", "s", None), (4, "grpsize", "n", 0),
            (5, "fixrep", "n", 0), (6, "choice", "c", "N"), (7, "pidref", "c", "N"), (14, "offset", "n", 0)],
    "cur": [(1, "pname", "s", None), (2, "pos", "n", None), (3, "rlchk", "s", None), (4, "valpar", "n", None),
            (5, "select", "s", None)],
    "caf": [(1, "numbr", "s", None), (3, "engfmt", "c", "R"), (4, "rawfmt", "c", "U"), (5, "radix", "c", "D"),
            (8, "inter", "c", "F")],
    "cap": [(1, "numbr", "s", None), (2, "xvals", "t", None), (3, "yvals", "d", None)],
    "txf": [(1, "numbr", "s", None), (3, "rawfmt", "c", "U")],
    "txp": [(1, "numbr", "s", None), (2, "from", "t", None), (3, "to", "t", None), (4, "altxt", "t", None)],
    "mcf": [(1, "ident", "s", None)] + [(2 + i, "pol%d" % i, "d", "0") for i in range(1, 6)],
    "lgf": [(1, "ident", "s", None)],
    "ocf": [(1, "name", "s", None), (2, "nbchck", "n", None), (4, "inter", "c", None), (5, "codin", "c", "R")],
    "ocp": [(1, "name", "s", None), (2, "pos", "n", None), (3, "type", "c", None), (4, "lvalu", "t", ""), (5, "hvalu", "t", ""),
            (6, "rlchk", "s", None), (7, "valpar", "n", 1)],
}
KEYS = {"pcf": ["name"], "pid": ["spid"], "pic": ["type", "stype", "apid"], "tpcf": ["spid"], "plf": ["name", "spid"],
        "vpd": ["tpsd", "pos"], "cur": ["pname", "pos"], "caf": ["numbr"], "cap": ["numbr", "xvals"], "txf": ["numbr"],
        "txp": ["numbr", "from"], "mcf": ["ident"], "lgf": ["ident"], "ocf": ["name"], "ocp": ["name", "pos"]}


# ---- rows

def decimal_of(text):
    """A decimal as its digits and exponent, or None where the text is none. Digits and exponent are shortened."""
    sign, rest = (-1, text[1:]) if text[:1] == "-" else (1, text[1:] if text[:1] == "+" else text)
    mantissa, mark, exponent = rest.replace("e", "E").partition("E")
    if mark:
        digits = exponent[1:] if exponent[:1] in ("+", "-") else exponent
        if not (digits.isascii() and digits.isdigit() and len(digits) <= 9):
            return None
    whole, _, part = mantissa.partition(".")
    digits = whole + part
    if not (digits.isascii() and digits.isdigit()):
        return None
    number, scale = int(digits), (int(exponent) if mark else 0) - len(part)
    if number == 0:
        return (0, 0)
    while number % 10 == 0:
        number, scale = number // 10, scale + 1
    if number >= 10 ** 17 or not -30 <= scale <= 30:
        return None
    return (sign * number, scale)


def read_field(text, form, default):
    if form == "t":
        return default if text == "" else text
    text = text.strip(" ")
    if text == "":
        text = default
    if text is None or form in ("s", "c"):
        return text
    return decimal_of(text) if form == "d" else int(text)


def read_row(table, line):
    fields = line.split("\t")
    return {name: read_field(fields[at - 1] if at <= len(fields) else "", form, default)
            for at, name, form, default in TABLES[table]}


def read_table(table, text):
    lines = [line[:-1] if line.endswith("\r") else line for line in text.split("\n")]
    return [read_row(table, line) for line in lines if line]


def read_folder(folder):
    tables = {}
    for table in TABLES:
        path = os.path.join(folder, table + ".dat")
        text = open(path, "rb").read().decode("latin-1") if os.path.exists(path) else ""
        tables[table] = read_table(table, text)
    return tables


# ---- numbers

def half_away(fraction):
    size = abs(fraction)
    rounded = (2 * size.numerator + size.denominator) // (2 * size.denominator)
    return rounded if fraction >= 0 else -rounded


def count_of(decimal):
    digits, exponent = decimal
    count = half_away(Fraction(digits) * Fraction(10) ** (exponent + 12))
    return max(-HELD, min(HELD, count))


def whole_number(text, radix="D"):
    """A whole number of a text of XVALS, FROM or TO."""
    text = text.strip(" ")
    if radix != "D":
        return int(text, 16 if radix == "H" else 8)
    digits, exponent = decimal_of(text)
    return int(Fraction(digits) * Fraction(10) ** exponent)


def decimals_text(count, places):
    places = min(places, 12)
    rounded = half_away(Fraction(count, 10 ** (12 - places)))
    whole, part = divmod(abs(rounded), 10 ** places)
    return ("-" if rounded < 0 else "") + str(whole) + ("." + str(part).zfill(places) if places else "")


# ---- types

Shape = namedtuple("Shape", "sort width coarse fine")


def shape_of(ptc, pfc):
    long = {13: 24, 14: 32, 15: 48, 16: 64}
    if ptc == 1:
        return Shape("unsigned", 1, 0, 0)
    if ptc in (2, 6):
        return Shape("unsigned", pfc, 0, 0)
    if ptc in (3, 4):
        return Shape("unsigned" if ptc == 3 else "signed", long.get(pfc, pfc + 4), 0, 0)
    if ptc == 5:
        return Shape("real", {1: 32, 2: 64, 3: 32, 4: 48}[pfc], 0, 0)
    if ptc in (7, 8):
        return Shape("octets" if ptc == 7 else "chars", 8 * pfc, 0, 0)
    if ptc == 9 and pfc < 3:
        return Shape("cds", 48 if pfc == 1 else 64, 0, 0)
    if ptc in (9, 10):
        coarse, fine = divmod(pfc + 1, 4)
        return Shape("cuc", 8 * (coarse + fine), coarse, fine)
    return Shape("deduced", 0, 0, 0)


def is_number(shape):
    return shape.sort in ("unsigned", "signed")


def bits_of(packet, at, width):
    """The number of these bits, or None where they pass an end."""
    if at < 0 or at + width > 8 * len(packet):
        return None
    return int.from_bytes(packet, "big") >> (8 * len(packet) - at - width) & ((1 << width) - 1)


def field_of(packet, at, shape, endian):
    """The number of a field, in the order of its octets, or None where it passes an end."""
    bits = bits_of(packet, at, shape.width)
    if bits is None:
        return None
    if endian == "L" and shape.sort in ("unsigned", "signed", "real"):
        bits = int.from_bytes(bits.to_bytes(shape.width // 8, "big"), "little")
    if shape.sort == "signed" and bits >> (shape.width - 1):
        bits -= 1 << shape.width
    return bits


def quoted(text):
    return '"' + "".join(c if " " <= c <= "~" and c not in '"\\' else "\\x%02X" % ord(c) for c in text) + '"'


def raw_text(shape, number):
    octets = number.to_bytes((shape.width + 7) // 8, "big") if number >= 0 else b""
    if is_number(shape):
        return str(number)
    if shape.sort == "real":
        return "REAL:%0*X" % (shape.width // 4, number)
    if shape.sort == "octets":
        return "HEX:" + octets.hex().upper()
    if shape.sort == "chars":
        return quoted(octets.decode("latin-1"))
    sizes = [2, 4] + ([2] if shape.width == 64 else []) if shape.sort == "cds" else [shape.coarse, shape.fine]
    fields, at = [], 0
    for size in sizes:
        if size:
            fields.append(str(int.from_bytes(octets[at:at + size], "big")))
        at += size
    return "TIME:" + ":".join(fields)


# ---- what a packet is, and its values

Value = namedtuple("Value", "parameter shape number")


def first(rows, **columns):
    return next((row for row in rows if all(row[name] == value for name, value in columns.items())), None)


def types_of(packet):
    return (packet[7], packet[8]) if packet[0] >> 3 & 1 else (0, 0)


def identify(tables, packet):
    """A word, or the row of pid."""
    apid = (packet[0] & 7) << 8 | packet[1]
    if packet[0] >> 5:
        return "BAD VERSION"
    if packet[0] >> 4 & 1:
        return "BAD TELECOMMAND"
    if apid == 2047:
        return "IDLE"
    if packet[0] >> 3 & 1 and len(packet) < 9:
        return "BAD SHORT"
    kind, subtype = types_of(packet)
    pic = first(tables["pic"], type=kind, stype=subtype, apid=apid) or first(tables["pic"], type=kind, stype=subtype, apid=None)
    found = []
    for offset, width in ((pic["off1"], pic["wid1"]), (pic["off2"], pic["wid2"])) if pic else ((-1, 0), (-1, 0)):
        found.append(0 if offset == -1 or width == 0 else bits_of(packet, 8 * offset, width))
    if None in found:
        return "BAD SHORT"
    return first(tables["pid"], type=kind, stype=subtype, apid=apid, pi1=found[0], pi2=found[1]) or "UNKNOWN"


def value_at(packet, parameter, at):
    shape = shape_of(parameter["ptc"], parameter["pfc"])
    number = field_of(packet, at, shape, parameter["endian"])
    return None if number is None else Value(parameter, shape, number)


def fixed_values(tables, spid, packet, value_at=value_at):
    values = []
    for row in tables["plf"]:
        parameter = first(tables["pcf"], name=row["name"])
        if row["spid"] != spid or parameter["natur"] != "R":
            continue
        for k in range(row["nbocc"]):
            if len(values) == MOST_VALUES:
                return values, "MANY"
            value = value_at(packet, parameter, 8 * row["offby"] + row["offbi"] + k * row["lgocc"])
            if value is None:
                return values, "SHORT " + parameter["name"]
            values.append(value)
    return values, None


def structure(tables, tpsd):
    return sorted((row for row in tables["vpd"] if row["tpsd"] == tpsd), key=lambda row: row["pos"])


def deduced(tables, pid):
    return next((p for p in tables["pcf"] if p["natur"] == "R" and p["ptc"] != 11 and p["pid"] == pid), None)


def walk(tables, pid_row, packet, value_at=value_at):
    """The walk over a structure: `rest` are the stretches of rows still to walk, the innermost last, with their repetitions."""
    values, cursor, reference = [], 8 * (6 + pid_row["dfhsize"]), 0
    rest = [[structure(tables, pid_row["tpsd"]), 0, 1]]
    while rest:
        rows, place, times = rest[-1]
        if place == len(rows):
            rest[-1][1:] = [0, times - 1]
            if times <= 1:
                rest.pop()
            continue
        row = rows[place]
        group = rows[place + 1:place + 1 + row["grpsize"]]
        rest[-1][1] = place + 1 + (row["grpsize"] if row["fixrep"] else 0)
        cursor += row["offset"]
        if row["fixrep"]:
            rest.append([group, 0, row["fixrep"]])
            continue
        parameter = first(tables["pcf"], name=row["name"])
        if parameter["ptc"] == 11:
            parameter = deduced(tables, reference)
            if parameter is None:
                return values, "NOPARAMETER %d" % reference
        if len(values) == MOST_VALUES:
            return values, "MANY"
        value = value_at(packet, parameter, cursor)
        if value is None:
            return values, "SHORT " + parameter["name"]
        values.append(value)
        cursor += parameter["width"] or value.shape.width
        if row["choice"] == "Y":
            rows = structure(tables, value.number)
            if not rows:
                return values, "NOSTRUCTURE %d" % value.number
            rest = [[rows, 0, 1]]
        elif row["grpsize"]:
            rest[-1][1] = place + 1 + row["grpsize"]
            if value.number > 0:
                rest.append([group, 0, value.number])
        elif row["pidref"] == "Y":
            reference = value.number
    return values, None


# ---- calibration and checks

Kept = namedtuple("Kept", "raw spoken run previous")
NOTHING = Kept(None, None, 0, None)


def holds(memory, name, number):
    return memory.get(name, NOTHING).raw == number and number is not None


def curve_of(tables, parameter, memory):
    """The kind and the row of the curve, or None."""
    name = parameter["curtx"]
    if name is None:
        rows = sorted((r for r in tables["cur"] if r["pname"] == parameter["name"]), key=lambda r: r["pos"])
        name = next((r["select"] for r in rows if holds(memory, r["rlchk"], r["valpar"])), None)
    kinds = {"S": (("txf", "numbr"),), "N": (("caf", "numbr"), ("mcf", "ident"), ("lgf", "ident")), "T": ()}
    for table, key in kinds[parameter["categ"]] if name is not None else ():
        row = first(tables[table], **{key: name})
        if row:
            return table, row
    return None


def through(low, high, raw):
    rise = high[1] - low[1]
    product = (raw - low[0]) * rise
    result = low[1] + half_away(Fraction(product, high[0] - low[0]))
    return "OVER" if max(abs(rise), abs(product)) >= HELD or abs(result) >= OVER else result


def by_points(tables, row, raw):
    points = sorted((whole_number(p["xvals"], row["radix"]), count_of(p["yvals"]))
                    for p in tables["cap"] if p["numbr"] == row["numbr"])
    outside = raw < points[0][0] or raw > points[-1][0]
    if outside and row["inter"] == "F":
        return "OUTSIDE"
    below = [i for i, p in enumerate(points[:-1]) if p[0] <= raw]
    at = below[-1] if below else 0
    return through(points[at], points[at + 1], raw)


def by_polynomial(row, raw):
    parts = [row["pol%d" % i] for i in range(1, 6)]
    scale = max(max(0, -e) for m, e in parts)
    coefficients = [m * 10 ** (e + scale) if m else 0 for m, e in parts]
    degree = max([i for i, c in enumerate(coefficients) if c] or [0])
    power, total = 1, 0
    for i, c in enumerate(coefficients[:degree + 1]):
        power = power * raw if i else 1
        total += c * power
        if max(abs(c), abs(power), abs(c * power), abs(total)) >= HELD:
            return "OVER"
    result = half_away(Fraction(total) * Fraction(10) ** (12 - scale))
    return "OVER" if any(abs(c) >= HELD for c in coefficients) or abs(result) >= OVER else result


def calibrate(tables, curve, raw):
    """A count, a text in a tuple, or the word that stands for neither."""
    table, row = curve
    if table == "lgf":
        return "LOGCURVE"
    if table == "mcf":
        return by_polynomial(row, raw)
    if row["rawfmt"] == "R":
        return "REALCURVE"
    if table == "caf":
        return by_points(tables, row, raw)
    for p in tables["txp"]:
        if p["numbr"] == row["numbr"] and whole_number(p["from"]) <= raw <= whole_number(p["to"]):
            return (p["altxt"] or "",)
    return "NOTEXT"


def bound_of(text):
    text = text.strip(" ")
    return None if text == "" else count_of(decimal_of(text))


def outside(row, count):
    low, high = bound_of(row["lvalu"]), bound_of(row["hvalu"])
    return (low is not None and count < low) or (high is not None and count > high)


def agrees(row, sample):
    if isinstance(sample, tuple):
        return row["lvalu"] == sample[0]
    decimal = decimal_of(row["lvalu"])
    return decimal is not None and count_of(decimal) == sample


def class_of(tables, name, sample, memory):
    rows = [r for r in tables["ocp"] if r["name"] == name
            and (r["rlchk"] is None or holds(memory, r["rlchk"], r["valpar"]))]
    number, previous = not isinstance(sample, tuple), memory[name].previous
    states = [r for r in rows if r["type"] == "C"]
    if number and any(outside(r, sample) for r in rows if r["type"] == "H"):
        return "HARD"
    if states and not any(agrees(r, sample) for r in states):
        return "STATUS"
    if number and previous is not None and any(outside(r, sample - previous) for r in rows if r["type"] == "D"):
        return "DELTA"
    if number and any(outside(r, sample) for r in rows if r["type"] == "S"):
        return "SOFT"
    return None


def sample_of(check, curve, raw, calibrated):
    """What is checked, or None."""
    if check["inter"] == "U" or curve is None:
        return raw * UNIT
    return None if isinstance(calibrated, str) else calibrated


def alarm(kept, found, most):
    """The spoken class and the run after a sample, and what is told."""
    if found is None:
        return None, 0, ("CLEAR", kept.spoken) if kept.spoken else None
    run = min(kept.run + 1, most)
    if kept.spoken is not None or run == most:
        return found, run, ("ALARM", found) if found != kept.spoken else None
    return None, run, None


def finish(tables, value, memory):
    """The lines of a value; what is kept of its parameter changes."""
    parameter, name = value.parameter, value.parameter["name"]
    line = "  %s %s" % (name, raw_text(value.shape, value.number))
    if parameter["valid"] is not None and not holds(memory, parameter["valid"], parameter["valpar"]):
        return line + " ? INVALID\n"
    if not is_number(value.shape):
        return line + "\n"
    curve = curve_of(tables, parameter, memory)
    calibrated = calibrate(tables, curve, value.number) if curve else None
    if isinstance(calibrated, str):
        line += " ! " + calibrated
    elif isinstance(calibrated, tuple):
        line += " = " + quoted(calibrated[0])
    elif calibrated is not None:
        line += " = " + decimals_text(calibrated, parameter["decim"])
    check = first(tables["ocf"], name=name)
    sample = sample_of(check, curve, value.number, calibrated) if check else None
    if sample is None:
        return line + "\n"
    kept = memory[name]
    spoken, run, told = alarm(kept, class_of(tables, name, sample, memory), check["nbchck"])
    previous = kept.previous if isinstance(sample, tuple) else sample
    memory[name] = kept._replace(spoken=spoken, run=run, previous=previous)
    return line + "\n" + ("  %s %s %s\n" % (told[0], name, told[1]) if told else "")


# ---- runs

def limits_of(tables, name):
    def as_read(row):
        if row["type"] in "CE":
            return row
        bounds = {side: None if row[side].strip(" ") == "" else decimal_of(row[side].strip(" ")) for side in ("lvalu", "hvalu")}
        return {**row, **bounds}
    return [as_read(r) for r in sorted((r for r in tables["ocp"] if r["name"] == name), key=lambda r: r["pos"])]


def carry(memory, old, new):
    """What is kept at a change of edition."""
    kept = {}
    for name, state in memory.items():
        before, after = first(old["pcf"], name=name), first(new["pcf"], name=name)
        check, other = first(old["ocf"], name=name), first(new["ocf"], name=name)
        same_check = {**check, "nbchck": 0} == {**other, "nbchck": 0} if check and other else check is other
        if before and before == after and same_check and limits_of(old, name) == limits_of(new, name):
            kept[name] = state._replace(run=min(state.run, other["nbchck"])) if other else state
    return kept


class Interpreter:
    """Prints stamped packets one by one, from what is kept of those before."""

    def __init__(self, tables):
        self.tables, self.edition, self.memory = tables, 1, {}

    def record(self, number, packet, edition, tables):
        text = ""
        if edition != self.edition:
            text += "EDITION %d\n" % edition
            self.memory = carry(self.memory, self.tables, tables)
        self.edition, self.tables = edition, tables
        found = identify(tables, packet)
        count = (packet[2] << 8 | packet[3]) & 0x3FFF
        text += "PKT %d APID %d COUNT %d " % (number, (packet[0] & 7) << 8 | packet[1], count)
        if found == "UNKNOWN" or not isinstance(found, str):
            text += "TYPE %d/%d " % types_of(packet)
        if isinstance(found, str):
            return text + found + "\n"
        title = first(tables["tpcf"], spid=found["spid"])
        text += "SPID %d%s\n" % (found["spid"], " NAME " + quoted(title["name"]) if title and title["name"] else "")
        values, end = walk(tables, found, packet) if found["tpsd"] >= 1 else fixed_values(tables, found["spid"], packet)
        for value in values:
            if is_number(value.shape):
                name = value.parameter["name"]
                self.memory[name] = self.memory.get(name, NOTHING)._replace(raw=value.number)
        text += "".join(finish(tables, value, self.memory) for value in values)
        return text + ("  %s\n" % end if end else "")


def cut(octets):
    """The packets of a feed, and the octets of its rest."""
    packets, at = [], 0
    while len(octets) - at >= 6:
        size = 7 + int.from_bytes(octets[at + 4:at + 6], "big")
        if len(octets) - at < size:
            break
        packets.append(octets[at:at + size])
        at += size
    return packets, len(octets) - at


def output(editions, edition_of, octets, told=lambda number, interpreter: None):
    """The text of a run: `editions` are the tables by number, `edition_of` gives the edition of a packet's number. Behind each packet `told` is
    handed its number and the interpreter, with what it keeps then."""
    packets, rest = cut(octets)
    interpreter = Interpreter(editions[1])
    records = []
    for number, packet in enumerate(packets, 1):
        edition = edition_of(number)
        records.append(interpreter.record(number, packet, edition, editions[edition]))
        told(number, interpreter)
    return "".join(records) + ("CUT %d\n" % rest if rest else "")


def main():
    folder, feed = sys.argv[1:]
    octets = sys.stdin.buffer.read() if feed == "-" else open(feed, "rb").read()
    sys.stdout.write(output({1: read_folder(folder)}, lambda number: 1, octets))


if __name__ == "__main__":
    main()
