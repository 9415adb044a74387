#!/usr/bin/env python3
"""Tells the faults of a folder of tables, and warns of what is accepted and probably meant otherwise.

    tools/mib_lint.py MIB

All faults of form are told at once; once there is none, all others and the warnings. A fault has the table, the row, the word and
the column as `mibtm check` tells the first of them, then the line of the file, the column's name, its value and a hint. Warnings
come behind, each begins with `warning`. The status is 1 where there is a fault, or no row at all.
Not part of what is proved: `mibtm check` decides what is accepted.
"""
from fractions import Fraction

import helper_words
import mib_tables
from mib_tables import KEYS, MOST_ROW, MOST_ROWS, MOST_TEXT, TABLES, number

SIGNED_LIKE_UNSIGNED = {**{pfc: pfc + 4 for pfc in range(13)}, 13: 24, 14: 32, 15: 48, 16: 64}
HINTS = {"FEWFIELDS": "fields are parted by TAB", "BADNUMBER": "digits alone, within the range; a point, not a comma", "BADCODE": "one of the letters, in upper case",
         "BADNAME": "1 to 32 printable characters without spaces", "NOREF": "no row has this name or number", "MARK": "save the file without a byte order mark",
         "LINELONG": "at most 4,096 octets", "ROWS": "at most 100,000 rows", "BIG": "at most 67,108,864 octets"}


def decimal(text):
    """The value of a decimal, or None where the text is none."""
    sign, rest = (-1, text[1:]) if text[:1] == "-" else (1, text[1:] if text[:1] == "+" else text)
    mantissa, mark, exponent = rest.replace("e", "E").partition("E")
    power = exponent[1:] if exponent[:1] in ("+", "-") else exponent
    if mark and not (power.isascii() and power.isdigit() and len(power) <= 9):
        return None
    whole, _, part = mantissa.partition(".")
    digits = whole + part
    if not (digits.isascii() and digits.isdigit()):
        return None
    count, scale = int(digits), (int(exponent) if mark else 0) - len(part)
    while count and count % 10 == 0:
        count, scale = count // 10, scale + 1
    if count and (count >= 10 ** 17 or not -30 <= scale <= 30):
        return None
    return Fraction(sign * count) * Fraction(10) ** scale if count else Fraction(0)


def whole_number(text, radix="D"):
    """A whole number as XVALS, FROM and TO have it, or None."""
    text = text.strip(" ")
    if radix == "D":
        found = decimal(text)
        return int(found) if found is not None and found.denominator == 1 and -2**63 <= found < 2**64 else None
    digits = "0123456789abcdefABCDEF" if radix == "H" else "01234567"
    if not 1 <= len(text) <= (16 if radix == "H" else 22) or any(it not in digits for it in text):
        return None
    found = int(text, 16 if radix == "H" else 8)
    return found if found < 2**64 else None


def shape(ptc, pfc):
    """The sort and width in bits of a type, or None where there is none."""
    if ptc == 1 and pfc == 0:
        return "unsigned", 1
    if ptc == 2 and 1 <= pfc <= 32 or ptc == 6 and 1 <= pfc <= 64:
        return "unsigned", pfc
    if ptc in (3, 4) and pfc in SIGNED_LIKE_UNSIGNED:
        return "unsigned" if ptc == 3 else "signed", SIGNED_LIKE_UNSIGNED[pfc]
    if ptc == 5 and 1 <= pfc <= 4:
        return "real", {1: 32, 2: 64, 3: 32, 4: 48}[pfc]
    if ptc in (7, 8) and 1 <= pfc <= 1024:
        return "octets" if ptc == 7 else "characters", 8 * pfc
    if ptc == 9 and pfc in (1, 2):
        return "time", {1: 48, 2: 64}[pfc]
    if ptc in (9, 10) and 3 <= pfc <= 18:
        return "time", 8 * sum(divmod(pfc + 1, 4))
    return ("deduced", 0) if ptc == 11 and pfc == 0 else None


class Row:
    def __init__(self, table, at, line, text):
        self.table, self.at, self.line, self.fields = table, at, line, text.split("\t")
        self.of = mib_tables.named(table, self.fields)

    def number(self, name):
        return number(self.of[name]) if self.of[name] != "" else None


class Lint:
    def __init__(self, folder):
        self.folder, self.faults, self.warnings, self.rows = folder, [], [], {}

    def fault(self, row, word, column=None, other=None, why=""):
        place = other if other is not None else column.at if column else None
        self.faults.append((row.table, row.at, word, place, row.line, column, row, why))

    def warn(self, row, text):
        self.warnings.append(f"warning: {row.table} {row.at} (line {row.line}): {text}")

    # ---- forms

    def read(self):
        for table in TABLES:
            text = mib_tables.read(self.folder, table)
            self.rows[table] = []
            whole = Row(table, 0, 0, "")
            if len(text) > MOST_TEXT:
                self.fault(whole, "BIG")
                continue
            if text.startswith("\xef\xbb\xbf"):
                self.fault(whole, "MARK")
                continue
            for at, (line, row) in enumerate(mib_tables.lines_of(text), 1):
                if at > MOST_ROWS or len(row) > MOST_ROW:
                    self.fault(Row(table, at, line, ""), "LINELONG" if len(row) > MOST_ROW else "ROWS")
                    if at > MOST_ROWS:
                        break
                    continue
                self.rows[table].append(Row(table, at, line, row))
                self.read_row(self.rows[table][-1])

    def read_row(self, row):
        last = max(it.at for it in TABLES[row.table] if it.default == "!")
        if len(row.fields) < last:
            return self.fault(row, "FEWFIELDS")
        for column in TABLES[row.table]:
            word = self.form_fault(row, column)
            if word:
                self.fault(row, word, column)

    def form_fault(self, row, column):
        text, form = row.of[column.name], column.form
        if form == "limit":
            form = "decimal" if row.of["TYPE"] in ("S", "H", "D") else "text"
            text = text if form == "decimal" else row.fields[column.at - 1] if column.at <= len(row.fields) else ""
        if form == "text":
            return "BADNAME" if len(text) > 64 else None
        if text in ("", None):
            return {"number": "BADNUMBER", "code": "BADCODE", "name": "BADNAME", "decimal": "BADNUMBER"}[form] if column.default == "!" else None
        if form == "number":
            found = number(text)
            return None if found is not None and column.domain[0] <= found <= column.domain[1] else "BADNUMBER"
        if form == "code":
            return None if len(text) == 1 and text in column.domain else "BADCODE"
        if form == "name":
            return None if len(text) <= 32 and all("!" <= it <= "~" for it in text) else "BADNAME"
        return None if decimal(text) is not None else "BADNUMBER"

    # ---- soundness, over rows whose forms are right

    def sound(self):
        self.index()
        for table in TABLES:
            keys = {}
            for row in self.rows[table]:
                self.twice(table, row, keys)
                self.references(table, row)
                getattr(self, f"{table}_row", lambda row: None)(row)
        self.faults.sort(key=lambda it: (list(TABLES).index(it[0]), it[1], self.order(it[2])))

    @staticmethod
    def order(word):
        return ["TWICE", "NOREF", "BADTYPE", "POINTS", "GROUP", "WIDTH", "BOTH"].index(word) if word in ("TWICE", "NOREF", "BADTYPE", "POINTS", "GROUP", "WIDTH", "BOTH") else -1

    def index(self):
        names = lambda table, column: {row.of[column] for row in self.rows[table]}
        self.parameters = {}
        for row in self.rows["pcf"]:
            self.parameters.setdefault(row.of["NAME"], row)
        self.spids = {row.number("SPID") for row in self.rows["pid"]}
        self.structures = {}
        for row in self.rows["vpd"]:
            self.structures.setdefault(row.number("TPSD"), []).append(row)
        for rows in self.structures.values():
            rows.sort(key=lambda it: it.number("POS"))
        self.numeric = names("caf", "NUMBR") | names("mcf", "IDENT") | names("lgf", "IDENT")
        self.textual, self.points, self.checks = names("txf", "NUMBR"), {}, names("ocf", "NAME")
        self.raw_of = {"caf": {}, "txf": {}}
        for table in ("caf", "txf"):
            for row in self.rows[table]:
                self.raw_of[table].setdefault(row.of["NUMBR"], row)
        for row in self.rows["cap"]:
            self.points.setdefault(row.of["NUMBR"], []).append(row)

    def twice(self, table, row, keys):
        key = (KEYS[table], mib_tables.key_of(table, row.fields))
        found = [keys.get(str(key))]
        keys.setdefault(str(key), row.at)
        if table == "pid":
            same = ("same", *[row.number(it) for it in ("TYPE", "STYPE", "APID", "PI1_VAL", "PI2_VAL")])
            found.append(keys.get(str(same)))
            keys.setdefault(str(same), row.at)
        found = [it for it in found if it]
        if found:
            self.fault(row, "TWICE", other=min(found), why="the same key, or the same APID, types and discriminants")

    def curve_is_there(self, categ, name):
        return categ == "T" or name in (self.textual if categ == "S" else self.numeric)

    def references(self, table, row):
        of, parameters = row.of, self.parameters
        for column in TABLES[table]:
            name, text = column.name, row.of[column.name]
            missing = {
                ("pcf", "VALID"): lambda: of["NATUR"] == "R" and text and text not in parameters,
                ("pcf", "CURTX"): lambda: of["NATUR"] == "R" and text and not self.curve_is_there(of["CATEG"], text),
                ("pid", "TPSD"): lambda: number(text) >= 1 and number(text) not in self.structures,
                ("plf", "NAME"): lambda: text not in parameters,
                ("plf", "SPID"): lambda: number(text) not in self.spids,
                ("vpd", "NAME"): lambda: text not in parameters,
                ("cur", "PNAME"): lambda: text not in parameters,
                ("cur", "RLCHK"): lambda: text not in parameters,
                ("cur", "SELECT"): lambda: of["PNAME"] in parameters and not self.curve_is_there(parameters[of["PNAME"]].of["CATEG"], text),
                ("cap", "NUMBR"): lambda: text not in self.raw_of["caf"],
                ("txp", "NUMBR"): lambda: text not in self.raw_of["txf"],
                ("ocf", "NAME"): lambda: text not in parameters,
                ("ocp", "NAME"): lambda: text not in self.checks,
                ("ocp", "RLCHK"): lambda: text and text not in parameters,
            }.get((table, name), lambda: False)()
            if missing:
                return self.fault(row, "NOREF", column)

    def is_measured(self, row):
        return row is not None and row.of["NATUR"] == "R"

    def type_of(self, row):
        return shape(row.number("PTC"), row.number("PFC"))

    def pcf_row(self, row):
        if not self.is_measured(row):
            return
        found, width = self.type_of(row), row.number("WIDTH")
        if not found or row.of["ENDIAN"] == "L" and found[0] in ("unsigned", "signed", "real") and found[1] % 8:
            self.fault(row, "BADTYPE", why="a type of the table of PTC and PFC, and whole octets for ENDIAN L")
        elif found[0] != "deduced" and 0 < width < found[1]:
            self.fault(row, "WIDTH", why=f"0, or at least {found[1]} bits")
        if row.number("PTC") != 11 and row.of["CURTX"] and any(it.of["PNAME"] == row.of["NAME"] for it in self.selections(row)):
            self.fault(row, "BOTH", why="CURTX, or rows of cur")

    def selections(self, row):
        if not hasattr(self, "cur_of"):
            self.cur_of = {}
            for it in self.rows["cur"]:
                self.cur_of.setdefault(it.of["PNAME"], []).append(it)
        return self.cur_of.get(row.of["NAME"], [])

    def plf_row(self, row):
        parameter = self.parameters.get(row.of["NAME"])
        if self.is_measured(parameter) and parameter.number("PTC") == 11:
            self.fault(row, "BADTYPE", why="a deduced parameter stands in structures alone")

    def vpd_row(self, row):
        parameter = self.parameters.get(row.of["NAME"])
        if parameter and not self.is_measured(parameter):
            self.fault(row, "BADTYPE", why="a parameter of NATUR R")
        size, repeats = row.number("GRPSIZE"), row.number("FIXREP")
        decides = (row.of["CHOICE"] == "Y") + (row.of["PIDREF"] == "Y") + (size > 0)
        counts = row.of["CHOICE"] == "Y" or row.of["PIDREF"] == "Y" or size > 0 and repeats == 0
        sort = self.type_of(parameter) if parameter else None
        if decides > 1 or repeats and not size or self.leaves_group(row) or counts and parameter and (not sort or sort[0] not in ("unsigned", "signed")):
            self.fault(row, "GROUP", why="see GROUP in docs/FORMATS.md")

    def leaves_group(self, row):
        """Whether the row's group goes past the structure's last row, or past the end of a group around it."""
        rows = self.structures[row.number("TPSD")]
        at = rows.index(row)
        end = at + row.number("GRPSIZE")
        if row.number("GRPSIZE") == 0:
            return False
        around = [it + rows[it].number("GRPSIZE") for it in range(at) if it + rows[it].number("GRPSIZE") >= at]
        return end >= len(rows) or any(end > it for it in around)

    def caf_row(self, row):
        if row.of["RAWFMT"] != "R" and len(self.points.get(row.of["NUMBR"], [])) < 2:
            self.fault(row, "POINTS", why="at least two rows of cap")

    def cap_row(self, row):
        curve = self.raw_of["caf"].get(row.of["NUMBR"])
        if not curve or curve.of["RAWFMT"] == "R":
            return
        found = whole_number(row.of["XVALS"], curve.of["RADIX"])
        earlier = [it for it in self.points[row.of["NUMBR"]] if it.at < row.at]
        if found is None or found in [whole_number(it.of["XVALS"], curve.of["RADIX"]) for it in earlier]:
            self.fault(row, "POINTS", why=f"a whole number in radix {curve.of['RADIX']}, other than those of the curve's earlier points")

    def txp_row(self, row):
        curve = self.raw_of["txf"].get(row.of["NUMBR"])
        if curve and curve.of["RAWFMT"] != "R" and None in (whole_number(row.of["FROM"]), whole_number(row.of["TO"])):
            self.fault(row, "POINTS", why="FROM and TO are whole numbers")

    # ---- what is accepted and probably meant otherwise

    def warn_all(self):
        self.warn_limits()
        self.warn_texts()
        self.warn_places()
        self.warn_unused()
        for table in TABLES:
            read = {it.at for it in TABLES[table]}
            filled = {}
            for row in self.rows[table]:
                for at in [at for at, it in enumerate(row.fields, 1) if it.strip(" ") and at not in read]:
                    filled[at] = filled.get(at, 0) + 1
            for at, count in sorted(filled.items()):
                self.warnings.append(f"warning: {table}: column {at} isn't read, and is filled in {count} of {len(self.rows[table])} rows")

    def warn_limits(self):
        states = {}
        for row in self.rows["txp"]:
            states.setdefault(row.of["NUMBR"], set()).add(row.of["ALTXT"])
        for row in self.rows["ocp"]:
            low, high = decimal(row.of["LVALU"] or ""), decimal(row.of["HVALU"] or "")
            if row.of["TYPE"] in "SHD" and None not in (low, high) and low > high:
                self.warn(row, f"LVALU {row.of['LVALU']} is above HVALU {row.of['HVALU']}: every sample is outside")
            parameter = self.parameters.get(row.of["NAME"])
            if row.of["TYPE"] == "C" and parameter and parameter.of["CATEG"] == "S" and parameter.of["CURTX"] in states \
                    and row.of["LVALU"] not in states[parameter.of["CURTX"]] and decimal(row.of["LVALU"]) is None:
                self.warn(row, f"no text of {parameter.of['CURTX']} is the state {row.of['LVALU']!r}")

    def warn_texts(self):
        ranges = {}
        for row in self.rows["txp"]:
            low, high = whole_number(row.of["FROM"]), whole_number(row.of["TO"])
            if None in (low, high):
                continue
            if low > high:
                self.warn(row, f"FROM {low} is above TO {high}: the text is never taken")
            for other, one, two in ranges.get(row.of["NUMBR"], []):
                if low <= two and one <= high:
                    self.warn(row, f"{max(low, one)} to {min(high, two)} have the text of row {other}, which stands before")
                    break
            ranges.setdefault(row.of["NUMBR"], []).append((row.at, low, high))

    def warn_places(self):
        ends = {}
        for row in self.rows["plf"]:
            parameter = self.parameters.get(row.of["NAME"])
            found = self.type_of(parameter) if self.is_measured(parameter) else None
            if not found:
                continue
            start, count, step = 8 * row.number("OFFBY") + row.number("OFFBI"), row.number("NBOCC"), row.number("LGOCC")
            if count > 1 and step == 0:
                self.warn(row, f"LGOCC is 0: all {count} occurrences are read at one place")
            ends.setdefault(row.number("SPID"), []).append((start + step * (count - 1) + found[1], row))
        for places in ends.values():
            others = sorted(it[0] for it in places)
            for end, row in places:
                if len(others) > 2 and end == others[-1] and end > 2 * others[-2]:
                    self.warn(row, f"ends at bit {end}, twice as far as all other places of SPID {row.of['SPID']}")

    def warn_unused(self):
        asked = {row.of["CURTX"] for row in self.rows["pcf"]} | {row.of["SELECT"] for row in self.rows["cur"]}
        for table, column in (("caf", "NUMBR"), ("txf", "NUMBR"), ("mcf", "IDENT"), ("lgf", "IDENT")):
            for row in self.rows[table]:
                if row.of[column] not in asked:
                    self.warn(row, f"the curve {row.of[column]} is used by no parameter")
        placed = {row.of["NAME"] for table in ("plf", "vpd") for row in self.rows[table]}
        deduced = {row.number("PID") for row in self.rows["pcf"]} if any(row.number("PTC") == 11 for row in self.rows["pcf"]) else set()
        for row in self.rows["pcf"]:
            if self.is_measured(row) and row.of["NAME"] not in placed and (row.number("PID") is None or row.number("PID") not in deduced):
                self.warn(row, f"{row.of['NAME']} stands in no packet")

    def tell(self):
        for table, at, word, place, line, column, row, why in self.faults:
            told = f"{table} {at} {word}" + (f" {place}" if place is not None else "")
            where = f" (line {line})" if line else ""
            text = f": {column.name} is {row.fields[column.at - 1] if column.at <= len(row.fields) else ''!r}" if column else ""
            print(f"{told}{where}{text}: {why or HINTS.get(word, '')}")
        for it in self.warnings:
            print(it)
        return 1 if self.faults else 0


def main(given):
    lint = Lint(given.mib)
    lint.read()
    if not lint.faults and not any(lint.rows.values()):
        print(f"0 rows: is {given.mib} the folder? Tables are files named pcf.dat and so on, in lower case")
        return 1
    if not lint.faults:
        lint.sound()
        lint.warn_all()
    return lint.tell()


if __name__ == "__main__":
    words = helper_words.reader(__doc__)
    words.add_argument("mib", metavar="MIB", help="a folder of tables")
    helper_words.run(words, main)
