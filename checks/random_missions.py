"""Random sound missions for the checks beside this file: tables with every type, curve, condition and kind of structure, and
feeds whose octets are mostly small, so that conditions hold and limits are crossed often."""
import os

INTEGER_TYPES = [(1, 0), (2, 3), (2, 8), (2, 16), (3, 0), (3, 4), (3, 12), (3, 14), (4, 4), (4, 12), (6, 5), (6, 8), (3, 16), (4, 16)]
OTHER_TYPES = [(5, 1), (5, 2), (5, 4), (7, 1), (7, 3), (8, 2), (9, 1), (9, 2), (9, 7), (10, 3), (10, 18), (9, 11)]
WIDTHS = {(1, 0): 1, (2, 3): 3, (2, 8): 8, (2, 16): 16, (3, 0): 4, (3, 4): 8, (3, 12): 16, (3, 14): 32, (4, 4): 8, (4, 12): 16,
          (6, 5): 5, (6, 8): 8, (3, 16): 64, (4, 16): 64, (5, 1): 32, (5, 2): 64, (5, 4): 48, (7, 1): 8, (7, 3): 24, (8, 2): 16,
          (9, 1): 48, (9, 2): 64, (9, 7): 16, (10, 3): 8, (10, 18): 56, (9, 11): 24}
APIDS = (100, 101, 2046)
SMALL = (0, 0, 1, 1, 1, 2, 2, 3, 4, 5)


def number(rng):
    return rng.choice([rng.randint(-3, 6), rng.randint(-3, 6), rng.randint(-300, 300), rng.randint(-2 ** 15, 2 ** 16)])


def decimal(rng):
    return rng.choice([str(number(rng)), "%d.%d" % (rng.randint(-9, 9), rng.randint(0, 999)), ".5", "-1E-3", "1e2", "7E%d" % rng.randint(-30, 30)])


class Mission:
    """Tables as lists of rows, each a list of fields."""

    def __init__(self, rng):
        self.rng = rng
        self.tables = {name: [] for name in ("pcf", "pid", "pic", "tpcf", "plf", "vpd", "cur", "caf", "cap", "txf", "txp", "mcf",
                                             "lgf", "ocf", "ocp")}
        self.make_curves()
        self.make_parameters()
        self.make_packets()
        self.make_checks()

    def make_curves(self):
        rng = self.rng
        self.numeric, self.textual = [], []
        for i in range(rng.randint(1, 3)):
            name, radix = "C%d" % i, rng.choice("DDHO")
            self.tables["caf"].append([name, "", rng.choice("IUR"), rng.choice(["", "U", "I", "U", "R"]), radix, "", "", rng.choice("PF")])
            xs = rng.sample(range(-4, 12) if radix == "D" else range(0, 30), rng.randint(2, 5))
            for x in xs:
                text = {"D": rng.choice(["%d", " %d", "%d.0"]), "H": "%X", "O": "%o"}[radix] % x
                self.tables["cap"].append([name, text, decimal(rng)])
            self.numeric.append(name)
        for i in range(rng.randint(1, 3)):
            name = "X%d" % i
            self.tables["txf"].append([name, "", rng.choice(["", "U", "U", "R"])])
            for start in rng.sample(range(-2, 9), rng.randint(0, 4)):
                self.tables["txp"].append([name, str(start), str(start + rng.randint(-1, 3)), rng.choice(["ON", "OFF", 'A "b\\', "", " x", "\x07"])])
            self.textual.append(name)
        for i in range(rng.randint(1, 2)):
            self.tables["mcf"].append(["M%d" % i, ""] + [decimal(rng) for _ in range(rng.randint(1, 5))])
            self.numeric.append("M%d" % i)
        self.tables["lgf"].append(["L"])
        self.numeric.append("L")

    def parameter(self, name, kind):
        """A row of pcf: a whole number, another type, or deduced."""
        rng = self.rng
        ptc, pfc = rng.choice(INTEGER_TYPES) if kind == "number" else rng.choice(OTHER_TYPES) if kind == "other" else (11, 0)
        width = WIDTHS.get((ptc, pfc), 0)
        category = rng.choice("NNST")
        little = kind == "number" and width % 8 == 0 and rng.random() < 0.3
        row = [""] * 23
        row[0], row[4], row[5], row[9] = name, str(ptc), str(pfc), category
        row[2] = rng.choice(["", "", str(rng.randint(0, 4))])
        row[6] = rng.choice(["", "", "", str(width + rng.randint(0, 9))]) if width else ""
        if rng.random() < 0.2:
            row[7], row[17] = rng.choice(self.names), rng.choice(["", str(rng.choice(SMALL))])
        row[10] = rng.choice(["R", "", "R", "R", "R", "H"]) if kind == "number" else "R"
        self.curves = self.textual if category == "S" else self.numeric
        row[11] = rng.choice(self.curves + [""])
        row[14] = rng.choice(["", "2", "0", "12", "14"])
        row[22] = rng.choice(["L"]) if little else rng.choice(["", "B"])
        return row

    def make_parameters(self):
        rng = self.rng
        self.names = ["P%d" % i for i in range(rng.randint(4, 10))]
        for i, name in enumerate(self.names):
            row = self.parameter(name, "number" if i < 3 or rng.random() < 0.7 else "other")
            if i < 3:
                row[10] = "R"
            if row[11] == "" and row[10] in ("", "R"):
                for pos in rng.sample(range(0, 9), rng.randint(0, 3)):
                    self.tables["cur"].append([name, str(pos), rng.choice(self.names), str(rng.choice(SMALL)), rng.choice(self.curves)])
            self.tables["pcf"].append(row)
        self.tables["pcf"].append(self.parameter("DEDUCED", "deduced"))
        self.measured = [r[0] for r in self.tables["pcf"] if r[10] in ("", "R") and r[0] != "DEDUCED"]
        self.whole = [r[0] for r in self.tables["pcf"] if r[0] in self.measured and (int(r[4]), int(r[5])) in INTEGER_TYPES]

    def rows_of_structure(self, most, depth):
        """Rows of vpd without TPSD and POS: (name, grpsize, fixrep, choice, pidref, offset)."""
        rng, rows = self.rng, []
        while len(rows) < most and (not rows or rng.random() < 0.75):
            offset = rng.choice(["", "", "", "", "", "", "0", "8", "-8", "3"])
            draw = rng.random()
            if draw < 0.15 and depth < 3 and most - len(rows) > 2:
                group = self.rows_of_structure(min(4, most - len(rows) - 1), depth + 1)
                fixed = rng.random() < 0.5
                name = rng.choice(self.measured + ["DEDUCED"]) if fixed else rng.choice(self.whole)
                rows += [(name, str(len(group)), str(rng.randint(1, 3)) if fixed else "", "", "", offset)] + group
            elif draw < 0.22:
                rows.append((rng.choice(self.whole), "", "", "Y", "", offset))
            elif draw < 0.35:
                rows += [(rng.choice(self.whole), "", "", "", "Y", offset), ("DEDUCED", "", "", "", "", "")]
            else:
                rows.append((rng.choice(self.measured + ["DEDUCED"]), "", "", rng.choice(["", "N"]), "", offset))
        return rows

    def make_structures(self):
        rng = self.rng
        self.structures = rng.sample(range(1, 6), rng.randint(1, 3))
        for tpsd in self.structures:
            rows = self.rows_of_structure(9, 0)
            places = sorted(rng.sample(range(0, 40), len(rows)))
            made = [[str(tpsd), str(pos), row[0], row[1], row[2], row[3], row[4]] + [""] * 6 + [row[5]] for pos, row in zip(places, rows)]
            rng.shuffle(made)
            self.tables["vpd"] += made

    def make_packets(self):
        rng = self.rng
        self.make_structures()
        kinds = [(rng.choice([3, 0]), rng.choice([25, 0])) for _ in range(2)]
        seen = set()
        for kind in set(kinds):
            if rng.random() < 0.6:
                for apid in rng.sample(["", "100", "101"], rng.randint(1, 2)):
                    self.tables["pic"].append([str(kind[0]), str(kind[1]), str(rng.choice([-1, 9, 10, 12])), str(rng.choice([0, 1, 8, 8])),
                                               str(rng.choice([-1, -1, 11, 30])), str(rng.choice([0, 4, 16])), apid])
        for spid in range(1, rng.randint(4, 9)):
            kind, apid = rng.choice(kinds), rng.choice(APIDS)
            discriminants = (rng.choice([0, 0, 1, 2]), rng.choice([0, 0, 0, 1]))
            if (kind, apid, discriminants) in seen:
                continue
            seen.add((kind, apid, discriminants))
            tpsd = rng.choice(["", "0", "-1"] + [str(t) for t in self.structures] * 2)
            self.tables["pid"].append([str(kind[0]), str(kind[1]), str(apid), str(discriminants[0]), str(discriminants[1]), str(spid), "", "",
                                       tpsd, rng.choice(["4", "4", "0", "1"])])
            if rng.random() < 0.7:
                self.tables["tpcf"].append([str(spid), rng.choice(["NAME", 'N"\\', "", " "])])
            for name in rng.sample(self.names, rng.randint(1, len(self.names))):
                repeat = rng.choice([("", ""), ("1", "0"), ("3", str(rng.randint(0, 20)))])
                self.tables["plf"].append([name, str(spid), str(rng.choice([0, 6, 10, 11, 12, 14])), str(rng.choice([0, 0, 1, 4, 7]))] + list(repeat))
        for table in ("pid", "pic", "plf", "pcf"):
            rng.shuffle(self.tables[table])

    def limit(self, name, pos):
        rng = self.rng
        kind = rng.choice("SSHDCE")
        low, high = sorted([number(rng), number(rng)])
        bounds = [rng.choice(["", str(low)]), rng.choice(["", str(high), "1E2"])]
        if kind in "CE":
            bounds = [rng.choice(["1", "2", "ON", "OFF", "", " x", " 1", "1E0"]), ""]
        condition = rng.choice([("", ""), ("", ""), (rng.choice(self.names), str(rng.choice(SMALL)))])
        return [name, str(pos), kind] + bounds + list(condition)

    def make_checks(self):
        rng = self.rng
        for name in rng.sample(self.names, rng.randint(1, len(self.names))):
            self.tables["ocf"].append([name, str(rng.choice([1, 1, 2, 3])), "", rng.choice("UC"), rng.choice(["", "R", "A"])])
            for pos in rng.sample(range(0, 9), rng.randint(0, 4)):
                self.tables["ocp"].append(self.limit(name, pos))

    def octets(self, count):
        rng = self.rng
        return bytearray(rng.choice([rng.choice(SMALL), rng.choice(SMALL), rng.choice(SMALL), rng.randint(0, 255)]) for _ in range(count))

    def known_packet(self):
        """A packet that a row of pid most likely agrees with."""
        rng = self.rng
        row = rng.choice(self.tables["pid"])
        second = row[:2] != ["0", "0"] or rng.random() < 0.5
        packet = bytearray(6) + self.octets(rng.choice([9, 20, 30, 60]))
        if second:
            packet[7:9] = bytes([int(row[0]), int(row[1])])
        found = [p for p in self.tables["pic"] if p[:2] == row[:2] and p[6] in (row[2], "")]
        for pic in sorted(found, key=lambda p: p[6] == "")[:1]:
            for offset, width, value in ((int(pic[2]), int(pic[3]), int(row[3])), (int(pic[4]), int(pic[5]), int(row[4]))):
                if offset >= 0 and value < 1 << width and offset + (width + 7) // 8 <= len(packet):
                    keep = 8 * ((width + 7) // 8) - width
                    packet[offset:offset + (width + 7) // 8] = (value << keep).to_bytes((width + 7) // 8, "big")
        return int(row[2]), second, packet

    def any_packet(self):
        rng = self.rng
        return rng.choice(APIDS + (300, 2047)), rng.random() < 0.8, bytearray(6) + self.octets(rng.choice([1, 3, 10]))

    def packet(self):
        rng = self.rng
        apid, second, packet = self.any_packet() if rng.random() < 0.1 else self.known_packet()
        word = (0x0800 if second else 0) | apid
        if rng.random() < 0.02:
            word |= rng.choice([0x1000, 0x2000, 0x8000])
        packet[:6] = b"".join(n.to_bytes(2, "big") for n in (word, 0xC000 | rng.randint(0, 16383), len(packet) - 7))
        return bytes(packet)

    def feed(self, most):
        octets = b"".join(self.packet() for _ in range(self.rng.randint(0, most)))
        return octets + (self.packet()[:-1] if self.rng.random() < 0.3 else b"")


def line_of(row):
    return "\t".join(row)


def write_folder(folder, tables):
    os.makedirs(folder, exist_ok=True)
    for name, rows in tables.items():
        with open(os.path.join(folder, name + ".dat"), "wb") as file:
            file.write("".join(line_of(row) + "\n" for row in rows).encode("latin-1"))
