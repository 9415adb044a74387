#!/usr/bin/env python3
"""Checks what `PROGRAM` answers to input that is cut short, at a limit or one past it, or made to harm: feeds, tables, scripts.

    checks/malicious.py PROGRAM

What is expected is reckoned from docs/FORMATS.md for each case. Each call has 60 seconds and 2 GB.
"""
import os
import resource
import subprocess
import sys
import tempfile

PACKET = bytes.fromhex("0864c00000051003190007d0")
PID = "3\t25\t100\t\t\t4001\n"
FIXED = {"pcf": "T1\t\t\t\t3\t12\t\t\t\tN\tR\n", "pid": PID, "plf": "T1\t4001\t10\t0\n"}
HEAD = "PKT {} APID 100 COUNT 0 TYPE 3/25 SPID 4001\n"
STRUCTURE_PID = "3\t25\t100\t\t\t4001\t\t\t10\t4\n"
ORDER = ["pcf", "pid", "pic", "tpcf", "plf", "vpd", "cur", "caf", "cap", "txf", "txp", "mcf", "lgf", "ocf", "ocp"]


def packet(data, apid=100):
    """A packet of service type 3 and subtype 25 with so many octets behind its data field header."""
    return (0x0800 | apid).to_bytes(2, "big") + b"\xc0\x00" + (len(data) + 3).to_bytes(2, "big") + bytes.fromhex("10031900") + data


def curve(points):
    return {**FIXED, "pcf": "T1\t\t\t\t3\t12\t\t\t\tN\tR\tC1\n", "caf": "C1\t\tR\tU\tD\t\t\tF\n", "cap": points}


class Tries:
    def __init__(self, program, folder):
        self.program, self.folder, self.made, self.wrong = os.path.abspath(program), folder, 0, 0

    def write(self, name, octets):
        path = os.path.join(self.folder, name)
        with open(path, "wb") as file:
            file.write(octets if isinstance(octets, bytes) else octets.encode("latin-1"))
        return path

    def tables(self, tables):
        mib = os.path.join(self.folder, "mib")
        os.makedirs(mib, exist_ok=True)
        for name in os.listdir(mib):
            os.remove(os.path.join(mib, name))
        for name, text in tables.items():
            self.write(f"mib/{name}.dat", text)
        return mib

    def run(self, *words):
        def begin():
            resource.setrlimit(resource.RLIMIT_AS, (2 << 30, 2 << 30))
        done = subprocess.run([self.program, *words], stdin=subprocess.DEVNULL, stdout=subprocess.PIPE, stderr=subprocess.PIPE, timeout=60, preexec_fn=begin)
        return done.returncode, done.stdout.decode("latin-1"), done.stderr.decode("latin-1")

    def is_so(self, what, found, wanted):
        self.made += 1
        if found != wanted:
            self.wrong += 1
            print(f"{what}\n  found  {str(found)[:300]}\n  wanted {str(wanted)[:300]}")

    def decode(self, what, tables, feed, text, status=0, told="", workers="1"):
        found = self.run("decode", self.tables(tables), self.write("feed", feed), "--workers", workers)
        self.is_so(what, found, (status, text, told))

    def check(self, what, tables, told, counts=None):
        status, out, line = self.run("check", self.tables(tables))
        self.is_so(what, (status, line), (3, f"BADMIB {told}\n") if told else (0, ""))
        if counts is not None:
            self.is_so(f"{what}: counts", dict(it.split(" ") for it in out.splitlines() if not it.startswith("PLANS ")), {it: str(counts.get(it, 0)) for it in ORDER})


def feeds(tries):
    record = HEAD + "  T1 2000\n"
    for length in range(25):
        text, rest = "".join(record.format(it + 1) for it in range(length // 12)), length % 12
        tries.decode(f"the first {length} octets", FIXED, (PACKET * 2)[:length], text + (f"CUT {rest}\n" if rest else ""), 5 if rest else 0, f"CUT {rest}\n" if rest else "")
    tries.decode("a length that the feed hasn't", FIXED, bytes.fromhex("0864c000ffff") + bytes(10), "CUT 16\n", 5, "CUT 16\n")
    tries.decode("no octets for types", FIXED, bytes.fromhex("0864c000000010"), "PKT 1 APID 100 COUNT 0 BAD SHORT\n")
    smallest = b"".join(bytes([0x00, it % 7, 0xC0, it % 256, 0x00, 0x00, 0x55]) for it in range(1000000))
    status, out, told = tries.run("decode", tries.tables({}), tries.write("feed", smallest), "--workers", "4")
    tries.is_so("1,000,000 packets of 7 octets", (status, told, out.count("\n"), out.splitlines()[-1]),
                (0, "", 1000000, f"PKT 1000000 APID {999999 % 7} COUNT {999999 % 256} TYPE 0/0 UNKNOWN"))
    longest = packet(bytes(65532))
    tries.decode("packets of 65,542 octets", FIXED, longest * 3, "".join(HEAD.format(it) + "  T1 0\n" for it in (1, 2, 3)), workers="4")
    tries.decode("a packet one octet short of 65,542", FIXED, longest[:-1], "CUT 65541\n", 5, "CUT 65541\n")
    for first in range(256):
        feed = bytes([first]) + PACKET[1:]
        status, out, _ = tries.run("decode", tries.tables(FIXED), tries.write("feed", feed))
        apid = (first & 7) << 8 | 100
        kind = "BAD VERSION" if first >> 5 else "BAD TELECOMMAND" if first & 16 else None
        types = "3/25" if first & 8 else "0/0"
        wanted = f"PKT 1 APID {apid} COUNT 0 {kind}\n" if kind else record.format(1) if first == 8 else f"PKT 1 APID {apid} COUNT 0 TYPE {types} UNKNOWN\n"
        tries.is_so(f"first octet {first}", (status, out), (0, wanted))


def structures(tries):
    bit = "V\t\t\t\t1\t0\t\t\t\tN\tR\n"
    tables = {"pcf": bit, "pid": STRUCTURE_PID}
    nested = {**tables, "vpd": "10\t1\tV\t2\t65535\n10\t2\tV\t1\t65535\n10\t3\tV\n"}
    bits = "".join(f"  V {it}\n" for it in "10100101")
    tries.decode("65,535 times 65,535 repetitions", nested, packet(b"\xa5"), HEAD.format(1) + bits + "  SHORT V\n")
    tries.decode("8,192 values and more bits", nested, packet(bytes(1030)), HEAD.format(1) + "  V 0\n" * 8192 + "  MANY\n")
    tries.decode("8,192 values and no bit more", {**tables, "vpd": "10\t1\tV\t1\t8192\n10\t2\tV\n"}, packet(bytes(1024)), HEAD.format(1) + "  V 0\n" * 8192)
    tries.decode("a place before the packet", {**tables, "vpd": "10\t1\tV" + "\t" * 11 + "-88\n"}, packet(b"\0"), HEAD.format(1) + "  SHORT V\n")
    for offset, text in (("524336", "  SHORT V\n"), ("-524336", "  SHORT V\n"), ("-80", "  V 0\n")):
        tries.decode(f"an offset of {offset}", {**tables, "vpd": "10\t1\tV" + "\t" * 11 + offset + "\n"}, packet(b"\0"), HEAD.format(1) + text)
    choice = {"pcf": "K\t\t\t\t3\t4\t\t\t\tN\tR\n", "pid": STRUCTURE_PID, "vpd": "10\t1\tK\t\t\tY\n"}
    tries.decode("a structure that chooses itself", choice, packet(bytes([10] * 20000)), HEAD.format(1) + "  K 10\n" * 8192 + "  MANY\n")
    counted = {**choice, "vpd": "10\t1\tK\t1\n10\t2\tK\n"}
    tries.decode("a count of 255", counted, packet(b"\xff" + bytes(3)), HEAD.format(1) + "  K 255\n" + "  K 0\n" * 3 + "  SHORT K\n")
    nulls = {"pcf": bit, "pid": STRUCTURE_PID, "vpd": "".join(f"10\t{it}\tV\t{60000 - it}\t65535\n" for it in range(1, 60000)) + "10\t60000\tV\n"}
    tries.decode("60,000 groups in one another", nulls, packet(b"\x80"), HEAD.format(1) + "  V 1\n" + "  V 0\n" * 7 + "  SHORT V\n")


def curves(tries):
    over = curve("C1\t0\t-9E24\nC1\t4000\t9E24\n")
    tries.decode("points whose difference is too great", over, PACKET, HEAD.format(1) + "  T1 2000 ! OVER\n")
    texts = {**FIXED, "pcf": "T1\t\t\t\t3\t12\t\t\t\tS\tR\tX1\n", "txf": "X1\t\tU\n", "txp": "X1\t2001\t1999\tLOW\n"}
    tries.decode("a text whose range is empty", texts, PACKET, HEAD.format(1) + "  T1 2000 ! NOTEXT\n")
    octets = bytes(it for it in range(256) if it not in (9, 10, 13))
    for begun in range(0, len(octets), 64):
        piece = octets[begun:begun + 64]
        quoted = "".join(chr(it) if 0x20 <= it <= 0x7E and it not in (0x22, 0x5C) else f"\\x{it:02X}" for it in piece)
        tables = {**FIXED, "tpcf": "4001\t" + piece.decode("latin-1") + "\n"}
        tries.decode(f"a name of octets from {begun}", tables, PACKET, HEAD.format(1)[:-1] + f' NAME "{quoted}"\n  T1 2000\n')
    for octet in range(256):
        if octet in (9, 10, 13):
            continue
        name = f"T{chr(octet)}1"
        is_name = 0x21 <= octet <= 0x7E
        told = "" if is_name else "pcf 1 BADNAME 1"
        tries.check(f"octet {octet} in a name", {**FIXED, "pcf": FIXED["pcf"].replace("T1", name), "plf": FIXED["plf"].replace("T1", name)}, told)


def tables(tries):
    row = FIXED["pcf"][:-1].split("\t")
    for length, told in ((4096, ""), (4097, "pcf 1 LINELONG")):
        row[1] = "x" * (length - len(FIXED["pcf"]) + 1)
        tries.check(f"a row of {length} octets", {**FIXED, "pcf": "\t".join(row) + "\n"}, told)
        tries.check(f"a row of {length} octets, CR and LF", {**FIXED, "pcf": "\t".join(row) + "\r\n"}, told)
    for rows in (100000, 100001):
        tries.check(f"{rows} rows", {"tpcf": "".join(f"{it}\n" for it in range(1, rows + 1))}, "tpcf 100001 ROWS" if rows > 100000 else "", {"tpcf": rows} if rows == 100000 else None)
    tries.check("67,108,865 octets", {"pcf": b"\n" * 67108865}, "pcf 0 BIG")
    tries.check("67,108,864 octets", {"pcf": b"\n" * 67108864}, "", {})
    tries.check("no octet but NUL", {"pcf": b"\0" * 100}, "pcf 1 BADNAME 1")
    full = {it: "" for it in ORDER}
    names = [f"N{it}" for it in range(100000)]
    full["pcf"] = "".join(f"{it}\t\t\t\t3\t12\t\t\t\tN\tR\n" for it in names)
    full["pid"] = "".join(f"3\t25\t{it % 60000}\t{it // 60000}\t\t{it + 1}\n" for it in range(100000))
    full["tpcf"] = "".join(f"{it + 1}\tX\n" for it in range(100000))
    full["plf"] = "".join(f"N{it}\t{it + 1}\t10\t0\n" for it in range(100000))
    full["vpd"] = "".join(f"{it + 1}\t1\tN{it}\n" for it in range(100000))
    full["cur"] = "".join(f"N{it}\t1\tN0\t1\tC{it}\n" for it in range(50000))
    full["caf"] = "".join(f"C{it}\t\tR\tU\tD\t\t\tF\n" for it in range(50000))
    full["cap"] = "".join(f"C{it}\t0\t0\nC{it}\t1\t1\n" for it in range(50000))
    full["txf"] = "".join(f"X{it}\t\tU\n" for it in range(100000))
    full["txp"] = "".join(f"X{it}\t0\t0\tA\n" for it in range(100000))
    full["mcf"] = "".join(f"M{it}\t\t1\n" for it in range(100000))
    full["lgf"] = "".join(f"L{it}\n" for it in range(100000))
    full["ocf"] = "".join(f"N{it}\t1\t\tU\n" for it in range(100000))
    full["ocp"] = "".join(f"N{it}\t1\tS\t0\t1\n" for it in range(99999))
    counts = {it: text.count("\n") for it, text in full.items()}
    tries.check(f"{sum(counts.values())} rows", full, "", counts)
    tries.check("the fault stands in the last row", {**full, "ocp": full["ocp"] + "NOWHERE\t1\tS\t0\t1\n"}, "ocp 100000 NOREF 1")


def desks(tries):
    mib, feed = tries.tables(FIXED), tries.write("feed", b"")

    def desk(what, script, replies, status=0):
        found = tries.run("live", mib, feed, tries.write("desk", script))
        tries.is_so(what, found, (status, "", replies))

    desk("4,097 octets and go", b"x" * 4097 + b"\ngo\n", "TOOLONG\nGO\n")
    desk("4,096 octets and go", b"x" * 4096 + b"\ngo\n", "BADLINE\nGO\n")
    desk("a comment of 1,000,000 octets", b"#" * 1000000 + b"\ngo\n", "GO\n")
    desk("a line of 10,000,000 octets without LF", b"x" * 10000000, "TOOLONG\n")
    desk("a script without LF at its end", b"drop\ngo", "DROPPED\nGO\n")
    desk("999,999 lines", b"\n" * 999999, "")
    desk("1,000,000 lines", b"\n" * 1000000, "LIMIT\n")
    desk("a line behind 1,000,000", b"\n" * 1000000 + b"drop\n", "LIMIT\n")
    desk("64 saves and one more", b"save\n" * 64, "".join(f"SAVED {it} PLANS 0\n" for it in range(2, 65)) + "FULL EDITIONS 64\n")
    desk("16 activations and one more", b"".join(b"use 1 from %d\n" % it for it in range(2, 19)), "".join(f"USED 1 FROM {it}\n" for it in range(2, 18)) + "FULL PENDING 16\n")
    for octet in range(256):
        if octet in (10, 13):
            continue
        line = bytes([octet]) + b"go"
        desk(f"a line that begins with octet {octet}", line + b"\n", "" if octet == 0x23 else "BADLINE\n")


def main():
    with tempfile.TemporaryDirectory() as folder:
        tries = Tries(sys.argv[1], folder)
        for part in (feeds, structures, curves, tables, desks):
            part(tries)
    print(f"{tries.made} tries, {tries.wrong} wrong")
    return 1 if tries.wrong else 0


if __name__ == "__main__":
    sys.exit(main())
