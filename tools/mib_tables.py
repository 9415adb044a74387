"""Columns, keys and forms of the 15 tables, as docs/FORMATS.md tells them, for the helpers beside this file.

None of this is part of what is proved; `mibtm check` decides.
"""
import os
from collections import namedtuple

# position, name, form, default ('!' where an empty field is refused), and the range or the letters of the form
Column = namedtuple("Column", "at name form default domain")
BIG = 4294967295


def column(at, name, form, default=None, domain=None):
    return Column(at, name, form, default, domain)


TABLES = {
    "pcf": [column(1, "NAME", "name", "!"), column(3, "PID", "number", None, (0, BIG)), column(5, "PTC", "number", "0", (0, 255)),
            column(6, "PFC", "number", "0", (0, 65535)), column(7, "WIDTH", "number", "0", (0, 999999)), column(8, "VALID", "name"),
            column(10, "CATEG", "code", "N", "NST"), column(11, "NATUR", "code", "R", "ABCDEFGHIJKLMNOPQRSTUVWXYZ"),
            column(12, "CURTX", "name"), column(15, "DECIM", "number", "0", (0, 255)),
            column(18, "VALPAR", "number", "1", (-2**63, 2**64 - 1)), column(23, "ENDIAN", "code", "B", "BL")],
    "pid": [column(1, "TYPE", "number", "!", (0, 255)), column(2, "STYPE", "number", "!", (0, 255)),
            column(3, "APID", "number", "!", (0, 65535)), column(4, "PI1_VAL", "number", "0", (0, 2**64 - 1)),
            column(5, "PI2_VAL", "number", "0", (0, 2**64 - 1)), column(6, "SPID", "number", "!", (1, BIG)),
            column(9, "TPSD", "number", "-1", (-1, 2147483647)), column(10, "DFHSIZE", "number", "0", (0, 255))],
    "pic": [column(1, "TYPE", "number", "!", (0, 255)), column(2, "STYPE", "number", "!", (0, 255)),
            column(3, "PI1_OFF", "number", "-1", (-1, 65541)), column(4, "PI1_WID", "number", "0", (0, 64)),
            column(5, "PI2_OFF", "number", "-1", (-1, 65541)), column(6, "PI2_WID", "number", "0", (0, 64)),
            column(7, "APID", "number", None, (0, 65535))],
    "tpcf": [column(1, "SPID", "number", "!", (1, BIG)), column(2, "NAME", "text")],
    "plf": [column(1, "NAME", "name", "!"), column(2, "SPID", "number", "!", (1, BIG)), column(3, "OFFBY", "number", "!", (0, 65541)),
            column(4, "OFFBI", "number", "!", (0, 7)), column(5, "NBOCC", "number", "1", (1, 65535)),
            column(6, "LGOCC", "number", "0", (0, 65535))],
    "vpd": [column(1, "TPSD", "number", "!", (1, 2147483647)), column(2, "POS", "number", "!", (0, 65535)),
            column(3, "NAME", "name", "!"), column(4, "GRPSIZE", "number", "0", (0, 65535)), column(5, "FIXREP", "number", "0", (0, 65535)),
            column(6, "CHOICE", "code", "N", "YN"), column(7, "PIDREF", "code", "N", "YN"),
            column(14, "OFFSET", "number", "0", (-524336, 524336))],
    "cur": [column(1, "PNAME", "name", "!"), column(2, "POS", "number", "!", (0, 65535)), column(3, "RLCHK", "name", "!"),
            column(4, "VALPAR", "number", "!", (-2**63, 2**64 - 1)), column(5, "SELECT", "name", "!")],
    "caf": [column(1, "NUMBR", "name", "!"), column(3, "ENGFMT", "code", "R", "IUR"), column(4, "RAWFMT", "code", "U", "IUR"),
            column(5, "RADIX", "code", "D", "DHO"), column(8, "INTER", "code", "F", "PF")],
    "cap": [column(1, "NUMBR", "name", "!"), column(2, "XVALS", "text", "!"), column(3, "YVALS", "decimal", "!")],
    "txf": [column(1, "NUMBR", "name", "!"), column(3, "RAWFMT", "code", "U", "IUR")],
    "txp": [column(1, "NUMBR", "name", "!"), column(2, "FROM", "text", "!"), column(3, "TO", "text", "!"), column(4, "ALTXT", "text", "!")],
    "mcf": [column(1, "IDENT", "name", "!"), column(3, "POL1", "decimal", "!"), *[column(2 + n, f"POL{n}", "decimal", "0") for n in range(2, 6)]],
    "lgf": [column(1, "IDENT", "name", "!")],
    "ocf": [column(1, "NAME", "name", "!"), column(2, "NBCHCK", "number", "!", (1, 255)), column(4, "INTER", "code", "!", "UC"),
            column(5, "CODIN", "code", "R", "RAI")],
    "ocp": [column(1, "NAME", "name", "!"), column(2, "POS", "number", "!", (0, 65535)), column(3, "TYPE", "code", "!", "SHDCE"),
            column(4, "LVALU", "limit"), column(5, "HVALU", "limit"), column(6, "RLCHK", "name"),
            column(7, "VALPAR", "number", "1", (-2**63, 2**64 - 1))],
}
KEYS = {"pcf": ["NAME"], "pid": ["SPID"], "pic": ["TYPE", "STYPE", "APID"], "tpcf": ["SPID"], "plf": ["NAME", "SPID"],
        "vpd": ["TPSD", "POS"], "cur": ["PNAME", "POS"], "caf": ["NUMBR"], "cap": ["NUMBR", "XVALS"], "txf": ["NUMBR"],
        "txp": ["NUMBR", "FROM"], "mcf": ["IDENT"], "lgf": ["IDENT"], "ocf": ["NAME"], "ocp": ["NAME", "POS"]}
MOST_ROWS, MOST_ROW, MOST_TEXT = 100000, 4096, 67108864


def value(text, form):
    """A field as it counts: spaces at its ends belong to a text alone."""
    return text if form == "text" else text.strip(" ")


def field(fields, column):
    """The column's value in a row, with its default where the field is empty."""
    text = value(fields[column.at - 1], column.form) if column.at <= len(fields) else ""
    return column.default if text == "" and column.default not in (None, "!") else text


def named(table, fields):
    """A row under the names of its columns."""
    return {it.name: field(fields, it) for it in TABLES[table]}


def key_of(table, fields):
    """A row's key: numbers by value, names and texts by octets."""
    row, forms = named(table, fields), {it.name: it.form for it in TABLES[table]}
    return tuple(number(row[it]) if forms[it] == "number" and row[it] != "" else row[it] for it in KEYS[table])


def number(text):
    """The number of a text of at most 20 digits with an optional sign, or None."""
    digits = text[1:] if text[:1] in ("+", "-") else text
    return int(text) if digits.isascii() and digits.isdigit() and len(digits) <= 20 else None


def lines_of(text):
    """(number of the line, line) of each row of a table's text: rows are lines that aren't empty, without a CR at the end."""
    cut = text.split("\n")
    lines = [(at, line[:-1] if line.endswith("\r") else line) for at, line in enumerate(cut, 1)]
    return [it for it in lines if it[1]]


def read(folder, table):
    """The text of a table, one character an octet; empty where its file isn't there."""
    try:
        with open(os.path.join(folder, f"{table}.dat"), "rb") as it:
            return it.read().decode("latin-1")
    except FileNotFoundError:
        return ""
