#!/usr/bin/env python3
"""Rows of tables under the names of their columns, and a script's edits in a folder. Not part of what is proved.

    tools/mib_row.py show MIB TABLE [VALUE]        the rows whose key has the value, each column on a line of its own
    tools/mib_row.py row TABLE COLUMN=VALUE ..     a row, as a desk's `put` and a file take it
    tools/mib_row.py edit MIB TABLE KEY .. COLUMN=VALUE ..
                                                   the folder's row with this key (a word for each of its columns), whole, with other values
    tools/mib_row.py apply MIB DESK REPLIES EDITION FOLDER
                                                   writes the tables of a saved edition of a live run into a new folder; of EDITION
                                                   `draft` the rows that stand in the draft behind the last reply

The status is 1 where no such row or edition is.
"""
import os
import sys

import helper_words
import mib_tables
from replay import lines_of


def show(folder, table, wanted=None):
    shown = 0
    for at, (line, text) in enumerate(mib_tables.lines_of(mib_tables.read(folder, table)), 1):
        fields = text.split("\t")
        if wanted is not None and wanted not in [str(it) for it in mib_tables.key_of(table, fields)]:
            continue
        shown += 1
        print(f"{table}.dat row {at}, line {line}")
        for column in mib_tables.TABLES[table]:
            written = fields[column.at - 1] if column.at <= len(fields) else ""
            print(f"  {column.at:2} {column.name:8} {written!r}" + ("" if written else f"  (counts as {column.default})" if column.default not in (None, "!") else ""))
    if not shown:
        sys.exit(f"{os.path.join(folder, table)}.dat has no row" + (f" whose key ({', '.join(mib_tables.KEYS[table])}) has {wanted}" if wanted is not None else ""))


def row(table, *given):
    print_row(columns_of(table, given))


def edit(folder, table, *given):
    """Prints the row with this key, whole, so that what isn't named stays as it is."""
    count = len(mib_tables.KEYS[table])
    key = key_in(table, "\t".join(given[:count]))
    for _, text in mib_tables.lines_of(mib_tables.read(folder, table)):
        fields = text.split("\t")
        if len(given) >= count and mib_tables.key_of(table, fields) == key:
            return print_row({**dict(enumerate(fields, 1)), **columns_of(table, given[count:])})
    sys.exit(f"{os.path.join(folder, table)}.dat has no row with the key {' '.join(given[:count])} ({', '.join(mib_tables.KEYS[table])})")


def columns_of(table, given):
    """The fields by their positions, of words COLUMN=VALUE."""
    columns = {it.name: it.at for it in mib_tables.TABLES[table]}
    fields = {}
    for word in given:
        name, _, text = word.partition("=")
        if name not in columns or "=" not in word:
            sys.exit(f"{word} isn't COLUMN=VALUE of {table}, whose columns are {' '.join(columns)}")
        fields[columns[name]] = text
    return fields


def print_row(fields):
    """As octets, since texts may hold any."""
    text = "\t".join(fields.get(at, "") for at in range(1, max(fields, default=1) + 1))
    sys.stdout.buffer.write(text.encode("latin-1") + b"\n")


def apply(folder, desk, replies, edition, to):
    """Follows the lines that were accepted, as a desk does, up to the save that made the edition, or to the draft at the end."""
    rows = {table: [it[1] for it in mib_tables.lines_of(mib_tables.read(folder, table))] for table in mib_tables.TABLES}
    base = {table: list(it) for table, it in rows.items()}
    with open(desk, "rb") as script, open(replies, "rb") as told:
        steps = list(zip(lines_of(script.read()), told.read().split(b"\n")))
    if edition == "1":
        return write(base, to)
    for line, reply in steps:
        words = line.decode("latin-1").split(" ", 1)
        if reply.startswith(b"SAVED "):
            base = {table: list(it) for table, it in rows.items()}
            if reply.split()[1].decode() == edition:
                return write(base, to)
        elif reply == b"DROPPED":
            rows = {table: list(it) for table, it in base.items()}
        elif words[0] in ("put", "del") and reply in (b"ADDED", b"REPLACED", b"DELETED"):
            table, _, text = words[1].partition("\t")
            key = mib_tables.key_of(table, text.split("\t")) if words[0] == "put" else key_in(table, text)
            at = next((at for at, it in enumerate(rows[table]) if mib_tables.key_of(table, it.split("\t")) == key), None)
            if words[0] == "del":
                del rows[table][at]
            elif at is None:
                rows[table].append(text)
            else:
                rows[table][at] = text
    if edition == "draft":
        return write(rows, to)
    sys.exit(f"no line of the script saved edition {edition}")


def key_in(table, text):
    """The key that a line `del` names by the fields of the key alone."""
    forms = {it.name: it.form for it in mib_tables.TABLES[table]}
    fields = [mib_tables.value(it, forms[name]) for name, it in zip(mib_tables.KEYS[table], text.split("\t") + [""] * 3)]
    return tuple(mib_tables.number(it) if forms[name] == "number" and it != "" else it for name, it in zip(mib_tables.KEYS[table], fields))


def write(rows, to):
    os.mkdir(to)
    for table, lines in rows.items():
        if lines:
            with open(os.path.join(to, f"{table}.dat"), "wb") as file:
                file.write("".join(f"{it}\n" for it in lines).encode("latin-1"))


def octets(words):
    """Words as they were given, one character an octet, as the tables are read."""
    return [os.fsencode(it).decode("latin-1") for it in words]


def reader():
    words = helper_words.reader(__doc__)
    calls = words.add_subparsers(required=True, metavar="show|row|edit|apply")
    tables = {"metavar": "TABLE", "choices": list(mib_tables.TABLES)}
    it = calls.add_parser("show")
    it.add_argument("mib", metavar="MIB")
    it.add_argument("table", **tables)
    it.add_argument("value", metavar="VALUE", nargs="?")
    it.set_defaults(run=lambda given: show(given.mib, given.table, given.value))
    it = calls.add_parser("row")
    it.add_argument("table", **tables)
    it.add_argument("given", metavar="COLUMN=VALUE", nargs="+")
    it.set_defaults(run=lambda given: row(given.table, *octets(given.given)))
    it = calls.add_parser("edit")
    it.add_argument("mib", metavar="MIB")
    it.add_argument("table", **tables)
    it.add_argument("given", metavar="KEY or COLUMN=VALUE", nargs="+")
    it.set_defaults(run=lambda given: edit(given.mib, given.table, *octets(given.given)))
    it = calls.add_parser("apply")
    for name in ("mib", "desk", "replies", "edition", "folder"):
        it.add_argument(name, metavar=name.upper())
    it.set_defaults(run=lambda given: apply(given.mib, given.desk, given.replies, given.edition, given.folder))
    return words


if __name__ == "__main__":
    helper_words.run(reader(), lambda given: given.run(given))
