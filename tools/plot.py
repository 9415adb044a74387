#!/usr/bin/env python3
"""Draws parameters over packets, with their alarms, from printed records. Needs matplotlib (Debian: python3-matplotlib).

    tools/plot.py RECORDS PICTURE NAME ..        PICTURE is a .png or .svg

A value is drawn by its engineering value where it has one, else by its raw number; texts by their raw number. Spans in which an
alarm of the parameter is told are shaded. A change of edition is a dashed line. An alarm that the change dropped has no CLEAR, so a
span ends there, unless a later CLEAR shows that the alarm stood on. The status is 1 where a name has no number in the records.
Not part of what is proved.
"""
import os
import re
import sys

import helper_words

VALUE = re.compile(r'^  (\S+) (-?\d+)(?: = (?:(-?\d+(?:\.\d+)?)|"(?:[^"]|\\x[0-9A-F]{2})*"))?(?: ! \w+| \? INVALID)?$')
ALARM = re.compile(r"^  (ALARM|CLEAR) (\S+) (\w+)$")


class Drawn:
    """Of one parameter: its (packet, value) list, and its (first packet, last packet, class) spans of alarms."""

    def __init__(self):
        self.values, self.spans, self.told, self.held = [], [], None, None

    def end(self, packet):
        if self.told:
            self.spans.append((self.told[0], packet, self.told[1]))
        self.told = None

    def edition(self, packet):
        """The alarm may be dropped: its span ends here, and is held for a CLEAR behind it."""
        if self.told:
            self.held = self.told
            self.end(packet)

    def alarm(self, word, kind, packet):
        if word == "CLEAR" and not self.told and self.held and self.held[1] == kind:
            self.spans[-1] = self.held[0], packet, kind
        self.end(packet)
        self.held = None
        if word == "ALARM":
            self.told = packet, kind


def read(lines, names):
    """For each name what is drawn of it, the packets from which an edition is in use, and the number of the last packet."""
    drawn, editions, packet = {it: Drawn() for it in names}, [], 0
    for line in lines:
        if line.startswith("PKT "):
            packet = int(line.split()[1])
            continue
        if line.startswith("EDITION "):
            editions.append((packet + 1, line.split()[1]))
            for it in drawn.values():
                it.edition(packet + 1)
            continue
        value, alarm = VALUE.match(line), ALARM.match(line)
        if value and value[1] in drawn:
            drawn[value[1]].values.append((packet, float(value[3] or value[2])))
        elif alarm and alarm[2] in drawn:
            drawn[alarm[2]].alarm(alarm[1], alarm[3], packet)
    for it in drawn.values():
        it.end(packet)
    return drawn, editions, packet


def main(given):
    try:
        import matplotlib
    except ModuleNotFoundError:
        sys.exit("this python3 has no matplotlib: with Debian's python3-matplotlib, /usr/bin/python3 tools/plot.py ..")
    matplotlib.use("Agg")
    from matplotlib import pyplot
    with open(given.records, encoding="latin-1") as lines:
        drawn, editions, last = read((it.rstrip("\n") for it in lines), given.names)
    empty = [name for name, it in drawn.items() if not it.values]
    if empty:
        sys.exit(f"{given.records} has no number of {', '.join(empty)}")
    figure, axes = pyplot.subplots(len(given.names), 1, sharex=True, squeeze=False, figsize=(9, 1 + 1.8 * len(given.names)))
    colours = {"HARD": "tab:red", "STATUS": "tab:purple", "DELTA": "tab:orange", "SOFT": "gold"}
    for axis, name in zip(axes[:, 0], given.names):
        axis.plot(*zip(*drawn[name].values), drawstyle="steps-post", linewidth=1)
        for begun, ended, kind in drawn[name].spans:
            axis.axvspan(begun, ended, color=colours[kind], alpha=0.3, label=kind)
        for packet, edition in editions:
            axis.axvline(packet, color="grey", linestyle="--", linewidth=1, label=f"EDITION {edition}")
        axis.set_ylabel(name)
        kinds = dict(zip(*reversed(axis.get_legend_handles_labels())))
        if kinds:
            axis.legend(kinds.values(), kinds.keys(), loc="upper right", fontsize="small")
    axes[-1, 0].set_xlabel("packet")
    axes[-1, 0].set_xlim(1, max(last, 2))
    figure.tight_layout()
    figure.savefig(given.picture)
    return 0


def picture(name):
    if os.path.splitext(name)[1] not in (".png", ".svg"):
        raise ValueError
    return name


if __name__ == "__main__":
    words = helper_words.reader(__doc__)
    words.add_argument("records", metavar="RECORDS", help="what decode or live printed")
    words.add_argument("picture", metavar="PICTURE", type=picture, help="a .png or .svg")
    words.add_argument("names", metavar="NAME", nargs="+", help="parameters")
    helper_words.run(words, main)
