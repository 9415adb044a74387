"""Several desks over one register, written from docs/FORMATS.md: from the scripts of a panel, its printed records and all replies it finds one order of
the desks' lines and of the packets that they allow, and then what the panel has to print."""
import copy
import re

import live_reference
import reference
from live_reference import MOST_EDITIONS, Differs, touched

HEAD = re.compile(r"(EDITION|PKT) (\d+)")
MAY_WANT = ("put", "del", "save", "drop", "use", "take")  # want of memory changes nothing


class Panelist(live_reference.Desk):
    """Follows a script by its replies: `entries` are those of its lines, in their order, and `prelude` is how many stand up to the first `go`.
    The tables of an edition that another desk saved are waited for."""

    def __init__(self, tables, editions):
        super().__init__(tables, 0)
        self.editions, self.entries, self.prelude, self.waits = editions, [], None, None

    def save(self, reply):
        if reply.startswith("UNSOUND "):
            return
        word, *rest = reply.split()
        if word == "SAVED":
            new = int(rest[0])
            self.expect(reply, "SAVED %d PLANS %d" % (new, touched(self.editions[self.base], self.draft)))
            if new in self.editions:
                raise Differs("%r twice" % reply)
            self.entries.append(("saved", self.base, new))
            self.editions[new], self.base = copy.deepcopy(self.draft), new
        elif word == "STALE":
            self.entries.append(("stale", self.base, int(rest[0])))
        else:
            self.expect(reply, "FULL EDITIONS 64")
            self.entries.append(("full", self.base, MOST_EDITIONS))

    def take(self, reply):
        """Has the tables of the newest edition, once they are there."""
        found = re.fullmatch(r"TOOK (\d+)", reply)
        if not found:
            raise Differs("%r to a take" % reply)
        self.base = int(found[1])
        self.entries.append(("took", self.base))
        while self.base not in self.editions:
            yield self.base
        self.draft = copy.deepcopy(self.editions[self.base])

    def use(self, edition, start, reply):
        self.entries.append(("use", edition if edition < 1 << 32 else 0, start, reply))

    def run(self, script, replies):
        """Handles the script; stops at each edition whose tables aren't there yet."""
        replies = iter(replies)
        for line in script:
            bare = line.removesuffix("\r")
            if bare == "" or bare.startswith("#"):
                continue
            reply = next(replies, "no reply")
            if reply == "WANT" and bare.split(" ")[0] in MAY_WANT:
                continue
            if bare == "take":
                yield from self.take(reply)
            else:
                self.line(line, iter([reply]))
            if self.gone and self.prelude is None:
                self.prelude = len(self.entries)
        if self.prelude is None:
            self.prelude = len(self.entries)
        if next(replies, None) is not None:
            raise Differs("replies to no line")


def followed(tables, scripts, replies):
    """The desks of a panel, each behind all of its lines, and all editions."""
    editions = {1: tables}
    desks = [Panelist(tables, editions) for _ in scripts]
    runs = [desk.run(script, told) for desk, script, told in zip(desks, scripts, replies)]
    waits = dict.fromkeys(range(len(runs)))
    while waits:
        before, count = dict(waits), len(editions)
        for at in list(waits):
            try:
                waits[at] = next(runs[at])
            except StopIteration:
                del waits[at]
        if waits == before and len(editions) == count:
            raise Differs("an edition that nobody saved: %s" % sorted(waits.values()))
    return desks, editions


def changes_nothing(entry):
    """Whether an entry leaves the register as it is, wherever it stands."""
    return entry[0] in ("took", "stale", "full") or entry[0] == "use" and not entry[3].startswith("USED")


class History:
    """Looks for an order of all entries and of the packets. A place in it is how far each desk is, the number of the next packet, and the schedule."""

    def __init__(self, desks, shown):
        self.entries = [desk.entries for desk in desks]
        self.preludes = [desk.prelude for desk in desks]
        self.shown = shown  # the edition of each packet, by its record
        numbers = {1, len(shown) + 1}
        for entry in (entry for entries in self.entries for entry in entries if entry[0] == "use"):
            numbers |= {int(word) + more for word in entry[3].split() if word.isdigit() for more in (0, 1)}
        self.stops = sorted(n for n in numbers if n <= len(shown) + 1)

    def after(self, entry, number, count, schedule):
        """The count of editions and the schedule behind an entry, or None where its reply isn't the register's here."""
        kind, *rest = entry
        if kind == "took":
            return (count, schedule) if rest[0] == count else None
        if kind in ("saved", "stale", "full"):
            base, told = rest
            if kind == "saved":
                return (told, schedule) if base == count == told - 1 and count < MOST_EDITIONS else None
            fits = told == count and (base != count if kind == "stale" else base == count)
            return (count, schedule) if fits else None
        desk = live_reference.Desk.__new__(live_reference.Desk)
        desk.editions, desk.schedule = range(count), schedule
        edition, start, reply = rest
        if desk.use_reply(number, edition, start) != reply:
            return None
        if not reply.startswith("USED"):
            return count, schedule
        begin = number if start is None else start
        kept = tuple(p for p in schedule if p[0] < number) if start is None else schedule
        return count, kept + ((begin, edition),)

    def stamped(self, number, until, schedule):
        """Whether the packets from a number on, up to another, were stamped by this schedule."""
        return all(self.shown[n - 1] == [e for start, e in schedule if start <= n][-1] for n in range(number, until))

    def steps(self, place):
        """The places behind this one. An entry that changes nothing comes at once."""
        at, number, count, schedule = place
        early = next((j for j, entries in enumerate(self.entries) if at[j] < self.preludes[j]), None)
        found = []
        for j in range(len(at)) if early is None else [early]:
            if at[j] == len(self.entries[j]):
                continue
            behind = self.after(self.entries[j][at[j]], number, count, schedule)
            if behind is not None:
                step = (at[:j] + (at[j] + 1,) + at[j + 1:], number, *behind)
                if changes_nothing(self.entries[j][at[j]]):
                    return [step]
                found.append(step)
        if early is None and number <= len(self.shown):
            until = next(n for n in self.stops if n > number)
            if self.stamped(number, until, schedule):
                found.append((at, until, count, schedule))
        return found

    def is_there(self):
        """Whether there is an order in which each reply is the register's and each packet has its edition."""
        first = (tuple(0 for _ in self.entries), 1, 1, ((0, 1),))
        places, seen = [first], {first}
        ends = tuple(map(len, self.entries))
        while places:
            at, number, _, _ = place = places.pop()
            if at == ends and number == len(self.shown) + 1:
                return True
            fresh = [step for step in self.steps(place) if step not in seen]
            seen.update(fresh)
            places += fresh
        return False


def shown_in(text):
    """The edition of each packet by the lines of an output."""
    shown, edition = [], 1
    for word, number in (found.groups() for found in map(HEAD.match, text.splitlines()) if found):
        if word == "EDITION":
            edition = int(number)
        else:
            shown.append(edition)
    return shown


def replies_of(told, desks):
    """The replies of each desk without its number, and the other lines."""
    replies, others = [[] for _ in range(desks)], []
    for line in told.splitlines():
        found = re.fullmatch(r"DESK ([1-9]\d*) (.*)", line)
        if found and int(found[1]) <= desks:
            replies[int(found[1]) - 1].append(found[2])
        else:
            others.append(line)
    return replies, others


def why(tables, octets, scripts, replies, text):
    """Why these replies and this text aren't those of a panel over these scripts, or None."""
    packets, _ = reference.cut(octets)
    shown = shown_in(text)
    if len(shown) != len(packets):
        return "%d records of %d packets" % (len(shown), len(packets))
    try:
        desks, editions = followed(tables, scripts, replies)
    except Differs as differs:
        return str(differs)
    if any(edition not in editions for edition in shown):
        return "an edition that nobody saved"
    if reference.output(editions, lambda number: shown[number - 1], octets) != text:
        return "the records"
    return None if History(desks, shown).is_there() else "no order of lines and packets has these replies"
