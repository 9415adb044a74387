"""Pages as they come on standard error of `live_board`, between the replies of its desk.

None of this is part of what is proved.
"""
import collections
import os
import re
import select
import threading
import time

HEAD = re.compile(r"PAGE (\d+) EDITION (\d+)")
CELL = re.compile(r"  (\S+) (-?\d+|-) (HARD|STATUS|DELTA|SOFT|-)")
MOST_SAID = 6
PAUSE = 0.1  # seconds without octets behind which a page is taken as whole

Cell = collections.namedtuple("Cell", "name raw kind")
Page = collections.namedtuple("Page", "packet edition cells")


class Pages:
    """The last whole page, the one before it, and the last other lines. A page is whole with as many cells as the one before, at the head of the next
    one, behind a pause and at the end."""

    def __init__(self):
        self.page, self.before, self.said = None, None, collections.deque(maxlen=MOST_SAID)
        self.count, self.ended, self.came = 0, False, None
        self.begun, self.rest, self.lock = None, b"", threading.Lock()

    def close(self):
        if self.begun:
            self.page, self.before, self.begun = self.begun, self.page, None
            self.count, self.came = self.count + 1, time.monotonic()

    def line(self, text):
        head, cell = HEAD.fullmatch(text), CELL.fullmatch(text)
        if head:
            self.close()
            self.begun = Page(int(head[1]), int(head[2]), [])
        elif cell and (self.begun or self.page):
            (self.begun or self.page).cells.append(Cell(*cell.groups()))
        elif text:
            self.said.append(text)
        if self.begun and self.page and len(self.begun.cells) == len(self.page.cells):
            self.close()

    def take(self, octets):
        *lines, self.rest = (self.rest + octets).split(b"\n")
        for it in lines:
            self.line(it.decode("latin-1"))

    def pause(self):
        if not self.rest:
            self.close()

    def end(self):
        if self.rest:
            self.said.append(self.rest.decode("latin-1"))
        self.close()
        self.ended = True

    def state(self):
        return "ended" if self.ended else "live" if self.page else "waiting"

    def changed(self):
        """The names whose raw numbers aren't those of the page before."""
        old = {it.name: it.raw for it in self.before.cells} if self.before else {}
        return {it.name for it in self.page.cells if old.get(it.name, it.raw) != it.raw} if self.page else set()


def followed(pages, stream):
    """Takes octets as they come, and yields behind each piece and each pause, up to the end."""
    while not pages.ended:
        octets = os.read(stream, 1 << 16) if select.select([stream], [], [], PAUSE)[0] else None
        with pages.lock:
            if octets is None:
                pages.pause()
            elif octets:
                pages.take(octets)
            else:
                pages.end()
        yield
