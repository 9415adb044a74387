#!/usr/bin/env python3
"""Shows the pages of a live run as a table that is drawn anew: in a terminal, or with --web in a browser on this machine.

    receiver | live_board board MIB - DESK PAGE 2>&1 > RECORDS | tools/show_pages.py
    receiver | live_board board MIB - DESK PAGE 2>&1 > RECORDS | tools/show_pages.py --web 8080

Replies of the desk and the line of the status stand below the table. Where the output is no terminal, the last page is written once. The page in
a browser is at http://127.0.0.1:PORT/, from this machine alone, and stays behind the end of the run until the viewer is ended (Ctrl-C). Not each
packet has a page: the last one does. Needs Debian's python3-rich, and for --web python3-flask and python3-waitress. Not part of what is proved.
"""
import math
import os
import sys
import threading
import time

import helper_words
import pages

COLOURS = {"HARD": "bold white on red", "STATUS": "bold white on magenta", "DELTA": "bold black on dark_orange", "SOFT": "bold black on yellow", "-": "dim"}
CHIPS = {"waiting": ("bold black on bright_white", "WAITING"), "live": ("bold black on green", "LIVE"), "ended": ("bold white on grey37", "ENDED")}
HERE = os.path.dirname(os.path.abspath(__file__))
EACH = 0.1  # seconds from one drawing to the next, at least
LEAST, GAPS, ABOVE = 8, 9, 4  # columns of a number or a class at least, and between them; lines above the rows of a block
LOCAL = ("127.0.0.1", "localhost")


def needs(package, fault):
    sys.exit(f"this python3 has no {fault.name}: with Debian's {package}, /usr/bin/python3 tools/show_pages.py ..")


# ---- a terminal

def header(text, shown):
    style, word = CHIPS[shown.state()]
    line = text.Text.assemble((f" {word} ", style))
    if shown.page:
        line.append(f"  packet {shown.page.packet}", "bold").append(f"   edition {shown.page.edition}")
        line.append(f"   {shown.count} page{'s' * (shown.count != 1)} seen", "dim")
        for kind in COLOURS:
            number = sum(it.kind == kind for it in shown.page.cells)
            if number and kind != "-":
                line.append("  ").append(f" {number} {kind} ", COLOURS[kind])
    elif shown.ended:
        line.append("  no page came")
    else:
        line.append("  for the first page")
    return line


def block(rich, cells, changed):
    """A table of some names."""
    table = rich.table.Table(box=rich.box.SIMPLE_HEAD, padding=(0, 1), pad_edge=False, header_style="dim")
    table.add_column("name", no_wrap=True)
    table.add_column("raw", justify="right", no_wrap=True, min_width=LEAST)
    table.add_column("class", no_wrap=True, min_width=LEAST)
    for it in cells:
        raw = ("\N{EN DASH}", "dim") if it.raw == "-" else (it.raw, "bold" if it.name in changed else "")
        kind = " \N{EN DASH}" if it.kind == "-" else f" {it.kind} "
        table.add_row(it.name, rich.text.Text(*raw), rich.text.Text(kind, COLOURS[it.kind]))
    return table


def drawing(rich, shown, width, height):
    """The header, the names in as many blocks as their rows need, and the last lines of the desk."""
    parts, changed = [header(rich.text, shown)], shown.changed()
    cells = shown.page.cells if shown.page else []
    rows = max(1, height - ABOVE - len(shown.said) - 2)
    wide = max((len(it.name) for it in cells), default=0) + max([LEAST, *(len(it.raw) for it in cells)]) + LEAST + GAPS
    blocks = min(max(1, width // wide), math.ceil(len(cells) / rows)) or 1
    rows = min(rows, math.ceil(len(cells) / blocks))
    if cells:
        grid = rich.table.Table.grid(padding=(0, 3))
        grid.add_row(*[block(rich, cells[at : at + rows], changed) for at in range(0, min(len(cells), rows * blocks), rows)])
        parts.append(grid)
    elif shown.page:
        parts.append(rich.text.Text("  the page has no names", "dim"))
    if len(cells) > rows * blocks:
        parts.append(rich.text.Text(f"  {len(cells) - rows * blocks} more names don't fit here", "yellow"))
    return rich.console.Group(*parts, *[rich.text.Text(f"\N{BOX DRAWINGS LIGHT VERTICAL} {it}", "cyan") for it in shown.said])


def in_terminal(shown, stream):
    try:
        import rich.box
        import rich.console
        import rich.live
        import rich.table
        import rich.text
    except ModuleNotFoundError as fault:
        needs("python3-rich", fault)
    console = rich.console.Console(highlight=False)
    if not console.is_terminal:
        for _ in pages.followed(shown, stream):
            pass
        console.print(drawing(rich, shown, console.width, 100))
        return
    with rich.live.Live(console=console, auto_refresh=False) as live:
        drawn = 0
        for _ in pages.followed(shown, stream):
            if shown.ended or time.monotonic() - drawn >= EACH:
                live.update(drawing(rich, shown, *console.size), refresh=True)
                drawn = time.monotonic()


# ---- a browser

def told(shown):
    """What the page in a browser is drawn of."""
    with shown.lock:
        changed = shown.changed()
        page = shown.page and {"packet": shown.page.packet, "edition": shown.page.edition, "cells": [[*it, it.name in changed] for it in shown.page.cells]}
        age = None if shown.came is None else round(time.monotonic() - shown.came, 1)
        return {"state": shown.state(), "count": shown.count, "age": age, "page": page, "said": list(shown.said)}


def application(flask, shown):
    """Answers this machine alone, whatever name a browser calls it by."""
    app = flask.Flask("show_pages", static_folder=f"{HERE}/page_view", static_url_path="/view")

    @app.before_request
    def is_local():
        if flask.request.host.rsplit(":", 1)[0] not in LOCAL:
            flask.abort(403)

    @app.after_request
    def is_plain(answer):
        answer.headers["Content-Security-Policy"] = "default-src 'self'"
        answer.headers["Cache-Control"] = "no-store"
        return answer

    @app.get("/")
    def page():
        return app.send_static_file("page.html")

    @app.get("/state")
    def state():
        return told(shown)

    return app


def in_browser(shown, stream, port):
    try:
        import flask
        import waitress
    except ModuleNotFoundError as fault:
        needs("python3-flask and python3-waitress", fault)
    server = waitress.create_server(application(flask, shown), host=LOCAL[0], port=port)

    def follow():
        for _ in pages.followed(shown, stream):
            pass

    threading.Thread(target=follow, daemon=True).start()
    print(f"http://{LOCAL[0]}:{server.effective_port}/", file=sys.stderr, flush=True)
    server.run()


def main(given):
    with open(given.file, "rb") if given.file != "-" else sys.stdin.buffer as file:
        if given.web is None:
            in_terminal(pages.Pages(), file.fileno())
        else:
            in_browser(pages.Pages(), file.fileno(), given.web)
    return 0


def port(text):
    if not 0 <= int(text) < 65536:
        raise ValueError
    return int(text)


if __name__ == "__main__":
    words = helper_words.reader(__doc__)
    words.add_argument("file", metavar="FILE", nargs="?", default="-", help="where pages are read, - or nothing for standard input")
    words.add_argument("--web", metavar="PORT", type=port, help="show them in a browser, at this port of 127.0.0.1 (0: a free one, which is told)")
    helper_words.run(words, main)
