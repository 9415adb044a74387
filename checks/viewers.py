#!/usr/bin/env python3
"""Checks tools/show_pages.py: pages that come in pieces, what it tells where none comes, a terminal with and without room, and a page in a browser, as it
waits, goes on and has ended.

    checks/viewers.py

The browser is Debian's chromium, without a window; the helper runs by the python3 that runs this check, which needs Debian's rich, flask and waitress:
/usr/bin/python3 has them.
"""
import fcntl
import json
import os
import pty
import re
import socket
import struct
import subprocess
import sys
import termios
import time
import urllib.error
import urllib.request

TOP = os.path.dirname(os.path.dirname(os.path.abspath(__file__)))
sys.path.insert(0, f"{TOP}/tools")
import pages  # noqa: E402

VIEWER = [sys.executable, f"{TOP}/tools/show_pages.py"]
TEXT = b"REPLACED\nGO\nPAGE 7 EDITION 1\n  T1 500 -\n  NOPE - -\nUSED 2 FROM 9\nPAGE 12 EDITION 2\n  T1 18446744073709551615 SOFT\n  NOPE - -\nCUT 3\n"
SEEN = pages.Page(12, 2, [pages.Cell("T1", "18446744073709551615", "SOFT"), pages.Cell("NOPE", "-", "-")])
SECONDS = 60


def many(packet, names=64):
    return b"PAGE %d EDITION 1\n" % packet + b"".join(b"  NAME_%02d %d %s\n" % (at, at * packet, (b"-", b"HARD", b"STATUS", b"DELTA")[at % 4]) for at in range(names))


def pieces_make_the_same_page():
    for cut in range(len(TEXT) + 1):
        shown = pages.Pages()
        for piece in (TEXT[:cut], TEXT[cut:]):
            shown.take(piece)
            shown.pause()
        shown.end()
        if (shown.page, shown.count, list(shown.said), shown.changed()) != (SEEN, 2, ["REPLACED", "GO", "USED 2 FROM 9", "CUT 3"], {"T1"}):
            return f"cut at {cut}: {shown.page} {shown.count} {shown.said}"
    return None


def printed(octets):
    done = subprocess.run(VIEWER, input=octets, stdout=subprocess.PIPE, stderr=subprocess.STDOUT, timeout=SECONDS)
    return done.stdout.decode() if done.returncode == 0 else f"status {done.returncode}"


def what_is_no_terminal_gets_the_last_page():
    cases = [(b"", ["ENDED", "no page came"]), (b"BADPAGE 2\n", ["no page came", "BADPAGE 2"]), (b"PAGE 3 EDITION 1\n", ["packet 3", "the page has no names"]),
             (TEXT, ["packet 12", "edition 2", "2 pages seen", "1 SOFT", "18446744073709551615", "NOPE", "CUT 3"]), (many(5), ["NAME_00", "NAME_63", "16 HARD"])]
    return next((f"{octets[:30]}: {found}" for octets, words in cases for found in [printed(octets)] if any(it not in found for it in words)), None)


def on_terminal(octets, lines, columns):
    """The last drawing on a terminal of this size."""
    side, other = pty.openpty()
    fcntl.ioctl(other, termios.TIOCSWINSZ, struct.pack("HHHH", lines, columns, 0, 0))
    environment = {**os.environ, "TERM": "xterm-256color"}
    environment.pop("COLUMNS", None), environment.pop("LINES", None)
    with subprocess.Popen(VIEWER, stdin=subprocess.PIPE, stdout=other, env=environment) as run:
        os.close(other)
        run.stdin.write(octets)
        run.stdin.close()
        found = b""
        while True:
            try:
                piece = os.read(side, 65536)
            except OSError:
                break
            found += piece
    os.close(side)
    return re.split(rb"ENDED|LIVE|WAITING", found)[-1].decode()


def a_terminal_gets_what_fits():
    wide, narrow = on_terminal(many(5), 30, 120), on_terminal(many(5), 24, 40)
    if "NAME_63" not in wide or "don't fit" in wide or "\x1b[1;37;41m HARD" not in wide:
        return f"a wide terminal: {wide!r}"
    left = re.search(r"(\d+) more names don't fit here", narrow)
    names = len(set(re.findall(r"NAME_\d+", narrow)))
    return None if left and names + int(left[1]) == 64 else f"a narrow terminal: {names} names, {narrow!r}"


def asked(port, host=None):
    request = urllib.request.Request(f"http://127.0.0.1:{port}/state", headers={"Host": host} if host else {})
    with urllib.request.urlopen(request, timeout=SECONDS) as answer:
        return json.load(answer)


def dumped(port):
    """The text of the page as a browser has drawn it."""
    words = ["chromium", "--headless", "--no-sandbox", "--disable-gpu", "--virtual-time-budget=2000", "--dump-dom", f"http://127.0.0.1:{port}/"]
    done = subprocess.run(words, stdout=subprocess.PIPE, stderr=subprocess.DEVNULL, timeout=SECONDS)
    return re.sub(r"<[^>]*>", " ", done.stdout.decode())


def why_browser(port, run):
    """Why a browser isn't shown what comes, or None."""
    if asked(port)["state"] != "waiting" or "No page has come yet." not in dumped(port):
        return "a page that waits"
    for packet, wanted in ((5, "NAME_63"), (6, "378")):
        run.stdin.write(many(packet))
        run.stdin.flush()
        time.sleep(0.5)
        drawn = dumped(port)
        if asked(port)["page"]["packet"] != packet or wanted not in drawn or " live " not in drawn:
            return f"packet {packet}: {drawn}"
    run.stdin.write(b"<i>\n")
    run.stdin.close()
    time.sleep(0.5)
    if asked(port)["state"] != "ended" or " ended " not in dumped(port) or "&lt;i&gt;" not in dumped(port):
        return f"a run that has ended: {dumped(port)}"
    try:
        return f"another host is answered: {asked(port, 'elsewhere.example')}"
    except urllib.error.HTTPError as refused:
        return None if refused.code == 403 else f"another host: {refused.code}"


def a_browser_is_shown_what_comes():
    with subprocess.Popen([*VIEWER, "--web", "0"], stdin=subprocess.PIPE, stderr=subprocess.PIPE) as run:
        try:
            port = int(re.search(rb":(\d+)/", run.stderr.readline())[1])
            found = why_browser(port, run)
            with socket.socket() as other:
                other.settimeout(5)
                if not found and other.connect_ex(("127.0.0.2", port)) == 0:
                    return "another address is answered"
            return found
        finally:
            run.terminate()


def main():
    checks = [pieces_make_the_same_page, what_is_no_terminal_gets_the_last_page, a_terminal_gets_what_fits, a_browser_is_shown_what_comes]
    wrong = [f"{it.__name__}: {why}" for it in checks for why in [it()] if why]
    print(*wrong, f"{len(checks)} checks of the viewer, {len(wrong)} wrong", sep="\n")
    return 1 if wrong else 0


if __name__ == "__main__":
    sys.exit(main())
