#!/usr/bin/env python3
"""Runs all blocks of commands of docs/TUTORIAL.md one behind the other, in `sh`, dash and bash, and looks for each line that the page shows.

    checks/tutorial.py PROGRAM BOARD

Each runs in a copy of the samples, tools and checks with the programs, mibtm and live_board, where `rt run` leaves them. A line of a block of text has to stand in
what was printed or written, and a line `command   # words` has to print these words where they are a fault's. The files that are left are those that the page
takes away. The helpers run by the python3 that runs this check, which needs Debian's matplotlib and rich: /usr/bin/python3 has them.
"""
import os
import re
import shutil
import subprocess
import sys
import tempfile

TOP = os.path.dirname(os.path.dirname(os.path.abspath(__file__)))
SECONDS = 300
COPIED = ("samples", "tools", "checks", "docs")


def main():
    with open(f"{TOP}/docs/TUTORIAL.md", encoding="utf-8") as page:
        text = page.read()
    script = "".join(re.findall(r"^ *```sh\n(.*?)^ *```", text, re.M | re.S))
    shown = [it.strip() for block in re.findall(r"^ *```text\n(.*?)^ *```", text, re.M | re.S) for it in block.splitlines() if it.strip() not in ("", "..")]
    shown += re.findall(r"# (BADMIB .*)$|# (TEMP .*)$", text, re.M) and [a or b for a, b in re.findall(r"# (BADMIB .*)$|# (TEMP .*)$", text, re.M)]
    wrong = 0
    environment = {**os.environ, "PATH": f"{os.path.dirname(sys.executable)}:{os.environ['PATH']}"}
    for shell in ("sh", "dash", "bash"):
        with tempfile.TemporaryDirectory() as folder:
            for name in COPIED:
                shutil.copytree(f"{TOP}/{name}", f"{folder}/{name}")
            for name, program in zip(("mibtm", "live_board", "desk_panel"), sys.argv[1:]):
                os.makedirs(f"{folder}/crates/{name}/out")
                shutil.copy(program, f"{folder}/crates/{name}/out/{name}")
            with open(f"{folder}/script", "w", encoding="utf-8") as file:
                file.write(script)
            before = {os.path.join(at, it) for at, _, files in os.walk(folder) for it in files}
            done = subprocess.run([shell, "script"], cwd=folder, env=environment, stdout=subprocess.PIPE, stderr=subprocess.STDOUT, stdin=subprocess.DEVNULL, timeout=SECONDS)
            found = done.stdout.decode("latin-1")
            for at, _, files in os.walk(folder):
                for it in files:
                    if os.path.join(at, it) not in before:
                        with open(os.path.join(at, it), "rb") as file:
                            found += file.read().decode("latin-1")
            lines = {it.strip() for it in found.splitlines()}
            missing = [it for it in shown if it not in lines]
            left = {it for it in os.listdir(folder) if it not in (*COPIED, "crates", "script")}
            if left != set(re.search(r"`rm -r ([^`]*)`", text)[1].split()):
                missing.append(f"files that are left: {' '.join(sorted(left))}")
            wrong += len(missing) + ("differ" in found) + ("Traceback" in found)
            print(f"{shell}: {len(shown)} lines are shown, {len(missing)} of them missing", *missing, sep="\n  ")
    return 1 if wrong else 0


if __name__ == "__main__":
    sys.exit(main())
