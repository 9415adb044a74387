#!/usr/bin/env python3
"""Checks tools/replay_archive.py on this machine: 200 recordings by two MIBs, of which one is in use until a time; workers are killed
in the middle, and the call is made again. Each recording's records are what `decode` prints of it, none is lost or doubled. Then, of
six recordings, a table is changed, records are touched and a recording comes in front: the next call does these again, and them alone.

    checks/archives.py PROGRAM [parallel|slurm] [RECORDINGS]
"""
import json
import os
import random
import signal
import subprocess
import sys
import tempfile
import time

import random_missions

TOOL = os.path.join(os.path.dirname(os.path.abspath(__file__)), "..", "tools", "replay_archive.py")


def made(folder, count):
    """Recordings of a mission whose tables change in the middle; the folder of tables of each."""
    old = random_missions.Mission(random.Random(11))
    new = random_missions.Mission(random.Random(11))
    new.tables["tpcf"] = [[row[0], "RENAMED"] for row in new.tables["tpcf"]]
    random_missions.write_folder(f"{folder}/old", old.tables)
    random_missions.write_folder(f"{folder}/new", new.tables)
    os.mkdir(f"{folder}/recordings")
    tables = {}
    for number in range(count):
        name = f"2026-{1 + number // 20:02}-{1 + number % 20:02}"
        with open(f"{folder}/recordings/{name}", "wb") as file:
            file.write(old.feed(60))
        tables[name] = f"{folder}/{'old' if name < '2026-06' else 'new'}"
    with open(f"{folder}/ranges", "w", encoding="utf-8") as file:
        file.write(f"2026-01 2026-06 {folder}/old\n2026-06 2027 {folder}/new\n")
    return tables


def called(engine, folder, out, environment):
    """Plans and does; the status of the second call, and what it told on standard error, which is no terminal."""
    subprocess.run([sys.executable, TOOL, "plan", f"{folder}/recordings", f"{folder}/ranges", out], check=True, stdout=subprocess.DEVNULL)
    done = subprocess.run([sys.executable, TOOL, engine, out], env=environment, stdout=subprocess.DEVNULL, stderr=subprocess.PIPE)
    return done.returncode, done.stderr


def differ(program, folder, out, tables):
    """The recordings whose records aren't what `decode` prints."""
    wrong = []
    for name, folder_of in tables.items():
        wanted = subprocess.run([program, "decode", folder_of, f"{folder}/recordings/{name}"], stdout=subprocess.PIPE, stderr=subprocess.DEVNULL).stdout
        try:
            with open(f"{out}/{name}.records", "rb") as file:
                found = file.read()
            with open(f"{out}/{name}.done", encoding="utf-8") as file:
                wrong += [] if found == wanted and json.load(file)["packets"] == wanted.count(b"PKT ") else [name]
        except OSError:
            wrong.append(name)
    return wrong


def after_changes(program, engine, environment, folder):
    """What is wrong behind a changed table, touched records and a recording that comes in front of all others."""
    tables, out, wrong = made(folder, 6), f"{folder}/out", []
    half = list(tables)[3:]
    with open(f"{folder}/ranges", "w", encoding="utf-8") as file:
        file.write(f"2025 {half[0]} {folder}/old\n{half[0]} 2027 {folder}/new\n")
    tables = {name: f"{folder}/{'new' if name in half else 'old'}" for name in tables}
    status, said = called(engine, folder, out, environment)
    wrong += [f"{engine}: {status}, {said}"] if status or said else []
    before = {it: os.stat(f"{out}/{it}").st_mtime_ns for it in os.listdir(out) if it.endswith(".done")}
    with open(f"{folder}/new/tpcf.dat", "r+b") as file:
        octets = file.read().replace(b"RENAMED", b"RENAMED AGAIN")
        file.seek(0)
        file.write(octets)
    with open(f"{out}/{list(tables)[1]}.records", "ab") as file:
        file.write(b"PKT 61\n")
    with open(f"{folder}/recordings/{list(tables)[0]}", "rb") as file, open(f"{folder}/recordings/2025-12", "wb") as front:
        front.write(file.read())
    tables["2025-12"] = f"{folder}/old"
    status, said = called(engine, folder, out, environment)
    wrong += [f"{engine} again: {status}, {said}"] if status or said else []
    wrong += differ(program, folder, out, tables)
    done_again = {it.removesuffix(".done") for it, at in before.items() if os.stat(f"{out}/{it}").st_mtime_ns != at}
    return wrong + ([] if done_again == {*half, list(tables)[1]} else [f"done again: {sorted(done_again)}"])


def main():
    program, engine, count = os.path.abspath(sys.argv[1]), (sys.argv[2:] or ["parallel"])[0], int((sys.argv[3:] or ["200"])[0])
    environment = {**os.environ, "MIBTM": program}
    with tempfile.TemporaryDirectory() as folder:
        os.chmod(folder, 0o755)
        tables, out = made(folder, count), f"{folder}/out"
        call = [sys.executable, TOOL, engine, out, *(["--jobs", "4"] if engine == "parallel" else [])]
        subprocess.run([sys.executable, TOOL, "plan", f"{folder}/recordings", f"{folder}/ranges", out], check=True)
        first = subprocess.Popen(call, env=environment, stdout=subprocess.DEVNULL, stderr=subprocess.DEVNULL, start_new_session=True)
        while sum(it.endswith(".done") for it in os.listdir(out)) < count // 3:
            time.sleep(0.1)
        victims = subprocess.run(["pgrep", "-f", f"replay_archive.py one {out}"], stdout=subprocess.PIPE, text=True).stdout.split()
        for it in victims[:2]:
            os.kill(int(it), signal.SIGKILL)
        time.sleep(0.3)
        if engine == "parallel":
            os.killpg(first.pid, signal.SIGKILL)
        first.wait()
        before = {it: os.stat(f"{out}/{it}").st_mtime_ns for it in os.listdir(out) if it.endswith(".done")}
        again = subprocess.run(call, env=environment, stdout=subprocess.PIPE, stderr=subprocess.DEVNULL, text=True)
        print(again.stdout.strip().splitlines()[0])
        wrong = differ(program, folder, out, tables)
        print(*[f"{name} differs" for name in wrong], sep="\n", end="\n" if wrong else "")
        done_again = sum(os.stat(f"{out}/{it}").st_mtime_ns != at for it, at in before.items())
        print(f"{engine}: {len(tables)} recordings, {len(victims[:2])} workers killed, {len(before)} done before, {done_again} of them again, {len(wrong)} wrong")
        with tempfile.TemporaryDirectory() as other:
            os.chmod(other, 0o755)
            changes = after_changes(program, engine, environment, other)
        print(*changes, f"behind changes: {len(changes)} wrong", sep="\n")
        sys.exit(1 if wrong or changes or again.returncode or done_again or not victims or len(before) == count else 0)


if __name__ == "__main__":
    main()
