#!/usr/bin/env python3
"""Decodes an archive of recordings anew, by the MIB of each one's time, with many workers on one or many machines.

    tools/replay_archive.py plan RECORDINGS RANGES OUT     what is to do: one job for each file of the folder RECORDINGS
    tools/replay_archive.py parallel OUT [WORD ..]         does it by GNU parallel; words go to it, as --jobs 8 or --sshlogin a,b
    tools/replay_archive.py slurm OUT [WORD ..]            does it by an array of jobs of Slurm; words go to sbatch
    tools/replay_archive.py one OUT NUMBER                 one job, as both engines call it
    tools/replay_archive.py summary OUT                    what came of it; status 0 where each recording is decoded and stands as it was

RANGES has lines of FROM, TO and a folder of tables, parted by spaces; a recording belongs to the first line whose FROM is not after
its name and whose TO is after it, as texts (so names begin with their time, as 2026-11-30T07). OUT is on a disk that all machines
share. A job writes NAME.records and, once that is whole, NAME.done with the checksums of recording, tables and records; one whose
NAME.done fits is not done again, so any call may be repeated. A bar with the time left is shown on a terminal alone. The program is `mibtm` of the path, or MIBTM. None of this is part of
what is proved; each recording is one run of `mibtm decode`, with no memory of the one before.
"""
import argparse
import hashlib
import json
import os
import shutil
import subprocess
import sys
import time

import helper_words


def sum_of_file(path):
    sum = hashlib.sha256()
    with open(path, "rb") as it:
        for piece in iter(lambda: it.read(1 << 20), b""):
            sum.update(piece)
    return sum.hexdigest()


def sum_of_tables(folder):
    """One checksum for all tables of a folder, by their names and octets."""
    sum = hashlib.sha256()
    for name in sorted(it for it in os.listdir(folder) if it.endswith(".dat")):
        sum.update(f"{name} {sum_of_file(os.path.join(folder, name))}\n".encode())
    return sum.hexdigest()


def jobs_of(out):
    with open(f"{out}/jobs.json", encoding="utf-8") as it:
        return json.load(it)


def plan(recordings, ranges, out):
    with open(ranges, encoding="utf-8") as it:
        spans = [line.split(None, 2) for line in it.read().splitlines() if line.strip()]
    jobs, lost = [], []
    for name in sorted(os.listdir(recordings)):
        folder = next((it for begun, ended, it in spans if begun <= name < ended), None)
        if folder is None:
            lost.append(name)
        else:
            jobs.append({"name": name, "recording": os.path.abspath(f"{recordings}/{name}"), "tables": os.path.abspath(folder)})
    os.makedirs(out, exist_ok=True)
    with open(f"{out}/jobs.json", "w", encoding="utf-8") as it:
        json.dump(jobs, it, indent=1)
    print(f"{len(jobs)} recordings")
    if lost:
        sys.exit(f"no range has {len(lost)} of the recordings, the first of which is {lost[0]}")


def is_done(out, job):
    """Whether the records stand, and were made of this recording by these tables."""
    try:
        with open(f"{out}/{job['name']}.done", encoding="utf-8") as it:
            done = json.load(it)
        return done if (done["recording"], done["tables"], done["records"]) == (
            sum_of_file(job["recording"]), sum_of_tables(job["tables"]), sum_of_file(f"{out}/{job['name']}.records")) else None
    except (OSError, ValueError, KeyError):
        return None


def one(out, number):
    """Decodes a recording. What is written in part has a name of this process, so that two workers of one job don't meet."""
    job = jobs_of(out)[int(number) - 1]
    if is_done(out, job):
        return 0
    part = f"{out}/{job['name']}.{os.uname().nodename}.{os.getpid()}.part"
    sums = {"recording": sum_of_file(job["recording"]), "tables": sum_of_tables(job["tables"])}
    try:
        with open(part, "wb") as records:
            ended = subprocess.run([os.environ.get("MIBTM", "mibtm"), "decode", job["tables"], job["recording"]], stdout=records, stderr=subprocess.PIPE)
        if ended.returncode not in (0, 5):
            print(f"{job['name']}: {ended.stderr.decode('latin-1').strip()}", file=sys.stderr)
            return 1
        count, alarms, unknown = counts_of(part)
        done = {**sums, "records": sum_of_file(part), "status": ended.returncode, "told": ended.stderr.decode("latin-1").strip(),
                "packets": count, "unknown": unknown, "alarms": alarms}
        os.replace(part, f"{out}/{job['name']}.records")
        with open(part, "w", encoding="utf-8") as it:
            json.dump(done, it)
        os.replace(part, f"{out}/{job['name']}.done")
        return 0
    finally:
        if os.path.exists(part):
            os.remove(part)


def counts_of(records):
    """The packets, the alarms by class, and the packets that are UNKNOWN."""
    packets, unknown, alarms = 0, 0, {}
    with open(records, "rb") as it:
        for line in it:
            if line.startswith(b"PKT "):
                packets += 1
                unknown += line.endswith(b" UNKNOWN\n")
            elif line.startswith(b"  ALARM ") and line.count(b" ") == 4:
                kind = line.split()[2].decode()
                alarms[kind] = alarms.get(kind, 0) + 1
    return packets, alarms, unknown


def engine(name):
    """The engine's program, or an end with the name of its package."""
    return shutil.which(name) or sys.exit(f"{name} isn't on the path (Debian: {'parallel' if name == 'parallel' else 'slurm-wlm'})")


def parallel(out, *words):
    """Each job is called at each call: which of them are done already is known to `one` alone."""
    number, shown = len(jobs_of(out)), ["--bar", "--eta"] if sys.stderr.isatty() else []
    call = [engine("parallel"), "--will-cite", *shown, "--joblog", f"{out}/log", "--retries", "2", *words,
            sys.executable, os.path.abspath(__file__), "one", os.path.abspath(out), "{}"]
    done = subprocess.run(call, input="".join(f"{it}\n" for it in range(1, number + 1)).encode())
    return max(summary(out), min(done.returncode, 1))


def slurm(out, *words):
    """One array of jobs; waits for its end with a line that tells how far it is."""
    number, begun = len(jobs_of(out)), time.time()
    step = f"{sys.executable} {os.path.abspath(__file__)} one {os.path.abspath(out)} $SLURM_ARRAY_TASK_ID"
    call = [engine("sbatch"), "--parsable", f"--array=1-{number}", "--requeue", f"--output={out}/slurm.%a", *words, "--wrap", step]
    array = subprocess.run(call, check=True, stdout=subprocess.PIPE, text=True).stdout.strip().split(";")[0]
    while subprocess.run(["squeue", "-h", "-j", array], stdout=subprocess.PIPE, stderr=subprocess.DEVNULL).stdout.strip():
        done = sum(it.endswith(".done") for it in os.listdir(out))
        rate = done / max(time.time() - begun, 1)
        left = f"{(number - done) / rate / 60:.0f} minutes left" if rate else ""
        if sys.stderr.isatty():
            print(f"\r{done} of {number} [{'#' * (40 * done // number):40}] {rate:.1f} a second {left}", end="", file=sys.stderr, flush=True)
        time.sleep(1)
    if sys.stderr.isatty():
        print(file=sys.stderr)
    return summary(out)


def summary(out):
    jobs = jobs_of(out)
    found = {job["name"]: is_done(out, job) for job in jobs}
    left = [name for name, it in found.items() if not it]
    done = [it for it in found.values() if it]
    alarms = {}
    for it in done:
        for kind, count in it["alarms"].items():
            alarms[kind] = alarms.get(kind, 0) + count
    print(f"{len(done)} of {len(jobs)} recordings, {sum(it['packets'] for it in done)} packets, {sum(it['unknown'] for it in done)} unknown")
    print("alarms: " + (", ".join(f"{count} {kind}" for kind, count in sorted(alarms.items())) or "none"))
    for name, it in found.items():
        if it and it["told"]:
            print(f"{name}: {it['told']}")
    for name in left:
        print(f"{name}: not decoded")
    return 1 if left else 0


CALLS = {"plan": (plan, "RECORDINGS", "RANGES", "OUT"), "one": (one, "OUT", "NUMBER"), "parallel": (parallel, "OUT"), "slurm": (slurm, "OUT"), "summary": (summary, "OUT")}


def reader():
    words = helper_words.reader(__doc__)
    calls = words.add_subparsers(required=True, metavar="|".join(CALLS))
    for name, (call, *places) in CALLS.items():
        it = calls.add_parser(name)
        for place in places:
            it.add_argument(place.lower(), metavar=place, **({"type": int} if place == "NUMBER" else {}))
        if call in (parallel, slurm):
            it.add_argument("words", metavar="WORD", nargs=argparse.REMAINDER)
        it.set_defaults(run=lambda given, call=call, places=places: call(*[getattr(given, at.lower()) for at in places], *getattr(given, "words", [])))
    return words


if __name__ == "__main__":
    helper_words.run(reader(), lambda given: given.run(given))
