#!/usr/bin/env python3
"""Refuses each request for memory of a run in turn, and looks at what the run leaves; and counts the requests of each phase.

    checks/refused_memory.py PROGRAM [TABLES]

A library that is loaded before the C library's (gcc builds it here) counts the calls of malloc, calloc and realloc, and lets one of
them, or all from one on, give nothing. A refused run ends with 12 and nothing written, or a line of the desk is answered WANT and the
output is that of the lines that were not; a thread that can't be made changes nothing. TABLES is a folder whose 15 tables are decoded
besides (by default that of the sample).
"""
import os
import subprocess
import sys
import tempfile

from failing_objects import DESK, FEED, NEW, OLD, REPLIES, TABLES, Place

SAMPLE = os.path.join(os.path.dirname(os.path.dirname(os.path.abspath(__file__))), "samples", "suihtal_1")
LIBRARY = r"""
#define _GNU_SOURCE
#include <dlfcn.h>
#include <errno.h>
#include <stdatomic.h>
#include <stddef.h>
#include <stdlib.h>
#include <fcntl.h>
#include <sys/mman.h>
#include <unistd.h>
static atomic_long unseen, *asked = &unseen;
static long refused = -1, most = 0;
static void *(*real_malloc)(size_t), *(*real_realloc)(void *, size_t), *(*real_calloc)(size_t, size_t);
static char early[65536];
static size_t early_used;
__attribute__((constructor)) static void begin(void) {
    const char *at = getenv("REFUSED_AT"), *count = getenv("REFUSED_COUNT"), *told = getenv("REFUSED_TOLD");
    int file = told ? open(told, O_RDWR | O_CREAT | O_TRUNC, 0600) : -1;
    if (file >= 0 && ftruncate(file, sizeof(long)) == 0) {
        void *it = mmap(NULL, sizeof(long), PROT_READ | PROT_WRITE, MAP_SHARED, file, 0);
        if (it != MAP_FAILED) asked = it;
    }
    real_malloc = dlsym(RTLD_NEXT, "malloc");
    real_realloc = dlsym(RTLD_NEXT, "realloc");
    real_calloc = dlsym(RTLD_NEXT, "calloc");
    *asked = 0;
    most = count ? atol(count) : 1;
    refused = at ? atol(at) : -1;
}
static int is_refused(void) {
    long number = atomic_fetch_add(asked, 1) + 1;
    if (refused < 0 || number < refused || number >= refused + most) return 0;
    errno = ENOMEM;
    return 1;
}
void *malloc(size_t size) {
    if (!real_malloc) { void *at = early + early_used; early_used += (size + 15) / 16 * 16; return at; }
    return is_refused() ? NULL : real_malloc(size);
}
void *calloc(size_t count, size_t size) {
    if (!real_calloc) { void *at = early + early_used; early_used += (count * size + 15) / 16 * 16; return at; }
    return is_refused() ? NULL : real_calloc(count, size);
}
void *realloc(void *at, size_t size) {
    if (!real_realloc) return malloc(size);
    return is_refused() ? NULL : real_realloc(at, size);
}
"""


class Tries:
    def __init__(self, program, folder):
        self.program, self.folder, self.made, self.wrong = os.path.abspath(program), folder, 0, 0
        with open(f"{folder}/refused.c", "w", encoding="utf-8") as file:
            file.write(LIBRARY)
        subprocess.run(["gcc", "-shared", "-fPIC", "-O1", "-o", f"{folder}/refused.so", f"{folder}/refused.c", "-ldl"], check=True)

    def run(self, words, at=None, count=1):
        """(status, output, standard error) and how many requests there were."""
        told = f"{self.folder}/told"
        environment = {"LD_PRELOAD": f"{self.folder}/refused.so", "REFUSED_TOLD": told, **({"REFUSED_AT": str(at), "REFUSED_COUNT": str(count)} if at else {})}
        done = subprocess.run([self.program, *words], cwd=self.folder, env=environment, stdin=subprocess.DEVNULL, stdout=subprocess.PIPE, stderr=subprocess.PIPE, timeout=120)
        with open(told, "rb") as file:
            return (done.returncode, done.stdout, done.stderr), int.from_bytes(file.read(), "little")

    def is_so(self, what, found, allowed):
        self.made += 1
        if not allowed(found):
            self.wrong += 1
            print(f"{what}: {found}")


def is_of_its_history(found):
    """Whether a live run whose lines were answered so printed what these answers say: edition 2 from packet 2 on, or the old curve."""
    status, out, told = found
    replies = told.splitlines(True)
    if status or len(replies) != len(REPLIES):
        return False
    was_put, was_saved, was_used = (replies[it] != b"WANT\n" for it in range(3))
    wanted = [REPLIES[0] if was_put else b"WANT\n", (b"SAVED 2 PLANS 1\n" if was_put else b"SAVED 2 PLANS 0\n") if was_saved else b"WANT\n",
              (REPLIES[2] if was_saved else b"NOEDITION 1\n") if was_used else b"WANT\n", REPLIES[3]]
    records = NEW if was_put and was_saved and was_used else OLD
    if was_saved and was_used and not was_put:
        records = [it.replace(b"= 100", b"= 50") for it in NEW]
    return replies == wanted and out == b"".join(records)


def each_refused(tries, what, words, is_allowed):
    whole, number = tries.run(words)
    tries.is_so(f"{what}, nothing refused", whole, is_allowed)
    want = {12: 0, 0: 0, 5: 0}
    for at in range(1, number + 1):
        for count in (1, 10 ** 9):
            found, _ = tries.run(words, at, count)
            tries.is_so(f"{what}, request {at} of {number}, {count} refused", found, lambda it: it == (12, b"", b"MEMORY\n") or is_allowed(it))
            want[found[0]] = want.get(found[0], 0) + 1
    print(f"{what}: {number} requests; of {2 * number} runs {want[12]} end with 12 and nothing written, {2 * number - want[12]} otherwise as they may")


def counts(tries, mib):
    """How many requests there are, by phase; for packets none."""
    table = []
    with open(f"{SAMPLE}/feed", "rb") as file:
        orbit = file.read()
    for workers in ("1", "4"):
        for command in ("decode", "live"):
            row = []
            for packets in (0, 100, 1000, 100000):
                with open(f"{tries.folder}/long", "wb") as file:
                    file.write(FEED[:12] * packets if mib.endswith("mib") and "suihtal" not in mib else (orbit * (packets // 295 + 1)) if packets else b"")
                words = [command, mib, "long", *(["none"] if command == "live" else []), "--workers", workers]
                (status, _, told), number = tries.run(words)
                tries.is_so(f"{command} of {packets} packets", (status, told), lambda it: it == (0, b""))
                row.append(number)
            table.append((command, workers, row))
            # a thread that begins once another has ended takes over what the C library asked for that one
            tries.is_so(f"{command}, {workers} workers: requests by packets {row}", row, lambda it: abs(it[3] - it[1]) < int(workers))
    for command, workers, row in table:
        print(f"requests of {command}, {workers} workers, {os.path.basename(mib)}: of 0, 100, 1,000 and 100,000 packets {row}")


def main():
    with tempfile.TemporaryDirectory() as folder:
        place, tries = Place(folder), Tries(sys.argv[1], folder)
        place.write("none", b"")
        mib = os.path.abspath((sys.argv[2:] or [f"{SAMPLE}/mib"])[0])
        each_refused(tries, "check of the sample", ["check", mib], lambda it: it[0] == 0 and it[2] == b"")
        each_refused(tries, "decode of three packets", ["decode", "mib", "feed"], lambda it: it == (0, b"".join(OLD), b""))
        each_refused(tries, "decode, 4 workers", ["decode", "mib", "feed", "--workers", "4"], lambda it: it == (0, b"".join(OLD), b""))
        each_refused(tries, "live with an edit", ["live", "mib", "feed", "desk"], is_of_its_history)
        each_refused(tries, "live with an edit, 4 workers", ["live", "mib", "feed", "desk", "--workers", "4"], is_of_its_history)
        for tables in ("mib", f"{SAMPLE}/mib"):
            counts(tries, tables)
    print(f"{tries.made} tries, {tries.wrong} wrong")
    return 1 if tries.wrong else 0


if __name__ == "__main__":
    sys.exit(main())
