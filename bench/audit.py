#!/usr/bin/env python3
"""Audits reports of runs with the program, compares each verdict with a judge that shares no code with it, and measures it.
Usage: bench/audit.py [--runs RUNS] [--changes CHANGES] [--seed SEED] [--times TIMES] [PROGRAM]
Build the program first, by `./prove`; or name another one of the same words. It wants a C compiler (`cc`).

Each run is of 1 to 16 threads over one of the four objects, with files of the system; in a third of them one of the syncs fails, by a
small library before the C library's. What it prints must be legal, and be judged so by both; the line of a header that failed is no
report. Each report is then changed in one place at random, so many times, and what `audit` says must be what the judge says.

Then 16 threads of 4,096 updates and as many reads are run, and `audit` of that report is timed against `fold` of each script, one after
the other; and reports of 67,108,864 bytes that are made to take long are judged. At last a report of that length and one of a byte more.

At the first difference it says what differs, keeps the folder with the files, and ends with 1."""
import argparse
import os
import random
import re
import subprocess
import sys
import tempfile
import time
from pathlib import Path

from judge import KINDS, READS, UPDATES, Judge
from memory import make_library
from proved import proved_program

FAILER = r"""
#define _GNU_SOURCE
#include <dlfcn.h>
#include <errno.h>
#include <stdatomic.h>
#include <stdlib.h>

static atomic_long calls;
static int failed(void) {
    static long number = -1;
    if (number < 0) number = getenv("FAIL") ? atol(getenv("FAIL")) : 0;
    return atomic_fetch_add(&calls, 1) + 1 == number;
}
int fsync(int fd) {
    int (*real)(int) = dlsym(RTLD_NEXT, "fsync");
    return failed() ? (errno = EIO, -1) : real(fd);
}
int fdatasync(int fd) {
    int (*real)(int) = dlsym(RTLD_NEXT, "fdatasync");
    return failed() ? (errno = EIO, -1) : real(fd);
}
"""
TEXTS = ["->", "at", "broken", "failed", "0", "12", "state", "#", "k"]
LONGEST = 67_108_864


# ---- runs
def call(rng, kind):
    name, shape = rng.choice([*UPDATES[kind].items()] * 2 + [*READS[kind].items()])
    words = [rng.choice(TEXTS) if s == "t" else str(rng.choice([0, 1, 2, 3, rng.randrange(100), 2**64 - 1])) for s in shape]
    return " ".join([name, *words])


def run_one(program, folder, rng, failer):
    """Runs scripts over an object; its status, what it printed, and the judge of such reports."""
    for old in folder.iterdir():
        if old.is_file():
            old.unlink()
    kind, room = rng.choice(list(KINDS)), rng.randint(1, 4)
    scripts = [[call(rng, kind) for _ in range(rng.randint(0, 8))] for _ in range(rng.choice([1, 2, 3, 16]))]
    (folder / "i").write_text(f"{kind} {room}\n")
    names = [f"s{thread}" for thread in range(len(scripts))]
    for name, script in zip(names, scripts):
        (folder / name).write_text("".join(line + "\n" for line in script))
    fail = str(rng.randint(1, 40)) if rng.random() < 1 / 3 else "0"
    done = subprocess.run([program, "run", "i", "log", *names], cwd=folder, capture_output=True, timeout=60,
                          env={"LD_PRELOAD": str(failer), "FAIL": fail})
    return done.returncode, done.stdout.decode("latin-1"), Judge(kind, KINDS[kind](room), scripts)


def audited(program, folder, threads, report):
    (folder / "r").write_bytes(report.encode("latin-1"))
    done = subprocess.run([program, "audit", "i", "r", *(f"s{t}" for t in range(threads))], cwd=folder, capture_output=True, timeout=600)
    return done.stdout.decode("latin-1"), done.returncode


# ---- changes
def changed(rng, report):
    """The report with one place changed."""
    lines = report.split("\n")
    at = rng.randrange(len(lines))
    words = lines[at].split(" ")
    word = rng.randrange(len(words))
    which = rng.randrange(9)
    if which == 0:
        del lines[at]
    elif which == 1:
        lines.insert(at, lines[rng.randrange(len(lines))])
    elif which == 2:
        other = rng.randrange(len(lines))
        lines[at], lines[other] = lines[other], lines[at]
    elif which == 3:
        place = rng.randrange(len(report) + 1)
        return report[:place] + chr(rng.choice([0, 9, 10, 13, 32, 48, 57, 255])) + report[place:]
    elif which == 4:
        return report[:rng.randrange(len(report) + 1)]
    elif which == 5:
        del words[word]
    elif which == 6:
        words[word] = rng.choice(["fence failed", "broken", "ok", "set", "unset", "->", "at", *re.findall("[^ \n]+", report)])
    elif words[word].isdigit():
        words[word] = str(int(words[word]) + rng.choice([-1, 1]))
    else:
        numbers = [(i, m) for i, line in enumerate(lines) for m in re.finditer(r"\d+", line)]
        at, found = rng.choice(numbers) if numbers else (at, None)
        if found is not None:
            line = lines[at]
            lines[at] = line[:found.start()] + str(int(found.group()) + rng.choice([-1, 1])) + line[found.end():]
        return "\n".join(lines)
    if which >= 5:
        lines[at] = " ".join(words)
    return "\n".join(lines)


def compare(program, folder, judge, report):
    """Fails where the program's verdict is not the judge's; it is given."""
    wanted, found = judge.says("r", report), audited(program, folder, len(judge.scripts), report)
    if wanted != found:
        sys.exit(f"{folder}: the judge says {wanted}, the program {found}")
    return wanted[0].split(" ")[0].strip()


def many_runs(program, folder, rng, args):
    failer = make_library(folder.parent, "failer", FAILER)
    counts = {}
    for _ in range(args.runs):
        status, report, judge = run_one(program, folder, rng, failer)
        if status not in (0, 7):
            counts["no report"] = counts.get("no report", 0) + 1
            continue
        header = re.fullmatch(r"fault thread \d+ place 0\n", report)
        said = compare(program, folder, judge, report)
        if said != ("refused" if header else "legal"):
            sys.exit(f"{folder}: a report that was run is {said}")
        kind = f"status {status}" + (", a header's line" if header else "")
        counts[kind] = counts.get(kind, 0) + 1
        for _ in range(args.changes):
            said = "changed, " + compare(program, folder, judge, changed(rng, report))
            counts[said] = counts.get(said, 0) + 1
    print("runs and changes:", ", ".join(f"{count} {what}" for what, count in sorted(counts.items())))


# ---- times
def timed(words, folder, times):
    best = None
    for _ in range(times):
        begin = time.perf_counter()
        done = subprocess.run(words, cwd=folder, capture_output=True, timeout=600)
        taken = time.perf_counter() - begin
        best = taken if best is None else min(best, taken)
    return best, done.stdout.decode("latin-1"), done.returncode


def long_run(program, folder, args):
    (folder / "i").write_text("bank 16\n")
    names = [f"s{t}" for t in range(16)]
    for t, name in enumerate(names):
        (folder / name).write_text(f"deposit {t} 5\nbalance {t}\n" * 4096)
    report = subprocess.run([program, "run", "i", "log", *names], cwd=folder, capture_output=True, check=True, timeout=600).stdout
    (folder / "r").write_bytes(report)
    audit, said, status = timed([program, "audit", "i", "r", *names], folder, args.times)
    if (said, status) != ("legal\n", 0):
        sys.exit(f"{folder}: the long report is {said}")
    fold = sum(timed([program, "fold", "i", name], folder, args.times)[0] for name in names)
    print(f"a report of {len(report)} bytes, of 65,536 updates and 65,536 reads: audit {audit * 1000:.0f} ms, "
          f"sixteen folds of as many calls {fold * 1000:.0f} ms, ratio {audit / fold:.2f}")


def hostile(program, folder):
    """Reports of the greatest length, each made to take long, and one a byte longer."""
    (folder / "i").write_text("map 2\n")
    (folder / "s0").write_text("get k\n")
    arrows = " -> " * (LONGEST // 8)
    rows = {"a long word and arrows": "call 0 1 " + "x" * (LONGEST // 2 - 10) + arrows,
            "blanks and arrows": "call 0 1 " + "\t" * (LONGEST // 2 - 10) + arrows,
            "a long second word and arrows": "call 0 1 get " + "x" * (LONGEST // 2 - 14) + arrows,
            "a long third word and arrows": "call 0 1 put a " + "x" * (LONGEST // 2 - 16) + arrows}
    for what, text in rows.items():
        text = (text + "\n").ljust(LONGEST, "x")
        begin = time.perf_counter()
        said = audited(program, folder, 1, text)
        print(f"{what}: {time.perf_counter() - begin:.2f} s, {said[0].strip()}")
        if said != ("refused r 1 bad line\n", 3):
            sys.exit(f"{folder}: {what}: {said}")
    for length, line in ((LONGEST, 1), (LONGEST + 1, 0)):
        said = audited(program, folder, 1, "x\n" * (length // 2) + "x" * (length % 2))
        if said != (f"refused r {line} bad line\n", 3):
            sys.exit(f"{folder}: {length} bytes: {said}")


def long_trace(program, folder):
    """A trace of as many nodes as the greatest length has room for, and a read of the last place by each of sixteen threads."""
    (folder / "i").write_text("map 4096\n")
    names = [f"s{t}" for t in range(16)]
    for name in names:
        (folder / name).write_text("count\n")
    nodes = 2_000_000
    report = "".join(f"call {t} 1 count -> count 1 at {nodes}\n" for t in range(16)) + f"trace {nodes}\n"
    report += "".join(f"node {p} 0 1 set put k v\n" for p in range(1, nodes + 1))
    report += "".join(f"log {t} entries 0 lines 0 fences 0\n" for t in range(16)) + "recovered 0\nstate\nmap 4096\npair k v\n"
    begin = time.perf_counter()
    said = audited(program, folder, 16, report)
    print(f"{nodes} nodes in {len(report)} bytes, read by sixteen threads: {time.perf_counter() - begin:.2f} s, {said[0].strip()}")
    if said[1] != 8 or len(report) > LONGEST:
        sys.exit(f"{folder}: a long trace: {said}")


def main():
    words = argparse.ArgumentParser()
    words.add_argument("--runs", type=int, default=500)
    words.add_argument("--changes", type=int, default=20)
    words.add_argument("--seed", type=int, default=1)
    words.add_argument("--times", type=int, default=3)
    words.add_argument("program", nargs="?")
    args = words.parse_args()
    program = os.path.abspath(args.program) if args.program else proved_program()
    folder = Path(tempfile.mkdtemp(prefix="audit-"))
    work = folder / "files"
    work.mkdir()
    many_runs(program, work, random.Random(args.seed), args)
    long_run(program, work, args)
    hostile(program, work)
    long_trace(program, work)
    subprocess.run(["rm", "-rf", folder], check=True)


if __name__ == "__main__":
    main()
