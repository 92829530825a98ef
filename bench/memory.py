#!/usr/bin/env python3
"""Refuses the program memory, one allocation a run: the first, then the second, and so on to the last that a run asks for.
Usage: bench/memory.py [PROGRAM]
Build the program first, by `./prove`; or name another one of the same words. It wants a C compiler (`cc`).

A small library stands before the C library's `malloc` and `realloc`, counts the calls, and answers none to one of them. Each run is of
one thread, or plays a schedule, so that its report is one text. It must end with that report and the same files, or with status 9 and
some of the first bytes of the report; no file changes that the words don't write, and what `recover` finds then begins with what it
found before. After each `checkpoint`, in whichever era, `restore` gives the place and the state that it gives after a whole one, which
are those before it. With status 9 the log files of a `run` and of a `resume` are compared one by one: each begins with the lines that its log
used before, and every word after them is as it was, zero, or the word that the whole run leaves there, since a device over a file writes
at each fence.
Ends with 0, or names each run that does otherwise and ends with 1."""
import os
import shutil
import subprocess
import sys
import tempfile

from proved import proved_program

TOP = os.path.dirname(os.path.dirname(os.path.abspath(__file__)))
EXAMPLES = os.path.join(TOP, "examples")

REFUSER = r"""
#define _GNU_SOURCE
#include <dlfcn.h>
#include <fcntl.h>
#include <stdatomic.h>
#include <stddef.h>
#include <stdio.h>
#include <stdlib.h>
#include <sys/syscall.h>
#include <unistd.h>

static atomic_long calls;
static long refused(void) {
    static long number = -1;
    if (number < 0) number = getenv("REFUSE") ? atol(getenv("REFUSE")) : 0;
    return atomic_fetch_add(&calls, 1) + 1 == number;
}
void *malloc(size_t size) {
    static void *(*real)(size_t);
    if (!real) real = dlsym(RTLD_NEXT, "malloc");
    return refused() ? NULL : real(size);
}
void *realloc(void *old, size_t size) {
    static void *(*real)(void *, size_t);
    if (!real) real = dlsym(RTLD_NEXT, "realloc");
    return refused() ? NULL : real(old, size);
}
void _exit(int status) {
    const char *name = getenv("COUNTED");
    long count = atomic_load(&calls);
    int file = name ? open(name, O_WRONLY | O_CREAT | O_TRUNC, 0644) : -1;
    if (file >= 0) { dprintf(file, "%ld\n", count); close(file); }
    for (;;) syscall(SYS_exit_group, status);
}
"""

# A bank with its logs, and areas that hold nothing.
AREAS = {"k.0": None, "k.1": None, **{name: f"crash/{name}" for name in ("bank", "out.0", "out.1")}}
# The words of each row, and the examples' files that it is handed, by the names that they get; None is an empty file.
ROWS = {
    "fold": (["fold", "bank", "script"], {"bank": "transfer/bank", "script": "transfer/script"}),
    "fold of a map": (["fold", "names", "changes"], {"names": "directory/names", "changes": "directory/changes"}),
    "fold of a queue": (["fold", "waiting", "morning"], {"waiting": "printer/waiting", "morning": "printer/morning"}),
    "fold of leases": (["fold", "held", "shift"], {"held": "locks/held", "shift": "locks/shift"}),
    "show": (["show", "out.1"], {"out.1": "crash/out.1"}),
    "replay": (["replay", "bank", "plan", "log", "first", "second"],
               {name: f"crash/{name}" for name in ("bank", "plan", "first", "second")}),
    "recover": (["recover", "bank", "out", "2"], {name: f"crash/{name}" for name in ("bank", "out.0", "out.1")}),
    "detect": (["detect", "bank", "out", "first", "second"],
               {name: f"crash/{name}" for name in ("bank", "out.0", "out.1", "first", "second")}),
    "again": (["again", "bank", "next", "out", "third", "fourth"],
              {name: f"crash/{name}" for name in ("bank", "next", "out.0", "out.1", "third", "fourth")}),
    "run": (["run", "bank", "log", "script"], {"bank": "transfer/bank", "script": "transfer/script"}),
    "resume": (["resume", "bank", "out", "third", "empty"],
               {"empty": None, **{name: f"crash/{name}" for name in ("bank", "out.0", "out.1", "third")}}),
    "make": (["make", "1", "4", "7"], {}),
    "areas": (["areas", "k"], {}),
    "restore": (["restore", "bank", "out", "k", "2"], AREAS),
    "checkpoint": (["checkpoint", "bank", "out", "k", "2"], AREAS),
    "ship": (["ship", "out", "2", "stream"], {name: f"crash/{name}" for name in ("out.0", "out.1")}),
    "follow": (["follow", "bank", "2", "stream", "100"], {name: f"crash/{name}" for name in ("bank", "out.0", "out.1")}),
    "audit": (["audit", "hall", "report", "door", "online"], {name: f"tickets/{name}" for name in ("hall", "report", "door", "online")}),
}
# What is done before a row, with ample memory.
BEFORE = {"restore": ["checkpoint", "bank", "out", "k", "2"], "checkpoint": ["checkpoint", "bank", "out", "k", "2"],
          "follow": ["ship", "out", "2", "stream"]}
# The files that the words of a row may write, by how their names begin, and how many logs there are then.
WRITES = {"replay": ("log.", 2), "again": ("out.", 2), "run": ("log.", 1), "resume": ("out.", 2), "checkpoint": ("k.0", 2)}


def make_library(folder, name, text):
    """A library that stands before the C library, built from its text."""
    source, library = os.path.join(folder, f"{name}.c"), os.path.join(folder, f"{name}.so")
    with open(source, "w") as file:
        file.write(text)
    subprocess.run(["cc", "-O1", "-shared", "-fPIC", "-o", library, source, "-ldl"], check=True)
    return library


def make_refuser(folder):
    """The library that refuses memory."""
    return make_library(folder, "refuser", REFUSER)


def files_of(folder):
    found = {}
    for name in sorted(os.listdir(folder)):
        with open(os.path.join(folder, name), "rb") as file:
            found[name] = file.read()
    return found


class Runs:
    """The runs of one program, each in a folder of its own."""

    def __init__(self, program, work):
        self.program, self.work, self.library = program, work, make_refuser(work)
        self.counted = os.path.join(work, "counted")

    def prepare(self, row):
        """The folder with the files of a row."""
        folder = os.path.join(self.work, "files")
        shutil.rmtree(folder, ignore_errors=True)
        os.mkdir(folder)
        for name, source in ROWS[row][1].items():
            shutil.copyfile(os.path.join(EXAMPLES, source) if source else os.devnull, os.path.join(folder, name))
        if row in BEFORE:
            subprocess.run([self.program, *BEFORE[row]], cwd=folder, stdout=subprocess.DEVNULL, check=True, timeout=60)
        return folder

    def once(self, row, number):
        """One run of a row in which this call for memory is refused: its status, what it printed, its files and how often it called."""
        words, folder = ROWS[row][0], self.prepare(row)
        environment = {"LD_PRELOAD": self.library, "REFUSE": str(number), "COUNTED": self.counted}
        if os.path.exists(self.counted):
            os.remove(self.counted)
        done = subprocess.run([self.program, *words], cwd=folder, env=environment, capture_output=True, timeout=60)
        count = 0
        if os.path.exists(self.counted):
            with open(self.counted) as file:
                count = int(file.read())
        return done.returncode, done.stdout, done.stderr, files_of(folder), count

    def recovered(self, row):
        """The nodes that are recovered from the logs in the folder of the last run; None where that is refused."""
        stem, threads = WRITES[row]
        done = subprocess.run([self.program, "recover", "bank", stem.rstrip("."), str(threads)],
                              cwd=os.path.join(self.work, "files"), capture_output=True, timeout=60)
        lines = done.stdout.decode().splitlines()
        return [line for line in lines if line.startswith("node ")] if done.returncode == 0 else None

    def restored(self):
        """The place over all eras, and the state, that are restored in the folder of the last run."""
        done = subprocess.run([self.program, "restore", "bank", "out", "k", "2"], cwd=os.path.join(self.work, "files"),
                              capture_output=True, timeout=60)
        return done.stdout.decode().partition("\nplace ")[2] if done.returncode == 0 else None

    def used(self, name):
        """How many lines the log in this file of the last run uses, by what `show` says of it."""
        done = subprocess.run([self.program, "show", name], cwd=os.path.join(self.work, "files"), capture_output=True, timeout=60)
        last = done.stdout.decode().splitlines()[-1].split()
        return int(last[3]) if last[0] == "entries" else 0


def words_of(data):
    return [data[at:at + 8] for at in range(0, len(data), 8)]


def stands(old, new, whole, lines):
    """Whether a file still has the first lines that it had, and after them only words that are as they were, zero, or the whole run's."""
    if new is None:
        return old is None
    befores, ends = words_of(old or b""), words_of(whole)
    front = 8 * lines
    after = list(enumerate(words_of(new)))[front:]
    return new[:64 * lines] == (old or b"")[:64 * lines] and all(
        not any(word) or word in befores[at:at + 1] or word in ends[at:at + 1] for at, word in after)


def lost_logs(row, files, whole, old, lines):
    """The names of the log files that lost what they held, after a call that ran out of memory."""
    stem, threads = WRITES[row]
    for name in (f"{stem}{thread}" for thread in range(threads)):
        if not stands(old.get(name), files.get(name), whole[3][name], lines.get(name, 0)):
            yield name


def faults_of(runs, row, number, whole, before, old, lines):
    """What is wrong with the run in which this call is refused."""
    status, out, err, files, _ = runs.once(row, number)
    stem = WRITES[row][0] if row in WRITES else None
    others = {name: data for name, data in files.items() if stem is None or not name.startswith(stem)}
    if err or status not in (0, 9):
        yield f"status {status}, on the error output {err!r}"
    if status == 0 and (out != whole[1] or files != whole[3]):
        yield "another report or other files"
    if status == 9 and not whole[1].startswith(out):
        yield f"printed {out!r}"
    if others != {name: data for name, data in whole[3].items() if name in others}:
        yield "a file changed that the words don't write"
    if status == 9 and row in ("run", "resume"):
        for name in lost_logs(row, files, whole, old, lines):
            yield f"{name} lost what it held"
    if row == "checkpoint" and runs.restored() != before:
        yield f"restored {runs.restored()} for {before}"
    if row in ("again", "resume") and status == 9:
        nodes = runs.recovered(row)
        if nodes is None or nodes[:len(before)] != before:
            yield f"recovered {nodes} for {before}"


def main():
    program = os.path.abspath(sys.argv[1]) if len(sys.argv) > 1 else proved_program()
    wrong = 0
    with tempfile.TemporaryDirectory() as work:
        runs = Runs(program, work)
        for row, (words, names) in ROWS.items():
            before, old, lines = None, {}, {}
            if row in ("again", "resume"):
                for name, source in names.items():
                    os.makedirs(os.path.join(work, "files"), exist_ok=True)
                    shutil.copyfile(os.path.join(EXAMPLES, source) if source else os.devnull, os.path.join(work, "files", name))
                before, old = runs.recovered(row), files_of(os.path.join(work, "files"))
                lines = {name: runs.used(name) for name in old if name.startswith(WRITES[row][0])}
            whole = runs.once(row, 0)
            if row == "checkpoint":
                before = runs.restored()
            if whole[0] != 0 or whole[4] == 0:
                print(f"{row}: status {whole[0]} with ample memory, {whole[4]} calls counted")
                wrong += 1
                continue
            ends = 0
            for number in range(1, whole[4] + 1):
                for fault in faults_of(runs, row, number, whole, before, old, lines):
                    print(f"{row}, call {number} refused: {fault}")
                    wrong += 1
                ends += 1
            print(f"{row}: {ends} calls for memory, each refused once")
    sys.exit(1 if wrong else 0)


if __name__ == "__main__":
    main()
