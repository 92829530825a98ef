#!/usr/bin/env python3
"""Fails each call of the system that a command makes, one a run, or kills it there, and checks what it says and what stands then.
Usage: bench/calls.py [PROGRAM]
Build the program first, by `./prove`; or name another one of the same words. It wants a C compiler (`cc`).

The rows are those of bench/memory.py, each of one thread at a time, and the library is that of failing.py. Each call fails once by an error of
the device and once by a full disk. The run must end with the status that docs/FORMATS.md states and name the file that the call was for; a
call on the folder is for a file that is written. Where the output fails the lines before it are the row's own; a call that asks how long a
file is may fail for nothing. Each read and each write does half of its bytes once, which must change nothing. And the process is killed before
each call, and after half of each write of more than a line.

After each: no file has changed that the row doesn't write. What `write` writes is as it was or whole, and a kill may leave a part of it
beside, as `NAME.new0`. Of images the ones before one are whole, and those after it as they were. `restore` gives the place and the state of
before, and what a `resume` went on from is recovered.

Ends with 0, or names each run that does otherwise and ends with 1."""
import errno
import os
import re
import sys
import tempfile

from failing import Outside
from memory import ROWS, WRITES, Runs, files_of
from proved import proved_program

# What befalls a call: what the library is asked for, and of which calls.
ANY, MOVES, WRITE = ("",), ("read", "write"), ("write",)
WAYS = {"fails": ("FAIL", errno.EIO, ANY), "finds no room": ("FAIL", errno.ENOSPC, ANY), "is short": ("SHORT", 0, MOVES),
        "is not reached": ("KILL", 0, ANY), "is cut": ("CUT", 0, WRITE)}
# The commands that write one file after the other, and whose failed fences are told with 7.
IMAGES, FENCES = ("replay", "again"), ("run", "resume", "checkpoint")
# The end of the name of a file that is written beside another one.
BESIDE = re.compile(r"\.new\d+$")


class Row:
    """A row, and how it goes with no call that fails."""

    def __init__(self, runs, outside, name):
        self.runs, self.outside, self.name, self.words = runs, outside, name, ROWS[name][0]
        self.old = files_of(runs.prepare(name))
        self.held = self.what_holds()
        self.status, self.lines = outside.run(self.words)
        self.calls, self.whole, self.ends = outside.calls(), files_of(outside.files), {}
        stem = WRITES[name][0] if name in WRITES else None
        self.written = {file for file in self.whole if self.whole[file] != self.old.get(file) or (stem and file.startswith(stem))}

    def what_holds(self):
        """What the files of the row recover to, where it may not be lost."""
        if self.name == "checkpoint":
            return self.runs.restored()
        return self.runs.recovered(self.name) if self.name == "resume" else None

    def is_said(self, way, call, file, status, lines):
        """Whether this may be said where this befalls a call that is for this file."""
        if way in ("KILL", "CUT"):
            return status == -9 and lines == self.lines[:len(lines)]
        if status == 0 or way == "SHORT":
            return status == 0 and (way == "SHORT" or call == "stat") and lines == self.lines
        if file == "output":
            return status == 6 and lines == self.lines[:len(lines)]
        if status == 5:
            return lines == [f"read fault {file}"] and call in ("open", "stat", "read")
        if status == 6:
            return lines in ([f"write fault {name}"] for name in (self.written if file == "." else {BESIDE.sub("", file)} & self.written))
        is_fault = any(line.startswith(("fault thread ", "fault area ")) for line in lines)
        return status == 7 and self.name in FENCES and call in ("write", "sync") and is_fault

    def are_images(self, files, lines):
        """Whether the first images are whole and the rest as they were, and one that is named is the last of those or the first of these."""
        images = sorted(self.written)
        named = [at for at, name in enumerate(images) if f"write fault {name}" in lines]
        counts = {count for at in named or range(len(images)) for count in (at, at + 1)}
        return any(all(files.get(name) == self.whole[name] for name in images[:count]) and
                   all(files.get(name) == self.old.get(name) for name in images[count:]) for count in counts)

    def is_left(self, name, data):
        """Whether this is a part of a file that is written, beside it."""
        stem = BESIDE.sub("", name)
        return name != stem and stem in self.written and self.whole[stem].startswith(data)

    def wrong(self, way, number, error, call, file):
        """What is wrong with a run in which this befalls the call of this number, that is for this file."""
        self.runs.prepare(self.name)
        status, lines = self.outside.run(self.words, **{way: number, "ERRNO": error})
        files = files_of(self.outside.files)
        self.ends[status] = self.ends.get(status, 0) + 1
        if not self.is_said(way, call, file, status, lines):
            yield f"status {status}, {lines[:3]}"
        others = {name for name in {*files, *self.old} - self.written if files.get(name) != self.old.get(name)}
        if way in ("KILL", "CUT"):
            others = {name for name in others if not self.is_left(name, files.get(name))}
        if others:
            yield f"changed {sorted(others)}"
        if way == "SHORT" and files != self.whole:
            yield "other files"
        if self.name in IMAGES and not self.are_images(files, lines):
            yield f"images that are neither whole nor as they were: {sorted(self.written)}"
        held = self.what_holds()
        if self.name == "checkpoint" and held != self.held:
            yield f"restored {held} for {self.held}"
        if self.name == "resume" and (held is None or held[:len(self.held)] != self.held):
            yield f"recovered {held} for {self.held}"

    def all(self):
        """Each call of the row, and what befalls it: what is wrong then."""
        for number, (call, file) in enumerate((noted.split(" ", 1) for noted in self.calls), 1):
            for how, (way, error, of) in WAYS.items():
                if call in of or of == ANY:
                    yield f"call {number} ({call} {file}) {how}", list(self.wrong(way, number, error, call, file))


def main():
    program = os.path.abspath(sys.argv[1]) if len(sys.argv) > 1 else proved_program()
    wrong = 0
    with tempfile.TemporaryDirectory() as work:
        runs, outside = Runs(program, work), Outside(program, work)
        for name in ROWS:
            row = Row(runs, outside, name)
            if row.status != 0 or not row.calls:
                print(f"{name}: status {row.status} with no call that fails, {len(row.calls)} calls counted")
                wrong += 1
                continue
            for what, faults in row.all():
                for fault in faults:
                    print(f"{name}, {what}: {fault}")
                    wrong += 1
            ends = ", ".join(f"{count} with {status}" for status, count in sorted(row.ends.items()))
            print(f"{name}: {len(row.calls)} calls of the system, {sum(row.ends.values())} runs, {ends}")
    print(f"{wrong} wrong" if wrong else "all as stated")
    sys.exit(1 if wrong else 0)


if __name__ == "__main__":
    main()
