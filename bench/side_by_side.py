#!/usr/bin/env python3
"""Proves the libraries that the program stands on, side by side where they don't stand on each other, and says how far
it is.
Usage: bench/side_by_side.py
`./prove` calls it, and then builds the program. Each library is proved over what earlier checks kept, as by `rt lib`
in its folder, with as many processors as no other library waits for. One that fails is named with what its check said,
and the status is 1."""
import os
import sys
import tempfile
import threading
import time

from toolchain import module

TOP = os.path.dirname(os.path.dirname(os.path.abspath(__file__)))
PROGRAM = os.path.join(TOP, "crates", "onll_main")


class Progress:
    """Says of each library when it is proved, and how many are."""

    def __init__(self, whole):
        self.whole, self.done, self.begun, self.alone = whole, 0, time.monotonic(), threading.Lock()

    def says(self, name, proved, said):
        with self.alone:
            self.done += proved
            seconds = int(time.monotonic() - self.begun)
            after = f"{self.done} of {self.whole} libraries after {seconds // 60} min {seconds % 60} s"
            print(f"{'' if proved else said}prove: {name} {'proved' if proved else 'NOT PROVED'}, {after}", file=sys.stderr, flush=True)


def proving(crate, progress):
    """The task of one library: it is proved once those below it are."""

    def prove(given, jobs):
        if not all(given[it.name, "proof"] for it in crate.below()):
            return False
        os.makedirs(f"{crate.folder}/out", exist_ok=True)
        with tempfile.TemporaryFile("a+", errors="replace") as crate.out:
            status = crate.build_rlib(["--jobs", str(jobs)], anew=False)
            crate.out.seek(0)
            progress.says(crate.name, status == 0, crate.out.read())
        return status == 0

    return prove


def main():
    rt = module("rt")
    rt.rtlib.guarded()
    rt.share_work(True)
    program = rt.rtlib.Crate(PROGRAM, TOP, {})
    libraries = program.below()
    held = rt.rtlib.lock([*libraries, program])
    progress = Progress(len(libraries))
    tasks = {}
    for crate in libraries:
        waits = [(it.name, "proof") for it in crate.below()]
        tasks[crate.name, "proof"] = (waits, crate.count(rb"\n"), rt.need(crate), proving(crate, progress))
    given = rt.in_lanes(tasks)
    for it in held:
        os.close(it)
    return not all(given.values())


if __name__ == "__main__":
    sys.exit(main())
