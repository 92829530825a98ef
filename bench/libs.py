#!/usr/bin/env python3
"""Gives this checkout the libraries that a gate on this machine has proved of these very files, so that `rt check` and
bench/check_ahead.py take them as they are.
Usage: bench/libs.py CRATE..
For each crate, those below it and itself, lowest first; one that no gate has proved, and what stands on it, is named."""
import os
import shutil
import sys

from toolchain import module

TOP = os.path.dirname(os.path.dirname(os.path.abspath(__file__)))


def wanted(every, names):
    """The crates of these names and those below them, lowest first."""
    below = {it.name for crate in every if crate.name in names for it in crate.below()}
    return [crate for crate in every if (crate.name in below or crate.name in names) and not crate.is_program]


def stamp_at(folder):
    return f"{folder}/out/rlib/stamp"


def is_there(rt, crate):
    """Whether the crate's library is that of its sources already, over libraries that are."""
    if not os.path.isfile(stamp_at(crate.folder)):
        return False
    with open(stamp_at(crate.folder)) as file:
        return file.read() == rt.rtlib.Crate(crate.folder, TOP, {}).stamp()


def is_given(rt, kept, crate, missing):
    """Whether the crate's library stands in its folder now, as a gate or a check proved it. What is there from before is never given over itself:
    that would drop it where it is kept."""
    if any(it.name in missing for it in crate.deps):
        return False
    if is_there(rt, crate):
        return True
    shutil.rmtree(f"{crate.folder}/out/rlib", ignore_errors=True)
    os.makedirs(f"{crate.folder}/out", exist_ok=True)
    return kept.give(crate, False, kept.key(crate))


def main():
    rt = module("rt")
    # (a file that is linked would change what is kept, where a check makes it anew in its place)
    rt.link_or_copy = shutil.copyfile
    os.chdir(TOP)
    rt.Crate.cuts_libraries = True
    rt.Crate.allowed = rt.handles_of(TOP)
    every = rt.crates_of(TOP)
    kept = rt.Kept(every)
    missing = set()
    for crate in wanted(every, sys.argv[1:]):
        if not is_given(rt, kept, crate, missing):
            missing.add(crate.name)
            print(f"not proved yet: {crate.name}")
            continue
        kept.is_built(crate)
        with open(stamp_at(crate.folder), "w") as file:
            file.write(rt.rtlib.Crate(crate.folder, TOP, {}).stamp())
    return bool(missing)


sys.exit(main())
