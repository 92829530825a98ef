#!/usr/bin/env python3
"""Checks functions of a crate before the libraries below it are proved. A library that is proved and up to date is taken as it is; of the
others the sources are read, and of them only what the functions stand on is looked at.
Usage: bench/check_ahead.py CRATE --only PATH --allow-holes
The flags are those of `rattle check`. PATH is a function, as `onll_runner::report::images_of`. The last line says how
many holes are left; it proves nothing for the gate."""
import os
import sys

from toolchain import module

TOP = os.path.dirname(os.path.dirname(os.path.abspath(__file__)))


def is_up_to_date(dep, proved):
    """Whether the crate's library is that of its sources, over libraries that are."""
    stamp = os.path.join(os.path.dirname(dep.rlib), "stamp")
    if not os.path.isdir(dep.rlib) or not os.path.isfile(stamp) or any(it.name not in proved for it in dep.deps):
        return False
    with open(stamp) as file:
        return file.read() == dep.stamp()


def main():
    rtlib = module("rtlib")
    name = sys.argv[1]
    folder = os.path.join(TOP, "crates", name)
    os.chdir(folder)
    crate = rtlib.Crate(folder, TOP, {})
    proved = set()
    for dep in crate.below():
        if is_up_to_date(dep, proved):
            proved.add(dep.name)
    kit = rtlib.KIT
    of_kit = dict.fromkeys(["core", *crate.of_kit, *[it for dep in crate.below() for it in dep.of_kit]])
    words = ["--crate-name", name, "src/main.rt" if crate.is_program else "src/lib.rt", "-L", f"dependency={kit}/rlibs"]
    for it in of_kit:
        words += ["--extern", f"{it}={kit}/rlibs/{it}.rlib"]
    for dep in crate.below():
        if dep.name in proved:
            words += ["--extern", f"{dep.name}={dep.rlib}", "-L", f"dependency={os.path.dirname(dep.rlib)}"]
        else:
            uses = dict.fromkeys(["core", *dep.of_kit, *[it.name for it in dep.deps]])
            words += ["--lib", f"{dep.name}:{','.join(uses)}={dep.folder}/src/lib.rt"]
    words += ["--antt-project", f"{kit}/rattle/logic/antt-project.json", "--logic-built", f"{kit}/logic_built", "--jobs", "2"]
    os.execv(rtlib.RATTLE, [rtlib.RATTLE, "check", *words, *sys.argv[2:]])


main()
