#!/usr/bin/env python3
"""Tells where the time of a crate's last whole `rt check` went: each module is written when it is done, so the time between two
of them is the later one's, shared among the processors that worked then.
Usage: bench/proof_times.py CRATE [HOW_MANY]
Remove `crates/CRATE/out` and run `rt check` there first, on an idle machine.

Prints the functions and lemma files that took longest, and then the single modules."""
import collections
import os
import re
import sys

TOP = os.path.dirname(os.path.dirname(os.path.abspath(__file__)))


def modules_of(crate):
    """When each module of the crate's check was done, and its name, in order."""
    done = []
    for folder, _, names in os.walk(os.path.join(TOP, "crates", crate, "out", "incremental")):
        if not folder.endswith("/records"):
            done += [(os.path.getmtime(os.path.join(folder, name)), name[:-6]) for name in names if name.endswith(".oantt")]
    return sorted(done)


def subject_of(module):
    """The function or lemma file that a module is of."""
    name = re.sub(r"^Rattle-\w+[-.]", "", module)
    is_file = name.startswith("specs.") or re.match(r"proofs\.[A-Z]", name)
    return name if is_file else re.sub(r"(\.[A-Z]\w*)+$", "", name)


def main():
    crate, most = sys.argv[1], int(sys.argv[2]) if len(sys.argv) > 2 else 15
    done = modules_of(crate)
    if not done:
        sys.exit(f"crates/{crate}/out keeps no check: run `rt check` there first")
    subjects, modules, before = collections.Counter(), collections.Counter(), done[0][0]
    for time, module in done:
        subjects[subject_of(module)] += time - before
        modules[module] += time - before
        before = time
    print(f"{before - done[0][0]:.0f} s, {len(done)} modules")
    for counts in (subjects, modules):
        print()
        for name, seconds in counts.most_common(most):
            print(f"{seconds:7.1f} {name}")


if __name__ == "__main__":
    main()
