#!/usr/bin/env python3
"""Tries the wrong bodies of bench/wrong/CRATE/*.edit: the prover must refuse each, as those of crates/CRATE/must-fail,
which the gate tries.
Usage: bench/wrong.py [CRATE..]
Run `rt ci` first, on this machine and with these very files, since the crates below are taken as it proved them. It
works on a copy.
An edit has the form of a must-fail edit. Each gets a line: refused, NOT REFUSED, BAD EDIT or NOT TRIED. The last line
is `N refused, M not`."""
import os
import re
import sys
import tempfile

from toolchain import module

TOP = os.path.dirname(os.path.dirname(os.path.abspath(__file__)))
WRONG = os.path.join(TOP, "bench", "wrong")


def edits_of(crate):
    folder = os.path.join(WRONG, crate)
    if not os.path.isdir(folder):
        return []
    return [os.path.join(folder, name) for name in sorted(os.listdir(folder)) if name.endswith(".edit")]


def take_proofs(rt, kept, crates):
    """Gives the copy each of these crates as an earlier gate proved it; names the first that no gate has proved."""
    for crate in crates:
        os.makedirs(f"{crate.folder}/out", exist_ok=True)
        if not kept.give(crate, False, kept.key(crate)):
            sys.exit(f"wrong.py: {crate.name} isn't proved on this machine with these files: run rt ci first")
        kept.is_built(crate)


def telling(call):
    """The same task, which says what came of its edit as soon as that is known."""

    def told(given, jobs):
        found = call(given, jobs)
        print(re.sub(r"^must-fail ", "", found[1]), flush=True)
        return found

    return told


def try_edits(rt, room, names):
    """What the try of each edit of these crates comes to; each is told when it is known."""
    rt.copy_crates(TOP, f"{room}/repo")
    os.mkdir(f"{room}/repo/.git")
    os.chdir(f"{room}/repo")
    rt.Crate.cuts_libraries = True
    rt.Crate.allowed = rt.handles_of(os.getcwd())
    every = rt.crates_of(os.getcwd())
    wanted = [crate for crate in every if crate.name in names]
    if len(wanted) < len(set(names)):
        sys.exit(f"wrong.py: no crates are {', '.join(sorted(set(names) - {it.name for it in wanted}))}")
    below = {it.name for crate in wanted for it in crate.below()}
    kept = rt.Kept(every)
    take_proofs(rt, kept, [crate for crate in every if crate.name in below])
    tasks, results = {}, {}
    for crate in wanted:
        results[crate.name], _ = rt.add_edits(tasks, crate, edits_of(crate.name), [], [], lambda given, new=0: True, kept)
    for key in [key for key in tasks if key[1] == "again" or key[1] == "edits" and (key[0], "again", key[2]) not in tasks]:
        tasks[key] = (*tasks[key][:3], telling(tasks[key][3]))
    given = rt.in_lanes(tasks)
    return [kind for result in results.values() for kind, _ in result(given)]


def main():
    names = sys.argv[1:] or sorted(os.listdir(WRONG))
    rt = module("rt")
    rt.rtlib.guarded()
    with tempfile.TemporaryDirectory(prefix=f"rt-copy-{os.getpid()}-") as room:
        tried = try_edits(rt, room, names)
        os.chdir(TOP)
    refused = sum(kind in (rt.REFUSED, rt.AT_LIMIT) for kind in tried)
    print(f"{refused} refused, {len(tried) - refused} not")
    return refused != len(tried)


if __name__ == "__main__":
    sys.exit(main())
