#!/usr/bin/env python3
"""Crashes random schedules, goes on from what is left and crashes again, and checks what is recovered of the logs.
Usage: bench/crashes.py [RUNS [SEED]]
Build the program first, by `./prove`.

A run has one to five generations. Of the first `replay` prints the calls and the trace and writes the images, of each further one
`again`, which goes on from the images of the one before; `recover` reads the images of each. Checked is that both recover the
same, that it is a front of the trace, and that it has each call that returned: for an update its own place, for a read the place at
which it was answered. A further generation's trace begins with all that was recovered before it, which is set, and says how much
that was, and the fences that it prints are its own: one for each update that returned, and at most one more for each thread."""
import os
import random
import subprocess
import sys
import tempfile

from proved import proved_program

TOP = os.path.dirname(os.path.dirname(os.path.abspath(__file__)))
PROGRAM = proved_program()
ALL = 2**64 - 1


def word(rng):
    return rng.choice("abc") * rng.randint(1, 3)


def bank(rng):
    account, amount = rng.randint(0, 3), rng.randint(0, 9)
    return rng.choice(
        [f"deposit {account} {amount}", f"withdraw {account} {amount}", f"transfer {account} {rng.randint(0, 3)} {amount}",
         f"balance {account}", "total"])


def map_(rng):
    return rng.choice([f"put {word(rng)} {word(rng)}", f"del {word(rng)}", f"get {word(rng)}", f"next {word(rng)}", "count"])


def queue(rng):
    return rng.choice([f"push {rng.randint(0, 9)}", "pop", "front", "length"])


def lease(rng):
    resource, now = rng.randint(0, 2), rng.randint(0, 20)
    return rng.choice(
        [f"grant {resource} {rng.randint(0, 9)} {now} {rng.randint(0, 9)}", f"renew {resource} {rng.randint(0, 3)} {now} 5",
         f"release {resource} {rng.randint(0, 3)}", f"holder {resource} {now}"])


OBJECTS = [("bank 3\naccount 0 9\n", bank), ("map 3\npair a b\n", map_), ("queue 2\nitem 7\n", queue), ("lease 2\n", lease)]


UPDATES = {"deposit", "withdraw", "transfer", "put", "del", "push", "pop", "grant", "renew", "release"}


def run(*words):
    done = subprocess.run([PROGRAM, *words], capture_output=True)
    return done.returncode, done.stdout.decode()


def names(report, flags):
    """The nodes of a report, without their flags."""
    nodes = [line.split() for line in report.splitlines() if line.startswith("node ")]
    return [node[:4] + node[5:] if flags else node for node in nodes]


def recovered(report):
    return next(int(line.split()[1]) for line in report.splitlines() if line.startswith("recovered "))


def returned_places(report):
    calls = [line for line in report.splitlines() if line.startswith("call ")]
    ends = [call.split(" -> ")[1].split() for call in calls]
    return [int(end[-1]) for end in ends if end[0] not in ("running", "ordered")]


def flags(report):
    return [line.split()[4] for line in report.splitlines() if line.startswith("node ")]


def fences(report):
    """The fences of each thread, as its log's line says them."""
    return [int(line.split()[-1]) for line in report.splitlines() if line.startswith("log ")]


def updates_returned(report, thread):
    """How many updates of a thread returned in this generation."""
    calls = [line for line in report.splitlines() if line.startswith(f"call {thread} ")]
    words = [call.split(" -> ")[0].split()[3] for call in calls if call.split(" -> ")[1].split()[0] not in ("running", "ordered")]
    return sum(word in UPDATES for word in words)


def write_texts(rng, call, threads):
    for thread in range(threads):
        with open(f"script{thread}", "w") as file:
            file.writelines(call(rng) + "\n" for _ in range(rng.randint(0, 8)))
    with open("plan", "w") as file:
        for _ in range(rng.randint(0, 40 * threads)):
            file.write(f"{rng.randrange(threads)} {rng.choice([1, 1, 2, 3, 9])}\n")
        file.write(f"crash {rng.choice([0, ALL, rng.getrandbits(64), ALL ^ 1 << rng.randrange(64)])}\n")


def crash_once(rng, command, threads, base):
    """One generation, over the nodes that were recovered before it; the nodes that are recovered after it."""
    status, report = run(command, "init", "plan", "out", *(f"script{thread}" for thread in range(threads)))
    assert status == 0, report
    status, recovery = run("recover", "init", "out", str(threads))
    assert status == 0, recovery
    kept, trace = recovered(report), names(report, True)
    assert recovered(recovery) == kept
    assert names(recovery, False) == trace[:kept]
    places = returned_places(report)
    assert all(place <= kept for place in places), report
    assert report.split("\nstate\n")[1] == recovery.split("\nstate\n")[1]
    assert trace[:len(base)] == base and kept >= len(base), report
    assert flags(report)[:len(base)] == ["set"] * len(base), report
    first = report.splitlines()[0]
    assert (first == f"resumed {len(base)}") if command == "again" else not first.startswith("resumed"), report
    for thread, count in enumerate(fences(report)):
        assert 0 <= count - updates_returned(report, thread) <= 1, report
    return trace[:kept], (len(places), len(trace) - len(base), kept - len(base))


def generations(rng):
    init, call = rng.choice(OBJECTS)
    threads = rng.choice([1, 2, 3, 4, 16])
    with open("init", "w") as file:
        file.write(init)
    base, totals = [], [1, 0, 0, 0]
    for generation in range(rng.randint(1, 5)):
        write_texts(rng, call, threads)
        base, parts = crash_once(rng, "again" if generation else "replay", threads, base)
        totals = [generation + 1] + [total + part for total, part in zip(totals[1:], parts)]
    return totals


def main():
    runs, seed = int(sys.argv[1]) if len(sys.argv) > 1 else 1000, int(sys.argv[2]) if len(sys.argv) > 2 else 1
    rng = random.Random(seed)
    totals = [0, 0, 0, 0]
    with tempfile.TemporaryDirectory() as folder:
        os.chdir(folder)
        for _ in range(runs):
            totals = [total + part for total, part in zip(totals, generations(rng))]
    print(f"{runs} runs of {totals[0]} generations, none failing: {totals[1]} calls returned, {totals[2]} updates in a trace, "
          f"{totals[3]} of them recovered")


main()
