#!/usr/bin/env python3
"""Measures the commands that read the logs of a run, or its report, beside `recover` of the same logs.
Usage: bench/beside.py [--runs RUNS] [--most RATIO] [--peer PEER] [PROGRAM]
Build the program first, by `./prove`; or name another one of the same words. PEER is a program with the same `recover`, as the one in plain
Rust.

The logs are those of bench/logs.py, 65,536 updates of 16 threads. `restore` has areas with no checkpoint before them, `detect` the scripts,
`follow` the stream that `ship` makes of them, and `audit` the report of a `run` of the scripts in which the threads come by turns. That each
says what it must is looked at first. All commands run once in a repetition, in an order that turns with it. Printed are the median time, the
ratio to `recover` as the median of those within a repetition, its least and greatest, the same to the PEER, and the greatest memory. Ends with
1 where a command's least ratio of the two is above RATIO, 1.3 where none is named."""
import argparse
import os
import statistics
import subprocess
import sys
import tempfile
from pathlib import Path

from proved import TOP, proved_program
from standby import THREADS, UPDATES, Program

ACCOUNTS, ALL = 64, THREADS * UPDATES
SCRIPTS = [f"script{thread}" for thread in range(THREADS)]
OF_LOGS = ["restore", "detect", "follow", "audit"]


def call(place):
    """The update at a place in the logs of bench/logs.py."""
    return f"deposit {place % ACCOUNTS} 1"


def places(thread):
    return range(thread + 1, ALL + 1, THREADS)


def call_lines():
    return [f"call {thread} {number} {call(place)} -> ok at {place}"
            for thread in range(THREADS) for number, place in enumerate(places(thread), 1)]


def node_lines(flag=""):
    return [f"node {place} {(place - 1) % THREADS} {(place - 1) // THREADS + 1}{flag} {call(place)}" for place in range(1, ALL + 1)]


def log_lines(end=""):
    return [f"log {thread} entries {UPDATES} lines {1 + 2 * UPDATES}{end}" for thread in range(THREADS)]


STATE = ["state", f"bank {ACCOUNTS}", *(f"account {account} {1000 + ALL // ACCOUNTS}" for account in range(ACCOUNTS))]


def text_of(*parts):
    return "".join(f"{line}\n" for part in parts for line in part)


def make_files(program):
    subprocess.run([os.path.join(TOP, "bench", "logs.py"), "."], check=True)
    for thread, name in enumerate(SCRIPTS):
        Path(name).write_text(text_of(map(call, places(thread))))
    Path("report").write_text(text_of(call_lines(), [f"trace {ALL}"], node_lines(" set"), log_lines(f" fences {UPDATES}"),
                                      [f"recovered {ALL}"], STATE))
    assert program.run("areas", "ckpt")[0] == 0 and program.run("ship", "log", THREADS, "stream")[0] == 0
    return {
        "recover": (["recover", "bank", "log", THREADS], text_of(log_lines(), [f"recovered {ALL}"], node_lines(), STATE)),
        "restore": (["restore", "bank", "log", "ckpt", THREADS],
                    text_of(["no checkpoint"], log_lines(), [f"recovered {ALL}"], node_lines(), [f"place {ALL}"], STATE)),
        "detect": (["detect", "bank", "log", *SCRIPTS], text_of(call_lines(), [f"recovered {ALL}"])),
        "follow": (["follow", "bank", THREADS, "stream", 65536],
                   text_of([f"taken {os.path.getsize('stream')}", f"held {ALL}", f"followed {ALL}"], STATE)),
        "audit": (["audit", "bank", "report", *SCRIPTS], "legal\n"),
    }


def ratios(found, name, reference):
    return [one[0] / other[0] for one, other in zip(found[name], found[reference])]


def told(values):
    return f"{statistics.median(values):.2f} ({min(values):.2f} to {max(values):.2f})"


def asked():
    words = argparse.ArgumentParser(description=__doc__.splitlines()[0])
    words.add_argument("--runs", type=int, default=15)
    words.add_argument("--most", type=float, default=1.3)
    words.add_argument("--peer")
    words.add_argument("program", nargs="?")
    return words.parse_args()


def measured(commands, runs):
    """The seconds and the memory of each command, of each repetition."""
    found, names = {name: [] for name in commands}, list(commands)
    for run in range(runs):
        for at in range(len(names)):
            name = names[(at + run) % len(names)]
            which, words = commands[name]
            found[name].append(which.timed(*words))
    return found


def main():
    wanted = asked()
    program = Program(os.path.abspath(wanted.program) if wanted.program else proved_program())
    peer = wanted.peer and Program(os.path.abspath(wanted.peer))
    slow = []
    with tempfile.TemporaryDirectory() as folder:
        os.chdir(folder)
        rows = make_files(program)
        for name, (words, text) in rows.items():
            assert program.run(*words) == (0, text), f"{name} says something else"
        commands = {name: (program, words) for name, (words, _) in rows.items()}
        if peer:
            commands["recover of the peer"] = (peer, rows["recover"][0])
        found = measured(commands, wanted.runs)
        for name, times in found.items():
            of = {other: ratios(found, name, other) for other in ("recover", "recover of the peer") if other in found and other != name}
            print(f"{name}: {statistics.median(seconds for seconds, _ in times) * 1000:.1f} ms, {max(used for _, used in times):.0f} MB",
                  *(f"{told(values)} of {other}" for other, values in of.items()), sep="; ")
            if name in OF_LOGS and min(map(statistics.median, of.values())) > wanted.most:
                slow.append(name)
        os.chdir("/")
    if slow:
        print(f"more than {wanted.most}:", *slow)
    sys.exit(1 if slow else 0)


if __name__ == "__main__":
    main()
