#!/usr/bin/env python3
"""Measures an object that runs for ever beside what a user would take instead: the meter over eras, with as many updates by SQLite, LMDB,
a lock and a log, and bare syncs.
Usage: bench/ever.py [--program PATH] [--peers FOLDER] [--dir DIR] [--threads T,T..] [--each N] [--reps R]
Build the program first, by `rt run` in crates/onll_meter. FOLDER has the baselines of the yardsticks (`make -C baselines BIN=FOLDER`);
DIR has to be on a real disk.

All programs of a row make N updates on each of T threads over files, one program after the other in an order that turns with the
repetition. Printed are updates in a second by the median time, the least and greatest, and the ratio to bare syncs as the median of the
ratios within a repetition. Then the pause of an era's change: the time between the last update that is said before the new area holds its
state and the first one after; beside it a checkpoint of SQLite after as many updates."""
import argparse
import os
import selectors
import shutil
import sqlite3
import statistics
import subprocess
import sys
import tempfile
import time

from proved import TOP

ROOM = 4096
BASELINES = ["mutex_wal", "mutex_wal_group", "sqlite_wal", "lmdb_sync"]


def emptied(folder):
    shutil.rmtree(folder, ignore_errors=True)
    os.mkdir(folder)
    return folder


def seconds_of(command, folder):
    """The time that a program takes in an empty folder; none where it ends with another status than 0."""
    emptied(folder)
    begun = time.perf_counter()
    run = subprocess.run(command, cwd=folder, stdout=subprocess.DEVNULL, stderr=subprocess.DEVNULL, check=False)
    return time.perf_counter() - begun if run.returncode == 0 else None


def row(programs, threads, each, reps, folder):
    """The times of each program over the repetitions, those of starts with no update taken off."""
    times = {name: [] for name in programs}
    for rep in range(reps):
        order = list(programs)
        order = order[rep % len(order):] + order[: rep % len(order)]
        for name in order:
            took, start = (seconds_of(programs[name](threads, count), folder) for count in (each, 0))
            if took is None or start is None:
                sys.exit(f"{name} failed")
            times[name].append(took - start)
    floor = times["bare_fsync"]
    for name, took in times.items():
        ratio = statistics.median(mine / bare for mine, bare in zip(took, floor))
        speed = threads * each / statistics.median(took)
        least, most = threads * each / max(took), threads * each / min(took)
        print(f"{threads:3} {name:16} {speed:9.0f} a second ({least:.0f} to {most:.0f}) {ratio:6.2f} times bare syncs", flush=True)


class Eras:
    """The moments at which an area of the meter changed."""

    def __init__(self, folder):
        self.names = [os.path.join(folder, f"m.era.{area}") for area in (0, 1)]
        self.seen, self.at = self.stamps(), []

    def stamps(self):
        return [os.stat(name).st_mtime_ns if os.path.exists(name) else 0 for name in self.names]

    def look(self, now):
        stamps = self.stamps()
        if stamps != self.seen:
            # A save has more than one write.
            if not self.at or now - self.at[-1] > 0.002:
                self.at.append(now)
            else:
                self.at[-1] = now
            self.seen = stamps


def pauses(program, threads, each, folder):
    """How long each change of an era takes, from the last update said before it to the first after."""
    emptied(folder)
    eras, said = Eras(folder), []
    with subprocess.Popen([program, "m", str(threads), str(each)], cwd=folder, stdout=subprocess.PIPE) as run:
        waits = selectors.DefaultSelector()
        waits.register(run.stdout, selectors.EVENT_READ)
        while True:
            ready = waits.select(0.0005)
            now = time.perf_counter()
            eras.look(now)
            if ready:
                if not os.read(run.stdout.fileno(), 1 << 16):
                    break
                said.append(now)
    found = []
    for at in eras.at:
        before = max((moment for moment in said if moment <= at), default=None)
        after = min((moment for moment in said if moment > at), default=None)
        if before is not None and after is not None:
            found.append(after - before)
    return found


def sqlite_pause(updates, folder):
    """How long SQLite takes for a checkpoint after so many updates of one row."""
    emptied(folder)
    db = sqlite3.connect(os.path.join(folder, "db"), isolation_level=None)
    for pragma in ("journal_mode=WAL", "synchronous=FULL", "wal_autocheckpoint=0"):
        db.execute(f"PRAGMA {pragma}")
    db.execute("CREATE TABLE meter (count INTEGER)")
    db.execute("INSERT INTO meter VALUES (0)")
    for _ in range(updates):
        db.execute("UPDATE meter SET count = count + 1")
    begun = time.perf_counter()
    db.execute("PRAGMA wal_checkpoint(TRUNCATE)").fetchall()
    return time.perf_counter() - begun


def main():
    ask = argparse.ArgumentParser()
    ask.add_argument("--program", default=os.path.join(TOP, "crates", "onll_meter", "out", "onll_meter"))
    ask.add_argument("--peers", default=os.path.join(os.path.expanduser("~"), ".cache", "onll_peers", "bin"))
    ask.add_argument("--dir", default=".")
    ask.add_argument("--threads", default="1,4")
    ask.add_argument("--each", type=int, default=10 * ROOM)
    ask.add_argument("--reps", type=int, default=3)
    asked = ask.parse_args()
    program, peers = os.path.abspath(asked.program), os.path.abspath(asked.peers)
    above = tempfile.mkdtemp(prefix="onll_ever_", dir=asked.dir)
    folder = os.path.join(above, "run")
    programs = {
        "onll_meter": lambda threads, each: [program, "m", str(threads), str(each)],
        "bare_fsync": lambda threads, each: [os.path.join(peers, "bare_fsync"), str(threads), str(each), "1", "."],
    }
    for name in BASELINES:
        programs[name] = lambda threads, each, name=name: [os.path.join(peers, name), str(threads), str(each), "1", "."]
    try:
        for threads in (int(word) for word in asked.threads.split(",")):
            row(programs, threads, asked.each, asked.reps, folder)
            changes = pauses(program, threads, asked.each, folder)
            if not changes:
                sys.exit("no era changed: N has to be more than a log's room")
            least, most, middle = (f"{of(changes) * 1000:.1f}" for of in (min, max, statistics.median))
            print(f"{threads:3} pause of an era's change: {middle} ms ({least} to {most}, of {len(changes)})", flush=True)
        took = [sqlite_pause(ROOM, folder) for _ in range(asked.reps)]
        print(f"    checkpoint of SQLite after {ROOM} updates: {statistics.median(took) * 1000:.1f} ms", flush=True)
    finally:
        shutil.rmtree(above)


main()
