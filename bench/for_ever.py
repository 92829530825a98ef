#!/usr/bin/env python3
"""Kills `onll_meter` at random moments, again and again, also while an era changes, until it has counted so much, and compares what it said.
Usage: bench/for_ever.py [--program PATH] [--clerks N] [--vary] [--updates N] [--kills N] [--minutes N] [--seed S]
Build the program first, by `rt run` in crates/onll_meter; or name another one of the same words. It ends at the first of: so many updates
and so many kills, or the minutes.

All starts are over one set of files. Of them:
- no total is acknowledged twice, over all starts and eras;
- each total of a start is greater than each that was acknowledged before it began, so nothing that was said is lost;
- each is at most as great as the number of acknowledged counts, with one more for each clerk and kill;
- the era that a start tells is never less than the one before;
- the files take no more than two eras' logs and two areas;
- the last start isn't killed: it ends with 0, and its total is no less than any and at most one more for each clerk and kill.
How often an area's number changed says how many eras began. Some kills come as soon as the next area's file changes, which is while the era
does. Ends with 0, or says what went otherwise and ends with 1."""
import argparse
import os
import random
import signal
import subprocess
import sys
import tempfile
import time

from proved import TOP

# What a log takes: 64 bytes for each entry with one line for each thread and one of its own, and some lines before them.
ROOM, LINE, BEFORE = 4096, 64, 64


class Chain:
    """Starts over one set of files, and what they acknowledged."""

    def __init__(self, program, clerks, vary, chance, folder):
        self.program, self.clerks, self.vary, self.chance, self.folder = os.path.abspath(program), clerks, vary, chance, folder
        self.said, self.greatest, self.kills, self.changing, self.starts, self.eras, self.size = set(), 0, 0, 0, 0, 0, 0
        self.wrong = []

    def told(self, text):
        self.wrong.append(f"start {self.starts}: {text}")

    def era(self):
        """The greatest number that an area begins with, by the file's words, or 0. A save that was cut off has none that counts."""
        most = 0
        for area in (0, 1):
            number = number_in(os.path.join(self.folder, f"m.era.{area}"))
            most = max(most, number)
        return most

    def start(self, each, killed):
        """One start, which is killed by `killed`, a function that waits for the moment; or isn't, where there is none."""
        self.starts += 1
        out = os.path.join(self.folder, "said")
        clerks = self.chance.randint(1, self.clerks) if self.vary else self.clerks
        with open(out, "wb") as file:
            with subprocess.Popen([self.program, "m", str(clerks), str(each)], cwd=self.folder, stdout=file) as run:
                if killed:
                    killed(run)
                    run.send_signal(signal.SIGKILL)
                run.wait()
        if run.returncode == -signal.SIGKILL:
            self.kills += 1
        with open(out, "rb") as file:
            # A line that was cut short is no acknowledgement.
            lines = file.read().decode().split("\n")[:-1]
        self.compare(lines, run.returncode)
        self.measure()
        return lines, run.returncode

    def compare(self, lines, status):
        """What a start acknowledged, beside all that was before it."""
        totals = [int(line.split()[2]) for line in lines if line.startswith("counted ")]
        others = [line for line in lines if not line.startswith("counted ")]
        fresh = set(totals)
        if len(fresh) != len(totals) or fresh & self.said:
            self.told("a total was acknowledged twice")
        if totals and min(totals) <= self.greatest:
            self.told(f"{min(totals)} was acknowledged after {self.greatest} was in an earlier start")
        self.said |= fresh
        self.greatest = max([self.greatest, *totals])
        most = len(self.said) + self.clerks * self.starts
        if self.greatest > most:
            self.told(f"{self.greatest} was acknowledged, and {len(self.said)} counts in {self.starts} starts")
        if status not in (0, -signal.SIGKILL):
            self.told(f"ended with {status}: {others[-2:]}")
        if status == 0:
            self.ended(others)

    def ended(self, others):
        """A start that wasn't killed: what it says at its end."""
        words = others[0].replace(",", "").split() if others else []
        if len(others) != 2 or others[1] != "kept" or len(words) != 4:
            return self.told(f"said {others[-3:]}")
        era, total = int(words[1]), int(words[2])
        if era < self.eras:
            self.told(f"era {era} after {self.eras}")
        if not max(self.greatest, len(self.said)) <= total <= len(self.said) + self.clerks * self.kills:
            self.told(f"{total} counted, where {len(self.said)} were acknowledged in {self.starts} starts with {self.kills} kills")
        self.greatest = max(self.greatest, total)

    def measure(self):
        """How much the files take, and in which era they are."""
        names = [name for name in os.listdir(self.folder) if name != "said"]
        for name in names:
            size = os.path.getsize(os.path.join(self.folder, name))
            most = LINE * (self.clerks + 1) * ROOM + LINE * BEFORE
            if size > most:
                self.told(f"{name} takes {size} bytes, more than {most}")
        self.size = max(self.size, sum(os.path.getsize(os.path.join(self.folder, name)) for name in names))
        # Two logs a thread, two areas, and a lock for each name.
        if len(names) > 2 * self.clerks + 2 + 3:
            self.told(f"{len(names)} files: {sorted(names)}")
        era = self.era()
        if era < self.eras:
            self.told(f"era {era} after {self.eras}")
        self.eras = max(self.eras, era)

    def kill_after(self, seconds):
        return lambda run: time.sleep(seconds)

    def kill_at_change(self):
        """Kills within a moment of the change of a file of the next era's logs or of its area: the era is changing."""
        def wait(run):
            other = (self.era() + 1) % 2
            names = [os.path.join(self.folder, f"m.era.{other}"), os.path.join(self.folder, f"m.era.{other}.0")]
            seen, until = stamps(names), time.time() + 20
            while stamps(names) == seen and run.poll() is None and time.time() < until:
                pass
            time.sleep(self.chance.choice([0, 0, 0.0002, 0.0005, 0.001, 0.003]))
            self.changing += run.poll() is None
        return wait


def stamps(names):
    """The moment of each file's last change, and its size."""
    found = []
    for name in names:
        try:
            it = os.stat(name)
            found.append((it.st_mtime_ns, it.st_size, it.st_ino))
        except FileNotFoundError:
            found.append(None)
    return found


def number_in(path):
    """The number of an area's checkpoint, or 0 where its first line is none (docs/FORMATS.md)."""
    try:
        with open(path, "rb") as file:
            line = file.read(64)
    except FileNotFoundError:
        return 0
    if len(line) < 64:
        return 0
    words = [int.from_bytes(line[at:at + 8], "little") for at in range(0, 64, 8)]
    guard = 2 ** 63 + sum(2 ** at for at in range(7) if words[at])
    return words[1] if line.startswith(b"ONLLCKP1") and words[7] == guard else 0


def run_chain(asked, folder):
    """Starts until there is enough, and a last one that isn't killed."""
    chance = random.Random(asked.seed)
    chain = Chain(asked.program, asked.clerks, asked.vary, chance, folder)
    until = time.time() + 60 * asked.minutes
    while not chain.wrong and time.time() < until and (chain.kills < asked.kills or chain.greatest < asked.updates):
        moment = chain.kill_at_change() if chance.random() < 0.4 else chain.kill_after(chance.uniform(0.001, asked.longest))
        chain.start(1_000_000, moment)
    if not chain.wrong:
        chain.start(chance.randint(0, 6000), None)
    return chain


def main():
    ask = argparse.ArgumentParser()
    ask.add_argument("--program", default=os.path.join(TOP, "crates/onll_meter/out/onll_meter"))
    ask.add_argument("--clerks", type=int, default=3)
    ask.add_argument("--vary", action="store_true", help="each start has a random number of clerks, up to so many")
    ask.add_argument("--updates", type=int, default=200_000)
    ask.add_argument("--kills", type=int, default=200)
    ask.add_argument("--minutes", type=float, default=10)
    ask.add_argument("--longest", type=float, default=2, help="seconds before a kill, at most")
    ask.add_argument("--seed", type=int, default=1)
    asked = ask.parse_args()
    with tempfile.TemporaryDirectory() as folder:
        chain = run_chain(asked, folder)
    for text in chain.wrong:
        print(text)
    print(f"{chain.kills} kills, {chain.changing} of them while an era changed, {chain.eras} eras begun, {chain.greatest} updates, "
          f"{len(chain.said)} acknowledged, {chain.size} bytes of files at most, {len(chain.wrong)} wrong")
    return 1 if chain.wrong else 0


if __name__ == "__main__":
    sys.exit(main())
