#!/usr/bin/env python3
"""Draws a replay as lanes, one a thread: what each step of the schedule does, what each log keeps at the crash, and what recovers.

    bench/lanes.py PROGRAM INIT SCHEDULE SCRIPT.. > picture.svg

All that is drawn is read from what PROGRAM prints and writes: the schedule is replayed once for each of its fronts, and a step's kind
is the difference between two fronts that follow each other.
"""

import subprocess
import sys
import tempfile
from pathlib import Path

ALL = 2**64 - 1

# The first words of reads.
READS = {"balance", "total", "get", "next", "count", "front", "length", "holder"}

KINDS = {
    "tail": ("T", "#9ecae1", "load the tail"),
    "exchange": ("X", "#fdae6b", "exchange: the update has its place"),
    "walk": ("w", "#deebf7", "walk: load a flag"),
    "line": ("L", "#c7e9c0", "write a line"),
    "back": ("b", "#e5f5e0", "write it back"),
    "fence": ("F", "#31a354", "fence"),
    "flag": ("S", "#fd8d3c", "set the flag, and return"),
    "return": ("R", "#bcbddc", "a read returns"),
    "rest": ("-", "#f0f0f0", "nothing is left to do"),
}


def steps_of(schedule):
    """The thread of each step, and the number of the crash."""
    steps, keep = [], 0
    for line in Path(schedule).read_text().splitlines():
        words = line.split()
        if not words or words[0].startswith("#"):
            continue
        if words[0] == "crash":
            keep = int(words[1])
        else:
            steps += [int(words[0])] * int(words[1])
    return steps, keep


class Front:
    """What a replay of the first steps prints and writes."""

    def __init__(self, program, init, scripts, steps, keep):
        with tempfile.TemporaryDirectory() as folder:
            plan = Path(folder, "plan")
            turns = "".join(f"{t} 1\n" for t in steps)
            plan.write_text(f"{turns}crash {keep}\n")
            logs = str(Path(folder, "log"))
            done = subprocess.run(
                [program, "replay", init, str(plan), logs, *scripts],
                stdout=subprocess.PIPE, check=True, text=True)
            self.images = [Path(f"{logs}.{t}").read_bytes() for t in range(len(scripts))]
        self.calls, self.flags, self.logs = {}, [], []
        self.recovered = 0
        for line in done.stdout.splitlines():
            words = line.split()
            if words[0] == "call":
                self.calls[int(words[1]), int(words[2])] = line.split("->")
            elif words[0] == "node":
                self.flags.append(words[4] == "set")
            elif words[0] == "log":
                self.logs.append([int(n) for n in (words[3], words[5], words[7])])
            elif words[0] == "recovered":
                self.recovered = int(words[1])

    def end_of(self, thread):
        """How a thread's newest call stands: its number, what it is, and what became of it."""
        numbers = [n for (t, n) in self.calls if t == thread]
        if not numbers:
            return 0, "", ""
        call, end = self.calls[thread, max(numbers)]
        return max(numbers), " ".join(call.split()[3:]), end.strip()


def kind_of(thread, before, after, wrote):
    """What a step of a thread did, by what stood before and after it; `wrote` says whether its call has written a line."""
    if len(after.flags) > len(before.flags):
        return "exchange"
    if sum(after.flags) > sum(before.flags):
        return "flag"
    if after.logs[thread][2] > before.logs[thread][2]:
        return "fence"
    if after.images[thread] != before.images[thread]:
        return "line"
    old, new = before.end_of(thread), after.end_of(thread)
    if " at " in new[2] and new != old and not new[2].startswith("ordered"):
        return "return"
    if new[0] > old[0]:
        return "tail"
    if new == old and (new[0] == 0 or " at " in new[2] and not new[2].startswith("ordered")):
        return "rest"
    if new[2].startswith("running"):
        return "walk" if new[1].split()[0] in READS else "tail"
    return "back" if wrote else "walk"


def kinds_of(fronts, steps):
    """The kind of each step."""
    kinds, wrote = [], {}
    for i, thread in enumerate(steps):
        kind = kind_of(thread, fronts[i], fronts[i + 1], wrote.get(thread, False))
        if kind == "line":
            wrote[thread] = True
        elif kind in ("fence", "exchange"):
            wrote[thread] = False
        kinds.append(kind)
    return kinds


def text(x, y, words, size=12, anchor="start", weight="normal"):
    words = words.replace("&", "&amp;").replace("<", "&lt;").replace(">", "&gt;")
    return (f'<text x="{x}" y="{y}" font-family="monospace" font-size="{size}" '
            f'text-anchor="{anchor}" font-weight="{weight}">{words}</text>')


def draw(steps, kinds, crash, last, keep):
    """The picture: a lane a thread, the crash, and what is recovered."""
    threads, cell, lane, left, top = len(last.logs), 30, 64, 84, 44
    width = left + cell * len(steps) + 330
    height = top + lane * threads + 26 * ((len(KINDS) + 2) // 3) + 34
    out = [f'<svg xmlns="http://www.w3.org/2000/svg" width="{width}" height="{height}" '
           f'viewBox="0 0 {width} {height}">',
           f'<rect width="{width}" height="{height}" fill="white"/>',
           text(left, 18, "steps, one after the other", 12)]
    end = left + cell * len(steps) + 8
    for t in range(threads):
        y = top + lane * t
        out.append(text(8, y + 22, f"thread {t}", 13, weight="bold"))
        out.append(f'<line x1="{left}" y1="{y + 16}" x2="{end}" y2="{y + 16}" stroke="#cccccc"/>')
        number, call, became = last.end_of(t)
        out.append(text(left, y + 46, f"{call} -> {became}" if number else "no call has begun", 11))
        entries, lines, fences = crash.logs[t]
        said = f"log {t}: entries {entries} lines {lines} fences {fences}"
        out.append(text(end + 14, y + 20, said, 12))
    for i, (thread, kind) in enumerate(zip(steps, kinds)):
        letter, colour, _ = KINDS[kind]
        x, y = left + cell * i, top + lane * thread
        out.append(f'<rect x="{x + 2}" y="{y + 3}" width="{cell - 4}" height="26" rx="4" '
                   f'fill="{colour}" stroke="#555555"/>')
        out.append(text(x + cell // 2, y + 21, letter, 13, "middle", "bold"))
    bottom = top + lane * threads
    out.append(f'<line x1="{end}" y1="26" x2="{end}" y2="{bottom}" stroke="#d62728" stroke-width="3"/>')
    out.append(text(end + 14, 18, f"crash {keep}", 13, weight="bold"))
    out.append(text(end + 14, bottom + 6, f"recovered: places 1 to {crash.recovered} of {len(last.flags)}"
                    if crash.recovered else "recovered: nothing", 13, weight="bold"))
    for i, (letter, colour, what) in enumerate(KINDS.values()):
        x, y = 8 + 290 * (i % 3), bottom + 28 + 26 * (i // 3)
        out.append(f'<rect x="{x}" y="{y}" width="22" height="20" rx="4" fill="{colour}" stroke="#555555"/>')
        out.append(text(x + 11, y + 15, letter, 12, "middle", "bold"))
        out.append(text(x + 30, y + 15, what, 12))
    return "\n".join(out + ["</svg>", ""])


def main():
    program, init, schedule, *scripts = sys.argv[1:]
    steps, keep = steps_of(schedule)
    fronts = [Front(program, init, scripts, steps[:n], ALL) for n in range(len(steps) + 1)]
    crash = Front(program, init, scripts, steps, keep)
    sys.stdout.write(draw(steps, kinds_of(fronts, steps), crash, fronts[-1], keep))


if __name__ == "__main__":
    main()
