#!/usr/bin/env python3
"""Draws durable updates over files: the milliseconds of each program, by number of threads, beside bare syncs.

    bench/plot.py docs/durable.json > docs/durable.svg
    bench/plot.py --rows ROWS MACHINE > docs/durable.json

The second takes the rows of one run of the bench of peers on an idle machine (`bench.py --only files,mixed --json
ROWS`), and MACHINE in words.
The file has the machine, and for each part (updates alone, and updates with reads after each) what it is (`title`),
the numbers of threads, and
for each program (`name`) its median milliseconds at each number of threads (`ms`) and its ratio to bare syncs in the
same repetition (`ratio`).
"""

import json
import sys

COLOURS = ["#238b45", "#74c476", "#bdbdbd", "#fdae6b", "#fdd0a2", "#9ecae1", "#6baed6"]
NAMES = {"onll": "onll run", "onll_native": "same in plain Rust, unproved", "bare_fsync": "bare syncs", "mutex_wal": "a lock and a log",
         "mutex_wal_group": "lock, log, group commit", "sqlite_wal": "SQLite (WAL, full sync)", "lmdb_sync": "LMDB"}
LEFT, SCALE, BAR, GAP = 210, 0.75, 15, 26


def text(x, y, words, size=12, anchor="start", weight="normal"):
    return (f'<text x="{x}" y="{y}" font-family="sans-serif" font-size="{size}" '
            f'text-anchor="{anchor}" font-weight="{weight}">{words}</text>')


def group(part, number, y):
    """The bars of all programs at one number of threads, from this height down."""
    count = part["threads"][number]
    out = [text(12, y + 12, f"{count} thread{'s' if count > 1 else ''}", 13, weight="bold")]
    for colour, program in zip(COLOURS, part["programs"]):
        ms = program["ms"][number]
        out.append(text(LEFT - 8, y + 12, program["name"], 11, "end"))
        out.append(f'<rect x="{LEFT}" y="{y + 2}" width="{ms * SCALE:.1f}" height="{BAR - 3}" fill="{colour}"/>')
        out.append(text(f"{LEFT + ms * SCALE + 5:.1f}", y + 12, f'{ms:.0f} ({program["ratio"][number]:.2f})', 11))
        y += BAR
    return out


def draw(rows):
    """The parts below each other, in each one group of bars for each number of threads."""
    titles = [f'{part["title"]}: milliseconds, and the ratio to bare syncs' for part in rows["parts"]]
    widest = max(max(p["ms"]) for part in rows["parts"] for p in part["programs"])
    # (a bold letter of 14 pixels is 9 wide at most, in whatever font stands for sans-serif)
    width = int(max([LEFT + widest * SCALE + 90, 24 + 7 * len(rows["machine"]), *(24 + 9 * len(title) for title in titles)]))
    out, y = [], 20
    for title, part in zip(titles, rows["parts"]):
        out.append(text(12, y, title, 14, weight="bold"))
        y += 20
        if part is rows["parts"][0]:
            out.append(text(12, y, rows["machine"], 11))
        y += 22
        for number in range(len(part["threads"])):
            out += group(part, number, y)
            y += BAR * len(part["programs"]) + GAP
    head = [f'<svg xmlns="http://www.w3.org/2000/svg" width="{width}" height="{y}" viewBox="0 0 {width} {y}">',
            f'<rect width="{width}" height="{y}" fill="white"/>']
    return "\n".join(head + out + ["</svg>", ""])


def part_of(rows, what, title):
    """One part from the rows of the bench, whose `what` is as `files 4 x 1000`."""
    rows = [row for row in rows if row["what"].split()[0] == what]
    threads = sorted({int(row["what"].split()[1]) for row in rows})
    programs = []
    for name, words in NAMES.items():
        own = {int(row["what"].split()[1]): row for row in rows if row["program"] == name}
        if own:
            programs.append({"name": words, "ms": [round(own[count]["ms"], 1) for count in threads],
                             "ratio": [round(own[count]["ratio"], 2) for count in threads]})
    updates = rows[0]["what"].split()[3]
    return {"title": title.format(updates), "threads": threads, "programs": programs}


def gathered(rows, machine):
    parts = [part_of(rows, "files", "Durable updates, {} a thread")]
    if any(row["what"].startswith("mixed") for row in rows):
        parts.append(part_of(rows, "mixed", "Durable updates, {} a thread, with 19 reads after each"))
    return {"machine": machine, "parts": parts}


def main():
    with open(sys.argv[2] if sys.argv[1] == "--rows" else sys.argv[1], encoding="utf-8") as file:
        rows = json.load(file)
    if sys.argv[1] == "--rows":
        json.dump(gathered(rows, sys.argv[3]), sys.stdout, indent=1)
        print()
    else:
        sys.stdout.write(draw(rows))


if __name__ == "__main__":
    main()
