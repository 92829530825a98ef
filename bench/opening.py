#!/usr/bin/env python3
"""Kills `onll_count` at each of its calls to the system, fails each call, and loses what no sync made durable; changes its files between
two runs; and checks what the next run finds.
Usage: bench/opening.py [PROGRAM]
Build the program first, by `rt run` in crates/onll_count; or name another one of the same words. It wants a C compiler (`cc`).

Each case is over no files, files of zeros, files of which no thread made use, files one of which has no header yet, and files with the
entries of two threads; two threads add by turns, two times each.
- A run is killed before each call, and in the midst of each write. The next goes on from what was there and was acknowledged, and from one
  more exactly where the entry of an add was written whole and no line says so.
- Each call fails with EIO, and each write with ENOSPC. While the counter is opened the run says which file failed, ends with 1 and has
  added nothing; a length that can't be had is no fault where it only says how much memory to take (the second of a file's two). A failed
  write or sync of an add breaks its thread alone, whose adds are refused from then on: the one that failed is found later exactly where the
  other thread has added after it, whose entry has it too. A sync that fails when the logs are kept says which file, and all is found.
- Each sync fails, and the process is killed before each later call or not at all, or it ends and the process that goes on is; then the
  power fails, which takes all that was written since the last good sync of its file. All that was acknowledged is found.
- Files that are cut, emptied, replaced, swapped, removed or made longer are refused by name, or found whole; a second process is refused
  while one has the name.
Ends with 0, or names each case that went otherwise and ends with 1."""
import errno
import os
import subprocess
import sys
import tempfile

from failing import Outside
from memory import files_of
from proved import TOP

THREADS, TIMES = 2, 2
ADD, LOOK = ["k", "2", str(TIMES)], ["k", "2", "0"]
ZEROS = {"k.0": bytes(64), "k.1": bytes(64)}
wrong = []


def expect(case, holds, *told):
    if not holds:
        wrong.append(case)
        print(f"{case}:", *told)


def found_by(lines):
    """How many updates a run found, where it says so."""
    return int(lines[0].split()[3]) if lines and lines[0].startswith("goes on from ") else None


def added(lines):
    return sum(line.startswith("added ") for line in lines)


def unsaid(lines):
    """How many adds that failed must be found, since another was made after them, and how many may be."""
    broken, must, may = set(), 0, 0
    for line in lines:
        if line.startswith("not added ") and line not in broken:
            broken.add(line)
            may += 1
        if line.startswith("added "):
            must = may
    return must, may


def expect_next(outside, case, least, most):
    """The next run finds so many updates."""
    status, lines = outside.run(LOOK)
    found = found_by(lines)
    expect(case, status == 0 and lines[1:] == ["kept"] and least <= found <= most, f"status {status}, {lines} for {least} to {most}")


def under_way(calls):
    """Whether these calls, up to a kill, wrote an entry of which no line says that it was added."""
    if "write output" not in calls:
        return 0
    since = calls[len(calls) - calls[::-1].index("write output"):]
    return int(any(call.startswith("write k.") for call in since))


def kills(outside, start, files, base, calls):
    """Kills a run before each call and in the midst of each write; gives how often."""
    count = 0
    for n, call in enumerate(calls, 1):
        for how in ("KILL", "CUT") if call.startswith("write ") else ("KILL",):
            outside.put(files)
            status, lines = outside.run(ADD, **{how: n})
            case = f"{start}, {how} at call {n}, {call}"
            expect(case, status == -9, f"status {status}")
            found = base + added(lines) + under_way(calls[:n - 1])
            expect_next(outside, case, found, found)
            count += 1
    return count


def turns_after(thread, turn):
    """What a run says of its adds where that of this turn, this thread's, failed."""
    lines, count = [], 0
    for at in range(THREADS * TIMES):
        if at >= turn and at % THREADS == thread:
            lines.append(f"not added {thread}")
        else:
            count += 1
            lines.append(f"added {at % THREADS} {count}")
    return lines


def expect_failed(case, ran, whole, calls, n):
    """What a run says in which this call failed, one of those that a whole run makes."""
    status, lines = ran
    name, turn = calls[n - 1].split()[1], calls[:n - 1].count("write output") - 1
    if calls[n - 1].startswith("stat ") and (turn >= 0 or calls[n - 2] == calls[n - 1]) and (status, lines) == whole:
        return
    if turn < 0:
        # A folder is synced for the file that was written before. The name is locked for all files.
        name = calls[n - 3].split()[1] if name == "." else "logs k" if name == "k.lock" else name
        expect(case, status == 1 and len(lines) == 1 and name in lines[0], f"status {status}, {lines}")
    elif turn < THREADS * TIMES:
        expect(case, (status, lines) == (0, [whole[1][0], *turns_after(turn % THREADS, turn), "kept"]), f"status {status}, {lines}")
    else:
        expect(case, status == 1 and lines[:-1] == whole[1][:-1] and name in lines[-1], f"status {status}, {lines}")


def fails(outside, start, files, base, calls, whole):
    """Fails each call but those that print; gives how often."""
    count = 0
    for n, call in enumerate(calls, 1):
        for error in (errno.EIO, errno.ENOSPC) if call.startswith("write ") else (errno.EIO,):
            if call == "write output":
                continue
            outside.put(files)
            ran = outside.run(ADD, FAIL=n, ERRNO=error)
            case = f"{start}, {errno.errorcode[error]} at call {n}, {call}"
            expect_failed(case, ran, whole, calls, n)
            must, may = unsaid(ran[1])
            expect_next(outside, case, base + added(ran[1]) + must, base + added(ran[1]) + may)
            count += 1
    return count


def expect_lasting(outside, case, runs, base):
    """After a loss of power all that these runs had acknowledged is found, and at most one more of each that was killed or of each
    thread that broke."""
    lines = [line for _, lines in runs for line in lines]
    must, may = unsaid(lines)
    killed = sum(status == -9 for status, _ in runs)
    outside.put(files_of(outside.disk))
    expect_next(outside, case, base + added(lines) + must, base + added(lines) + may + killed)


def steps(calls, first):
    """The numbers of these calls from the first on, without those that only go on with a write of zeros."""
    return [n for n in range(first, len(calls) + 1) if n == 1 or calls[n - 1] != calls[n - 2]]


def losses(outside, start, files, base, calls):
    """Fails each sync, ends the run or the next one at each call, and then the power; gives how many such losses."""
    count = 0
    for n, call in enumerate(calls, 1):
        if not call.startswith("sync "):
            continue
        lost = {"FAIL": n, "ERRNO": errno.EIO, "DISK": outside.disk}
        outside.put(files)
        outside.put(files, outside.disk)
        failed = outside.run(ADD, **lost)
        later, disk, left = outside.calls(), files_of(outside.disk), files_of(outside.files)
        expect_lasting(outside, f"{start}, {call} at call {n} lost", [failed], base)
        for kill in steps(later, n + 1):
            outside.put(files)
            outside.put(files, outside.disk)
            ran = outside.run(ADD, KILL=kill, **lost)
            expect_lasting(outside, f"{start}, {call} at call {n} lost, killed at call {kill}", [ran], base)
            count += 1
        outside.put(left)
        outside.run(ADD)
        for kill in steps(outside.calls(), 1):
            outside.put(left)
            outside.put(disk, outside.disk)
            ran = outside.run(ADD, KILL=kill, DISK=outside.disk)
            expect_lasting(outside, f"{start}, {call} at call {n} lost, the next run killed at call {kill}", [failed, ran], base)
            count += 1
    return count


def end_of(data):
    """Where the entries of a log end."""
    return (len(data.rstrip(b"\0")) + 63) // 64 * 64


def changes(two, other, begun):
    """Files that were changed, and what is said of each: of two threads with three adds each, of another counter with five each, and of
    one that has none."""
    first, last = two["k.0"], two["k.1"]
    noise = bytes(range(256))[::-1]
    end = end_of(last)
    return {
        # Nothing tells that there was a last place. Of a place below that of an entry it is told.
        "the last entry cut in its midst": ({"k.1": last[:end - 28]}, "goes on from 5"),
        "an entry cut in its midst, and the other log goes on": ({"k.0": first[:end_of(first) - 28]}, "place 5 is missing"),
        "emptied": ({"k.0": b""}, "k.0"),
        # All that tells of a run is gone, so one is begun.
        "both emptied": ({"k.0": b"", "k.1": b""}, "goes on from 0"),
        "both missing": ({"k.0": None, "k.1": None}, "goes on from 0"),
        "less than a line": ({"k.1": bytes(63)}, "k.1"),
        "zeros": ({"k.1": bytes(len(last))}, "k.1"),
        "missing": ({"k.1": None}, "k.1"),
        "garbage": ({"k.1": noise}, "k.1"),
        "another counter's, with more entries": ({"k.0": other["k.0"]}, "place 8 is missing"),
        "another counter's, without entries": ({"k.0": begun["k.0"]}, "place 1 is missing"),
        "swapped": ({"k.0": last, "k.1": first}, "log 0 is not of this run"),
        "longer by zeros": ({"k.0": first + bytes(1000)}, "goes on from 6"),
        "longer by garbage": ({"k.0": first + noise}, "goes on from 6"),
        "garbage behind the entries": ({"k.1": last[:end] + noise + last[end + 256:]}, "goes on from 6"),
    }


def expect_change(outside, case, two, changed, told):
    """A run over changed files says this; where it is refused it changes none."""
    files = {name: data for name, data in {**two, **changed}.items() if data is not None}
    outside.put(files)
    status, lines = outside.run(LOOK)
    expect(case, status == int(not told.startswith("goes")) and lines and told in lines[0], f"status {status}, {lines}")
    expect(case, status == 0 or files_of(outside.files) == files, "refused, and a file changed")


def expect_one_user(outside):
    """While a process has the name another is refused; killed, it gives the name back."""
    outside.put(ZEROS)
    first = subprocess.Popen([outside.program, "k", "2", "60000"], cwd=outside.files, stdout=subprocess.PIPE, text=True)
    head = first.stdout.readline()
    status, lines = outside.run(LOOK)
    first.kill()
    acknowledged = added((head + first.communicate()[0]).split("\n")[:-1])
    expect("a second process", status == 1 and len(lines) == 1 and "k" in lines[0] and "in use" in lines[0], f"status {status}, {lines}")
    expect_next(outside, "after the first was killed", acknowledged, acknowledged + 1)


def made(outside, times):
    """The files of a new counter to which each thread added so often."""
    outside.put(ZEROS)
    status, lines = outside.run(["k", "2", str(times)])
    expect(f"{times} times", status == 0 and added(lines) == THREADS * times, lines)
    return files_of(outside.files)


def main():
    program = os.path.abspath(sys.argv[1]) if len(sys.argv) > 1 else os.path.join(TOP, "crates", "onll_count", "out", "onll_count")
    with tempfile.TemporaryDirectory() as work:
        outside = Outside(program, work)
        begun, two, other = made(outside, 0), made(outside, 3), made(outside, 5)
        headless = {**begun, "k.1": bytes(64)}
        starts = {"no files": ({}, 0), "zeros": (ZEROS, 0), "begun": (begun, 0), "a log without a header": (headless, 0), "entries": (two, 6)}
        for start, (files, base) in starts.items():
            outside.put(files)
            whole = outside.run(ADD)
            calls = outside.calls()
            expect(start, whole == (0, [f"goes on from {base}", *turns_after(THREADS, 0), "kept"]), whole)
            counts = kills(outside, start, files, base, calls), fails(outside, start, files, base, calls, whole)
            lost = losses(outside, start, files, base, calls)
            print(f"{start}: {len(calls)} calls, {counts[0]} kills, {counts[1]} failures, {lost} losses")
        for case, (changed, told) in changes(two, other, begun).items():
            expect_change(outside, case, two, changed, told)
        expect_one_user(outside)
    print(f"{len(wrong)} cases went otherwise")
    sys.exit(1 if wrong else 0)


if __name__ == "__main__":
    main()
