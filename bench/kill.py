#!/usr/bin/env python3
"""Kills runs over the files of the system at random moments, and checks what is recovered of the logs that they leave.
Usage: bench/kill.py [KILLS [SEED [PROGRAM]]]
Build the program first, by `./prove`; or name another one of the same words.

Each run has four threads of 1,000 updates, each update another one, and is killed by signal 9 at a moment between its start and
the time that a whole run takes; a run that ends before that is done again. Where every log has its first line, `recover` must answer 0,
and of each thread its nodes must be the first updates of the thread's script in their order: as many as its log has entries, or
one more, which another thread has logged; and `detect` must print each of these with its reply and its place, all others as lost.
A run that is killed before every log has a line is counted apart: a log may then be
missing, or be no log yet, but nothing else is recovered of it than nothing. `bench/chains.py` goes on from what a kill leaves."""
import os
import random
import subprocess
import sys
import tempfile
import time

from proved import proved_program

TOP = os.path.dirname(os.path.dirname(os.path.abspath(__file__)))
THREADS, UPDATES = 4, 1000
LOGS = [f"log.{thread}" for thread in range(THREADS)]
SCRIPTS = [[f"deposit {thread} {number}" for number in range(1, UPDATES + 1)] for thread in range(THREADS)]


def asked():
    """The arguments of a script of this kind, and what stands for those that aren't there: how many, the random choices, the program."""
    count = int(sys.argv[1]) if len(sys.argv) > 1 else None
    rng = random.Random(int(sys.argv[2]) if len(sys.argv) > 2 else 1)
    return count, rng, os.path.abspath(sys.argv[3]) if len(sys.argv) > 3 else proved_program()


def make_bank():
    with open("bank", "w") as file:
        file.write(f"bank {THREADS}\n")


def make_scripts(name, scripts):
    """Writes the scripts of all threads, and gives the names of their files."""
    names = [f"{name}{thread}" for thread in range(THREADS)]
    for file_name, script in zip(names, scripts):
        with open(file_name, "w") as file:
            file.writelines(call + "\n" for call in script)
    return names


def remove_logs():
    for log in LOGS:
        if os.path.exists(log):
            os.remove(log)


def start(program, command, scripts):
    """Starts a run of these scripts, by `run` or by `resume`, over the logs that are there."""
    with open("report", "w") as report:
        return subprocess.Popen([program, command, "bank", "log", *scripts], stdout=report)


def whole_time(program, command, scripts):
    """How many seconds a run takes that isn't killed."""
    begin = time.monotonic()
    assert start(program, command, scripts).wait() == 0
    return time.monotonic() - begin


def killed(run, seconds, wanted=0):
    """Whether a run is killed after so many seconds, and has not ended before, which it does with this status alone."""
    time.sleep(seconds)
    run.kill()
    status = run.wait()
    assert status in (wanted, -9), status
    return status == -9


def has_first_line(name):
    if not os.path.exists(name):
        return False
    with open(name, "rb") as file:
        return any(file.read(64))


def recover(program):
    done = subprocess.run([program, "recover", "bank", "log", str(THREADS)], capture_output=True)
    return done.returncode, done.stdout.decode()


def detect(program, scripts):
    """What is said of each update of these scripts."""
    done = subprocess.run([program, "detect", "bank", "log", *scripts], capture_output=True)
    return done.returncode, done.stdout.decode()


def expect_detected(program, scripts, report):
    """Asserts that each update that is recovered is told with its reply and its place, and each other one as lost."""
    nodes = nodes_of(report)
    places = {(thread, call): place for place, (thread, call) in enumerate(nodes, 1)}
    lines = []
    for thread, script in enumerate(SCRIPTS):
        for number, call in enumerate(script, 1):
            place = places.get((thread, call))
            lines.append(f"call {thread} {number} {call} -> " + (f"ok at {place}" if place else "lost"))
    status, told = detect(program, scripts)
    assert status == 0 and told.splitlines() == [*lines, f"recovered {len(nodes)}"], told


def nodes_of(report):
    """The thread and the call of each node of a recovery, by place. Each has its place, and the next number of its thread."""
    counts, nodes = [0] * THREADS, []
    for line in report.splitlines():
        if line.startswith("node "):
            _, at, thread, number, call = line.split(maxsplit=4)
            thread = int(thread)
            counts[thread] += 1
            nodes.append((thread, call))
            assert int(at) == len(nodes) and int(number) == counts[thread], report
    assert f"recovered {len(nodes)}" in report.splitlines(), report
    return nodes


def entries_of(report):
    """How many entries each log of a recovery has."""
    entries = []
    for thread, line in enumerate(report.splitlines()[:THREADS]):
        words = line.split()
        assert words[:2] == ["log", str(thread)] and words[2] in ("entries", "empty"), report
        entries.append(int(words[3]) if words[2] == "entries" else 0)
    return entries


def counts_of(nodes, scripts):
    """How many nodes each thread has, which are the first updates of its script in their order."""
    counts = [0] * THREADS
    for thread, call in nodes:
        assert counts[thread] < len(scripts[thread]) and call == scripts[thread][counts[thread]], (thread, counts[thread] + 1, call)
        counts[thread] += 1
    return counts


def expect_balances(report, nodes):
    """Each thread deposits into the account of its number, and the balance is the sum."""
    balances = [0] * THREADS
    for thread, call in nodes:
        balances[thread] += int(call.split()[2])
    for thread, balance in enumerate(balances):
        assert f"account {thread} {balance}" in report.splitlines(), report


def expect_recovered(report):
    """Asserts what is said of logs that have all begun, and gives how many updates were recovered."""
    nodes = nodes_of(report)
    for count, entries in zip(counts_of(nodes, SCRIPTS), entries_of(report)):
        assert 0 <= count - entries <= 1, report
    expect_balances(report, nodes)
    return len(nodes)


def expect_early(status, report):
    """Asserts what is said where a log has no line yet, and gives its name."""
    if status == 0:
        assert nodes_of(report) == [], report
        return "nothing recovered"
    if status == 5:
        assert report.startswith("read fault log."), report
        return "no file"
    assert status == 4 and report.startswith("log ") and report.endswith(" not a log\n"), report
    return "not a log"


def tell_early(early):
    for found, count in sorted(early.items()):
        print(f"{count} before that: {found}")


def main():
    kills, rng, program = asked()
    kills = 200 if kills is None else kills
    recovered, early = [], {}
    with tempfile.TemporaryDirectory() as folder:
        os.chdir(folder)
        make_bank()
        scripts = make_scripts("script", SCRIPTS)
        times = []
        for _ in range(3):
            remove_logs()
            times.append(whole_time(program, "run", scripts))
        while len(recovered) + sum(early.values()) < kills:
            remove_logs()
            if not killed(start(program, "run", scripts), rng.uniform(0, min(times))):
                continue
            begun = all(has_first_line(log) for log in LOGS)
            status, report = recover(program)
            if begun:
                assert status == 0, report
                recovered.append(expect_recovered(report))
                expect_detected(program, scripts, report)
            else:
                found = expect_early(status, report)
                early[found] = early.get(found, 0) + 1
    recovered.sort()
    print(f"{kills} kills within {min(times):.2f} seconds, none failing")
    if recovered:
        print(f"{len(recovered)} once every log had a line: of {THREADS * UPDATES} updates {recovered[0]} to {recovered[-1]} recovered, "
              f"{recovered[len(recovered) // 2]} in the middle")
    tell_early(early)


if __name__ == "__main__":
    main()
