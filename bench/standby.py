#!/usr/bin/env python3
"""Follows streams of logs with the program, compares what it says with a decoder that shares no code with it, and measures it.
Usage: bench/standby.py [--streams STREAMS] [--seed SEED] [--runs RUNS] [--peer PEER] [PROGRAM]
Build the program first, by `./prove`; or name another one of the same words.

Each stream is of 16 threads over a bank: entries of 1 to 16 updates, each thread's in their order, and all in a random one. It is cut at
a random byte and fed in pieces of a random length; a few have the logs as files too, are shipped from these, and the file that `ship`
writes is compared byte by byte. Then one short stream is followed with each word of each line changed: a bit of it, a number more or less,
zero, and any other one.

Then `follow` of the stream of 65,536 updates, an entry each, is timed against `recover` of the images, run by turns, with the memory of
both; and against `recover` of another program of the same words, where PEER names one. Times are the least of so many runs. At last the
longest stream there is, 71,304,192 bytes, is followed, with one byte more and one less.

At the first difference it says what differs, keeps the folder with the files, and ends with 1."""
import argparse
import hashlib
import os
import random
import shutil
import struct
import subprocess
import sys
import tempfile
from pathlib import Path

from proved import TOP, proved_program

THREADS, ACCOUNTS = 16, 8
LOG, ENTRY, TOP_BIT = 0x31474F4C4C4C4E4F, 0x31544E454C4C4E4F, 1 << 63
UPDATES, LONGEST, WORD = 4096, 71_304_192, 1 << 64
INIT = f"bank {ACCOUNTS}\n" + "".join(f"account {account} 1000\n" for account in range(ACCOUNTS))


def line_of(*words):
    return struct.pack("<8Q", *words, *[0] * (8 - len(words)))


def head_line(thread, threads=THREADS):
    words = struct.pack("<5Q", LOG, 2, thread, threads, 1)
    return words + hashlib.sha256(words + INIT.encode()).digest()[:24]


def masks(lines):
    """Eight bits a line, the lowest for its first word, seven lines a mask; the highest bit of each mask is set."""
    made = [TOP_BIT, TOP_BIT, TOP_BIT]
    for number, line in enumerate(lines):
        for bit, word in enumerate(struct.unpack("<8Q", line)):
            if word:
                made[number // 7] |= 1 << (8 * (number % 7) + bit)
    return made


def entry_lines(thread, number, place, nodes):
    return [line_of(ENTRY, thread, number, place, len(nodes), *masks(nodes)), *nodes]


# ---- what a stream comes to
class Fault(Exception):
    """A stream shows a fault, which this line says."""


class Bank:
    """Balances of the bank of INIT, whose sum stays far below its bound."""

    def __init__(self):
        self.balances = [1000] * ACCOUNTS

    def apply(self, row):
        """Does an update by its row; no operation has another form."""
        code, *words = row
        few = {1: 2, 2: 2, 3: 3}.get(code)
        if few is None or any(words[few:]):
            return False
        *accounts, amount = words[:few]
        if any(account >= ACCOUNTS for account in accounts):
            return True
        if code == 1:
            if sum(self.balances) + amount < WORD:
                self.balances[accounts[0]] += amount
        elif self.balances[accounts[0]] >= amount:
            self.balances[accounts[0]] -= amount
            if code == 3:
                self.balances[accounts[1]] += amount
        return True

    def lines(self):
        return [f"bank {ACCOUNTS}", *(f"account {account} {balance}" for account, balance in enumerate(self.balances))]


class Follower:
    """What the bytes of a stream come to, by the rules of docs/FORMATS.md."""

    def __init__(self, threads=THREADS):
        self.threads, self.bank = threads, Bank()
        self.numbers, self.tails, self.counts = [0] * threads, [0] * threads, [0] * threads
        self.places, self.held, self.followed = {}, 0, 0

    def entry_at(self, lines, at):
        """The thread, the place and the lines of the entry that begins at a line; none where it isn't whole yet."""
        magic, thread, number, place, count, *guard = struct.unpack("<8Q", lines[at])
        good = magic == ENTRY and thread < self.threads and number == self.numbers[thread] + 1
        if not (good and 1 <= count <= self.threads and count <= place <= UPDATES * self.threads):
            raise Fault(f"stream byte {64 * at} refused")
        nodes = lines[at + 1:at + 1 + count]
        if len(nodes) < count:
            return None
        names = [struct.unpack("<Q", node[:8])[0] for node in nodes]
        if guard != masks(nodes) or not all(1 <= name <= UPDATES * self.threads for name in names):
            raise Fault(f"stream byte {64 * at} refused")
        return thread, place, nodes

    def take(self, at, thread, place, nodes):
        first = place - len(nodes) + 1
        if first <= self.tails[thread]:
            raise Fault(f"stream byte {64 * at} disorder")
        for here, node in enumerate(nodes, first):
            if self.places.setdefault(here, node) != node:
                raise Fault(f"stream byte {64 * at} place {here} differs")
        self.numbers[thread] += 1
        self.tails[thread] = place
        self.follow()
        self.held += 1

    def follow(self):
        while self.followed + 1 in self.places:
            name, *row = struct.unpack("<8Q", self.places[self.followed + 1])
            thread, number = (name - 1) // UPDATES, (name - 1) % UPDATES + 1
            if number != self.counts[thread] + 1:
                raise Fault(f"stream place {self.followed + 1} wrong number")
            if not self.bank.apply(row):
                raise Fault(f"stream place {self.followed + 1} not an operation")
            self.counts[thread] += 1
            self.followed += 1

    def said(self, stream):
        """The status and the text of `follow`."""
        lines = [stream[at:at + 64] for at in range(0, len(stream) // 64 * 64, 64)]
        try:
            for log in range(min(self.threads, len(lines))):
                if lines[log] != head_line(log, self.threads):
                    raise Fault(f"stream log {log} not of this run")
            at = self.threads
            while at < len(lines):
                entry = self.entry_at(lines, at)
                if not entry:
                    break
                self.take(at, *entry)
                at += 1 + len(entry[2])
        except Fault as fault:
            return 4, f"{fault}\n"
        said = [f"taken {len(stream)}", f"held {self.held}", f"followed {self.followed}", "state", *self.bank.lines()]
        return 0, "".join(f"{line}\n" for line in said)


# ---- streams
def a_row(rng):
    a, b, amount = rng.randrange(ACCOUNTS + 1), rng.randrange(ACCOUNTS), rng.randrange(500)
    return rng.choice([(1, a, amount), (2, b, amount), (3, a, b, amount), (3, b, a, amount)])


def random_logs(rng, updates, threads=THREADS):
    """The entries of each log: of each update one of its thread's, with some of those before it that the thread didn't log yet."""
    counts, tails, trace, logs = [0] * threads, [0] * threads, [], [[] for _ in range(threads)]
    for place in range(1, updates + 1):
        thread = rng.randrange(threads)
        counts[thread] += 1
        trace.append(line_of(UPDATES * thread + counts[thread], *a_row(rng)))
        count = rng.randint(1, min(threads, place - tails[thread]))
        logs[thread].append(entry_lines(thread, len(logs[thread]) + 1, place, trace[place - count:place]))
        tails[thread] = place
    return logs


def shuffled(rng, logs):
    """A stream with the entries in any order that keeps each log's own."""
    lines = [head_line(thread, len(logs)) for thread in range(len(logs))]
    left = [thread for thread, log in enumerate(logs) for _ in log]
    rng.shuffle(left)
    nexts = [iter(log) for log in logs]
    for thread in left:
        lines.extend(next(nexts[thread]))
    return b"".join(lines)


def in_turns(logs):
    """The stream that `ship` makes."""
    lines = [head_line(thread, len(logs)) for thread in range(len(logs))]
    for number in range(max(map(len, logs))):
        for log in logs:
            lines.extend(log[number] if number < len(log) else [])
    return b"".join(lines)


def changed_words(rng, word):
    """Other words in place of one."""
    return {word ^ 1 << rng.randrange(64), (word + 1) % WORD, (word - 1) % WORD, 0, rng.getrandbits(64)} - {word}


# ---- the program
# Runs a command, and says its status, its seconds and its memory in KB. It is a process of its own, since what this script has counts as
# memory of the processes that it starts.
TIMED = """
import os, sys, time
begin = time.monotonic()
actions = [(os.POSIX_SPAWN_OPEN, 1, os.devnull, os.O_WRONLY, 0)]
run = os.posix_spawn(sys.argv[1], sys.argv[1:], os.environ, file_actions=actions)
_, status, used = os.wait4(run, 0)
print(status, time.monotonic() - begin, used.ru_maxrss)
"""


class Program:
    """The program, over files of its folder."""

    def __init__(self, path):
        self.path = path

    def run(self, *words):
        done = subprocess.run([self.path, *map(str, words)], capture_output=True)
        return done.returncode, done.stdout.decode()

    def follows(self, stream, piece, threads=THREADS):
        Path("stream").write_bytes(stream)
        said, wanted = self.run("follow", "init", threads, "stream", piece), Follower(threads).said(stream[:LONGEST])
        assert said == wanted, (said, wanted, piece)

    def ships(self, logs):
        for thread, log in enumerate(logs):
            Path(f"log.{thread}").write_bytes(head_line(thread, len(logs)) + b"".join(line for entry in log for line in entry))
        stream = in_turns(logs)
        wanted = 0, f"shipped entries {sum(map(len, logs))} bytes {len(stream)}\n"
        said = self.run("ship", "log", len(logs), "shipped")
        assert said == wanted, (said, wanted)
        assert Path("shipped").read_bytes() == stream, "another stream"

    def timed(self, *words):
        """Seconds, and the most memory in MB."""
        done = subprocess.run([sys.executable, "-S", "-c", TIMED, self.path, *map(str, words)], capture_output=True, check=True)
        status, seconds, used = done.stdout.split()
        assert status == b"0", (words, status)
        return float(seconds), int(used) / 1024


# ---- what is done
def follow_streams(program, rng, count):
    for number in range(count):
        logs = random_logs(rng, rng.randint(1, 400))
        stream = shuffled(rng, logs)
        program.follows(stream, rng.randint(1, 3000))
        program.follows(stream[:rng.randrange(len(stream))], rng.randint(1, 300))
        if number % 4 == 0:
            program.ships(logs)
    print(f"{count} streams whole and cut, {(count + 3) // 4} shipped, none followed otherwise")


def follow_hostile(program, rng):
    stream, count = shuffled(rng, random_logs(rng, 12, 3)), 0
    for at in range(0, len(stream), 8):
        word = struct.unpack("<Q", stream[at:at + 8])[0]
        for other in changed_words(rng, word):
            program.follows(stream[:at] + struct.pack("<Q", other) + stream[at + 8:], 100, 3)
            count += 1
    print(f"{count} streams with one word changed, none followed otherwise")


def follow_longest(program):
    """All threads log the same 65,536 updates, sixteen an entry: there is no longer stream."""
    lines = [head_line(thread) for thread in range(THREADS)]
    for number in range(1, UPDATES + 1):
        nodes = [line_of(UPDATES * thread + number, 1, thread % ACCOUNTS, 1) for thread in range(THREADS)]
        for thread in range(THREADS):
            lines.extend(entry_lines(thread, number, THREADS * number, nodes))
    stream = b"".join(lines)
    assert len(stream) == LONGEST, len(stream)
    program.follows(stream, 1 << 20)
    program.follows(stream + b"\1", 999_983)
    program.follows(stream[:-1], 64)
    print(f"a stream of {LONGEST} bytes, with one byte more and one less")


def measure(program, runs, peer):
    subprocess.run([os.path.join(TOP, "bench", "logs.py"), "."], check=True)
    assert program.run("ship", "log", THREADS, "shipped")[0] == 0, "not shipped"
    rows = {
        "ship": (program, ["ship", "log", THREADS, "again"]),
        "recover": (program, ["recover", "bank", "log", THREADS]),
        "follow by 65536": (program, ["follow", "bank", THREADS, "shipped", 65536]),
        "follow by 192": (program, ["follow", "bank", THREADS, "shipped", 192]),
    }
    if peer:
        rows["recover of the peer"] = (Program(os.path.abspath(peer)), ["recover", "bank", "log", THREADS])
    found = {name: [] for name in rows}
    for _ in range(runs):
        for name, (which, words) in rows.items():
            found[name].append(which.timed(*words))
    for name, times in found.items():
        print(f"{name}: {min(seconds for seconds, _ in times) * 1000:.0f} ms, {max(used for _, used in times):.0f} MB")


def asked():
    words = argparse.ArgumentParser(description=__doc__.splitlines()[0])
    words.add_argument("--streams", type=int, default=200)
    words.add_argument("--seed", type=int, default=1)
    words.add_argument("--runs", type=int, default=10)
    words.add_argument("--peer")
    words.add_argument("program", nargs="?")
    return words.parse_args()


def main():
    wanted = asked()
    program = Program(os.path.abspath(wanted.program) if wanted.program else proved_program())
    peer = wanted.peer and os.path.abspath(wanted.peer)
    rng, folder = random.Random(wanted.seed), tempfile.mkdtemp(prefix="standby.")
    os.chdir(folder)
    Path("init").write_text(INIT)
    try:
        follow_streams(program, rng, wanted.streams)
        follow_hostile(program, rng)
        if wanted.runs:
            measure(program, wanted.runs, peer)
        follow_longest(program)
    except (AssertionError, OSError) as wrong:
        print(f"seed {wanted.seed}, the files are in {folder}: {type(wrong).__name__} {str(wrong)[:2000]}")
        sys.exit(1)
    os.chdir("/")
    shutil.rmtree(folder)


if __name__ == "__main__":
    main()
