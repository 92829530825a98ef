#!/usr/bin/env python3
"""Writes the logs of 16 threads with 4,096 updates each, every update in an entry of its own.
Usage: bench/logs.py FOLDER: the initial state is FOLDER/bank, the images FOLDER/log.0 to FOLDER/log.15."""
import hashlib
import struct
import sys

THREADS, UPDATES, ACCOUNTS = 16, 4096, 64
LINES = 1 + UPDATES * (THREADS + 1)
INIT = f"bank {ACCOUNTS}\n".encode() + b"".join(b"account %d 1000\n" % a for a in range(ACCOUNTS))
LOG, ENTRY = 0x31474F4C4C4C4E4F, 0x31544E454C4C4E4F


def line(words):
    return struct.pack("<8Q", *words)


def head(thread):
    words = [LOG, 2, thread, THREADS, 1]
    digest = hashlib.sha256(struct.pack("<5Q", *words) + INIT).digest()[:24]
    return struct.pack("<5Q", *words) + digest


def masks(words):
    first = sum(1 << j for j, word in enumerate(words) if word)
    return [1 << 63 | first, 1 << 63, 1 << 63]


def image(thread):
    lines = [head(thread)]
    for number in range(1, UPDATES + 1):
        place = (number - 1) * THREADS + thread + 1
        deposit = [thread * 4096 + number, 1, place % ACCOUNTS, 1, 0, 0, 0, 0]
        lines.append(line([ENTRY, thread, number, place, 1] + masks(deposit)))
        lines.append(line(deposit))
    return b"".join(lines).ljust(LINES * 64, b"\0")


folder = sys.argv[1]
with open(f"{folder}/bank", "wb") as file:
    file.write(INIT)
for thread in range(THREADS):
    with open(f"{folder}/log.{thread}", "wb") as file:
        file.write(image(thread))
