#!/usr/bin/env python3
"""Counts how often `make T N` asks for memory, as N grows: no update and no read asks, so the count stays the same.
Usage: bench/allocations.py [PROGRAM]
Build the program first, by `./prove`; or name another one of the same words. It wants a C compiler (`cc`).

Prints a line for each number of threads, and ends with 1 where a count isn't the same for each number of updates."""
import os
import subprocess
import sys
import tempfile

from memory import make_refuser
from proved import proved_program

THREADS = (1, 2, 4, 16)
UPDATES = (512, 1024, 2048, 4096)


def count_of(program, library, counted, threads, updates):
    """How often one run asks for memory, none of which is refused."""
    environment = {"LD_PRELOAD": library, "COUNTED": counted}
    words = ["make", str(threads), str(updates), "7"]
    subprocess.run([program, *words], env=environment, check=True, stdout=subprocess.DEVNULL, timeout=60)
    with open(counted) as file:
        return int(file.read())


def main():
    program = os.path.abspath(sys.argv[1]) if len(sys.argv) > 1 else proved_program()
    differs = False
    with tempfile.TemporaryDirectory() as work:
        library = make_refuser(work)
        for threads in THREADS:
            counts = [count_of(program, library, os.path.join(work, "counted"), threads, n) for n in UPDATES]
            differs |= len(set(counts)) > 1
            each = ", ".join(f"{count} for {n}" for n, count in zip(UPDATES, counts))
            print(f"{threads} threads of so many updates: {each}")
    sys.exit(1 if differs else 0)


if __name__ == "__main__":
    main()
