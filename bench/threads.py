#!/usr/bin/env python3
"""Runs the tickets with fewer threads than buyers, as the system's limit has it, and looks at what they say and leave.
Usage: bench/threads.py [--program PATH] [--buyers N]
Build the program first, by `rt run` in crates/onll_tickets; it wants to be called by the system's first user, since each run is by a user
of its own, whose threads are limited.

For each number of buyers up to N and each limit up to N + 1: where there are fewer threads than buyers the program ends with 1, says which
thread can't be had, and makes no file or leaves those of an earlier sale as they are; else all buyers draw and the logs are kept."""
import argparse
import os
import resource
import subprocess
import sys
import tempfile

from memory import files_of
from proved import TOP

USER = 54321


def drawn(program, folder, buyers, most):
    """What the program says with so many threads at most, and its status."""

    def limit():
        resource.setrlimit(resource.RLIMIT_NPROC, (most, most))
        os.setuid(USER)

    words = [program, "sale", str(buyers), "3", "1000"]
    run = subprocess.run(words, cwd=folder, preexec_fn=limit, stdout=subprocess.PIPE, check=False)
    return run.stdout.decode().split("\n")[:-1], run.returncode


def is_right(program, folder, buyers, most):
    """Whether a run with so many threads at most does as it should."""
    before = files_of(folder)
    said, status = drawn(program, folder, buyers, most)
    if most < buyers:
        return said == [f"thread {most} can't be had"] and status == 1 and files_of(folder) == before
    return said[-1:] == ["kept"] and status == 0 and len(files_of(folder)) >= buyers


def main():
    ask = argparse.ArgumentParser()
    ask.add_argument("--program", default=os.path.join(TOP, "crates", "onll_tickets", "out", "onll_tickets"))
    ask.add_argument("--buyers", type=int, default=16)
    asked = ask.parse_args()
    program = os.path.abspath(asked.program)
    runs, wrong, refused = 0, [], 0
    for buyers in range(1, asked.buyers + 1):
        with tempfile.TemporaryDirectory() as folder:
            os.chmod(folder, 0o777)
            # Too few threads come first over no files, and last over those of the sales between.
            for most in [*range(1, asked.buyers + 2), *range(1, buyers)]:
                runs, refused = runs + 1, refused + (most < buyers)
                if not is_right(program, folder, buyers, most):
                    wrong.append((buyers, most))
    print(f"{runs} runs, {refused} of them with too few threads, {len(wrong)} wrong", *wrong[:5])
    sys.exit(1 if wrong else 0)


main()
