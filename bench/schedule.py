#!/usr/bin/env python3
"""Writes a schedule of 16 threads with 2,000,360 steps, in which each thread's window is as great as it can be.
Usage: bench/schedule.py FOLDER: the initial state is FOLDER/bank, the schedule FOLDER/plan, the script of each thread FOLDER/script."""
import sys

THREADS, ROUNDS = 16, 3969
folder = sys.argv[1]

with open(f"{folder}/bank", "w") as file:
    file.write("bank 16\n")
with open(f"{folder}/script", "w") as file:
    for update in range(ROUNDS):
        file.write(f"deposit {update % 16} 1\n")

# In a round all threads order an update, in two steps. Then each, the last one first, walks to the newest set flag, logs the
# updates of its window with two steps a line more than its own needs, fences, and sets its flag.
with open(f"{folder}/plan", "w") as file:
    for number in range(ROUNDS):
        for thread in range(THREADS):
            file.write(f"{thread} 2\n")
        for thread in reversed(range(THREADS)):
            walk = 6 + 3 * thread + (1 if number > 0 else 0)
            file.write(f"{thread} {walk}\n")
    file.write("crash 0\n")
