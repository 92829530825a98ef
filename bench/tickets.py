#!/usr/bin/env python3
"""Kills `onll_tickets` at random moments, over generations that each go on from what the one before left, and counts what was acknowledged.
Usage: bench/tickets.py [--chains N] [--seed S] [PROGRAM]
Build the program first, by `rt run` in crates/onll_tickets; or name another one of the same words.

A chain is up to five generations of one to four buyers over one set of files; each but the last is killed. Of all of them:
- each draw that was acknowledged stands at its place, which is acknowledged once, in what the next generation goes on from;
- at most one update a buyer and generation is found that wasn't acknowledged: a draw that was durable when the buyer was killed, or one
  that was refused since all were sold;
- never more are drawn than there are tickets, and the last generation draws all that are left, and ends with 0.
Ends with 0, or names each chain that went otherwise and ends with 1."""
import argparse
import os
import random
import signal
import subprocess
import sys
import tempfile
import time

from proved import TOP

TICKETS = 3000


def generation(program, folder, words, killed_after):
    """What a generation printed, and its status, or None where it was killed."""
    with subprocess.Popen([program, *words], cwd=folder, stdout=subprocess.PIPE) as run:
        if killed_after is not None:
            time.sleep(killed_after)
            run.send_signal(signal.SIGKILL)
        out = run.communicate()[0].decode()
    lines = out.split("\n")
    # A line that was cut short is no acknowledgement.
    return lines[:-1], (None if run.returncode == -signal.SIGKILL else run.returncode)


def drawn_in(lines):
    """The places of the draws that were acknowledged."""
    return [int(line.split()[2]) for line in lines if line.startswith("drawn ")]


def begun_from(lines):
    return next((int(line.split()[3]) for line in lines if line.startswith("went on from ")), None)


def run_chain(program, chance, wrong):
    """One chain; gives how many kills it had."""
    buyers = chance.randint(1, 4)
    kills, places, unsaid = 0, [], 0
    with tempfile.TemporaryDirectory() as folder:
        words = ["t", str(buyers), "4000", str(TICKETS)]
        for _ in range(chance.randint(1, 4)):
            lines, status = generation(program, folder, words, chance.uniform(0.002, 0.06))
            places += drawn_in(lines)
            unsaid += buyers
            if status is None:
                kills += 1
            elif status != 0:
                wrong.append(f"ended with {status}: {lines[-1:]}")
        lines, status = generation(program, folder, words, None)
    found, last = begun_from(lines), drawn_in(lines)
    every = places + last
    told = wrong.append
    if status != 0 or lines[-1] != "kept":
        told(f"the last ended with {status}: {lines[-1:]}")
    elif len(set(every)) != len(every):
        told("a place was acknowledged twice")
    elif places and max(places) > found:
        told(f"place {max(places)} was acknowledged, and {found} draws were found")
    elif not len(places) <= found <= len(places) + unsaid:
        told(f"{len(places)} draws were acknowledged, and {found} updates were found after {kills} kills of {buyers} buyers")
    elif not TICKETS - kills * buyers <= len(every) <= TICKETS:
        told(f"{len(every)} draws of {TICKETS} tickets were acknowledged, with {kills} kills of {buyers} buyers")
    return kills


def main():
    ask = argparse.ArgumentParser()
    ask.add_argument("--chains", type=int, default=100)
    ask.add_argument("--seed", type=int, default=1)
    ask.add_argument("program", nargs="?", default=os.path.join(TOP, "crates/onll_tickets/out/onll_tickets"))
    asked = ask.parse_args()
    chance, kills, wrong = random.Random(asked.seed), 0, []
    for chain in range(asked.chains):
        before = len(wrong)
        kills += run_chain(os.path.abspath(asked.program), chance, wrong)
        for text in wrong[before:]:
            print(f"chain {chain}: {text}")
    print(f"{asked.chains} chains with {kills} kills, {len(wrong)} of them wrong")
    return 1 if wrong else 0


sys.exit(main())
