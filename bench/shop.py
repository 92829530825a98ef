#!/usr/bin/env python3
"""Kills `onll_stock` at random moments, over generations that each go on from what the one before left, and counts what was acknowledged.
Usage: bench/shop.py [--chains N] [--seed S] [PROGRAM]
Build the program first, by `rt run` in crates/onll_stock; or name another one of the same words.

A chain is up to five generations of one to four customers over one set of files, each generation with needs and boxes of its own; each
but the last is killed, and the last buys all that is left. A killed customer may have made one update that it did not say: a sale of a
box at most, or, where it had bought more than it needs, the bringing back of just that. Of all generations:
- each update that was said stands at a place of its own, within what the next generation goes on from;
- no more updates are found than were said, and one for each customer that was killed;
- one after the other, up to the first place that was not said, each has the reply of a stock of so many items;
- what was said to be sold, less what was said to be brought back, is never more than the items and what may have been brought back
  unsaid; and at the end, when none is left, it is no less than the items but for what may have been sold unsaid;
- what each customer says at its end that it bought and brought back is what it said of its single updates.
Ends with 0, or names each chain that went otherwise and ends with 1."""
import argparse
import os
import random
import re
import signal
import subprocess
import sys
import tempfile
import time

from proved import TOP

ITEMS = 3000
UPDATE = re.compile(r"(\d+): customer (\d+): (Sold|TooFew|Restocked|TooMany) (\d+)$")
DEAL = re.compile(r"customer (\d+): bought (\d+), brought back (\d+), (.*)$")


class Generation:
    """What customers said, of whom each needs so many items and buys boxes of so many; it has no status where it was killed."""

    def __init__(self, program, folder, customers, needs, box, killed_after):
        self.customers, self.needs, self.box = customers, needs, box
        words = ["s", str(ITEMS), str(customers), str(needs), str(box)]
        with subprocess.Popen([program, *words], cwd=folder, stdout=subprocess.PIPE) as run:
            if killed_after is not None:
                time.sleep(killed_after)
                run.send_signal(signal.SIGKILL)
            out = run.communicate()[0].decode()
        self.status = None if run.returncode == -signal.SIGKILL else run.returncode
        # A line that was cut short is no acknowledgement.
        self.lines = out.split("\n")[:-1]
        found = [UPDATE.match(line).groups() for line in self.lines if UPDATE.match(line)]
        self.updates = [(int(place), int(thread), reply, int(count)) for place, thread, reply, count in found]
        self.begun_from = next((int(line.split()[3]) for line in self.lines if line.startswith("went on from ")), None)

    def sum_of(self, wanted, thread=None):
        return sum(count for _, by, reply, count in self.updates if reply == wanted and thread in (None, by))

    def unsaid(self):
        """How many items may have been sold, and how many brought back, with nobody told."""
        sold = back = 0
        for thread in range(self.customers if self.status is None else 0):
            has = self.sum_of("Sold", thread) - self.sum_of("Restocked", thread)
            sold += self.box if has < self.needs else 0
            back += max(has - self.needs, 0)
        return sold, back

    def wrong_deals(self):
        """Whether a customer says another number at its end than it said before."""
        deals = [DEAL.match(line).groups() for line in self.lines if DEAL.match(line)]
        told = [(int(thread), int(bought), int(back)) for thread, bought, back, _ in deals]
        return told != [(it, self.sum_of("Sold", it), self.sum_of("Restocked", it)) for it in range(self.customers)]


def first_wrong_reply(updates):
    """The first update whose reply is not that of the stock after those before it, as far as all of them were said."""
    left = ITEMS
    for number, (place, _, reply, count) in enumerate(sorted(updates), 1):
        if place != number:
            return None
        if reply in ("Sold", "TooFew"):
            right = "Sold" if left >= count else "TooFew"
        else:
            right = "Restocked"
        if reply != right:
            return f"{count} at place {place} of {left} items: {reply}"
        left += {"Sold": -count, "Restocked": count}.get(reply, 0)
    return None


def faults_of(generations):
    """What is wrong with a chain, of which the last generation wasn't killed."""
    last, updates, net, sold_unsaid, back_unsaid, killed = generations[-1], [], 0, 0, 0, 0
    for it in generations:
        if it.begun_from is not None:
            if not len(updates) <= it.begun_from <= len(updates) + killed:
                yield f"{len(updates)} updates were said, {killed} customers killed, and {it.begun_from} updates found"
            if any(place > it.begun_from for place, *_ in updates):
                yield f"an update was said at a place above the {it.begun_from} that were found"
        updates += it.updates
        net += it.sum_of("Sold") - it.sum_of("Restocked")
        sold, back = it.unsaid()
        sold_unsaid, back_unsaid = sold_unsaid + sold, back_unsaid + back
        killed += it.customers if it.status is None else 0
        if net > ITEMS + back_unsaid:
            yield f"{net} of {ITEMS} items were sold, and at most {back_unsaid} brought back unsaid"
        if it.status is not None and (it.status != 0 or it.lines[-1] != "kept" or it.wrong_deals()):
            yield f"ended with {it.status}: {it.lines[-1 - it.customers:]}"
    if len({place for place, *_ in updates}) != len(updates):
        yield "two updates were said of one place"
    wrong = first_wrong_reply(updates)
    if wrong:
        yield wrong
    if last.status == 0 and net < ITEMS - sold_unsaid:
        yield f"{net} of {ITEMS} items were sold at the end, and at most {sold_unsaid} unsaid"


def run_chain(program, chance):
    """One chain; gives its generations."""
    customers = chance.randint(1, 4)
    with tempfile.TemporaryDirectory() as folder:
        kills = chance.randint(1, 4)
        generations = [Generation(program, folder, customers, chance.randint(1, chance.choice((20, ITEMS // customers))),
                                  chance.randint(1, 20), chance.uniform(0.002, chance.choice((0.06, 0.4)))) for _ in range(kills)]
        return [*generations, Generation(program, folder, customers, ITEMS, chance.randint(1, 20), None)]


def main():
    ask = argparse.ArgumentParser()
    ask.add_argument("--chains", type=int, default=100)
    ask.add_argument("--seed", type=int, default=1)
    ask.add_argument("program", nargs="?", default=os.path.join(TOP, "crates/onll_stock/out/onll_stock"))
    asked = ask.parse_args()
    chance, kills, back, wrong = random.Random(asked.seed), 0, 0, 0
    for chain in range(asked.chains):
        generations = run_chain(os.path.abspath(asked.program), chance)
        kills += sum(it.status is None for it in generations)
        back += sum(reply == "Restocked" for it in generations for _, _, reply, _ in it.updates)
        faults = list(faults_of(generations))
        wrong += bool(faults)
        for text in faults:
            print(f"chain {chain}: {text}")
    print(f"{asked.chains} chains with {kills} kills, items brought back {back} times, {wrong} of them wrong")
    return 1 if wrong else 0


sys.exit(main())
