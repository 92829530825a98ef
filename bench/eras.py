#!/usr/bin/env python3
"""Kills checkpoints and the runs before and after them over the files of the system, and checks what `restore` gives each time.
Usage: bench/eras.py [--chains CHAINS] [--seed SEED] [PROGRAM]
Build the program first, by `./prove`; or name another one of the same words.

A chain is of one object, a bank, a map, a queue and a lease table by turns, and has six eras. In each era four threads are given 150
updates each, by `run` at the first time and by `resume` from then on, and after that a `checkpoint` begins the next era; both are tried
until it has begun. Each command is killed by signal 9 at a moment between its start and twice the time that a whole one takes. After
each, `restore` must answer 0, and hold every update that was acknowledged: those that the report of a run which ended has told, with the
replies and the places told there, and those that `restore` gave before. Its place never goes back. Of each thread what a run added are
the first updates of its script in their order, as many as its log has gained entries, or one more, which another thread has logged; and
the state is that of all updates, by the rules of objects.py, which share no code with the program. A checkpoint changes neither the place
nor the state: after it `restore` gives what it gave before, or the next era with logs of no entry, and the next era's text is then its
initial state. Where the first run is killed before every log has a line, `restore` may find no file or no log, which is counted apart,
and the logs are begun anew.

At the first failure it says what is wrong, keeps the folder with the files, and ends with 1."""
import argparse
import os
import random
import shutil
import subprocess
import sys
import tempfile
import time

from kill import has_first_line, killed
from objects import GREATEST, KINDS
from proved import proved_program

THREADS, UPDATES, ERAS = 4, 150, 6
SCRIPTS = [f"script{thread}" for thread in range(THREADS)]
# A checkpoint is killed at most so many times in one era.
TRIES = 12
# Beyond the time of a whole command, so that some of them end.
LATEST = 2.0
# How many accounts, pairs, items and resources an object has room for.
ROOMS = {"bank": THREADS, "map": 8, "queue": 8, "lease": THREADS}


def bank_update(rng):
    a, b, x = rng.randrange(THREADS + 1), rng.randrange(THREADS), rng.randint(1, 10**6)
    return rng.choice([f"deposit {a} {x}", f"deposit {b} {x}", f"withdraw {a} {x}", f"transfer {a} {b} {x}"])


def map_update(rng):
    key = f"k{rng.randrange(12)}"
    return rng.choice([f"put {key} v{rng.randrange(10**6)}", f"put {key} v{rng.randrange(10**6)}", f"del {key}"])


def queue_update(rng):
    return rng.choice([f"push {rng.randrange(10**6)}", "pop"])


def lease_update(rng):
    r, now, ttl = rng.randrange(THREADS + 1), rng.randrange(1000), rng.randrange(300)
    token = rng.randint(1, 200)
    return rng.choice([f"grant {r} {rng.randrange(9)} {now} {ttl}", f"grant {r} {rng.randrange(9)} {now} {GREATEST}",
                       f"renew {r} {token} {now} {ttl}", f"release {r} {token}"])


UPDATE_OF = {"bank": bank_update, "map": map_update, "queue": queue_update, "lease": lease_update}


# What is restored of logs that have no line.
NOTHING = ["no checkpoint", *(f"log {thread} empty" for thread in range(THREADS)), "recovered 0", "place 0", "state"]


def text_of(lines):
    return "".join(line + "\n" for line in lines)


def write_text(name, lines):
    with open(name, "w") as file:
        file.write(text_of(lines))


class Restored:
    """What `restore` says: the era and the place after which it began, the entries of each log, the era's nodes, the place, the state."""

    def __init__(self, report):
        lines = report.splitlines()
        assert report == text_of(lines), report
        if lines[0] == "no checkpoint":
            self.era, self.begun = 0, 0
        else:
            words = lines[0].split()
            self.era, self.begun = int(words[1]), int(words[3])
            assert lines[0] == f"checkpoint {self.era} place {self.begun}" and self.era >= 1, report
        self.entries = [self.entries_in(thread, line, report) for thread, line in enumerate(lines[1:1 + THREADS])]
        word, count = lines[1 + THREADS].split()
        assert word == "recovered", report
        end = 2 + THREADS + int(count)
        self.nodes = self.nodes_in(lines[2 + THREADS:end], report)
        self.place = self.begun + len(self.nodes)
        assert len(self.nodes) == int(count) and lines[end:end + 2] == [f"place {self.place}", "state"], report
        self.state = lines[end + 2:]

    @staticmethod
    def entries_in(thread, line, report):
        words = line.split()
        if words == ["log", str(thread), "empty"]:
            return 0
        assert words[:3] == ["log", str(thread), "entries"] and words[4] == "lines" and len(words) == 6, report
        assert words[3] != "0" or words[5] == "1", report
        return int(words[3])

    @staticmethod
    def nodes_in(lines, report):
        """The thread and the call of each node, by place. Each has its place in the era, and the next number of its thread."""
        counts, nodes = [0] * THREADS, []
        for line in lines:
            word, place, thread, number, call = line.split(maxsplit=4)
            thread = int(thread)
            counts[thread] += 1
            nodes.append((thread, call))
            assert (word, int(place), int(number)) == ("node", len(nodes), counts[thread]), report
        return nodes

    def same_as(self, other):
        return vars(self) == vars(other)


class Times:
    """How many seconds a command takes that isn't killed: the least so far. And how many of each were killed, and how many ended."""

    def __init__(self):
        self.least, self.kills, self.ends = {}, {}, {}

    def command(self, program, kind, words, rng, wanted=0):
        """Whether this command, whose report goes into the file `report`, ends before it is killed, with the status that is wanted; with no
        random choices it isn't killed."""
        key = (kind, words[0])
        begin = time.monotonic()
        with open("report", "w") as report:
            run = subprocess.Popen([program, *words], stdout=report)
        if rng and killed(run, rng.uniform(0, LATEST * self.least[key]), wanted):
            self.kills[words[0]] = self.kills.get(words[0], 0) + 1
            return False
        assert run.wait() == wanted, (words, run.returncode)
        if not rng:
            self.least[key] = min(self.least.get(key, GREATEST), time.monotonic() - begin)
        self.ends[words[0]] = self.ends.get(words[0], 0) + 1
        return True


def report_lines():
    with open("report") as file:
        return file.read().splitlines()


def files_of_era(era):
    """Its initial state and its logs."""
    return (f"ckpt.{era % 2}.init", f"ckpt.{era % 2}") if era else ("init", "log")


class Chain:
    """Six eras over the files of this folder: what was restored last, and the model of the object with all updates of it."""

    def __init__(self, program, kind, times, rng, killing):
        # So many updates of a thread may be in the logs of others and not in its own.
        self.ahead = 1
        self.program, self.kind, self.times, self.rng = program, kind, times, rng
        self.killing = rng if killing else None
        self.model, self.replies, self.last = KINDS[kind](ROOMS[kind]), [], None
        self.rounds, self.early, self.killed_late = 0, {}, 0

    def init_and_logs(self):
        """The initial state and the logs of the era that was restored last."""
        return files_of_era(self.last.era if self.last else 0)

    def log_names(self):
        return [f"{self.init_and_logs()[1]}.{thread}" for thread in range(THREADS)]

    def restore(self):
        done = subprocess.run([self.program, "restore", "init", "log", "ckpt", str(THREADS)], capture_output=True)
        return done.returncode, done.stdout.decode()

    def restored(self):
        status, report = self.restore()
        assert status == 0, (status, report)
        found = Restored(report)
        assert not self.last or (found.era, found.place) >= (self.last.era, self.last.place), report
        return found

    def begin(self):
        """Both areas with no checkpoint, and no log."""
        for name in os.listdir("."):
            os.remove(name)
        write_text("init", KINDS[self.kind](ROOMS[self.kind]).lines())
        done = subprocess.run([self.program, "areas", "ckpt"], capture_output=True)
        assert (done.returncode, done.stdout) == (0, b"areas ckpt\n"), done

    def scripts(self):
        scripts = [[UPDATE_OF[self.kind](self.rng) for _ in range(UPDATES)] for _ in range(THREADS)]
        for name, script in zip(SCRIPTS, scripts):
            write_text(name, script)
        return scripts

    def command(self, words, killing):
        """Whether a command ends before it is killed."""
        return self.times.command(self.program, self.kind, words, killing)

    def run(self):
        """One run more in the era, and what is restored then."""
        scripts = self.scripts()
        self.go_on(["resume" if self.last else "run", *self.init_and_logs(), *SCRIPTS], scripts)

    def go_on(self, words, scripts):
        """These scripts by one command more in the era, and what is restored then."""
        self.expect_gone_on(self.command(words, self.killing), scripts)

    def expect_gone_on(self, ended, scripts):
        if not ended and not self.last and not all(has_first_line(log) for log in self.log_names()):
            if self.restore()[0] != 0:
                self.expect_early()
                return
        found = self.restored()
        self.expect_added(found, scripts)
        if ended:
            self.expect_told(found, scripts)
        self.last = found

    def expect_early(self):
        """Where a log has no line yet nothing was acknowledged. The logs are removed."""
        status, report = self.restore()
        is_log = status == 4 and report.startswith("log ") and report.endswith(" not a log\n")
        assert is_log or (status == 5 and report.startswith("read fault log.")), (status, report)
        said = "not a log" if is_log else "no file"
        self.early[said] = self.early.get(said, 0) + 1
        for log in self.log_names():
            if os.path.exists(log):
                os.remove(log)

    def expect_added(self, found, scripts):
        """What was restored before is there, and then the first updates of each script."""
        before = self.last or Restored(text_of(NOTHING))
        assert (found.era, found.begun) == (before.era, before.begun), (found.era, found.begun)
        assert found.nodes[:len(before.nodes)] == before.nodes, found.nodes
        counts = [0] * THREADS
        for thread, call in found.nodes[len(before.nodes):]:
            assert counts[thread] < UPDATES and call == scripts[thread][counts[thread]], (thread, counts[thread] + 1, call)
            counts[thread] += 1
            self.replies.append(self.model.say(*call.split()))
        for count, now, then in zip(counts, found.entries, before.entries):
            assert 0 <= count - (now - then) <= self.ahead, (counts, found.entries, before.entries)
        assert found.state == self.model.lines(), (found.state, self.model.lines())

    def expect_told(self, found, scripts):
        """A run that ended has told a reply and a place for each of its updates, and each is there with them."""
        told = [line.split(" -> ") for line in report_lines() if line.startswith("call ")]
        calls = [f"call {thread} {number} {call}" for thread, script in enumerate(scripts) for number, call in enumerate(script, 1)]
        assert [call for call, _ in told] == calls, told[-1:]
        for call, answer in told:
            self.expect_answered(found, call, answer)

    def expect_answered(self, found, call, answer):
        """The update of a call line that tells a reply and a place is there with them."""
        _, thread, _, update = call.split(maxsplit=3)
        reply, place = answer.rsplit(" at ", 1)
        at = int(place) - 1
        assert found.nodes[at:at + 1] == [(int(thread), update)] and self.replies[at] == reply, (call, answer)

    def checkpoint(self, killing):
        """A checkpoint, and whether the next era has begun by it."""
        words = ["checkpoint", "init", "log", "ckpt", str(THREADS)]
        ended = self.command(words, killing)
        found, last = self.restored(), self.last
        assert (found.place, found.state) == (last.place, last.state), (found.place, last.place)
        if ended:
            assert report_lines() == [f"checkpoint {last.era + 1} place {last.place}", "state", *last.state], report_lines()
        if found.era == last.era:
            assert not ended and found.same_as(last), vars(found)
            return False
        assert (found.era, found.begun, found.nodes, found.entries) == (last.era + 1, last.place, [], [0] * THREADS), vars(found)
        self.killed_late += not ended
        self.last, self.replies = found, []
        self.expect_begun()
        return True

    def expect_begun(self):
        """The text of an era that has begun, and its logs, which have their first lines."""
        with open(self.init_and_logs()[0]) as file:
            text = file.read()
        assert text == text_of([f"# checkpoint {self.last.era} {self.last.begun}", *self.last.state]), text
        assert all(has_first_line(log) for log in self.log_names()), self.log_names()

    def go(self):
        """All eras, the last one with its run."""
        self.begin()
        for era in range(ERAS):
            tries = 0
            while True:
                self.rounds += 1
                self.run()
                if not self.last:
                    continue
                tries += 1
                if era == ERAS - 1 or self.checkpoint(self.killing if tries < TRIES else None):
                    break


def asked():
    words = argparse.ArgumentParser(description=__doc__.splitlines()[0])
    words.add_argument("--chains", type=int, default=100)
    words.add_argument("--seed", type=int, default=1)
    words.add_argument("program", nargs="?")
    return words.parse_args()


def tell(chains, times):
    """What was done, by counts."""
    early = {}
    for chain in chains:
        for said, count in chain.early.items():
            early[said] = early.get(said, 0) + count
    print(f"{len(chains)} chains of {ERAS} eras, {sum(chain.rounds for chain in chains)} runs, none failing")
    for command in ["run", "resume", "checkpoint"]:
        print(f"{command}: {times.kills.get(command, 0)} killed, {times.ends.get(command, 0)} ended")
    print(f"{sum(chain.killed_late for chain in chains)} checkpoints killed once the next era had begun")
    places = sorted(chain.last.place for chain in chains)
    print(f"places at the end: {places[0]} to {places[-1]}, {places[len(places) // 2]} in the middle")
    for said, count in sorted(early.items()):
        print(f"{count} before every log had a line: {said}")


def main():
    wanted = asked()
    program = os.path.abspath(wanted.program) if wanted.program else proved_program()
    rng, times, chains = random.Random(wanted.seed), Times(), []
    folder = tempfile.mkdtemp(prefix="eras.")
    os.chdir(folder)
    try:
        for kind in KINDS:
            for _ in range(3):
                Chain(program, kind, times, rng, False).go()
        times.ends.clear()
        for number in range(wanted.chains):
            chain = Chain(program, list(KINDS)[number % len(KINDS)], times, rng, True)
            chains.append(chain)
            chain.go()
    except (AssertionError, IndexError, OSError, ValueError) as wrong:
        print(f"chain {len(chains)} of seed {wanted.seed}, its files are in {folder}: {type(wrong).__name__} {wrong}")
        sys.exit(1)
    if chains:
        tell(chains, times)
    os.chdir("/")
    shutil.rmtree(folder)


if __name__ == "__main__":
    main()
