#!/usr/bin/env python3
"""Mixes the commands that go on from the same files, kills them at random moments, and checks what stands after each.
Usage: bench/mixed.py [--chains CHAINS] [--generations GENERATIONS] [--seed SEED] [PROGRAM]
Build the program first, by `./prove`; or name another one of the same words.

A chain is over one set of files of one object, a bank, a map, a queue and a lease table by turns, of four threads, and has 100
generations. The first is a `run` or a `replay` until one has begun, and each further one a `resume`, an `again`, a `checkpoint`, a `ship`
of the logs or a `follow` of what was shipped, at random. Each is done whole over a copy of the files, which shows how long it takes, and
then over the files, where it is killed by signal 9 at a moment between its start and twice that time, if it hasn't ended before.

After each, whatever came of it: no file has changed that its words don't write. `restore` answers 0, as in bench/eras.py: it holds all
that it held before, and of each thread the first updates of the scripts, with each one that a report has told; `recover` of the era's
files says the same, and `detect` tells their replies and places. A whole report of `run` is `legal` for `audit`, and what `audit` says of
the others is what judge.py says. A killed `ship` leaves the stream that was there, or all that it writes over the copy; of the streams some
are then cut. What `follow` says is the state after so many updates of the era, all of them where the stream is whole; and a stream of another
era is refused. A killed command may leave a file beside one that it writes, `NAME.new0`, which has a front of what that one has over the copy
and is then removed.

`replay` and `again` play a crash, and write the images that it leaves over the files, one after the other; the copy shows these images. Of a
killed one the first files have them, and the rest are as they were. Where some are new and some old `restore` may refuse them, since a place
is missing. Then each log is cut before its first entry of a later place, as docs/FORMATS.md says, and all that was held before stands. Where
files were missing before a `replay`, they are removed. Both are counted, by what `restore` said.

At the first failure it says what is wrong, keeps the folder with the files, and ends with 1."""
import argparse
import copy
import os
import random
import re
import shutil
import subprocess
import sys
import tempfile
import time

from eras import ROOMS, SCRIPTS, THREADS, UPDATE_OF, UPDATES, Chain, Restored, Times, files_of_era, report_lines, text_of, write_text
from judge import Judge
from memory import files_of
from objects import KINDS
from proved import proved_program

# So many updates a thread may make in an era.
MOST = 4096
NEXT = ["resume", "again", "checkpoint", "ship", "follow"]
OFTEN = [3, 3, 2, 2, 2]
PIECES = [1, 63, 64, 192, 4096, 1 << 20]
# What `restore` may say of images that are partly those before a `replay` or an `again` and partly those after it.
MISSING, NO_LOG = re.compile(r"place (\d+) missing\n"), re.compile(r"read fault log\.\d\n")
ENTRY = re.compile(r"entry \d+ place (\d+) count (\d+)")
# A file that is being written beside another one.
BESIDE = re.compile(r"(.*)\.new\d+")
COPY = "../copy"


def plan_of(rng):
    """Turns for some of the updates or for all, and a crash."""
    turns = [f"{rng.randrange(THREADS)} {rng.choice([1, 1, 2, 3, 9, 30])}" for _ in range(rng.randint(0, 1500))]
    return [*turns, f"crash {rng.choice([0, 2**64 - 1, rng.getrandbits(64)])}"]


class Mixed(Chain):
    """Generations over the files of this folder. Of the stream there: its era, and how many entries and updates it has if it is whole. Of the
    last command: its words, what it says over a copy, and the files there and here before it."""

    def __init__(self, program, kind, times, rng):
        super().__init__(program, kind, times, rng, True)
        self.begun, self.stream, self.partly, self.left = copy.deepcopy(self.model), None, {}, 0
        self.audits, self.follows = {}, {}

    # ---- all commands
    def ask(self, *words, cwd="."):
        """The status and the report of a command, which writes no file here."""
        before = files_of(".")
        done = subprocess.run([self.program, *words], cwd=cwd, capture_output=True)
        assert files_of(".") == before, (words, "a file has changed")
        return done.returncode, done.stdout.decode()

    def by_copy(self, words, wanted):
        """What a command says, and the files that it leaves, over a copy of the files; so it is known how long it takes."""
        shutil.rmtree(COPY, ignore_errors=True)
        shutil.copytree(".", COPY)
        begin = time.monotonic()
        status, report = self.ask(*words, cwd=COPY)
        self.times.least[self.kind, words[0]] = time.monotonic() - begin
        assert status == wanted, (words, status, report)
        write_text(os.path.join(COPY, "report"), report.splitlines())
        return report, files_of(COPY)

    def written(self, command):
        """The names of the files that a command may write, and that of its report."""
        area = files_of_era(self.last.era + 1)[1] if self.last else None
        names = {"checkpoint": [area, f"{area}.init", *(f"{area}.{thread}" for thread in range(THREADS))], "ship": ["stream"], "follow": []}
        return {"report", *names.get(command, self.log_names())}

    def command(self, words, killing, wanted=0):
        self.words, self.before, written = words, files_of("."), self.written(words[0])
        self.report, self.whole = self.by_copy(words, wanted)
        ended = self.times.command(self.program, self.kind, words, killing, wanted)
        self.clear_beside(ended, written)
        after = files_of(".")
        changed = {name for name in {*self.before, *after} - written if self.before.get(name) != after.get(name)}
        assert not changed, (words, changed)
        return ended

    def clear_beside(self, ended, written):
        """Removes the file that a killed command has left beside one that it writes, and counts it."""
        found = files_of(".")
        left = [match for match in map(BESIDE.fullmatch, found) if match]
        assert len(left) <= (0 if ended else 1), (ended, left)
        for match in left:
            assert match[1] in written and self.whole[match[1]].startswith(found[match[0]]), match[0]
            os.remove(match[0])
            self.left += 1

    def restore(self):
        """What `restore` says. Where it answers 0 `recover` says the same of the era's files."""
        status, report = self.ask("restore", "init", "log", "ckpt", str(THREADS))
        if status == 0:
            lines = report.splitlines()
            place = lines.index("state") - 1
            said = self.ask("recover", *files_of_era(Restored(report).era), str(THREADS))
            assert said == (0, text_of(lines[1:place] + lines[place + 1:])), (said, report)
        return status, report

    # ---- threads and images
    def go_on(self, words, scripts):
        """These scripts by one command more in the era. Its report is audited over the copy, and where it has ended."""
        self.ahead = 1
        ended = self.command(words, self.killing)
        self.audit(scripts, COPY)
        if ended:
            self.audit(scripts, ".")
        if words[0] in ("run", "resume") or self.are_images(ended):
            self.expect_gone_on(ended, scripts)

    def expect_told(self, found, scripts):
        lines = report_lines()
        if self.words[0] in ("run", "resume"):
            super().expect_told(found, scripts)
        else:
            assert text_of(lines) == self.report, "another report"
            for call, answer in (line.split(" -> ") for line in lines if line.startswith("call ")):
                if answer != "running" and not answer.startswith("ordered at "):
                    self.expect_answered(found, call, answer)
        assert f"recovered {len(found.nodes)}" in lines, lines
        assert not self.last or lines[0] == f"resumed {len(self.last.nodes)}", lines[0]

    def audit(self, scripts, folder):
        """A whole report of `run` is legal. What is said of it, and of any other, is what the judge says."""
        with open(os.path.join(folder, "report")) as file:
            report = file.read()
        status, said = self.ask("audit", self.words[1], "report", *SCRIPTS, cwd=folder)
        wanted = Judge(self.kind, KINDS[self.kind](ROOMS[self.kind]), scripts).says("report", report)
        assert (said, status) == wanted and status == (0 if self.words[0] == "run" else 3), (said, status, wanted)
        self.audits[status] = self.audits.get(status, 0) + 1

    def are_images(self, ended):
        """Whether the files of the logs are what a `replay` or an `again` leaves, or as they were, or are recovered though they are partly one
        and partly the other, where need be once they are cut; else they are removed."""
        new = self.new_images(self.before, files_of("."), self.whole)
        assert not ended or new == THREADS, new
        # An old image lacks what its thread has logged since, and new ones may have it.
        self.ahead = UPDATES if 0 < new < THREADS else 1
        if 0 < new < THREADS:
            status, said = self.restore()
            missing = MISSING.fullmatch(said)
            if missing:
                self.cut_logs(int(missing[1]))
                status, _ = self.restore()
            elif status != 0:
                assert NO_LOG.fullmatch(said) and not self.last, (status, said)
                self.go_back()
            if missing or status != 0:
                key = f"{self.words[0]}: {re.sub('[0-9]+', 'N', said.strip())}"
                self.partly[key] = self.partly.get(key, 0) + 1
            return status == 0
        return self.last is not None or new == THREADS

    def new_images(self, before, found, whole):
        """How many files, from the first on, are the images of a whole one. The rest are as they were."""
        logs = self.log_names()
        new = next((at for at, log in enumerate(logs) if found.get(log) != whole[log]), THREADS)
        assert all(found.get(log) == before.get(log) for log in logs[new:]), new
        return new

    def cut_logs(self, missing):
        """Cuts each log before its first entry of a place after the missing one."""
        for log in self.log_names():
            status, shown = self.ask("show", log)
            assert status == 0, shown
            lines = 1
            for place, count in (map(int, match.groups()) for match in ENTRY.finditer(shown)):
                if place > missing:
                    break
                lines += 1 + count
            os.truncate(log, 64 * lines)

    def go_back(self):
        """No logs, as before the first `replay`."""
        for log in self.log_names():
            if os.path.exists(log):
                os.remove(log)

    # ---- streams
    def ship(self):
        """The logs as a stream; where one has no line, that is said."""
        words, logs = ["ship", self.init_and_logs()[1], str(THREADS), "stream"], files_of(".")
        empty = [thread for thread, log in enumerate(self.log_names()) if not any(logs[log])]
        if empty:
            assert self.ask(*words) == (4, f"log {empty[0]} empty\n"), empty
            return
        ended = self.command(words, self.killing)
        stream, found = self.whole["stream"], files_of(".").get("stream")
        assert self.report == f"shipped entries {sum(self.last.entries)} bytes {len(stream)}\n", self.report
        assert not ended or (found, text_of(report_lines())) == (stream, self.report), "another stream"
        assert found in (logs.get("stream"), stream), "neither the old stream nor the new one"
        if found == stream:
            self.stream = (self.last.era, self.cut_stream(stream))
        self.expect_restored()

    def cut_stream(self, stream):
        """How many entries and updates a stream has that stays whole; none of one that is cut, as some are."""
        if self.rng.random() < 0.7:
            return sum(self.last.entries), len(self.last.nodes)
        with open("stream", "wb") as file:
            file.write(stream[:self.rng.randrange(len(stream))])
        return None

    def follow(self):
        """What is followed of the stream that is there."""
        words = ["follow", self.init_and_logs()[0], str(THREADS), "stream", str(self.rng.choice(PIECES))]
        stream = files_of(".").get("stream")
        if stream is None:
            assert self.ask(*words) == (5, "read fault stream\n")
            return
        is_other = self.stream[0] != self.last.era and len(stream) >= 64
        ended = self.command(words, self.killing, 4 if is_other else 0)
        assert not ended or text_of(report_lines()) == self.report, "followed otherwise"
        if is_other:
            assert self.report == "stream log 0 not of this run\n", self.report
        else:
            self.expect_followed(self.report.splitlines(), len(stream))
        key = "of another era" if is_other else "whole" if self.stream[1] else "a front"
        self.follows[key] = self.follows.get(key, 0) + 1
        self.expect_restored()

    def expect_followed(self, lines, length):
        era, count = self.stream
        held, followed = int(lines[1].split()[1]), int(lines[2].split()[1])
        model = copy.deepcopy(self.begun)
        for _, call in self.last.nodes[:followed]:
            model.say(*call.split())
        assert lines == [f"taken {length}", f"held {held}", f"followed {followed}", "state", *model.lines()], lines
        assert era == self.last.era or (held, followed) == (0, 0), lines
        assert held <= sum(self.last.entries) and followed <= len(self.last.nodes), lines
        assert count is None or (held, followed) == count, (lines, count)

    def expect_restored(self):
        assert self.restored().same_as(self.last), "restored otherwise"

    # ---- generations
    def expect_detected(self):
        """Each update of the era is told with its reply and its place, and one more of each thread as lost."""
        wanted = []
        for thread, name in enumerate(SCRIPTS):
            places = [place for place, (at, _) in enumerate(self.last.nodes, 1) if at == thread]
            calls = [self.last.nodes[place - 1][1] for place in places]
            more = [UPDATE_OF[self.kind](self.rng)] if len(calls) < MOST else []
            write_text(name, calls + more)
            ends = [*(f"{self.replies[place - 1]} at {place}" for place in places), *("lost" for _ in more)]
            wanted += [f"call {thread} {number} {call} -> {end}" for number, (call, end) in enumerate(zip(calls + more, ends), 1)]
        said = self.ask("detect", *self.init_and_logs(), *SCRIPTS)
        assert said == (0, text_of([*wanted, f"recovered {len(self.last.nodes)}"])), said

    def next_command(self):
        """One that applies. Where a thread has no room for one more script the era ends."""
        if not self.last:
            return self.rng.choice(["run", "replay"])
        counts = [sum(thread == at for at, _ in self.last.nodes) for thread in range(THREADS)]
        return "checkpoint" if max(counts) + UPDATES > MOST else self.rng.choices(NEXT, OFTEN)[0]

    def generation(self, command):
        if command == "checkpoint":
            if self.checkpoint(self.killing):
                self.begun = copy.deepcopy(self.model)
        elif command in ("ship", "follow"):
            getattr(self, command)()
        else:
            scripts = self.scripts()
            write_text("plan", plan_of(self.rng))
            init, logs = self.init_and_logs()
            plan = [] if command in ("run", "resume") else ["plan"]
            self.go_on([command, init, *plan, logs, *SCRIPTS], scripts)

    def go(self, generations):
        self.begin()
        for _ in range(generations):
            self.rounds += 1
            self.generation(self.next_command())
            if self.last:
                self.expect_detected()


def asked():
    words = argparse.ArgumentParser(description=__doc__.splitlines()[0])
    words.add_argument("--chains", type=int, default=4)
    words.add_argument("--generations", type=int, default=100)
    words.add_argument("--seed", type=int, default=1)
    words.add_argument("program", nargs="?")
    return words.parse_args()


def summed(counts):
    """One count of all, as a text."""
    total = {}
    for count in counts:
        for said, number in count.items():
            total[said] = total.get(said, 0) + number
    return ", ".join(f"{number} {said}" for said, number in sorted(total.items(), key=str)) or "none"


def tell(chains, times):
    """What was done, by counts."""
    print(f"{len(chains)} chains, {sum(chain.rounds for chain in chains)} generations, none failing")
    for command in ["run", "replay", *NEXT]:
        print(f"{command}: {times.kills.get(command, 0)} killed, {times.ends.get(command, 0)} ended")
    print(f"{sum(chain.killed_late for chain in chains)} checkpoints killed once the next era had begun")
    lasts = [chain.last for chain in chains if chain.last]
    print(f"eras at the end: {sorted(last.era for last in lasts)}, places: {sorted(last.place for last in lasts)}")
    print("statuses of audits:", summed({f"of {status}": count for status, count in chain.audits.items()} for chain in chains))
    print("streams followed:", summed(chain.follows for chain in chains))
    print("before every log had a line:", summed(chain.early for chain in chains))
    print("logs refused, and then cut or removed:", summed(chain.partly for chain in chains))
    print("files left beside:", sum(chain.left for chain in chains))


def main():
    wanted = asked()
    program = os.path.abspath(wanted.program) if wanted.program else proved_program()
    rng, times, chains = random.Random(wanted.seed), Times(), []
    folder = tempfile.mkdtemp(prefix="mixed.")
    os.mkdir(os.path.join(folder, "files"))
    os.chdir(os.path.join(folder, "files"))
    try:
        for number in range(wanted.chains):
            chain = Mixed(program, list(KINDS)[number % len(KINDS)], times, rng)
            chains.append(chain)
            chain.go(wanted.generations)
    except (AssertionError, IndexError, OSError, ValueError) as wrong:
        print(f"generation {chains[-1].rounds} of chain {len(chains)} of seed {wanted.seed}, its files are in {folder}: {type(wrong).__name__} {str(wrong)[:4000]}")
        sys.exit(1)
    tell(chains, times)
    os.chdir("/")
    shutil.rmtree(folder)


if __name__ == "__main__":
    main()
