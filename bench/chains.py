#!/usr/bin/env python3
"""Kills runs over the files of the system, goes on from what each kill leaves, and kills that too.
Usage: bench/chains.py [CHAINS [SEED [PROGRAM]]]
Build the program first, by `./prove`; or name another one of the same words.

A chain has six generations of four threads with 600 updates each: one `run`, and then `resume` over the logs that are there. Each is
killed by signal 9 at a moment between its start and the time that a whole one takes; one that ends before that stays in the chain. No
two generations have an update in common, so each node tells which one made it. After each, `recover` must answer 0: its nodes begin
with those that were recovered before, and of each thread the further ones are the first updates of this generation's script in their
order, as many as its log has gained entries, or one more, which another thread has logged. Of a generation that has ended all updates
are there, and its report has said so. Where the first one is killed before every log has a line, `recover` may find no file or no log,
as in `bench/kill.py`, which is counted apart, and the chain begins again; where it answers 0, the chain goes on with logs that are
begun anew."""
import os
import tempfile

from kill import (LOGS, THREADS, asked, counts_of, entries_of, expect_balances, expect_early, has_first_line, killed, make_bank,
                  make_scripts, nodes_of, recover, remove_logs, start, tell_early, whole_time)

GENERATIONS, UPDATES = 6, 600


def script_of(generation, thread):
    return [f"deposit {thread} {generation * 1000 + number}" for number in range(1, UPDATES + 1)]


SCRIPTS = [[script_of(generation, thread) for thread in range(THREADS)] for generation in range(GENERATIONS)]


def command_of(generation):
    return "resume" if generation else "run"


class Chain:
    """What the generations so far have left: the nodes and the entries that were recovered last, and how each generation ended."""

    def __init__(self):
        self.nodes, self.entries = [], [0] * THREADS
        self.kills, self.ends, self.begun_anew = 0, 0, 0

    def expect_more(self, generation, report):
        """Asserts what is recovered after one generation more, and gives how many updates of it each thread has."""
        nodes, entries = nodes_of(report), entries_of(report)
        assert nodes[:len(self.nodes)] == self.nodes, report
        counts = counts_of(nodes[len(self.nodes):], SCRIPTS[generation])
        for thread, count in enumerate(counts):
            assert 0 <= count - (entries[thread] - self.entries[thread]) <= 1, report
        expect_balances(report, nodes)
        return nodes, entries, counts

    def expect_ended(self, generation, nodes, counts):
        """A generation that has ended has logged all its updates, and has told them."""
        assert counts == [UPDATES] * THREADS, counts
        with open("report") as file:
            lines = file.read().splitlines()
        assert not generation or lines[0] == f"resumed {len(self.nodes)}", lines[0]
        assert f"recovered {len(nodes)}" in lines, lines[-20:]
        told = [line.split(maxsplit=5) for line in lines if line.startswith("node ")]
        assert [(int(thread), call) for _, _, thread, _, flag, call in told if flag == "set"] == nodes, lines

    def go_on(self, program, generation, is_killed):
        """Whether there is something to go on from, or what `recover` says, where there isn't."""
        begun = generation > 0 or all(has_first_line(log) for log in LOGS)
        status, report = recover(program)
        if not begun and status != 0:
            return expect_early(status, report)
        assert status == 0, report
        nodes, entries, counts = self.expect_more(generation, report)
        without_line = sum(not has_first_line(log) for log in LOGS)
        assert not without_line or nodes == self.nodes, report
        if not is_killed:
            self.expect_ended(generation, nodes, counts)
        self.begun_anew += without_line
        self.kills, self.ends = self.kills + is_killed, self.ends + (not is_killed)
        self.nodes, self.entries = nodes, entries
        return None


def whole_times(program, names):
    """How many seconds each generation takes that isn't killed, each from what the ones before have left."""
    remove_logs()
    return [whole_time(program, command_of(generation), scripts) for generation, scripts in enumerate(names)]


def chain_of(program, rng, names, times):
    """One chain, or what `recover` says of its first generation, where there is nothing to go on from."""
    remove_logs()
    chain = Chain()
    for generation, scripts in enumerate(names):
        run = start(program, command_of(generation), scripts)
        is_killed = killed(run, rng.uniform(0, times[generation]))
        early = chain.go_on(program, generation, is_killed)
        if early:
            return None, early
    return chain, None


def main():
    wanted, rng, program = asked()
    wanted = 50 if wanted is None else wanted
    chains, early = [], {}
    with tempfile.TemporaryDirectory() as folder:
        os.chdir(folder)
        make_bank()
        names = [make_scripts(f"script{generation}.", scripts) for generation, scripts in enumerate(SCRIPTS)]
        times = [min(tries) for tries in zip(*(whole_times(program, names) for _ in range(3)))]
        while len(chains) < wanted:
            chain, found = chain_of(program, rng, names, times)
            if chain:
                chains.append(chain)
            else:
                early[found] = early.get(found, 0) + 1
    print(f"{len(chains)} chains of {GENERATIONS} generations, {sum(chain.kills for chain in chains)} killed and "
          f"{sum(chain.ends for chain in chains)} ended, none failing; {sum(chain.begun_anew for chain in chains)} times a log to be begun")
    counts = sorted(len(chain.nodes) for chain in chains)
    if counts:
        print(f"of {GENERATIONS * THREADS * UPDATES} updates {counts[0]} to {counts[-1]} recovered, {counts[len(counts) // 2]} in the middle")
    tell_early(early)


if __name__ == "__main__":
    main()
