#!/usr/bin/env python3
"""Kills `onll_meter` at each call of the system while an era changes and in the starts around it, fails each call, loses what no sync made
durable, and checks what the next starts find.
Usage: bench/renewing.py [--program PATH] [--only CASE] [--chains N] [--seed S] [--strict]
Build the program first, by `rt run` in crates/onll_meter; or name another one of the same words. It wants a C compiler (`cc`).

There is one clerk. The cases are files of which the log of the first, second or third era is nearly full, files of a full log, files of a
full log and of an area whose save was cut off, files of an era that has just begun, files of an era of two clerks, and files of the era
after it, nearly full, beside the two logs of the one before. In each case one start is made, in which the era changes, but where it has
just begun:
- It is killed before each call, and in the midst of each write.
- Each call fails with EIO, and each write, sync, truncation, and opening of a file with ENOSPC. The start goes on, or says why it didn't.
- Where the system says that a name isn't there, a log or an area is copied beside and then takes it; of this each step is killed or fails.
- Each sync fails, and this start is killed before each later call, or the next one before each of its calls; then the power fails.
After each of the first three the next start is over the files as they are, and over what a loss of power leaves of them; it counts two, the
power fails, and one more start looks. Each of these ends with 0 and `kept`. What the next start finds is what was acknowledged, with one
more exactly where that count's entry was written and not said (and is durable, after a loss of power). Where an entry's write or sync
failed there may be one more; each kill that is at random, or after a sync that failed, may have made one more. So no count that was said is
lost, none is said twice, and the era never goes back. The files take no more than two eras' logs and areas. A count that could not be said
ends the start with 1.
Last come chains of starts that fail and are killed at random calls, with losses of power between them; some leave sectors that were not
synced, too.
A loss of power leaves the names that there were at the last good sync of their folder. Where a copy takes a name, a later sync of the copy
makes that durable too, as file systems in use do, and `--strict` does without that.
Ends with 0, or says what went otherwise, keeps these files, and ends with 1."""
import argparse
import collections
import errno
import os
import random
import shutil
import subprocess
import sys
import tempfile

from failing import Outside
from memory import files_of
from proved import TOP

# The updates of a log, the bytes of a sector, and the most bytes that each file takes: a log has a line, and for each update one more than
# there are clerks, of whom there were two at most.
ROOM, SECTOR = 4096, 512
SIZES = {"m.era.lock": 0, **{name: size for era in (0, 1) for name, size in (
    (f"m.era.{era}.lock", 0), (f"m.era.{era}", 128), *((f"m.era.{era}.{clerk}", 64 * (1 + 3 * ROOM)) for clerk in (0, 1)))}}

# The files, what a loss of power leaves of them, and what it would leave too if the names were durable.
State = collections.namedtuple("State", "files disk names")
# What a start said: its status, the totals, what else it said, and the calls that it made.
Ran = collections.namedtuple("Ran", "status totals others calls")
# A state in which so many were counted, in this era, and a start of it that counts so many: its calls, and the number of the call that says
# each count.
Case = collections.namedtuple("Case", "name state base era each calls said")
NOTHING = State({}, {}, {})


def lost(state):
    """What is left when the power fails."""
    return State(state.disk, state.disk, {})


def mixed(state, chance):
    """What a loss of power may leave too: of each sector what was written, or what was durable before."""
    files = {}
    for name in sorted({*state.files, *state.disk}):
        new, old = (part.get(name) for part in (state.files, state.disk))
        if new is None or old is None or len(new) != len(old):
            files[name] = chance.choice([new, old])
        else:
            files[name] = b"".join(chance.choice([data[at:at + SECTOR] for data in (new, old)]) for at in range(0, len(new), SECTOR))
    files = {name: data for name, data in files.items() if data is not None}
    return State(files, files, {})


def told(ran):
    """The era and the total that a start told, where it told them."""
    for line in ran.others:
        words = line.replace(",", "").split()
        if len(words) == 4 and words[0] == "era" and words[3] == "counted":
            return int(words[1]), int(words[2])
    return None


def numbers_of(call, calls):
    """The numbers of the calls that are this one."""
    return [n for n, made in enumerate(calls, 1) if made == call]


def steps(calls, first):
    """The numbers of these calls from the first on, without those that only go on with a call before."""
    return [n for n in range(first, len(calls) + 1) if n == 1 or calls[n - 1] != calls[n - 2]]


def changed(calls, first):
    """Those of these numbers at which something may have changed since the call before."""
    return [n for n in steps(calls, first) if n == first or calls[n - 2].split()[0] not in ("stat", "read", "lock")]


def in_doubt(case, n):
    """Whether this call is the write or the sync of a count's entry, or says the count."""
    return any(said - 2 <= n <= said for said in case.said)


class Meter:
    """The program over its files, the runs that were made, and what went otherwise."""

    def __init__(self, program, work, strict):
        self.strict = strict
        self.outside, self.kept = Outside(program, work), os.path.join(work, "wrong")
        self.starts, self.runs, self.wrong, self.found_more = 0, collections.Counter(), collections.Counter(), 0
        self.kind, self.bound, self.own, self.last_wrong, self.faults = "", 0, 0, 0, 0

    def run(self, state, each, clerks=1, **asked):
        """A start over this state: what it said, and the state that it leaves."""
        outside = self.outside
        for files, folder in zip(state, (outside.files, outside.disk, outside.names)):
            outside.put(files, folder)
        try:
            status, lines = outside.run(["m", str(clerks), str(each)], DISK=outside.disk, NAMES=outside.names, OWN=self.own, **asked)
        except subprocess.TimeoutExpired:
            status, lines = None, []
        self.starts += 1
        totals = [int(line.split()[2]) for line in lines if line.startswith("counted ")]
        others = [line for line in lines if not line.startswith("counted ")]
        left = State(*(files_of(folder) for folder in (outside.files, outside.disk, outside.names)))
        return Ran(status, totals, others, outside.calls()), left

    def begin(self, kind):
        """One more run of this kind."""
        self.kind = kind
        self.runs[kind] += 1

    def tell(self, name):
        """Says how many runs of each kind of this case were made, and how many were wrong."""
        for kind, count in self.runs.items():
            if kind.startswith(name):
                print(f"{kind}: {count}, {self.wrong[kind]} wrong", flush=True)

    def expect(self, holds, state, *text):
        """Says this where something doesn't hold, and keeps the state in which it was found."""
        if holds:
            return
        self.wrong[self.kind] += self.last_wrong != self.runs.total()
        self.last_wrong, self.faults = self.runs.total(), self.faults + 1
        folder = os.path.join(self.kept, str(self.faults))
        for part, files in zip(State._fields, state):
            os.makedirs(os.path.join(folder, part))
            self.outside.put(files, os.path.join(folder, part))
        print(f"{self.kind}:", *text, f"({folder})", flush=True)

    def expect_sizes(self, state, *text):
        """No file is longer than its log or area, and there are no others, but those beside that a kill left in the midst of a copy."""
        for files in (state.files, state.disk):
            others = [name for name, data in files.items() if len(data) > SIZES.get(name, -1)]
            self.expect(len([name for name in others if ".new" in name]) == len(others) <= self.bound, state, *text, f"files {others}")

    def follow(self, state, least, most, era, *text):
        """The next start finds so many, in this era or a later one, and counts two more, which are there when the power has failed."""
        ran, left = self.run(state, 2)
        end = told(ran) or (-1, -1)
        found = end[1] - 2
        self.expect(ran.status == 0 and ran.totals == [found + 1, found + 2] and ran.others[1:] == ["kept"] and least <= found <= most
                    and era <= end[0], state, *text, f"found {ran[:3]} for {least} to {most} in {era}")
        self.found_more += found > least
        self.expect_sizes(left, *text)
        last, after = self.run(lost(left), 0)
        ended = told(last) or (-1, -1)
        self.expect(last.status == 0 and not last.totals and last.others[1:] == ["kept"] and ended[1] == found + 2 and end[0] <= ended[0],
                    lost(left), *text, f"after a loss of power {last[:3]} for {end}")
        self.expect_sizes(after, *text)

    def expect_totals(self, case, ran, base, doubt, *text):
        """The totals that a start said follow each other, but for one that is missing where a count is in doubt."""
        gaps = [total - base - at for at, total in enumerate(ran.totals, 1)]
        self.expect(gaps == sorted(gaps) and all(0 <= gap <= doubt for gap in gaps), case.state, *text, f"said {ran[:3]}")

    def expect_end(self, case, ran, *text):
        """A start that wasn't killed has said all and kept it, or says what it hasn't."""
        whole = len(ran.totals) == case.each and ran.others[-1:] == ["kept"]
        self.expect(ran.status == (0 if whole else 1), case.state, *text, f"ended {ran[:3]}")

    def both(self, case, left, least, most, *text):
        """What follows over the files as they are, and over what a loss of power leaves."""
        self.follow(left, least[0], most[0], case.era, *text)
        self.follow(lost(left), least[1], most[1], case.era, *text, "power lost")


def case_of(meter, name, state, each):
    """A case, by a start that isn't disturbed."""
    base = sum(told(meter.run(state, 0)[0])[1:])
    era = told(meter.run(state, 0)[0])[0]
    ran, _ = meter.run(state, each)
    meter.begin(f"{name}, undisturbed")
    meter.expect(ran.status == 0 and ran.totals == list(range(base + 1, base + each + 1)), state, f"{ran[:3]}")
    return Case(name, state, base, era, each, ran.calls, numbers_of("write output", ran.calls)[:each])


def kills(meter, case):
    """Kills a start before each call, and in the midst of each write."""
    for n, call in enumerate(case.calls, 1):
        for how in ("KILL", "CUT") if call.startswith("write ") else ("KILL",):
            meter.begin(f"{case.name}, {how}")
            text = f"call {n}, {call}"
            ran, left = meter.run(case.state, case.each, **{how: n})
            meter.expect(ran.status == -9 and len(ran.totals) == sum(at < n for at in case.said), case.state, text, ran[:3])
            meter.expect_totals(case, ran, case.base, 0, text)
            written, synced = (case.base + sum(at - before < n for at in case.said) for before in (2, 1))
            meter.both(case, left, (written, synced), (written, synced), text)


def errors_of(call):
    """With what a call fails."""
    return [errno.EIO] + [errno.ENOSPC] * (call.split()[0] in ("write", "sync", "truncate", "open", "rename"))


def fails(meter, case):
    """Fails each call."""
    for n, call in enumerate(case.calls, 1):
        for error in errors_of(call):
            meter.begin(f"{case.name}, {errno.errorcode[error]}")
            text, doubt = f"call {n}, {call}", in_doubt(case, n)
            ran, left = meter.run(case.state, case.each, FAIL=n, ERRNO=error)
            meter.expect_totals(case, ran, case.base, doubt, text)
            meter.expect_end(case, ran, text)
            least = max([case.base + len(ran.totals), *ran.totals])
            meter.both(case, left, (least, least), (case.base + len(ran.totals) + doubt,) * 2, text)


def copies(meter, case):
    """Where the name is said not to be there when a file is kept, it is copied: each step of this is killed, or fails."""
    for n, call in enumerate(case.calls, 1):
        if not call.startswith("stat "):
            continue
        lacking = {"LACKS": n, "ERRNO": errno.EIO}
        ran, _ = meter.run(case.state, case.each, **lacking)
        renamed = [at for at, call in enumerate(ran.calls, 1) if call.startswith("rename ")]
        if not renamed:
            continue
        for later in (at for at in steps(ran.calls, n + 1) if at <= renamed[0] + 3):
            for how in ("KILL", "CUT", "FAIL") if ran.calls[later - 1].startswith("write ") else ("KILL", "FAIL"):
                copy(meter, case, lacking, ran, later, how)
    if not any(kind.startswith(f"{case.name}, a copy") for kind in meter.runs):
        meter.begin(f"{case.name}, a copy")
        meter.expect(False, case.state, "none was made")


def copy(meter, case, lacking, whole, later, how):
    """One of these: what was said before is found."""
    meter.begin(f"{case.name}, a copy, {how}")
    text = f"{lacking['LACKS']} finds no file, call {later}, {whole.calls[later - 1]}"
    ran, left = meter.run(case.state, case.each, **lacking, **{how: later})
    meter.expect_totals(case, ran, case.base, 0, text)
    if how == "FAIL":
        meter.expect_end(case, ran, text)
    else:
        meter.expect(ran.status == -9, case.state, text, ran[:3])
    found = case.base + len(ran.totals)
    meter.bound, meter.own = int(how != "FAIL"), int(not meter.strict)
    meter.both(case, left, (found, found), (found, found), text)
    meter.bound = meter.own = 0


def losses(meter, case):
    """Fails each sync, kills this start or the next one before each later call, and then loses the power."""
    for n, call in enumerate(case.calls, 1):
        if not call.startswith("sync "):
            continue
        failing, doubt = {"FAIL": n, "ERRNO": errno.EIO}, in_doubt(case, n)
        first, left = meter.run(case.state, case.each, **failing)
        for kill in changed(first.calls, n + 1):
            meter.begin(f"{case.name}, a sync, KILL")
            ran, after = meter.run(case.state, case.each, KILL=kill, **failing)
            least = max([case.base + len(ran.totals), *ran.totals])
            most = case.base + len(ran.totals) + doubt + 1
            meter.follow(lost(after), least, most, case.era, f"call {n}, {call}, killed at {kill}, {first.calls[kill - 1]}")
        calls = meter.run(left, 2)[0].calls
        for kill in changed(calls, 1):
            meter.begin(f"{case.name}, a sync, KILL in the next start")
            ran, after = meter.run(left, 2, KILL=kill)
            said = len(first.totals) + len(ran.totals)
            text = f"call {n}, {call}, the next start killed at {kill}, {calls[kill - 1]}"
            meter.expect_totals(case, Ran(0, first.totals + ran.totals, [], []), case.base, doubt, text)
            least = max([case.base + said, *first.totals, *ran.totals])
            meter.follow(lost(after), least, case.base + said + doubt + 1, case.era, text)


def chain(meter, chance, state, base, era):
    """Starts that are disturbed at random, and a last one that isn't."""
    meter.begin("random starts")
    said, doubt, greatest, text = 0, 0, base, []
    for _ in range(chance.randint(2, 5)):
        how = chance.choice(["KILL", "CUT", "FAIL", "FAIL"])
        asked = {how: chance.randint(1, 180), "ERRNO": chance.choice([errno.EIO, errno.ENOSPC])}
        if how == "FAIL" and chance.random() < 0.5:
            asked["KILL"] = asked["FAIL"] + chance.randint(1, 60)
        each = chance.randint(0, 8)
        text.append(f"{each} {asked}")
        before = state
        ran, state = meter.run(state, each, **asked)
        meter.expect(ran.status in (-9, 0, 1) and ran.totals == sorted(set(ran.totals)), before, *text, ran[:3])
        meter.expect(all(total > greatest for total in ran.totals), before, *text, ran[:3], f"after {greatest}")
        said, doubt = said + len(ran.totals), doubt + 1 + ("KILL" in asked)
        greatest = max([greatest, *ran.totals, base + said])
        loss = chance.choice(["", "", "power lost", "power lost, sectors written"])
        text.append(loss)
        if loss:
            state = mixed(state, chance) if "sectors" in loss else lost(state)
    meter.bound = 5
    meter.follow(state, greatest, base + said + doubt, era, *text)
    meter.bound = 0


def prepared(meter):
    """The states of the cases, each with how many are to be counted."""
    first = meter.run(NOTHING, ROOM - 3)[1]
    second = meter.run(first, ROOM)[1]
    third = meter.run(second, ROOM)[1]
    # Killed once it has said the last count that the log has room for, and then before the third write of the next area, its first line.
    last = numbers_of("write output", meter.run(third, 3)[0].calls)[2]
    full = meter.run(third, 3, KILL=last + 1)[1]
    torn = meter.run(full, 1, KILL=numbers_of("write m.era.1", meter.run(full, 1)[0].calls)[2])[1]
    begun = meter.run(third, 5)[1]
    pair = meter.run(NOTHING, 7, clerks=2)[1]
    return {"first era": (first, 5), "second era": (second, 5), "third era": (third, 5), "full log": (full, 2), "torn area": (torn, 2),
            "era begun": (begun, 2), "two clerks": (pair, 5), "logs of two": (meter.run(pair, ROOM - 3)[1], 5)}


def main():
    ask = argparse.ArgumentParser()
    ask.add_argument("--program", default=os.path.join(TOP, "crates/onll_meter/out/onll_meter"))
    ask.add_argument("--only", help="this case alone")
    ask.add_argument("--chains", type=int, default=300)
    ask.add_argument("--seed", type=int, default=1)
    ask.add_argument("--strict", action="store_true", help="a name is durable by a sync of its folder alone, for copies too")
    asked = ask.parse_args()
    work = tempfile.mkdtemp(prefix="renewing-")
    meter = Meter(os.path.abspath(asked.program), work, asked.strict)
    states = prepared(meter)
    cases = [case_of(meter, name, *states[name]) for name in states if asked.only in (None, name)]
    for case in cases:
        for disturb in (kills, fails, copies, losses):
            disturb(meter, case)
        meter.tell(case.name)
    chance = random.Random(asked.seed)
    for _ in range(asked.chains):
        case = chance.choice(cases)
        chain(meter, chance, case.state, case.base, case.era)
    meter.tell("random")
    print(f"{meter.runs.total()} runs with {meter.starts} starts, {meter.found_more} with a count that was in doubt, "
          f"{meter.wrong.total()} wrong")
    if not meter.wrong:
        shutil.rmtree(work)
    return 1 if meter.wrong else 0


if __name__ == "__main__":
    sys.exit(main())
