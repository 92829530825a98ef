#!/usr/bin/env python3
"""Kills `onll_locks` at random moments, over generations that each go on from what the one before left, and checks each reply.
Usage: bench/locks.py [--chains N] [--seed S] [PROGRAM]
Build the program first, by `rt run` in crates/onll_locks; or name another one of the same words.

A chain is up to five generations of one to four threads over one set of files, with two to six clients that each wait for the reply to
their request before they make the next, at random: they acquire and release a few locks, ask who holds one, release what they don't
hold, and send bad lines. Each generation but the last is killed by signal 9 while requests are on their way. Of all replies of a chain:
- a lock is granted only where no client holds it that was told so and has not asked to release it;
- its token is greater than each that was seen for the lock before the client asked, and than each that was granted, and one token is
  never of two clients;
- who was granted a lock is told to hold it with that token by each later answer, after a restart too, until he asks to release it;
- a release is done where its client holds the lock with that token, and is stale where he doesn't;
- a lock that is none, and each bad line, gets its own refusal.
A client whose reply was lost by a kill asks again, or asks who holds the lock: by the answer the request was done or wasn't. The last
generation answers all, and ends with `kept` and 0. This ends with 0, or names each chain that went otherwise and ends with 1."""
import argparse
import os
import random
import selectors
import signal
import subprocess
import sys
import tempfile
import time

from proved import TOP

LOCKS, PATIENCE = 3, 60
# The replies, and to which requests they are given.
KINDS = {"granted": ("acquire",), "held": ("acquire", "holder"), "free": ("holder",), "released": ("release",),
         "stale": ("release", "false release")}


class Wrong(Exception):
    """What a chain did that it must not."""


def expect(is_so, text):
    if not is_so:
        raise Wrong(text)


class Client:
    """What one client knows: the locks that it was told it holds, with their tokens, and the request that it waits for."""

    def __init__(self, number):
        self.number, self.holds, self.waits, self.lost = number, {}, None, None


class Table:
    """What all clients were told of the locks."""

    def __init__(self, clients, chance):
        self.clients = {number: Client(number) for number in range(1, clients + 1)}
        self.chance, self.owner, self.granted, self.seen = chance, {}, {}, {}
        self.clock, self.nameless = 0, []
        self.counts = dict.fromkeys(("requests", "grants", "releases", "lost", "done"), 0)

    def holder_of(self, lock):
        """Who holds the lock for sure, and since when: one that was told so, and has not asked to release it."""
        sure = [(client, client.holds[lock]) for client in self.clients.values() if lock in client.holds]
        sure = [(client, *held) for client, held in sure if not self.asks_release(client, lock, held[0])]
        expect(len(sure) < 2, f"lock {lock} is held by {[(client.number, token) for client, token, _ in sure]}")
        return sure[0] if sure else None

    @staticmethod
    def asks_release(client, lock, token):
        return any(it and it[:3] == ("release", lock, token) for it in (client.waits, client.lost))

    # ---- requests
    def choose(self, client):
        """The next request of a client, as (kind, lock, token or the bad line's refusal, text)."""
        number, lock, chance = client.number, self.chance.randrange(LOCKS), self.chance.random()
        held = sorted(client.holds)
        if client.lost:
            kind, lock, token, text = client.lost
            if self.chance.random() < 0.5:
                return kind, lock, token, text
            return "holder", lock, None, f"{number} holder {lock}"
        if held and chance < 0.5:
            lock = self.chance.choice(held)
            token = client.holds[lock][0]
            return "release", lock, token, f"{number} release {lock} {token}"
        if chance < 0.75:
            return "acquire", lock, None, f"{number} acquire {lock}"
        if chance < 0.88:
            return "holder", lock, None, f"{number} holder {lock}"
        if chance < 0.93:
            token = self.seen.get(lock, 0) + self.chance.choice((-1, 1, 2))
            if token >= 0 and client.holds.get(lock, (None,))[0] != token:
                return "false release", lock, token, f"{number} release {lock} {token}"
        return self.bad_line(number)

    def bad_line(self, number):
        text, refusal = self.chance.choice((
            (f"{number} acquire", f"{number} refused: bad lock"), (f"{number} steal 1", f"{number} refused: no request"),
            (f"{number} release 1", f"{number} refused: bad token"), (f"{number} holder 1 2", f"{number} refused: more words"),
            (f"{number} holder 16", f"{number} 16 no lock"), (f"{number} acquire 99", f"{number} 99 no lock"),
            (f"{number}x acquire 1", "refused: no client")))
        if refusal.startswith("refused"):
            self.nameless.append(number)
        return "bad", None, refusal, text

    def ask(self, client, lock=None):
        """The line of the client's next request, which it waits for from now on; who holds a lock, where it is to ask that."""
        self.clock += 1
        asked = ("holder", lock, None, f"{client.number} holder {lock}") if lock is not None else self.choose(client)
        client.waits = (*asked, self.clock, dict(self.seen))
        return client.waits[3] + "\n"

    # ---- replies
    def told(self, line):
        """Takes a reply, and checks it."""
        words = line.split()
        number = self.nameless.pop(0) if words[0] == "refused:" else int(words[0]) if words[0].isdigit() else None
        client = self.clients.get(number)
        expect(client and client.waits, f"nobody waits for {line!r}")
        kind, lock, token, text, _, seen = client.waits
        self.clock += 1
        self.counts["requests"] += 1
        if kind == "bad":
            expect(line == token, f"{text!r} got {line!r}")
            client.waits = None
            return
        expect(words[1] == str(lock), f"{text!r} got {line!r}")
        expect(kind in KINDS.get(words[2], ()), f"{text!r} got {line!r}")
        getattr(self, "was_" + words[2])(client, line, [int(word) for word in words[3:]], seen)
        client.waits = None

    def is_of(self, lock, token, number):
        """One token of a lock is of one client for ever."""
        other = self.owner.setdefault((lock, token), number)
        expect(other == number, f"token {token} of lock {lock} is of {other} and of {number}")
        self.seen[lock] = max(self.seen.get(lock, 0), token)

    def was_granted(self, client, line, numbers, seen):
        lock, (token,) = client.waits[1], numbers
        holder = self.holder_of(lock)
        expect(holder is None, f"{line!r}, and {holder and holder[0].number} holds it with {holder and holder[1]}")
        least = max(self.granted.get(lock, 0), seen.get(lock, 0))
        expect(token > least, f"{line!r} after token {least}")
        self.is_of(lock, token, client.number)
        self.granted[lock] = token
        self.counts["grants"] += 1
        if client.lost:
            self.resolve(client, False)
        client.holds[lock] = (token, self.clock)

    def was_held(self, client, line, numbers, seen):
        lock, since, (number, token) = client.waits[1], client.waits[4], numbers
        holder = self.holder_of(lock)
        if holder and holder[2] < since:
            expect((holder[0].number, holder[1]) == (number, token), f"{line!r}, and {holder[0].number} holds it with {holder[1]}")
        expect(token >= seen.get(lock, 0), f"{line!r} after token {seen.get(lock, 0)}")
        self.is_of(lock, token, number)
        mine = number == client.number
        if client.lost:
            kind, _, released = client.lost[:3]
            if kind == "acquire":
                self.resolve(client, mine)
                if mine:
                    client.holds[lock] = (token, self.clock)
            else:
                self.resolve(client, not mine)
                expect(not mine or token == released, f"{line!r} after a release of {released}")
                if not mine:
                    client.holds.pop(lock)
            return
        expect(not mine or client.holds.get(lock, (None,))[0] == token, f"{line!r}, which it was never told")

    def was_free(self, client, line, numbers, seen):
        lock, since = client.waits[1], client.waits[4]
        holder = self.holder_of(lock)
        expect(not holder or holder[2] > since, f"{line!r}, and {holder and holder[0].number} holds it with {holder and holder[1]}")
        if client.lost:
            kind = client.lost[0]
            self.resolve(client, kind == "release")
            if kind == "release":
                client.holds.pop(lock)

    def was_released(self, client, line, numbers, seen):
        if client.lost:
            self.resolve(client, False)
        client.holds.pop(client.waits[1])
        self.counts["releases"] += 1

    def was_stale(self, client, line, numbers, seen):
        kind, lock = client.waits[:2]
        if kind == "release":
            expect(client.lost, f"{client.waits[3]!r} got {line!r}, and it holds the lock")
            self.resolve(client, True)
            client.holds.pop(lock)

    def resolve(self, client, was_done):
        """A request whose reply was lost is known to be done or not."""
        self.counts["done"] += was_done
        client.lost = None

    def is_killed(self):
        """What was not answered is lost: only a request that changes something matters, or is asked for again still."""
        self.nameless = []
        for client in self.clients.values():
            if client.waits and not client.lost and client.waits[0] in ("acquire", "release"):
                client.lost = client.waits[:4]
                self.counts["lost"] += 1
            client.waits = None

    def checks_all(self):
        """The requests by which each client asks for all that it was told it holds, after a restart."""
        return [(client, lock) for client in self.clients.values() for lock in client.holds]


class Service:
    """One generation: the program, and the lines that it says."""

    def __init__(self, program, folder, threads):
        self.run = subprocess.Popen([program, "l", str(threads)], cwd=folder, stdin=subprocess.PIPE, stdout=subprocess.PIPE, bufsize=0)
        self.eyes = selectors.DefaultSelector()
        self.eyes.register(self.run.stdout, selectors.EVENT_READ)
        self.rest = b""

    def send(self, text):
        try:
            self.run.stdin.write(text.encode())
        except BrokenPipeError:
            raise Wrong("the program ended by itself") from None

    def lines(self, seconds):
        """The lines that come within this time; none where the program says no more."""
        if not self.eyes.select(seconds):
            return []
        data = os.read(self.run.stdout.fileno(), 65536)
        if not data:
            return None
        *whole, self.rest = (self.rest + data).split(b"\n")
        return [line.decode() for line in whole]

    def left(self):
        """The lines to the end of what it says. One that was cut short is no reply."""
        lines = (self.rest + self.run.stdout.read()).split(b"\n")[:-1]
        self.run.wait(PATIENCE)
        return [line.decode() for line in lines]

    def kill(self):
        self.run.send_signal(signal.SIGKILL)


def ask_all(service, table, again):
    """Lets each client ask that waits for no reply; after a restart for the locks that it was told it holds."""
    for client in table.clients.values():
        if client.waits is None:
            mine = next((it for it in again if it[0] is client and not client.lost), None)
            if mine:
                again.remove(mine)
            service.send(table.ask(client, mine and mine[1]))


def talk(service, table, replies):
    """Lets each client ask on and on, until there were so many replies; then they have asked once more."""
    again = table.checks_all()
    table.chance.shuffle(again)
    got, patience = 0, time.monotonic() + PATIENCE
    while got < replies:
        ask_all(service, table, again)
        lines = service.lines(1)
        expect(lines is not None and time.monotonic() < patience, "the program ended by itself, or answers no more")
        for line in lines:
            table.told(line)
            got += 1
    ask_all(service, table, again)


def finish(service, table):
    """All are answered that wait, and the input ends."""
    patience = time.monotonic() + PATIENCE
    while any(client.waits for client in table.clients.values()):
        lines = service.lines(1)
        expect(lines is not None and time.monotonic() < patience, "the last generation leaves a request unanswered")
        for line in lines:
            table.told(line)
    service.run.stdin.close()
    lines = service.left()
    expect(service.run.returncode == 0 and lines and lines[-1] == "kept", f"the last ended with {service.run.returncode}: {lines[-3:]}")


def run_chain(program, chance, table, told):
    """One chain; gives how many kills it had."""
    threads, kills, service = chance.randint(1, 4), 0, None
    with tempfile.TemporaryDirectory() as folder:
        try:
            for _ in range(chance.randint(1, 4)):
                service = Service(program, folder, threads)
                talk(service, table, chance.choice((0, 1, chance.randint(2, 20), chance.randint(20, 150))))
                time.sleep(chance.choice((chance.uniform(0, 0.004), chance.uniform(0, 0.05))))
                service.kill()
                for line in service.left():
                    table.told(line)
                expect(service.run.returncode == -signal.SIGKILL, f"it ended with {service.run.returncode}")
                kills += 1
                table.is_killed()
            service = Service(program, folder, threads)
            talk(service, table, 40)
            finish(service, table)
        except (Wrong, ValueError, KeyError, IndexError) as wrong:
            told(f"{type(wrong).__name__}: {wrong}" if not isinstance(wrong, Wrong) else str(wrong))
            service.kill()
            service.run.wait()
    return kills


def main():
    ask = argparse.ArgumentParser()
    ask.add_argument("--chains", type=int, default=100)
    ask.add_argument("--seed", type=int, default=1)
    ask.add_argument("program", nargs="?", default=os.path.join(TOP, "crates/onll_locks/out/onll_locks"))
    asked = ask.parse_args()
    kills, wrong, sums = 0, 0, {}
    for chain in range(asked.chains):
        chance = random.Random(f"{asked.seed} {chain}")
        table, texts = Table(chance.randint(2, 6), chance), []
        kills += run_chain(os.path.abspath(asked.program), chance, table, texts.append)
        for text in texts:
            print(f"chain {chain}: {text}")
        wrong += bool(texts)
        sums = {name: sums.get(name, 0) + count for name, count in table.counts.items()}
    print(f"{asked.chains} chains with {kills} kills, {wrong} chains wrong: {sums['requests']} requests answered, {sums['grants']} grants, "
          f"{sums['releases']} releases; {sums['lost']} updates whose reply was lost, {sums['done']} of which had been done")
    return 1 if wrong else 0


if __name__ == "__main__":
    sys.exit(main())
