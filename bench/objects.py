"""The four objects by the rules of their pages, for the scripts that check what the program says. They share no code with it."""

GREATEST = 2**64 - 1


class Bank:
    def __init__(self, room):
        self.balances = [0] * room

    def say(self, word, *numbers):
        if word == "total":
            return str(sum(self.balances))
        *accounts, x = map(int, numbers) if word != "balance" else (int(numbers[0]), 0)
        if any(a >= len(self.balances) for a in accounts):
            return "no-account"
        if word == "balance":
            return str(self.balances[accounts[0]])
        if word == "deposit" and sum(self.balances) + x > GREATEST:
            return "over"
        if word != "deposit" and self.balances[accounts[0]] < x:
            return "short"
        if word != "deposit":
            self.balances[accounts[0]] -= x
        if word != "withdraw":
            self.balances[accounts[-1]] += x
        return "ok"

    def lines(self):
        return [f"bank {len(self.balances)}", *(f"account {a} {x}" for a, x in enumerate(self.balances))]


class Map:
    def __init__(self, room):
        self.room, self.pairs = room, {}

    def say(self, word, *texts):
        if word == "count":
            return f"count {len(self.pairs)}"
        key, old = texts[0], self.pairs.get(texts[0])
        if word == "get":
            return "none" if old is None else f"value {old}"
        if word == "next":
            above = [k for k in self.pairs if k >= key]
            return f"key {min(above)}" if above else "none"
        if word == "del":
            self.pairs.pop(key, None)
            return "none" if old is None else f"old {old}"
        if old is None and len(self.pairs) == self.room:
            return "full"
        self.pairs[key] = texts[1]
        return "new" if old is None else f"old {old}"

    def lines(self):
        return [f"map {self.room}", *(f"pair {k} {v}" for k, v in sorted(self.pairs.items()))]


class Queue:
    def __init__(self, room):
        self.room, self.items = room, []

    def say(self, word, *item):
        if word == "length":
            return f"length {len(self.items)}"
        if word == "push":
            if len(self.items) == self.room:
                return "full"
            self.items.append(int(item[0]))
            return "ok"
        if not self.items:
            return "empty"
        return f"item {self.items.pop(0) if word == 'pop' else self.items[0]}"

    def lines(self):
        return [f"queue {self.room}", *(f"item {x}" for x in self.items)]


class Lease:
    def __init__(self, room):
        self.room, self.held = room, {}

    def say(self, word, *numbers):
        r, *rest = map(int, numbers)
        if r >= self.room:
            return "no-resource"
        token, holder, until = self.held.get(r, (0, 0, 0))
        if word == "holder":
            return f"by {holder} token {token} until {until}" if rest[0] < until else "free"
        if word == "release":
            if rest[0] != token or until == 0:
                return "stale"
            self.held[r] = (token, holder, 0)
            return "released"
        who, now, ttl = rest
        if word == "grant" and now < until:
            return f"held until {until}"
        if word == "renew" and (who != token or now >= until):
            return "stale"
        if now + ttl > GREATEST:
            return "late"
        if word == "renew":
            self.held[r] = (token, holder, now + ttl)
            return f"renewed {now + ttl}"
        if token == GREATEST:
            return "spent"
        self.held[r] = (token + 1, who, now + ttl)
        return f"granted {token + 1}"

    def lines(self):
        return [f"lease {self.room}", *(f"held {r} {t} {h} {u}" for r, (t, h, u) in sorted(self.held.items()))]


KINDS = {"bank": Bank, "map": Map, "queue": Queue, "lease": Lease}
