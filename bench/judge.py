"""A judge of reports of `run` that shares no code with the program: what a line says, and the verdict on a report."""
import copy
import re

from objects import GREATEST, KINDS

# The words of each call after its name: numbers and short texts.
UPDATES = {"bank": {"deposit": "nn", "withdraw": "nn", "transfer": "nnn"}, "map": {"put": "tt", "del": "t"},
           "queue": {"push": "n", "pop": ""}, "lease": {"grant": "nnnn", "renew": "nnnn", "release": "nn"}}
READS = {"bank": {"balance": "n", "total": ""}, "map": {"get": "t", "next": "t", "count": ""},
         "queue": {"front": "", "length": ""}, "lease": {"holder": "nn"}}




class Refused(Exception):
    """The report's first line that is none of the form."""


class Wrong(Exception):
    """The least wrong line, and its first reason."""


# ---- words
def number(word):
    """A number in its shortest form, or None."""
    return int(word) if re.fullmatch("0|[1-9][0-9]{0,19}", word) and int(word) <= GREATEST else None


def after(word, line):
    """What follows a word and its space, or None."""
    return line[len(word) + 1:] if line is not None and line.startswith(word + " ") else None


def counted(line):
    """A number, and what follows its space; or two Nones."""
    word, space, rest = (line or "").partition(" ")
    return (number(word), rest) if space and number(word) is not None else (None, None)


def is_call(text, shapes):
    """Whether the text is a call with one of these shapes, as it is printed."""
    name, *words = text.split(" ")
    shape = shapes.get(name)
    if shape is None or len(shape) != len(words):
        return False
    return all(number(w) is not None if s == "n" else re.fullmatch("[!-~]{1,23}", w) for s, w in zip(shape, words))


def outcome(text):
    """How a call ended, by the text after its arrow: a kind and a place, or None."""
    for front, kind in (("fence failed at ", "failed"), ("broken at ", "broken")):
        if text.startswith(front) and number(text[len(front):]) is not None:
            return kind, number(text[len(front):])
    *reply, at, place = text.split(" ") if text.count(" ") >= 2 else ("", "", "")
    if at == "at" and number(place) is not None and reply and all(w and not set(w) & set("\t\r") for w in reply):
        return "answered", number(place)
    return None


# ---- the form
class Form:
    """What a report says: each thread's lines of calls, the nodes, the number of the line `state`, and the text after it."""

    def __init__(self, kind, threads, report):
        self.kind, parts = kind, report.split("\n")
        self.lines, self.at = parts[:-1], 0
        self.calls = [self.while_it(lambda line: self.is_call_line(thread, line)) for thread in range(threads)]
        many = self.next(lambda line: number(after("trace", line) or ""))
        self.nodes = [self.next(lambda line: self.node(place, line)) for place in range(1, many + 1)]
        for thread in range(threads):
            self.next(lambda line: self.log(thread, line))
        self.next(lambda line: number(after("recovered", line) or ""))
        least = 0
        while self.at < len(self.lines) and (thread := self.fault(self.lines[self.at])) is not None and least <= thread < threads:
            least, self.at = thread + 1, self.at + 1
        self.state_line = self.at + 1
        self.next(lambda line: line == "state" or None)
        self.state = "\n".join(parts[self.at:])

    def next(self, read):
        said = read(self.lines[self.at]) if self.at < len(self.lines) else None
        if said is None:
            raise Refused(self.at + 1)
        self.at += 1
        return said

    def while_it(self, test):
        begin = self.at
        while self.at < len(self.lines) and test(self.lines[self.at]):
            self.at += 1
        return self.lines[begin:self.at]

    def is_call_line(self, thread, line):
        count, text = counted(after(str(thread), after("call", line)))
        shapes = UPDATES[self.kind] | READS[self.kind]
        return count is not None and any(is_call(text[:m.start()], shapes) and outcome(text[m.start() + 4:])
                                         for m in re.finditer("(?= -> )", text))

    def node(self, place, line):
        thread, rest = counted(after(str(place), after("node", line)))
        count, rest = counted(rest)
        flag, _, call = (rest or "").partition(" ")
        return (thread, count, call) if flag in ("set", "unset") and is_call(call, UPDATES[self.kind]) else None

    @staticmethod
    def log(thread, line):
        entries, rest = counted(after("entries", after(str(thread), after("log", line))))
        lines, rest = counted(after("lines", rest))
        return number(after("fences", rest) or "")

    @staticmethod
    def fault(line):
        thread, rest = counted(after("thread", after("fault", line)))
        return thread if number(after("place", rest) or "") is not None else None


# ---- the verdict
class Judge:
    """Judges the reports of runs of scripts over one object."""

    def __init__(self, kind, start, scripts):
        self.kind, self.start, self.scripts = kind, start, scripts

    def is_update(self, call):
        return call.split(" ")[0] in UPDATES[self.kind]

    def call(self, number_, line, text, past):
        """Judges a call's line after its front."""
        kind, place = outcome(text)
        update = self.is_update(line)
        if not update and kind != "answered" or update and (
                kind != "broken" or place != past["failed"] if past["failed"] is not None else kind == "broken"):
            raise Wrong(number_, "wrong outcome")
        if update and kind != "broken":
            places = past["places"]
            if past["placed"] >= len(places) or places[past["placed"]] != place or past["read"] is not None and place <= past["read"]:
                raise Wrong(number_, "wrong place")
        if not update and not past["answered"] <= place <= len(self.form.nodes):
            raise Wrong(number_, "wrong place")
        if kind == "answered":
            reply = copy.deepcopy(self.states[place - update]).say(*line.split(" "))
            if text != f"{reply} at {place}":
                raise Wrong(number_, "wrong reply")
            past["answered"] = max(past["answered"], place)
        if kind == "failed":
            past["failed"] = place
        if not update:
            past["read"] = max(past["read"] or 0, place)
        past["placed"] += update and kind != "broken"
        return update and kind != "broken"

    def thread(self, thread, first):
        """Judges a thread's lines; its updates with a place."""
        places = [p for p, (t, _, _) in enumerate(self.form.nodes, 1) if t == thread]
        past, rows = {"places": places, "placed": 0, "answered": 0, "read": None, "failed": None}, []
        for i, line in enumerate(self.form.calls[thread]):
            script = self.scripts[thread]
            front = f"call {thread} {i + 1} {script[i]} -> " if i < len(script) else None
            if front is None or not line.startswith(front) or outcome(line[len(front):]) is None:
                raise Wrong(first + i, "not the script")
            if self.call(first + i, script[i], line[len(front):], past):
                rows.append(script[i])
        return rows

    def verdict(self, report):
        self.form = Form(self.kind, len(self.scripts), report)
        self.states = [copy.deepcopy(self.start)]
        for _, _, call in self.form.nodes:
            state = copy.deepcopy(self.states[-1])
            state.say(*call.split(" "))
            self.states.append(state)
        first, rows = 1, []
        for thread, lines in enumerate(self.form.calls):
            rows.append(self.thread(thread, first))
            first += len(lines)
        below = [0] * len(rows)
        for i, (thread, count, call) in enumerate(self.form.nodes):
            if thread >= len(rows) or count != below[thread] + 1 or count > len(rows[thread]) or rows[thread][count - 1] != call:
                raise Wrong(first + 1 + i, "wrong node")
            below[thread] += 1
        if self.form.state != "".join(line + "\n" for line in self.states[-1].lines()):
            raise Wrong(self.form.state_line, "wrong state")

    def says(self, name, report):
        """What `audit` puts, and its status."""
        try:
            self.verdict(report)
        except Refused as at:
            return f"refused {name} {at} bad line\n", 3
        except Wrong as wrong:
            return "line {} {}\n".format(*wrong.args), 8
        return "legal\n", 0
