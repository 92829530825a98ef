#!/usr/bin/env python3
"""Measures `detect`, `restore`, `follow` and `audit` beside plain Rust, by the method of the bench of the older commands.
Usage: bench/after.py [--onll PROGRAM] [--peers FOLDER] [--dir DIR] [--reps REPS] [--cpu] [--most RATIO]
Build the program first, by `./prove`; or name another one of the same words. FOLDER is that bench's, ../shared/tools/peers beside the
repository where none is named. It wants `cargo` and `rustc`.

`detect` and `audit` stand beside bench/plain, which does and prints the same; `restore` and `follow` beside plain Rust's `recover` of the
same images. All is of 16 threads of 4,096 updates: the images and the report are those of a `replay` in which all calls return, and
`audit` has a second report with as many reads. What each prints of good inputs and of refused ones is compared first, byte by byte, and
its status. Then all programs of a row run once in a repetition, in an order that turns with it. With --cpu times are user's and system's
in place of the clock's, for a machine that has other work. Ends with 1 where a row's ratio is above RATIO, 1.3 where none is named."""
import argparse
import importlib.util
import os
import random
import shutil
import subprocess
import sys
import time

from proved import TOP, proved_program

THREADS, UPDATES = 16, 4096
SHARED = ["log", "object", "sha256", "text"]         # what bench/plain takes from the peer
STAGES = ["detect", "restore", "follow", "audit"]


def peers_bench(folder):
    """The module of the peers' bench."""
    spec = importlib.util.spec_from_file_location("peers_bench", os.path.join(folder, "bench.py"))
    module = importlib.util.module_from_spec(spec)
    spec.loader.exec_module(module)
    return module


def build_plain(peers, built):
    """Builds bench/plain with the peer's modules, where it isn't built of these sources; gives the program."""
    work = os.path.join(built, "after")
    program, own, shared = os.path.join(work, "plain"), os.path.join(TOP, "bench", "plain"), os.path.join(peers, "native", "src")
    sources = [os.path.join(own, name) for name in os.listdir(own)] + [os.path.join(shared, f"{name}.rs") for name in SHARED]
    if os.path.exists(program) and all(os.path.getmtime(source) < os.path.getmtime(program) for source in sources):
        return program
    os.makedirs(work, exist_ok=True)
    for source in sources:
        shutil.copy(source, work)
    options = [word for option in ("opt-level=3", "lto=fat", "codegen-units=1", "panic=abort") for word in ("-C", option)]
    subprocess.run(["rustc", "--edition", "2024", *options, "-A", "dead_code", "-o", program, os.path.join(work, "main.rs")], check=True)
    return program


def spent(command, cwd, out):
    """One run: the processor's seconds, and the status. Output goes to the file `out`."""
    with open(out, "wb") as file:
        process = subprocess.Popen(command, cwd=cwd, stdout=file, stderr=subprocess.DEVNULL)
        _, status, used = os.wait4(process.pid, 0)
    process.returncode = os.waitstatus_to_exitcode(status)
    return used.ru_utime + used.ru_stime, process.returncode


def said(program, words):
    done = subprocess.run([program, *words], capture_output=True)
    return done.returncode, done.stdout


def schedule(rng):
    """Turns of all threads in a random order, then each thread to its end."""
    turns = "".join(f"{rng.randrange(THREADS)} {rng.randint(1, 18)}\n" for _ in range(130_000))
    return turns + "".join(f"{thread} 200000\n" for thread in range(THREADS)) + "crash 5\n"


class After:
    """The rows over one folder of inputs."""

    def __init__(self, bench, peers, onll, plain):
        self.bench, self.peers, self.onll, self.native, self.plain = bench, peers, onll, peers.NATIVE, plain

    def path(self, name):
        return self.bench.path(name)

    def write(self, name, text):
        with open(self.path(name), "wb") as file:
            file.write(text if isinstance(text, bytes) else text.encode())
        return self.path(name)

    def replayed(self, name, reads):
        """Scripts of all threads, the images that they leave and the report of a run in which they came so."""
        scripts = [self.write(f"{name}.s{t}", self.peers.transfers(UPDATES, 100 + t, reads)) for t in range(THREADS)]
        status, text = said(self.native, ["replay", self.path("init"), self.path("turns"), self.path(name), *scripts])
        assert status == 0 and b" -> running\n" not in text and b" -> ordered " not in text, "not all calls returned"
        self.write(f"{name}.report", text.replace(b"\ncrash 5\n", b"\n"))
        return scripts

    def make_inputs(self):
        self.write("init", self.peers.bank())
        self.write("turns", schedule(random.Random(5)))
        self.scripts, self.reading = self.replayed("big", None), self.replayed("reads", "balance")
        assert said(self.onll, ["areas", self.path("area")])[0] == 0
        status, self.shipped = said(self.onll, ["ship", self.path("big"), str(THREADS), self.path("stream")])
        assert status == 0, self.shipped

    def words(self, command):
        return {"detect": ["detect", self.path("init"), self.path("big"), *self.scripts],
                "audit": ["audit", self.path("init"), self.path("big.report"), *self.scripts],
                "audit with reads": ["audit", self.path("init"), self.path("reads.report"), *self.reading],
                "recover": ["recover", self.path("init"), self.path("big"), str(THREADS)],
                "restore": ["restore", self.path("init"), self.path("big"), self.path("area"), str(THREADS)],
                "follow": ["follow", self.path("init"), str(THREADS), self.path("stream"), "65536"]}[command]

    def same(self, words, status):
        """Fails where the program and plain Rust say different things, or another status comes."""
        found, wanted = said(self.onll, words), said(self.plain, words)
        assert found == wanted and found[0] == status, (words, found[0], found[1][-80:], wanted[0], wanted[1][-80:])

    def compare(self):
        """The good inputs, and those that are refused or wrong."""
        for command in ("detect", "audit", "audit with reads"):
            self.same(self.words(command), 0)
        _, recovered = said(self.native, self.words("recover"))
        assert said(self.onll, self.words("recover")) == (0, recovered)
        front, state = recovered.split(b"state\n")
        count = THREADS * UPDATES
        assert said(self.onll, self.words("restore")) == (0, b"no checkpoint\n%splace %d\nstate\n%s" % (front, count, state))
        entries, size = self.shipped.split()[2::2]
        assert said(self.onll, self.words("follow")) == (0, b"taken %s\nheld %s\nfollowed %d\nstate\n%s" % (size, entries, count, state))
        self.compare_wrong()

    def compare_wrong(self):
        with open(self.path("reads.report"), "rb") as file:
            report = file.read()
        audit = ["audit", self.path("init"), self.path("wrong"), *self.reading]
        changes = [(b" -> ok at ", b" -> no at "), (b"call 3 7 ", b"call 3 8 "), (b"\nnode 700 ", b"\nnode 701 "),
                   (b" -> short at ", b" -> fence failed at "), (b"account 0 ", b"account 00 "), (b"\ntrace ", b"\nTrace "),
                   (b" -> ok at ", b" -> broken at "), (b"call 5 9 transfer ", b"call 5 9 transfer 0"), (b" set transfer ", b" set total")]
        for old, new in changes:
            self.write("wrong", report.replace(old, new, 1))
            self.same(audit, said(self.plain, audit)[0])
            assert said(self.plain, audit)[0] in (3, 8), (old, new)
        self.write("wrong", report[:-len(report) // 3])
        self.same(audit, 3)
        self.same(["audit", self.path("init"), self.path("none"), *self.reading], 5)
        self.same(["audit", self.path("init")], 2)
        for line, status in ((b"transfer 1 2\n", 3), (b"transfer 1 2 3\n", 4)):
            wrong = self.write("script", line)
            self.same(["detect", self.path("init"), self.path("big"), *self.scripts[:-1], wrong], status)
        self.same(["detect", self.path("init"), self.path("big"), *self.scripts[:-1]], 4)
        self.same(["detect", self.path("init"), self.path("none"), *self.scripts], 5)

    def rows(self):
        self.bench.title(f"{THREADS} threads of {UPDATES} updates; ratio to plain Rust")
        for command in ("recover", "restore", "follow"):
            self.row(command, "plain recover", self.native, "recover")
        for command in ("detect", "audit", "audit with reads"):
            self.row(command, "plain", self.plain, command)

    def row(self, command, name, program, beside):
        make = self.peers.Program
        programs, words = [make("onll", [self.onll]), make(name, [program])], {"onll": command, name: beside}
        self.bench.row(command, self.bench.measure(programs, lambda p: self.words(words[p.name])), name)


def asked():
    words = argparse.ArgumentParser(description=__doc__.splitlines()[0])
    words.add_argument("--onll")
    words.add_argument("--peers", default=os.path.join(os.path.dirname(TOP), "shared", "tools", "peers"))
    words.add_argument("--dir", default="/tmp")
    words.add_argument("--reps", type=int, default=15)
    words.add_argument("--cpu", action="store_true")
    words.add_argument("--most", type=float, default=1.3)
    return words.parse_args()


def main():
    wanted = asked()
    onll = os.path.abspath(wanted.onll) if wanted.onll else proved_program()
    peers = peers_bench(wanted.peers)
    if wanted.cpu:
        peers.once = spent
    peers.build()
    wanted.quick = False
    bench = peers.Bench(wanted)
    after = After(bench, peers, onll, build_plain(wanted.peers, peers.BUILT))
    begun = time.time()
    try:
        after.make_inputs()
        after.compare()
        after.rows()
    finally:
        shutil.rmtree(bench.dir, ignore_errors=True)
    print(*(f"left out: {line}" for line in sorted(bench.left_out)), f"{time.time() - begun:.0f} seconds", sep="\n")
    own = [row for row in bench.rows if row["program"] == "onll" and row["what"].split()[0] in STAGES]
    slow = [f"{row['what']} {row['ratio']:.2f}" for row in own if row["ratio"] > wanted.most]
    if slow:
        print(f"more than {wanted.most}:", ", ".join(slow))
    sys.exit(1 if slow or bench.left_out else 0)


if __name__ == "__main__":
    main()
