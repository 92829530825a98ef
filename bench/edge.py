#!/usr/bin/env python3
"""Runs the program at the edges of the system: names that are folders, pipes or files of somebody else, a file that grows while it is
read, a limit on the length of files, a full disk, a closed output, and words that no person types.
Each case has the status that docs/FORMATS.md states, ends in time, and leaves every file that the words don't write as it was. The
commands of the table below are tried with each name that they read, and with each output; cases that do as stated are counted.
Usage: bench/edge.py [PROGRAM]
Build the program first, by `./prove`; or name another one of the same words. Ends with 0, or names each case that
fails and ends with 1. A full disk and the permissions of files are tried where this runs as root, and are said to be left out else."""
import os
import resource
import signal
import subprocess
import sys
import tempfile
import threading

from proved import proved_program

TOP = os.path.dirname(os.path.dirname(os.path.abspath(__file__)))
SECONDS = 20
NOBODY = 65534

INIT, SCRIPT = b"bank 2\naccount 0 9\n", b"transfer 0 1 4\ntotal\n"
# Commands over the log of a run, its report, areas with no checkpoint, and a stream; and the words among theirs that name a file to be read,
# with the name of that file.
ROWS = {
    "detect": (["i", "done", "s"], {0: "{}", 1: "{}.0", 2: "{}"}),
    "areas": (["k"], {}),
    "restore": (["i", "done", "k", "1"], {0: "{}", 1: "{}.0", 2: "{}.0"}),
    "checkpoint": (["i", "done", "k", "1"], {0: "{}", 1: "{}.0", 2: "{}.0"}),
    "ship": (["done", "1", "out"], {0: "{}.0"}),
    "follow": (["i", "1", "stream", "100"], {0: "{}", 2: "{}"}),
    "audit": (["i", "told", "s"], {0: "{}", 1: "{}", 2: "{}"}),
}
PLACES = [(row, at, name) for row, (_, places) in ROWS.items() for at, name in places.items()]
NO_FILES = {"a folder": "folder", "no file": "absent", "an empty name": "", "a name with a line end": "a\nb", "4,096 bytes": "n" * 4096}
# What can't be written, and its name: a folder, a file in none, or a pipe, which can't be made durable.
NOT_WRITTEN = [(["areas", "none/k"], "none/k.0"), (["areas", "n" * 4096], "n" * 4096 + ".0"), (["areas", "folder"], "folder.0"),
               (["areas", "area"], "area.1"), (["ship", "done", "1", "pipe"], "pipe"),
               (["ship", "done", "1", "folder"], "folder"), (["ship", "done", "1", "none/out"], "none/out"), (["ship", "done", "1", ""], ""),
               (["checkpoint", "i", "done", "log", "1"], "log.1.0"), (["checkpoint", "i", "done", "text", "1"], "text.1.init")]
# A limit on the length of files, and what goes past it.
LIMITS = [(128, ["run", "i", "cut", "s"], "cut.0"), (64, ["ship", "done", "1", "cut"], "cut"),
          (47, ["checkpoint", "i", "done", "k", "1"], "k.1.0"), (64, ["checkpoint", "i", "done", "k", "1"], "k.1")]
# Words that no command is built of.
TIMES = ["0", "17", "+1", "-1", "", "1.0", "18446744073709551617"]
NO_COMMANDS = [
    *([row, *words[:-1]] for row, (words, _) in ROWS.items()),
    *([row, *words, "1"] for row, (words, _) in ROWS.items() if row not in ("detect", "audit")),
    *([row, *ROWS[row][0][:2], *["s"] * 17] for row in ("detect", "audit")),
    *([row, "i", "done", "k", times] for row in ("restore", "checkpoint") for times in TIMES),
    *(["ship", "done", times, "out"] for times in TIMES),
    *(["follow", "i", times, "stream", "100"] for times in TIMES),
    *(["follow", "i", "1", "stream", piece] for piece in ("0", "1048577", "x", "")),
]


def write(name, data):
    with open(name, "wb") as file:
        file.write(data)


def read(name):
    with open(name, "rb") as file:
        return file.read()


class Case:
    """One call of the program, and what came of it."""

    def __init__(self, program, words, stdout=subprocess.PIPE, **more):
        self.words = words
        done = subprocess.run([program, *words], stdin=subprocess.DEVNULL, stdout=stdout, stderr=subprocess.PIPE,
                              timeout=SECONDS, **more)
        self.status, self.out, self.err = done.returncode, done.stdout or b"", done.stderr


failures, counted = [], {}


def expect(name, case, status, text=None):
    """The case ended with this status, said this line where one is wanted, and nothing on the error output."""
    said = case.out.decode(errors="replace")
    if case.status != status or case.err or (text is not None and said != text):
        failures.append(name)
        print(f"{name}: status {case.status} for {status}, printed {said!r}, on the error output {case.err!r}")
    else:
        print(f"{name}: {status}")


def make_files(program):
    """What the rows are over, and names that are no files."""
    write("told", Case(program, ["run", "i", "done", "s"]).out)
    expect("a stream", Case(program, ["ship", "done", "1", "stream"]), 0)
    for name in ("folder", "folder.0"):
        os.mkdir(name)
    for name in ("pipe", "pipe.0"):
        os.mkfifo(name)


def count(name, case, status, text=None):
    """The same, counted with its table where it did so."""
    if case.status != status or case.err or (text is not None and case.out.decode(errors="replace") != text):
        expect(name, case, status, text)
    else:
        table = name.partition(":")[0]
        counted[table] = counted.get(table, 0) + 1


def row(name, at=None, word=None):
    """The words of a row, one of them another. Its areas hold no checkpoint."""
    for area in ("k.0", "k.1", "pipe.1", "secret.1"):
        write(area, b"")
    words = list(ROWS[name][0])
    if at is not None:
        words[at] = word
    return [name, *words]


def expect_no_checkpoint(program, stem):
    case = Case(program, ["restore", "i", "done", stem, "1"])
    said = case.out if case.out.startswith(b"no checkpoint\n") else b"no checkpoint\n"
    count(f"no checkpoint: {stem}", case, 0, said.decode())


def folders_and_pipes(program):
    expect("an initial state that is a folder", Case(program, ["fold", "folder", "s"]), 5, "read fault folder\n")
    expect("a script that is a folder", Case(program, ["fold", "i", "folder"]), 5, "read fault folder\n")
    expect("a file that is not there", Case(program, ["fold", "absent", "s"]), 5, "read fault absent\n")
    feeder = threading.Thread(target=write, args=("pipe", INIT), daemon=True)
    feeder.start()
    expect("an initial state that comes through a pipe", Case(program, ["fold", "pipe", "s"]), 0)
    feeder.join(SECONDS)
    os.mkdir("log.0")
    expect("a log that is a folder", Case(program, ["run", "i", "log", "s"]), 6, "write fault log.0\n")
    os.rmdir("log.0")


def names(program):
    """What can't be read, what comes through a pipe, and what can't be written, of each row."""
    for name, at, file in PLACES:
        for what, word in NO_FILES.items():
            count(f"not read: {what} as word {at} of {name}", Case(program, row(name, at, word)), 5, f"read fault {file.format(word)}\n")
        count(f"no text: word {at} of {name}", Case(program, row(name, at, b"\xff")), 2)
        whole, words = Case(program, row(name)), row(name, at, "pipe")
        data = read(file.format(ROWS[name][0][at])) if name != "checkpoint" or at != 2 else b""
        feeder = threading.Thread(target=write, args=(file.format("pipe"), data), daemon=True)
        feeder.start()
        count(f"through a pipe: word {at} of {name}", Case(program, words), 0, whole.out.decode())
        feeder.join(SECONDS)
    for stem in ("log", "text"):
        for area in ("0", "1"):
            write(f"{stem}.{area}", b"")
    for name in ("area.1", "log.1.0", "text.1.init"):
        os.mkdir(name)
    drain = os.open("pipe", os.O_RDONLY | os.O_NONBLOCK)
    for words, name in NOT_WRITTEN:
        count(f"not written: {words[0]} {name}", Case(program, words), 6, f"write fault {name}\n")
    os.close(drain)
    expect("an area that is read as a folder", Case(program, ["restore", "i", "none", "area", "1"]), 5, "read fault area.1\n")
    for stem in ("log", "text"):
        expect_no_checkpoint(program, stem)


def growing(program):
    """A file that grows while it is read is refused for its length, or read as one of the texts that it was."""
    write("grows", b"bank 2\n")
    stop = threading.Event()

    def grow():
        with open("grows", "ab", buffering=0) as file:
            while not stop.is_set():
                file.write(b"# more\n")

    feeder = threading.Thread(target=grow)
    feeder.start()
    statuses = {Case(program, ["fold", "grows", "s"]).status for _ in range(50)}
    stop.set()
    feeder.join()
    if statuses <= {0, 3}:
        print(f"a file that grows while it is read: {sorted(statuses)}")
    else:
        failures.append("a file that grows")
        print(f"a file that grows while it is read: {sorted(statuses)}")


def limited(program):
    """A write past the limit on the length of files fails, and is said so; what writes no byte is done."""
    def limit(most):
        def set_limit():
            signal.signal(signal.SIGXFSZ, signal.SIG_IGN)
            resource.setrlimit(resource.RLIMIT_FSIZE, (most, most))
        return set_limit

    for most, words, name in LIMITS:
        row("areas")
        count(f"a limit: {words[0]} past {most} bytes", Case(program, words, preexec_fn=limit(most)), 6, f"write fault {name}\n")
        expect_no_checkpoint(program, "k")
    for name in ROWS:
        if name not in ("checkpoint", "ship"):
            whole = Case(program, row(name)).out.decode()
            count(f"a limit: {name} of no byte", Case(program, row(name), preexec_fn=limit(0)), 0, whole)


def outputs(program):
    reader, writer = os.pipe()
    os.close(reader)
    with open("/dev/full", "wb") as full:
        for name in ROWS:
            for what, stdout, before in (("full", full, None), ("closed", None, lambda: os.close(1)),
                                         ("read by nobody", writer, lambda: signal.signal(signal.SIGPIPE, signal.SIG_IGN))):
                count(f"an output: {what}, {name}", Case(program, row(name), stdout=stdout, preexec_fn=before), 6)
        expect("an output on a full device", Case(program, ["fold", "i", "s"], stdout=full), 6)
        row("areas")
        expect("a checkpoint that can't be said", Case(program, ["checkpoint", "i", "zeros", "k", "1"], stdout=full), 6)
    restored = "checkpoint 1 place 0\nlog 0 entries 0 lines 1\nrecovered 0\nplace 0\nstate\nbank 2\naccount 0 9\naccount 1 0\n"
    expect("it has begun", Case(program, ["restore", "i", "zeros", "k", "1"]), 0, restored)
    expect("a closed output", Case(program, ["fold", "i", "s"], stdout=None, preexec_fn=lambda: os.close(1)), 6)
    expect("an output that nobody reads", Case(program, ["fold", "i", "s"], stdout=writer,
                                               preexec_fn=lambda: signal.signal(signal.SIGPIPE, signal.SIG_IGN)), 6)
    os.close(writer)


def of_somebody_else(program):
    if os.geteuid() != 0:
        print("files of somebody else: left out, since this does not run as root")
        return
    for name in ("secret", "secret.0"):
        write(name, INIT)
        os.chmod(name, 0o600)
    os.chmod(".", 0o755)

    def as_nobody():
        os.setgid(NOBODY)
        os.setuid(NOBODY)

    expect("a file without permission", Case(program, ["fold", "secret", "s"], preexec_fn=as_nobody), 5, "read fault secret\n")
    expect("a folder without permission", Case(program, ["run", "i", "log", "s"], preexec_fn=as_nobody), 6, "write fault log.0\n")
    for name, at, file in PLACES:
        case = Case(program, row(name, at, "secret"), preexec_fn=as_nobody)
        count(f"no permission: word {at} of {name}", case, 5, f"read fault {file.format('secret')}\n")
    for name in ("k.1.0", "out"):
        if os.path.exists(name):
            os.remove(name)
    for name, file in (("areas", "k.0"), ("checkpoint", "k.1.0"), ("ship", "out")):
        count(f"no permission: {name}", Case(program, row(name), preexec_fn=as_nobody), 6, f"write fault {file}\n")


def full_disk(program):
    if os.geteuid() != 0:
        print("a full disk: left out, since this does not run as root")
        return
    os.mkdir("small")
    if subprocess.run(["mount", "-t", "tmpfs", "-o", "size=64k", "tmpfs", "small"], capture_output=True).returncode != 0:
        print("a full disk: left out, since nothing can be mounted here")
        return
    try:
        write("long", b"deposit 0 1\n" * 2000)
        expect("a long log", Case(program, ["run", "i", "long", "long"]), 0)
        expect("a log on a full disk", Case(program, ["run", "i", "small/log", "long"]), 6, "write fault small/log.0\n")
        os.remove("small/log.0")
        write("items", b"queue 4096\n" + b"item 18446744073709551615\n" * 4096)
        expect("areas", Case(program, ["areas", "small/k"]), 0, "areas small/k\n")
        expect("a stream on a full disk", Case(program, ["ship", "long", "1", "small/out"]), 6, "write fault small/out\n")
        left = [name for name in os.listdir("small") if name.startswith("out")]
        if left:
            failures.append("what a stream on a full disk leaves")
            print(f"a stream on a full disk leaves {left}")
        expect("a checkpoint on a full disk", Case(program, ["checkpoint", "items", "zeros", "small/k", "1"]), 6,
               "write fault small/k.1.init\n")
        case = Case(program, ["restore", "items", "zeros", "small/k", "1"])
        if case.status != 0 or not case.out.startswith(b"no checkpoint\n"):
            failures.append("after a full disk")
            print(f"after a full disk: status {case.status}, printed {case.out[:80]!r}")
    finally:
        subprocess.run(["umount", "small"], check=True)
    subprocess.run(["mount", "-t", "tmpfs", "-o", "nr_inodes=2", "tmpfs", "small"], check=True)
    try:
        expect("areas on a disk with room for one file", Case(program, ["areas", "small/k"]), 6, "write fault small/k.1\n")
    finally:
        subprocess.run(["umount", "small"], check=True)


def words(program):
    usage = Case(program, ["--help"]).out.decode()
    for name, given in [("no word", []), ("a number with a sign", ["recover", "i", "log", "+1"]), ("an empty command", [""]),
                        ("two dashes", ["--"]), ("seventeen scripts", ["run", "i", "log", *["s"] * 17])]:
        expect(name, Case(program, given), 2, usage)
    for given in NO_COMMANDS:
        count(f"no command: {given}", Case(program, given), 2, usage)
    for name, at in (("restore", 3), ("checkpoint", 3), ("ship", 1), ("follow", 1), ("follow", 3)):
        count(f"zeros before a number: {name}", Case(program, row(name, at, "0" * 19 + "1")), 0)
    expect("bytes that are no text", Case(program, [b"fold", b"\xff", b"s"]), 2, usage)
    expect("an empty name", Case(program, ["fold", "", "s"]), 5, "read fault \n")
    expect("a name with a line end", Case(program, ["fold", "a\nb", "s"]), 5, "read fault a\nb\n")
    long = "n" * 4096
    expect("a name of 4,096 bytes", Case(program, ["fold", long, "s"]), 5, f"read fault {long}\n")
    expect("the initial state as a script", Case(program, ["fold", "i", "i"]), 3, "refused i 1 unknown word\n")
    write("twice.0", INIT)
    expect("logs that name the initial state", Case(program, ["recover", "twice.0", "twice", "1"]), 4, "log 0 not a log\n")
    write("both.0", read("done.0"))
    shipped = Case(program, ["ship", "both", "1", "both.0"])
    expect("a stream over its log", shipped, 0, Case(program, row("ship")).out.decode())
    if read("both.0") != read("out"):
        failures.append("a stream over its log")
        print("a stream over its log: another stream")


def main():
    program = os.path.abspath(sys.argv[1]) if len(sys.argv) > 1 else proved_program()
    with tempfile.TemporaryDirectory() as folder:
        os.chdir(folder)
        for name, data in (("i", INIT), ("s", SCRIPT), ("zeros.0", bytes(64))):
            write(name, data)
        make_files(program)
        kept = {name: read(name) for name in ("i", "s", "zeros.0", "done.0", "told", "stream")}
        for part in (folders_and_pipes, names, growing, limited, outputs, of_somebody_else, full_disk, words):
            part(program)
        for name, data in {**kept, "twice.0": INIT}.items():
            if read(name) != data:
                failures.append(f"{name} changed")
                print(f"{name} changed")
        os.chdir(TOP)
    print("; ".join(f"{name}: {number}" for name, number in counted.items()))
    print("all as stated" if not failures else f"{len(failures)} cases fail")
    sys.exit(1 if failures else 0)


if __name__ == "__main__":
    main()
