#!/usr/bin/env python3
"""Lists the definitions' files that a sceptic reads: all that `Promises` of `onll_jobs` reaches, name by name through specs/.
Usage: bench/sceptic.py [--check]
It prints the table of docs/PROVED.md, a row a crate, each file with its lines, and their sum; with --check it compares that page instead.
Types of the code (`specs.declared`) and the kit's definitions are not followed."""
import os
import re
import sys

TOP = os.path.dirname(os.path.dirname(os.path.abspath(__file__)))
PAGE = os.path.join(TOP, "docs", "PROVED.md")
FIRST = ("onll_jobs", "Promises", "Promises")
USE = re.compile(r"^(?:pub )?use Rattle\.(onll_\w+)\.specs\.([A-Z]\w*)\.\{([^}]*)\}", re.M)
HEAD = re.compile(r"^(?:(?:pub|abbrev|unfoldable|opaque|record|data|mutual)\s+)*([^\s:(){}]+)")
INNER = re.compile(r"^ +(?:pub )?([^\s:(){}]+) :")
WORD = re.compile(r"(?<![\w.'])[^\s(){}.,;]+")


class File:
    """A file of definitions: what each name in it stands for, and what it takes from other files."""

    def __init__(self, crate, module):
        self.path = os.path.join(TOP, "crates", crate, "specs", f"{module}.antt")
        with open(self.path, encoding="utf-8") as file:
            text = file.read()
        self.lines = text.count("\n")
        self.taken = {}
        for other, name, words in USE.findall(text):
            for word in re.split(r",\s*", words.strip()):
                self.taken[word.split(" as ")[-1].strip()] = (other, name, word.split(" as ")[0].strip())
        self.bodies = bodies(text)


def bodies(text):
    """The text of each name of a file: the equations of a function, or a type with what is in it. Modules within the file give their
    parameters to each name in them."""
    found, name, inner, modules = {}, None, False, []
    for line in re.sub(r"--.*", "", text).split("\n"):
        depth = len(line) - len(line.lstrip())
        if not line.strip() or re.match(r"\s*(pub )?(use|mod|infix\w*) ", line):
            continue
        while modules and depth < modules[-1][0]:
            modules.pop()
        level = modules[-1][0] if modules else 0
        if re.match(r"\s*module _", line):
            # (its body is indented by two)
            modules.append((depth + 2, line.replace("module _", "").replace("where", "")))
            name = None
            continue
        if depth == level and HEAD.match(line.strip()):
            name = HEAD.match(line.strip())[1]
            inner = bool(re.match(r"(?:pub |abbrev |unfoldable |opaque )*data ", line.strip()))
        elif depth > level and inner and INNER.match(line):
            found.setdefault(INNER.match(line)[1], name)
        if name:
            found[name] = found.get(name, " ".join(it for _, it in modules)) + line + "\n"
    return found


def reached():
    """The files that are reached, by crate and module."""
    files, seen, left = {}, set(), [FIRST]
    while left:
        crate, module, name = left.pop()
        if (crate, module, name) in seen:
            continue
        seen.add((crate, module, name))
        if (crate, module) not in files:
            files[crate, module] = File(crate, module)
        file = files[crate, module]
        if name not in file.bodies:
            sys.exit(f"sceptic.py: {crate}/{module} has no {name}")
        for word in set(WORD.findall(file.bodies[name])):
            if word in file.taken:
                left.append(file.taken[word])
            elif word in file.bodies:
                left.append((crate, module, word))
    return files


def crates_from_the_top():
    with open(os.path.join(TOP, "crates.txt"), encoding="utf-8") as file:
        names = [line.split(":")[0] for line in file if not line.startswith("#")]
    return names[::-1]


def table(files):
    rows = ["| crate | files of `specs/`, and their lines |", "|---|---|"]
    for crate in crates_from_the_top():
        own = sorted((module, file.lines) for (name, module), file in files.items() if name == crate)
        if own:
            rows.append(f"| `{crate}` | {', '.join(f'`{module}` {lines}' for module, lines in own)} |")
    lines = sum(file.lines for file in files.values())
    return "\n".join([*rows, "", f"That is {len(files)} files with {lines} lines in all."])


def main():
    found = table(reached())
    if sys.argv[1:] != ["--check"]:
        print(found)
        return 0
    with open(PAGE, encoding="utf-8") as page:
        if found in page.read():
            return 0
    print("docs/PROVED.md lists other files than bench/sceptic.py", file=sys.stderr)
    return 1


if __name__ == "__main__":
    sys.exit(main())
