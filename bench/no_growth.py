#!/usr/bin/env python3
"""Searches the sources for functions that could take memory without saying so.

Such a function has neither an allocator among its arguments nor an answer for want of memory, and lets a
collection grow, copies one or makes one, save where it is proved that there is room. Names each, and ends
with 1 where there is any, else with 0.
Usage: bench/no_growth.py
"""

import re
import sys
from pathlib import Path

TOP = Path(__file__).resolve().parent.parent

# Calls of std and of the kit that may take memory. `push_reserved` takes none.
GROWING = re.compile(
    r"\.(push|push_str|push_back|insert|extend|extend_from_slice|append|resize|reserve|try_reserve"
    r"|try_reserve_exact|reserve_exact|to_vec|to_owned|to_string|copy)\("
    r"|\.clone\(\)\?"
    r"|\b(vec!|format!|write!|writeln!)"
    r"|\b(Vec|String|Box|Rc|Arc|BTreeMap)::(with_capacity|from_slice|from_str|from_array|new)\("
)

# The answers that can say that memory could not be had.
SAYS = re.compile(
    r"NoMemory|AllocError|OutsideFault|DecodeFault|RecoverFault|ImagesFault|TextFault|LogsFault"
    r"|fmt::Result|io::Result|Stop|NotClosed|Fail\b"
)

# A growing call that is proved not to fail, since there is room: the other answer is proved unreachable.
HAS_ROOM = re.compile(r"[^;]*?(\bErr\(_\) => unreachable!\(\)|\belse \{\s*unreachable!\(\))")

HEAD = re.compile(r"\bfn\s+([a-z_0-9]+)\s*(<[^{;]*?>)?\s*\(")


def functions(text):
    """The name, the signature and the body of each function that has a body."""
    for found in HEAD.finditer(text):
        start = found.start()
        depth = 0
        at = found.end() - 1
        while at < len(text):
            if text[at] == "(":
                depth += 1
            elif text[at] == ")":
                depth -= 1
                if depth == 0:
                    break
            at += 1
        result = re.match(r"(\[[^\]]*\]|[^{;\[])*", text[at + 1 :]).group(0)
        result = re.split(r"\b(requires|ensures|where)\b", result)[0]
        signature = text[start : at + 1] + result
        body = body_of(text, at + 1)
        if body is not None:
            yield found.group(1), signature, body


def body_of(text, at):
    """The block that begins a line: the clauses before it stand in braces behind a word."""
    depth = 0
    begin = None
    while at < len(text):
        if text[at] == "{":
            if depth == 0 and text[text.rfind("\n", 0, at) + 1 : at].strip() in ("", "}"):
                begin = at
            elif depth == 0 and not re.search(
                r"\b(requires|ensures)\b", text[text.rfind("\n", 0, at) + 1 : at]
            ):
                begin = at
            depth += 1
        elif text[at] == "}":
            depth -= 1
            if depth == 0 and begin is not None:
                return text[begin : at + 1]
        elif text[at] == "[" and depth == 0:
            at = text.index("]", at)
        elif text[at] == ";" and depth == 0:
            return None
        at += 1
    return None


def main():
    growing = []
    for path in sorted(TOP.glob("crates/*/src/*.rt")):
        if path.parts[-3].startswith("tests_") or path.name == "tests.rt":
            continue
        text = re.sub(r"//[^\n]*", "", path.read_text())
        for name, signature, body in functions(text):
            if "alloc" in signature or "HostRuntime" in signature or SAYS.search(signature):
                continue
            for call in GROWING.finditer(body):
                before = body[: call.start()]
                own = before.endswith(("self", "log"))
                fixed = "ArrayVec" in signature and before.endswith("window")
                if not own and not fixed and not HAS_ROOM.match(body, call.end()):
                    growing.append(f"{path.relative_to(TOP)}: {name}: {call.group(0)}")
    for line in growing:
        print(line)
    return 1 if growing else 0


if __name__ == "__main__":
    sys.exit(main())
