#!/usr/bin/env python3
"""Measures the prose of the documents: words of the median and the longest sentence and of the longest table cell, the
widest line, and how many
lines are over 120 columns.
Usage: bench/prose.py [FILE..]
Code blocks, headings and pictures have no sentences, and what stands in backquotes is one word."""
import glob
import os
import re
import statistics
import sys

TOP = os.path.dirname(os.path.dirname(os.path.abspath(__file__)))


def blocks(lines):
    """The paragraphs and list items of a document, each as one text, and its table cells."""
    found, cells, fenced = [[]], [], False
    for line in lines:
        fenced ^= line.startswith("```")
        bare = line.strip()
        if bare.startswith("|"):
            cells += bare.strip("|").split("|")
        if fenced or line.startswith(("    ", "```", "#", "![", "|")) or not bare:
            found.append([])
        else:
            found += [[]] if re.match(r"([-*]|\d+\.) ", bare) else []
            found[-1].append(bare)
    return [" ".join(block) for block in found if block], cells


def plain(text):
    """A text whose code is one word and whose links are their words."""
    return re.sub(r"`[^`]*`", "x", re.sub(r"\]\([^)]*\)", "]", text))


def sentences(text):
    """The words of each sentence of a text."""
    return [len(part.split()) for part in re.split(r"(?<=[.!?])\s+(?=[A-Za-z0-9*\[(])|(?<=:)\s*$", plain(text)) if part.split()]


def measure(path):
    with open(path, encoding="utf-8") as file:
        lines = file.read().split("\n")
    texts, cells = blocks(lines)
    counts = [count for text in texts for count in sentences(text)] or [0]
    cell = max([len(plain(it).split()) for it in cells] or [0])
    wide = [len(line) for line in lines]
    name = os.path.relpath(path, TOP)
    print(f"{name:24} {len(lines):5} {statistics.median(counts):6g} {max(counts):8} {cell:5} {max(wide):6} {sum(it > 120 for it in wide):6}")


def main():
    files = sys.argv[1:] or [f"{TOP}/README.md", *sorted(glob.glob(f"{TOP}/docs/*.md"))]
    print(f"{'document':24} {'lines':>5} {'median':>6} {'longest':>8} {'cell':>5} {'widest':>6} {'wide':>6}")
    for path in files:
        measure(path)


if __name__ == "__main__":
    main()
