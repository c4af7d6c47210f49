#!/usr/bin/env python3
"""Holds the functions of crates/*/src to their size: a body of at most 40 lines, one loop, branches nested at most three deep.

    python3 tools/functions.py --check    lists the functions past it; the last line is 'N passed, M failed'; fails where there are any
    python3 tools/functions.py            lists the longest ones
"""
import glob
import os
import re
import sys

LINES, LOOPS, BRANCHES = 40, 1, 3
HEAD = re.compile(r'( *)(?:pub )?(?:extern "C" )?fn (\w+)')
LOOP = re.compile(r" *(?:while|loop|for)\b")
BRANCH = re.compile(r" *(?:if|match|let .* = match)\b")


def functions(path):
    """The name and the lines of the body of each function. A body ends at the bracket under its head."""
    lines = open(path).read().split("\n")
    for first, line in enumerate(lines):
        head = HEAD.match(line)
        if not head:
            continue
        start = next(i for i in range(first, len(lines)) if lines[i].endswith("{"))
        end = next(i for i in range(start, len(lines)) if lines[i].startswith(head[1] + "}"))
        yield head[2], lines[start + 1:end]


def nesting(body):
    """How deep branches stand in one another."""
    deepest, open_branches = 0, []
    for line in body:
        indent = len(line) - len(line.lstrip())
        if not line.strip() or LOOP.match(line):
            continue
        open_branches = [i for i in open_branches if i < indent]
        if BRANCH.match(line):
            open_branches.append(indent)
            deepest = max(deepest, len(open_branches))
    return deepest


def measured():
    """Lines, loops and nesting of every function, the longest first."""
    found = []
    for path in glob.glob("crates/*/src/*.rt"):
        for name, body in functions(path):
            found.append((len(body), sum(1 for line in body if LOOP.match(line)), nesting(body), path, name))
    return sorted(found, reverse=True)


def main():
    os.chdir(os.path.join(os.path.dirname(os.path.abspath(__file__)), ".."))
    check = sys.argv[1:] == ["--check"]
    rows = measured()
    past = [row for row in rows if row[0] > LINES or row[1] > LOOPS or row[2] > BRANCHES]
    for lines, loops, branches, path, name in past if check else rows[:20]:
        print(f"{path} {name}: {lines} lines, {loops} loops, branches {branches} deep")
    if check:
        print(f"{len(rows) - len(past)} passed, {len(past)} failed")
    return 1 if check and past else 0


sys.exit(main())
