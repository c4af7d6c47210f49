#!/usr/bin/env python3
"""Lists the long paths of proofs, and breaks the long lines.

A path is `c.before.before.u32_at.ensures`: the places of a function, backwards. Today's answers name each step (`c.u32_at.ensures`), so none passes more than four
`.before`. A line of more than 160 characters is broken at its outermost operators, arguments or commas.

    python3 tools/name_paths.py [FILE ..]          breaks the lines of the files (all of crates/*/proofs and crates/*/specs), then runs `rt fmt`
    python3 tools/name_paths.py --check [FILE ..]  lists such paths and lines of more than 200 characters; fails where there are any
"""
import glob
import os
import re
import subprocess
import sys

sys.dont_write_bytecode = True
import long_lines

# A path with more `.before` than this is listed; a line longer than this fails the check.
BEFORES, WIDTH = 4, 200
LONG = re.compile(r"\S*(?:\.before){%d}\S*" % (BEFORES + 1))


def all_files():
    return sorted(f for part in ("proofs", "specs") for f in glob.glob(f"crates/*/{part}/**/*.antt", recursive=True))


def read(path):
    with open(path, encoding="utf-8") as file:
        return file.read()


def rewrite(paths):
    changed = 0
    for path in paths:
        old = read(path)
        new = long_lines.broken_text(old, long_lines.kept_lines(path))
        if new != old:
            with open(path, "w", encoding="utf-8") as file:
                file.write(new)
            changed += 1
    for crate in sorted({path.split("/")[1] for path in paths}):
        subprocess.run(["rt", "fmt"], cwd=f"crates/{crate}", check=True)
    print(changed, "files changed")
    return 0


def check(paths):
    """Lists what the rules refuse. Each file is one test."""
    failed = 0
    for path in paths:
        text = read(path)
        faults = [f"{path}: a long path {p}" for p in LONG.findall(text)]
        faults += [f"{path}:{i}: {len(line)} characters" for i, line in enumerate(text.split("\n"), 1) if len(line) > WIDTH]
        for fault in faults:
            print(fault)
        failed += bool(faults)
    print(f"{len(paths) - failed} passed, {failed} failed")
    return 1 if failed else 0


def main(arguments):
    named = [os.path.abspath(a) for a in arguments if not a.startswith("--")]
    os.chdir(os.path.join(os.path.dirname(os.path.abspath(__file__)), ".."))
    paths = [os.path.relpath(path) for path in named] or all_files()
    return check(paths) if "--check" in arguments else rewrite(paths)


if __name__ == "__main__":
    sys.exit(main(sys.argv[1:]))
