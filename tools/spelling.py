#!/usr/bin/env python3
"""Brings the repository's own definitions and lemmas to today's spelling: words in snake case, types in camel case.

usage: python3 tools/spelling.py [--say] [ROOT]      once, after port.py, at the top of the repository

A name is one that specs/ or proofs/*.antt of a crate declares. It is turned where it stands as a whole word: in specs/ and proofs/, in the clauses and the comments of
src/, in the edits of must-fail/, and between backticks in the pages. Functions of src/, names that the prover makes, strings and files keep theirs. Where a word and a
lemma or a field stand in one file and would fall together, the lemma or field gets `_law` after it. Other names that fall together are told, and nothing is
written.
"""

import glob
import os
import re
import sys

WORD = r"[^\s(){}\[\];,.\"`@λ¬|\\]+"
HEAD = re.compile(r"^(\s*)((?:(?:abbrev|unfoldable|pub|data|record|opaque)\s+)*)(" + WORD + r")(?=\s+[:({]|\s*:\s)")
# Names with dashes that get another name than their own, since a word of a definition has it.
CHOSEN = {"in-range": "is_in_range", "of-answer": "of_the_answer", "work-after": "work_is", "answer-after": "answer_is"}
# Names that `use .. as ..` gives, and one that port.py takes for the logic's.
MORE = {"SepProp": "s_prop", "ruleAt": "rule_at", "precedesTest": "precedes_test"}
# A line that declares several constructors.
GROUP = re.compile(r"^\s+((?:[A-Za-z]\w* )+[A-Za-z]\w*) : \S.*$")
NOT_NAMES = {"use", "let", "in", "where", "module", "open", "=", "unfolding", ":", "→", "--", "|"}


def turned(name):
    """The name in today's spelling."""
    if not re.search(r"[A-Za-z]", name) or "◌" in name:
        return name
    if name in CHOSEN:
        return CHOSEN[name]
    if name[0].isupper():
        if "-" not in name:
            return name
        first, *rest = name.split("-")
        if first == "TH":
            first = "Th"
        return first + "".join(part[0].upper() + part[1:] for part in rest if part)
    name = re.sub(r"(?<=[a-z0-9])([A-Z])", lambda m: "_" + m.group(1).lower(), name)
    return name[0] + name[1:].replace("-", "_").replace("′", "'")


def declared(root):
    """Every name that specs/ and proofs/*.antt declare, and those that are fields of records or stand indented."""
    names, inner = set(), set()
    for path in glob.glob(root + "/crates/*/specs/**/*.antt", recursive=True) + glob.glob(root + "/crates/*/proofs/*.antt"):
        for line in open(path, encoding="utf-8"):
            if line.lstrip().startswith("--"):
                continue
            group = GROUP.match(line.rstrip())
            if group:
                names |= {w for w in group.group(1).split() if w[0].islower() and w not in NOT_NAMES and w != "pub"}
            m = HEAD.match(line)
            if m and m.group(3) not in NOT_NAMES:
                names.add(m.group(3))
                if m.group(1):
                    inner.add(m.group(3))
    return names, inner


def main():
    words = [w for w in sys.argv[1:] if w != "--say"]
    root = words[0] if words else "."
    names, inner = declared(root)
    change = MORE | {n: turned(n) for n in names if turned(n) != n}
    functions = set()
    for path in glob.glob(root + "/crates/*/src/**/*.rt", recursive=True):
        functions |= set(re.findall(r"\bfn (\w+)", open(path, encoding="utf-8").read()))
    made = {f.replace("_", "-") for f in functions}
    token = re.compile(WORD)
    comment = re.compile(r"(?<!\S)(?:--|//).*")

    own = {os.path.basename(os.path.dirname(d)) for d in glob.glob(root + "/crates/*/src")}
    group = re.compile(r"(?m)^(?:ghost )?(?:pub )?use ([^\s{;]+)\.\{([^}]*)\}")

    def of_the_kit(text):
        """The names that a file has of the kit's libraries."""
        there = set()
        for path, words in group.findall(text):
            parts = path.split(".")
            if parts[0] != "Rattle" or parts[1] not in own:
                there |= {w.split(" as ")[0].strip() for w in words.split(",")}
        return there

    def aliases(text):
        """The names under which a file has modules of the repository."""
        there = set()
        for path, name in re.findall(r"(?m)^(?:ghost )?(?:pub )?use ([^\s{;]+) as (\w+)", text):
            parts = path.split(".")
            if parts[0] == "Rattle" and parts[1] in own and parts[-1] not in ("Tie", "Goals", "Given"):
                there.add(name)
        return there

    kit, modules = set(), set()

    def code(text, of_source=False, of_code=False):
        def one(m):
            w = m.group()
            if w not in change or w in kit:
                return w
            if m.start() and text[m.start() - 1] == ".":
                before = re.search(r"(?<![\w.'-])(\w+)\.$", text[: m.start()])
                if before and before.group(1) in modules:
                    return change[w]
                return change[w] if w in inner and not (of_code and w in made | functions) else w
            return w if of_source and w in functions else change[w]
        return token.sub(one, text)

    def prose(text):
        text = re.sub(r"`[^`\n]*`", lambda m: code(m.group()), text)
        return re.sub(r"(?<![\w.`-])[a-z]+[A-Z]\w*(?![\w`-])", lambda m: change.get(m.group(), m.group()), text)

    def line(text, of_source, of_code):
        m = comment.search(text)
        return code(text[: m.start()], of_source, of_code) + prose(m.group()) + text[m.end():] if m else code(text, of_source, of_code)

    def together(path):
        """The names of a file that fall together, as pairs. Functions of src/ and the names after a dot have a place of their own."""
        text = re.sub(r"(?m)(?<!\S)(?:--|//).*$", "", open(path, encoding="utf-8").read())
        there = {m.group() for m in token.finditer(text) if not (m.start() and text[m.start() - 1] == ".")}
        if path.endswith(".rt"):
            there &= names - functions
        seen, theirs = {}, of_the_kit(text)
        for w in sorted(there):
            other = seen.setdefault(w if w in theirs else change.get(w, w), w)
            if other != w:
                yield other, w

    written, clashes = {}, []
    patterns = ["crates/*/specs/**/*.antt", "crates/*/proofs/**/*.antt", "crates/*/src/**/*.rt", "crates/*/must-fail/*.edit"]
    paths = sorted(p for pattern in patterns for p in glob.glob(os.path.join(root, pattern), recursive=True))
    for path in paths:
        for pair in list(together(path)):
            for w in sorted(pair, key=lambda w: "-" not in w)[:1] if not any(re.search("[A-Z]", w) for w in pair) else pair:
                if w in names and not re.search("[A-Z]", w) and not change.get(w, w).endswith("_law"):
                    change[w] = change.get(w, w) + "_law"
    for path in paths:
        clashes += [f"{path}: {a} and {b} are both {change.get(a, a)}" for a, b in together(path)]
        old = open(path, encoding="utf-8").read()
        kit.clear()
        kit.update(of_the_kit(old))
        modules.clear()
        modules.update(aliases(old))
        new = "".join(line(l, path.endswith(".rt"), bool(re.search(r"/proofs/.+/", path))) for l in old.splitlines(keepends=True))
        if new != old:
            written[path] = new
    kit.clear()
    modules.clear()
    # docs/TEXT.md has the words of the desk's own language.
    for path in [p for pattern in ("README.md", "docs/**/*.md", "tests/README.md", "crates/**/README.md") for p in glob.glob(os.path.join(root, pattern), recursive=True) if not p.endswith("/TEXT.md")]:
        old = open(path, encoding="utf-8").read()
        new = re.sub(r"`[^`\n]*`", lambda m: code(m.group()), old)
        if new != old:
            written[path] = new
    if "--say" in sys.argv:
        for n in sorted(change):
            print(n, change[n])
    if clashes:
        print("\n".join(clashes), file=sys.stderr)
        return 1
    for path, new in written.items():
        open(path, "w", encoding="utf-8").write(new)
    print(f"spelling: {len(change)} names, {len(written)} files", file=sys.stderr)
    return 0


if __name__ == "__main__":
    raise SystemExit(main())
