#!/usr/bin/env python3
"""Counts the places of docs/DESIGN-PASS.md in crates/*/src, point by point.

    python3 tools/places.py             the count of each kind of place
    python3 tools/places.py KIND        the places of a kind, each by its file, its line and what stands there
    python3 tools/places.py --at COMMIT [KIND]    the same of another commit
"""
import os
import re
import subprocess
import sys

HEAD = re.compile(r'^( *)(?:pub )?(?:const )?(?:extern "C" )?fn (\w+)', re.M)


def sources(commit):
    """The text of each file of crates/*/src, at a commit or as it stands."""
    if commit is None:
        paths = sorted(subprocess.check_output(["git", "ls-files", "-co", "--exclude-standard", "crates/*/src/*.rt"], text=True).split())
        return {path: open(path).read() for path in paths if os.path.exists(path)}
    paths = subprocess.check_output(["git", "ls-tree", "-r", "--name-only", commit, "crates"], text=True).split()
    return {path: subprocess.check_output(["git", "show", f"{commit}:{path}"], text=True) for path in paths if re.search(r"/src/\w+\.rt$", path)}


def bare(text):
    """The text without comments and quoted bytes, line for line."""
    return re.sub(r'b?"(\\.|[^"\\])*"', '""', re.sub(r"//.*", "", text))


def functions(text):
    """Name, head, body and first line of each function with a body."""
    text = bare(text)
    for head in HEAD.finditer(text):
        indent = head[1]
        stop = re.compile(rf"^(?:{indent}\}}|.*;)$", re.M)
        brace = re.compile(r"\{$", re.M)
        at = head.start()
        semicolon = re.compile(rf"^{indent}    (?:requires|ensures).*;$|\).*;$", re.M).search(text, at)
        opens = brace.search(text, at)
        if opens is None or (semicolon and semicolon.end() < opens.start()):
            continue
        end = re.compile(rf"^{indent}\}}", re.M).search(text, opens.end())
        yield head[2], text[at:opens.start()], text[opens.end():end.start()], text.count("\n", 0, at) + 1


def signature(head):
    """What stands before the clauses."""
    return re.split(r"\n *(?:requires|ensures|where)\b", head)[0]


def lines_with(pattern):
    found = re.compile(pattern)

    def look(path, text):
        for number, line in enumerate(bare(text).split("\n"), 1):
            for _ in found.finditer(line):
                yield number, line.strip()
    return look


def heads_with(test):
    def look(path, text):
        for name, head, body, line in functions(text):
            if test(signature(head), body):
                yield line, name
    return look


def enums(path, text):
    """Enums of the shape of Option or Result: a variant for nothing, or for a refusal, beside one with a value."""
    for found in re.finditer(r"^(?:pub )?enum (\w+) \{(.*?)^\}", bare(text), re.M | re.S):
        variants = re.findall(r"^    (\w+)(\(.*\))?", found[2], re.M)
        names = {name for name, _ in variants}
        if len(variants) > 1 and names & {"Nothing", "Nowhere", "Closed", "Refused", "Stopped"} and any(value for _, value in variants):
            yield text.count("\n", 0, found.start()) + 1, found[1]


def shape(body):
    words = {"while", "for", "if", "else", "return", "match", "let", "mut", "loop", "true", "false", "in"}
    body = re.sub(r"\b\d+\w*\b", "0", body)
    body = re.sub(r"\b[A-Za-z_]\w*(?:::\w+)*", lambda word: word[0] if word[0] in words else "x", body)
    return re.sub(r"\s+", " ", body).strip()


def twins(texts):
    """Functions whose bodies, of four lines and more, are the same but for names and numbers: all but the first of each group."""
    groups = {}
    for path, text in texts.items():
        for name, head, body, line in functions(text):
            if body.strip().count("\n") >= 3:
                groups.setdefault(shape(body), []).append((path, line, name))
    for group in groups.values():
        for path, line, name in group[1:]:
            yield path, line, f"{name}, as {group[0][2]}"


KINDS = {
    "1 enums of the shape of Option or Result": enums,
    "1 functions that answer the number of a refusal": heads_with(lambda head, body: head.endswith("-> usize") and bool(re.search(r"\w*fault\w*\(|fn (?:conclude|sum|s_prop|of_literal|join)\(", head))),
    "1 numbers for kinds: parameters and fields": lines_with(r"\b(?:relation|function|kind|tag|integer): usize"),
    "1 a flag with a value beside it": heads_with(lambda head, body: head.endswith("-> bool") and "&mut " in head),
    "2 bodies that differ in names and numbers alone": twins,
    "3 loops that count an index by hand": lines_with(r"^\s*while\b"),
    "4 casts by `as`": lines_with(r"\bas (?:u8|u16|u32|u64|usize|i64)\b"),
    "4 tests of a number by two comparisons and a return": lines_with(r"^\s*return (?:true|false);"),
    "4 copies with every field written out": lines_with(r"^\s*\w+: (\w+)\.\w+,$"),
    "5 a row's length in a clause": lines_with(r"length \w+\.(?:now|old) ≡ row_length"),
    "5 ticket and numbers of the question travel together": heads_with(lambda head, body: "&[u8]" in head and ": Progress" in head),
    "5 work area and count of facts travel together": heads_with(lambda head, body: re.search(r"work: &(?:mut )?\[i64\]", head) and "count: usize" in head),
    "5 the number of labels in a clause": lines_with(r"length labels\.now ≡ node_count"),
    "5 rule, body and size travel together": heads_with(lambda head, body: "rule: Rule" in head and "size: usize" in head),
    "6 slices that run beside one another": heads_with(lambda head, body: bool(re.search(r"marks: &|sizes: &", head))),
    "6 a buffer and the place to write at": heads_with(lambda head, body: bool(re.search(r"(?:out|buffer): &mut \[u8\]", head)) and "at: usize" in head),
    "7 matches over all rules": lines_with(r"^\s*match (?:step\.)?rule\b"),
    "7 a flag that picks a step": lines_with(r"\b\w+: bool\b"),
}


def main():
    os.chdir(os.path.join(os.path.dirname(os.path.abspath(__file__)), ".."))
    given = sys.argv[1:]
    commit = None
    if given[:1] == ["--at"]:
        commit, given = given[1], given[2:]
    texts = sources(commit)
    for kind, look in KINDS.items():
        if look is twins:
            places = list(twins(texts))
        else:
            places = [(path, line, what) for path, text in texts.items() for line, what in look(path, text)]
        if not given:
            print(f"{kind}: {len(places)}")
        elif kind.startswith(given[0]):
            print(f"{kind}: {len(places)}")
            for path, line, what in places:
                print(f"    {path}:{line}: {what}")


if __name__ == "__main__":
    main()
