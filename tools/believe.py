#!/usr/bin/env python3
"""Counts what a reader has to believe: for each statement of the demands' page the definitions that it reaches, and their lines.

    python3 tools/believe.py            # writes docs/BELIEVE.md
    python3 tools/believe.py --check    # fails where docs/BELIEVE.md is not current

A definition is its signature and clauses, a data type or a record, without comments and blank lines. It reaches what its text names, by the `use` lines of
its file. A notion that a theorem of the page puts into words (WORDED) is not looked into, since the theorem's words are counted; Th1 looks into all of them."""
import pathlib
import re
import sys

from antt import MODIFIERS, tokens_of

ROOT = pathlib.Path(__file__).resolve().parent.parent
PAGE = ROOT / "docs/BELIEVE.md"
USE = re.compile(r"use Rattle\.([a-z_]+)\.specs\.([\w.]+?)(?:\.\{([^}]*)\}| as (\w+))$")
BINDERS = re.compile(r"[({]\s*([^:(){}=]+?)\s+:\s")
LAMBDA = re.compile(r"λ ([^.]*?)\. ")
LET = re.compile(r"\blet ([^=]*?) = ")
ARM = re.compile(r"[|\[] ([^|\[]*?) ↦")
FIELD = re.compile(r"\s+pub (\S+) :")
# Computed notions, and the theorems of the page that say in words what they give.
WORDED = {
    ("format", "Checking", "verdict"): "Th1Small, Th1Long, ThForm, Th2, Th2Covers, Th4, Th5, Th6, Th6Covers, ThRefusals; not which of 3 to 7, and at which record",
    ("format", "Judging", "submission"): "ThAsked, Th3, Th3Answers, Th3Unformed, Th3Outside; not which of 2 to 7 and 10 a question gets, and at which record",
    ("format", "Needs", "needed"): "ThL2Reported, ThL2Met, ThL2Unclosed, ThL2Numbers; not which of 2 to 7, and at which record",
    ("format", "Sameness", "sameness"): "ThL6Sets, ThL6Different, ThL6Refused",
    ("format", "ProperForm", "ProperNoSolution"): "ThForm",
    ("format", "ProperForm", "ProperStrings"): "ThForm",
    ("format", "ProperForm", "steps_with_child"): "ThForm",
    ("format", "ProperForm", "steps"): "ThForm",
    ("format", "Question", "question_of"): "ThPut",
    ("format", "Demands", "Asks"): "ThAsked",
}
# What the contracts of the public operations and the agreements of words and tests begin from, besides the page.
PROMISED = [
    ("checking", "Outcomes", "Promised"), ("checking", "Theory", "Theory"), ("judging", "Judgements", "Finds"), ("needs", "Outcomes", "need_of"),
    ("sameness", "Asked", "sameness_of"), ("lines", "Reports", "Reports"), ("calculus", "Agreements", "Agreements"), ("format", "Agreements", "Agreements"),
]


class Definition:
    """A name of a file, with the lines that define it and the comment above."""

    def __init__(self, crate, module, name):
        self.crate, self.module, self.name = crate, module, name
        # the names of a data type's constructors; None for everything else
        self.comment, self.lines, self.constructors = [], [], None

    @property
    def key(self):
        return self.crate, self.module, self.name

    def words(self):
        """The document's words, as the comment above quotes them; else the comment."""
        text = " ".join(line.lstrip("- ").rstrip() for line in self.comment)
        quoted = re.findall(r'"[^"]+"', text)
        return "; ".join(quoted) if quoted else text or "″"


class File:
    """A file of definitions: what it defines, by name, and what its `use` lines bring in."""

    def __init__(self, crate, path):
        self.crate, self.module = crate, path.stem
        self.names, self.imported, self.aliases = {}, {}, {}
        self.definitions = []
        self.read(path.read_text(encoding="utf8").split("\n"))

    def read(self, lines):
        comment, current = [], None
        for line in lines:
            text = line.strip()
            if not text:
                comment, current = [], None if not line else current
            elif text.startswith("--"):
                # a comment within a definition belongs to it and is not counted
                if current is None or not line.startswith("  "):
                    comment.append(text)
            elif text.startswith("use "):
                self.bring_in(text)
            elif text[0] in "}])" and current is not None:
                current.lines.append(line)
            elif text != "mutual":
                current = self.add(line, comment, current)
                comment = []

    def bring_in(self, text):
        found = USE.match(text)
        if not found:
            if text.startswith("use Rattle") and not text.startswith("use Rattle.std.") and ".declared." not in text and " as " not in text:
                sys.exit(f"{self.crate}/specs/{self.module}: not understood: {text}")
            return
        crate, module, names, alias = found.groups()
        if alias:
            self.aliases[alias] = (crate, module)
        for name in (names or "").split(","):
            if name.strip():
                self.imported[name.strip()] = (crate, module, name.strip())

    def add(self, line, comment, current):
        """The definition that a line belongs to, which may be a new one."""
        indent = len(line) - len(line.lstrip())
        words = [t.text for t in tokens_of(line) if t.text not in MODIFIERS]
        if words[0] in ("data", "record") and indent <= 2:
            current = self.begin(words[1], comment)
            current.constructors = [] if words[0] == "data" else None
        elif indent == 0 or (indent == 2 and line.lstrip().startswith("pub data")):
            if words[0] not in self.names:
                current = self.begin(words[0], comment)
            current = self.names[words[0]] if words[0] in self.names else current
        elif current is not None and current.constructors is not None and indent in (2, 4):
            self.member(words, current)
        if current is not None:
            current.lines.append(line)
        return current

    def begin(self, name, comment):
        d = Definition(self.crate, self.module, name)
        d.comment = list(comment)
        self.names[name] = d
        self.definitions.append(d)
        return d

    def member(self, words, current):
        """Constructors stand for the type that they belong to."""
        if ":" in words:
            current.constructors += words[: words.index(":")]
            for word in words[: words.index(":")]:
                self.names.setdefault(word, current)


class Specs:
    """The definitions of every crate."""

    def __init__(self, root):
        self.files = {}
        for path in sorted(root.glob("crates/*/specs/*.antt")):
            if path.stem != "Lib":
                self.files[(path.parts[-3], path.stem)] = File(path.parts[-3], path)

    def find(self, crate, module, name):
        f = self.files.get((crate, module))
        return f.names.get(name) if f else None

    def resolve(self, f, word):
        """What a word of a file names, or None."""
        alias, _, rest = word.partition(".")
        if word in f.names:
            return f.names[word]
        if word in f.imported:
            return self.find(*f.imported[word])
        return self.find(*f.aliases[alias], rest) if rest and alias in f.aliases else None

    def named(self, d):
        """The definitions that a definition's text names."""
        f = self.files[(d.crate, d.module)]
        text = "\n".join(d.lines)
        bound = self.bound(f, d)
        for token in tokens_of(text):
            found = None if token.text in bound else self.resolve(f, token.text)
            if found:
                yield found

    def is_constructor(self, f, word):
        found = self.resolve(f, word)
        return found is not None and word.split(".")[-1] in (found.constructors or [])

    def bound(self, f, d):
        """The names that a definition binds: in brackets before a colon, by λ and let, in patterns; and the fields of a record."""
        names = set()
        for line in d.lines:
            for group in BINDERS.findall(line):
                names.update(group.split())
            for names_of in LAMBDA.findall(line) + LET.findall(line):
                names.update(w for w in re.split(r"[\s(),:]+", names_of) if w)
            patterns = [m for m in ARM.findall(line)]
            head = line.split(" = ")[0] if " = " in line and line.startswith(d.name + " ") else ""
            patterns.append(head[len(d.name):])
            for pattern in patterns:
                words = [t.text for t in tokens_of(pattern)]
                names.update(w for w in words if not self.is_constructor(f, w))
            if d.constructors is None and FIELD.match(line):
                names.add(FIELD.match(line).group(1))
        return names

    def reached(self, roots, closed):
        """What the roots reach, without going into those that are closed."""
        seen, left = {}, list(roots)
        while left:
            d = left.pop()
            if d.key in seen:
                continue
            seen[d.key] = d
            if d.key not in closed:
                left.extend(self.named(d))
        return [d for k, d in seen.items() if k not in closed]


def lines_in(definitions):
    return sum(len(d.lines) for d in definitions)


def groups(specs):
    """What is counted: a title, the definitions that it begins from, and whether worded notions are looked into."""
    page = specs.files[("format", "Demands")]
    fields = [line.split(" : ")[1].strip() for line in page.names["Demands"].lines[1:]]
    statements = [page.names[name] for name in fields]
    base = [d for d in statements if not d.name.startswith("ThL")]
    no = [page.names["PutsQuestion"], page.names["NoAssignment"]]
    promised = [specs.find(*key) for key in PROMISED] + specs.files[("nuldwich", "Replies")].definitions
    return fields, [
        ("an accepted no is true: the question that the bytes begin with, and that no assignment meets it", no, False),
        ("demands 1 to 3 of document 01: every statement but Th1 and those of 02", base, False),
        ("every statement of the page but Th1", statements, False),
        ("Th1, with all that is computed", [page.names["Th1"]], True),
        ("all of it, with what is computed, the promises of all public operations and the agreements", statements + [page.names["Th1"]] + promised, True),
    ]


def cell(text):
    return text.replace("|", "\\|")


def page_text(specs):
    """docs/BELIEVE.md as it should be."""
    fields, counted = groups(specs)
    page = specs.files[("format", "Demands")]
    closed = set(WORDED)
    out = [HEAD]
    out += ["| what | definitions | lines |", "|---|---|---|"]
    for title, roots, into in counted:
        reached = specs.reached(roots, set() if into else closed)
        out.append(f"| {title} | {len(reached)} | {lines_in(reached)} |")
    out += ["", "## Each statement", "", "| statement | definitions | lines |", "|---|---|---|"]
    for name in fields:
        reached = specs.reached([page.names[name]], closed)
        out.append(f"| `{name}` | {len(reached)} | {lines_in(reached)} |")
    out += ["", "## Notions that a theorem puts into words", "", "| notion | theorems |", "|---|---|"]
    out += [f"| {c}/specs/{m} `{n}` | {theorem} |" for (c, m, n), theorem in WORDED.items()]
    words = {d.key for d in specs.reached(counted[1][1], closed)}
    everything = specs.reached(counted[-1][1], set())
    out += ["", "## The definitions", "", "*w* marks those that demands 1 to 3 reach without looking into what is computed. Where nothing is said above a definition, the comment before it speaks of it too (″).", ""]
    for (crate, module), f in specs.files.items():
        rows = [d for d in f.definitions if d in everything]
        if rows:
            out += [f"### {crate}/specs/{module}", "", "| definition | | the document's words, or the comment above | lines |", "|---|---|---|---|"]
            out += [f"| `{cell(d.name)}` | {'w' if d.key in words else ''} | {cell(d.words())} | {len(d.lines)} |" for d in rows]
            out.append("")
    return "\n".join(out).rstrip("\n") + "\n"


HEAD = """# What is to be believed

A reader believes definitions and statements; that the theorems hold of these definitions, and the code of its contracts, is proved. This page counts the definitions
that the demands' statements (format/specs/Demands) reach; `python3 tools/believe.py` writes it, and the gate fails where it is not current. A line is one of a
definition, without comments and blank lines.

A computed notion of which theorems of the page say in words what it gives is not looked into, except for Th1, which is an equation with what is computed: so
which of the refusals 3 to 7 is given, and at which record, rests on reading the definitions of the format ([DECISIONS.md](DECISIONS.md), 168).

Not counted, and believed besides: the library's numbers, lists and integers; the types that the code declares, which contracts name; the prover and the compiler
(.ci/kit); the border to C, and the program's `main` with what it calls of the C library.
"""


def main():
    text = page_text(Specs(ROOT))
    if "--check" not in sys.argv:
        PAGE.write_text(text, encoding="utf8")
        return 0
    current = PAGE.exists() and PAGE.read_text(encoding="utf8") == text
    if not current:
        print("docs/BELIEVE.md is not current: python3 tools/believe.py writes it")
    print(f"{int(current)} passed, {int(not current)} failed")
    return int(not current)


if __name__ == "__main__":
    sys.exit(main())
