"""Reads antt text as far as the tools of this folder need it: words and brackets, items of a file, and what binds a name in a term."""
import re

TOKEN = re.compile(r'\{-.*?-\}|--[^\n]*|"(?:\\.|[^"\\])*"|[()\[\]{},;]|\s+|[^\s()\[\]{},;"]+', re.S)
OPENERS, CLOSERS = "([{", ")]}"
# A term that begins with one of these ends its head with `in`.
HEADED = ("let", "unfolding", "unfold", "open")
OTHERS = ("use", "mod", "data", "record", "module", "mutual", "infix", "infixl", "infixr", "ruleset", "axiom", "unfolding")
MODIFIERS = ("pub", "unfoldable", "abbrev")


class Token:
    """A word, bracket or comma: its text, where it begins in the item's text, and how many brackets are open before it."""

    def __init__(self, text, at, depth):
        self.text, self.at, self.depth = text, at, depth

    @property
    def end(self):
        return self.at + len(self.text)

    def is_projection(self):
        return len(self.text) > 1 and self.text[0] == "." and self.text[1] != "."


def tokens_of(text):
    """The tokens of a text, without white space and comments."""
    found, depth = [], 0
    for m in TOKEN.finditer(text):
        word = m.group()
        if word.isspace() or word.startswith("--") or word.startswith("{-"):
            continue
        if word in CLOSERS:
            depth -= 1
        found.append(Token(word, m.start(), depth))
        if word in OPENERS:
            depth += 1
    return found


def split_items(text, column=0):
    """The text cut before each line that begins at the column: declarations, clauses, comments. Joined they are the text."""
    begin = re.compile(r"^ {%d}[^\s)\]}]" % column, re.M)
    cuts = [m.start() for m in begin.finditer(text)]
    bounds = sorted(set([0] + cuts + [len(text)]))
    return [text[a:b] for a, b in zip(bounds, bounds[1:])]


def kind_of(tokens):
    """`signature` or `clause` with the index of its `:` or `=`, or `other`."""
    words = [t.text for t in tokens if t.text not in MODIFIERS]
    if not words or words[0] in OTHERS:
        return "other", 0
    for i, t in enumerate(tokens):
        if t.depth == 0 and t.text == ":":
            return "signature", i
        if t.depth == 0 and t.text == "=":
            return "clause", i
    return "other", 0


def where_of(tokens):
    """The index of the `where` that ends a clause's body, or the number of tokens."""
    for i, t in enumerate(tokens):
        if t.depth == 0 and t.text == "where":
            return i
    return len(tokens)


def block_of(text, tokens):
    """Where the items behind the `where` of a clause or a module begin, and their column; None where there are none."""
    where = where_of(tokens)
    if where + 1 >= len(tokens) or kind_of(tokens)[0] != "clause" and tokens[0].text != "module":
        return None
    begin = text.rfind("\n", 0, tokens[where + 1].at) + 1
    indent = len(text[begin:]) - len(text[begin:].lstrip(" "))
    return begin, indent


def scope_end(tokens, i, end):
    """Where the term that begins at i ends: at the bracket that closes around it, a separator, or an `in` of a `let` around it."""
    depth, heads = tokens[i].depth if i < end else 0, 0
    for j in range(i, end):
        t = tokens[j]
        if t.depth < depth:
            return j
        if t.depth > depth:
            continue
        if t.text in HEADED:
            heads += 1
        elif t.text == "in":
            if heads == 0:
                return j
            heads -= 1
        elif t.text in (",", ";", "|"):
            return j
    return end


def matching_in(tokens, i, end):
    """The index of the `in` of the `let` at i, or None."""
    j = scope_end(tokens, i + 1, end)
    return j if j < end and tokens[j].text == "in" else None


class Binder:
    """A name bound in a term: the tokens it holds in, and for a `let` of one name the tokens of its right side."""

    def __init__(self, name, start, end, let=None, right=None):
        self.name, self.start, self.end, self.let, self.right = name, start, end, let, right


def let_binders(tokens, i, end):
    close = matching_in(tokens, i, end)
    if close is None:
        return []
    sign = next((j for j in range(i + 1, close) if tokens[j].depth == tokens[i].depth and tokens[j].text == "="), None)
    if sign is None:
        return []
    colon = next((j for j in range(i + 1, sign) if tokens[j].depth == tokens[i].depth and tokens[j].text == ":"), sign)
    names = [t.text for t in tokens[i + 1:colon] if t.text not in "()[]{},;"]
    last = scope_end(tokens, close + 1, end)
    right = (sign + 1, close)
    if colon == i + 2:
        return [Binder(names[0], close + 1, last, let=(i, close, colon == sign), right=right)]
    return [Binder(name, close + 1, last) for name in names]


def lambda_binders(tokens, i, end):
    names = []
    for j in range(i + 1, end):
        t = tokens[j]
        if t.depth < tokens[i].depth:
            return []
        if t.depth == tokens[i].depth and t.text.endswith("."):
            names.append(t.text[:-1])
            return [Binder(name, j + 1, scope_end(tokens, j + 1, end)) for name in names if name]
        names.append(t.text)
    return []


def arm_binders(tokens, i, end):
    """The names of the pattern before the `↦` at i."""
    names = []
    for j in range(i - 1, -1, -1):
        t = tokens[j]
        if t.depth < tokens[i].depth or t.depth == tokens[i].depth and t.text == "|":
            break
        names.append(t.text)
    return [Binder(name, i + 1, scope_end(tokens, i + 1, end)) for name in names]


def binders_of(tokens, start, end):
    """Every binder of the term between two tokens."""
    found = []
    for i in range(start, end):
        word = tokens[i].text
        if word == "let":
            found += let_binders(tokens, i, end)
        elif word == "λ":
            found += lambda_binders(tokens, i, end)
        elif word == "↦":
            found += arm_binders(tokens, i, end)
    return found


def binder_at(binders, name, i):
    """The innermost binder of a name at a token, or None."""
    held = [b for b in binders if b.name == name and b.start <= i < b.end]
    return max(held, key=lambda b: b.start) if held else None
