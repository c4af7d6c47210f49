"""Breaks long lines of antt: at the outermost place that is there, and there at the operator that binds least. The formatter sets the indentation."""
import glob
import os
import re

import antt

WIDTH = 160
# A line this short goes on with the beginning of an argument that is too long for a line.
SHORT = 60
# The operators, the one that binds least first: a break before each, or before as many as fill the lines.
EACH = (("→",), ("≡", "≤", "<", "⊎", "×"), ("∙",), ("||", "&&"))
FILLED = (("∷", "++"), ("+", "-", "*", "+ℤ", "-ℤ", "*ℤ"))
# No break before these.
CLOSE = (",", ";", ")", "]", "}")


def kept_lines(path):
    """The lines that a must-fail edit of the crate looks for in this file."""
    crate = re.match(r"(.*crates/[^/]+)/(.*)", path)
    kept = []
    for edit in glob.glob(os.path.join(crate.group(1), "must-fail", "*.edit")) if crate else []:
        with open(edit, encoding="utf-8") as file:
            text = file.read()
        if re.search(r"^file: *(?:.*/)?%s *$" % re.escape(crate.group(2)), text, re.M):
            kept += [m.strip() for m in re.findall(r"^old: ?(.*)$", text, re.M)]
    return kept


def broken_text(text, kept=()):
    """The text with its long lines broken."""
    lines = []
    for line in text.split("\n"):
        if len(line) <= WIDTH or any(k in line for k in kept):
            lines.append(line)
        elif line.lstrip().startswith("--"):
            lines += broken_comment(line)
        elif line.startswith("use "):
            lines += broken_use(line)
        else:
            lines += broken_line(line)
    return "\n".join(lines)


def filled(words, begin, join, width=WIDTH):
    """The words in lines, as many in each as fit."""
    lines, line = [], begin + words[0]
    for word in words[1:]:
        if len(line + join + word) > width:
            lines.append(line)
            line = begin + word
        else:
            line += join + word
    return lines + [line]


def broken_comment(line):
    begin, text = re.match(r"(\s*-- ?)(.*)", line).groups()
    return filled(text.split(" "), begin, " ")


def broken_use(line):
    """Several `use` lines of about one length."""
    m = re.match(r"(use \S+\.)\{(.*)\}$", line)
    if not m:
        return [line]
    # `{-` would open a comment.
    names = [name.strip() for name in re.split(r",(?!\s*-)", m.group(2)) if name.strip()]
    begin, width = m.group(1) + "{", WIDTH - 1
    fewest = len(filled(names, begin, ", ", width))
    while len(filled(names, begin, ", ", width - 1)) == fewest:
        width -= 1
    return [part + "}" for part in filled(names, begin, ", ", width)]


def broken_line(line):
    indent = len(line) - len(line.lstrip())
    if any(m.group().startswith("--") for m in antt.TOKEN.finditer(line)):
        return [line]
    parts = pieces(line.strip(), WIDTH - indent - 4, 0)
    return [" " * indent + parts[0]] + [" " * (indent + 4) + part for part in parts[1:]]


def pieces(text, width, lead):
    """The lines of a text, each of the width where that is possible; the first stands behind `lead` characters."""
    if lead + len(text) <= width:
        return [text]
    tokens = antt.tokens_of(text)
    cuts = cuts_of(tokens, width, lead)
    if not cuts:
        return inside(text, tokens, width, lead)
    bounds = [0] + [tokens[i].at for i in cuts] + [len(text)]
    parts = [text[a:b].strip() for a, b in zip(bounds, bounds[1:])]
    lines = pieces(parts[0], width, lead)
    for part in parts[1:]:
        lines += pieces(part, width, 0)
    return lines


def inside(text, tokens, width, lead):
    """The lines of a text that has no place to break but in its brackets: broken in the longest of them."""
    found = list(brackets(text, tokens))
    if not found:
        return along_path(text, tokens, width, lead)
    begin, end = max(found, key=lambda b: b[1] - b[0])
    first, inner, last = text[:begin], text[begin:end], text[end:]
    parts = pieces(inner.strip(), width, lead + len(first))
    if len(parts) == 1:
        return [text]
    parts[0] = first + inner[:len(inner) - len(inner.lstrip())] + parts[0]
    parts[-1] += inner[len(inner.rstrip()):] + last
    return parts


def along_path(text, tokens, width, lead):
    """The lines of a path that is too long for one."""
    cuts = filled_cuts(tokens, [i for i in range(1, len(tokens)) if tokens[i].is_projection()], width, lead)
    bounds = [0] + [tokens[i].at for i in cuts] + [len(text)]
    return [text[a:b].strip() for a, b in zip(bounds, bounds[1:])]


def least(tokens):
    return min(t.depth for t in tokens)


def brackets(text, tokens):
    """Where the insides of the outermost brackets begin and end; a bracket may be opened or closed on another line."""
    depth, begin = least(tokens), None
    if tokens[0].depth > depth or tokens[0].text in antt.CLOSERS and tokens[0].depth == depth:
        begin = 0
    for t in tokens:
        if t.depth != depth:
            continue
        if t.text in antt.CLOSERS and begin is not None:
            if begin < t.at:
                yield begin, t.at
            begin = None
        if t.text in antt.OPENERS:
            begin = t.end
    if begin is not None and begin < len(text):
        yield begin, len(text)


def cuts_of(tokens, width, lead):
    """The tokens to break before, outside of all brackets."""
    depth = least(tokens)
    here = [i for i in range(1, len(tokens)) if tokens[i].depth == depth and not glued(tokens, i)]
    for cuts in (ends_of_lets(tokens, here), separated(tokens, here), signs(tokens, here)):
        if cuts:
            return cuts
    applied = [i for i in here if tokens[i - 1].text == "$"]
    if applied:
        return filled_cuts(tokens, applied, width, lead)
    for words in EACH + FILLED:
        cuts = [i for i in here if tokens[i].text in words and tokens[i - 1].depth == depth]
        if cuts:
            return cuts if words in EACH else filled_cuts(tokens, cuts, width, lead)
    return filled_cuts(tokens, [i for i in here if starts_argument(tokens, i)], width, lead)


def ends_of_lets(tokens, here):
    """Behind each `in`, and before the first `let`. The formatter keeps a bracket that ends the line behind its `in`."""
    cuts = [i for i in here if tokens[i - 1].text == "in" and not (i == len(tokens) - 1 and tokens[i].text in antt.OPENERS)]
    if cuts and len(tokens) > 1:
        first = next((i for i in here if tokens[i].text == "let"), None)
        if first is not None and first < cuts[0] and tokens[first - 1].text == "=":
            cuts.insert(0, first)
    return cuts


def separated(tokens, here):
    """Behind each comma or semicolon, before each arm of an `elim`."""
    return [i for i in here if tokens[i - 1].text in (",", ";") or tokens[i].text == "|"]


def signs(tokens, here):
    """Behind the `=` of a clause or of a `let`."""
    return [i for i in here if tokens[i - 1].text == "="][:1]


def starts_argument(tokens, i):
    word, before = tokens[i].text, tokens[i - 1].text
    return not word.startswith(".") and word not in CLOSE and before not in antt.OPENERS \
        and before not in ("λ", "let", ":", "elim", "as", "record", "in") and word not in ("=", ":", "in", "↦", "as", "[")


def glued(tokens, i):
    """No white space stands before the token."""
    return tokens[i - 1].end == tokens[i].at


def filled_cuts(tokens, places, width, lead):
    """Of the places before arguments those that fill the lines. Before an argument that must itself be broken none, where the line is still short."""
    cuts, begin = [], tokens[0].at - lead
    for k, i in enumerate(places):
        end = tokens[places[k + 1] - 1].end if k + 1 < len(places) else tokens[-1].end
        at = tokens[i].at
        if end - begin > width and at > begin and not (end - at > width and at - begin < SHORT):
            cuts.append(i)
            begin = at
    return cuts
