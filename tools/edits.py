#!/usr/bin/env python3
"""Turns the must-fail edits of an older text of this repository to the text that stands here.

usage: tools/edits.py [--names FILE] [--write] OLDER [ROOT]

Each edit of OLDER is spelled anew: names by FILE (lines OLD, tab, NEW) and by what aligned files show, projections, operators and
comparisons by rules. An old text must stand exactly once in today's file, at the place where the older file had it; what does not is
printed, to be done by hand. Edits that stand here already and apply at that place are left as they are.
"""

import collections
import difflib
import glob
import os
import re
import sys

TOKEN = re.compile(r"[A-Za-z_0-9'′·-]+|\s+|.", re.S)


def read(path):
    with open(path, encoding="utf-8") as f:
        return f.read()


def tokens(text):
    return [t for t in TOKEN.findall(text) if not t.isspace()]


def learned(older, root, names):
    """The token that stands most often where the older text has another, in runs of equal length."""
    seen = collections.defaultdict(collections.Counter)
    for p in glob.glob(os.path.join(older, "crates/*/specs/**/*.antt"), recursive=True):
        q = os.path.join(root, os.path.relpath(p, older))
        if not os.path.exists(q):
            continue
        a, b = [names.get(t, t) for t in tokens(read(p))], tokens(read(q))
        for kind, i, j, k, l in difflib.SequenceMatcher(None, a, b, autojunk=False).get_opcodes():
            if kind == "equal" or (kind == "replace" and j - i == l - k):
                for x, y in zip(a[i:j], b[k:l]):
                    seen[x][y] += 1
    table = {}
    for x, c in seen.items():
        y, n = c.most_common(1)[0]
        if x != y and re.match(r"[a-z]", x) and n > 2 * (sum(c.values()) - n):
            table[x] = y
    return table


def turned(text, names, more):
    """The text in today's spelling."""
    text = "".join(more.get(t, t) if t not in names else names[t] for t in TOKEN.findall(text))
    text = re.sub(r"Rattle·([a-z_0-9]+)(?:·specs)?\.specs\.", r"Rattle.\1.specs.", text)
    # A projection was of the whole application before it, and is tight now; one that stands alone needs no brackets.
    text = re.sub(r"\((\w+(?: \w+)+) \.(\w+)\)", r"(\1).\2", text)
    text = re.sub(r"(?<=\()(\w+(?: \w+)+) \.(?=[a-z])", r"(\1).", text)
    text = re.sub(r"(?<=[\w'\])]) \.(?=[a-z])", ".", text)
    text = re.sub(r"\((\w+(?:\.\w+)+)\)", r"\1", text)
    return text


def pairs(path):
    file, out, old = None, [], None
    for line in read(path).split("\n"):
        if line.startswith("file: "):
            file = line[6:]
        elif line.startswith("old: "):
            old = line[5:]
        elif line.startswith("new: "):
            out.append((file, old, line[5:]))
    return out


def line_map(a, b):
    """For each line of the older text the lines of today's that stand for it."""
    a, b = [" ".join(tokens(x)) for x in a], [" ".join(tokens(x)) for x in b]
    out = {}
    for _, i, j, k, l in difflib.SequenceMatcher(None, a, b, autojunk=False).get_opcodes():
        for x in range(i, j):
            out[x] = (k + x - i, k + x - i + 1) if j - i == l - k else (k, max(l, k + 1))
    return out


def main(argv):
    names, write = {}, "--write" in argv
    argv = [a for a in argv if a != "--write"]
    if "--names" in argv:
        i = argv.index("--names")
        names = dict(l.split("\t")[:2] for l in read(argv[i + 1]).split("\n") if "\t" in l)
        del argv[i : i + 2]
    older, root = argv[0], argv[1] if len(argv) > 1 else "."
    more = learned(older, root, names)
    count = turned_ones = by_hand = 0
    for p in sorted(glob.glob(os.path.join(older, "crates/*/must-fail/*.edit"))):
        at = os.path.relpath(p, older)
        crate, q = at.split("/")[1], os.path.join(root, at)
        count += 1

        def says(ps, in_order):
            """What is wrong with the pairs, over today's text; nothing where they apply where the older ones did."""
            before, now = {}, {}
            for (f, o, n), (g, o2, n2) in zip(ps, in_order):
                for table, top, file in ((before, older, f), (now, root, g)):
                    if file not in table:
                        path = os.path.join(top, "crates", crate, file)
                        table[file] = read(path) if os.path.exists(path) else ""
                if now[g].count(o2) != 1:
                    return f"{now[g].count(o2)} times: {o2}"
                x, y = before[f][: before[f].index(o)].count("\n"), now[g][: now[g].index(o2)].count("\n")
                of = line_map([turned(l, names, more) for l in before[f].split("\n")], now[g].split("\n"))
                if not of.get(x, (0, 0))[0] <= y < of.get(x, (0, 0))[1]:
                    return f"at line {y + 1}, and it was wanted at {of.get(x)}: {o2}"
                before[f], now[g] = before[f].replace(o, n), now[g].replace(o2, n2)
            return ""

        ps = pairs(p)
        if os.path.exists(q) and q != p:
            here = pairs(q)
            if len(here) == len(ps) and here != [] and not says(ps, here) and (here != ps or all(turned(n, names, more) == n for _, _, n in ps)):
                continue
        mine = [(f, turned(o, names, more) if f.endswith(".antt") else o, turned(n, names, more) if f.endswith(".antt") else n) for f, o, n in ps]
        why = says(ps, mine)
        if why:
            by_hand += 1
            print(f"{at}: {why}")
            continue
        turned_ones += 1
        if write:
            lines, news = [], [x for _, o, n in mine for x in ("old: " + o, "new: " + n)]
            for line in read(p).rstrip("\n").split("\n"):
                lines.append(news.pop(0) if line.startswith(("old: ", "new: ")) else line)
            os.makedirs(os.path.dirname(q), exist_ok=True)
            with open(q, "w", encoding="utf-8") as f:
                f.write("\n".join(lines) + "\n")
    print(f"{count} edits: {turned_ones} turned, {by_hand} by hand, {count - turned_ones - by_hand} stood")


if __name__ == "__main__":
    main(sys.argv[1:])
