#!/usr/bin/env python3
"""Spells this repository's own definitions and lemmas as Rattle's library does: words in snake case, and a dash between two names.

usage: tools/respell.py [--list FILE] [ROOT]

camelCase becomes snake_case. A dash stays where it joins two functions' names, as in length-xor_row, and is an underscore before a
plain word, as in digit_next. A lemma that would have a function's name gets _lem. Types and modules keep their capitals. A name
that would meet another one in some file stays. Code, comments' code spans, must-fail edits and the pages of docs/ are turned.
The functions of src/, labels that Rattle makes, strings, inputs and outputs are not.
"""

import collections
import glob
import os
import re
import sys

WORD = re.compile(r'[^\s(){}.;,@"«»`]+')
DECLARED = re.compile(r"(?m)^ *((?:(?:abbrev|unfoldable|opaque|pub|record|data|ruleset) )*)([^\s(){}.;,]+)(?: \{[^{}\n]*\}| \([^()\n]*\))* :(?= )")
USE = re.compile(r"^(?:pub )?use ([^\s{]+?)(?:\.\{([^}]*)\})?(?: as (\S+))?\s*$", re.M)
# Operations and words of the library that stand for a name in a lemma's name.
LIBRARY = set(
    "add sub mul mod pow zero suc nil cons append map take drop length replicate get_or xor lt le".split()
)


def read(path):
    with open(path, encoding="utf-8") as f:
        return f.read()


def snake(name):
    name = re.sub(r"(?<=[a-z0-9'])([A-Z])(?=[a-z0-9]|$|-|_)", lambda m: "_" + m[1].lower(), name)
    return re.sub(r"(?<=[a-z0-9])([A-Z]+)(?![a-z])", lambda m: "_" + m[1].lower(), name)


def crates_of(root):
    return [d for d in sorted(os.listdir(os.path.join(root, "crates"))) if os.path.isdir(os.path.join(root, "crates", d, "src"))]


def antt_files(root):
    for c in crates_of(root):
        for kind in ("specs", "proofs"):
            for p in sorted(glob.glob(os.path.join(root, "crates", c, kind, "**", "*.antt"), recursive=True)):
                yield p


OF_FUNCTION = re.compile(r"/(Proof|Answers|Invariants)\.antt$")


def gather(root):
    """The names declared in definitions and lemmas: functions of specs/, and the rest."""
    functions, lemmas, fields = set(), set(), set()
    for p in antt_files(root):
        t = read(p)
        inside = None
        for line in t.split("\n"):
            m = re.match(r"^( *)((?:(?:abbrev|unfoldable|opaque|pub|record|data|ruleset|pattern) )*)([^\s(){}.;,]+)(?: \{[^{}\n]*\}| \([^()\n]*\))* :(?= )", line)
            head = re.match(r"^( *)(?:(?:abbrev|unfoldable|pub) )*(record|data) ", line)
            if inside is not None and line.strip() and len(line) - len(line.lstrip()) <= inside:
                inside = None
            if m and m[3] not in ("let", "in") and not m[3].startswith("--"):
                name = m[3]
                typed = line[m.end():]
                if OF_FUNCTION.search(p) and re.match(r"\s*tie\.", typed):
                    pass
                elif inside is not None:
                    fields.add(name)
                elif "/specs/" in p:
                    functions.add(name)
                else:
                    lemmas.add(name)
            if head:
                inside = len(head[1])
    return functions, lemmas, fields


def respelled(name, functions):
    """The new spelling of a name, given the functions' names in snake case."""
    parts = name.split("-")
    parts = [snake(p) for p in parts]
    # Runs of parts that spell a function's name are one unit.
    units, i = [], 0
    while i < len(parts):
        for j in range(len(parts), i, -1):
            whole = "_".join(parts[i:j])
            if whole in functions or whole in LIBRARY:
                units.append((whole, True))
                i = j
                break
        else:
            units.append((parts[i], False))
            i += 1
    out = units[0][0]
    for (a, named), (b, is_name) in zip(units, units[1:]):
        out += ("-" if named and is_name else "_") + b
    return out


def imports(text):
    own, foreign, own_alias, foreign_alias = set(), set(), set(), set()
    for path, items, alias in USE.findall(text):
        return_own = path.startswith("Rattle.") and path.split(".")[1] in OWN and not path.endswith((".Tie", ".Goals", ".Given", ".Statement", ".Lts"))
        names = [it.strip() for it in items.split(",")] if items else []
        for it in names:
            a = it.split(" as ")
            (own if return_own else foreign).add(a[0].strip())
            if len(a) > 1:
                (own if return_own else foreign).add(a[1].strip())
        if alias:
            (own_alias if return_own else foreign_alias).add(alias)
    return own, foreign, own_alias, foreign_alias


OWN = set()

# Names that the rule would make meet others.
CHOSEN = {
    "to_network_lem": "into_network",
    "from_network_lem": "out_of_network",
    "session_key_lem": "derive_session_key",
    "corrects_marked_lem": "corrects_with_marks",
    "marked_reading_lem": "marked_readings",
}


def respell_aliases(text, rust):
    """Aliases of use lines in snake case."""
    for a in set(re.findall(r" as ([a-z]\w*[A-Z]\w*)", text)):
        s = re.sub(r"(?<=[a-z0-9])([A-Z])", lambda m: "_" + m[1].lower(), a)
        taken = re.search(rf"(?<![\w.-]){s}(?![\w-])", text)
        # In Rust's text a function of that name is no word of a clause.
        if taken and not (rust and not re.search(rf"ghost use[^;]*[{{ ]{s}[,}}]", text)):
            continue
        text = re.sub(rf"(?<![\w.-]){a}(?![\w-])", s, text)
    return text


def respell_clauses(text, table):
    """Names with a dash in the clauses of Rust's text."""
    out = []
    for line in text.split("\n"):
        if not re.match(r"\s*//", line) and (re.search(r"(ensures|requires|ghost)\b", line) or "≡" in line or "→" in line):
            line = WORD.sub(lambda m: table[m[0]] if "-" in m[0] and m[0] in table else m[0], line)
        out.append(line)
    return "\n".join(out)


def main(argv):
    listing = None
    if "--list" in argv:
        i = argv.index("--list")
        listing = argv[i + 1]
        del argv[i : i + 2]
    root = argv[0] if argv else "."
    OWN.update(crates_of(root))
    functions, lemmas, fields = gather(root)
    texts = {p: read(p) for p in antt_files(root)}
    foreign = set()
    for t in texts.values():
        foreign |= imports(t)[1]
    wants = lambda n: re.match(r"[a-z]", n) and (re.search(r"[a-z0-9'][A-Z]", n) or "-" in n)
    spelled = {snake(f) for f in functions if "-" not in f}
    table, taken = {}, collections.defaultdict(set)
    every = functions | lemmas | fields
    for n in sorted(every):
        if not wants(n) or n in foreign:
            continue
        if re.search(r"-spec$", n) and n not in functions:
            continue
        table[n] = snake(n).replace("-", "_") if n in fields else respelled(n, spelled)
    table = {a: b for a, b in table.items() if a != b}
    # Names that fall together.
    final = {n: table.get(n, n) for n in every}
    by_new = collections.defaultdict(list)
    for a, b in final.items():
        by_new[b].append(a)
    for b, olds in sorted(by_new.items()):
        if len(olds) > 1:
            keep = [o for o in olds if o in functions and snake(o) != o and "-" not in o and not (b in foreign)] or [o for o in olds if o == b] or [o for o in olds if o in functions and "-" not in o] or [o for o in olds if "-" not in o] or [o for o in olds if o in functions] or [sorted(olds)[0]]
            for o in olds:
                if o != keep[0] and (o in table or o not in foreign):
                    table[o] = b + "_lem"
    # Names that meet another word of some file stay.
    def bare(t):
        """The words of a text that stand behind no dot and in no path of a use line."""
        t = re.sub(r"(?m)(^|\s)--.*$", " ", t)
        t = re.sub(r"(?m)^((?:pub )?use) [^\s{]+?(?=\.\{|\s|$)", r"\1 ", t)
        return {w for w in WORD.findall(re.sub(r"(?<=\S)\." + WORD.pattern, " ", t))}

    words_of = {p: bare(t) for p, t in texts.items()}
    rts = {}
    for c in crates_of(root):
        for p in glob.glob(os.path.join(root, "crates", c, "src", "**", "*.rt"), recursive=True):
            rts[p] = read(p)
    stays = set()
    changed = True
    while changed:
        changed = False
        for p, ws in words_of.items():
            here = [w for w in ws if w in table]
            new = collections.Counter(table[w] for w in here)
            for w in here:
                b = table[w]
                if new[b] > 1 or (b in ws and b not in table):
                    if b + "_lem" not in ws and not b.endswith("_lem") and w in lemmas and not (w in functions or w in fields):
                        table[w] = b + "_lem"
                    else:
                        del table[w]
                        stays.add(w)
                    changed = True
                    break
    fields_kebab = {f for f in fields if f in table and "-" in f}

    def turn_antt(text):
        own, foreign, own_alias, foreign_alias = imports(text)
        out = []
        for line in text.split("\n"):
            code, sep, comment = line, "", ""
            m = re.search(r"(^|\s)--(\s|$)", line)
            if m:
                code, comment = line[: m.start() + len(m[1])], line[m.start() + len(m[1]) :]
            use = re.match(r"(pub )?use ([^\s{]+)", code)
            if use:
                parts = use[2].split(".")
                mine = parts[0] == "Rattle" and parts[1] in OWN
                generated = mine and len(parts) > 3 and parts[-1] in ("Tie", "Goals", "Given", "Statement", "Lts")
                if mine and not generated:
                    h, b, tail = code.partition(".{")
                    if b:
                        code = h + b + WORD.sub(lambda w: table.get(w[0], w[0]), tail)
            else:
                def one(w):
                    s = w.start()
                    if w[0] not in table:
                        return w[0]
                    if s and code[s - 1] == ".":
                        head = re.search(r"([^\s(){}.;,@\"«»`]+)\.$", code[:s])
                        name = head[1] if head else ""
                        if name in own_alias:
                            return table[w[0]]
                        if name in foreign_alias:
                            return w[0]
                        if w[0] in fields and (w[0] in fields_kebab or "-" not in w[0]):
                            return table[w[0]]
                        if "-" in w[0]:
                            return w[0]
                    return table[w[0]]

                code = WORD.sub(one, code)
            comment = WORD.sub(lambda w: table[w[0]] if w[0] in table and "-" not in w[0] else w[0], comment)
            comment = re.sub(r"`([^`]*)`", lambda m: "`" + WORD.sub(lambda w: table.get(w[0], w[0]), m[1]) + "`", comment)
            out.append(code + comment)
        return "\n".join(out)

    def turn_text(text, kebab):
        def one(w):
            return table[w[0]] if w[0] in table and (kebab or "-" not in w[0]) else w[0]

        return WORD.sub(one, text)

    def turn_rt(text):
        def clause(m):
            return WORD.sub(lambda w: table.get(w[0], w[0]), m[0])

        text = re.sub(r"ghost use [^;]*;", clause, text)
        out = []
        for line in text.split("\n"):
            out.append(re.sub(r"(?<![\w\".'])[a-z]\w*[A-Z]\w*|(?<=\.)[a-z]\w*[A-Z]\w*", lambda w: table.get(w[0], w[0]), line) if '"' not in line else line)
        return "\n".join(out)

    def write(p, t, new):
        if t != new:
            with open(p, "w", encoding="utf-8") as f:
                f.write(new)

    def chosen(t):
        return re.sub(r"(?<![\w-])(?:" + "|".join(CHOSEN) + r")(?![\w-])", lambda m: CHOSEN[m[0]], t)

    for p, t in texts.items():
        write(p, t, respell_aliases(chosen(turn_antt(t)), False))
    for p, t in rts.items():
        write(p, t, respell_aliases(chosen(respell_clauses(turn_rt(t), table)), True))
    for p in glob.glob(os.path.join(root, "docs", "**", "*.md"), recursive=True) + [os.path.join(root, "README.md")]:
        t = read(p)
        new = re.sub(r"`([^`\n]+)`", lambda m: "`" + turn_text(m[1], True) + "`", t)
        write(p, t, new)
    if listing:
        with open(listing, "w", encoding="utf-8") as f:
            for a in sorted(table):
                f.write(f"{a}\t{table[a]}\n")
    lem = sum(b.endswith("_lem") and not a.endswith("lem") for a, b in table.items())
    print(f"respell: {len(table)} names, {lem} with _lem, {len(stays)} stay: {' '.join(sorted(stays))}")


if __name__ == "__main__":
    main(sys.argv[1:])
