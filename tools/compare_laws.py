#!/usr/bin/env python3
"""compare_laws.py LANDED TODAY: the laws of two trees of this repository, by the files crates/NAME/proofs/*.antt.

Prints each law of the first tree that the second has with another statement (DIFF), and each that is not in its file any more
(GONE), with the files that have it word for word. A statement counts with the arguments of the modules around it. What laws and
definitions are made of, the fields of records and the constructors of data are not compared; local laws below a `where` and the
folders of functions are left out.
"""
import os
import re
import sys

LAW = re.compile(r"(?:pub )?(?:abbrev |unfoldable )?(?:pub )?([^\s:]+) : (.*)$")


def indent(line):
    return len(line) - len(line.lstrip())


def laws_of(path):
    """The statements of a file by their names."""
    found, around = {}, []
    with open(path, encoding="utf-8") as it:
        lines = it.read().split("\n")
    at = 0
    while at < len(lines):
        line, text = lines[at], lines[at].strip()
        at += 1
        if not text or text.startswith(("--", "use ")):
            continue
        while around and around[-1][0] >= indent(line):
            around.pop()
        while text.startswith("module _ ") and not text.endswith(" where"):
            text, at = f"{text} {lines[at].strip()}", at + 1
        module, law = re.match(r"module _ (.*) where$", text), LAW.match(text)
        if module:
            around.append((indent(line), module[1]))
        elif law and "=" not in law[1]:
            words = [law[2]]
            while at < len(lines) and indent(lines[at]) > indent(line) and not re.match(rf"unfolding |{re.escape(law[1])}(\s|$)", lines[at].strip()):
                words.append(lines[at].strip())
                at += 1
            if all(head is not None for _, head in around):
                found.setdefault(law[1], " ".join([*[head for _, head in around], "⊢", *words]))
        elif text.endswith("where"):
            around.append((indent(line), None))
    return found


def laws_below(root):
    found = {}
    for crate in sorted(os.listdir(f"{root}/crates")):
        folder = f"{root}/crates/{crate}/proofs"
        for name in sorted(os.listdir(folder)) if os.path.isdir(folder) else []:
            if name.endswith(".antt"):
                found.update({(crate, name, law): text for law, text in laws_of(f"{folder}/{name}").items()})
    return found


def main(landed, today):
    before, after = laws_below(landed), laws_below(today)
    for (crate, name, law), text in before.items():
        if (crate, name, law) in after:
            if after[crate, name, law] != text:
                print(f"DIFF {crate} {name} {law}\n  - {text}\n  + {after[crate, name, law]}")
            continue
        same = [f"{it[0]}/{it[1]}" for it, other in after.items() if it[2] == law and other == text]
        print(f"GONE {crate} {name} {law}: {', '.join(same) or 'nowhere'}" + ("" if same else f"\n  - {text}"))
    print(f"{len(before)} laws, {sum(after.get(it) == text for it, text in before.items())} where they were")


if __name__ == "__main__":
    main(*sys.argv[1:])
