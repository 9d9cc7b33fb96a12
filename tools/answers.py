#!/usr/bin/env python3
"""Turns each Proof.antt of an older Rattle, which answers its goals as tie.Need-.., into Invariants.antt and Answers.antt.

usage: tools/answers.py CRATE_FOLDER NAMES.JSON

NAMES.JSON is what `rt check --generated DIR --old-names` writes in the crate. Answers that the check finds alone are left out.
What a line could not be turned for is printed. A Proof.antt that is turned is removed.
"""

import glob
import json
import os
import re
import sys

PATH = re.compile(r"(?<![^\s(){};,@])(?!\u0002)([A-Za-zα-ωκ][^\s(){}.;,@\"«»]*)((?:\.[^\s(){}.;,@\"«»]+)*)")
EASY = {"search rules", "tt", "omega arith"}
plain = lambda s: re.sub(r"[-_]", "", s)


def read(p):
    with open(p, encoding="utf-8") as f:
        return f.read()


def signatures(root):
    """For each crate, function names with their `&mut` parameters and the names of their clauses."""
    out = {}
    for c in os.listdir(os.path.join(root, "crates")):
        for p in glob.glob(os.path.join(root, "crates", c, "src", "**", "*.rt"), recursive=True):
            t = re.sub(r"//[^\n]*", "", read(p))
            for m in re.finditer(r"\bfn (\w+)\s*(?:<[^>{]*>)?\s*\(", t):
                i, d = m.end(), 1
                while d:
                    d += {"(": 1, ")": -1}.get(t[i], 0)
                    i += 1
                params = t[m.end() : i - 1]
                muts = [a or "self" for a, b in re.findall(r"(?:(\w+)\s*:\s*&(?:'\w+ )?mut|(&mut self))", params)]
                j = i
                clauses = {"requires": [], "ensures": []}
                while True:
                    k = re.compile(r"\s*(?:->[^{]*?(?=\s*(?:requires|ensures|\{)))?\s*(requires|ensures)\s*\*?\s*(\w*)\s*\{").match(t, j)
                    if not k:
                        break
                    clauses[k[1]].append(k[2])
                    d, j = 1, k.end()
                    while d:
                        d += {"{": 1, "}": -1}.get(t[j], 0)
                        j += 1
                names = [a or b for a, b in re.findall(r"(?:^|,)\s*(?:(?:mut )?(\w+)\s*:|&?(?:'\w+ )?(?:mut )?(self)\b)", params)]
                out.setdefault((c, m[1]), []).append((muts, clauses, names))
    return out


class Turned:
    def __init__(self, crate, where, names, sigs):
        self.crate, self.where, self.names, self.sigs, self.said = crate, where, names, sigs, []
        self.places = {}
        for i, (old, parent, step, callee, _) in enumerate(names["places"]):
            self.places[old] = (parent, step, callee, names["arms"][i] if i < len(names["arms"]) else None)
        self.needs = {}
        for (old, new), (at, _) in zip(names["needs"], names["asked_at"]):
            self.needs[plain(old)] = (new, at)

    def say(self, text):
        self.said.append(text)

    def chain(self, place):
        while place is not None:
            yield place
            place = self.places[place][0] if place in self.places else None

    def contract(self, callee):
        parts = callee.split("::")
        return (self.sigs.get((parts[0], parts[-1])) or [None])[0]

    def fields(self, callee, rest):
        """The fields of a call's step in today's names."""
        sig = self.contract(callee) if callee else None
        if not sig or not rest:
            return rest
        muts, clauses = sig[:2]
        if rest[0] in ("new", "auto") and len(rest) > 1 and rest[1].isdigit():
            # A parameter by its place: as many 1 as stand before it, and 0.
            k = 1
            while k < len(rest) and rest[k] == "1":
                k += 1
            params = self.names["params"].get(callee, [])
            if k < len(rest) and rest[k] == "0" and k - 1 < len(params):
                return [rest[0], params[k - 1]] + rest[k + 1 :]
        if rest[0] in ("requires", "ensures") and len(rest) > 1 and rest[1].isdigit():
            return self.clause(rest, clauses[rest[0]])
        return rest

    @staticmethod
    def clause(rest, labels):
        """A clause by its name: they were pairs, nested to the right."""
        k = len(labels)
        if k < 2 or not all(labels):
            return rest
        i, at = 0, 1
        while i < k - 1 and at < len(rest) and rest[at] == "1":
            i, at = i + 1, at + 1
        if i < k - 1:
            if at >= len(rest) or rest[at] != "0":
                return rest
            at += 1
        return [rest[0], labels[i]] + rest[at:]

    def path(self, place, parts):
        """The path `parts` of a point in today's names, or a point."""
        try:
            return self.path_from(place, parts)
        except KeyError:
            # Today's proof has fewer points: the step is searched from the goal's own point.
            return self.path_from(self.goal_at, [p for p in parts if p != "before"])

    def path_from(self, place, parts):
        while parts and parts[0] == "before":
            place = (self.places[place][0] if place in self.places else None) or place
            parts = parts[1:]
        if not parts:
            return place, None
        head, rest = parts[0], parts[1:]
        if head == "pre":
            head = "requires"
        if head in ("args", "requires", "ranges", "type_inv", "type-inv", "utf8", "well_formed", "lifetimes"):
            if head == "requires":
                rest = self.fields_own(head, rest)
                return None, ".".join(["c"] + rest)
            k = re.fullmatch(r"t(\d+)", rest[0]) if head == "args" and rest else None
            if k and self.own_params and int(k[1]) <= len(self.own_params) and rest[0] not in self.own_params:
                rest = [self.own_params[int(k[1]) - 1]] + rest[1:]
            return None, ".".join(["c", head.replace("-", "_")] + rest)
        arms = {}
        for at in list(self.chain(place)):
            _, step, callee, arm = self.places[at]
            if arm:
                for field, old, path in arm[2]:
                    arms.setdefault(plain(old), []).append((arm[0], field, path))
        known = {plain(self.places[at][1][0]) for at in self.chain(place)}
        for other in (head, re.sub(r"_lem$", "", head), head.lower(), head.replace("Is", "").lower(), head.split("-")[-1]):
            if plain(other) in known:
                head = other
                break
        for at in self.chain(place):
            _, step, callee, arm = self.places[at]
            if plain(step[0]) == plain(head):
                for name, field, path in sorted(arms.get(plain(head), []), key=lambda it: -len(it[2])):
                    if path and rest[: len(path)] == path:
                        return None, ".".join(["c", name, field] + rest[len(path) :])
                return None, ".".join(["c", step[1]] + self.fields(callee, rest))
        raise KeyError(head)

    @staticmethod
    def bare_not(m):
        opened = m[0].startswith("(")
        if opened and m[2]:
            return m[1]
        return ("(" if opened else "") + m[1] + m[2]

    def callee_of(self, step):
        for at in self.chain(self.goal_at):
            if at in self.places and self.places[at][1][1] == step:
                return self.places[at][2]
        return None

    def clauses_of(self, need):
        """The names of the clauses that a goal asks for, where there are several."""
        if need == "returns" or re.match(r"returns-", need):
            labels = self.own[1]["ensures"] if self.own else []
        else:
            m = re.match(r"(.*?)-requires(-.*)?$", need)
            labels = []
            if m:
                for _, step, callee, _ in self.places.values():
                    if callee and (plain(step[1]) == plain(m[1]) or plain(step[0]) == plain(m[1]) or callee.split("::")[-1] == m[1]):
                        sig = self.contract(callee)
                        labels = sig[1]["requires"] if sig else []
                        break
        return labels if len(labels) > 1 and all(labels) else []

    def as_record(self, need, text):
        """A tuple at the end of an answer is a record of the clauses' names."""
        labels = self.clauses_of(need)
        s = text.rstrip()
        if not labels:
            return text
        done = self.tuple_record(s, labels, text)
        if done is not text:
            return done
        # The last term, where a lemma gives all clauses as pairs.
        depth, start = 0, 0
        for m in re.finditer(r"[(){}\[\]]|(?<![^\s(])in(?=\s)", s):
            if m[0] == "in":
                if depth == 0:
                    start = m.end()
            else:
                depth += 1 if m[0] in "({[" else -1
        tail = s[start:].strip()
        if re.match(r"(absurd|rw|subst|simp|cc|search|omega|elim|grind|tt|record|refl)\b|\(", tail) or not re.match(r"[a-z]", tail):
            return text
        fields = "; ".join(f"{a} = both." + ".".join(["1"] * i + (["0"] if i < len(labels) - 1 else [])) for i, a in enumerate(labels))
        return s[:start] + ("\n    " if start else "\n    ") + f"let both = {tail} in\n    record {{ {fields} }}"

    def tuple_record(self, s, labels, text):
        if not s.endswith(")"):
            return text
        depth, i = 0, len(s) - 1
        while i >= 0:
            depth += {")": 1, "(": -1}.get(s[i], 0)
            if depth == 0:
                break
            i -= 1
        before = s[:i].rstrip()
        if before and not re.search(r"(\bin|=|,|\u21a6)$", before):
            return text

        def split(inner):
            parts, depth, last = [], 0, 0
            for k, ch in enumerate(inner):
                depth += {"(": 1, ")": -1, "{": 1, "}": -1, "[": 1, "]": -1}.get(ch, 0)
                if ch == "," and depth == 0:
                    parts.append(inner[last:k].strip())
                    last = k + 1
            tail = inner[last:].strip()
            return parts + [tail] if tail else parts

        parts = split(s[i + 1 : len(s) - 1])
        while len(parts) < len(labels) and parts and parts[-1].startswith("(") and parts[-1].endswith(")"):
            more = split(parts[-1][1:-1])
            if len(more) < 2:
                break
            parts = parts[:-1] + more
        if len(parts) != len(labels):
            return text
        fields = "; ".join(f"{a} = {b}" for a, b in zip(labels, parts))
        return s[:i] + "record { " + fields + " }"

    def fields_own(self, head, rest):
        return self.clause([head] + rest, self.own[1][head] if self.own else [])

    def body(self, text, place, need):
        env, steps = {"c": place}, {}
        self.goal_at = place
        out = []
        for line in text.split("\n"):
            # An alias of a point of the code goes.
            while True:
                m = re.search(r"\blet (\S+) = ([a-zA-Z][^\s(){}.;,]*)((?:\.[^\s(){}.;,]+)*) in(?=\s|$)", line)
                if not m or m[2] not in env:
                    break
                try:
                    at, new = self.path(env[m[2]], [p for p in m[3].split(".") if p])
                except KeyError as e:
                    self.say(f"{need}: no step {e} in {m[0]}")
                    env.pop(m[1], None)
                    line = line[: m.start()] + line[m.start() :].replace("let ", "let\u0001", 1)
                    continue
                if new is None:
                    env[m[1]] = at
                    line = line[: m.start()] + line[m.end() :].lstrip()
                    if not line.strip():
                        line = None
                        break
                else:
                    env.pop(m[1], None)
                    steps.pop(m[1], None)
                    step = new.split(".")
                    if new == "c.args":
                        steps[m[1]] = "args"
                    elif len(step) == 3 and step[2] in ("ensures", "requires") and self.contract(self.callee_of(step[1]) or "") or new == "c.requires":
                        sig = self.own if new == "c.requires" else self.contract(self.callee_of(step[1]))
                        steps[m[1]] = ("clauses", sig[1][step[-1]] if sig else [])
                    elif len(step) == 2:
                        steps[m[1]] = self.callee_of(step[1])
                    line = line[: m.start()] + f"let\u0001{m[1]} = \u0002{new} in" + line[m.end() :]
            if line is None:
                continue

            def one(m):
                if m[1] in steps and m[1] not in env:
                    parts = [p for p in m[2].split(".") if p]
                    if steps[m[1]] == "args":
                        k = re.fullmatch(r"t(\d+)", parts[0]) if parts else None
                        if k and int(k[1]) <= len(self.own_params) and parts[0] not in self.own_params:
                            parts = [self.own_params[int(k[1]) - 1]] + parts[1:]
                        return "\u0002" + ".".join([m[1]] + parts)
                    if isinstance(steps[m[1]], tuple):
                        return "\u0002" + ".".join([m[1]] + self.clause(["ensures"] + parts, steps[m[1]][1])[1:])
                    return "\u0002" + ".".join([m[1]] + self.fields(steps[m[1]], parts))
                if m[1] not in env:
                    return m[0]
                parts = [p for p in m[2].split(".") if p]
                try:
                    at, new = self.path(env[m[1]], parts)
                except KeyError as e:
                    self.say(f"{need}: no step {e} in {m[0]}")
                    return m[0]
                if new is None:
                    if m[1] == "c" and not parts:
                        return "c"
                    self.say(f"{need}: a point of the code stands alone: {m[0]}")
                    return m[0]
                return "\u0002" + new

            line = re.sub(r"\blet ([^\s:=]+)( : | = )", lambda m: f"let\u0001{m[1]}{m[2]}", line)
            pieces = re.split(r"(let\u0001\S+)", line)
            line = "".join(p if p.startswith("let\u0001") else PATH.sub(one, p) for p in pieces)
            line = line.replace("\u0001", " ").replace("\u0002", "")
            # A test of `not b` says what b is.
            line = re.sub(r"(?<![^\s(])\(?not[-_](?:true|false) (?:_|[^\s()]+|\((?:[^()]|\([^()]*\))*\)) ([^\s()]*\bif-not-[^\s()]*)(\)?)", self.bare_not, line)
            out.append(line)
        return "\n".join(out)

    def substituted(self, text, table):
        """The text with the variables' new names, but for those that a binder takes, up to the end of its parentheses."""
        out, depth, bound, i = [], 0, [], 0
        binder = re.compile(r"λ (?:\((\S+) : |([^\s(.]+(?: [^\s(.]+)*)\.(?=\s))|\((\S+) : (?=[^()]*\) →)|let (\S+) (?=[:=])")
        while i < len(text):
            b = binder.match(text, i)
            if b:
                names = (b[1] or b[2] or b[3] or b[4]).split()
                opens = b[0].count("(")
                bound += [(n, depth) for n in names if n in table]
                out.append(b[0])
                depth += opens
                # The binder's own parenthesis closes before its scope.
                if opens:
                    k, d = b.end(), 1
                    while d:
                        d += {"(": 1, ")": -1}.get(text[k], 0)
                        k += 1
                    out.append(self.substituted(text[b.end() : k - 1], {a: v for a, v in table.items() if a not in [n for n, _ in bound]}) + ")")
                    depth -= 1
                    i = k
                else:
                    i = b.end()
                continue
            k = PATH.match(text, i)
            if k:
                free = k[1] in table and k[1] not in [n for n, _ in bound]
                out.append(table[k[1]] + k[2] if free else k[0])
                i = k.end()
                continue
            depth += {"(": 1, ")": -1}.get(text[i], 0)
            if text[i] == ")":
                bound = [(n, d) for n, d in bound if d <= depth]
            out.append(text[i])
            i += 1
        return "".join(out)

    def invariant(self, kind, loop, text):
        """The lines of an invariant or a measure with l for the variables."""
        m = re.match(r"\S+((?: [^\s=]+)*) =((?:.|\n)*)$", text)
        params = m[1].split()
        old_vars = None
        for (old, new), variables in self.names["loops"]:
            if plain(old) == plain(loop):
                old_vars, new_name, index = variables, new, self.names["loops"].index([[old, new], variables])
        changed = self.names["changed"][index]
        want = []
        for v, ch in zip(old_vars, changed):
            want.append(f"l.initial.{v}" if ch else f"l.{v}")
        want += [f"l.{v}" for v, ch in zip(old_vars, changed) if ch]
        if len(want) != len(params):
            self.say(f"{kind}-{loop}: {len(params)} variables and not {len(want)}: {params} {want}")
        table = {p: w for p, w in zip(params, want) if not p.startswith("_")}
        body = self.substituted(m[2], table)
        return f"abbrev pub {kind}-{new_name} : goal.{kind}-{new_name}\n{kind}-{new_name} l ={body}"


def blocks(text):
    """The comment at the head, the use lines, and the declarations."""
    lines = text.split("\n")
    i, head, uses, decls = 0, [], [], []
    while i < len(lines) and (lines[i].startswith("--") or not lines[i].strip()):
        if lines[i].strip():
            head.append(lines[i])
        i += 1
    while i < len(lines) and (lines[i].startswith(("use ", "pub use ")) or not lines[i].strip()):
        if lines[i].strip():
            uses.append(lines[i])
        i += 1
    current = []
    for line in lines[i:]:
        if not line.strip():
            if current:
                decls.append(current)
                current = []
        else:
            current.append(line)
    if current:
        decls.append(current)
    return head, uses, decls


def turn(crate, folder, names, sigs):
    """Answers and invariants of one function's old proof."""
    key = None
    rel = os.path.relpath(folder, os.path.join(crate, "proofs"))
    name = os.path.basename(os.path.abspath(crate))
    key = f"Rattle-{name}-proofs.{rel.replace(os.sep, '.')}.Lts"
    if key not in names:
        print(f"{folder}: no {key}")
        return
    t = Turned(name, rel, names[key], sigs)
    t.own_params = []
    t.own = (sigs.get((name, rel.split(os.sep)[-1].lstrip("+"))) or [None])[0]
    t.own_params = t.own[2] if t.own else []
    head, uses, decls = blocks(read(os.path.join(folder, "Proof.antt")))
    path = f"Rattle.{name}.proofs.{rel.replace(os.sep, '.')}"
    uses = [u for u in uses if f"{path}.Tie" not in u and f"{path}.Statement" not in u]
    invariants, answers, helpers = [], [], []
    goals, whole = {}, "\n".join("\n".join(d[1:]) for d in decls if not re.search(r"[_-]spec :", d[0]))
    for d in decls:
        m = re.match(r"(?:pub )?(\S+) : tie\.Need-(\S+?)( |$)", [l for l in d if not l.startswith("--")][0] if [l for l in d if not l.startswith("--")] else "")
        if m and plain(m[2]) in t.needs and len(re.findall(rf"(?<![^\s(){{}};,]){re.escape(m[1])}(?![^\s(){{}};,])", whole)) > 1:
            goals[m[1]] = t.needs[plain(m[2])][0]
    for d in decls:
        comments = [l for l in d if l.startswith("--")]
        d = [l for l in d if not l.startswith("--")]
        if not d:
            helpers.append("\n".join(comments))
            continue
        m = re.match(r"(abbrev )?(?:pub )?(\S+) : (.*)$", d[0])
        if not m:
            helpers.append("\n".join(comments + d))
            continue
        typed = m[3]
        if re.search(r"[_-]spec$", m[2]) and "statement" in typed:
            continue
        k = re.match(r"tie\.(invariant|decreases)-(\S+)$", typed)
        if k:
            invariants.append("\n".join(comments) + ("\n" if comments else "") + t.invariant(k[1], k[2], "\n".join(d[1:])))
            continue
        k = re.match(r"tie\.Need-(\S+)( |$)", typed)
        if not k:
            helpers.append("\n".join(comments + d))
            continue
        if plain(k[1]) not in t.needs:
            short = [n for n in t.needs if plain(re.sub(r"^overflow-|^slice-bounds-|^nonzero-", "", k[1])) == n]
            if plain(re.sub(r"^slice-bounds-", "part-", k[1])) in t.needs:
                short = [plain(re.sub(r"^slice-bounds-", "part-", k[1]))]
            if not short:
                t.say(f"no goal {k[1]}: {' '.join(n for n, _ in t.names['needs'])[:300]}")
                continue
            need, at = t.needs[short[0]]
        else:
            need, at = t.needs[plain(k[1])]
        rest = d[1:]
        unfolding = []
        while rest and rest[0].startswith("unfolding"):
            unfolding.append(rest[0])
            rest = rest[1:]
        body = "\n".join(rest)
        b = re.match(r"\S+ (\S+)(?: κs)?((?: [^\s=]+)*) =\s?((?:.|\n)*)$", body)
        if not b:
            t.say(f"{need}: cannot read {body[:60]}")
            continue
        if b[3].strip() in EASY and not unfolding and m[2] not in goals:
            continue
        text = t.body(b[3], at, need) if b[1] == "c" else b[3]
        for a, g in goals.items():
            text = re.sub(rf"(?<![^\s(){{}};,]){re.escape(a)}(?![^\s(){{}};,.])", g, text)
        text = t.as_record(need, text)
        text = text.lstrip(" ") if not text.startswith("\n") else text
        lead = "" if text.startswith("\n") else " "
        if "\n" in text and lead:
            lead = "\n    "
        answers.append("\n".join(comments + [f"pub {need} : goal.{need}"] + unfolding + [f"{need} {b[1]}{b[2]} ={lead}{text}"]))
    out = {}
    shared = []
    for h in list(helpers):
        m = re.match(r"(?:--[^\n]*\n)*((?:abbrev |unfoldable |pub )*)(\S+) :", h)
        if m and any(re.search(rf"(?<![^\s(){{}};,]){re.escape(m[2])}(?![^\s(){{}};,.])", v) for v in invariants):
            helpers.remove(h)
            shared.append(m[2])
            at = h.index(m[1] + m[2] + " :")
            marks = m[1] if "pub " in m[1] else m[1] + "pub "
            invariants.insert(len(shared) - 1, h[:at] + marks + h[at + len(m[1]) :])
    if shared and (answers or helpers):
        uses_answers = uses + [f"use {path}.Invariants.{{{', '.join(shared)}}}"]
    else:
        uses_answers = uses
    if invariants:
        out["Invariants.antt"] = "\n".join(head + uses + [f"use {path}.Given as goal", ""]) + "\n" + "\n\n".join(invariants) + "\n"
    if answers or helpers:
        out["Answers.antt"] = "\n".join(head + uses_answers + [f"use {path}.Goals as goal", ""]) + "\n" + "\n\n".join(helpers + answers) + "\n"
    for file, text in out.items():
        with open(os.path.join(folder, file), "w", encoding="utf-8") as f:
            f.write(text)
    os.remove(os.path.join(folder, "Proof.antt"))
    if not os.listdir(folder):
        os.rmdir(folder)
    for s in t.said:
        print(f"{name}/{rel}: {s}")


def main(crate, listing):
    names = json.load(open(listing, encoding="utf-8"))
    root = os.path.join(os.path.abspath(crate), "..", "..")
    sigs = signatures(root)
    for p in sorted(glob.glob(os.path.join(crate, "proofs", "**", "Proof.antt"), recursive=True)):
        turn(crate, os.path.dirname(p), names, sigs)


if __name__ == "__main__":
    main(*sys.argv[1:])
