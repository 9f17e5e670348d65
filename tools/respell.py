#!/usr/bin/env python3
"""Respells the names that the crates' specs/ and proofs/ define, as today's Rattle spells names.

usage: python3 tools/respell.py        at the top of the repository, once, after /opt/rattle/port/port.py

A word is in snake case, and a type or a fact in camel case: `graph-of` becomes `graph_of`, `Cost-at` and
`exact-sum`, which are facts, become `CostAt` and `ExactSum`. A lemma that begins with a type's name keeps the dash
behind it, as `All-push`. Names of the library, names that Rattle makes (goals, steps, loops), names of src/,
strings and comments of src/ stay. It stops, with nothing written, where two names would fall together.
"""

import os
import re
import sys

ROOT = "crates"
TOKEN = re.compile(r"[^\s(){}\[\],;.:|\"]+")
DASH = re.compile(r"(?<=[A-Za-z0-9'\u2124])-(?=[A-Za-z0-9'\u2124])")
KEYS = r"(?:(?:abbrev|unfoldable|pub|data|record|ruleset)\s+)*"
MADE = re.compile(r"^(loop|in|if|then|else|returns|invariant|decreases|overflow|bounds|slice_bounds|match|ghosts|offset_bounds|nonzero_\w+)-")

# Own words that begin as names that Rattle makes.
OWN = {"in-numbers", "in-time", "in-order", "in-range", "if-so"}

# Facts whose old name has no dash: the new name, and the module that defines it.
FACTS = {
    "at_most": ("AtMost", "Rattle.worth.specs.Says"),
    "below": ("Below", "Rattle.worth.specs.Says"),
    "stood": ("StoodIn", "Rattle.paths.specs.Bids"),
}


def files(ends):
    for folder, dirs, names in os.walk(ROOT):
        dirs[:] = sorted(d for d in dirs if d != "out")
        for name in sorted(names):
            if name.endswith(ends):
                yield os.path.join(folder, name)


def text_of(path):
    with open(path, encoding="utf-8") as f:
        return f.read()


def bare(line):
    """The line without its comment."""
    return re.split(r"(?:^|\s)--(?:\s|$)", line)[0]


def imported(text):
    """The names that a file takes from elsewhere than the repository's crates."""
    own = {c for c in os.listdir(ROOT)}
    names = set()
    for path, items in re.findall(r"(?m)^(?:ghost )?use ([\w.\u00b7]+)\.\{([^}]*)\}", text):
        parts = path.split(".")
        if not (parts[0] == "Rattle" and len(parts) > 1 and parts[1] in own):
            names |= {i.split(" as ")[0].strip() for i in items.split(",")}
    return names


def camel(name):
    return "".join(p[:1].upper() + p[1:] for p in DASH.split(name))


def definitions():
    """Own names with a dash, each with whether it is a fact, and the names that begin as a type."""
    facts, words = set(), set()
    for path in files(".antt"):
        lines = [bare(l) for l in text_of(path).splitlines()]
        for line in lines:
            m = re.match(r"\s*" + KEYS + r"([^\s(){}\[\],;:.|]+)((?:\s+[({].*?[)}])*)\s+:\s(.*)", line)
            if m and not re.match(r"\s*(let|module|elim)\b", line):
                name, what = m.group(1), m.group(3).strip()
                if not what.startswith("goal."):
                    is_fact = bool(re.search(r"Type [01](\s+where)?$", what))
                    (facts if is_fact else words).add(name)
            for name in re.findall(r"[({]((?:[^\s(){}\[\],;:.|]+\s+)+):", line):
                words |= set(name.split())
            words |= set(re.findall(r"\blet ([^\s(){}\[\],;:.|]+)\s*[:=]", line))
            for name in re.findall(r"\u03bb ((?:[^\s(){}\[\],;:.|]+\s*)+)\.", line):
                words |= set(name.split())
    facts = {n for n in facts if DASH.search(n)}
    words = {n for n in words if DASH.search(n)} - facts
    return facts, words


def table():
    facts, words = definitions()
    turn = {n: camel(n) for n in facts}
    for n in words:
        if MADE.match(n) and n not in OWN:
            continue
        if n[:1].isupper():
            head, rest = DASH.split(n, 1)
            turn[n] = head + "-" + DASH.sub("_", rest)
        else:
            turn[n] = DASH.sub("_", n)
    return {a: b for a, b in turn.items() if a != b}


def respell(text, turn, rust):
    foreign = imported(text)
    local = {}
    for old, (new, module) in FACTS.items():
        here = re.search(r"(?m)^(?:ghost )?use " + re.escape(module) + r"\.\{([^}]*)\}", text)
        if here and old in [i.strip() for i in here.group(1).split(",")] or re.search(r"(?m)^\s*abbrev pub " + old + r" : .*Type 0$", text):
            local[old] = new

    def word(part, at, m):
        t = m.group(0)
        before = part[: m.start()]
        dotted = before.endswith(".")
        if t in foreign:
            return t
        if re.search(r"\bgoal\.$", before):
            return t
        if t in local and not dotted and not re.search(r"\bpub $", before) and not re.match(r"\s*=", part[m.end():]):
            return local[t]
        if t in local and re.search(r"\babbrev pub $", before):
            return local[t]
        return turn.get(t, t)

    out = []
    for line in text.splitlines(keepends=True):
        if rust:
            # strings and comments stay
            parts = re.split(r'("(?:[^"\\]|\\.)*"|//.*)', line)
            for i in range(0, len(parts), 2):
                p = parts[i]
                parts[i] = TOKEN.sub(lambda m: word(p, i, m), p)
            out.append("".join(parts))
        else:
            out.append(TOKEN.sub(lambda m: word(line, 0, m), line))
    return "".join(out)


def main():
    turn = table()
    back = {}
    for a, b in turn.items():
        back.setdefault(b, []).append(a)
    bad = [v for v in back.values() if len(v) > 1]
    used = set()
    for path in files((".antt", ".rt")):
        for line in text_of(path).splitlines():
            used |= set(TOKEN.findall(line))
    clash = sorted((a, b) for a, b in turn.items() if b in used)
    if "--list" in sys.argv:
        for a, b in sorted(turn.items()):
            print(a, b)
    if bad:
        sys.exit(f"names fall together: {bad}")
    print("new names that stand already, read these:", clash, file=sys.stderr)
    if "--list" in sys.argv:
        return
    for path in files((".antt", ".rt", ".edit")):
        text = text_of(path)
        new = respell(text, turn, not path.endswith(".antt"))
        if new != text:
            with open(path, "w", encoding="utf-8") as f:
                f.write(new)


main()
