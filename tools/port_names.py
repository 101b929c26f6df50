#!/usr/bin/env python3
"""Brings this repository's own antt names to today's spelling, after port.py: words in snake case, a dash only between two names.

usage: tools/port_names.py [--print]      at the top of the repository, once

A name in lower camel case becomes snake case (wordAt: word_at). A dash stays where the words on both of its sides are names (length-placed)
and else becomes _ (placed_fits). Goals and paths that Rattle makes keep their spelling. A name that would fall together with another in a
file keeps its dash. Names of src/, exported names, strings, inputs and outputs are not touched. --print only lists the names.
"""

import collections
import os
import re
import sys

TOKEN = re.compile(r"[^\s(){}\[\];,\"`|@⌜⌝\\]+")
CAMEL = re.compile(r"^[a-z][a-z0-9₀-₉]*(?:[A-Z][a-z0-9₀-₉']*)+'*$")
USE = re.compile(r"^\s*(?:pub )?(?:ghost )?use ([^\s{]+?)\.\{(.*)\}")
DECLARED = re.compile(r"^\s*(?:(?:abbrev|unfoldable|pub)\s+)*([^\s:(){}]+)\s+:\s+(.*)$")
# a type in snake case
ODD = {"all_of": "AllOf", "exits_by": "exits_by_lem"}
SIDES = re.compile(r"^[a-z][\w₀-₉']*(?:-[\w₀-₉'+*≡≤<]+)+$")


def snake(word):
    return re.sub(r"(?<=[a-z0-9₀-₉])([A-Z])", lambda m: "_" + m[1].lower(), re.sub(r"(?<=[A-Z])([A-Z])(?=[A-Z]|$)", lambda m: m[1].lower(), word)).lower()


def files(*ends):
    for folder, dirs, names in os.walk("crates"):
        dirs[:] = sorted(d for d in dirs if d != "out")
        for n in sorted(names):
            if n.endswith(ends):
                yield os.path.join(folder, n)


def in_function(path):
    """Whether a file proves one function, so that goals stand in it."""
    return bool(re.search(r"/(Proof|Answers|Invariants)\.antt$", path))


def own(module):
    return module.startswith("Rattle.") and not module.startswith("Rattle.std.")


def imported(text):
    """The names that a file brings in, by whether they are the repository's own."""
    mine, others = set(), set()
    for line in text.split("\n"):
        m = USE.match(line)
        if m:
            for item in m[2].split(","):
                for name in item.strip().split(" as "):
                    (mine if own(m[1]) else others).add(name.strip())
    return mine, others


def declared(text):
    names = set()
    for line in text.split("\n"):
        m = DECLARED.match(line)
        if m and not line.lstrip().startswith("--") and not re.match(r"(tie|goal|need|given)\.", m[2]) and not re.search(r"[_-]spec$", m[1]):
            names.add(m[1])
    return names


def main(argv):
    texts = {p: open(p, encoding="utf-8").read() for p in files(".antt", ".rt")}
    heads, words, outside = {}, set(), set()
    for p, t in texts.items():
        mine, others = imported(t)
        heads[p] = (declared(t) if p.endswith(".antt") else set(), mine, others)
        outside |= others
        words |= heads[p][0] | others
    words = {w for w in words if "-" not in w}
    mine = set().union(*(h[0] for p, h in heads.items()))
    dashed = {n for n in mine if SIDES.match(n) and n not in outside}

    def respelled(name):
        parts = [snake(p) if CAMEL.match(p) else p for p in name.split("-")]
        text = parts[0]
        for i in range(1, len(parts)):
            both = all(name.split("-")[j] in words for j in (i - 1, i)) or not re.match(r"^[\w']+$", parts[i])
            text += ("-" if both else "_") + parts[i]
        return text

    camel, defined = set(), set()
    for p, t in texts.items():
        code = re.sub(r"(--|//)[^\n]*", "", t)
        camel |= {k for w in TOKEN.findall(code) for k in re.split(r"[.-]", w) if CAMEL.match(k) and k not in outside}
        defined |= {n for n in heads[p][0] if CAMEL.match(n)}
    turn = {n: snake(n) for n in camel} | ODD
    taken = {snake(n) for n in defined & camel}
    # a lemma that would have its function's name gets _lem
    for n in mine - camel:
        new = respelled(n) if n in dashed else n
        if n not in outside and (n in dashed or "_" in n):
            turn[n] = new + "_lem" if new in taken else new
    turn = {a: b for a, b in turn.items() if a != b}

    def here(path, name):
        """Whether a name that is not in camel case is the repository's own in this file."""
        names, brought, others = heads.get(path, (set(), set(), set()))
        if name in others or path.endswith(".rt") and name not in brought:
            return False
        return name in names or name in brought or not in_function(path) and "-" in name

    def new_name(path, k):
        return turn[k] if k in turn and (k in camel or here(path, k)) else k

    # names that would fall together in a file keep their dash
    for p, t in texts.items():
        seen = collections.defaultdict(set)
        for line in re.sub(r"(--|//)[^\n]*", "", t).split("\n"):
            if re.match(r"\s*(ghost |pub )*use ", line):
                line = line[line.find("{"):] if "{" in line else ""
            for w in TOKEN.findall(line):
                for k in w.split(".")[:1]:
                    if not p.endswith(".rt") or k in turn:
                        seen[new_name(p, k)].add(k)
        for new, olds in seen.items():
            if len(olds) > 1:
                for k in sorted(olds):
                    if k in turn and "-" in k:
                        print(f"a lemma: {k}: {new} stands in {p}")
                        turn[k] = respelled(k) + "_lem"
                        olds = olds - {k}
                if len(olds) > 1:
                    print(f"together: {sorted(olds)}: {new} in {p}")
    turn = {a: b for a, b in turn.items() if a != b}
    if "--print" in argv:
        for a, b in sorted(turn.items()):
            print(a, b)
        return

    def line_turned(path, line, comment):
        head = re.match(r"\s*(?:ghost |pub )*use [^{]*", line)
        at = head.end() if head and not comment else 0

        def one(m):
            if m.start() < at:
                return m[0]
            parts = re.split(r"(\.)", m[0])
            for i, k in enumerate(parts):
                base = k.rstrip(":?!")
                if base in camel and base in turn:
                    parts[i] = turn[base] + k[len(base):]
                elif comment:
                    continue
                elif base in turn and here(path, base) and (i == 0 or not in_function(path)):
                    parts[i] = turn[base] + k[len(base):]
                elif "-" in base:
                    # a name of Rattle's own that holds one of ours
                    parts[i] = "-".join(turn[x] if x in camel else x for x in base.split("-")) + k[len(base):]
            return "".join(parts)

        return TOKEN.sub(one, line)

    def text_turned(path, text):
        out = []
        for line in text.split("\n"):
            mark = "//" if path.endswith(".rt") else "--"
            at = line.find(mark)
            if at < 0:
                out.append(line_turned(path, line, False))
            else:
                out.append(line_turned(path, line[:at], False) + line_turned(path, line[at:], True))
        return "\n".join(out)

    for p, t in texts.items():
        new = text_turned(p, t)
        if new != t:
            open(p, "w", encoding="utf-8").write(new)
    for p in files(".edit"):
        t = open(p, encoding="utf-8").read()
        out, target = [], None
        for line in t.split("\n"):
            m = re.match(r"file:\s*(\S+)", line)
            if m:
                target = os.path.join(os.path.dirname(os.path.dirname(p)), m[1])
            if re.match(r"(old|new):", line) and target:
                line = line[:4] + line_turned(target, line[4:], False)
            out.append(line)
        if "\n".join(out) != t:
            open(p, "w", encoding="utf-8").write("\n".join(out))
    pages = ["README.md", "CONTRIBUTING.md"] + [os.path.join(d, f) for d, _, fs in os.walk("docs") for f in fs if f.endswith(".md")]
    for p in pages:
        t = open(p, encoding="utf-8").read()

        def code(m):
            return TOKEN.sub(lambda w: "".join(turn.get(k, k) if k in camel or k in dashed else k for k in re.split(r"(\.)", w[0])), m[0])

        new = re.sub(r"`[^`\n]+`", code, t)
        if new != t:
            open(p, "w", encoding="utf-8").write(new)


if __name__ == "__main__":
    main(sys.argv[1:])
