#!/usr/bin/env python3
"""Brings the repository's own definitions and lemmas to the spelling of today's Rattle: run once, behind the kit's port.py.

A definition in lower camel case, and a lemma with dashes, become snake case. A name that would fall together with another gets `_lem`. Functions
of src/, fields of its types, strings, inputs and outputs keep their names.

usage: python3 tools/port_names.py [ROOT]   rewrites crates/ below ROOT, and prints each old name with its new one
"""
import collections
import os
import re
import sys

WORD = r"[A-Za-z_«][\w'«»₀-₉ᵣμκ\-]*"
DEF = re.compile(r"^\s*(?:(?:abbrev|unfoldable) )?(?:pub )?(" + WORD + r")(?: \{[^}]*\})* : ")
ANON = re.compile(r"\b(?:tie|goal)\.|\bstatement\b")


def snake(n):
    n = re.sub(r"([a-z0-9])([A-Z])", r"\1_\2", n)
    return n.lower()


def files(root):
    for d, ds, fs in os.walk(os.path.join(root, "crates")):
        ds[:] = sorted(x for x in ds if x != "out")
        for f in sorted(fs):
            if f.endswith((".antt", ".rt", ".edit")):
                yield os.path.join(d, f)


def main(root):
    text = {}
    for f in files(root):
        with open(f, encoding="utf-8") as t:
            text[f] = t.read()
    antt = {f: t for f, t in text.items() if f.endswith(".antt")}
    rust = "\n".join(re.sub(r"//.*", "", t) for f, t in text.items() if f.endswith(".rt"))
    functions = set(re.findall(r"\bfn (\w+)", rust))
    used = collections.Counter(w for t in text.values() for w in re.findall(WORD, t))
    defined, generated = {}, set()
    for f, t in antt.items():
        own = f.count("/proofs/") and len(f.split("/proofs/")[1].split("/")) > 1
        for l in t.split("\n"):
            m = DEF.match(l)
            if not m:
                continue
            n = m.group(1)
            if own and ANON.search(l) and not n.endswith("-spec"):
                generated.add(n)
                continue
            defined.setdefault(n, []).append(f)

    def joined(n):
        return "_".join(snake(p) if re.search(r"[a-z][A-Z]", p) else p for p in n.split("-"))

    new, taken = {}, set(used)
    for n in sorted(defined, key=lambda n: ("-" in n, n)):
        if n in generated:
            continue
        if re.match(r"[a-z]\w*[A-Z]", n) and "-" not in n:
            s = snake(n)
            if s in used and s not in functions:
                s += "_lem"
        elif "-" in n and re.match(r"[A-Za-z]", n):
            s = joined(n)
            if s == n:
                continue
        else:
            continue
        while s in new.values() or (s in taken and s not in functions) or (s in functions and "-" in n):
            s += "_lem"
        new[n] = s
    # a module's other name within one file
    alias = {}
    for f, t in antt.items():
        for a in set(re.findall(r"\bas ([a-z]\w*-[\w-]*)", t)):
            alias.setdefault(f, {})[a] = a.replace("-", "_")
    token = re.compile(WORD)
    for f, t in text.items():
        mine = alias.get(f, {})
        lists = " ".join(re.findall(r"^use [^\n]*\{([^}]*)\}", t, re.M))
        here = {m.group(1) for m in map(DEF.match, t.split("\n")) if m} | set(re.findall(WORD, lists))

        def turn(m, code=True):
            w = m.group(0)
            if w in mine:
                s = mine[w]
                return s + "_mod" if s in here or s in (new.get(x) for x in here) else s
            if w in new and (code or "-" not in w):
                return new[w]
            return w

        lines = []
        for l in t.split("\n"):
            if f.endswith(".antt"):
                at = re.search(r"(^|\s)--(\s|$)", l)
                k = at.start() if at else len(l)
                lines.append(token.sub(turn, l[:k]) + token.sub(lambda m: turn(m, False), l[k:]))
            else:
                lines.append(token.sub(lambda m: turn(m, False), l))
        u = "\n".join(lines)
        if u != t:
            with open(f, "w", encoding="utf-8") as o:
                o.write(u)
    for n in sorted(new):
        print(n, new[n])


if __name__ == "__main__":
    main(sys.argv[1] if len(sys.argv) > 1 else ".")
