#!/usr/bin/env python3
"""Spells the repository's own definitions and lemmas as the library spells its own.

usage: python3 tools/spell_names.py [--show]      at the top of the repository, once, after the kit's own port script

Types are in upper camel case, everything else in snake case. A dash stays where it joins the names of two functions, as in
`length-drop`. Names that the checker makes (the goals of a proof) are left alone, and so are strings and the text of tests.
With --show it prints old and new names and changes nothing. It stops where two names would fall together.
"""
import os
import re
import sys

NAME = r"[A-Za-zμ][A-Za-z0-9_'′μ₀-₉-]*"
TOKEN = re.compile(rf"(?<![\w'′-]){NAME}")
DECLARED = re.compile(rf"^\s*(?:(?:abbrev|unfoldable|pub|record|data)\s+)*({NAME})\s+(?:[({{:]|:)")
# functions of the library whose names lemmas are built of
LIBRARY = {"length", "take", "drop", "replicate", "reverse", "append", "map", "cond", "set", "get_or", "set_second"}


def files(ending):
    for folder, dirs, names in os.walk("crates"):
        dirs[:] = sorted(d for d in dirs if d != "out")
        for n in sorted(names):
            if n.endswith(ending):
                yield os.path.join(folder, n)


def read(p):
    with open(p, encoding="utf-8") as f:
        return f.read()


def main(show):
    antt = {p: read(p) for p in files(".antt")}
    rt = {p: read(p) for p in files(".rt")}
    goals = set()
    for t in antt.values():
        goals |= set(re.findall(rf"goal\.({NAME})", t))
    declared, functions = {}, set()
    for p, t in antt.items():
        for line in t.splitlines():
            m = DECLARED.match(line)
            if m and m[1] not in goals and not line.lstrip().startswith(("use ", "let ", "--")):
                declared.setdefault(m[1], set()).add(p)
                if "/specs/" in p and re.match(r"\s*abbrev", line):
                    functions.add(m[1])
    used, source = set(), set()
    for t in antt.values():
        used |= set(TOKEN.findall(re.sub(r"--.*", "", t)))
    # a definition may have the name of the function that answers it: they stand in different modules
    for t in rt.values():
        source |= set(re.findall(r"\bfn (\w+)", t))

    def spelled(name):
        parts = name.split("-")
        if name[0].isupper():
            return "".join(q[:1].upper() + q[1:] for q in re.split("[-_]", name))
        if name in functions:
            return "_".join(parts)
        known = {f.replace("-", "_") for f in functions} | LIBRARY
        out, i = parts[0], 1
        while i < len(parts):
            rest = [("_".join(parts[i:j]), j) for j in range(len(parts), i, -1)]
            joined = next(((r, j) for r, j in rest if r in known), None)
            if out in known and joined and joined[1] == len(parts):
                out, i = out + "-" + joined[0], joined[1]
            else:
                out, i = out + "_" + parts[i], i + 1
        return out

    new = {n: spelled(n) for n in declared if ("-" in n or (n[0].isupper() and "_" in n)) and spelled(n) != n}
    fail = False
    back = {}
    for n, m in sorted(new.items()):
        if m in back or (m in used and m not in new and (m in declared or m not in source)):
            print(f"falls together: {n} and {back.get(m, m)} as {m}: {sorted(declared[n])} {sorted(declared.get(m, set()))}")
            fail = True
        back[m] = n
    if show:
        for n, m in sorted(new.items()):
            print(n, m)
        return int(fail)
    if fail:
        return 1

    def turn(t):
        return TOKEN.sub(lambda m: new.get(m[0], m[0]), t)

    def turn_rt(t):
        # strings and comments keep their words
        parts = re.split(r'("(?:[^"\\]|\\.)*"|//[^\n]*)', t)
        return "".join(q if i % 2 else turn(q) for i, q in enumerate(parts))

    for p, t in antt.items():
        u = "\n".join(l if l.lstrip().startswith("--") else turn(l) for l in t.split("\n"))
        if u != t:
            with open(p, "w", encoding="utf-8") as f:
                f.write(u)
    for p, t in rt.items():
        u = turn_rt(t)
        if u != t:
            with open(p, "w", encoding="utf-8") as f:
                f.write(u)
    for p in ["README.md"] + [os.path.join("docs", n) for n in sorted(os.listdir("docs")) if n.endswith(".md")]:
        t = read(p)
        u = re.sub(r"`([^`\n]+)`", lambda m: "`" + (new.get(m[1], m[1])) + "`", t)
        if u != t:
            with open(p, "w", encoding="utf-8") as f:
                f.write(u)
    print(len(new), "names respelled")
    return 0


if __name__ == "__main__":
    raise SystemExit(main("--show" in sys.argv))
