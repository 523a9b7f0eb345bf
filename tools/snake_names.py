#!/usr/bin/env python3
"""Turns the repository's own definitions, fields, constructors, laws and local names to snake case.

usage: snake_names.py [--list]      at the top of the repository; --list prints what it would do and writes nothing

A name in camel case that begins with a small letter becomes words joined by '_', and a law's name loses its dashes
for '_'. Names that a file takes from outside the repository, types and the names of the code in src/ stay.
"""
import os
import re
import sys

TOKEN = re.compile(r"[^\s(){}\[\];,.:=λ→«»\"`|/&]+")
CAMEL = re.compile(r"^[a-z][A-Za-z0-9_-]*[A-Z][A-Za-z0-9_-]*'*$")
TOP = re.compile(r"^(?:(?:abbrev|unfoldable|pub|private)\s+)*([^\s(){}:]+)\s*:(?:\s|$)")
FIELD = re.compile(r"^\s+(?:pub\s+)?([^\s(){}:]+)\s*:\s")
USE = re.compile(r"^(?:ghost )?(?:pub )?use ([\w.+'-]+)\.\{([^}]*)\}", re.M)
KEEP = {"κs"}


def files(root, endings):
    for folder, dirs, names in os.walk(os.path.join(root, "crates")):
        dirs[:] = sorted(d for d in dirs if d != "out")
        for n in sorted(names):
            if n.endswith(endings):
                yield os.path.join(folder, n)


def snake(name):
    prime = name[len(name.rstrip("'")):]
    name = name.rstrip("'")
    name = re.sub(r"([a-z0-9])([A-Z])", lambda m: m.group(1) + "_" + m.group(2).lower(), name)
    return name.replace("-", "_") + prime


def main():
    root = "."
    own = {d for d in os.listdir("crates") if os.path.isdir(os.path.join("crates", d))}
    texts = {p: open(p, encoding="utf-8").read() for p in files(root, (".antt", ".rt"))}
    laws, camel = set(), set()
    outside = {}
    for p, t in texts.items():
        if p.endswith(".antt"):
            for line in t.split("\n"):
                m = TOP.match(line)
                if m and "-" in m.group(1).strip("-") and not p.endswith(("/Proof.antt", "/Answers.antt", "/Invariants.antt")):
                    laws.add(m.group(1))
                m = m or FIELD.match(line)
                code = line.split("--")[0]
                for w in TOKEN.findall(code):
                    if CAMEL.match(w):
                        camel.add(w)
        out = set()
        for m in USE.finditer(t):
            head = m.group(1).split(".")
            mine = head[0] == "Rattle" and len(head) > 1 and head[1] in own
            if not mine or "declared" in head:
                for it in m.group(2).split(","):
                    out |= set(it.replace("«", "").replace("»", "").split())
        outside[p] = out
    laws = {n for n in laws if re.match(r"^[A-Za-z0-9_']+(-[A-Za-z0-9_']+)+$", n)}
    # A law that would have a definition's name gets `_lem`.
    known = {snake(n) for n in camel - laws} | {m.group(1) for p, t in texts.items() if p.endswith(".antt") for m in map(TOP.match, t.split("\n")) if m}
    table = {n: snake(n) for n in camel - laws if n not in KEEP and snake(n) != n}
    for n in laws:
        table[n] = snake(n) + ("_lem" if snake(n) in known else "")
    if "--list" in sys.argv:
        fresh = {}
        for a, b in table.items():
            fresh.setdefault(b, []).append(a)
        for b, many in sorted(fresh.items()):
            if len(many) > 1:
                print("together:", many, b)
        for p, t in texts.items():
            here = set(TOKEN.findall(t))
            for a, b in sorted(table.items()):
                if a in here and b in here and a not in outside[p]:
                    print("meets:", p, a, b)
        for a in sorted(camel):
            if any(a in o for o in outside.values()):
                print("outside:", a)
        for a in sorted(laws):
            if any(a in o for o in outside.values()):
                print("outside law:", a, [p for p in texts if a in outside[p]][:3])
        print(len(laws), len(camel), len(table))
        return
    whole = {p: TOKEN for p in texts}
    extra = list(files(root, (".edit",)))
    for p in extra:
        texts[p] = open(p, encoding="utf-8").read()
        outside[p] = set()
    docs = [os.path.join("docs", f) for f in sorted(os.listdir("docs")) if f.endswith(".md")] + ["README.md"]
    for p in docs:
        texts[p] = open(p, encoding="utf-8").read()
        outside[p] = set()
    for p, t in texts.items():
        def one(m):
            w = m.group(0)
            return table[w] if w in table and w not in outside[p] else w
        if p.endswith(".md"):
            new = re.sub(r"`[^`\n]*`", lambda m: TOKEN.sub(one, m.group(0)), t)
        elif p.endswith(".rt"):
            # text of the program stays: strings are not touched
            new = re.sub(r'b?"(?:[^"\\\n]|\\.)*"|' + TOKEN.pattern, lambda m: m.group(0) if '"' in m.group(0) else one(m), t)
        else:
            new = TOKEN.sub(one, t)
        if new != t:
            open(p, "w", encoding="utf-8").write(new)


main()
