#!/usr/bin/env python3
"""Brings this repository's own definitions and lemmas to snake case, and its types to camel case.

usage: python3 tools/respell.py        at the top, once, right after the kit's port.py

Names of src/, of goals and of local variables stay. Says what would fall together, and writes nothing then.
"""
import collections
import glob
import re
import sys

DEFINED = re.compile(r"^(\s*)(?:(?:abbrev|pub|unfoldable)\s+)*(?:record\s+|data\s+)?([^\s(){}.,;:=λ@\"]+)\s*(?:\((?:[^()]|\([^()]*\))*\)\s*|\{[^}]*\}\s*)*:\s")
ANSWERED = re.compile(r"^\s*(?:(?:abbrev|pub)\s+)*(\S+)\s*:\s*(?:goal|given)\.")
TOKEN = re.compile(r"[^\s(){}.,;:=@\"«»\[\]|λ]+")


def texts(ending):
    return sorted(f for f in glob.glob("crates/**/*" + ending, recursive=True) if "/out/" not in f)


def defined():
    names = set()
    for path in texts(".antt"):
        lines = open(path, encoding="utf-8").read().split("\n")
        answers = {m[1] for m in map(ANSWERED.match, lines) if m}
        for m in filter(None, map(DEFINED.match, lines)):
            if m[2] not in answers and re.match(r"[A-Za-z]", m[2]):
                names.add(m[2])
    return names


def answered():
    return {m[1] for path in texts(".antt") for m in map(ANSWERED.match, open(path, encoding="utf-8")) if m}


def respelled(name):
    if re.match(r"[A-Z]-", name):
        return name[0].lower() + name[1:].replace("-", "_")
    if name[0].isupper():
        return "".join(part[0].upper() + part[1:] for part in name.split("-"))
    name = name.replace("getD", "get_or").replace("-", "_")
    return re.sub(r"(?<=[a-z])([A-Z])", lambda m: "_" + m[1].lower(), name).replace("_E", "_e")


def turn(text, new, comment):
    out = []
    for line in text.split("\n"):
        code, mark, said = line.partition(comment)
        if comment == "--" and mark and code and not code.endswith(" "):
            code, mark, said = line, "", ""
        out.append(TOKEN.sub(lambda m: new.get(m[0], m[0]), code) + mark + said)
    return "\n".join(out)


def main():
    names = defined() - answered()
    new = {n: respelled(n) for n in names}
    old = {n for n, to in new.items() if n == to}
    together = collections.defaultdict(set)
    for n, to in new.items():
        together[to].add(n)
    clash = [sorted(ns) for ns in together.values() if len(ns) > 1]
    if clash:
        print("these would fall together:", clash)
        return 1
    new = {n: to for n, to in new.items() if n not in old}
    for path in texts(".antt") + texts(".rt"):
        old = open(path, encoding="utf-8").read()
        text = turn(old, new, "--" if path.endswith(".antt") else "//")
        if text != old:
            open(path, "w", encoding="utf-8").write(text)
    print(len(new), "names respelled")
    return 0


sys.exit(main())
