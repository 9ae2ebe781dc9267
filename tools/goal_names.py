#!/usr/bin/env python3
"""Spells the names of goals in proofs/F as today's check does: a name of the source keeps its underscores.

usage: python3 tools/goal_names.py        at the top
"""
import glob
import re

LABELS = ["invariant_of", "slice_bounds", "offset_bounds", "overflow_add", "overflow_sub", "overflow_mul", "in_err", "in_ok", "in_default", "push_reserved", "copy_from_slice", "is_empty", "is_some", "is_none", "is_ok", "split_at", "as_slice", "get_or", "way_told", "is_err", "with_capacity", "to_vec", "from_utf8"]
TOKEN = re.compile(r"[^\s(){}.,;:=@\"«»\[\]|λ]+")


def names():
    found = set(LABELS)
    for path in glob.glob("crates/*/src/**/*.rt", recursive=True):
        for line in open(path, encoding="utf-8"):
            if not line.lstrip().startswith("ghost "):
                found |= set(re.findall(r"\b[A-Za-z][A-Za-z0-9]*(?:_[A-Za-z0-9]+)+\b", line.split("//")[0]))
    return found


def main():
    known = sorted(names(), key=len, reverse=True)
    by = {n.replace("_", "-"): n for n in known}
    pattern = re.compile(r"(?<![^-])(" + "|".join(re.escape(k) for k in sorted(by, key=len, reverse=True)) + r")(?![^-])")
    for path in glob.glob("crates/*/proofs/**/*.antt", recursive=True):
        if not re.search(r"/(Answers|Invariants|Proof)\.antt$", path):
            continue
        old = open(path, encoding="utf-8").read()
        text = TOKEN.sub(lambda m: pattern.sub(lambda k: by[k[1]], m[0]) if "-" in m[0] else m[0], old)
        if text != old:
            open(path, "w", encoding="utf-8").write(text)
            print(path)


main()
