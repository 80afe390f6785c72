#!/usr/bin/env python3
"""Brings the names of goals and steps in proofs/FUNCTION/*.antt to today's spelling: a name of the source keeps its underscores, and the
words of the toolchain are in snake case, as in `returns-in_err-write_part`.

usage: python3 tools/step_names.py     at the top of the repository, once
"""
import os
import re

TOKEN = re.compile(r"[A-Za-z_0-9'≤≡]+(?:-[A-Za-z_0-9'≤≡]+)+")
STD = "copy_from_slice deref_mut index_mut from_residual push_reserved is_empty is_none iter_mut split_at as_slice is_some".split()
WORDS = [("in-ok", "in_ok"), ("in-err", "in_err"), ("in-default", "in_default"), ("overflow-add", "overflow_add"), ("overflow-sub", "overflow_sub"), ("overflow-mul", "overflow_mul"), ("overflow-cast", "overflow_cast"), ("overflow-step", "overflow_step"), ("slice-bounds", "slice_bounds"), ("invariant-of", "invariant_of")]


def main():
    names = set(STD)
    paths = []
    for folder, dirs, found in os.walk("crates"):
        dirs[:] = [d for d in dirs if d != "out"]
        for f in found:
            p = os.path.join(folder, f)
            if f.endswith(".rt"):
                with open(p, encoding="utf-8") as it:
                    text = re.sub(r"//.*|ghost use.*", "", it.read())
                names |= set(re.findall(r"\b[A-Za-z][A-Za-z0-9]*(?:_[A-Za-z0-9]+)+\b", text))
            elif f in ("Answers.antt", "Invariants.antt"):
                paths.append(p)
    pairs = [(n.replace("_", "-"), n) for n in sorted(names, key=len, reverse=True)] + WORDS

    def turned(m):
        t = m.group()
        for old, new in pairs:
            if old in t:
                t = re.sub(r"(?<![A-Za-z0-9_])" + re.escape(old) + r"(?![A-Za-z0-9_])", new, t)
        return t

    for p in paths:
        with open(p, encoding="utf-8") as it:
            text = it.read()
        to = TOKEN.sub(turned, text)
        if to != text:
            with open(p, "w", encoding="utf-8") as it:
                it.write(to)


if __name__ == "__main__":
    main()
