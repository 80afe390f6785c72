#!/usr/bin/env python3
"""Brings the project's own ghost names from dashes to the spelling of today's Rattle.

usage: python3 tools/snake_names.py [--dry]     at the top of the repository, once, right after the kit's own scripts

A word (a definition, lemma, record field, constructor or local) goes to snake case: `code-bytes` is `code_bytes`.
A type goes to camel case: `State-is-serial` is `StateIsSerial`. Only names that the repository itself defines are turned, in the
.rt and .antt files of crates/ and in the must-fail edits; goals, steps of the code and the library's names keep their dashes. Code is not touched: a Rust
name has no dash, and a difference is written with spaces. Comments are turned along, since they cite the names.
Names that would fall together are reported, by --dry before anything is written; there were none. It does not look at the library's names.
"""
import os
import re
import sys

WORD = r"[A-Za-z_][A-Za-z0-9_'≤≡]*(?:-[A-Za-z0-9_'≤≡+]+)+"
TOKEN = re.compile(r"(?<![A-Za-z0-9_'≤≡·-])" + WORD + r"(?![A-Za-z0-9_'≤≡·+-])")
HEAD = re.compile(r"^\s*(?:abbrev |unfoldable |irreducible |instance )*(?:pub )?(?:abbrev |unfoldable )?(?:data |record )?(" + WORD + r")\s*(?::|\(|\{|$)")
LET = re.compile(r"\blet (" + WORD + r") (?::|=)")


def files(root):
    for folder, dirs, names in os.walk(os.path.join(root, "crates")):
        dirs[:] = sorted(d for d in dirs if d != "out")
        for name in sorted(names):
            if name.endswith((".rt", ".antt", ".edit")):
                yield os.path.join(folder, name)


def turned(name):
    parts = name.replace("++", "append").split("-")
    if name[0].isupper():
        return parts[0] + "".join(p[:1].upper() + p[1:] for p in parts[1:])
    return "_".join(parts)


def own_names(path, text):
    """The names with a dash that a proof or spec file defines. Answers to goals are not the project's to name."""
    if not path.endswith(".antt"):
        return set()
    goals = set(re.findall(r"^(?:abbrev )?pub (" + WORD + r") : goal\.", text, re.M))
    found = set()
    for line in text.splitlines():
        line = re.sub(r"--.*", "", line)
        head = HEAD.match(line)
        if head and "mod " not in line and not re.match(r"\s*use ", line):
            rest = line[head.end(1):].lstrip()
            if rest.startswith(":") or re.match(r"\s*(?:abbrev |unfoldable )*(?:pub )?(?:data|record) ", line):
                found.add(head.group(1))
        found |= set(LET.findall(line))
    return {n for n in found - goals if not n.startswith(("invariant-loop", "decreases-"))}


def main():
    root = "."
    texts = {p: open(p, encoding="utf-8").read() for p in files(root)}
    # the name of a clause, which stands with a dash in answers alone
    own = {"by-charge"}
    for p, t in texts.items():
        own |= own_names(p, t)
    new = {n: turned(n) for n in sorted(own)}
    taken = {}
    for p, t in texts.items():
        if p.endswith(".antt"):
            for m in re.finditer(r"^\s*(?:abbrev |unfoldable )*(?:pub )?(?:data |record )?([A-Za-z_]\w*)\s*(?::|\()", t, re.M):
                taken.setdefault(m.group(1), p)
    bad = 0
    for old, it in new.items():
        if it in taken:
            print(f"falls together: {old} -> {it}, which {taken[it]} has")
            bad += 1
    back = {}
    for old, it in new.items():
        if it in back:
            print(f"falls together: {old} and {back[it]} -> {it}")
            bad += 1
        back[it] = old
    if "--dry" in sys.argv:
        for old, it in new.items():
            print(f"{old} -> {it}")
    if bad and "--dry" in sys.argv:
        return 1
    if "--dry" in sys.argv:
        return 0
    n = 0
    for p, t in texts.items():
        to = TOKEN.sub(lambda m: new.get(m.group(), m.group()), t)
        if to != t:
            with open(p, "w", encoding="utf-8") as f:
                f.write(to)
            n += 1
    print(f"{len(new)} names turned in {n} files")
    return 0


if __name__ == "__main__":
    raise SystemExit(main())
