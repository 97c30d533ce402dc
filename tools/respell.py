#!/usr/bin/env python3
"""Brings the names of this repository's own definitions, fields and lemmas to snake case.

usage: python3 tools/respell.py        once, at the top of the repository, right after the toolchain's own script has turned it

A name in camel case (`fieldA`) becomes `field_a`, one with dashes (`size-bytes`) `size_bytes`. Types and modules keep their
names, and so do functions of src/, names that the toolchain makes, and names of the library. Names that would fall
together, or take a name of the library that the same files import, are listed in TOLD and get the name that is given there.
It goes by whole words over crates/, and over the words in backticks of README.md and docs/.
"""

import glob
import os
import re
import sys

WORD = re.compile(r"[^\s(){}.,;:\[\]⌜⌝|`\"]+")
VARIABLE = re.compile(r"(?<![\w.'-])[a-z]+(?:[A-Z][a-z0-9]*)+(?![\w'-])")
DEFINED = re.compile(r"^\s*(?:(?:abbrev|unfoldable|pub|data|record|ruleset)\s+)*([^\s(){}.,;\[\]:|]+)\s*:(?!=)")
TOLD = {
    "bit-or": "bit_or_lem",
    "edge-kind": "edge_kind_lem",
    "edge-record": "edge_record_lem",
    "every-spawn": "every_spawn_lem",
    "function-kind": "function_kind_lem",
    "has-target": "has_target_lem",
    "in-force": "in_force_lem",
    "is-accepted": "is_accepted_lem",
    "is-node": "is_node_lem",
    "is-size": "is_size_lem",
    "is-spawn": "is_spawn_lem",
    "node-kind": "node_kind_lem",
    "node-record": "node_record_lem",
    "of-table": "of_table_lem",
    "safe-by": "safe_by_lem",
    "sizes-by": "sizes_by_lem",
    "sum-at": "sum_at_lem",
    "unsafe-by": "unsafe_by_lem",
}


def snake(name):
    name = re.sub(r"(?<=[a-z0-9])([A-Z])", lambda m: "_" + m.group(1).lower(), name)
    return name.replace("-", "_").replace("′", "'")


def mine(name):
    return bool(re.match(r"^[a-zα-ω][^◌]*$", name)) and (("-" in name) or re.search(r"[A-Z]", name) is not None)


def read(path):
    with open(path, encoding="utf-8") as f:
        return f.read()


def defined(text):
    """The names that a file defines, without the answers to goals and the proofs of functions."""
    found = set()
    for line in text.splitlines():
        m = DEFINED.match(line)
        if not m or not mine(m.group(1)):
            continue
        rest = line[m.end():].strip()
        if rest.startswith(("tie.", "{M : Type 1}")):
            continue
        found.add(m.group(1))
    return found


def imported(text):
    """What a file imports from elsewhere than this repository's crates."""
    found = {}
    for m in re.finditer(r"(?:^|\n)\s*(?:ghost |pub )?use ([^\s{;]+?)\.\{([^}]*)\}", text):
        for n in m.group(2).split(","):
            found[n.split(" as ")[-1].strip()] = m.group(1)
    return found


def own_module(module, crates):
    parts = module.split(".")
    return len(parts) > 1 and parts[0] == "Rattle" and parts[1] in crates


def turn(text, names):
    return WORD.sub(lambda m: names.get(m.group(0), m.group(0)), text)


def told_before(text, plain):
    """Words of a text that the toolchain's script respelled wherever they stand in code, but not here."""
    return {w: snake(w) for w in WORD.findall(text) if mine(w) and snake(w) in plain}


def main():
    crates = sorted(os.listdir("crates"))
    files = sorted(glob.glob("crates/*/specs/**/*.antt", recursive=True) + glob.glob("crates/*/proofs/**/*.antt", recursive=True))
    shared, local = set(), {}
    for p in files:
        names = defined(read(p))
        if "/specs/" in p or os.path.dirname(p).endswith("/proofs"):
            shared |= names
        else:
            local[p] = names
    foreign = {}
    for p in files + sorted(glob.glob("crates/*/src/**/*.rt", recursive=True)):
        for n, module in imported(read(p)).items():
            if not own_module(module, crates):
                foreign.setdefault(n, set()).add(p)
    names = {n: TOLD.get(n, snake(n)) for n in shared}
    new = {}
    for n, s in sorted(names.items()):
        new.setdefault(s, []).append(n)
    plain = set()
    for p in files:
        plain |= {m.group(1) for m in map(DEFINED.match, read(p).splitlines()) if m}
    for s, olds in new.items():
        if len(olds) > 1 or s in plain - set(olds):
            print("fall together:", s, olds, "in place already" if s in plain else "")
        if s in foreign:
            print("takes a name of the library:", s, olds, sorted(foreign[s])[:3])
    for n in sorted(shared & set(foreign)):
        print("also imported from the library:", n, sorted(foreign[n])[:3])
    if "--look" in sys.argv:
        return
    edits = sorted(glob.glob("crates/*/must-fail/*.edit"))
    sources = sorted(glob.glob("crates/*/src/**/*.rt", recursive=True))
    for p in files + sources + edits:
        text = read(p)
        here = dict(names)
        here.update({n: snake(n) for n in local.get(p, ())})
        for n in set(here) & {n for n, m in imported(text).items() if not own_module(m, crates)}:
            del here[n]
        got = turn(text, here)
        if p.endswith(".edit"):
            got = turn(got, told_before(got, plain))
        if p.endswith((".antt", ".edit")):
            got = VARIABLE.sub(lambda m: snake(m.group(0)), got)
        if got != text:
            with open(p, "w", encoding="utf-8") as f:
                f.write(got)
    for p in ["README.md"] + sorted(glob.glob("docs/*.md")):
        text = read(p)
        got = re.sub(r"`[^`\n]+`", lambda m: turn(m.group(0), names | told_before(m.group(0), plain)), text)
        if got != text:
            with open(p, "w", encoding="utf-8") as f:
                f.write(got)


if __name__ == "__main__":
    main()
