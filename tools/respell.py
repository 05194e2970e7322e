#!/usr/bin/env python3
"""Respells the definitions and lemmas of this repository as today's Rattle spells names, once, after port.py: words in snake case, types in
camel case. Names of functions, goals that the check names, strings and outputs stay.

usage: python3 tools/respell.py     at the top of the repository

A name with a dash counts as ours where specs/ or a lemma file of proofs/ (not a folder of one function's proof) declares it: as a definition,
a lemma, a field or a constructor. In a folder of one function's proof a name after `c.`, `w.` or `goal.` is the check's, and stays.
"""

import os
import re

WORD = r"[A-Za-z_ℕ][A-Za-z0-9_'ℕ]*(?:-[A-Za-z0-9_'ℕ]+)+"
NAME = r"[A-Za-z_ℕ][A-Za-z0-9_'ℕ]*(?:-[A-Za-z0-9_'ℕ]+)*"
# A plain spelling of these would be another name: the refusals NoneChosen and SeveralChosen, the function in_force.
OTHER = {"None-chosen": "HasNoneChosen", "Several-chosen": "HasSeveralChosen", "in-force": "rules_in_force"}


def files(ending):
    for folder, dirs, names in os.walk("crates"):
        dirs[:] = sorted(d for d in dirs if d != "out")
        for name in sorted(names):
            if name.endswith(ending):
                yield os.path.join(folder, name)


def of_one_function(path):
    parts = path.split(os.sep)
    return parts[2] == "proofs" and len(parts) > 4


def declared(path):
    """The names with a dash that a file of antt declares."""
    with open(path, encoding="utf-8") as f:
        for line in f:
            line = line.split("--")[0]
            if line.startswith("use "):
                continue
            m = re.match(rf"\s*(?:pub )?(?:abbrev |unfoldable )?(?:pub )?((?:{NAME}\s+)*{NAME})\s*:\s", line)
            if m:
                yield from m.group(1).split()
            m = re.match(rf"\s*(?:pub )?(?:record|data) ({NAME})\b", line)
            if m:
                yield m.group(1)


def respelled(name):
    if name in OTHER:
        return OTHER[name]
    if name[0].isupper():
        return "".join(w[0].upper() + w[1:] for w in name.split("-"))
    return name.replace("-", "_")


def main():
    antt = list(files(".antt"))
    ours = sorted({n for p in antt if not of_one_function(p) for n in declared(p) if "-" in n})
    table = {n: respelled(n) for n in ours}
    assert len(set(table.values())) == len(table)
    texts = {p: open(p, encoding="utf-8").read() for p in antt + list(files(".rt"))}
    words = {w for t in texts.values() for w in re.findall(NAME, t)}
    for old, new in table.items():
        if new in words:
            print(f"stands already: {old} -> {new}")
    for path, text in texts.items():
        keep = r"(?<!\bc\.)(?<!\bw\.)(?<!\bgoal\.)" if of_one_function(path) else ""
        new = re.sub(rf"{keep}(?<![A-Za-z0-9_'-]){WORD}(?![A-Za-z0-9_'-])", lambda m: table.get(m.group(), m.group()), text)
        if new != text:
            with open(path, "w", encoding="utf-8") as f:
                f.write(new)
    print(f"{len(table)} names")


main()
