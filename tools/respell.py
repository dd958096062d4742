#!/usr/bin/env python3
"""Brings this repository's own names in specs/ and proofs/ to the spelling of the library.

usage: python3 tools/respell.py [--list]      at the top of the repository

Functions, lemmas and fields are in snake case, types in upper camel case. A name is respelt where the repository
declares it, and everywhere it is cited: in specs/, in proofs/ and in the clauses of src/. Names that Rattle makes
(of goals and invariants), names of the library and names of src/ stay. --list prints the pairs and changes nothing.
It stops, with nothing changed, where two names would fall together.
"""

import os
import re
import sys

SEPARATORS = r"\s(){}\[\];,.:λ=→↦|⊢"
TOKEN = re.compile(r"(?<![^%s])[^%s]+(?![^%s])" % (SEPARATORS, SEPARATORS, SEPARATORS))
DECLARED = re.compile(r"^\s*(?:(?:pub|abbrev|unfoldable|irreducible) )*(?:(?:record|data) )?([^%s]+(?: [^%s]+)*) ?(?:[({][^)}]*[)}] ?)*:(?: |$)" % (SEPARATORS, SEPARATORS))
IMPORT = re.compile(r"use (Rattle\.\w+|mathlib|lib|Prim)[\w.]*\.\{([^}]*)\}")

# Names that are not told by their dashes alone.
OTHERS = {
    "isSheet": "is_sheet",
    "bit-or": "bit_of_or",
    "ap-le": "ap_le",
    "pivot-stays": "pivot_stays",
    "joins-well": "joins_well",
    "evS": "ev_series",
    "evS-coefficients": "ev_series_coefficients",
    "evS-comp": "ev_series_comp",
    "evS-padd": "ev_series_padd",
    "evS-pmul": "ev_series_pmul",
    "evS-scale": "ev_series_scale",
    "evS-zero": "ev_series_zero",
    "each-getD": "each_get_or",
    "distinct-getD": "distinct_get_or",
}


def respelt(name):
    if name in OTHERS:
        return OTHERS[name]
    if "-" not in name.strip("-") or not name[0].isalpha():
        return name
    if name[0].isupper():
        return "".join(p[:1].upper() + p[1:] for p in name.split("-"))
    return name.replace("-", "_")


def files():
    for folder, dirs, names in os.walk("crates"):
        dirs[:] = sorted(d for d in dirs if d != "out")
        for f in sorted(names):
            if f.endswith((".antt", ".rt")):
                yield os.path.join(folder, f)


def is_made(path):
    """A file whose top names Rattle gives: goals and invariants."""
    return os.path.basename(path) in ("Answers.antt", "Invariants.antt")


def main():
    texts = {p: open(p, encoding="utf-8").read() for p in files()}
    own = {c for c in os.listdir("crates")}
    declared, foreign = set(), {}
    for p, t in texts.items():
        taken = set()
        for m in IMPORT.finditer(t):
            if m.group(1).removeprefix("Rattle.") not in own:
                taken |= {w for item in m.group(2).split(",") for w in item.split()}
        foreign[p] = taken
        if p.endswith(".antt") and not is_made(p):
            for line in t.splitlines():
                m = DECLARED.match(re.sub(r"--.*", "", line))
                if m:
                    declared |= set(m.group(1).split())
        declared |= set(OTHERS) & set(TOKEN.findall(t))
    turned = {n: respelt(n) for n in declared if respelt(n) != n}
    taken = declared | {w for words in foreign.values() for w in words}
    back = {}
    for old, new in sorted(turned.items()):
        if new in taken or new in back:
            print(f"falls together: {old} and {back.get(new, new)}")
            turned[old] = None
        back[new] = old
    if None in turned.values() and "--list" not in sys.argv:
        return 1
    if "--list" in sys.argv:
        for old, new in sorted(turned.items()):
            print(old, new)
        return 0
    for p, t in texts.items():
        skip = foreign[p]

        def turn(m, skip=skip):
            # a name of the library that is spelt alike stays, but for a field, which follows a dot
            w, at = m.group(0), m.start()
            return w if w in skip and m.string[at - 1 : at] != "." else turned.get(w, w)

        if p.endswith(".rt"):
            # in src/ only what stands in braces of a clause or in a ghost use
            new = "".join(TOKEN.sub(turn, l) if "ghost" in l or re.search(r"\b(requires|ensures)\b", l) else l for l in t.splitlines(keepends=True))
        else:
            new = TOKEN.sub(turn, t)
        if new != t:
            open(p, "w", encoding="utf-8").write(new)
    print(f"respelt: {len(turned)} names")
    return 0


sys.exit(main())
