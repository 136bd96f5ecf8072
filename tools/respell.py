#!/usr/bin/env python3
"""Spells the repository's own definitions, lemmas and fields as today's Rattle does: words in snake case, facts and types in camel case.

    tools/respell.py [--check]

Run once at the top, after the kit's port.py. A dash stays where it joins two words that are definitions, as in length-puts. Names of
functions, strings, inputs and outputs stay. With --check it prints the table and the names that would fall together, and writes nothing."""
import glob
import re
import sys

WORD = r"[^\s(){}.;,@\"«»`|]+"
NAMED = re.compile(rf"^ *(?:abbrev |unfoldable |pub |data |record )*({WORD}) : ", re.M)
HEAD = re.compile(rf"^ *(?:pub )?(?:abbrev )?(?:data|record) ({WORD})", re.M)
# words of the library that a dash joins to one of ours
LIBRARY = {"append", "get", "length", "map", "take", "zero"}


def texts():
    """every file whose names follow: definitions, proofs, clauses, edits, pages"""
    kinds = ["crates/*/specs/**/*.antt", "crates/*/proofs/**/*.antt", "crates/*/src/**/*.rt", "crates/*/must-fail/*.edit", "docs/*.md", "README.md"]
    return sorted({f for k in kinds for f in glob.glob(k, recursive=True)})


def snake(part):
    return re.sub(r"(?<=[a-z0-9])([A-Z])", lambda m: "_" + m.group(1).lower(), part)


def spelled(name, words):
    if name[0].isupper():
        return "".join(p[0].upper() + p[1:] for p in name.split("-"))
    parts = [snake(p) for p in name.split("-")]
    joins = len(parts) == 2 and all(p in words for p in parts)
    return ("-" if joins else "_").join(parts)


def table():
    names, words = set(), set(LIBRARY)
    for f in glob.glob("crates/*/specs/**/*.antt", recursive=True) + glob.glob("crates/*/proofs/*.antt"):
        text = open(f, encoding="utf-8").read()
        found = set(NAMED.findall(text)) | set(HEAD.findall(text))
        names |= found
        if "/specs/" in f:
            words |= {snake(n) for n in found if "-" not in n}
    odd = {n for n in names if re.search(r"-|[a-z0-9][A-Z]", n) and not (n[0].isupper() and "-" not in n)}
    rows = {n: spelled(n, words) for n in odd}
    # the proof of a function f is f_spec
    for f in glob.glob("crates/*/proofs/*/Proof.antt"):
        for n in re.findall(rf"^pub ({WORD}-spec) :", open(f, encoding="utf-8").read(), re.M):
            rows[n] = n.replace("-", "_")
    # two lemmas that would have their definition's name
    rows |= {n: rows[n] + "_lem" for n in ("gate-hit", "with-made")}
    return {a: b for a, b in rows.items() if a != b}


def clashes(rows):
    """new spellings that stand already in a file of definitions or proofs"""
    old = {}
    for f in texts():
        if f.endswith(".antt"):
            for w in set(re.findall(WORD, open(f, encoding="utf-8").read())):
                old.setdefault(w, set()).add(f)
    twice = [n for n in rows.values() if list(rows.values()).count(n) > 1]
    return sorted(f"{a} -> {b}: {sorted(old[b])[:4]}" for a, b in rows.items() if b in old) + sorted(set(twice))


def main():
    rows = table()
    if "--check" in sys.argv:
        print("\n".join(f"{a} {b}" for a, b in sorted(rows.items())))
        print("\n".join(clashes(rows)))
        return
    turn = re.compile(rf"(?<![^\s(){{}}.;,@\"«»`|\[\]]){'(' + '|'.join(sorted(map(re.escape, rows), key=len, reverse=True)) + ')'}(?![^\s(){{}}.;,@\"«»`|\[\]])")
    for f in texts():
        text = open(f, encoding="utf-8").read()
        new = turn.sub(lambda m: rows[m.group(1)], text)
        if new != text:
            open(f, "w", encoding="utf-8").write(new)


main()
