#!/usr/bin/env python3
"""figures.py: for each crate its functions, lines of code, definitions and proofs, and its edits that must fail. docs/FIGURES.md holds
what it printed when it was last measured."""
import glob, os, re

TOP = os.path.dirname(os.path.dirname(os.path.abspath(__file__)))


def lines(pattern):
    """Lines that are neither empty nor comment alone."""
    count = 0
    for path in glob.glob(os.path.join(TOP, pattern), recursive=True):
        for line in open(path, encoding="utf-8"):
            text = line.strip()
            count += bool(text) and not text.startswith(("//", "--"))
    return count


def functions(crate):
    text = "".join(open(p, encoding="utf-8").read() for p in glob.glob(os.path.join(TOP, "crates", crate, "src", "**", "*.rt"), recursive=True))
    every = re.findall(r"^ *(pub )?(?:extern \"C\" )?fn \w+", text, re.M)
    return len(every), sum(1 for e in every if e)


def main():
    crates = [l.split(":")[0] for l in open(os.path.join(TOP, "crates.txt"), encoding="utf-8") if ":" in l and not l.startswith("#")]
    print("| crate | functions | public | code | definitions | proofs | edits that must fail |")
    print("|---|---|---|---|---|---|---|")
    sums = [0] * 6
    for c in crates:
        every, public = functions(c)
        row = [every, public, lines("crates/%s/src/**/*.rt" % c), lines("crates/%s/specs/**/*.antt" % c), lines("crates/%s/proofs/**/*.antt" % c),
               len(glob.glob(os.path.join(TOP, "crates", c, "must-fail", "*.edit")))]
        sums = [a + b for a, b in zip(sums, row)]
        print("| `%s` | %s |" % (c, " | ".join(str(x) for x in row)))
    print("| all | %s |" % " | ".join(str(x) for x in sums))


main()
