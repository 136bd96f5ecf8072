#!/usr/bin/env python3
"""page.py [--check]: writes docs/PERFORMANCE.md's tables (between its marks) and docs/performance.svg from bench/measured.json, which
measure.py made; with --check it fails where they are not what it writes."""
import json, os, re, sys

HERE = os.path.dirname(os.path.abspath(__file__))
DOCS = os.path.join(os.path.dirname(HERE), "docs")
MARKS = ("<!-- measured -->", "<!-- end -->")


def tables(found):
    out = ["| accepted call and its return | product | reference | ratio |", "|---|---|---|---|"]
    out += ["| %s | %d | %d | %.2f |" % (n, a, b, a / b) for n, a, b in found["pairs"]]
    out += ["", "| one request | product | reference | ratio |", "|---|---|---|---|"]
    out += ["| %s | %d | %d | %.2f |" % (n, a, b, a / b) for n, a, b in found["others"]]
    out += ["", "| growth | product | reference | ratio |", "|---|---|---|---|"]
    out += ["| %s | %d | %d | %.2f |" % (n, a, b, a / b) for n, a, b in found["growth"]]
    out += ["", "| growth with L (`bench/length.py`: the crossing alone, without reading, line and digest) | product | reference | ratio |", "|---|---|---|---|"]
    out += ["| %s | %d | %d | %.2f |" % (n, a, b, a / b) for n, a, b in found["length"]]
    out += ["", "| wall time, side by side | product | reference | ratio |", "|---|---|---|---|"]
    out += ["| %s | %.3f s | %.3f s | %.2f |" % (n, a, b, a / b) for n, a, b in found["wall"]]
    return "\n".join(out)


def picture(found):
    rows = found["pairs"]
    most = max(max(a, b) for _, a, b in rows)
    out = ['<svg xmlns="http://www.w3.org/2000/svg" width="860" height="%d" font-family="sans-serif" font-size="12">' % (60 + 34 * len(rows)),
           '<rect width="860" height="%d" fill="white"/>' % (60 + 34 * len(rows)),
           '<text x="20" y="24" font-size="15">Instructions of an accepted call and its return: product (dark), reference (light)</text>']
    for i, (name, a, b) in enumerate(rows):
        y = 44 + 34 * i
        out.append('<text x="20" y="%d">%s</text>' % (y + 14, name))
        for k, (value, colour) in enumerate(((a, "#334"), (b, "#aab"))):
            out.append('<rect x="330" y="%d" width="%.1f" height="11" fill="%s"/>' % (y + 13 * k, 420 * value / most, colour))
            out.append('<text x="%.1f" y="%d" font-size="10">%d</text>' % (336 + 420 * value / most, y + 9 + 13 * k, value))
    return "\n".join(out + ["</svg>"]) + "\n"


def main():
    with open(os.path.join(HERE, "measured.json"), encoding="utf-8") as f:
        found = json.load(f)
    with open(os.path.join(DOCS, "PERFORMANCE.md"), encoding="utf-8") as f:
        page = f.read()
    head, rest = page.split(MARKS[0])
    wanted = head + MARKS[0] + "\n" + tables(found) + "\n" + MARKS[1] + rest.split(MARKS[1])[1]
    for name, text in (("PERFORMANCE.md", wanted), ("performance.svg", picture(found))):
        path = os.path.join(DOCS, name)
        if sys.argv[1:] == ["--check"]:
            if not os.path.exists(path) or open(path, encoding="utf-8").read() != text:
                sys.exit("docs/%s is not what bench/page.py writes" % name)
        else:
            with open(path, "w", encoding="utf-8") as f:
                f.write(text)


main()
