#!/usr/bin/env python3
"""page.py [--check TRACE]: writes docs/WORKED-RUN.md and docs/worked-run.svg.

With --check: runs the program TRACE on the worked run, holds every line, the store and the record after each step to the page's own
account, and fails if the pages in docs/ are not what this script writes.
"""
import os, subprocess, sys, tempfile

HERE = os.path.dirname(os.path.abspath(__file__))
TOP = os.path.dirname(os.path.dirname(HERE))
sys.path.insert(0, HERE)
from steps import ENTRY, L, STEPS, Model, digest, segments  # noqa: E402

HEAD = """# The worked run, by hand

For two people with a pencil. Eight requests; each with the tests in document 01's order and why each says yes (refused) or no, the words
that change, the record, and the line that the run program prints. L is 128. Segments: 100 (1, 1, 63), mode 5, gate 16; 200 (33, 33, 33), mode 5.
One of you reads, the other ticks. A word that is stored with the value it had is shown too: it is one of the stores.

This page is written by `tests/worked/page.py`; the test command checks it against the program's own output, store and record included.

![The two stacks after step 4](worked-run.svg)
"""


def grouped(rows):
    """The stores as lines; runs of words with the same rule and values that are zero before and after are one line."""
    out, i = [], 0
    while i < len(rows):
        stack, at, old, new, rule = rows[i]
        j = i
        while old == new == 0 and j + 1 < len(rows) and rows[j + 1][0] == stack and rows[j + 1][1] == at + j - i + 1 \
                and rows[j + 1][2] == rows[j + 1][3] == 0 and rows[j + 1][4] == rule:
            j += 1
        place = str(at) if j == i else "%d-%d" % (at, at + j - i)
        out.append("| %d | %s | %d | %d | %s |" % (stack, place, old, new, rule))
        i = j + 1
    return out


def fields_line(model):
    f = model.fields
    made = ", ".join(str(k) for k in sorted(f["made"])) or "none"
    return "ring %d, open %d, stacks made: %s, serial %d" % (f["ring"], f["open"], made, f["serial"])


def page():
    model, out = Model(), [HEAD]
    for n, step in enumerate(STEPS, 1):
        before = fields_line(model)
        rows = model.apply(step)
        out += ["## %d. %s" % (n, step["title"]), "", "Request: %s." % step["asks"], "", "Tests: %s" % step["tests"], ""]
        if step.get("clear"):
            out += ["First the whole store becomes zero.", ""]
        if rows:
            out += ["| stack | word | old | new | rule |", "|---|---|---|---|---|"] + grouped(rows) + [""]
        else:
            out += ["No word changes.", ""]
        out += ["Record before: %s." % before, "", "Record after: %s." % fields_line(model), ""]
        if any(step.get("entry", [])):
            out += ["The entry: " + ", ".join("%s %d" % p for p in zip(ENTRY, step["entry"])) + ".", ""]
        elif "entry" in step:
            out += ["The entry is struck and zeroed.", ""]
        out += ["Line: `%s`" % step["line"], ""]
    return "\n".join(out)


def picture():
    """Both stacks after the call, as two columns of the words that are not plain zero."""
    model = Model()
    for step in STEPS[:4]:
        model.apply(step)
    names = {0: "last-used frame", 2: "invocation", 3: "level", 4: "serial"}
    marks = {33: {8: "frame at 8", 26: "next empty frame", 28: "return place", 100: "argument list"},
             1: {8: "empty frame", 26: "next empty frame", 40: "new frame", 56: "last frame", 58: "next empty frame", 60: "return place",
                 68: "frame in the calling ring", 72: "argument list, count 0"}}
    out = ['<svg xmlns="http://www.w3.org/2000/svg" width="800" height="410" font-family="monospace" font-size="12">',
           '<rect width="800" height="410" fill="white"/>']
    at_y = {}
    for column, stack in enumerate((33, 1)):
        x = 70 + 370 * column
        out.append('<text x="%d" y="28" font-size="15">stack %d (segment %d)</text>' % (x, stack, stack))
        shown = sorted({at for at in range(L) if model.store[stack * L + at]} | set(marks[stack]) | {0, 1, 2, 3, 4})
        y = 50
        for at in shown:
            at_y[stack, at] = y
            label = marks[stack].get(at) or names.get(at, "")
            out.append('<rect x="%d" y="%d" width="150" height="18" fill="none" stroke="black"/>' % (x, y - 13))
            out.append('<text x="%d" y="%d">%3d</text><text x="%d" y="%d">%d</text>' % (x + 6, y, at, x + 60, y, model.store[stack * L + at]))
            if label:
                out.append('<text x="%d" y="%d" font-size="11">%s</text>' % (x + 158, y, label))
            y += 20
    # the pointers that lead to a frame shown here: (stack, word, how far left the line runs) to (stack, word)
    for (stack, word, left), aim in (((33, 0, 20), (33, 8)), ((1, 0, 20), (1, 8)), ((1, 56, 34), (1, 8)), ((1, 68, 48), (33, 8))):
        x, y, to = 70 + 370 * (stack == 1), at_y[stack, word] - 4, at_y[aim] + (-4 if aim[0] == stack else 4)
        end = x if aim[0] == stack else 70 + 150
        out.append('<polyline points="%d,%d %d,%d %d,%d %d,%d" fill="none" stroke="#555"/>' % (x, y, x - left, y, x - left, to, end, to))
        tip = -6 if aim[0] == stack else 6
        out.append('<polygon points="%d,%d %d,%d %d,%d" fill="#555"/>' % (end, to, end + tip, to - 4, end + tip, to + 4))
    out.append("</svg>")
    return "\n".join(out) + "\n"


def check(trace):
    lines = []
    model = Model()
    for step in STEPS:
        model.apply(step)
        lines.append("%s %d %d 0" % (step["line"], digest(model.store), digest(model.numbers())))
    with tempfile.TemporaryDirectory() as folder:
        with open(os.path.join(folder, "segments"), "wb") as f:
            f.write(segments())
        given = b"".join(step["request"] for step in STEPS)
        done = subprocess.run([os.path.abspath(trace)], cwd=folder, input=given, capture_output=True)
    if done.stdout.decode().splitlines() != lines:
        sys.exit("worked run: the program printed\n%s\nand the page's account gives\n%s" % (done.stdout.decode(), "\n".join(lines)))
    for name, text in (("WORKED-RUN.md", page()), ("worked-run.svg", picture())):
        with open(os.path.join(TOP, "docs", name), encoding="utf-8") as f:
            if f.read() != text:
                sys.exit("docs/%s is not what tests/worked/page.py writes" % name)
    print("worked run: 8 steps, store and record as the page says")


if len(sys.argv) == 3 and sys.argv[1] == "--check":
    check(sys.argv[2])
else:
    for name, text in (("WORKED-RUN.md", page()), ("worked-run.svg", picture())):
        with open(os.path.join(TOP, "docs", name), "w", encoding="utf-8") as f:
            f.write(text)
