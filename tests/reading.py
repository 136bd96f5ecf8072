#!/usr/bin/env python3
"""docs/READING.md: every sentence of document 01 from "Memory" to "Marked bracket cases", and the demands, has something beside it.

An item is `n. "first words": ..`. A name in backquotes with a `/` is a file; a name after it is defined in that file, and `A.b` is
the field or case b of A there; `decision n` is a row of docs/DECISIONS.md. Any fault is printed, and the exit is then 1.
"""
import os, re, sys

# the sections in their order, and how many sentences each has
SENTENCES = {
    "Memory": 10,
    "Process record": 9,
    "Segment file": 3,
    "Brackets (003)": 2,
    "Call": 17,
    "Return": 5,
    "Start, write, look": 4,
    "Numbers given back": 25,
    "The run program": 9,
    "Marked bracket cases": 8,
    "The three demands": 8,
}
WORDS = 10  # of a sentence, at most

wrong = []
files, names, decisions = set(), set(), set()


def text(path):
    return open(path, encoding="utf-8").read()


def head(path, name):
    """the line that defines a name in a file"""
    n = re.escape(name) + r"(?![\w'-])"
    form = {
        ".antt": r"^ *(?:(?:abbrev|unfoldable|pub) )*(?:%s :|(?:record|data) %s).*$" % (n, n),
        ".rt": r"^ *(?:pub )?(?:fn|struct|enum|const) %s.*$" % n,
        ".py": r"^def %s.*$" % n,
    }.get(os.path.splitext(path)[1], r"(?!)")
    return re.search(form, text(path), re.M)


def defined(path, name):
    owner, _, part = name.partition(".")
    m = head(path, owner)
    if not m or not part:
        return bool(m)
    depth = len(m.group()) - len(m.group().lstrip())
    for line in text(path)[m.end() + 1:].split("\n"):
        if line.strip() and len(line) - len(line.lstrip()) <= depth:
            return False
        if re.match(r" *(?:pub )?%s ?:" % re.escape(part), line):
            return True
    return False


def faults(body):
    """what is wrong with what stands beside a sentence"""
    groups = []
    for token in re.findall(r"`([^`]+)`", body):
        if "/" in token:
            groups.append((token, []))
        elif groups:
            groups[-1][1].append(token)
        else:
            yield "%s stands before any file" % token
    for path, inside in groups:
        if not os.path.isfile(path):
            yield "there is no file %s" % path
        else:
            files.add(path)
            names.update((path, name) for name in inside)
            yield from ("%s is not defined in %s" % (name, path) for name in inside if not defined(path, name))
            if not inside and path.endswith((".antt", ".rt")):
                yield "%s with no name in it" % path
    numbers = re.findall(r"[Dd]ecision (\d+)", body)
    decisions.update(numbers)
    for n in numbers:
        if not re.search(r"^\| %s \|" % n, text("docs/DECISIONS.md"), re.M):
            yield "there is no decision %s" % n
    if not groups and not numbers or "NOTHING" in body:
        yield "nothing stands beside it"


parts = re.split(r"^## (.+)\n", text("docs/READING.md"), flags=re.M)
titles, total = parts[1::2], 0
if titles != list(SENTENCES):
    wrong.append("the sections are not those of the table: " + "; ".join(titles))
for title, body in zip(titles, parts[2::2]):
    items = re.findall(r"^(\d+)\. (.*(?:\n +\S.*)*)", body, re.M)
    total += len(items)
    if [int(n) for n, _ in items] != list(range(1, SENTENCES.get(title, 0) + 1)):
        wrong.append("%s: items %s, not 1 to %d" % (title, " ".join(n for n, _ in items), SENTENCES.get(title, 0)))
    for n, item in items:
        first = re.match(r'"([^"]+)": ', item)
        if not first or len(first.group(1).split()) > WORDS:
            wrong.append("%s %s: it does not begin with at most %d words in quotes" % (title, n, WORDS))
        wrong += ["%s %s: %s" % (title, n, fault) for fault in faults(item[first.end():] if first else item)]
for line in wrong:
    print("reading: " + line, file=sys.stderr)
print("reading: %d sentences in %d sections, %d names in %d files, %d decisions, %d faults" % (
    total, len(titles), len(names), len(files), len(decisions), len(wrong)))
sys.exit(1 if wrong else 0)
