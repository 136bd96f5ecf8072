#!/usr/bin/env python3
"""Every public function has a contract that determines it, and docs/CONTRACTS.md has a row for each.

A contract determines a function when it is an equation of the result (where there is one) and an equation of the store at
exit for each `&mut` parameter; rules/proofs/Unique.antt then says that only one answer meets it. Exceptions, and a `requires`
on a public function, stand in docs/CONTRACTS.md under "Exceptions"; one that is not there is an error, and so is one too many.

A method is named by its type, `words::Stack::load`. A method that a trait asks for is not `pub` and has no row; each conversion
(`From`, `TryFrom`) has one of its own, and its ghost member has to equate what it gives.
"""
import glob, re, sys

HEAD = re.compile(r"^( *)pub (?:extern \"C\" )?fn (\w+)(?:<[^>]*>)?\(", re.M)
PUBLIC = re.compile(r"^ *pub (?:[\w\"]+ )*fn ", re.M)
IMPL = re.compile(r"^impl(?:<[^>\n]*>)? ([^\n]+) \{\n(.*?)^\}", re.M | re.S)
CONVERSION = re.compile(r"(?:\w+::)*((?:Try)?From<.+> for .+)$")
GIVES = re.compile(r"^    ghost (?:try_)?from_gives = \{ λ (\w+) (\w+)\. \2 ≡ [^}]+ \};$", re.M)


def heads(text):
    """name, text from `pub fn` up to the body's brace at a line's start"""
    types = [(m.start(), m.end(), re.match(r"(?:\w+::)*(\w+)(?:<[^>]*>)?$", m.group(1))) for m in IMPL.finditer(text)]
    for m in HEAD.finditer(text):
        end = text.find("\n{", m.start())
        indented = text.find("\n    {", m.start())
        if indented != -1 and (end == -1 or indented < end):
            end = indented
        one_line = re.compile(r"\) (?:-> [^{\n]+ )?\{$", re.M).search(text, m.start())
        if one_line and one_line.end() < end:
            end = one_line.end()
        owner = ""
        if m.group(1):
            inside = [t for start, stop, t in types if start < m.start() < stop]
            owner = inside[0].group(1) + "::" if inside and inside[0] else "?::"
        yield owner + m.group(2), text[m.start():end]


def missing(head):
    """what the contract of a function leaves open"""
    signature = head.split("ensures")[0].split("requires")[0]
    open_ = []
    if "->" in signature and not re.search(r"ensures (?:\w+ )?\{ result ≡ ", head):
        open_.append("result")
    changed = re.findall(r"(\w+): &(?:'\w+ )?mut ", signature)
    if re.search(r"&(?:'\w+ )?mut self\b", signature):
        changed.append("self")
    for name in changed:
        if not re.search(r"\{ %s\.new ≡ " % name, head):
            open_.append(name)
    if "requires" in head:
        open_.append("requires")
    return open_


def conversions(text):
    """each conversion of a file, and whether its ghost member is an equation of what it gives"""
    for m in IMPL.finditer(text):
        name = CONVERSION.match(m.group(1))
        if name:
            yield name.group(1), bool(GIVES.search(m.group(2)))


def main():
    page = open("docs/CONTRACTS.md", encoding="utf-8").read()
    table, _, rest = page.partition("## Exceptions")
    row = re.compile(r"^\| `(\w+)::((?:\w+::)?\w+)` \|", re.M)
    rows, excused = row.findall(table), row.findall(rest)
    told = re.findall(r"^\| `(\w+)`: `([^`]+)` \|", table, re.M)
    wrong, found, given = [], [], []
    for path in sorted(glob.glob("crates/*/src/**/*.rt", recursive=True)):
        crate = path.split("/")[1]
        text = open(path, encoding="utf-8").read()
        functions = list(heads(text))
        if len(functions) != len(PUBLIC.findall(text)):
            wrong.append("%s: the head of a public function is not read" % path)
        for name, head in functions:
            found.append((crate, name))
            left = missing(head)
            if left and (crate, name) not in excused:
                wrong.append("%s: %s leaves open: %s" % (path, name, ", ".join(left)))
            if not left and (crate, name) in excused:
                wrong.append("%s: %s is no exception any more" % (path, name))
        for name, equation in conversions(text):
            given.append((crate, name))
            if not equation:
                wrong.append("%s: %s has no equation of what it gives" % (path, name))
    wrong += ["docs/CONTRACTS.md has no row for %s::%s" % f for f in found if f not in rows]
    wrong += ["docs/CONTRACTS.md has a row for %s::%s, which is not there" % r for r in rows + excused if r not in found]
    wrong += ["docs/CONTRACTS.md has no row for %s: %s" % f for f in given if f not in told]
    wrong += ["docs/CONTRACTS.md has a row for %s: %s, which is not there" % r for r in told if r not in given]
    for names in (rows, excused, told, found, given):
        wrong += ["%s::%s stands twice" % n for n in sorted(set(names)) if names.count(n) > 1]
    for line in wrong:
        print("contracts: " + line, file=sys.stderr)
    print("contracts: %d public functions, %d exceptions, %d conversions" % (len(found), len(excused), len(given)))
    return 1 if wrong else 0


sys.exit(main())
