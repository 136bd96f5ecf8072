#!/usr/bin/env python3
"""length.py PRODUCT_TRACE REFERENCE_TRACE: adds to measured.json how an accepted call and its return grow with L.

The run program's L is 128, so the trace programs are counted (docs/TRACE.md). They digest the whole store after each record; what a record
of kind 6, which sets one word, costs is taken off each request, so that the digest, the reading and the line are off too."""
import json, os, sys

HERE = os.path.dirname(os.path.abspath(__file__))
sys.path.insert(0, HERE)
import inputs  # noqa: E402
from measure import each  # noqa: E402

FEW, MANY = 4, 24


def main():
    programs = [os.path.abspath(p) for p in sys.argv[1:3]]
    rows = []
    for length in (128, 512, 1024):
        head = inputs.request(4, 0, 0, 64 * length) + inputs.prepare(33, 0, 1)
        unit = inputs.call(33) + inputs.back(33)
        plain = inputs.request(6, 0, 0, 0, 0)
        costs = [each(p, 2, head + unit * FEW, head + unit * MANY, MANY - FEW) - 2 * each(p, 2, head + plain * FEW, head + plain * MANY, MANY - FEW) for p in programs]
        rows.append(("inward, 0 arguments, 2 records, depth 1, L = %d" % length, *costs))
    path = os.path.join(HERE, "measured.json")
    with open(path, encoding="utf-8") as f:
        found = json.load(f)
    found["length"] = rows
    with open(path, "w", encoding="utf-8") as f:
        json.dump(found, f, indent=1)
    for name, mine, other in rows:
        print("%-56s %8.0f %8.0f" % (name, mine, other))


main()
