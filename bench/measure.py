#!/usr/bin/env python3
"""measure.py PRODUCT_RUN REFERENCE_RUN [OUT.json]: instructions of an accepted call and its return, product and reference on the same input.

Both are run programs (document 01, "The run program"). An input of n pairs and one of more pairs are counted by valgrind's callgrind; the
difference, divided by the pairs between them, is what a pair costs, reading its two records and printing its two lines included. Beside
it the cost of a write and of a start, the growth with file size and depth, and wall time of one long run of each program side by side.
"""
import json, os, re, subprocess, sys, tempfile, time

sys.path.insert(0, os.path.dirname(os.path.abspath(__file__)))
import inputs  # noqa: E402

FEW, MANY = 50, 250


def instructions(program, size, given):
    with tempfile.TemporaryDirectory() as folder:
        with open(os.path.join(folder, "segments"), "wb") as f:
            f.write(inputs.file(size))
        done = subprocess.run(["valgrind", "--tool=callgrind", "--callgrind-out-file=/dev/null", program], cwd=folder, input=given, capture_output=True)
        if any(line.split()[1] != b"0" for line in done.stdout.splitlines()):
            sys.exit("a request of the measurement was refused")
        return int(re.search(rb"Collected : (\d+)", done.stderr).group(1))


def each(program, size, few, many, between):
    return (instructions(program, size, many) - instructions(program, size, few)) / between


def pair(program, size, ring, count, depth):
    return each(program, size, inputs.pairs(ring, count, depth, FEW), inputs.pairs(ring, count, depth, MANY), MANY - FEW)


def wall(program, size, given):
    with tempfile.TemporaryDirectory() as folder:
        with open(os.path.join(folder, "segments"), "wb") as f:
            f.write(inputs.file(size))
        began = time.perf_counter()
        subprocess.run([program], cwd=folder, input=given, stdout=subprocess.DEVNULL, check=True)
        return time.perf_counter() - began


def rows(product, reference):
    for size in (2, 192):
        for ring, way in ((33, "inward"), (1, "outward")):
            for count in (0, 4):
                for depth in (1, 31):
                    yield ("%s, %d arguments, %d records, depth %d" % (way, count, size, depth),
                           pair(product, size, ring, count, depth), pair(reference, size, ring, count, depth))


def others(product, reference):
    start = inputs.request(0, 33, 0)
    word = inputs.write(33, 28, 200)
    for name, head, unit in (("a write", start, word), ("a start", start, start)):
        costs = [each(p, 2, head + unit * FEW, head + unit * MANY, MANY - FEW) for p in (product, reference)]
        yield (name, *costs)


def growth(product, reference):
    for size in (2, 48, 96, 144, 192):
        yield ("inward, 0 arguments, %d records, depth 1" % size, pair(product, size, 33, 0, 1), pair(reference, size, 33, 0, 1))
    for depth in (1, 11, 21, 31):
        yield ("inward, 0 arguments, 2 records, depth %d" % depth, pair(product, 2, 33, 0, depth), pair(reference, 2, 33, 0, depth))


def main():
    product, reference = (os.path.abspath(p) for p in sys.argv[1:3])
    found = {"pairs": list(rows(product, reference)), "others": list(others(product, reference)), "growth": list(growth(product, reference)), "wall": []}
    for size in (2, 192):
        given = inputs.pairs(33, 0, 1, 100000)
        times = [min(wall(p, size, given) for _ in range(3)) for p in (product, reference)]
        found["wall"].append(("200,000 crossings, %d records" % size, *times))
    for name, mine, other in found["pairs"] + found["others"] + found["growth"]:
        print("%-52s %9.0f %9.0f %6.2f" % (name, mine, other, mine / other))
    for name, mine, other in found["wall"]:
        print("%-52s %8.3fs %8.3fs %6.2f" % (name, mine, other, mine / other))
    if len(sys.argv) > 3:
        with open(sys.argv[3], "w", encoding="utf-8") as f:
            json.dump(found, f, indent=1)


if __name__ == "__main__":
    main()
